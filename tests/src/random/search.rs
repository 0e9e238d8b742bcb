//! Searches for a rate: at a step and a node within a case or beyond it, with lists that are sound or
//! damaged; and on one ramp by itself, of any length.

use super::damage::{large_case, small_case};
use super::records::beside;
use super::sound::WordCase;
use super::Random;
use crate::alone::{long_ramp, Alone};
use crate::limits::same_in_fewer_bits;
use crate::model::rules::flows;
use crate::model::search::OUT_WORDS;
use crate::model::{List, NodeStep, Quick, WHOLE};

/// What the search takes.
#[derive(Clone, Debug)]
pub struct SearchCase {
    pub lists: WordCase,
    /// The step and the node.
    pub place: (u32, u32),
    pub lent_out: usize,
}

impl SearchCase {
    /// The search at a place, with a list to fill of the right length.
    pub fn at(lists: WordCase, place: (u32, u32)) -> SearchCase {
        SearchCase { lists, place, lent_out: OUT_WORDS }
    }
}

/// A small case, sound or damaged, with a step, a node and a list to fill that are good or bad.
pub fn search_case(random: &mut Random) -> SearchCase {
    let lists = small_case(random);
    search_in(random, lists)
}

/// The same with a case up to the limits.
pub fn large_search_case(random: &mut Random) -> SearchCase {
    let lists = large_case(random);
    search_in(random, lists)
}

/// A search in a case; its step, its node and the length of its list are each bad one time in eight.
fn search_in(random: &mut Random, lists: WordCase) -> SearchCase {
    let [links, steps] = [&lists.corridor, &lists.demands].map(|list| list.first().unwrap_or(&0));
    let place = (number(random, *steps), number(random, links.saturating_add(1)));
    let lent_out = match random.one_in(8) {
        true => random.pick(&[0, 1, 2, 4, 5, 6]),
        false => OUT_WORDS,
    };
    SearchCase { lists, place, lent_out }
}

/// A step or a node of so many, mostly: otherwise the first beyond, one after it, one that is good
/// in fewer bits, the greatest of all, or anything.
fn number(random: &mut Random, count: u32) -> u32 {
    let good = random.below(count.max(1) as usize) as u32;
    match random.below(8 * 5) {
        0 => count,
        1 => count.saturating_add(random.within(1, 3) as u32),
        2 => random.pick(&same_in_fewer_bits(good)),
        3 => u32::MAX,
        4 => random.word(),
        _ => good,
    }
}

/// A search on one ramp by itself, of any capacity, often the greatest, or a power of two or beside.
pub fn ramp_case(random: &mut Random) -> SearchCase {
    let power = 1 << random.below(17);
    let beside = (power + random.within(0, 2) - 1).min(WHOLE);
    let capacities = [0, beside, beside, random.within(0, WHOLE), WHOLE];
    let capacity = random.pick(&capacities);
    ramp_case_of(random, capacity)
}

/// The same with a ramp of that capacity.
pub fn ramp_case_of(random: &mut Random, capacity: u64) -> SearchCase {
    let at = ramp(random, capacity);
    let flows = flows_to_find(random, &at);
    let record_kind = random.pick(List::Record.kinds());
    SearchCase::at(Alone::new(&at).case(record_kind, flows), (0, 1))
}

/// A node at a step with a ramp of that capacity and a queue of one at least, often near the
/// capacity. A large split lets rounding keep the rates from flows that are permitted.
pub fn ramp(random: &mut Random, capacity: u64) -> NodeStep {
    let near = (capacity + random.within(0, 2)).saturating_sub(1).max(1);
    let any = random.within(1, 2 * WHOLE);
    NodeStep {
        ramp_capacity: capacity,
        queue: random.pick(&[near, any]),
        split: random.pick(&[0, WHOLE / 5, WHOLE - 5_000, WHOLE]),
        ..long_ramp(random)
    }
}

/// Flows that 8, 9 and 10 permit: those of a rate, often among the least or the greatest, at full
/// speed or at some limit, or flows beside these.
pub fn flows_to_find(random: &mut Random, at: &NodeStep) -> (u64, u64) {
    let most = at.ramp_capacity;
    let rates = [0, most.min(1), most.saturating_sub(1), most, random.within(0, most)];
    let limits = [at.full_speed, at.full_speed, random.within(0, at.full_speed)];
    let given = flows::<Quick>(at, random.pick(&rates), random.pick(&limits));
    match random.one_in(2) {
        true => given,
        false => beside(random, at, given),
    }
}
