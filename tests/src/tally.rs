//! Counts of what the random inputs brought about, so that a test can fail when a refusal, a
//! setting or a branch of the rules never occurred.

pub mod capacity_drop;
pub mod downstream;
pub mod kinds;
pub mod off_ramps;
pub mod search;

use crate::model::{Input, NodeStep, Quick, Record, Rules, WHOLE};
use capacity_drop::{drop_happenings, AT_DROPS, WHERE_DROPPED};
use downstream::{AT_LINK_N, WHERE_LESS_MAY_LEAVE};
use kinds::{CALLS_BY_KIND, KINDS_TOGETHER};
use off_ramps::{AT_OFF_RAMPS, GREATEST_EXIT};
use std::collections::BTreeMap;

/// Counts by name and, for the answers of a call, refusal number.
#[derive(Default)]
pub struct Tally {
    counts: BTreeMap<(&'static str, u32), u64>,
}

/// What can happen at a node in a step, under rules 1 to 6.
pub const HAPPENINGS: [&str; 13] = [
    "merge with room",
    "merge without room",
    "merge of nothing",
    "merge into no room at all",
    "merge without room of link and ramp",
    "sending set by capacity",
    "sending set by speed",
    "ramp offer set by queue",
    "ramp offer set by capacity",
    "ramp offer set by rate",
    "receiving set by capacity",
    "receiving set by wave",
    "queue over its limit",
];

/// The settings that a converter can give, by the place of the node.
pub const SETTINGS: [&str; 5] = [
    "full at node 0",
    "full at an inner node",
    "held at an inner node",
    "full at node N",
    "held at node N",
];

impl Tally {
    pub fn add(&mut self, name: &'static str, number: u32, times: u64) {
        *self.counts.entry((name, number)).or_default() += times;
    }

    /// Counts for each name how often it was seen.
    fn add_seen<const N: usize>(
        &mut self,
        names: [&'static str; N],
        seen: impl IntoIterator<Item = [bool; N]>,
    ) {
        let mut counts = [0; N];
        for seen in seen {
            counts.iter_mut().zip(seen).for_each(|(count, seen)| *count += u64::from(seen));
        }
        for (name, count) in names.into_iter().zip(counts) {
            self.add(name, 0, count);
        }
    }

    /// Counts the refusal number of an answer, 0 for accepted.
    pub fn answer(&mut self, call: &'static str, answer: u32) {
        self.add(call, answer % 256, 1);
    }

    pub fn count(&self, name: &'static str, number: u32) -> u64 {
        self.counts.get(&(name, number)).copied().unwrap_or(0)
    }

    /// Stops the test unless each of these occurred that often.
    pub fn expect(&self, name: &'static str, numbers: &[u32], at_least: u64) {
        for &number in numbers {
            let count = self.count(name, number);
            assert!(count >= at_least, "{name} {number}: {count} times, not {at_least}");
        }
    }

    /// The same for every answer that the four calls on words, or on nodes, can give with lists of
    /// either kind.
    pub fn expect_all_answers(&self, at_least: u64) {
        for [simulate, check, convert, normal] in CALLS_BY_KIND {
            self.expect(simulate, &[0, 1, 2, 3, 4, 5, 6], at_least);
            self.expect(check, &[0, 1, 2, 3, 4, 5, 7, 8, 9, 10, 11, 12, 13], at_least);
            self.expect(convert, &[0, 1, 2, 3, 4, 5, 7, 8, 9, 10, 11, 12, 13], at_least);
            self.expect(normal, &[0, 1, 2, 3, 4, 5, 6, 12], at_least);
        }
        KINDS_TOGETHER.iter().for_each(|name| self.expect(name, &[0], at_least));
        self.expect_downstream_refusals(at_least / 4);
        self.expect_drop_refusals(at_least / 8);
        self.expect_exit_refusals(at_least / 8);
    }

    /// The answers that even a short series of large inputs brings about, those of all calls and
    /// those with lists of either kind.
    pub fn expect_common_answers(&self, at_least: u64) {
        self.expect("simulate", &[0, 1, 6], at_least);
        self.expect("check", &[0, 1, 7, 9, 12], at_least);
        self.expect("convert", &[0, 1, 7, 9, 12], at_least);
        self.expect("normal", &[0, 1, 6, 12], at_least);
        for [simulate, on_records @ ..] in CALLS_BY_KIND {
            self.expect(simulate, &[0], at_least);
            on_records.iter().for_each(|call| self.expect(call, &[0, 12], at_least));
        }
    }

    /// The same for everything that can happen in a step and every setting; less often for what
    /// only node N and kind 5, only a drop, or only some exits bring about.
    pub fn expect_all_happenings(&self, at_least: u64) {
        for name in HAPPENINGS.into_iter().chain(SETTINGS) {
            self.expect(name, &[0], at_least);
        }
        let at_link_n = AT_LINK_N.into_iter().chain(WHERE_LESS_MAY_LEAVE);
        for name in at_link_n.chain(AT_DROPS).chain(WHERE_DROPPED).chain(AT_OFF_RAMPS) {
            self.expect(name, &[0], at_least / 5);
        }
        self.expect(GREATEST_EXIT, &[0], at_least / 250);
    }

    pub fn print(&self) {
        for ((name, number), count) in &self.counts {
            println!("{name} {number}: {count}");
        }
    }

    /// Counts what happened in an accepted simulation.
    pub fn happenings(&mut self, input: &Input, plan: &[u32], record: &Record) {
        let (mut seen, mut drops) = (vec![], vec![]);
        for (k, i) in places(input) {
            let at = NodeStep::new::<Quick>(input, record.state(k), k, i);
            let place = input.size.plan_place(k, i);
            let setting = (plan[place].into(), plan[place + 1].into());
            let over = record.entry(k + 1, i).queue > input.node(i).queue_limit.into();
            seen.push(node_happenings(input, i, &at, setting, over));
            if input.has_drop() && i > 0 {
                drops.push(drop_happenings(input, record, (k, i), &at, setting));
            }
        }
        self.add_seen(HAPPENINGS, seen);
        self.add_seen(AT_DROPS, drops);
        self.at_link_n(input, plan, record);
        self.at_off_ramps(input, record);
    }

    /// Counts the settings of a plan that a converter gave for a record: full is where the limit is
    /// V.
    pub fn settings(&mut self, input: &Input, record: &Record, plan: &[u32]) {
        let mut counts = [0; SETTINGS.len()];
        for (k, i) in places(input) {
            let full = plan[input.size.plan_place(k, i) + 1] == input.node(i).full_speed;
            let first_of_place = match i {
                0 => 0,
                _ if i == input.size.links => 3,
                _ => 1,
            };
            counts[first_of_place + usize::from(!full)] += 1;
        }
        for (name, count) in SETTINGS.into_iter().zip(counts) {
            self.add(name, 0, count);
        }
        self.where_less_may_leave(input, record, plan);
        self.where_dropped(input, record, plan);
    }
}

/// Every step and node of an input.
fn places(input: &Input) -> impl Iterator<Item = (usize, usize)> {
    let nodes = input.size.nodes();
    (0..input.size.steps).flat_map(move |k| (0..nodes).map(move |i| (k, i)))
}

/// Which of the happenings took place at a node; that the queue is then over its limit is told.
fn node_happenings(
    input: &Input,
    i: usize,
    at: &NodeStep,
    (rate, limit): (u64, u64),
    over: bool,
) -> [bool; HAPPENINGS.len()] {
    let (sending, offer) = (Quick::sending(at, limit), Quick::ramp_offer(at, rate));
    let wanted = Quick::through(sending, at.split) + offer;
    let (most, room) = (Quick::discharge(at), at.supply);
    let next_capacity = (i < input.size.links).then(|| u64::from(input.node(i + 1).capacity));
    [
        wanted <= room,
        wanted > room,
        wanted == 0,
        wanted > 0 && room == 0,
        wanted > room && sending > 0 && offer > 0 && room > 0,
        most < at.vehicles * limit / WHOLE,
        most > at.vehicles * limit / WHOLE && sending > 0,
        at.queue < at.ramp_capacity && at.queue < rate,
        at.ramp_capacity < at.queue && at.ramp_capacity <= rate,
        rate < at.queue && rate < at.ramp_capacity,
        next_capacity.is_some_and(|capacity| room == capacity),
        next_capacity.is_some_and(|capacity| room < capacity),
        over,
    ]
}
