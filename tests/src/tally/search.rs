//! Counts of what searches for a rate came to: their tries, how they ended, and what they were
//! refused for.

use super::Tally;
use crate::calls::WordCalls;
use crate::model::rules::flows;
use crate::model::search::{place, OUT_WORDS};
use crate::model::{Input, Quick, Record, Rules};
use crate::random::search::SearchCase;

/// The search's name in counts of its answers.
pub const SEARCH: &str = "search";

/// The same by the kinds of corridor, demands and record, in the order of other names by kind.
pub const SEARCHES_BY_KIND: [&str; 6] = [
    "search kind 1",
    "search kind 10",
    "search kind 2",
    "search kind 5",
    "search kind 3",
    "search kind 7",
];

/// What the search can answer, as the checker does.
pub const SEARCH_ANSWERS: [u32; 13] = [0, 1, 2, 3, 4, 5, 7, 8, 9, 10, 11, 12, 13];

/// Searches by whether they found a rate, counted by their number of tries.
pub const TRIES: [&str; 2] = ["tries that found a rate", "tries that found none"];

/// How searches end: by the place of the node; on a ramp, with a rate below C, which as the one left
/// is tried for the second time, or with C, which is tried once; and without a rate where C has
/// neither fault, though it gives other flows, or where every rate has one.
pub const ENDINGS: [&str; 9] = [
    "rate found at node 0",
    "rate found at an inner node",
    "none found at an inner node",
    "rate found at node N",
    "none found at node N",
    "rate found below C",
    "C found as the rate",
    "none found without a fault at C",
    "none found for a fault at each rate",
];

/// What refusal 1 is due for where the lists have right lengths and all else of the call is good;
/// counted by what the checker says of the lists.
pub const BAD_CALLS: [&str; 3] = ["step not below K", "node above N", "out not of three words"];

/// What it is due for where step, node and out are good as far as they can be judged.
pub const BAD_LISTS: [&str; 2] =
    ["bad N, K or length of corridor or demands", "record of a wrong length"];

impl Tally {
    /// Counts the answer of a search, what it came to, and what was bad of its call.
    pub fn search(&mut self, case: &SearchCase, answer: u32, out: &[u32]) {
        self.answer(SEARCH, answer);
        self.answer_for_kinds(case.lists.kinds, |kind| SEARCHES_BY_KIND[kind], answer);
        match answer {
            0 => self.search_end(case, out),
            1 => self.bad_call(case),
            _ => {}
        }
    }

    fn search_end(&mut self, case: &SearchCase, out: &[u32]) {
        let [corridor, demands, record] = case.lists.proposal();
        let input = Input::new(corridor, demands).expect("accepted");
        let record = Record::new(input.size, record).expect("accepted");
        let (k, i) = place(input.size, case.place.0, case.place.1).expect("accepted");
        let (at, flow, ramp_flow) = Quick::wanted(&input, &record, k, i);
        let most = flows::<Quick>(&at, at.ramp_capacity, at.full_speed);
        let fault = !Quick::keeps_up_to(most, (flow, ramp_flow));
        let rate = (out[1] == 1).then_some(u64::from(out[2]));
        self.add(TRIES[usize::from(rate.is_none())], out[0], 1);
        self.add_seen(ENDINGS, [ending(&input, i, at.ramp_capacity, rate, fault)]);
    }

    fn bad_call(&mut self, case: &SearchCase) {
        let [corridor, demands, record] = case.lists.proposal();
        let (step, node) = case.place;
        let bad_out = case.lent_out != OUT_WORDS;
        let Ok(Input { size, .. }) = Input::new(corridor, demands) else {
            return self.add(BAD_LISTS[0], 0, (!bad_out).into());
        };
        let bad = [step as usize >= size.steps, node as usize > size.links, bad_out];
        let causes = BAD_CALLS.into_iter().zip(bad).filter(|(_, bad)| *bad);
        let causes: Vec<&str> = causes.map(|(name, _)| name).collect();
        match (&causes[..], Quick.check(corridor, demands, record)) {
            ([], _) => self.add(BAD_LISTS[1], 0, 1),
            ([cause], checked) => self.answer(cause, checked),
            _ => {}
        }
    }

    /// Stops the test unless each number of tries that there can be found a rate that often, and
    /// found none.
    pub fn expect_all_tries(&self, at_least: u64) {
        let numbers: Vec<u32> = (1..=18).collect();
        TRIES.iter().for_each(|name| self.expect(name, &numbers, at_least));
    }

    /// The same for every answer, with lists of each kind, and for each bad call with lists of which
    /// the checker says each that it can.
    pub fn expect_all_searches(&self, at_least: u64) {
        SEARCHES_BY_KIND.iter().for_each(|name| self.expect(name, &SEARCH_ANSWERS, at_least));
        let but_one: Vec<u32> = SEARCH_ANSWERS.into_iter().filter(|&number| number != 1).collect();
        BAD_CALLS.iter().for_each(|name| self.expect(name, &but_one, at_least / 8));
        BAD_LISTS.iter().chain(&ENDINGS).for_each(|name| self.expect(name, &[0], at_least));
    }
}

/// Which of the endings a search at node i has that found a rate or none, and a fault at C or none.
fn ending(
    input: &Input,
    i: usize,
    most: u64,
    rate: Option<u64>,
    fault: bool,
) -> [bool; ENDINGS.len()] {
    let (first, last, found) = (i == 0, i == input.size.links, rate.is_some());
    [
        first && found,
        !first && !last && found,
        !first && !last && !found,
        last && found,
        last && !found,
        rate.is_some_and(|rate| rate < most),
        most > 0 && rate == Some(most),
        !found && !fault,
        !found && fault,
    ]
}
