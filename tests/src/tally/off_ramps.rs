//! Counts of what records of kind 7 bring about: the exits that a simulation lists, and refusals for
//! exits that are wrong or not zero where they are fixed.

use super::{places, Tally};
use crate::model::check::{
    check_fixed, check_steps, exit_fault, fixed_fault, next_fault, Proposal,
};
use crate::model::{Entry, Input, Quick, Record, Rules, WHOLE};

/// What can happen at an inner node in a step of a record of kind 7, where its link sends some.
pub const AT_OFF_RAMPS: [&str; 6] = [
    "an exit that is exact",
    "an exit with a rest rounded away",
    "an exit rounded down to nothing",
    "an exit that is all of f",
    "no exit where b is zero",
    "an exit that the next node's b would change",
];

/// All of the greatest flow: f × b is 2^32, one more than 32 bits hold. This takes both at their
/// greatest, so it is rarer than the others.
pub const GREATEST_EXIT: &str = "an exit of 65,536";

/// What exits bring about in an answer. By 11: wrong by one with all else right, wrong with a next
/// state that is wrong too, where there is no exit, and with a queue that is then over its limit. By
/// 8, 9 or 10: a flow that is wrong as well as its exit. By 7: an exit alone, at each place where it
/// is fixed, and before a step that is refused by itself.
pub const EXIT_REFUSALS: [&str; 10] = [
    "exit one above refused by 11 alone",
    "exit one below refused by 11 alone",
    "exit refused by 11 beside a wrong next state",
    "exit refused by 11 where b is zero",
    "exit refused by 11 before 12",
    "flow refused before its wrong exit",
    "exit of node 0 refused by 7 alone",
    "exit of node N refused by 7 alone",
    "exit of an inner node in state K refused by 7 alone",
    "exit refused by 7 before a step by itself",
];

impl Tally {
    pub fn expect_exit_refusals(&self, at_least: u64) {
        EXIT_REFUSALS.iter().for_each(|name| self.expect(name, &[0], at_least));
    }

    /// Counts what happened at the off-ramps of an accepted simulation into a record of kind 7.
    pub(super) fn at_off_ramps(&mut self, input: &Input, record: &Record) {
        let inner = places(input).filter(|&(_, i)| i > 0 && i < input.size.links);
        let listed = inner.filter_map(|(k, i)| {
            let Entry { flow, exit, .. } = record.entry(k, i);
            exit.filter(|_| flow > 0).map(|exit| (k, i, flow, exit))
        });
        let mut greatest = 0;
        let seen = listed.map(|(k, i, flow, exit)| {
            greatest += u64::from(exit == WHOLE);
            let split = input.split(k, i);
            let rest = flow * split % WHOLE > 0;
            [
                split > 0 && split < WHOLE && !rest,
                rest && exit > 0,
                rest && exit == 0,
                split == WHOLE,
                split == 0,
                i + 1 < input.size.links && Quick::exit(flow, input.split(k, i + 1)) != exit,
            ]
        });
        self.add_seen(AT_OFF_RAMPS, seen);
        self.add(GREATEST_EXIT, 0, greatest);
    }

    /// Counts an answer of the checker's that only exits bring about.
    pub(super) fn exit_refusals(&mut self, input: &Input, record: &Record, answer: u32) {
        let (k, i) = ((answer / 65_536) as usize, (answer / 256 % 256) as usize);
        match answer % 256 {
            7 => self.add_seen(EXIT_REFUSALS, [fixed_refusal(input, record, k, i)]),
            number @ 8..=11 => {
                let here = Proposal::new::<Quick>(input, record, k, i);
                self.add_seen(EXIT_REFUSALS, [step_refusal(&here, number)]);
            }
            _ => {}
        }
    }
}

/// Which of the refusals by 8 to 11 a refusal at a node and step is.
fn step_refusal(here: &Proposal, number: u32) -> [bool; EXIT_REFUSALS.len()] {
    let wrong = exit_fault(here);
    let (by_exit, next) = (wrong && number == 11, next_fault(here));
    let alone = by_exit && !next && here.next_queue <= here.queue_limit;
    let exit = here.exit.unwrap_or(0);
    [
        alone && exit == here.right_exit + 1,
        alone && exit + 1 == here.right_exit,
        by_exit && next,
        alone && here.at.split == 0,
        by_exit && !next && !alone,
        wrong && number < 11,
        false,
        false,
        false,
        false,
    ]
}

/// Which of the refusals by 7 a refusal at a state and node is, if no other word is at fault there.
fn fixed_refusal(
    input: &Input,
    record: &Record,
    k: usize,
    i: usize,
) -> [bool; EXIT_REFUSALS.len()] {
    let mut without = record.clone();
    without.entry_mut(k, i).exit = Some(0);
    let alone = !fixed_fault::<Quick>(input, &without, k, i);
    let inner = i > 0 && i < input.size.links;
    let steps_refused = check_fixed::<Quick>(input, &without).is_ok()
        && check_steps::<Quick>(input, &without).is_err();
    [
        false,
        false,
        false,
        false,
        false,
        false,
        alone && i == 0,
        alone && i == input.size.links,
        alone && inner,
        steps_refused,
    ]
}
