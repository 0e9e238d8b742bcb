//! Counts of what demands of kind 5 bring about: what happens at the end of link N, and refusals
//! for what may leave it.

use super::Tally;
use crate::model::{Input, NodeStep, Quick, Record, Rules, WHOLE};

/// What can happen at the end of link N with demands of kind 5.
pub const AT_LINK_N: [&str; 4] = [
    "link N sends less than may leave it",
    "link N sends just what may leave it",
    "link N sends more than may leave it",
    "link N sends and nothing may leave it",
];

/// The settings of node N where less may leave link N than it can send.
pub const WHERE_LESS_MAY_LEAVE: [&str; 2] =
    ["full at node N where less may leave", "held at node N where less may leave"];

/// What demands of kind 5 bring about in an answer: at node N a flow above the word of its step,
/// the word itself out of range, and such a word beside other faults of the demands.
pub const DOWNSTREAM_REFUSALS: [&str; 4] = [
    "flow refused by 9 at node N",
    "word refused by 5",
    "word refused by 5 before a later Q or b",
    "Q or b refused by 5 before a word",
];

impl Tally {
    pub fn expect_downstream_refusals(&self, at_least: u64) {
        DOWNSTREAM_REFUSALS.iter().for_each(|name| self.expect(name, &[0], at_least));
    }

    /// Counts what happened at the end of link N in an accepted simulation.
    pub(super) fn at_link_n(&mut self, input: &Input, plan: &[u32], record: &Record) {
        let end = input.size.links;
        let steps = (0..input.size.steps).filter(|_| input.has_downstream());
        let seen = steps.map(|k| {
            let at = NodeStep::new::<Quick>(input, record.state(k), k, end);
            let limit = plan[input.size.plan_place(k, end) + 1];
            let (sending, word) = (Quick::sending(&at, limit.into()), at.supply);
            let stopped = sending > 0 && word == 0;
            [sending < word, sending == word, sending > word, stopped]
        });
        self.add_seen(AT_LINK_N, seen);
    }

    /// Counts the settings of node N in a plan that a converter gave for a record, where less may
    /// leave link N than it can send.
    pub(super) fn where_less_may_leave(&mut self, input: &Input, record: &Record, plan: &[u32]) {
        let end = input.size.links;
        let seen = (0..input.size.steps).map(|k| {
            let at = NodeStep::new::<Quick>(input, record.state(k), k, end);
            let less = at.supply < Quick::sending(&at, at.full_speed);
            let full = u64::from(plan[input.size.plan_place(k, end) + 1]) == at.full_speed;
            [less && full, less && !full]
        });
        self.add_seen(WHERE_LESS_MAY_LEAVE, seen);
    }

    /// Counts an answer of the checker's that only demands of kind 5 bring about.
    pub(super) fn downstream_refusals(&mut self, input: &Input, answer: u32) {
        let (k, i) = ((answer / 65_536) as usize, (answer / 256 % 256) as usize);
        match answer % 256 {
            9 => self.add(DOWNSTREAM_REFUSALS[0], 0, (i == input.size.links).into()),
            5 => self.add_seen(DOWNSTREAM_REFUSALS, [demand_refusal(input, k, i)]),
            _ => {}
        }
    }
}

/// Which of the refusals but the first a refusal by 5 at a place is.
fn demand_refusal(input: &Input, k: usize, i: usize) -> [bool; DOWNSTREAM_REFUSALS.len()] {
    let zero = (input.arrivals(k, i), input.split(k, i)) == (0, 0);
    let by_word = i == input.size.links && zero;
    let later = (k + 1..input.size.steps).any(|k| {
        let mut nodes = 0..input.size.nodes();
        nodes.any(|i| input.arrivals(k, i) > WHOLE || input.split(k, i) > WHOLE)
    });
    let some_word = (k..input.size.steps).any(|k| input.downstream(k) > WHOLE);
    [false, by_word, by_word && later, !by_word && some_word]
}
