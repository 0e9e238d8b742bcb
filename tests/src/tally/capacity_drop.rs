//! Counts of what corridors of kind 10 bring about: what happens at a drop density and above it,
//! and refusals for the two words and for what they leave a link to send.

use super::{places, Tally};
use crate::model::lists::link_fault;
use crate::model::rules::flows;
use crate::model::simulate::inflow;
use crate::model::{Input, Node, NodeStep, Quick, Record, Rules};

/// What can happen at a link of a corridor of kind 10 in a step. A drop shows where the dropped
/// capacity is below what the link would send without it.
pub const AT_DROPS: [&str; 10] = [
    "a drop would show at n one below the density",
    "a drop would show at n at the density",
    "a drop shows at n one above the density",
    "dropped to nothing",
    "dropped to a part of F",
    "dropped to F",
    "a drop lowers the flow",
    "a link above its density takes in more than it discharges",
    "dropped capacity above J",
    "drop density above F",
];

/// The settings of a node whose link sends less for a drop.
pub const WHERE_DROPPED: [&str; 2] = ["full where a drop shows", "held where a drop shows"];

/// What the two words bring about in an answer: out of range by one, on either side of the bound of
/// the other; not zero at node 0; a flow that only the drop forbids.
pub const DROP_REFUSALS: [&str; 7] = [
    "dropped capacity F + 1 within J refused by 2",
    "dropped capacity F + 1 beyond J refused by 2",
    "drop density J + 1 within F refused by 2",
    "drop density J + 1 beyond F refused by 2",
    "dropped capacity at node 0 refused by 2",
    "drop density at node 0 refused by 2",
    "flow refused by 8 for the drop alone",
];

/// The same node at the same step if its link had no drop.
fn without_drop(at: &NodeStep) -> NodeStep {
    NodeStep { dropped_capacity: at.capacity, ..*at }
}

/// Which of the happenings took place at link i in step k.
pub(super) fn drop_happenings(
    input: &Input,
    record: &Record,
    (k, i): (usize, usize),
    at: &NodeStep,
    (rate, limit): (u64, u64),
) -> [bool; AT_DROPS.len()] {
    let NodeStep { vehicles, capacity, dropped_capacity, drop_density, .. } = *at;
    let without = without_drop(at);
    let shows = dropped_capacity < Quick::sending(&without, limit);
    let dropped = vehicles > drop_density;
    let state = record.state(k);
    [
        shows && vehicles + 1 == drop_density,
        shows && vehicles == drop_density,
        shows && vehicles == drop_density + 1,
        dropped && dropped_capacity == 0,
        dropped && dropped_capacity > 0 && dropped_capacity < capacity,
        dropped && dropped_capacity == capacity,
        dropped && shows && state[i].flow < flows::<Quick>(&without, rate, limit).0,
        dropped && inflow::<Quick>(input, k, state, i) > dropped_capacity,
        dropped_capacity > input.node(i).jam.into(),
        drop_density > capacity,
    ]
}

impl Tally {
    pub fn expect_drop_refusals(&self, at_least: u64) {
        DROP_REFUSALS.iter().for_each(|name| self.expect(name, &[0], at_least));
    }

    /// Counts the settings, in a plan that a converter gave for a record, of links that send less
    /// for a drop.
    pub(super) fn where_dropped(&mut self, input: &Input, record: &Record, plan: &[u32]) {
        let links = places(input).filter(|&(_, i)| input.has_drop() && i > 0);
        let seen = links.map(|(k, i)| {
            let at = NodeStep::new::<Quick>(input, record.state(k), k, i);
            let without = Quick::sending(&without_drop(&at), at.full_speed);
            let shows = Quick::sending(&at, at.full_speed) < without;
            let full = u64::from(plan[input.size.plan_place(k, i) + 1]) == at.full_speed;
            [shows && full, shows && !full]
        });
        self.add_seen(WHERE_DROPPED, seen);
    }

    /// Counts an answer of the checker's that only corridors of kind 10 bring about.
    pub(super) fn drop_refusals(&mut self, input: &Input, record: &Record, answer: u32) {
        let (k, i) = ((answer / 65_536) as usize, (answer / 256 % 256) as usize);
        match answer % 256 {
            2 => self.add_seen(DROP_REFUSALS, [link_refusal(&input.node(i), i)]),
            8 => {
                let state = record.state(k);
                let at = NodeStep::new::<Quick>(input, state, k, i);
                let without = Quick::sending(&without_drop(&at), at.full_speed);
                self.add(DROP_REFUSALS[6], 0, (state[i].flow <= without).into());
            }
            _ => {}
        }
    }
}

/// Which of the refusals but the last a refusal by 2 at a node is, if no other word is at fault.
fn link_refusal(node: &Node, i: usize) -> [bool; DROP_REFUSALS.len()] {
    let Node { capacity, jam, dropped_capacity, drop_density, .. } = *node;
    let alone = !link_fault(node, i);
    let by_capacity = alone && drop_density <= jam && dropped_capacity == capacity + 1;
    let by_density = alone && dropped_capacity <= capacity && drop_density == jam + 1;
    [
        i > 0 && by_capacity && dropped_capacity <= jam,
        i > 0 && by_capacity && dropped_capacity > jam,
        i > 0 && by_density && drop_density <= capacity,
        i > 0 && by_density && drop_density > capacity,
        i == 0 && alone && dropped_capacity != 0 && drop_density == 0,
        i == 0 && alone && dropped_capacity == 0 && drop_density != 0,
        false,
    ]
}
