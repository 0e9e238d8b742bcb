//! Records: of a plan, with flows chosen freely among those allowed, and with flows that break
//! chosen rules while everything after them follows from them.

use super::Random;
use crate::model::check::flow_fault;
use crate::model::rules::flows;
use crate::model::simulate::{inflow, run};
use crate::model::{Input, NodeStep, Quick, Record, Rules};

pub fn record_of_plan(input: &Input, plan: &[u32]) -> Record {
    run::<Quick>(input, plan)
}

/// The record whose flows `choose` gives for each step and node. The exits, each next state and the
/// cost follow from them, also where they are wrong; once a state is beyond use, nothing flows.
pub fn record_of_flows(
    input: &Input,
    mut choose: impl FnMut(usize, usize, &NodeStep) -> (u64, u64),
) -> Record {
    let mut record = Record::start(input);
    let mut usable = true;
    for k in 0..input.size.steps {
        for i in (0..input.size.nodes()).filter(|_| usable) {
            let at = NodeStep::new::<Quick>(input, record.state(k), k, i);
            let (flow, ramp_flow) = choose(k, i, &at);
            let entry = record.entry_mut(k, i);
            (entry.flow, entry.ramp_flow) = (flow, ramp_flow);
            entry.exit = Some(Quick::exit(flow, at.split));
        }
        usable &= next_state(input, k, &mut record);
    }
    record.cost = Quick::cost(&record);
    record
}

/// Rule 6 in words that wrap around; whether the next state is one that rules can be used on.
fn next_state(input: &Input, k: usize, record: &mut Record) -> bool {
    let mut usable = true;
    for i in 0..input.size.nodes() {
        let now = record.entry(k, i);
        let gained = now.vehicles + inflow::<Quick>(input, k, record.state(k), i);
        let waiting = now.queue + input.arrivals(k, i);
        let next = record.entry_mut(k + 1, i);
        next.vehicles = u64::from(gained.wrapping_sub(now.flow) as u32);
        next.queue = u64::from(waiting.wrapping_sub(now.ramp_flow) as u32);
        usable &= now.flow <= gained && now.ramp_flow <= waiting;
        usable &= next.vehicles <= input.node(i).jam.into();
    }
    usable
}

/// A record that breaks no rule but, where queue limits are small, 12.
pub fn free_record(random: &mut Random, input: &Input) -> Record {
    record_of_flows(input, |_, _, at| allowed_flows(random, at))
}

/// Flows that 8, 9 and 10 permit: at full speed, at some limit, one beside such, or any.
pub fn allowed_flows(random: &mut Random, at: &NodeStep) -> (u64, u64) {
    let rate = random.within(0, at.ramp_capacity);
    let limit = match random.one_in(2) {
        true => at.full_speed,
        false => random.within(0, at.full_speed),
    };
    match random.below(3) {
        0 => flows::<Quick>(at, rate, limit),
        1 => beside(random, at, flows::<Quick>(at, rate, limit)),
        _ => any_allowed(random, at),
    }
}

/// Flows one more or one less than those given, if permitted; otherwise those given.
pub fn beside(random: &mut Random, at: &NodeStep, (flow, ramp_flow): (u64, u64)) -> (u64, u64) {
    let flow_beside = (flow + random.within(0, 2)).saturating_sub(1);
    let ramp_beside = (ramp_flow + random.within(0, 2)).saturating_sub(1);
    match first_fault(at, (flow_beside, ramp_beside)) {
        Some(_) => (flow, ramp_flow),
        None => (flow_beside, ramp_beside),
    }
}

fn any_allowed(random: &mut Random, at: &NodeStep) -> (u64, u64) {
    let most_ramp = at.queue.min(at.ramp_capacity);
    let flow = random.within(0, Quick::sending(at, at.full_speed));
    // Without a ramp the merge brings any flow down to one that there is room for.
    let (flow, _) = Quick::merge(at, flow, 0);
    let left = at.supply - Quick::through(flow, at.split);
    (flow, random.within(0, most_ramp.min(left)))
}

/// A record that breaks 8, 9 or 10 at one place, where just that can be broken, perhaps other rules
/// at other nodes of the same step, and none before. All that follows is as rule 6 says.
pub fn faulty_record(random: &mut Random, input: &Input) -> Record {
    let number = random.pick(&[8, 9, 10]);
    let from = (random.below(input.size.steps), random.below(input.size.nodes()));
    let more_faults = random.one_in(3);
    let mut faulty_step = None;
    record_of_flows(input, |k, i, at| {
        let wrong = faulty_flows(random, input, i, at, number);
        if faulty_step.is_none() && (k, i) >= from && first_fault(at, wrong) == Some(number) {
            faulty_step = Some(k);
            return wrong;
        }
        if more_faults && faulty_step == Some(k) && random.one_in(2) {
            let other = random.pick(&[8, 9, 10]);
            return faulty_flows(random, input, i, at, other);
        }
        allowed_flows(random, at)
    })
}

/// Which of refusals 8, 9 and 10 those flows meet first.
fn first_fault(at: &NodeStep, (flow, ramp_flow): (u64, u64)) -> Option<u32> {
    [8, 9, 10].into_iter().find(|&number| flow_fault::<Quick>(number, at, flow, ramp_flow))
}

/// Flows meant to break the rule of that number, by one or by much; fixed zeros stay.
fn faulty_flows(
    random: &mut Random,
    input: &Input,
    i: usize,
    at: &NodeStep,
    number: u32,
) -> (u64, u64) {
    let excess = match random.below(8) {
        0 => random.within(1, u32::MAX.into()),
        1 => u32::MAX.into(),
        _ => 1,
    };
    let (allowed, allowed_ramp) = any_allowed(random, at);
    let (some_flow, some_ramp) = random.pick(&[(0, 0), (allowed, allowed_ramp)]);
    let room = at.supply + excess;
    let (flow, ramp_flow) = match number {
        8 => (Quick::sending(at, at.full_speed) + excess, some_ramp),
        9 if i == input.size.links => (room, 0),
        9 => (allowed, room.saturating_sub(Quick::through(allowed, at.split))),
        _ => (some_flow, at.queue.min(at.ramp_capacity) + excess),
    };
    let flow = if i == 0 { 0 } else { flow };
    let ramp_flow = if i == input.size.links { 0 } else { ramp_flow };
    (flow.min(u32::MAX.into()), ramp_flow.min(u32::MAX.into()))
}
