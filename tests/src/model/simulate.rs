//! The simulator: refusals 1 to 6, then the six rules of a step from state to state.

use super::lists::{same_length, test_plan};
use super::{rules::flows, Entry, Input, List, NodeStep, Outcome, Record, Rules};

/// Writes the record of a plan, as the kind that the lent list's length tells.
pub fn simulate<R: Rules>(
    corridor: &[u32],
    demands: &[u32],
    plan: &[u32],
    record: &mut [u32],
) -> Outcome {
    let input = Input::by::<R>(corridor, demands)?;
    same_length(plan.len(), input.size.plan())?;
    let kind = R::kind_of_length(List::Record, input.size, record.len())?;
    R::test_input(&input)?;
    test_plan::<R>(&input, plan)?;
    R::write_record(&run::<R>(&input, plan), kind, record);
    Ok(())
}

/// The record of a plan within bounds: states, flows, exits, fixed zeros and cost.
pub fn run<R: Rules>(input: &Input, plan: &[u32]) -> Record {
    let mut record = Record::start(input);
    for k in 0..input.size.steps {
        step::<R>(input, k, plan, &mut record);
    }
    record.cost = R::cost(&record);
    record
}

/// One step: first all flows, from the state at its start, then the exits, then the next state.
fn step<R: Rules>(input: &Input, k: usize, plan: &[u32], record: &mut Record) {
    for i in 0..input.size.nodes() {
        let at = NodeStep::new::<R>(input, record.state(k), k, i);
        let place = input.size.plan_place(k, i);
        let (flow, ramp_flow) = flows::<R>(&at, plan[place].into(), plan[place + 1].into());
        let entry = record.entry_mut(k, i);
        (entry.flow, entry.ramp_flow) = (flow, ramp_flow);
    }
    for i in 0..input.size.nodes() {
        record.entry_mut(k, i).exit = Some(R::listed_exit(input, record, k, i));
    }
    for i in 0..input.size.nodes() {
        let now = record.entry(k, i);
        let gained = inflow::<R>(input, k, record.state(k), i);
        let next = record.entry_mut(k + 1, i);
        next.vehicles = R::next_vehicles(now.vehicles, gained, now.flow);
        next.queue = R::next_queue(now.queue, input.arrivals(k, i), now.ramp_flow);
    }
}

/// T(f) + r of the node before link i; node 0 has no link to flow into.
pub fn inflow<R: Rules>(input: &Input, k: usize, state: &[Entry], i: usize) -> u64 {
    if i == 0 {
        return 0;
    }
    let before = state[i - 1];
    R::through(before.flow, input.split(k, i - 1)) + before.ramp_flow
}
