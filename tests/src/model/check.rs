//! The checker of a proposed record: refusals 1 to 5, then 7 over the whole record, then 8 to 12
//! by step, node and number, then 13.

use super::simulate::inflow;
use super::{refusal, refuse_if, Entry, Input, NodeStep, Outcome, Record, Rules, Size};

/// Whether a record is one that some valid plan has.
pub fn check<R: Rules>(corridor: &[u32], demands: &[u32], record: &[u32]) -> Outcome {
    let input = Input::by::<R>(corridor, demands)?;
    let record = Record::by::<R>(input.size, record)?;
    R::test_input(&input)?;
    R::check_record(&input, &record)
}

/// Refusals 7 to 13 for a record of either kind.
pub fn check_record<R: Rules>(input: &Input, record: &Record) -> Outcome {
    check_fixed::<R>(input, record)?;
    check_steps::<R>(input, record)?;
    check_cost::<R>(record)
}

/// Refusal 7, first place by state, then node.
pub fn check_fixed<R: Rules>(input: &Input, record: &Record) -> Outcome {
    for k in 0..=input.size.steps {
        for i in 0..input.size.nodes() {
            refuse_if(R::fixed_fault(input, record, k, i), 7, k, i)?;
        }
    }
    Ok(())
}

/// Refusals 8 to 12, first place by step, node, number.
pub fn check_steps<R: Rules>(input: &Input, record: &Record) -> Outcome {
    for k in 0..input.size.steps {
        for i in 0..input.size.nodes() {
            let here = Proposal::new::<R>(input, record, k, i);
            if let Some(number) = R::first_fault(&here) {
                return Err(refusal(number, k, i));
            }
        }
    }
    Ok(())
}

/// Refusal 13.
pub fn check_cost<R: Rules>(record: &Record) -> Outcome {
    refuse_if(record.cost != R::cost(record), 13, 0, 0)
}

/// Where an exit is fixed at zero: nodes 0 and N have no off-ramp, and no step leaves state K.
pub fn exit_is_fixed(size: Size, k: usize, i: usize) -> bool {
    i == 0 || i == size.links || k == size.steps
}

/// Refusal 7: state 0 not the corridor's start, or a fixed zero not zero.
pub fn fixed_fault<R: Rules>(input: &Input, record: &Record, k: usize, i: usize) -> bool {
    let Entry { vehicles, queue, flow, ramp_flow, exit } = record.entry(k, i);
    let node = input.node(i);
    let start = (node.start_vehicles.into(), node.start_queue.into());
    let other_start = k == 0 && (vehicles, queue) != start;
    let last_state = k == input.size.steps && (flow, ramp_flow) != (0, 0);
    let no_link = i == 0 && (vehicles, flow) != (0, 0);
    let no_ramp = i == input.size.links && (queue, ramp_flow) != (0, 0);
    let no_exit = R::exit_is_fixed(input.size, k, i) && exit.unwrap_or(0) != 0;
    other_start || last_state || no_link || no_ramp || no_exit
}

/// One node at one step of a proposed record: all that refusals 8 to 12 look at.
pub struct Proposal {
    pub at: NodeStep,
    pub flow: u64,
    pub ramp_flow: u64,
    /// The off-ramp flow, if the record is of kind 7, and what it should be.
    pub exit: Option<u64>,
    pub right_exit: u64,
    pub inflow: u64,
    pub next_vehicles: u64,
    pub next_queue: u64,
    pub queue_limit: u64,
}

impl Proposal {
    pub fn new<R: Rules>(input: &Input, record: &Record, k: usize, i: usize) -> Proposal {
        let (state, here, next) = (record.state(k), record.entry(k, i), record.entry(k + 1, i));
        Proposal {
            at: NodeStep::new::<R>(input, state, k, i),
            flow: here.flow,
            ramp_flow: here.ramp_flow,
            exit: here.exit,
            right_exit: R::listed_exit(input, record, k, i),
            inflow: inflow::<R>(input, k, state, i),
            next_vehicles: next.vehicles,
            next_queue: next.queue,
            queue_limit: input.node(i).queue_limit.into(),
        }
    }
}

/// Whether refusal 8 to 12 is due at a node and step.
pub fn step_fault<R: Rules>(number: u32, here: &Proposal) -> bool {
    match number {
        8..=10 => flow_fault::<R>(number, &here.at, here.flow, here.ramp_flow),
        11 => R::exit_fault(here) || next_fault(here),
        _ => here.next_queue > here.queue_limit,
    }
}

/// Refusal 11, just after 10: the exit, if the record lists it, is not what leaves by the off-ramp.
pub fn exit_fault(here: &Proposal) -> bool {
    here.exit.is_some_and(|exit| exit != here.right_exit)
}

/// Refusal 11, just before 12: rule 6, written without taking away.
pub fn next_fault(here: &Proposal) -> bool {
    let vehicles = here.at.vehicles + here.inflow;
    let queue = here.at.queue + here.at.arrivals;
    here.next_vehicles + here.flow != vehicles || here.next_queue + here.ramp_flow != queue
}

/// Whether refusal 8, 9 or 10 is due for those flows.
pub fn flow_fault<R: Rules>(number: u32, at: &NodeStep, flow: u64, ramp_flow: u64) -> bool {
    match number {
        8 => flow > R::sending(at, at.full_speed),
        9 => R::through(flow, at.split) + ramp_flow > at.supply,
        _ => ramp_flow > at.queue.min(at.ramp_capacity),
    }
}
