//! The rules that everything else is made of, one function each, so that a wrong variant of the model
//! differs from the papers in just one of them.

use super::{check, files, lists, search};
use super::{
    Entry, Input, Kind, List, Node, Outcome, Record, Refusal, Search, Setting, Size, WHOLE,
};

/// One node at one step: all that rules 1 to 5 use, taken from the state at the step's start.
#[derive(Clone, Copy, Debug)]
pub struct NodeStep {
    pub capacity: u64,
    pub dropped_capacity: u64,
    pub drop_density: u64,
    pub full_speed: u64,
    pub ramp_capacity: u64,
    pub vehicles: u64,
    pub queue: u64,
    pub arrivals: u64,
    pub split: u64,
    /// S of the merge.
    pub supply: u64,
}

impl NodeStep {
    /// Node i at step k; `state` holds all nodes in state k.
    pub fn new<R: Rules>(input: &Input, state: &[Entry], k: usize, i: usize) -> NodeStep {
        let node = input.node(i);
        NodeStep {
            capacity: node.capacity.into(),
            dropped_capacity: node.dropped_capacity.into(),
            drop_density: node.drop_density.into(),
            full_speed: node.full_speed.into(),
            ramp_capacity: node.ramp_capacity.into(),
            vehicles: state[i].vehicles,
            queue: state[i].queue,
            arrivals: input.arrivals(k, i),
            split: input.split(k, i),
            supply: R::supply(input, state, k, i),
        }
    }
}

/// Rules 1 to 5 together: f and r of a node with that rate and that posted limit.
pub fn flows<R: Rules>(at: &NodeStep, rate: u64, limit: u64) -> (u64, u64) {
    R::merge(at, R::sending(at, limit), R::ramp_offer(at, rate))
}

/// The rules, each as the paper says it unless a variant replaces it.
pub trait Rules: Sync + Sized {
    /// Tests of the corridor; each runs over all nodes before the next starts.
    const CORRIDOR_ORDER: [u32; 3] = [2, 3, 4];
    /// Tests of a record at one node and step.
    const NODE_ORDER: [u32; 5] = [8, 9, 10, 11, 12];
    /// Tests of one block of a file.
    const BLOCK_ORDER: [u32; 3] = [15, 16, 17];

    /// The size that N and K tell, or refusal 1 for a bad one.
    fn size(n: u32, k: u32) -> Result<Size, Refusal> {
        Size::new(n, k)
    }

    /// The kind that a list's length chooses, or refusal 1.
    fn kind_of_length(list: List, size: Size, words: usize) -> Result<Kind, Refusal> {
        list.kind_of_length(size, words)
    }

    /// The kind that a file's first word chooses.
    fn kind_of_file(list: List, file: &[u8]) -> Kind {
        list.kind_of_file(file)
    }

    /// A record of that kind out of its words, and into a list of its length.
    fn record_of_words(kind: Kind, size: Size, words: &[u32]) -> Record {
        Record::from_words(kind, size, words)
    }

    fn write_record(record: &Record, kind: Kind, words: &mut [u32]) {
        record.write(kind, words);
    }

    /// What a link may discharge: F up to its drop density, the dropped capacity above it.
    fn discharge(at: &NodeStep) -> u64 {
        if at.vehicles <= at.drop_density {
            return at.capacity;
        }
        at.dropped_capacity
    }

    /// Rule 1. Node 0 has no link: its n and F are zero, and so is D.
    fn sending(at: &NodeStep, limit: u64) -> u64 {
        (at.vehicles * limit / WHOLE).min(Self::discharge(at))
    }

    /// What leaves by an off-ramp, rounded down.
    fn exit(flow: u64, split: u64) -> u64 {
        flow * split / WHOLE
    }

    /// Rule 2. The exit is rounded down, so the through part is not.
    fn through(flow: u64, split: u64) -> u64 {
        flow - Self::exit(flow, split)
    }

    /// The off-ramp flow that a record of kind 7 lists for node i in step k.
    fn listed_exit(input: &Input, record: &Record, k: usize, i: usize) -> u64 {
        Self::exit(record.entry(k, i).flow, input.split(k, i))
    }

    /// Rule 3. Node N has no ramp: its l and C are zero, and so is d.
    fn ramp_offer(at: &NodeStep, rate: u64) -> u64 {
        at.queue.min(at.ramp_capacity).min(rate)
    }

    /// Rule 4 for one link, which keeps F above its drop density too.
    fn receiving(input: &Input, state: &[Entry], link: usize) -> u64 {
        let node = input.node(link);
        let free = u64::from(node.jam) - state[link].vehicles;
        let room = u64::from(node.wave_speed) * free / WHOLE;
        room.min(node.capacity.into())
    }

    /// S of node i's merge in step k: what the next link receives, at node N the flow that may leave
    /// link N.
    fn supply(input: &Input, state: &[Entry], k: usize, i: usize) -> u64 {
        if i == input.size.links {
            return input.downstream(k);
        }
        Self::receiving(input, state, i + 1)
    }

    /// Rule 5, at node N too. R > S leaves no R of zero to divide by.
    fn merge(at: &NodeStep, sending: u64, offer: u64) -> (u64, u64) {
        let wanted = Self::through(sending, at.split) + offer;
        if wanted <= at.supply {
            return (sending, offer);
        }
        (sending * at.supply / wanted, offer * at.supply / wanted)
    }

    /// Rule 6 for a link that takes in `inflow` and sends off `flow`.
    fn next_vehicles(vehicles: u64, inflow: u64, flow: u64) -> u64 {
        vehicles + inflow - flow
    }

    /// Rule 6 for a queue: arrivals join it after the ramp flow has left.
    fn next_queue(queue: u64, arrivals: u64, ramp_flow: u64) -> u64 {
        queue + arrivals - ramp_flow
    }

    /// Total cost: the sum of all n and l over states 1..K.
    fn cost(record: &Record) -> u64 {
        let later = &record.entries[record.size.nodes()..];
        later.iter().map(|entry| entry.vehicles + entry.queue).sum()
    }

    /// Whether refusal 2 is due for the two words of node i's drop.
    fn drop_fault(node: &Node, i: usize) -> bool {
        lists::drop_fault(node, i)
    }

    /// Whether refusal 2, 3 or 4 is due at node i.
    fn node_fault(number: u32, input: &Input, i: usize) -> bool {
        let node = input.node(i);
        match number {
            2 => lists::link_fault(&node, i) || Self::drop_fault(&node, i),
            3 => lists::ramp_fault(input, i),
            _ => lists::start_fault(input, i),
        }
    }

    /// Whether refusal 5 is due at step k, node i.
    fn demand_fault(input: &Input, k: usize, i: usize) -> bool {
        lists::demand_fault(input, k, i)
    }

    /// Refusals 2 to 5.
    fn test_input(input: &Input) -> Outcome {
        lists::test_input::<Self>(input)
    }

    /// Whether refusal 6 is due for that rate and limit of node i.
    fn plan_fault(input: &Input, i: usize, rate: u32, limit: u32) -> bool {
        lists::plan_fault(input, i, rate, limit)
    }

    /// Whether the exit of state k, node i is fixed at zero, so that refusal 7 is due for any other.
    fn exit_is_fixed(size: Size, k: usize, i: usize) -> bool {
        check::exit_is_fixed(size, k, i)
    }

    /// Whether refusal 7 is due at state k, node i.
    fn fixed_fault(input: &Input, record: &Record, k: usize, i: usize) -> bool {
        check::fixed_fault::<Self>(input, record, k, i)
    }

    /// Whether refusal 11 is due at a node and step for its exit.
    fn exit_fault(here: &check::Proposal) -> bool {
        check::exit_fault(here)
    }

    /// Whether refusal 8, 9, 10, 11 or 12 is due at a node and step.
    fn step_fault(number: u32, here: &check::Proposal) -> bool {
        check::step_fault::<Self>(number, here)
    }

    /// The first of refusals 8 to 12 that is due at a node and step.
    fn first_fault(here: &check::Proposal) -> Option<u32> {
        Self::NODE_ORDER.into_iter().find(|&number| Self::step_fault(number, here))
    }

    /// Refusals 7 to 13.
    fn check_record(input: &Input, record: &Record) -> Outcome {
        check::check_record::<Self>(input, record)
    }

    /// The step and node that a search is asked for, or refusal 1.
    fn place(size: Size, step: u32, node: u32) -> Result<(usize, usize), Refusal> {
        search::place(size, step, node)
    }

    /// Node i at step k of an accepted record, and its f and r, which a setting must give.
    fn wanted(input: &Input, record: &Record, k: usize, i: usize) -> (NodeStep, u64, u64) {
        let here = record.entry(k, i);
        let at = NodeStep::new::<Self>(input, record.state(k), k, i);
        (at, here.flow, here.ramp_flow)
    }

    /// The least and the greatest of the rates left at first.
    fn rates(at: &NodeStep) -> (u64, u64) {
        (0, at.ramp_capacity)
    }

    /// The rate to try of those left.
    fn middle(low: u64, high: u64) -> u64 {
        (low + high) / 2
    }

    /// Whether the rates up to the one tried are kept, given the f and r that it has and those
    /// wanted.
    fn keeps_up_to(tried: (u64, u64), wanted: (u64, u64)) -> bool {
        tried.0 <= wanted.0 && tried.1 >= wanted.1
    }

    /// The search for a rate at full speed that gives exactly f and r.
    fn try_rates(at: &NodeStep, flow: u64, ramp_flow: u64) -> Search {
        search::by_halving::<Self>(at, flow, ramp_flow)
    }

    /// The smallest rate in 0..C that gives exactly f and r at full speed, if there is one.
    fn find_rate(at: &NodeStep, flow: u64, ramp_flow: u64) -> Option<u64> {
        Self::try_rates(at, flow, ramp_flow).rate
    }

    /// The smallest v with n × v / 65,536 = f. Only asked for where n is not zero, as a node
    /// without vehicles is full.
    fn held_limit(at: &NodeStep, flow: u64) -> u64 {
        (flow * WHOLE).div_ceil(at.vehicles)
    }

    /// Full if some rate at full speed gives the flows, held otherwise.
    fn setting(at: &NodeStep, flow: u64, ramp_flow: u64) -> Setting {
        let Some(rate) = Self::find_rate(at, flow, ramp_flow) else {
            return Setting::Held(ramp_flow, Self::held_limit(at, flow));
        };
        Setting::Full(rate)
    }

    /// Word 127 of a block.
    fn check_word(block: &[u32]) -> u32 {
        files::check_word(block)
    }

    /// The words of a file, or refusal 14 to 18, or 1 for a differing own N or K.
    fn read_list(kind: Kind, size: Size, file: &[u8]) -> Result<Vec<u32>, Refusal> {
        files::read_list::<Self>(kind, size, file)
    }

    /// N and K that the program takes from its input.
    fn program_size(input: &[u8]) -> Result<Size, Refusal> {
        super::program::program_size::<Self>(input)
    }
}

/// The papers, with the rate that a search finds looked for in the plainest way, every rate from 0 on;
/// the tries are those of halving.
pub struct Paper;

impl Rules for Paper {
    fn try_rates(at: &NodeStep, flow: u64, ramp_flow: u64) -> Search {
        let rate = search::rate_from_zero::<Self>(at, flow, ramp_flow);
        Search { rate, ..search::by_halving::<Self>(at, flow, ramp_flow) }
    }
}

/// The papers, with the search by halving, for long ramps. The tests hold it against `Paper`.
pub struct Quick;

impl Rules for Quick {}
