//! What the benchmarks measure against: straightforward optimised Rust for the same work, tests of
//! the input included. What is refused, and what is not timed, goes to the model.

use crate::calls::{FileCalls, WordCalls};
use crate::model::files::{BLOCK_BYTES, CHECK, FIRST_PAYLOAD, PAYLOAD_WORDS};
use crate::model::lists::{test_corridor, test_plan};
use crate::model::record::{ENTRY_WORDS, EXIT_WORDS};
use crate::model::search::OUT_WORDS;
use crate::model::{Input, Kind, List, Node, Quick, Size};

/// The words of a node in a state of a record of kind 3, and of kind 7.
const WITHOUT_EXITS: usize = ENTRY_WORDS;
const WITH_EXITS: usize = ENTRY_WORDS + EXIT_WORDS;

pub struct Yardstick;

/// The nodes of an input that refusals 1 to 5 let pass.
fn accepted<'a>(corridor: &'a [u32], demands: &'a [u32]) -> Option<(Input<'a>, Vec<Node>)> {
    let input = Input::new(corridor, demands).ok()?;
    test_corridor::<Quick>(&input).ok()?;
    let nodes = (0..input.size.nodes()).map(|i| input.node(i)).collect();
    sound_demands(input.size, demands).then_some((input, nodes))
}

/// Whether refusal 5 lets demands of either kind pass. A call of its own: in the midst of others its
/// loop takes longer.
#[inline(never)]
fn sound_demands(size: Size, demands: &[u32]) -> bool {
    let mut rows = demands[1..size.demands()].chunks_exact(2 * size.nodes());
    demands[1..].iter().all(|&word| word <= 65_536)
        && rows.all(|row| (row[1], row[2 * size.links], row[2 * size.links + 1]) == (0, 0, 0))
}

/// One node at one step, with all that does not depend on rate and limit worked out.
struct Place {
    node: Node,
    vehicles: u64,
    queue: u64,
    arrivals: u64,
    split: u64,
    room: u64,
}

impl Place {
    #[inline]
    fn new<const WIDTH: usize>(
        nodes: &[Node],
        demands: StepDemands,
        state: &[u32],
        i: usize,
    ) -> Place {
        let room = nodes.get(i + 1).map_or(demands.downstream, |next| {
            let free = u64::from(next.jam - state[WIDTH * i + WIDTH]);
            ((u64::from(next.wave_speed) * free) >> 16).min(next.capacity.into())
        });
        Place {
            node: nodes[i],
            vehicles: state[WIDTH * i].into(),
            queue: state[WIDTH * i + 1].into(),
            arrivals: demands.row[2 * i].into(),
            split: demands.row[2 * i + 1].into(),
            room,
        }
    }

    #[inline]
    fn sending(&self, limit: u32) -> u64 {
        let dropped = self.vehicles > self.node.drop_density.into();
        let most = if dropped { self.node.dropped_capacity } else { self.node.capacity };
        ((self.vehicles * u64::from(limit)) >> 16).min(most.into())
    }

    #[inline]
    fn exit(&self, flow: u64) -> u64 {
        (flow * self.split) >> 16
    }

    #[inline]
    fn through(&self, flow: u64) -> u64 {
        flow - self.exit(flow)
    }

    #[inline]
    fn ramp(&self) -> u64 {
        self.queue.min(self.node.ramp_capacity.into())
    }

    #[inline]
    fn merge(&self, sending: u64, through: u64, offer: u64) -> (u64, u64) {
        let wanted = through + offer;
        if wanted <= self.room {
            return (sending, offer);
        }
        (sending * self.room / wanted, offer * self.room / wanted)
    }

    /// What the link sends at full speed, its through part, and what the ramp can offer.
    #[inline]
    fn at_full_speed(&self) -> (u64, u64, u64) {
        let sending = self.sending(self.node.full_speed);
        (sending, self.through(sending), self.ramp())
    }

    /// The rate by halving. One above what the ramp can offer gives what that rate itself gives.
    #[inline]
    fn halved_rate(&self, flow: u64, ramp_flow: u64) -> Option<u64> {
        let (sending, through, ramp) = self.at_full_speed();
        halve(ramp, (flow, ramp_flow), |rate| self.merge(sending, through, rate)).1
    }

    /// The tries and the rate by halving all from 0 to C.
    #[inline]
    fn search(&self, flow: u64, ramp_flow: u64) -> (u32, Option<u64>) {
        let (sending, through, ramp) = self.at_full_speed();
        let flows = |rate: u64| self.merge(sending, through, rate.min(ramp));
        halve(self.node.ramp_capacity.into(), (flow, ramp_flow), flows)
    }

    /// The rate by trying each from 0 to C in turn.
    #[inline]
    fn rate_from_zero(&self, flow: u64, ramp_flow: u64) -> Option<u64> {
        let (sending, through, ramp) = self.at_full_speed();
        let mut rates = 0..=u64::from(self.node.ramp_capacity);
        rates.find(|&rate| self.merge(sending, through, rate.min(ramp)) == (flow, ramp_flow))
    }

    /// Rate and limit for the flows of an accepted record, once a rate is found or none.
    #[inline]
    fn setting(&self, rate: Option<u64>, flow: u64, ramp_flow: u64) -> (u32, u32) {
        match rate {
            Some(rate) => (rate as u32, self.node.full_speed),
            None => (ramp_flow as u32, (flow << 16).div_ceil(self.vehicles) as u32),
        }
    }
}

/// Halves the rates from 0 to `most` by the flows that each gives: the tries, and the rate left if it
/// gives those wanted.
#[inline]
fn halve(most: u64, wanted: (u64, u64), flows: impl Fn(u64) -> (u64, u64)) -> (u32, Option<u64>) {
    let (mut low, mut high, mut tries) = (0, most, 1);
    while low < high {
        let rate = (low + high) / 2;
        let (f, r) = flows(rate);
        tries += 1;
        if f <= wanted.0 && r >= wanted.1 {
            high = rate;
        } else {
            low = rate + 1;
        }
    }
    (tries, (flows(low) == wanted).then_some(low))
}

/// Q and b of all nodes in one step, and the flow that may leave link N in it.
#[derive(Clone, Copy)]
struct StepDemands<'a> {
    row: &'a [u32],
    downstream: u64,
}

/// The two states of step k and the step's part of the demands.
fn step_lists<'a, const WIDTH: usize>(
    input: &Input,
    demands: &'a [u32],
    record: &'a [u32],
    k: usize,
) -> (&'a [u32], &'a [u32], StepDemands<'a>) {
    let width = WIDTH * input.size.nodes();
    let (state, next) = record[k * width..(k + 2) * width].split_at(width);
    (state, next, step_demands(input, demands, k))
}

fn step_demands<'a>(input: &Input, demands: &'a [u32], k: usize) -> StepDemands<'a> {
    let row = input.size.demand_place(k, 0)..input.size.demand_place(k + 1, 0);
    StepDemands { row: &demands[row], downstream: input.downstream(k) }
}

/// One step of the simulation; gives the next state's part of the cost.
fn step<const WIDTH: usize>(
    nodes: &[Node],
    demands: StepDemands,
    plan: &[u32],
    state: &mut [u32],
    next: &mut [u32],
) -> u64 {
    let (mut inflow, mut cost) = (0, 0);
    for i in 0..nodes.len() {
        let place = Place::new::<WIDTH>(nodes, demands, state, i);
        let sending = place.sending(plan[2 * i + 1]);
        let offer = place.ramp().min(plan[2 * i].into());
        let (flow, ramp_flow) = place.merge(sending, place.through(sending), offer);
        let vehicles = place.vehicles + inflow - flow;
        let queue = place.queue + place.arrivals - ramp_flow;
        let exit = place.exit(flow);
        (state[WIDTH * i + 2], state[WIDTH * i + 3]) = (flow as u32, ramp_flow as u32);
        if WIDTH == WITH_EXITS {
            state[WIDTH * i + 4] = exit as u32;
        }
        (next[WIDTH * i], next[WIDTH * i + 1]) = (vehicles as u32, queue as u32);
        inflow = flow - exit + ramp_flow;
        cost += vehicles + queue;
    }
    cost
}

/// The record of a plan within bounds.
fn run<const WIDTH: usize>(
    input: &Input,
    nodes: &[Node],
    demands: &[u32],
    plan: &[u32],
    record: &mut [u32],
) {
    let (size, width) = (input.size, WIDTH * nodes.len());
    let (states, end) = record.split_at_mut(width * (size.steps + 1));
    for (entry, node) in states.chunks_exact_mut(WIDTH).zip(nodes) {
        (entry[0], entry[1]) = (node.start_vehicles, node.start_queue);
    }
    let mut cost = 0;
    for k in 0..size.steps {
        let (state, next) = states[k * width..(k + 2) * width].split_at_mut(width);
        let plan = &plan[size.plan_place(k, 0)..size.plan_place(k + 1, 0)];
        cost += step::<WIDTH>(nodes, step_demands(input, demands, k), plan, state, next);
    }
    states[size.steps * width..].chunks_exact_mut(WIDTH).for_each(|entry| entry[2..].fill(0));
    (end[0], end[1]) = (cost as u32, (cost >> 32) as u32);
}

/// One step of a record; gives the next state's part of the cost, or nothing if a rule is broken.
fn check_step<const WIDTH: usize>(
    nodes: &[Node],
    demands: StepDemands,
    state: &[u32],
    next: &[u32],
) -> Option<u64> {
    let (mut inflow, mut cost) = (0, 0);
    for i in 0..nodes.len() {
        let place = Place::new::<WIDTH>(nodes, demands, state, i);
        let (flow, ramp_flow) = (u64::from(state[WIDTH * i + 2]), u64::from(state[WIDTH * i + 3]));
        let (vehicles, queue) = (u64::from(next[WIDTH * i]), u64::from(next[WIDTH * i + 1]));
        let exit = place.exit(flow);
        let merged = flow - exit + ramp_flow;
        let flows = flow <= place.sending(place.node.full_speed) && ramp_flow <= place.ramp();
        let states = vehicles + flow == place.vehicles + inflow
            && queue + ramp_flow == place.queue + place.arrivals;
        let fits = merged <= place.room && queue <= place.node.queue_limit.into();
        let listed = WIDTH == WITHOUT_EXITS || u64::from(state[WIDTH * i + 4]) == exit;
        if !(flows && fits && states && listed) {
            return None;
        }
        inflow = merged;
        cost += vehicles + queue;
    }
    Some(cost)
}

/// Whether state 0 and the fixed zeros are as refusal 7 wants them. Where the exits of nodes 0 and N
/// are fixed their splits are zero, so those of states before K are tested with the others.
fn fixed_words<const WIDTH: usize>(nodes: &[Node], size: Size, states: &[u32]) -> bool {
    let (width, end) = (WIDTH * nodes.len(), WIDTH * size.links);
    let mut start = nodes.iter().zip(states.chunks_exact(WIDTH));
    let mut all = states.chunks_exact(width);
    let mut last = states[size.steps * width..].chunks_exact(WIDTH);
    start.all(|(node, entry)| entry[..2] == [node.start_vehicles, node.start_queue])
        && all.all(|s| (s[0], s[2], s[end + 1], s[end + 3]) == (0, 0, 0, 0))
        && last.all(|entry| entry[2..].iter().all(|&word| word == 0))
}

/// Whether refusals 7 to 13 let a record pass.
fn sound_record<const WIDTH: usize>(
    input: &Input,
    nodes: &[Node],
    demands: &[u32],
    record: &[u32],
) -> bool {
    let size = input.size;
    let (states, end) = record.split_at(WIDTH * nodes.len() * (size.steps + 1));
    if !fixed_words::<WIDTH>(nodes, size, states) {
        return false;
    }
    let cost = (0..size.steps).try_fold(0, |cost, k| {
        let (state, next, demands) = step_lists::<WIDTH>(input, demands, states, k);
        Some(cost + check_step::<WIDTH>(nodes, demands, state, next)?)
    });
    cost == Some(u64::from(end[0]) | u64::from(end[1]) << 32)
}

/// Node i at step k of a record, and its f and r.
#[inline]
fn place_and_flows<const WIDTH: usize>(
    nodes: &[Node],
    demands: StepDemands,
    state: &[u32],
    i: usize,
) -> (Place, u64, u64) {
    let place = Place::new::<WIDTH>(nodes, demands, state, i);
    (place, state[WIDTH * i + 2].into(), state[WIDTH * i + 3].into())
}

/// The plan of a record that is sound, with the rates that `find` finds.
fn settings<const WIDTH: usize>(
    input: &Input,
    nodes: &[Node],
    demands: &[u32],
    record: &[u32],
    plan: &mut [u32],
    find: impl Fn(&Place, u64, u64) -> Option<u64>,
) {
    for (k, plan) in plan.chunks_exact_mut(2 * nodes.len()).enumerate() {
        let (state, _, demands) = step_lists::<WIDTH>(input, demands, record, k);
        for (i, setting) in plan.chunks_exact_mut(2).enumerate() {
            let (place, flow, ramp_flow) = place_and_flows::<WIDTH>(nodes, demands, state, i);
            let rate = find(&place, flow, ramp_flow);
            (setting[0], setting[1]) = place.setting(rate, flow, ramp_flow);
        }
    }
}

/// The words of a search at step k and node i of a record that is sound.
fn searched<const WIDTH: usize>(
    input: &Input,
    nodes: &[Node],
    demands: &[u32],
    record: &[u32],
    (k, i): (usize, usize),
) -> [u32; OUT_WORDS] {
    let (state, _, demands) = step_lists::<WIDTH>(input, demands, record, k);
    let (place, flow, ramp_flow) = place_and_flows::<WIDTH>(nodes, demands, state, i);
    let (tries, rate) = place.search(flow, ramp_flow);
    [tries, rate.is_some().into(), rate.unwrap_or(0) as u32]
}

/// The input if refusals 1 to 5 and 7 to 13 let it and a record pass, and the record's kind.
fn accepted_record<'a>(
    corridor: &'a [u32],
    demands: &'a [u32],
    record: &[u32],
) -> Option<(Input<'a>, Vec<Node>, Kind)> {
    let (input, nodes) = accepted(corridor, demands)?;
    let kind = List::Record.kind_of_length(input.size, record.len()).ok()?;
    let sound = match kind {
        Kind::OffRamps => sound_record::<WITH_EXITS>(&input, &nodes, demands, record),
        _ => sound_record::<WITHOUT_EXITS>(&input, &nodes, demands, record),
    };
    sound.then_some((input, nodes, kind))
}

/// The converter with the rates that `find` finds.
fn convert_by(
    lists: [&[u32]; 3],
    plan: &mut [u32],
    find: impl Fn(&Place, u64, u64) -> Option<u64>,
) -> u32 {
    let [corridor, demands, record] = lists;
    let found = accepted_record(corridor, demands, record);
    let Some((input, nodes, kind)) = found.filter(|(input, ..)| plan.len() == input.size.plan())
    else {
        return Quick.convert(corridor, demands, record, plan);
    };
    match kind {
        Kind::OffRamps => settings::<WITH_EXITS>(&input, &nodes, demands, record, plan, find),
        _ => settings::<WITHOUT_EXITS>(&input, &nodes, demands, record, plan, find),
    }
    0
}

/// The converter as it would be without halving, on corridor, demands and record: for each node and
/// step every rate from 0 on, until one gives the flows.
pub fn convert_by_every_rate(lists: [&[u32]; 3], plan: &mut [u32]) -> u32 {
    convert_by(lists, plan, Place::rate_from_zero)
}

impl WordCalls for Yardstick {
    fn simulate(&self, corridor: &[u32], demands: &[u32], plan: &[u32], record: &mut [u32]) -> u32 {
        let found = accepted(corridor, demands)
            .filter(|(input, _)| plan.len() == input.size.plan())
            .filter(|(input, _)| test_plan::<Quick>(input, plan).is_ok());
        let kind = found
            .as_ref()
            .and_then(|(input, _)| List::Record.kind_of_length(input.size, record.len()).ok());
        let (Some((input, nodes)), Some(kind)) = (found, kind) else {
            return Quick.simulate(corridor, demands, plan, record);
        };
        match kind {
            Kind::OffRamps => run::<WITH_EXITS>(&input, &nodes, demands, plan, record),
            _ => run::<WITHOUT_EXITS>(&input, &nodes, demands, plan, record),
        }
        0
    }

    fn check(&self, corridor: &[u32], demands: &[u32], record: &[u32]) -> u32 {
        match accepted_record(corridor, demands, record) {
            Some(_) => 0,
            None => Quick.check(corridor, demands, record),
        }
    }

    fn convert(&self, corridor: &[u32], demands: &[u32], record: &[u32], plan: &mut [u32]) -> u32 {
        convert_by([corridor, demands, record], plan, Place::halved_rate)
    }

    fn normal(
        &self,
        corridor: &[u32],
        demands: &[u32],
        plan: &[u32],
        work: &mut [u32],
        normal: &mut [u32],
    ) -> u32 {
        Quick.normal(corridor, demands, plan, work, normal)
    }

    fn search(&self, lists: [&[u32]; 3], place: (u32, u32), out: &mut [u32]) -> u32 {
        let [corridor, demands, record] = lists;
        let (k, i) = (place.0 as usize, place.1 as usize);
        let within = |input: &Input| k < input.size.steps && i < input.size.nodes();
        let found = accepted_record(corridor, demands, record)
            .filter(|(input, ..)| within(input) && out.len() == OUT_WORDS);
        let Some((input, nodes, kind)) = found else {
            return Quick.search(lists, place, out);
        };
        out.copy_from_slice(&match kind {
            Kind::OffRamps => searched::<WITH_EXITS>(&input, &nodes, demands, record, (k, i)),
            _ => searched::<WITHOUT_EXITS>(&input, &nodes, demands, record, (k, i)),
        });
        0
    }
}

fn word(block: &[u8], j: usize) -> u32 {
    u32::from_le_bytes([block[4 * j], block[4 * j + 1], block[4 * j + 2], block[4 * j + 3]])
}

fn check_word(block: &[u8]) -> u32 {
    let words = block[..4 * CHECK].chunks_exact(4).zip((1u32..).step_by(2));
    words.fold(0, |sum, (bytes, weight)| sum.wrapping_add(word(bytes, 0).wrapping_mul(weight)))
}

/// Whether refusals 14 to 18, and 1 for the file's own count, let a file pass.
fn sound_file(kind: Kind, size: Size, file: &[u8]) -> bool {
    let words = kind.words(size);
    let sound_block = |(number, block): (usize, &[u8])| {
        let head = (word(block, 0), word(block, 1));
        word(block, CHECK) == check_word(block) && head == (kind as u32, number as u32)
    };
    let padding = FIRST_PAYLOAD + words % PAYLOAD_WORDS..CHECK;
    let mut last_not_full = file[BLOCK_BYTES * (words / PAYLOAD_WORDS)..].chunks_exact(BLOCK_BYTES);
    file.chunks_exact(BLOCK_BYTES).enumerate().all(sound_block)
        && last_not_full.all(|block| padding.clone().all(|j| word(block, j) == 0))
        && kind.own_count(size).is_none_or(|count| word(file, FIRST_PAYLOAD) as usize == count)
}

impl FileCalls for Yardstick {
    fn read(&self, list: List, n: u32, k: u32, file: &[u8], words: &mut [u32]) -> u32 {
        let kind = list.kind_of_file(file);
        let fits =
            |size: &Size| words.len() == kind.words(*size) && file.len() == kind.bytes(*size);
        let size = Size::new(n, k).ok().filter(fits);
        if !size.is_some_and(|size| sound_file(kind, size, file)) {
            return Quick.read(list, n, k, file, words);
        }
        for (payload, block) in words.chunks_mut(PAYLOAD_WORDS).zip(file.chunks_exact(BLOCK_BYTES))
        {
            let bytes = block[4 * FIRST_PAYLOAD..].chunks_exact(4);
            payload.iter_mut().zip(bytes).for_each(|(place, bytes)| *place = word(bytes, 0));
        }
        0
    }

    /// The model's writer is as quick as any.
    fn write(&self, list: List, n: u32, k: u32, words: &[u32], file: &mut [u8]) -> u32 {
        Quick.write(list, n, k, words, file)
    }

    fn check_files(&self, n: u32, k: u32, files: [&[u8]; 3]) -> u32 {
        Quick.check_files(n, k, files)
    }

    fn convert_files(&self, n: u32, k: u32, files: [&[u8]; 3], plan_file: &mut [u8]) -> u32 {
        Quick.convert_files(n, k, files, plan_file)
    }
}
