//! Sound corridors, demands and plans, small and large, with extreme values mixed in so that
//! every branch of the rules is met often.

use super::records::{free_record, record_of_plan};
use super::Random;
use crate::capacity_drop::discharge;
use crate::model::lists::{corridor_of, Node};
use crate::model::{Input, Kind, Kinds, List, Size, MOST_QUEUE_LIMIT, WHOLE};

/// All lists that the calls on words take, and the lengths of the lists lent to them.
#[derive(Clone, Debug)]
pub struct WordCase {
    /// What corridor, demands and record were made as; the calls go by their lengths.
    pub kinds: Kinds,
    pub corridor: Vec<u32>,
    pub demands: Vec<u32>,
    pub plan: Vec<u32>,
    pub record: Vec<u32>,
    /// What the lent record, which is another than the one given, was made as.
    pub lent_kind: Kind,
    pub lent_record: usize,
    pub lent_plan: usize,
}

impl WordCase {
    /// The lists, each as the kind that it was made as.
    pub fn by_kind(&self) -> [(Kind, &Vec<u32>); 4] {
        [
            (self.kinds.corridor, &self.corridor),
            (self.kinds.demands, &self.demands),
            (self.kinds.record, &self.record),
            (Kind::Plan, &self.plan),
        ]
    }

    /// Corridor, demands and the record proposed for them.
    pub fn proposal(&self) -> [&[u32]; 3] {
        [&self.corridor, &self.demands, &self.record]
    }
}

/// What the amounts of a corridor have in common.
#[derive(Clone, Copy)]
struct Style {
    /// The usual largest flow.
    flow: u64,
    /// What values there are.
    values: Values,
    /// How full the links start.
    filling: Filling,
    /// Whether the queue limits leave room for all arrivals.
    roomy: bool,
    /// Whether the ramps' capacities are at most 1,000, so that a search through all is quick.
    short_ramps: bool,
}

#[derive(Clone, Copy, PartialEq)]
enum Values {
    /// No extreme values and few arrivals, so that traffic keeps moving: one link that lets
    /// nothing through would soon stop all before it.
    Moderate,
    /// Any, extreme values among them.
    Any,
    /// Mostly the greatest there are, so that products reach 2^32.
    Greatest,
}

#[derive(Clone, Copy)]
enum Filling {
    Mixed,
    Free,
    Congested,
    Jammed,
}

fn style(random: &mut Random, short_ramps: bool) -> Style {
    use Filling::{Congested, Free, Jammed, Mixed};
    use Values::{Any, Greatest, Moderate};
    let values = random.pick(&[Moderate, Moderate, Moderate, Moderate, Any, Any, Any, Greatest]);
    let (flow, filling) = match values {
        Moderate => (usual_flow(random), random.pick(&[Free, Free, Congested])),
        Any => (usual_flow(random), random.pick(&[Mixed, Mixed, Mixed, Free, Congested, Jammed])),
        Greatest => (WHOLE, Mixed),
    };
    Style { flow, values, filling, roomy: !random.one_in(4), short_ramps }
}

fn usual_flow(random: &mut Random) -> u64 {
    random.pick(&[1, 4, 60, 1_000, 20_000, WHOLE])
}

/// Any kind of each list.
pub fn some_kinds(random: &mut Random) -> Kinds {
    let [corridor, demands, record] =
        [List::Corridor, List::Demands, List::Record].map(|list| random.pick(list.kinds()));
    Kinds { corridor, demands, record }
}

/// A case with sound lists, each of any kind, the lent record of the given one's kind or the other.
pub fn sound_case(random: &mut Random, size: Size, short_ramps: bool) -> WordCase {
    let kinds = some_kinds(random);
    let case = sound_case_of(random, size, kinds, short_ramps);
    let lent_kind = random.pick(List::Record.kinds());
    WordCase { lent_kind, lent_record: lent_kind.words(size), ..case }
}

/// The same with those kinds, the lent record's too: the record is the plan's, or one with flows
/// chosen freely.
pub fn sound_case_of(random: &mut Random, size: Size, kinds: Kinds, short_ramps: bool) -> WordCase {
    let style = style(random, short_ramps);
    let corridor = corridor_of(kinds.corridor, &nodes(random, size, style));
    let mut demands = demands(random, size, style);
    if kinds.demands == Kind::Downstream {
        let end = Node::from_words(&corridor[corridor.len() - kinds.corridor.node_words()..]);
        demands.extend(downstream(random, size, style, &end));
    }
    let input = Input::new(&corridor, &demands).expect("made to these lengths");
    let plan = plan(random, &input);
    let record = match random.one_in(2) {
        true => record_of_plan(&input, &plan),
        false => free_record(random, &input),
    };
    let record = record.words(kinds.record);
    let (lent_kind, lent_record, lent_plan) = (kinds.record, record.len(), size.plan());
    WordCase { kinds, corridor, demands, plan, record, lent_kind, lent_record, lent_plan }
}

/// A capacity or arrivals: now and then nothing, one, the most, or the most of all.
fn amount(random: &mut Random, most: u64) -> u64 {
    match random.below(16) {
        0 => 0,
        1 => 1,
        2 => most,
        3 => random.pick(&[0, WHOLE - 1, WHOLE]),
        _ => random.within(0, most),
    }
}

/// The most of all three times out of four.
fn mostly_whole(random: &mut Random) -> u64 {
    match random.one_in(4) {
        true => random.within(1, WHOLE),
        false => WHOLE,
    }
}

fn capacity(random: &mut Random, style: Style) -> u64 {
    match style.values {
        Values::Moderate => random.within(style.flow / 2, style.flow),
        Values::Any => amount(random, style.flow),
        Values::Greatest => mostly_whole(random),
    }
}

fn ramp_capacity(random: &mut Random, style: Style) -> u64 {
    let longest = if style.short_ramps { 1_000 } else { WHOLE };
    capacity(random, style).min(longest)
}

/// A good part of a section per step; among any values also the least.
fn speed(random: &mut Random, style: Style) -> u64 {
    match (style.values, random.below(8)) {
        (Values::Greatest, _) => mostly_whole(random),
        (_, 0 | 1) => WHOLE,
        (_, 2) => random.pick(&[WHOLE / 2, WHOLE - 1]),
        (Values::Any, 3) => 1,
        (Values::Any, 4) => random.within(1, WHOLE),
        _ => random.within(WHOLE / 4, WHOLE),
    }
}

fn jam(random: &mut Random, style: Style) -> u64 {
    let most = (8 * style.flow).min(WHOLE);
    match (style.values, random.below(10)) {
        (Values::Greatest, _) => mostly_whole(random),
        (Values::Moderate, _) => random.within(most / 2, most),
        (Values::Any, 0) => 1,
        (Values::Any, 1) => WHOLE,
        _ => random.within(1, most),
    }
}

fn vehicles(random: &mut Random, jam: u64, filling: Filling) -> u64 {
    match filling {
        Filling::Mixed => [0, jam, random.within(0, jam)][random.below(3)],
        Filling::Free => random.within(0, jam / 4),
        Filling::Congested => random.within(jam - jam / 4, jam),
        Filling::Jammed => jam,
    }
}

fn queue_limit(random: &mut Random, size: Size, style: Style) -> u64 {
    let most = u64::from(MOST_QUEUE_LIMIT);
    match random.below(4) {
        0 | 1 if style.roomy => (4 * style.flow + all_arrivals(size)).min(most),
        _ if style.roomy => most,
        0 => most,
        1 => 0,
        _ => random.within(0, 4 * style.flow),
    }
}

/// More than can ever arrive at a ramp.
fn all_arrivals(size: Size) -> u64 {
    WHOLE * size.steps as u64
}

fn queue(random: &mut Random, size: Size, queue_limit: u64, style: Style) -> u64 {
    let roomy_most = queue_limit.saturating_sub(all_arrivals(size));
    match random.below(4) {
        0 => 0,
        1 if !style.roomy => queue_limit,
        _ if style.roomy && style.values == Values::Greatest => random.within(0, roomy_most),
        _ => random.within(0, (4 * style.flow).min(queue_limit)),
    }
}

/// From nothing to all of a link's capacity, often one of these; where traffic keeps moving, at
/// least half of it.
fn dropped_capacity(random: &mut Random, capacity: u64, style: Style) -> u64 {
    match (style.values, random.below(8)) {
        (_, 0) => capacity,
        (Values::Moderate, _) => random.within(capacity / 2, capacity),
        (_, 1) => 0,
        (_, 2) => capacity.saturating_sub(1),
        _ => random.within(0, capacity),
    }
}

/// Often what the link starts with, or one more or less; now and then none, the jam, or anything.
fn drop_density(random: &mut Random, jam: u64, vehicles: u64) -> u64 {
    match random.below(8) {
        0 => 0,
        1 => jam,
        2..=4 => (vehicles + random.within(0, 2)).saturating_sub(1).min(jam),
        5 => random.within(0, vehicles),
        _ => random.within(0, jam),
    }
}

/// The link that ends at a node and the ramp that starts there, as if both were there.
fn node(random: &mut Random, size: Size, style: Style) -> Node {
    let (capacity, jam) = (capacity(random, style), jam(random, style));
    let vehicles = vehicles(random, jam, style.filling);
    let queue_limit = queue_limit(random, size, style);
    Node {
        identifier: 0,
        capacity: capacity as u32,
        full_speed: speed(random, style) as u32,
        wave_speed: speed(random, style) as u32,
        jam: jam as u32,
        ramp_capacity: ramp_capacity(random, style) as u32,
        queue_limit: queue_limit as u32,
        start_vehicles: vehicles as u32,
        start_queue: queue(random, size, queue_limit, style) as u32,
        dropped_capacity: dropped_capacity(random, capacity, style) as u32,
        drop_density: drop_density(random, jam, vehicles) as u32,
    }
}

/// Identifiers in no order, none equal or zero: an odd factor keeps different words different.
fn identifier(first: u32, i: usize) -> u32 {
    first.wrapping_add(i as u32).wrapping_mul(0x9E37_79B1)
}

fn nodes(random: &mut Random, size: Size, style: Style) -> Vec<Node> {
    let first = random.within(1, 1_000_000) as u32;
    let mut nodes: Vec<Node> = (0..size.nodes()).map(|_| node(random, size, style)).collect();
    for (i, node) in nodes.iter_mut().enumerate() {
        node.identifier = identifier(first, i);
    }
    let entry = &mut nodes[0];
    (entry.capacity, entry.full_speed, entry.wave_speed) = (0, 0, 0);
    (entry.jam, entry.start_vehicles) = (0, 0);
    (entry.dropped_capacity, entry.drop_density) = (0, 0);
    let end = &mut nodes[size.links];
    (end.ramp_capacity, end.queue_limit, end.start_queue) = (0, 0, 0);
    nodes
}

fn arrivals(random: &mut Random, style: Style) -> u64 {
    match style.values {
        Values::Moderate => random.within(0, style.flow / 8),
        Values::Any => amount(random, style.flow),
        Values::Greatest => mostly_whole(random),
    }
}

fn split(random: &mut Random, style: Style) -> u64 {
    match (style.values, random.below(8)) {
        (Values::Moderate, _) => random.within(0, WHOLE / 2),
        (_, 0 | 1) => 0,
        (_, 2) => WHOLE,
        (_, 3) => random.pick(&[1, WHOLE / 2, WHOLE - 1]),
        _ => random.within(0, WHOLE),
    }
}

fn demands(random: &mut Random, size: Size, style: Style) -> Vec<u32> {
    let mut demands = vec![size.steps as u32];
    for _ in 0..size.steps {
        for i in 0..size.nodes() {
            let last = i == size.links;
            let arrivals = if last { 0 } else { arrivals(random, style) };
            let split = if i == 0 || last { 0 } else { split(random, style) };
            demands.extend([arrivals as u32, split as u32]);
        }
    }
    demands
}

/// The flow that may leave link N: for each step its own or, in some lists, one for all steps.
fn downstream(random: &mut Random, size: Size, style: Style, end: &Node) -> Vec<u32> {
    let one_for_all = random.one_in(4);
    let first = downstream_word(random, style, end);
    let mut words = vec![first as u32; size.steps];
    for word in words[1..].iter_mut().filter(|_| !one_for_all) {
        *word = downstream_word(random, style, end) as u32;
    }
    words
}

/// Now and then nothing or the most of all, mostly near what link N sends or below it, so that it
/// often binds; where traffic keeps moving, at least half of what the link can send.
fn downstream_word(random: &mut Random, style: Style, end: &Node) -> u64 {
    let capacity = discharge(end, end.start_vehicles);
    let at_full_speed = u64::from(end.start_vehicles) * u64::from(end.full_speed) / WHOLE;
    let sending = at_full_speed.min(capacity);
    let word = match (style.values, random.below(8)) {
        (_, 0) => WHOLE,
        (Values::Moderate, _) => random.within(capacity / 2, capacity + capacity / 4),
        (_, 1) => 0,
        (_, 2) => random.within(1, 2),
        (_, 3 | 4) => (sending + random.within(0, 2)).saturating_sub(1),
        (_, 5) => (capacity + random.within(0, 2)).saturating_sub(1),
        _ => random.within(0, capacity),
    };
    word.min(WHOLE)
}

/// A rate or a limit from 0 to `most`: mostly the most, in part anything, in part nothing.
fn part_of(random: &mut Random, most: u32) -> u32 {
    match random.below(8) {
        0 => 0,
        1..=3 => most,
        _ => random.within(0, most.into()) as u32,
    }
}

/// A plan within bounds; every third posts full speed everywhere.
pub fn plan(random: &mut Random, input: &Input) -> Vec<u32> {
    let full_speed_everywhere = random.one_in(3);
    let mut plan = Vec::with_capacity(input.size.plan());
    for _ in 0..input.size.steps {
        for i in 0..input.size.nodes() {
            let node = input.node(i);
            let limit = match full_speed_everywhere {
                true => node.full_speed,
                false => part_of(random, node.full_speed),
            };
            plan.extend([part_of(random, node.ramp_capacity), limit]);
        }
    }
    plan
}
