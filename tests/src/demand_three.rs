//! Demand 3 by trying everything on tiny corridors: all valid plans, and all proposals with flows
//! up to one beyond what can flow, the records all of one kind, and equal only if all words are.
//! Asked of any side; the side's own simulator alone says which records there are and what a rate
//! gives.

use crate::calls::WordCalls;
use crate::model::lists::{corridor_of, Node};
use crate::model::{Input, Kind, Kinds, Quick, Record, Rules, Size};
use crate::random::records::record_of_flows;
use crate::random::Random;
use crate::tally::capacity_drop::WHERE_DROPPED;
use crate::tally::downstream::WHERE_LESS_MAY_LEAVE;
use crate::tally::{Tally, SETTINGS};
use std::collections::{BTreeMap, BTreeSet};

/// A corridor with few settings, its demands, and the kind of the records that are proposed, lent
/// and compared.
struct Tiny {
    corridor: Vec<u32>,
    demands: Vec<u32>,
    record_kind: Kind,
}

/// What the links of a tiny corridor are like.
#[derive(Clone, Copy)]
enum Links {
    /// Many vehicles at low limits: n × v / 65,536 takes few values, so every limit can be tried.
    Slow,
    /// Few vehicles at any speed; for one step only, as the limits tried are those of the start.
    Short,
}

/// A link's F, V, W, J and starting n.
fn link(random: &mut Random, links: Links, most: u64) -> [u32; 5] {
    let capacity = random.within(most / 2, most + 1);
    let [speed, wave, jam, vehicles] = match links {
        Links::Slow => {
            let vehicles = random.pick(&[0, 32_768, 40_000, 50_000, 60_000, 65_536]);
            [random.within(most.div_ceil(2), most), random.within(1, 16), 65_536, vehicles]
        }
        Links::Short => {
            let jam = random.within(most, 2 * most);
            let speeds = [random.within(20_000, 65_535), 65_536];
            let vehicles = random.within(0, jam);
            [random.pick(&speeds), random.within(20_000, 65_536), jam, vehicles]
        }
    };
    [capacity, speed, wave, jam, vehicles].map(|word| word as u32)
}

fn tiny_node(random: &mut Random, i: usize, size: Size, links: Links, most: u64) -> Node {
    let link = match i {
        0 => [0; 5],
        _ => link(random, links, most),
    };
    let ramp = u32::from(i < size.links);
    let queue_limit = random.within(0, 5) + random.pick(&[0, 20, 20]);
    let beside = (link[4] + random.pick(&[0, 1, 1, 2])).saturating_sub(1);
    Node {
        identifier: 100 + i as u32,
        capacity: link[0],
        full_speed: link[1],
        wave_speed: link[2],
        jam: link[3],
        ramp_capacity: ramp * random.within(most / 2, most) as u32,
        queue_limit: ramp * queue_limit as u32,
        start_vehicles: link[4],
        start_queue: ramp * random.within(0, queue_limit.min(5)) as u32,
        dropped_capacity: random.within(0, link[0].into()) as u32,
        drop_density: random.pick(&[0, beside, beside, beside]).min(link[3]),
    }
}

/// Demands of kind 5 have words that often bind, links of kind 10 densities that often do.
fn tiny(random: &mut Random, size: Size, kinds: Kinds, (links, most): (Links, u64)) -> Tiny {
    let all = 0..size.nodes();
    let nodes: Vec<Node> = all.map(|i| tiny_node(random, i, size, links, most)).collect();
    let mut demands = vec![size.steps as u32];
    for _ in 0..size.steps {
        for i in 0..size.nodes() {
            let arrivals = random.below(4) as u32 * u32::from(i < size.links);
            let split = random.pick(&[0, 1, 20_000, 32_768, 40_000, 65_536]);
            demands.extend([arrivals, split * u32::from(i > 0 && i < size.links)]);
        }
    }
    if kinds.demands == Kind::Downstream {
        demands.extend((0..size.steps).map(|_| random.within(0, most) as u32));
    }
    let corridor = corridor_of(kinds.corridor, &nodes);
    Tiny { corridor, demands, record_kind: kinds.record }
}

/// Calls `visit` with every list whose word j is one of `choices[j]`.
fn for_all(choices: &[Vec<u32>], mut visit: impl FnMut(&[u32])) {
    let mut chosen = vec![0; choices.len()];
    loop {
        let words: Vec<u32> = chosen.iter().zip(choices).map(|(&j, from)| from[j]).collect();
        visit(&words);
        let Some(place) = (0..choices.len()).find(|&j| chosen[j] + 1 < choices[j].len()) else {
            return;
        };
        chosen[place] += 1;
        chosen[..place].fill(0);
    }
}

/// The limits to try: all of them, or, where they are many, one for each number of vehicles that
/// any limit sends, and V. A record depends on a limit by what it sends only.
fn limits(node: &Node) -> Vec<u32> {
    if node.full_speed <= 8 {
        return (0..=node.full_speed).collect();
    }
    let sent = |limit: u32| u64::from(node.start_vehicles) * u64::from(limit) / 65_536;
    let first_of_its_kind = |&limit: &u32| limit == 0 || sent(limit) != sent(limit - 1);
    let below = (0..node.full_speed).filter(first_of_its_kind);
    below.chain([node.full_speed]).collect()
}

/// The rates and limits to try for each step and node.
fn plan_choices(input: &Input) -> Vec<Vec<u32>> {
    let nodes = (0..input.size.nodes()).map(|i| input.node(i));
    let rates_and_limits = |node: Node| [(0..=node.ramp_capacity).collect(), limits(&node)];
    let one_step: Vec<Vec<u32>> = nodes.flat_map(rates_and_limits).collect();
    vec![one_step; input.size.steps].concat()
}

fn within_bounds(input: &Input, plan: &[u32]) -> bool {
    plan.chunks_exact(2).enumerate().all(|(place, setting)| {
        let node = input.node(place % input.size.nodes());
        setting[0] <= node.ramp_capacity && setting[1] <= node.full_speed
    })
}

fn queues_hold(input: &Input, record: &Record) -> bool {
    let later = 1..=input.size.steps;
    later
        .flat_map(|k| (0..input.size.nodes()).map(move |i| (k, i)))
        .all(|(k, i)| record.entry(k, i).queue <= input.node(i).queue_limit.into())
}

/// A side, and the corridor and demands that it is asked about.
struct Asked<'a> {
    calls: &'a dyn WordCalls,
    corridor: &'a [u32],
    demands: &'a [u32],
    input: Input<'a>,
    record_kind: Kind,
}

impl<'a> Asked<'a> {
    fn new(calls: &'a dyn WordCalls, tiny: &'a Tiny) -> Asked<'a> {
        let Tiny { corridor, demands, record_kind } = tiny;
        let input = Input::new(corridor, demands).expect("of right lengths");
        assert_eq!(Quick::test_input(&input), Ok(()));
        Asked { calls, corridor, demands, input, record_kind: *record_kind }
    }

    fn simulated(&self, plan: &[u32]) -> Vec<u32> {
        let mut record = vec![7; self.record_kind.words(self.input.size)];
        assert_eq!(self.calls.simulate(self.corridor, self.demands, plan, &mut record), 0);
        record
    }

    fn record_of(&self, words: &[u32]) -> Record {
        Record::from_words(self.record_kind, self.input.size, words)
    }

    /// The demands of step k as those of a corridor of one step.
    fn demands_of_step(&self, k: usize) -> Vec<u32> {
        let size = self.input.size;
        let row = size.demand_place(k, 0)..size.demand_place(k + 1, 0);
        let mut demands = vec![1];
        demands.extend(&self.demands[row]);
        demands.extend(self.demands.get(size.downstream_place(k)));
        demands
    }

    /// f and r of node i at step k with that rate and V: the same node in a corridor of one step
    /// that starts in the record's state k.
    fn at_full_speed(&self, record: &Record, (k, i): (usize, usize), rate: u32) -> (u64, u64) {
        let mut corridor = self.corridor.to_vec();
        for (j, now) in record.state(k).iter().enumerate() {
            let start = 1 + self.input.corridor_kind.node_words() * j + 7;
            corridor[start..start + 2].copy_from_slice(&now.words()[..2]);
        }
        let one_step = Size { steps: 1, ..self.input.size };
        let demands = self.demands_of_step(k);
        let mut plan = vec![0; one_step.plan()];
        (plan[2 * i], plan[2 * i + 1]) = (rate, self.input.node(i).full_speed);
        let mut record = vec![7; self.record_kind.words(one_step)];
        assert_eq!(self.calls.simulate(&corridor, &demands, &plan, &mut record), 0);
        let flows = Record::from_words(self.record_kind, one_step, &record).entry(0, i);
        (flows.flow, flows.ramp_flow)
    }
}

/// The records of all valid plans, each with the one normal form that all its plans must share.
fn records_of_valid_plans(asked: &Asked) -> BTreeMap<Vec<u32>, Vec<u32>> {
    let (input, mut records) = (&asked.input, BTreeMap::new());
    for_all(&plan_choices(input), |plan| {
        let record = asked.simulated(plan);
        let mut work = vec![7; record.len()];
        let mut form = vec![7; input.size.plan()];
        let answer = asked.calls.normal(asked.corridor, asked.demands, plan, &mut work, &mut form);
        assert_eq!(answer == 0, queues_hold(input, &asked.record_of(&record)));
        assert_eq!(work, record);
        if answer == 0 {
            let first = records.entry(record).or_insert(form.clone());
            assert_eq!(*first, form, "same record, same normal form");
        }
    });
    records
}

/// The plan of an accepted record: has it, is valid, is set full or held as the paper says.
fn assert_plan(asked: &Asked, record: &[u32], plan: &[u32]) {
    let input = &asked.input;
    assert!(within_bounds(input, plan));
    assert_eq!(asked.simulated(plan), record);
    let record = asked.record_of(record);
    assert!(queues_hold(input, &record));
    for k in 0..input.size.steps {
        for i in 0..input.size.nodes() {
            let place = input.size.plan_place(k, i);
            assert_setting(asked, &record, (k, i), (plan[place], plan[place + 1]));
        }
    }
}

/// Full with the smallest rate that gives the flows at full speed; held where none from 0 to C
/// does.
fn assert_setting(asked: &Asked, record: &Record, place: (usize, usize), setting: (u32, u32)) {
    let node = asked.input.node(place.1);
    let here = record.entry(place.0, place.1);
    let wanted = (here.flow, here.ramp_flow);
    let mut rates = 0..=node.ramp_capacity;
    match rates.find(|&rate| asked.at_full_speed(record, place, rate) == wanted) {
        Some(smallest) => assert_eq!(setting, (smallest, node.full_speed)),
        None => {
            assert!(setting.1 < node.full_speed);
            let mut limits = 0..=node.full_speed;
            let smallest = limits.find(|&v| here.vehicles * u64::from(v) / 65_536 == here.flow);
            assert_eq!((setting.0.into(), Some(setting.1)), (here.ramp_flow, smallest));
        }
    }
}

/// The converter and the checker on one proposal: accepted exactly when some valid plan has it.
fn assert_proposal(asked: &Asked, records: &BTreeMap<Vec<u32>, Vec<u32>>, record: &[u32]) -> bool {
    let form = records.get(record);
    let as_lent = vec![7; asked.input.size.plan()];
    let mut plan = as_lent.clone();
    let answer = asked.calls.convert(asked.corridor, asked.demands, record, &mut plan);
    assert_eq!(answer == 0, form.is_some(), "{answer} {record:?}");
    assert_eq!(answer, asked.calls.check(asked.corridor, asked.demands, record));
    assert_eq!(plan, *form.unwrap_or(&as_lent));
    form.is_some()
}

/// The f and r to propose at each step and node: all up to one beyond what can ever flow there.
fn flow_choices(input: &Input) -> Vec<Vec<u32>> {
    let mut choices: Vec<Vec<u32>> = vec![];
    for i in 0..input.size.nodes() {
        let node = input.node(i);
        let most = node.capacity.min(if node.full_speed > 8 { node.jam } else { node.full_speed });
        choices.push((0..=most + u32::from(i > 0)).collect());
        choices.push((0..=node.ramp_capacity + u32::from(i < input.size.links)).collect());
    }
    vec![choices; input.size.steps].concat()
}

/// Everything on one corridor; how many proposals were accepted and how many refused.
fn try_corridor(asked: &Asked, tally: &mut Tally) -> [u64; 2] {
    let input = &asked.input;
    let records = records_of_valid_plans(asked);
    let forms: BTreeSet<_> = records.values().collect();
    assert_eq!(forms.len(), records.len(), "different records, different normal forms");
    let mut counts = [0; 2];
    for (record, form) in &records {
        assert_plan(asked, record, form);
        tally.settings(input, &asked.record_of(record), form);
        for place in 0..record.len() {
            for by in [1, u32::MAX] {
                let mut other = record.clone();
                other[place] = other[place].wrapping_add(by);
                counts[usize::from(!assert_proposal(asked, &records, &other))] += 1;
            }
        }
    }
    for_all(&flow_choices(input), |flows| {
        let record = record_of_flows(input, |k, i, _| {
            let place = input.size.plan_place(k, i);
            (flows[place].into(), flows[place + 1].into())
        });
        let record = record.words(asked.record_kind);
        counts[usize::from(!assert_proposal(asked, &records, &record))] += 1;
    });
    counts
}

/// A number of corridors of one size and one kind of links, with all kinds of lists in turn.
struct Batch {
    count: usize,
    size: Size,
    links: (Links, u64),
}

fn try_corridors(calls: &dyn WordCalls, seed: u64, batch: Batch) -> Tally {
    let Batch { count, size, links } = batch;
    let mut random = Random::new(seed);
    let mut tally = Tally::default();
    for kinds in Kinds::all().cycle().take(count) {
        let tiny = tiny(&mut random, size, kinds, links);
        let [accepted, refused] = try_corridor(&Asked::new(calls, &tiny), &mut tally);
        tally.add("proposals accepted", 0, accepted);
        tally.add("proposals refused", 0, refused);
    }
    tally.print();
    for name in ["proposals accepted", "proposals refused"] {
        tally.expect(name, &[0], count as u64);
    }
    let inner = size.links > 1;
    for name in SETTINGS.into_iter().filter(|name| inner || !name.contains("inner")) {
        tally.expect(name, &[0], count as u64 / 4);
    }
    tally
}

/// Demand 3 of a side, on corridors of all these sizes made from that seed, one in `part` of them,
/// as many of each kind of corridor, of demands and of record.
pub fn assert_demand_three(calls: &dyn WordCalls, seed: u64, part: usize) {
    let batches = [
        (1_000, (1, 1), (Links::Slow, 4)),
        (200, (1, 2), (Links::Slow, 4)),
        (2_000, (2, 1), (Links::Slow, 4)),
        (120, (2, 2), (Links::Slow, 2)),
        (600, (3, 1), (Links::Slow, 2)),
        (2_000, (2, 1), (Links::Short, 4)),
        (600, (3, 1), (Links::Short, 2)),
    ];
    let names = [WHERE_LESS_MAY_LEAVE, WHERE_DROPPED].concat();
    let mut seen = vec![0; names.len()];
    for (seed, (count, (n, k), links)) in (seed + 1..).zip(batches) {
        let (count, size) = (count / part, Size { links: n, steps: k });
        let tally = try_corridors(calls, seed, Batch { count, size, links });
        for (count, name) in seen.iter_mut().zip(&names) {
            *count += tally.count(name, 0);
        }
    }
    let enough = seen.iter().all(|&count| count > 1_000 / part as u64);
    assert!(enough, "{names:?}: {seen:?}");
}
