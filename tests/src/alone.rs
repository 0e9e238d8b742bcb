//! One node by itself, in a corridor of one step: the flows that a side gives for a rate and a limit,
//! and what it gives for flows.

use crate::calls::WordCalls;
use crate::model::lists::{corridor_of, Node};
use crate::model::search::OUT_WORDS;
use crate::model::{Input, Kind, Kinds, NodeStep, Size, MOST_QUEUE_LIMIT, WHOLE};
use crate::random::records::record_of_flows;
use crate::random::sound::WordCase;
use crate::random::Random;

/// A node at a step with a ramp as long as any, half of them of capacity 65,536; and, one in four,
/// node N, which has no ramp, half of them with demands that let it send whatever it can. Half of
/// the links have a drop, most of these at a density near n or below it.
pub fn long_ramp(random: &mut Random) -> NodeStep {
    let (capacity, vehicles) = (random.within(0, WHOLE), random.within(0, WHOLE));
    let near = (vehicles + random.within(0, 2)).saturating_sub(1).min(WHOLE);
    let density = [near, random.within(0, vehicles), random.within(0, WHOLE)];
    let (dropped_capacity, drop_density) = match random.one_in(2) {
        true => (capacity, WHOLE),
        false => (random.within(0, capacity), random.pick(&density)),
    };
    let at = NodeStep {
        capacity,
        dropped_capacity,
        drop_density,
        full_speed: random.pick(&[WHOLE, WHOLE / 3]),
        ramp_capacity: random.pick(&[WHOLE, 60_000]),
        vehicles,
        queue: random.within(0, 2 * WHOLE),
        arrivals: 0,
        split: random.pick(&[0, WHOLE / 5, WHOLE]),
        supply: random.within(0, 2_000),
    };
    match random.below(8) {
        0 => NodeStep { ramp_capacity: 0, queue: 0, split: 0, supply: WHOLE, ..at },
        1 => NodeStep { ramp_capacity: 0, queue: 0, split: 0, ..at },
        2 | 3 => at,
        _ => NodeStep { supply: random.within(0, WHOLE), ..at },
    }
}

/// A corridor of one step in which node 1 is the one given, of kind 1 if its link has no drop.
/// Where it has a ramp, or a queue for one of no capacity, a next link goes on from there, empty and
/// with just the capacity to be received; otherwise node 1 is node N.
pub struct Alone {
    pub node: Node,
    corridor_kind: Kind,
    corridor: Vec<u32>,
    demands: Vec<u32>,
    size: Size,
}

/// The words of node 1 in a plan, and its n in state 0 of a record of kind 3; l, f and r follow.
const SETTING: usize = 2;
const STATE: usize = 4;

impl Alone {
    pub fn new(at: &NodeStep) -> Alone {
        let nothing = Node::from_words(&[0; 9]);
        let (jam, supply) = (WHOLE as u32, at.supply as u32);
        let last = (at.ramp_capacity, at.queue) == (0, 0);
        let node = Node {
            identifier: 2,
            capacity: at.capacity as u32,
            full_speed: at.full_speed as u32,
            wave_speed: 1,
            jam,
            ramp_capacity: at.ramp_capacity as u32,
            queue_limit: if last { 0 } else { MOST_QUEUE_LIMIT },
            start_vehicles: at.vehicles as u32,
            start_queue: at.queue as u32,
            dropped_capacity: at.dropped_capacity as u32,
            drop_density: at.drop_density as u32,
        };
        let mut nodes = vec![Node { identifier: 1, ..nothing }, node];
        let mut demands = vec![1, 0, 0, at.arrivals as u32, at.split as u32];
        match last {
            // A list of kind 2 counts as 65,536.
            true if at.supply == WHOLE => {}
            true => demands.push(supply),
            false => {
                let (capacity, wave_speed) = (supply, jam);
                let link = Node { capacity, full_speed: 1, wave_speed, jam, ..nothing };
                nodes.push(Node { identifier: 3, ..link });
                demands.extend([0, 0]);
            }
        }
        let corridor_kind = match (at.dropped_capacity, at.drop_density) == (at.capacity, WHOLE) {
            true => Kind::Corridor,
            false => Kind::CapacityDrop,
        };
        let size = Size { links: nodes.len() - 1, steps: 1 };
        let corridor = corridor_of(corridor_kind, &nodes);
        Alone { node, corridor_kind, corridor, demands, size }
    }

    /// f and r that a side gives for a rate and a limit.
    pub fn flows(&self, calls: &dyn WordCalls, rate: u64, limit: u64) -> (u64, u64) {
        let mut plan = [0; 6];
        (plan[SETTING], plan[SETTING + 1]) = (rate as u32, limit as u32);
        let mut record = [7; 26];
        let (plan, record) =
            (&plan[..self.size.plan()], &mut record[..Kind::Record.words(self.size)]);
        assert_eq!(calls.simulate(&self.corridor, &self.demands, plan, record), 0);
        (record[STATE + 2].into(), record[STATE + 3].into())
    }

    /// All lists, with a record of that kind which has those flows; they must be permitted.
    pub fn case(&self, record_kind: Kind, flows: (u64, u64)) -> WordCase {
        let Alone { corridor_kind, corridor, demands, size, .. } = self;
        let input = Input::new(corridor, demands).expect("made to these lengths");
        let record = record_of_flows(&input, |_, i, _| if i == 1 { flows } else { (0, 0) });
        let demands_kind = match input.has_downstream() {
            true => Kind::Downstream,
            false => Kind::Demands,
        };
        WordCase {
            kinds: Kinds { corridor: *corridor_kind, demands: demands_kind, record: record_kind },
            corridor: corridor.clone(),
            demands: demands.clone(),
            plan: vec![0; size.plan()],
            record: record.words(record_kind),
            lent_kind: record_kind,
            lent_record: record_kind.words(*size),
            lent_plan: size.plan(),
        }
    }

    /// The rate and limit that a side gives for flows which are permitted.
    pub fn setting(&self, calls: &dyn WordCalls, flows: (u64, u64)) -> (u64, u64) {
        let case = self.case(Kind::Record, flows);
        let [corridor, demands, record] = case.proposal();
        let mut plan = vec![7; self.size.plan()];
        assert_eq!(calls.convert(corridor, demands, record, &mut plan), 0);
        (plan[SETTING].into(), plan[SETTING + 1].into())
    }

    /// What a side's search for flows which are permitted comes to.
    pub fn search(&self, calls: &dyn WordCalls, flows: (u64, u64)) -> [u32; OUT_WORDS] {
        let mut out = [7; OUT_WORDS];
        let case = self.case(Kind::Record, flows);
        assert_eq!(calls.search(case.proposal(), (0, 1), &mut out), 0);
        out
    }
}
