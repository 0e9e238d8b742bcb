//! Cases at the limits of document 01, the same at every run: the longest lists with the greatest
//! amounts, and N and K on either side of their limits while all else is sound.

use crate::model::lists::{corridor_of, Node};
use crate::model::{Input, Kind, Kinds, List, Size, MOST_QUEUE_LIMIT, WHOLE};
use crate::random::files::{FileCase, ThreeFiles};
use crate::random::records::record_of_plan;
use crate::random::sound::WordCase;

/// 65,536 as a word.
const MOST: u32 = WHOLE as u32;

/// A case of any size, also one beyond the limits, with every amount but the vehicles and queues at
/// its greatest. With jammed links and full queues nothing moves but at the end, and every queue
/// passes its limit; with half the vehicles and no queues products of 2^32 occur and every queue
/// stays within its limit. With demands of kind 5 an eighth of the most may leave link N in every
/// other step, and the most of all in those between; with a corridor of kind 10 each link with more
/// than half the vehicles discharges a quarter of the most; with a record of kind 7 an eighth of
/// what leaves each inner link is listed as an exit.
pub fn greatest(size: Size, kinds: Kinds, jammed: bool) -> WordCase {
    let nodes: Vec<Node> = (0..size.nodes()).map(|i| greatest_node(size, i, jammed)).collect();
    let mut demands = vec![size.steps as u32];
    let mut plan = vec![];
    for _ in 0..size.steps {
        for i in 0..size.nodes() {
            let ramp = u32::from(i < size.links);
            let inner = u32::from(i > 0) * ramp;
            demands.extend([ramp * MOST, inner * MOST / 8]);
            plan.extend([ramp * MOST, u32::from(i > 0) * MOST]);
        }
    }
    if kinds.demands == Kind::Downstream {
        demands.extend((0..size.steps).map(|k| [MOST / 8, MOST][k % 2]));
    }
    let corridor = corridor_of(kinds.corridor, &nodes);
    let input = Input::of_size(size, kinds.corridor, &corridor, &demands);
    let record = record_of_plan(&input, &plan).words(kinds.record);
    let (lent_kind, lent_record, lent_plan) = (kinds.record, record.len(), size.plan());
    WordCase { kinds, corridor, demands, plan, record, lent_kind, lent_record, lent_plan }
}

fn greatest_node(size: Size, i: usize, jammed: bool) -> Node {
    let (link, ramp) = (u32::from(i > 0), u32::from(i < size.links));
    Node {
        identifier: u32::MAX - i as u32,
        capacity: link * MOST,
        full_speed: link * MOST,
        wave_speed: link * MOST,
        jam: link * MOST,
        ramp_capacity: ramp * MOST,
        queue_limit: ramp * MOST_QUEUE_LIMIT,
        start_vehicles: link * if jammed { MOST } else { MOST / 2 },
        start_queue: if jammed { ramp * MOST_QUEUE_LIMIT } else { 0 },
        dropped_capacity: link * MOST / 4,
        drop_density: link * MOST / 2,
    }
}

/// N and K with lists and files of just the lengths that they tell, sound in everything else, so
/// that nothing but a limit of N or K can have such a case refused.
pub struct LimitCase {
    pub n: u32,
    pub k: u32,
    pub lists: WordCase,
}

impl LimitCase {
    fn of_size(size: Size, kinds: Kinds) -> LimitCase {
        let (n, k) = (size.links as u32, size.steps as u32);
        LimitCase { n, k, lists: greatest(size, kinds, false) }
    }

    pub fn is_within(&self) -> bool {
        (1..=64).contains(&self.n) && (1..=1_440).contains(&self.k)
    }

    /// What the reader and the writer of each list take.
    pub fn file_cases(&self) -> Vec<FileCase> {
        let lists = self.lists.by_kind().into_iter();
        lists.map(|(kind, words)| FileCase::sound(kind, self.n, self.k, words.clone())).collect()
    }

    pub fn three_files(&self) -> ThreeFiles {
        ThreeFiles::told(self.n, self.k, &self.lists)
    }
}

/// One count on either side of each of its limits, the other at its limits and between them.
fn limit_sizes() -> impl Iterator<Item = Size> {
    let links = [0, 1, 64, 65].into_iter();
    let links = links.flat_map(|links| [1, 7, 1_440].map(|steps| Size { links, steps }));
    let steps = [0, 1, 1_440, 1_441].into_iter();
    let steps = steps.flat_map(|steps| [1, 5, 64].map(|links| Size { links, steps }));
    links.chain(steps)
}

/// Those sizes with all lists of their oldest kind, and all of their newest; and counts so large
/// that lengths in 32 bits wrap round to small ones.
pub fn limit_cases() -> impl Iterator<Item = LimitCase> {
    let of_kinds = |kinds: Kinds| {
        let cases = limit_sizes().map(move |size| LimitCase::of_size(size, kinds));
        cases.chain([no_node(kinds)])
    };
    let wrapping = List::Record.kinds().iter().map(|&record| steps_that_wrap_round(record));
    [Kinds::OLDEST, Kinds::NEWEST].into_iter().flat_map(of_kinds).chain(wrapping)
}

/// N = 2^32 − 1, for which N + 1 nodes are none at all in 32 bits: the lists of no node.
fn no_node(kinds: Kinds) -> LimitCase {
    let lists = WordCase {
        kinds,
        corridor: vec![u32::MAX],
        demands: match kinds.demands {
            Kind::Downstream => vec![1, MOST],
            _ => vec![1],
        },
        plan: vec![],
        record: vec![0, 0],
        lent_kind: kinds.record,
        lent_record: 2,
        lent_plan: 0,
    };
    LimitCase { n: u32::MAX, k: 1, lists }
}

/// K = 2^31, for which the lengths of kind 2, of a plan and of a record of either kind are in 32
/// bits those of K = 0. Kind 5 has no such K: its length grows by an odd number with each step.
fn steps_that_wrap_round(record: Kind) -> LimitCase {
    let kinds = Kinds { record, ..Kinds::OLDEST };
    let mut lists = greatest(Size { links: 5, steps: 0 }, kinds, false);
    lists.demands[0] = 1 << 31;
    LimitCase { n: 5, k: 1 << 31, lists }
}

/// Words that are a given one in fewer bits.
pub fn same_in_fewer_bits(word: u32) -> [u32; 3] {
    [256, 65_536, 1 << 31].map(|more| word.wrapping_add(more))
}
