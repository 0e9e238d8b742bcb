//! Cases with damage: words changed, flows moved by one, wrong exits, lists cut and extended, wrong
//! N and K, a corridor, demands or a record of the other kind, records that break rules; and the
//! mixes of cases that the tests run.

use super::records::faulty_record;
use super::sound::{sound_case, WordCase};
use super::Random;
use crate::model::lists::{corridor_of, test_input, Node, MOST_LINKS, MOST_STEPS, NODE_WORDS};
use crate::model::record::ENTRY_WORDS;
use crate::model::{Entry, Input, Kind, List, Quick, Record, Refusal, Rules, Size, WHOLE};

/// A size with at most that many links and steps.
pub fn size(random: &mut Random, links: u64, steps: u64) -> Size {
    let n = random.within(1, links) as u32;
    let k = random.within(1, steps) as u32;
    Size::new(n, k).expect("asked for within limits")
}

/// The largest size.
pub fn full_size() -> Size {
    Size::new(MOST_LINKS, MOST_STEPS).expect("the limits themselves")
}

/// A small case, now and then one of middle size, in which a cost can pass 32 bits.
pub fn small_case(random: &mut Random) -> WordCase {
    let size = match random.one_in(16) {
        true => size(random, 20, 30),
        false => size(random, 6, 6),
    };
    mixed_case(random, size, false)
}

/// A small case whose ramps are short enough to search every rate.
pub fn short_ramp_case(random: &mut Random) -> WordCase {
    let size = size(random, 6, 6);
    mixed_case(random, size, true)
}

/// A large case, up to the limits, some at them.
pub fn large_case(random: &mut Random) -> WordCase {
    let size = match random.one_in(8) {
        true => full_size(),
        false => size(random, MOST_LINKS.into(), MOST_STEPS.into()),
    };
    mixed_case(random, size, false)
}

/// Half of these cases are sound, half damaged once or twice.
pub fn mixed_case(random: &mut Random, size: Size, short_ramps: bool) -> WordCase {
    let mut case = sound_case(random, size, short_ramps);
    if random.one_in(2) {
        return case;
    }
    damage(random, &mut case);
    if random.one_in(4) {
        damage(random, &mut case);
    }
    case
}

/// One kind of damage.
fn damage(random: &mut Random, case: &mut WordCase) {
    match random.below(54) {
        0..=2 => change_words(random, &mut case.corridor),
        3 | 4 => change_words(random, &mut case.demands),
        5 | 6 => change_words(random, &mut case.plan),
        7 | 8 => change_words(random, &mut case.record),
        9 => repeat_identifier(random, case),
        10 | 11 => change_cost(random, &mut case.record),
        12 | 13 => cut_or_extend_one(random, case),
        14 => change_lent(random, case),
        15 => change_count(random, case),
        16 | 17 => change_state(random, case),
        18 => move_flow(random, case),
        19 | 20 => overfill_start(random, case),
        21 | 22 => change_fixed(random, case),
        23..=25 => change_downstream(random, case),
        26 | 27 => change_demands_kind(random, case),
        28..=31 => change_drop(random, case),
        32 | 33 => change_corridor_kind(random, case),
        34..=40 => change_exit(random, case),
        41 | 42 => change_record_kind(random, case),
        43 => lend_another_kind(random, case),
        _ => propose_faulty(random, case),
    }
}

fn change_words(random: &mut Random, words: &mut [u32]) {
    for _ in 0..random.within(1, 3) {
        if !words.is_empty() {
            let place = random.below(words.len());
            words[place] = random.strange_word(words[place]);
        }
    }
}

/// Where the words of some node begin, if the corridor has a whole one.
fn some_node(random: &mut Random, case: &WordCase) -> Option<usize> {
    let width = case.kinds.corridor.node_words();
    let nodes = case.corridor.len().saturating_sub(1) / width;
    (nodes > 0).then(|| 1 + width * random.below(nodes))
}

/// One node's identifier in the place of another's.
fn repeat_identifier(random: &mut Random, case: &mut WordCase) {
    if let (Some(from), Some(to)) = (some_node(random, case), some_node(random, case)) {
        case.corridor[to] = case.corridor[from];
    }
}

/// Changes one of the last two words.
fn change_cost(random: &mut Random, record: &mut [u32]) {
    let back = random.below(2) + 1;
    if let Some(place) = record.len().checked_sub(back) {
        record[place] = random.strange_word(record[place]);
    }
}

/// Makes a list longer or shorter: by one, by some, or empty.
pub fn cut_or_extend<T: Copy + Default>(random: &mut Random, list: &mut Vec<T>) {
    let by = random.pick(&[1, 1, 2, 9, 512]);
    match random.below(5) {
        0 | 1 => list.truncate(list.len().saturating_sub(by)),
        2 | 3 => list.resize(list.len() + by, T::default()),
        _ => list.clear(),
    }
}

fn cut_or_extend_one(random: &mut Random, case: &mut WordCase) {
    match random.below(4) {
        0 => cut_or_extend(random, &mut case.corridor),
        1 => cut_or_extend(random, &mut case.demands),
        2 => cut_or_extend(random, &mut case.plan),
        _ => cut_or_extend(random, &mut case.record),
    }
}

/// Another length of a lent list: beside the right one, twice that, or nothing.
pub fn other_length(random: &mut Random, length: usize) -> usize {
    match random.below(6) {
        0 | 1 => length + 1,
        2 | 3 => length.saturating_sub(1),
        4 => 2 * length,
        _ => 0,
    }
}

fn change_lent(random: &mut Random, case: &mut WordCase) {
    match random.one_in(2) {
        true => case.lent_record = other_length(random, case.lent_record),
        false => case.lent_plan = other_length(random, case.lent_plan),
    }
}

/// Another N or K as a list's first word.
fn change_count(random: &mut Random, case: &mut WordCase) {
    let list = match random.one_in(2) {
        true => &mut case.corridor,
        false => &mut case.demands,
    };
    if let Some(count) = list.first_mut() {
        *count = random.strange_word(*count);
    }
}

/// Corridor and demands if their lengths and the record's are still right, as later damage needs.
fn input_of<'a>(case: &'a WordCase) -> Option<Input<'a>> {
    Some(input_and_kind(case)?.0)
}

/// The same with the kind that the record's length tells.
fn input_and_kind<'a>(case: &'a WordCase) -> Option<(Input<'a>, Kind)> {
    let input = Input::new(&case.corridor, &case.demands).ok()?;
    let kind = List::Record.kind_of_length(input.size, case.record.len()).ok()?;
    Some((input, kind))
}

/// The size and the kind of a case's record, if its lengths are still right.
fn record_form(case: &WordCase) -> Option<(Size, Kind)> {
    input_and_kind(case).map(|(input, kind)| (input.size, kind))
}

/// A flow one more or one less, without anything else following.
fn move_flow(random: &mut Random, case: &mut WordCase) {
    if let Some((size, kind)) = record_form(case) {
        let (k, i) = (random.below(size.steps), random.below(size.nodes()));
        let place = kind.entry_place(size, k, i) + 2 + random.below(2);
        let by = random.pick(&[1, u32::MAX]);
        case.record[place] = case.record[place].wrapping_add(by);
    }
}

/// An n or l of some state one more or one less, without anything else following.
fn change_state(random: &mut Random, case: &mut WordCase) {
    if let Some((size, kind)) = record_form(case) {
        let (k, i) = (random.below(size.steps + 1), random.below(size.nodes()));
        let place = kind.entry_place(size, k, i) + random.below(2);
        let by = random.pick(&[1, u32::MAX]);
        case.record[place] = case.record[place].wrapping_add(by);
    }
}

/// One more vehicle than the jam, or one more in the queue than its limit, at the start.
fn overfill_start(random: &mut Random, case: &mut WordCase) {
    if let Some(node) = some_node(random, case) {
        let (limit, start) = random.pick(&[(4, 7), (6, 8)]);
        case.corridor[node + start] = case.corridor[node + limit].wrapping_add(1);
    }
}

/// Dropped capacity or drop density of some node one more than F or J, F being perhaps J or the
/// most of all; or any word; or one that is not zero at node 0.
fn change_drop(random: &mut Random, case: &mut WordCase) {
    let drop = case.kinds.corridor == Kind::CapacityDrop;
    let Some(node) = some_node(random, case).filter(|_| drop) else {
        return;
    };
    let (bound, word) = random.pick(&[(1, NODE_WORDS), (4, NODE_WORDS + 1)]);
    match random.below(6) {
        0 => case.corridor[1 + word] = random.pick(&[1, WHOLE as u32]),
        1 => case.corridor[node + word] = random.strange_word(case.corridor[node + word]),
        _ => {
            if node > 1 {
                let (capacity, jam) = (case.corridor[node + 1], case.corridor[node + 4]);
                case.corridor[node + 1] = random.pick(&[capacity, capacity, jam, WHOLE as u32]);
            }
            case.corridor[node + word] = case.corridor[node + bound].wrapping_add(1);
        }
    }
}

/// The corridor as a list of the other kind: each node without its last two words, or with two
/// more.
fn change_corridor_kind(random: &mut Random, case: &mut WordCase) {
    let Some(input) = input_of(case) else {
        return;
    };
    let nodes: Vec<Node> = (0..input.size.nodes()).map(|i| input.node(i)).collect();
    let kind = match input.has_drop() {
        true => Kind::Corridor,
        false => Kind::CapacityDrop,
    };
    let most = random.pick(&[0, 100, WHOLE]);
    let nodes = nodes.into_iter().map(|node| match random.one_in(2) {
        true => node,
        false => Node {
            dropped_capacity: random.within(0, most).min(node.capacity.into()) as u32,
            drop_density: random.within(0, most).min(node.jam.into()) as u32,
            ..node
        },
    });
    case.corridor = corridor_of(kind, &nodes.collect::<Vec<_>>());
    case.kinds.corridor = kind;
}

/// A fixed zero, or a word of state 0, that is not what it should be.
fn change_fixed(random: &mut Random, case: &mut WordCase) {
    let Some((size, kind)) = record_form(case) else {
        return;
    };
    let (k, i) = (random.below(size.steps + 1), random.below(size.nodes()));
    let half = random.below(2);
    let place = match random.below(4) {
        0 => kind.entry_place(size, 0, i) + half,
        1 => kind.entry_place(size, size.steps, i) + 2 + half,
        2 => kind.entry_place(size, k, 0) + 2 * half,
        _ => kind.entry_place(size, k, size.links) + 1 + 2 * half,
    };
    case.record[place] = random.strange_word(case.record[place]);
}

/// The flow that may leave link N in some step beyond its range, or any word; perhaps arrivals or a
/// split of some step beyond theirs, as all of them are judged by step, then node.
fn change_downstream(random: &mut Random, case: &mut WordCase) {
    let kind_five = input_of(case).filter(Input::has_downstream);
    let Some(size) = kind_five.map(|input| input.size) else {
        return;
    };
    let place = size.downstream_place(random.below(size.steps));
    let strange = random.strange_word(case.demands[place]);
    case.demands[place] = random.pick(&[WHOLE as u32 + 1, strange]);
    if random.one_in(2) {
        let (k, i) = (random.below(size.steps), random.below(size.nodes()));
        case.demands[size.demand_place(k, i) + random.below(2)] = WHOLE as u32 + 1;
    }
}

/// The demands as a list of the other kind: without the last K words, or with K more.
fn change_demands_kind(random: &mut Random, case: &mut WordCase) {
    let Some((size, shorter)) = input_of(case).map(|input| (input.size, input.has_downstream()))
    else {
        return;
    };
    if shorter {
        case.kinds.demands = Kind::Demands;
        return case.demands.truncate(size.demands());
    }
    case.kinds.demands = Kind::Downstream;
    let most = random.pick(&[0, 100, WHOLE, WHOLE + 1]);
    case.demands.extend((0..size.steps).map(|_| random.within(0, most) as u32));
}

/// A whole record that breaks rules in one step and is consistent otherwise. It takes sound
/// lists, so a case damaged before keeps its record.
fn propose_faulty(random: &mut Random, case: &mut WordCase) {
    let sound = |input: &Input| test_input::<Quick>(input).is_ok();
    let found = input_and_kind(case).filter(|(input, _)| sound(input));
    if let Some((input, kind)) = found {
        case.record = faulty_record(random, &input).words(kind);
    }
}

/// A wrong exit in a record of kind 7, or in what the record would be as one: where it is fixed at
/// zero, where the record is refused for something else, or at an inner node; perhaps with the next
/// state wrong too.
fn change_exit(random: &mut Random, case: &mut WordCase) {
    if case.kinds.record == Kind::Record {
        change_record_kind(random, case);
    }
    if random.one_in(4) {
        propose_faulty(random, case);
    }
    let Some((input, Kind::OffRamps)) = input_and_kind(case) else {
        return;
    };
    let (size, kind) = (input.size, Kind::OffRamps);
    let record = Record::new(size, &case.record).expect("of a right length");
    let (k, i) = exit_to_change(random, &input, &record);
    let split = if k < size.steps { input.split(k, i) } else { WHOLE };
    case.record[kind.entry_place(size, k, i) + ENTRY_WORDS] =
        wrong_exit(random, &record.entry(k, i), split);
    if k < size.steps && random.one_in(6) {
        let next = kind.entry_place(size, k + 1, i) + random.below(2);
        case.record[next] = case.record[next].wrapping_add(1);
    }
}

/// The place of that exit, by state and node.
fn exit_to_change(random: &mut Random, input: &Input, record: &Record) -> (usize, usize) {
    let size = input.size;
    let inner = match size.links {
        1 => random.below(2),
        links => 1 + random.below(links - 1),
    };
    let refused = test_input::<Quick>(input).and_then(|()| Quick::check_record(input, record));
    match (random.below(16), refused) {
        (0, _) => (random.below(size.steps + 1), 0),
        (1, _) => (random.below(size.steps + 1), size.links),
        (2 | 3, _) => (size.steps, inner),
        (4..=9, Err(Refusal { number: 8..=12, row, node })) => (row as usize, node as usize),
        _ => (random.below(size.steps), inner),
    }
}

/// Mostly one more or less than it is; or the other part of the flow, all of it, the ramp's part,
/// none, any word.
fn wrong_exit(random: &mut Random, here: &Entry, split: u64) -> u32 {
    let exit = here.exit.unwrap_or(0) as u32;
    match random.below(10) {
        0 | 1 => exit.wrapping_add(1),
        2..=4 => exit.wrapping_sub(1),
        5 => Quick::exit(here.flow, WHOLE.saturating_sub(split)) as u32,
        6 => here.flow as u32,
        7 => Quick::exit(here.ramp_flow, split.min(WHOLE)) as u32,
        8 => 0,
        _ => random.strange_word(exit),
    }
}

/// The record as a list of the other kind: without its exits, or with those that its flows and the
/// splits make, or with others.
fn change_record_kind(random: &mut Random, case: &mut WordCase) {
    let Some((input, kind)) = input_and_kind(case) else {
        return;
    };
    let mut record = Record::new(input.size, &case.record).expect("of a right length");
    let other = random.one_in(4);
    for k in 0..input.size.steps {
        for i in 0..input.size.nodes() {
            let entry = record.entry_mut(k, i);
            let split = input.split(k, i).min(WHOLE);
            entry.exit = match other {
                true => Some(random.within(0, 1)),
                false => Some(Quick::exit(entry.flow, split)),
            };
        }
    }
    let kind = match kind {
        Kind::Record => Kind::OffRamps,
        _ => Kind::Record,
    };
    case.record = record.words(kind);
    case.kinds.record = kind;
}

/// A lent record of the other kind's length, or of one word more or less than either kind has.
fn lend_another_kind(random: &mut Random, case: &mut WordCase) {
    if let Some((size, _)) = record_form(case) {
        case.lent_kind = random.pick(List::Record.kinds());
        let beside = case.lent_kind.words(size) as u64 + random.within(0, 2) - 1;
        case.lent_record = beside as usize;
    }
}
