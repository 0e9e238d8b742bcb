//! Worked cases and refusals for the off-ramp flow in the record: B with records of kind 7.

use super::{assert_converter_answer, b, b_downstream, b_drop, propose, refused};
use super::{capacity_drop::with_drop, ARRIVALS_1, NODE_1, QUEUE_LIMIT};
use crate::calls::WordCalls;
use crate::model::{Kind, Kinds};
use crate::random::sound::WordCase;

/// The words of a record of kind 7, and the places of the exits of nodes 0 to 2 in its two states.
const WORDS: usize = 32;
const EXITS: [[usize; 3]; 2] = [[4, 9, 14], [19, 24, 29]];

/// A case of B with its record, of kind 3, written as one of kind 7 that has that exit at node 1 in
/// step 0 and zeros for all others, and with a lent record of kind 7.
pub fn with_exit(case: WordCase, exit_1: u32) -> WordCase {
    let (entries, cost) = case.record.split_at(24);
    let mut record: Vec<u32> = vec![];
    for entry in entries.chunks_exact(4) {
        record.extend(entry);
        record.push(0);
    }
    record.extend(cost);
    record[EXITS[0][1]] = exit_1;
    let kinds = Kinds { record: Kind::OffRamps, ..case.kinds };
    WordCase { kinds, record, lent_kind: Kind::OffRamps, lent_record: WORDS, ..case }
}

/// B, the plan of case 1 and its record with its exits: case 16.
pub fn b_off_ramps() -> WordCase {
    let record = [
        &[0, 0, 0, 0, 0, 200, 50, 80, 40, 20, 200, 0, 100, 0, 0][..],
        &[0, 30, 0, 0, 0, 120, 20, 0, 0, 0, 200, 0, 0, 0, 0],
        &[370, 0],
    ]
    .concat();
    let kinds = Kinds { record: Kind::OffRamps, ..Kinds::OLDEST };
    WordCase { kinds, record, lent_kind: Kind::OffRamps, lent_record: WORDS, ..b() }
}

/// The same where some other flow is said to leave by off-ramp 1: 21 in case 17.
pub fn exit_proposed(exit_1: u32) -> WordCase {
    with_exit(b(), exit_1)
}

/// B with the corridor of kind 10, the demands of kind 5 and a rate of 26 at node 1, which lets 99
/// units out of link 1: a quarter of them, 24 and a rest, leave by its off-ramp. Case 18.
pub fn b_with_a_rest() -> WordCase {
    let record = [
        &[0, 0, 0, 0, 0, 200, 50, 99, 25, 24, 200, 0, 70, 0, 0][..],
        &[0, 30, 0, 0, 0, 101, 35, 0, 0, 0, 230, 0, 0, 0, 0],
        &[396, 0],
    ]
    .concat();
    let plan = vec![100, 0, 26, 32_768, 0, 32_768];
    let case = with_drop(b_downstream());
    let kinds = Kinds { record: Kind::OffRamps, ..case.kinds };
    WordCase { kinds, plan, record, lent_kind: Kind::OffRamps, lent_record: WORDS, ..case }
}

/// B with the corridor, the demands and the record of either kind.
pub fn b_of_all_kinds() -> [WordCase; 8] {
    let of_kind_3 = [b(), b_downstream(), b_drop(), with_drop(b_downstream())];
    let of_kind_7 = of_kind_3.clone().map(|case| with_exit(case, 20));
    [of_kind_3, of_kind_7].concat().try_into().expect("four of each kind")
}

/// Cases 16 and 18 through all four calls: the record of the plan, accepted, and its plan, which is
/// also the normal form.
pub(super) fn assert_cases(calls: &dyn WordCalls) {
    let cases = [("case 16", b_off_ramps(), 50), ("case 18", b_with_a_rest(), 26)];
    for (name, case, rate_1) in cases {
        let WordCase { corridor, demands, plan: given, record, .. } = &case;
        let mut work = vec![7; WORDS];
        assert_eq!(calls.simulate(corridor, demands, given, &mut work), 0, "{name}");
        assert_eq!(work, *record, "{name}");
        assert_eq!(calls.check(corridor, demands, record), 0, "{name}");
        let (mut plan, mut normal) = (vec![7; 6], vec![7; 6]);
        assert_eq!(calls.convert(corridor, demands, record, &mut plan), 0, "{name}");
        assert_eq!(plan, [0, 0, rate_1, 32_768, 0, 32_768], "{name}");
        work.fill(7);
        assert_eq!(calls.normal(corridor, demands, given, &mut work, &mut normal), 0, "{name}");
        assert_eq!((work, normal), (record.clone(), plan), "{name}");
    }
}

/// The length of a lent record chooses its kind, whatever was given in the same kind elsewhere; no
/// other length does. The normal form is the same with either, and 12 fills either.
pub(super) fn assert_lent_records(calls: &dyn WordCalls) {
    let [plain, listed] = [b(), b_off_ramps()];
    let WordCase { corridor, demands, plan, .. } = &plain;
    for (words, record) in [(26, Some(&plain.record)), (WORDS, Some(&listed.record))]
        .into_iter()
        .chain([25, 27, 31, 33].map(|words| (words, None)))
    {
        let as_lent = vec![7; words];
        let answer = u32::from(record.is_none());
        let wanted = record.unwrap_or(&as_lent);
        let (mut work, mut normal) = (as_lent.clone(), vec![7; 6]);
        assert_eq!(calls.simulate(corridor, demands, plan, &mut work), answer, "{words} words");
        assert_eq!(work, *wanted);
        work.fill(7);
        let normal_answer = calls.normal(corridor, demands, plan, &mut work, &mut normal);
        assert_eq!(normal_answer, answer, "{words} words");
        assert_eq!(work, *wanted);
        let form = [0, 0, 50, 32_768, 0, 32_768];
        assert_eq!(normal, if answer == 0 { form } else { [7; 6] });
    }
    let mut long_queue = long_queue();
    long_queue.plan[2] = 0;
    let long_queue = with_exit(long_queue, 25);
    let (mut work, mut normal) = (vec![7; WORDS], vec![7; 6]);
    let WordCase { corridor, demands, plan, record, .. } = &long_queue;
    let answer = calls.normal(corridor, demands, plan, &mut work, &mut normal);
    assert_eq!(answer, refused(12, 0, 1));
    assert_eq!((&work, normal), (record, vec![7; 6]));
}

/// B where L = 50 and Q = 60 at node 1 and f = 100, r = 0 there: 12 is due.
fn long_queue() -> WordCase {
    let mut case = b();
    case.corridor[NODE_1 + QUEUE_LIMIT] = 50;
    case.demands[ARRIVALS_1] = 60;
    propose(&mut case, 100, 0, 100);
    case
}

/// Case 17, and each exit wrong by itself: 11 where it is not fixed, 7 where it is. A record one
/// word longer or shorter than kind 7 has no kind.
pub(super) fn assert_refusals(calls: &dyn WordCalls) {
    for exit_1 in [0, 19, 21, 60, 80, u32::MAX] {
        assert_converter_answer(calls, &exit_proposed(exit_1), refused(11, 0, 1));
    }
    for (state, exits) in EXITS.into_iter().enumerate() {
        for (node, exit) in exits.into_iter().enumerate() {
            let mut case = b_off_ramps();
            case.record[exit] += 1;
            let number = if (state, node) == (0, 1) { 11 } else { 7 };
            let answer = refused(number, state as u32, node as u32);
            assert_converter_answer(calls, &case, answer);
        }
    }
    for words in [WORDS - 1, WORDS + 1] {
        let mut case = b_off_ramps();
        case.record.resize(words, 0);
        assert_converter_answer(calls, &case, refused(1, 0, 0));
    }
}

/// A wrong exit beside something else that is wrong: 7 before all, 8, 9 and 10 before it, 12 and 13
/// and whatever is wrong at a later node after it.
pub(super) fn assert_order(calls: &dyn WordCalls) {
    let proposed = |flow_1: u32, ramp_1: u32, flow_2: u32, exit_1: u32| {
        let mut case = b();
        propose(&mut case, flow_1, ramp_1, flow_2);
        with_exit(case, exit_1)
    };
    let changed = |mut case: WordCase, place: usize, word: u32| {
        case.record[place] = word;
        case
    };
    let [_, last_state] = EXITS;
    let rows = [
        (changed(exit_proposed(21), last_state[1], 1), refused(7, 1, 1)),
        (changed(proposed(101, 0, 100, 25), last_state[2], 1), refused(7, 1, 2)),
        (proposed(101, 0, 100, 26), refused(8, 0, 1)),
        (proposed(100, 26, 100, 26), refused(9, 0, 1)),
        (proposed(0, 51, 100, 1), refused(10, 0, 1)),
        (with_exit(long_queue(), 26), refused(11, 0, 1)),
        (with_exit(long_queue(), 25), refused(12, 0, 1)),
        (proposed(80, 40, 101, 21), refused(11, 0, 1)),
        (proposed(80, 40, 101, 20), refused(8, 0, 2)),
        (changed(exit_proposed(21), WORDS - 2, 371), refused(11, 0, 1)),
        (changed(exit_proposed(20), WORDS - 2, 371), refused(13, 0, 0)),
    ];
    for (case, answer) in rows {
        assert_converter_answer(calls, &case, answer);
    }
}
