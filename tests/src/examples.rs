//! The worked cases of document 01, the examples of its refusal table and, in modules of their own,
//! the like for what may leave link N, for the capacity drop, for the off-ramp flow in the record and
//! for the search, as tests of any side: the model, and the host once there is one.

pub mod capacity_drop;
pub mod downstream;
pub mod off_ramps;
pub mod search;

use crate::calls::{FileCalls, Program, WordCalls};
use crate::model::files::{words_of, CHECK};
use crate::model::{Kind, Kinds, List, Size};
use crate::random::files::{change_block, file_of, name_kind, ThreeFiles};
use crate::random::sound::WordCase;
use capacity_drop::{b_drop, drop_proposed, without_drop};
use downstream::{b_downstream, downstream_proposed};
use off_ramps::{b_off_ramps, b_with_a_rest, exit_proposed};

/// Places in B's lists: the words of its nodes, and those of node 1 in the demands.
const NODE_1: usize = 10;
const NODE_2: usize = 19;
const IDENTIFIER: usize = 0;
const CAPACITY: usize = 1;
const FULL_SPEED: usize = 2;
const JAM: usize = 4;
const QUEUE_LIMIT: usize = 6;
const VEHICLES: usize = 7;
const QUEUE: usize = 8;
const ARRIVALS_1: usize = 3;
const SPLIT_1: usize = 4;

/// B, the plan of case 1 and its record.
pub fn b() -> WordCase {
    WordCase {
        kinds: Kinds::OLDEST,
        corridor: [
            &[2][..],
            &[10, 0, 0, 0, 0, 100, 1_000, 0, 0],
            &[20, 100, 32_768, 32_768, 400, 60, 200, 200, 50],
            &[30, 100, 32_768, 32_768, 400, 0, 0, 200, 0],
        ]
        .concat(),
        demands: vec![1, 30, 0, 10, 16_384, 0, 0],
        plan: vec![100, 0, 60, 32_768, 0, 32_768],
        record: [
            &[0, 0, 0, 0, 200, 50, 80, 40, 200, 0, 100, 0][..],
            &[0, 30, 0, 0, 120, 20, 0, 0, 200, 0, 0, 0],
            &[370, 0],
        ]
        .concat(),
        lent_kind: Kind::Record,
        lent_record: 26,
        lent_plan: 6,
    }
}

pub fn b_size() -> Size {
    Size { links: 2, steps: 1 }
}

/// The one number for a refusal.
pub fn refused(number: u32, row: u32, node: u32) -> u32 {
    row * 65_536 + node * 256 + number
}

/// Proposes flows: f and r of node 1, f of node 2. The rest of the record, of kind 3, follows,
/// written out here without the model.
pub fn propose(case: &mut WordCase, flow_1: u32, ramp_1: u32, flow_2: u32) {
    let width = case.kinds.corridor.node_words();
    let word = |node: usize, word: usize| case.corridor[1 + width * node + word];
    let (vehicles_1, queue_1) = (word(1, VEHICLES), word(1, QUEUE));
    let (vehicles_2, demands) = (word(2, VEHICLES), &case.demands);
    let exit = u64::from(flow_1) * u64::from(demands[SPLIT_1]) / 65_536;
    let next_1 = vehicles_1.wrapping_sub(flow_1);
    let next_2 = vehicles_2 + (flow_1 - exit as u32) + ramp_1 - flow_2;
    let next_queue = (queue_1 + demands[ARRIVALS_1]).wrapping_sub(ramp_1);
    let cost = [30, next_1, next_queue, next_2].map(u64::from).iter().sum::<u64>();
    case.record = [
        &[0, 0, 0, 0, vehicles_1, queue_1, flow_1, ramp_1, vehicles_2, 0, flow_2, 0][..],
        &[0, 30, 0, 0, next_1, next_queue, 0, 0, next_2, 0, 0, 0],
        &[cost as u32, (cost >> 32) as u32],
    ]
    .concat();
}

/// B with a proposal.
fn proposed(flow_1: u32, ramp_1: u32) -> WordCase {
    let mut case = b();
    propose(&mut case, flow_1, ramp_1, 100);
    case
}

/// B with one word of the corridor changed, and perhaps flows proposed for it.
fn with(place: usize, word: u32, flows: Option<(u32, u32)>) -> WordCase {
    let mut case = b();
    case.corridor[place] = word;
    if let Some((flow_1, ramp_1)) = flows {
        propose(&mut case, flow_1, ramp_1, 100);
    }
    case
}

/// Runs every example on words.
pub fn assert_word_examples(calls: &dyn WordCalls) {
    assert_case_1(calls);
    assert_conversions(calls);
    assert_case_10(calls);
    assert_input_refusals(calls);
    assert_record_refusals(calls);
    assert_queue_refusal_of_normal_form(calls);
    downstream::assert_cases(calls);
    downstream::assert_refusals(calls);
    downstream::assert_word_in_its_step(calls);
    capacity_drop::assert_cases(calls);
    capacity_drop::assert_refusals(calls);
    capacity_drop::assert_recovery(calls);
    off_ramps::assert_cases(calls);
    off_ramps::assert_lent_records(calls);
    off_ramps::assert_refusals(calls);
    off_ramps::assert_order(calls);
    search::assert_cases(calls);
    search::assert_refusals(calls);
}

/// Case 1, and that rates 60 and 50 have one record and so one normal form.
fn assert_case_1(calls: &dyn WordCalls) {
    let case = b();
    let mut record = vec![7; 26];
    assert_eq!(calls.simulate(&case.corridor, &case.demands, &case.plan, &mut record), 0);
    assert_eq!(record, case.record, "case 1");
    assert_eq!(calls.check(&case.corridor, &case.demands, &record), 0);
    for rate in [60, 50] {
        let plan = [100, 0, rate, 32_768, 0, 32_768];
        let (mut work, mut normal) = (vec![7; 26], vec![7; 6]);
        let answer = calls.normal(&case.corridor, &case.demands, &plan, &mut work, &mut normal);
        assert_eq!(answer, 0);
        assert_eq!(work, case.record, "work record, rate {rate}");
        assert_eq!(normal, [0, 0, 50, 32_768, 0, 32_768], "normal form, rate {rate}");
    }
}

/// Cases 2 to 4 and 6 to 9: the rate and limit that node 1 is given.
fn assert_conversions(calls: &dyn WordCalls) {
    let cases = [
        ("case 2", b(), [50, 32_768]),
        ("case 3", proposed(60, 50), [50, 19_661]),
        ("case 4", proposed(100, 25), [25, 32_768]),
        ("case 6", proposed(0, 50), [50, 0]),
        ("case 7", with(NODE_1 + VEHICLES, 0, Some((0, 50))), [50, 32_768]),
        ("case 8", with(NODE_2 + VEHICLES, 400, Some((0, 0))), [0, 32_768]),
        ("case 9", case_9(2), [0, 1]),
        ("case 9 with S = 1", case_9(1), [0, 65_536]),
    ];
    for (name, case, setting) in cases {
        let mut plan = vec![7; 6];
        let answer = calls.convert(&case.corridor, &case.demands, &case.record, &mut plan);
        assert_eq!(answer, 0, "{name}");
        assert_eq!(plan, [0, 0, setting[0], setting[1], 0, 32_768], "{name}");
        let mut record = vec![7; 26];
        assert_eq!(calls.simulate(&case.corridor, &case.demands, &plan, &mut record), 0);
        assert_eq!(record, case.record, "{name}: the plan has the record");
    }
}

/// B with another corridor or other demands whose record has rates 0 and 50 and full speed at nodes
/// 0 and 1, and that limit at node 2: all four calls.
fn assert_limit_2(calls: &dyn WordCalls, name: &str, case: &WordCase, limit_2: u32) {
    let WordCase { corridor, demands, record, .. } = case;
    let mut plan = vec![7; 6];
    assert_eq!(calls.check(corridor, demands, record), 0, "{name}");
    assert_eq!(calls.convert(corridor, demands, record, &mut plan), 0, "{name}");
    assert_eq!(plan, [0, 0, 50, 32_768, 0, limit_2], "{name}");
    for rate in [60, 50] {
        let given = [100, 0, rate, 32_768, 0, limit_2];
        let (mut work, mut normal) = (vec![7; 26], vec![7; 6]);
        assert_eq!(calls.simulate(corridor, demands, &given, &mut work), 0);
        assert_eq!(work, *record, "{name}, rate {rate}");
        work.fill(7);
        assert_eq!(calls.normal(corridor, demands, &given, &mut work, &mut normal), 0);
        assert_eq!((&work, &normal), (record, &plan), "{name}, rate {rate}");
    }
}

/// Case 9: n = V = F = 65,536 on link 1, no split, no queue, f = 1; link 2 receives `receiving`.
fn case_9(receiving: u32) -> WordCase {
    let mut case = b();
    for place in [CAPACITY, FULL_SPEED, JAM, VEHICLES] {
        case.corridor[NODE_1 + place] = 65_536;
    }
    case.corridor[NODE_1 + QUEUE] = 0;
    case.corridor[NODE_2 + CAPACITY] = receiving;
    case.demands[SPLIT_1] = 0;
    propose(&mut case, 1, 0, receiving);
    case
}

/// Case 10's T(1) = 1 for b = 32,768: the one unit sent arrives on link 2.
fn assert_case_10(calls: &dyn WordCalls) {
    let mut case = with(NODE_1 + VEHICLES, 2, None);
    case.demands[SPLIT_1] = 32_768;
    case.plan[2] = 0;
    let mut record = vec![7; 26];
    assert_eq!(calls.simulate(&case.corridor, &case.demands, &case.plan, &mut record), 0);
    propose(&mut case, 1, 0, 100);
    assert_eq!(record, case.record);
    assert_eq!(record[20], 101);
}

/// Rows 1 to 6 of the table; no call writes anything.
fn assert_input_refusals(calls: &dyn WordCalls) {
    // N = 0 with its one node, so that the example also is one for a list of nodes.
    let mut no_link = with(0, 0, None);
    no_link.corridor.truncate(NODE_1);
    let mut split = b();
    split.demands[SPLIT_1] = 65_537;
    let rows = [
        (no_link, refused(1, 0, 0)),
        (with(NODE_1 + JAM, 65_537, None), refused(2, 0, 1)),
        (with(NODE_2 + IDENTIFIER, 20, None), refused(3, 0, 2)),
        (with(NODE_1 + VEHICLES, 401, None), refused(4, 0, 1)),
        (split, refused(5, 0, 1)),
    ];
    for (case, answer) in rows {
        assert_simulator_answer(calls, &case, answer);
        assert_converter_answer(calls, &case, answer);
    }
    let mut plan = b();
    plan.plan[2] = 61;
    assert_simulator_answer(calls, &plan, refused(6, 0, 1));
}

/// Rows 7 to 13 of the table, and cases 5 and the like.
fn assert_record_refusals(calls: &dyn WordCalls) {
    let changed = |place: usize, word: u32| {
        let mut case = b();
        case.record[place] = word;
        case
    };
    let mut long_queue = with(NODE_1 + QUEUE_LIMIT, 50, None);
    long_queue.demands[ARRIVALS_1] = 60;
    propose(&mut long_queue, 100, 0, 100);
    let rows = [
        (changed(18, 1), refused(7, 1, 1)),
        (proposed(101, 0), refused(8, 0, 1)),
        (proposed(100, 26), refused(9, 0, 1)),
        (proposed(0, 51), refused(10, 0, 1)),
        (changed(16, 121), refused(11, 0, 1)),
        (long_queue, refused(12, 0, 1)),
        (changed(24, 371), refused(13, 0, 0)),
    ];
    for (case, answer) in rows {
        assert_converter_answer(calls, &case, answer);
    }
}

/// Row 12 met by a normal form: the work record is filled, the output is not.
fn assert_queue_refusal_of_normal_form(calls: &dyn WordCalls) {
    let mut case = with(NODE_1 + QUEUE_LIMIT, 50, None);
    case.demands[ARRIVALS_1] = 60;
    case.plan[2] = 0;
    propose(&mut case, 100, 0, 100);
    let (mut work, mut normal) = (vec![7; 26], vec![7; 6]);
    let answer = calls.normal(&case.corridor, &case.demands, &case.plan, &mut work, &mut normal);
    assert_eq!(answer, refused(12, 0, 1));
    assert_eq!(work, case.record);
    assert_eq!(normal, [7; 6]);
}

/// Simulator and normal form refuse so and write nothing.
fn assert_simulator_answer(calls: &dyn WordCalls, case: &WordCase, answer: u32) {
    let (mut record, mut work, mut normal) = (vec![7; 26], vec![7; 26], vec![7; 6]);
    assert_eq!(calls.simulate(&case.corridor, &case.demands, &case.plan, &mut record), answer);
    let (corridor, demands) = (&case.corridor, &case.demands);
    let normal_answer = calls.normal(corridor, demands, &case.plan, &mut work, &mut normal);
    assert_eq!(normal_answer, answer);
    assert_eq!((record, work, normal), (vec![7; 26], vec![7; 26], vec![7; 6]));
}

/// Checker and converter refuse so and write nothing.
fn assert_converter_answer(calls: &dyn WordCalls, case: &WordCase, answer: u32) {
    let mut plan = vec![7; 6];
    let (corridor, demands) = (&case.corridor, &case.demands);
    assert_eq!(calls.check(corridor, demands, &case.record), answer);
    assert_eq!(calls.convert(corridor, demands, &case.record, &mut plan), answer);
    assert_eq!(plan, [7; 6]);
}

/// Runs every example on files.
pub fn assert_file_examples(calls: &dyn FileCalls) {
    assert_check_word(calls);
    assert_file_refusals(calls);
    assert_calls_on_files(calls);
    let corridors = [b().corridor, b_drop().corridor];
    assert_files_of_both_kinds(calls, List::Corridor, corridors, Kind::Demands);
    let demands = [b().demands, b_downstream().demands];
    assert_files_of_both_kinds(calls, List::Demands, demands, Kind::Corridor);
    let records = [b().record, b_off_ramps().record];
    assert_files_of_both_kinds(calls, List::Record, records, Kind::Plan);
}

/// Case 10: an otherwise zero block of kind 1 and number 1 has check 4. Such is the second block
/// of a corridor of 13 links whose last word is zero.
fn assert_check_word(calls: &dyn FileCalls) {
    let mut words = vec![0; 127];
    words[0] = 13;
    let mut file = vec![7; 1_024];
    assert_eq!(calls.write(List::Corridor, 13, 1, &words, &mut file), 0);
    let second = words_of(&file[512..]);
    assert_eq!((second[0], second[1], second[CHECK]), (1, 1, 4));
}

/// Rows 14 to 18 of the table, on a corridor of two blocks.
fn assert_file_refusals(calls: &dyn FileCalls) {
    let mut words = vec![0; 127];
    words[0] = 13;
    let sound = file_of(Kind::Corridor, &words);
    let changed = |block: usize, place: usize, word: u32| {
        let mut file = sound.clone();
        change_block(&mut file, block, place, |_| word);
        file
    };
    let mut check_off = sound.clone();
    check_off[512 + 4 * CHECK] += 1;
    let rows = [
        (sound[..511].to_vec(), refused(14, 0, 0)),
        (check_off, refused(15, 1, 0)),
        (changed(0, 0, 2), refused(16, 0, 0)),
        (changed(1, 1, 0), refused(17, 1, 0)),
        (changed(1, 126, 1), refused(18, 1, 0)),
        (changed(0, 2, 12), refused(1, 0, 0)),
        (sound.clone(), 0),
    ];
    for (file, answer) in rows {
        let mut read = vec![7; 127];
        assert_eq!(calls.read(List::Corridor, 13, 1, &file, &mut read), answer);
        assert_eq!(read, if answer == 0 { words.clone() } else { vec![7; 127] });
    }
}

/// The file says which kind it is, whatever list is lent; a list of the other kind's length is a
/// wrong one, before anything else of the file is looked at. The length of a list to write tells
/// its kind. `other` is a kind of another list.
fn assert_files_of_both_kinds(
    calls: &dyn FileCalls,
    list: List,
    lists: [Vec<u32>; 2],
    other: Kind,
) {
    let files = [0, 1].map(|kind| file_of(list.kinds()[kind], &lists[kind]));
    let said = |file: &[u8], kind: u32| {
        let mut file = file.to_vec();
        name_kind(&mut file, kind, true);
        file
    };
    let [older, newer] = &files;
    let bad_length = refused(1, 0, 0);
    let rows = [
        (older.clone(), [0, bad_length]),
        (newer.clone(), [bad_length, 0]),
        (said(older, 6), [refused(16, 0, 0), bad_length]),
        (said(older, other as u32), [refused(16, 0, 0), bad_length]),
        (said(newer, list.kinds()[0] as u32), [refused(18, 0, 0), bad_length]),
        (newer[..511].to_vec(), [bad_length, refused(14, 0, 0)]),
        (newer[..4].to_vec(), [bad_length, refused(14, 0, 0)]),
        (newer[..3].to_vec(), [refused(14, 0, 0), bad_length]),
        (vec![], [refused(14, 0, 0), bad_length]),
    ];
    for (file, answers) in rows {
        for (words, answer) in lists.iter().zip(answers) {
            let mut read = vec![7; words.len()];
            assert_eq!(calls.read(list, 2, 1, &file, &mut read), answer);
            assert_eq!(read, if answer == 0 { words.clone() } else { vec![7; words.len()] });
        }
    }
    for (words, file) in lists.iter().zip(&files) {
        let mut written = vec![7; 512];
        assert_eq!(calls.write(list, 2, 1, words, &mut written), 0);
        assert_eq!(written, *file);
    }
}

/// Cases 1, 2, 5 and 11 to 18 through the C host's calls on files, and case 14's record without the
/// drop.
fn assert_calls_on_files(calls: &dyn FileCalls) {
    let plan = |limit_2| file_of(Kind::Plan, &[0, 0, 50, 32_768, 0, limit_2]);
    let plan_with_a_rest = file_of(Kind::Plan, &[0, 0, 26, 32_768, 0, 32_768]);
    let rows = [
        (b(), 0, plan(32_768)),
        (proposed(100, 26), refused(9, 0, 1), vec![7; 512]),
        (b_downstream(), 0, plan(32_768)),
        (downstream_proposed(40), 0, plan(13_108)),
        (downstream_proposed(71), refused(9, 0, 2), vec![7; 512]),
        (b_drop(), 0, plan(32_768)),
        (without_drop(b_drop()), 0, plan(26_215)),
        (drop_proposed(81), refused(8, 0, 2), vec![7; 512]),
        (b_off_ramps(), 0, plan(32_768)),
        (exit_proposed(21), refused(11, 0, 1), vec![7; 512]),
        (b_with_a_rest(), 0, plan_with_a_rest),
    ];
    for (case, answer, plan_file) in rows {
        let three = ThreeFiles::of_case(b_size(), &case);
        let mut lent = vec![7; 512];
        assert_eq!(calls.check_files(2, 1, three.files()), answer);
        assert_eq!(calls.convert_files(2, 1, three.files(), &mut lent), answer);
        assert_eq!(lent, plan_file);
    }
}

/// Runs the printed examples, and the program's own refusals.
pub fn assert_program_examples(program: &dyn Program) {
    let input = |case: &WordCase| ThreeFiles::of_case(b_size(), case).files().concat();
    let sound = input(&b());
    let held = "PLAN 1 3 375\n0 10 0 0 F\n0 20 50 19661 H\n0 30 0 32768 F\n";
    let full = "PLAN 1 3 370\n0 10 0 0 F\n0 20 50 32768 F\n0 30 0 32768 F\n";
    let full_downstream = "PLAN 1 3 400\n0 10 0 0 F\n0 20 50 32768 F\n0 30 0 32768 F\n";
    let held_downstream = "PLAN 1 3 430\n0 10 0 0 F\n0 20 50 32768 F\n0 30 0 13108 H\n";
    let full_drop = "PLAN 1 3 390\n0 10 0 0 F\n0 20 50 32768 F\n0 30 0 32768 F\n";
    let held_without = "PLAN 1 3 390\n0 10 0 0 F\n0 20 50 32768 F\n0 30 0 26215 H\n";
    let full_with_a_rest = "PLAN 1 3 396\n0 10 0 0 F\n0 20 26 32768 F\n0 30 0 32768 F\n";
    let rows = [
        (sound.clone(), full),
        (input(&proposed(60, 50)), held),
        (input(&proposed(100, 26)), "REFUSED 9 0 1\n"),
        (input(&b_downstream()), full_downstream),
        (input(&downstream_proposed(40)), held_downstream),
        (input(&downstream_proposed(71)), "REFUSED 9 0 2\n"),
        (input(&b_drop()), full_drop),
        (input(&without_drop(b_drop())), held_without),
        (input(&drop_proposed(81)), "REFUSED 8 0 2\n"),
        (input(&b_off_ramps()), full),
        (input(&exit_proposed(21)), "REFUSED 11 0 1\n"),
        (input(&b_with_a_rest()), full_with_a_rest),
        (sound[..1_535].to_vec(), "REFUSED 14 0 0\n"),
        (vec![], "REFUSED 14 0 0\n"),
        (vec![0; 12], "REFUSED 1 0 0\n"),
        (vec![0; 65_537], "REFUSED 14 0 0\n"),
        (vec![0; 65_536], "REFUSED 1 0 0\n"),
    ];
    for (bytes, text) in rows {
        assert_eq!(String::from_utf8_lossy(&program.print(&bytes)), text);
    }
}
