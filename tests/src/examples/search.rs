//! Worked searches for a rate, and their refusals: B, with each rate tried written out.

use super::capacity_drop::drop_proposed;
use super::{
    b, b_downstream, b_off_ramps, b_with_a_rest, case_9, downstream_proposed, exit_proposed,
    proposed, refused, with, JAM, NODE_1, NODE_2, SPLIT_1, VEHICLES,
};
use crate::calls::WordCalls;
use crate::random::sound::WordCase;

/// The rates tried at node 1, whose C is 60, in their order. In case 1, f = 80 and r = 40, rates 30, 45
/// and 49 let 95, 83 and 80 of the mainline and 28, 37 and 39 of the ramp through: too much, or too
/// little. 53 and 51 let through what 50 does, which is all of the queue; in case 7 too.
const CASE_1: [u32; 7] = [30, 45, 53, 49, 51, 50, 50];
/// Case 4, f = 100 and r = 25: 27 lets 98 and 26 through, and 24 is one too low.
const CASE_4: [u32; 7] = [30, 15, 23, 27, 25, 24, 25];
/// Case 18, f = 99 and r = 25: up to a rate of 25 there is room for all 100 of the mainline.
const CASE_18: [u32; 7] = [30, 15, 23, 27, 25, 26, 26];
/// f = 95 and r = 27: at 29 the mainline has 96, and at 30 the ramp has 28.
const BETWEEN: [u32; 6] = [30, 15, 23, 27, 29, 30];
/// Every rate lets too much of the mainline through.
const TO_THE_GREATEST: [u32; 6] = [30, 45, 53, 57, 59, 60];
/// Every rate gives what 0 does.
const TO_ZERO: [u32; 7] = [30, 15, 7, 3, 1, 0, 0];
/// The same at node 0, whose C is 100 and whose queue is empty.
const AT_NODE_0: [u32; 8] = [50, 25, 12, 6, 3, 1, 0, 0];
/// Node 2 has no ramp.
const AT_NODE_2: [u32; 1] = [0];

/// Cases of B with a node, the rates tried there and whether the last of them was found.
pub(super) fn assert_cases(calls: &dyn WordCalls) {
    let empty_link = with(NODE_1 + VEHICLES, 0, Some((0, 50)));
    let jammed_link = with(NODE_2 + VEHICLES, 400, Some((0, 0)));
    let rows: [(&str, WordCase, u32, &[u32], bool); 18] = [
        ("case 1", b(), 1, &CASE_1, true),
        ("case 1", b(), 0, &AT_NODE_0, true),
        ("case 1", b(), 2, &AT_NODE_2, true),
        ("case 3", proposed(60, 50), 1, &TO_THE_GREATEST, false),
        ("case 4", proposed(100, 25), 1, &CASE_4, true),
        ("case 6", proposed(0, 50), 1, &TO_THE_GREATEST, false),
        ("case 7", empty_link, 1, &CASE_1, true),
        ("case 8", jammed_link, 1, &TO_ZERO, true),
        ("case 9", case_9(2), 1, &TO_THE_GREATEST, false),
        ("case 9 with S = 1", case_9(1), 1, &TO_ZERO, true),
        ("between two rates", proposed(95, 27), 1, &BETWEEN, false),
        ("case 11", b_downstream(), 2, &AT_NODE_2, true),
        ("case 12", downstream_proposed(40), 2, &AT_NODE_2, false),
        ("case 12's flows with the drop", drop_proposed(40), 2, &AT_NODE_2, false),
        ("case 14", drop_proposed(80), 2, &AT_NODE_2, true),
        ("case 16", b_off_ramps(), 1, &CASE_1, true),
        ("case 18", b_with_a_rest(), 1, &CASE_18, true),
        ("case 18", b_with_a_rest(), 2, &AT_NODE_2, true),
    ];
    for (name, case, node, tried, found) in rows {
        assert_halves(tried, [100, 60, 0][node as usize]);
        let rate = tried.last().filter(|_| found).unwrap_or(&0);
        let mut out = [7; 3];
        assert_eq!(calls.search(case.proposal(), (0, node), &mut out), 0, "{name}");
        assert_eq!(out, [tried.len() as u32, found.into(), *rate], "{name}, node {node}");
    }
}

/// Each rate written out is the middle of those left, at first 0 to C, until one is left.
fn assert_halves(tried: &[u32], capacity: u32) {
    let (&last, before) = tried.split_last().expect("one try at least");
    let (mut low, mut high) = (0, capacity);
    for &rate in before {
        assert_eq!(rate, (low + high) / 2, "{tried:?}");
        match last <= rate {
            true => high = rate,
            false => low = rate + 1,
        }
    }
    assert_eq!((low, high), (last, last), "{tried:?}");
}

/// Case 1 at a step or a node that there is not, or with a list of another length; and what is
/// refused by another number, which comes after these.
pub(super) fn assert_refusals(calls: &dyn WordCalls) {
    let bad = refused(1, 0, 0);
    let beyond = [1, 2, 65_536, 1 << 31, u32::MAX].map(|step| ((step, 1), 3));
    let past_node_2 = [3, 4, 257, 65_537, (1 << 31) + 1, u32::MAX].map(|node| ((0, node), 3));
    let lengths = [0, 1, 2, 4, 5].map(|length| ((0, 1), length));
    let mut jam = b();
    jam.corridor[NODE_1 + JAM] = 65_537;
    let mut split = b();
    split.demands[SPLIT_1] = 65_537;
    let mut cost = b();
    cost.record[24] = 371;
    let rows = [
        (b(), 0),
        (jam, refused(2, 0, 1)),
        (split, refused(5, 0, 1)),
        (proposed(100, 26), refused(9, 0, 1)),
        (exit_proposed(21), refused(11, 0, 1)),
        (cost, refused(13, 0, 0)),
    ];
    for (case, answer) in rows {
        for (place, length) in beyond.iter().chain(&past_node_2).chain(&lengths) {
            let mut out = vec![7; *length];
            assert_eq!(calls.search(case.proposal(), *place, &mut out), bad, "{place:?} {length}");
            assert_eq!(out, vec![7; *length]);
        }
        for node in 0..3 {
            let mut out = [7; 3];
            assert_eq!(calls.search(case.proposal(), (0, node), &mut out), answer);
            assert_eq!(out == [7; 3], answer != 0);
        }
    }
}
