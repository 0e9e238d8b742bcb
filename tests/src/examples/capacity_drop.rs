//! Worked cases and refusals for the capacity drop: B with a corridor of kind 10, and a queue that
//! clears without a drop and grows with one.

use super::{assert_converter_answer, assert_limit_2, assert_simulator_answer};
use super::{b, b_downstream, downstream_proposed, propose, refused};
use super::{CAPACITY, IDENTIFIER, JAM};
use crate::calls::WordCalls;
use crate::model::{Kind, Kinds};
use crate::random::sound::WordCase;

/// Words of a node, and how many it has.
const DROPPED_CAPACITY: usize = 9;
const DROP_DENSITY: usize = 10;
const WIDTH: usize = 11;

/// B where link 2 discharges 80 above a density of 190, the plan of case 1 and its record then:
/// case 14. Link 1 has F and J.
pub fn b_drop() -> WordCase {
    WordCase {
        kinds: Kinds { corridor: Kind::CapacityDrop, ..Kinds::OLDEST },
        corridor: [
            &[2][..],
            &[10, 0, 0, 0, 0, 100, 1_000, 0, 0, 0, 0],
            &[20, 100, 32_768, 32_768, 400, 60, 200, 200, 50, 100, 400],
            &[30, 100, 32_768, 32_768, 400, 0, 0, 200, 0, 80, 190],
        ]
        .concat(),
        record: [
            &[0, 0, 0, 0, 200, 50, 80, 40, 200, 0, 80, 0][..],
            &[0, 30, 0, 0, 120, 20, 0, 0, 220, 0, 0, 0],
            &[390, 0],
        ]
        .concat(),
        ..b()
    }
}

/// The same where some other flow leaves link 2: 81 in case 15.
pub fn drop_proposed(flow_2: u32) -> WordCase {
    let mut case = b_drop();
    propose(&mut case, 80, 40, flow_2);
    case
}

/// A case of B with the corridor of kind 1.
pub fn without_drop(case: WordCase) -> WordCase {
    let kinds = Kinds { corridor: Kind::Corridor, ..case.kinds };
    WordCase { kinds, corridor: b().corridor, ..case }
}

/// A case of B with the corridor of kind 10.
pub fn with_drop(case: WordCase) -> WordCase {
    let kinds = Kinds { corridor: Kind::CapacityDrop, ..case.kinds };
    WordCase { kinds, corridor: b_drop().corridor, ..case }
}

/// B with words of its nodes changed, each given by node and place.
fn changed(words: &[(usize, usize, u32)]) -> WordCase {
    let mut case = b_drop();
    for &(node, place, word) in words {
        case.corridor[1 + WIDTH * node + place] = word;
    }
    case
}

/// B where F of link 1, and its dropped capacity, are above its jam.
pub fn b_above_jam() -> WordCase {
    changed(&[(1, CAPACITY, 500), (1, DROPPED_CAPACITY, 500)])
}

/// Case 14: node 2 is full where link 2 sends all that it may discharge above its density, and held
/// on the corridor of kind 1, where it could send more. At its density, and with F and J, all is as
/// in case 1. Case 12's record is held with either kind of demands, case 11's full.
pub(super) fn assert_cases(calls: &dyn WordCalls) {
    let at_density = WordCase { record: b().record, ..changed(&[(2, DROP_DENSITY, 200)]) };
    let no_drop = changed(&[(2, DROPPED_CAPACITY, 100), (2, DROP_DENSITY, 400)]);
    let cases = [
        ("case 14", b_drop(), 32_768),
        ("case 14 without the drop", without_drop(b_drop()), 26_215),
        ("n at the drop density", at_density, 32_768),
        ("dropped capacity F, drop density J", WordCase { record: b().record, ..no_drop }, 32_768),
        ("case 12's flows with the drop", drop_proposed(40), 13_108),
        ("case 12 with the drop", with_drop(downstream_proposed(40)), 13_108),
        ("case 11 with the drop", with_drop(b_downstream()), 32_768),
    ];
    for (name, case, limit_2) in cases {
        assert_limit_2(calls, name, &case, limit_2);
    }
}

/// Case 15 and what else may be refused for the drop: 8 before 9, and 2 for either word, at the
/// first node whatever the word, before any 3. A word may pass the bound of the other.
pub(super) fn assert_refusals(calls: &dyn WordCalls) {
    let rows = [
        (changed(&[(2, DROPPED_CAPACITY, 101)]), refused(2, 0, 2)),
        (changed(&[(2, DROP_DENSITY, 401)]), refused(2, 0, 2)),
        (changed(&[(0, DROPPED_CAPACITY, 1)]), refused(2, 0, 0)),
        (changed(&[(0, DROP_DENSITY, 1)]), refused(2, 0, 0)),
        (changed(&[(1, DROPPED_CAPACITY, 101), (2, JAM, 0)]), refused(2, 0, 1)),
        (changed(&[(1, JAM, 0), (2, DROP_DENSITY, 401)]), refused(2, 0, 1)),
        (changed(&[(1, IDENTIFIER, 10), (2, DROPPED_CAPACITY, 101)]), refused(2, 0, 2)),
    ];
    for (case, answer) in rows {
        assert_simulator_answer(calls, &case, answer);
        assert_converter_answer(calls, &case, answer);
    }
    let mut one_node_more = b_drop();
    one_node_more.corridor.extend([0; WIDTH]);
    assert_converter_answer(calls, &one_node_more, refused(1, 0, 0));
    assert_converter_answer(calls, &drop_proposed(81), refused(8, 0, 2));
    let mut both = with_drop(b_downstream());
    for (flow_2, answer) in [(81, refused(8, 0, 2)), (71, refused(9, 0, 2))] {
        propose(&mut both, 80, 40, flow_2);
        assert_converter_answer(calls, &both, answer);
    }
    let above_jam = b_above_jam();
    assert_eq!(calls.check(&above_jam.corridor, &above_jam.demands, &above_jam.record), 0);
}

/// One link of 240 vehicles behind a ramp where 85 arrive in each of six steps.
pub(super) fn assert_recovery(calls: &dyn WordCalls) {
    let [entry, link] =
        [[10, 0, 0, 0, 0, 100, 1_000, 0, 85], [20, 100, 32_768, 32_768, 400, 0, 0, 240, 0]];
    let plain = [&[1][..], &entry, &link].concat();
    let dropping = [&[1][..], &entry, &[0, 0], &link, &[80, 200]].concat();
    let demands = [&[6][..], &[85, 0, 0, 0].repeat(6)].concat();
    let plan = [100, 0, 0, 32_768].repeat(6);
    // n of link 1 and l of ramp 0 in each state, then f of link 1 and r of ramp 0 in each step.
    let clears = (
        [(240, 85), (220, 90), (210, 85), (195, 85), (183, 85), (177, 85), (174, 85)],
        [(100, 80), (100, 90), (100, 85), (97, 85), (91, 85), (88, 85)],
        1_674,
    );
    let grows = (
        [(240, 85), (240, 90), (240, 95), (240, 100), (240, 105), (240, 110), (240, 115)],
        [(80, 80); 6],
        2_055,
    );
    for (corridor, (states, flows, cost)) in [(plain, clears), (dropping, grows)] {
        let flows = flows.into_iter().chain([(0, 0)]);
        let rows = states.into_iter().zip(flows);
        let rows = rows.flat_map(|((n, l), (f, r))| [0, l, 0, r, n, 0, f, 0]);
        let wanted: Vec<u32> = rows.chain([cost, 0]).collect();
        let mut record = vec![7; wanted.len()];
        assert_eq!(calls.simulate(&corridor, &demands, &plan, &mut record), 0);
        assert_eq!(record, wanted);
        assert_eq!(calls.check(&corridor, &demands, &record), 0);
    }
}
