//! Worked cases and refusals for the flow that may leave link N: B with demands of kind 5.

use super::{
    assert_converter_answer, assert_limit_2, assert_simulator_answer, b, propose, refused,
};
use crate::calls::WordCalls;
use crate::model::{Kind, Kinds};
use crate::random::sound::WordCase;

/// Where the word of the one step stands.
const DOWNSTREAM: usize = 7;

/// B where a flow of 70 may leave link 2, the plan of case 1 and its record then: case 11.
pub fn b_downstream() -> WordCase {
    WordCase {
        kinds: Kinds { demands: Kind::Downstream, ..Kinds::OLDEST },
        demands: vec![1, 30, 0, 10, 16_384, 0, 0, 70],
        record: [
            &[0, 0, 0, 0, 200, 50, 80, 40, 200, 0, 70, 0][..],
            &[0, 30, 0, 0, 120, 20, 0, 0, 230, 0, 0, 0],
            &[400, 0],
        ]
        .concat(),
        ..b()
    }
}

/// The same where some other flow leaves link 2: 40 in case 12, 71 in case 13.
pub fn downstream_proposed(flow_2: u32) -> WordCase {
    let mut case = b_downstream();
    propose(&mut case, 80, 40, flow_2);
    case
}

/// Cases 11 and 12: node 2 is full where just what may leave link 2 leaves it, held where less does.
/// With 65,536 all is as in case 1.
pub(super) fn assert_cases(calls: &dyn WordCalls) {
    let mut free = b_downstream();
    (free.demands[DOWNSTREAM], free.record) = (65_536, b().record);
    let cases = [
        ("case 11", b_downstream(), 32_768),
        ("case 12", downstream_proposed(40), 13_108),
        ("case 1 with 65,536", free, 32_768),
    ];
    for (name, case, limit_2) in cases {
        assert_limit_2(calls, name, &case, limit_2);
    }
}

/// Case 13 and what else may be refused for what leaves link 2; 8 comes before 9. A list one word
/// longer than kind 5 has no kind.
pub(super) fn assert_refusals(calls: &dyn WordCalls) {
    let mut longer = b_downstream();
    longer.demands.push(0);
    let mut word = b_downstream();
    word.demands[DOWNSTREAM] = 65_537;
    for (case, answer) in [(longer, refused(1, 0, 0)), (word, refused(5, 0, 2))] {
        assert_simulator_answer(calls, &case, answer);
        assert_converter_answer(calls, &case, answer);
    }
    assert_converter_answer(calls, &downstream_proposed(71), refused(9, 0, 2));
    assert_converter_answer(calls, &downstream_proposed(101), refused(8, 0, 2));
}

/// B in two steps: a word of step 0 that is out of range stands behind all of step 1 and is refused
/// before it, and a word of step 1 after all else of step 1.
pub(super) fn assert_word_in_its_step(calls: &dyn WordCalls) {
    let corridor = b().corridor;
    let first_step = [2, 30, 0, 10, 16_384, 0, 0];
    let rows = [
        ([0, 0, 0, 65_537, 0, 0], [65_537, 70], refused(5, 0, 2)),
        ([0, 0, 0, 65_537, 0, 0], [70, 65_537], refused(5, 1, 1)),
        ([0, 0, 0, 0, 1, 0], [70, 70], refused(5, 1, 2)),
        ([0, 0, 0, 0, 0, 0], [65_536, 65_537], refused(5, 1, 2)),
        ([0, 0, 0, 0, 0, 0], [0, 65_536], 0),
    ];
    for (second_step, words, answer) in rows {
        let demands = [&first_step[..], &second_step, &words].concat();
        let mut record = vec![7; 38];
        assert_eq!(calls.simulate(&corridor, &demands, &[0; 12], &mut record), answer);
        assert_eq!(record == [7; 38], answer != 0);
    }
}
