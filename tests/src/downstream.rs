//! What document 02 says of the flow that may leave link N, over what the calls give back: what
//! leaves link N is the lesser of what it sends and what may leave it. Tests of any side, the model
//! and the host alike.

use crate::calls::WordCalls;
use crate::capacity_drop::discharge;
use crate::compare::Series;
use crate::model::{Input, Kind, Kinds, Record, WHOLE};
use crate::properties::simulated;
use crate::random::damage::{size, small_case};
use crate::random::sound::{some_kinds, sound_case_of, WordCase};
use crate::random::Random;
use crate::tally::downstream::{AT_LINK_N, WHERE_LESS_MAY_LEAVE};
use crate::tally::Tally;

/// What link N can send with that many vehicles at a limit: rule 1 written out.
fn sending(input: &Input, vehicles: u64, limit: u32) -> u64 {
    let most = discharge(&input.node(input.size.links), vehicles as u32);
    (vehicles * u64::from(limit) / WHOLE).min(most)
}

/// Node N in one step: its n, f and r out of a record, its limit out of a plan, and the word of that
/// step at the end of the demands.
struct End {
    vehicles: u64,
    flow: u64,
    ramp_flow: u64,
    limit: u32,
    word: u64,
}

fn ends(record: &Record, demands: &[u32], plan: &[u32]) -> Vec<End> {
    let size = record.size;
    let words = &demands[demands.len() - size.steps..];
    let ends = words.iter().enumerate().map(|(k, &word)| {
        let end = record.entry(k, size.links);
        let limit = plan[size.plan_place(k, size.links) + 1];
        let (vehicles, flow, ramp_flow) = (end.vehicles, end.flow, end.ramp_flow);
        End { vehicles, flow, ramp_flow, limit, word: word.into() }
    });
    ends.collect()
}

/// In every step of a simulated record just the lesser of what link N sends and the word of that
/// step leaves it; nothing is rounded away.
pub fn assert_flow_out_of_link_n_is_exact(calls: &dyn WordCalls) {
    let mut random = Random::new(190_000_000);
    let mut tally = Tally::default();
    for _ in 0..3_000 {
        let size = size(&mut random, 8, 20);
        let kinds = Kinds { demands: Kind::Downstream, ..some_kinds(&mut random) };
        let case = sound_case_of(&mut random, size, kinds, false);
        let record = simulated(calls, &case);
        let input = Input::new(&case.corridor, &case.demands).expect("sound");
        for end in ends(&record, &case.demands, &case.plan) {
            let lesser = sending(&input, end.vehicles, end.limit).min(end.word);
            assert_eq!((end.flow, end.ramp_flow), (lesser, 0));
        }
        tally.happenings(&input, &case.plan, &record);
    }
    AT_LINK_N.iter().for_each(|name| tally.expect(name, &[0], 300));
}

/// At node N of a record that is accepted no flow is above the word of its step, and full speed is
/// posted just where the flow is all that link N can send and may leave it.
pub fn assert_link_n_keeps_to_its_words(calls: &dyn WordCalls) {
    let mut tally = Tally::default();
    let series = Series::new("flow out of link N", 200_000_000, 10_000);
    let outcome = series.run(small_case, |case| {
        let WordCase { corridor, demands, record, .. } = case;
        let kind_five = Input::new(corridor, demands).ok().filter(Input::has_downstream);
        let mut plan = vec![7; case.lent_plan];
        match kind_five {
            Some(input) if calls.convert(corridor, demands, record, &mut plan) == 0 => {
                let record = Record::new(input.size, record).expect("an accepted one");
                let ends = ends(&record, demands, &plan);
                ends.iter().for_each(|end| assert_end_is_set(&input, end));
                tally.settings(&input, &record, &plan);
            }
            _ => {}
        }
        Ok(())
    });
    assert_eq!(outcome, Ok(()));
    WHERE_LESS_MAY_LEAVE.iter().for_each(|name| tally.expect(name, &[0], 300));
}

fn assert_end_is_set(input: &Input, end: &End) {
    let full_speed = input.node(input.size.links).full_speed;
    let most = sending(input, end.vehicles, full_speed).min(end.word);
    assert!(end.flow <= end.word);
    assert_eq!(end.limit == full_speed, end.flow == most, "limit {}", end.limit);
}
