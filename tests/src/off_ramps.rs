//! What document 02 says of the off-ramp flow in a record of kind 7, over what the calls give back:
//! each exit is what of f does not go through, the record accounts for every vehicle by itself, and
//! checker and converter see each exit that is another. Tests of any side, the model and the host
//! alike.

use crate::calls::WordCalls;
use crate::examples::refused;
use crate::model::record::ENTRY_WORDS;
use crate::model::{Entry, Input, Kind, Kinds, Record, WHOLE};
use crate::properties::simulated;
use crate::random::damage::size;
use crate::random::sound::{some_kinds, sound_case_of, WordCase};
use crate::random::Random;
use crate::tally::off_ramps::{AT_OFF_RAMPS, GREATEST_EXIT};
use crate::tally::Tally;

/// Calls `visit` with cases of up to that many links and steps whose record is of kind 7, their
/// inputs, and the record that a side gives for the plan.
fn each_simulated(
    calls: &dyn WordCalls,
    seed: u64,
    (count, links, steps): (u64, u64, u64),
    mut visit: impl FnMut(&WordCase, &Input, &Record),
) {
    for seed in seed..seed + count {
        let mut random = Random::new(seed);
        let size = size(&mut random, links, steps);
        let kinds = Kinds { record: Kind::OffRamps, ..some_kinds(&mut random) };
        let case = sound_case_of(&mut random, size, kinds, false);
        let record = simulated(calls, &case);
        visit(&case, &Input::new(&case.corridor, &case.demands).expect("sound"), &record);
    }
}

/// The exit of a node in a state, which a record of kind 7 has.
fn exit_of(entry: &Entry) -> u64 {
    entry.exit.expect("a record of kind 7")
}

/// Each exit is f × b / 65,536 of its own step and node, rounded down: with the next link's inflow,
/// as its two states show it, it is all that leaves link and ramp. It is zero at nodes 0 and N and
/// in state K.
pub fn assert_exits_are_what_does_not_go_through(calls: &dyn WordCalls) {
    let mut tally = Tally::default();
    each_simulated(calls, 330_000_000, (3_000, 8, 20), |case, input, record| {
        let (links, steps) = (input.size.links, input.size.steps);
        for k in 0..steps {
            let (now, next) = (record.state(k), record.state(k + 1));
            for i in 0..links {
                let flow_in = next[i + 1].vehicles + now[i + 1].flow - now[i + 1].vehicles;
                let exit = exit_of(&now[i]);
                assert_eq!(exit + flow_in, now[i].flow + now[i].ramp_flow, "{k} {i} {case:?}");
                assert_eq!(exit, now[i].flow * input.split(k, i) / WHOLE, "{k} {i} {case:?}");
            }
            assert_eq!((exit_of(&now[0]), exit_of(&now[links])), (0, 0), "{k} {case:?}");
        }
        let last: Vec<u64> = record.state(steps).iter().map(exit_of).collect();
        assert_eq!(last, vec![0; links + 1], "{case:?}");
        tally.happenings(input, &case.plan, record);
    });
    AT_OFF_RAMPS.iter().for_each(|name| tally.expect(name, &[0], 100));
    tally.expect(GREATEST_EXIT, &[0], 5);
}

/// In each step all n and l together grow by all Q less all exits less f of node N, by the words of
/// the record and the arrivals alone.
pub fn assert_record_accounts_for_all_vehicles(calls: &dyn WordCalls) {
    let mut left_by_off_ramps = 0;
    each_simulated(calls, 340_000_000, (3_000, 8, 20), |case, input, record| {
        let nodes = || 0..input.size.nodes();
        let total = |k: usize| -> u64 {
            record.state(k).iter().map(|entry| entry.vehicles + entry.queue).sum()
        };
        for k in 0..input.size.steps {
            let arrived: u64 = nodes().map(|i| input.arrivals(k, i)).sum();
            let exits: u64 = record.state(k).iter().map(exit_of).sum();
            let out = record.entry(k, input.size.links).flow;
            assert_eq!(total(k) + arrived, total(k + 1) + exits + out, "step {k} of {case:?}");
            left_by_off_ramps += u32::from(exits > 0);
        }
    });
    assert!(left_by_off_ramps > 3_000, "steps with exits: {left_by_off_ramps}");
}

/// The other words that are tried in an exit's place: beside it, the same in fewer bits, and what
/// else could be taken for it.
fn other_exits(input: &Input, record: &Record, k: usize, i: usize) -> Vec<u32> {
    let Entry { flow, ramp_flow, vehicles, queue, .. } = record.entry(k, i);
    let exit = exit_of(&record.entry(k, i)) as u32;
    let split = input.split(k.min(input.size.steps - 1), i);
    let part = |flow: u64, split: u64| (flow * split / WHOLE) as u32;
    let mut others = vec![
        exit.wrapping_add(1),
        exit.wrapping_sub(1),
        exit ^ 0x8000_0000,
        exit ^ 0x1_0000,
        exit ^ 0x100,
        0,
        u32::MAX,
        flow as u32,
        (flow as u32).wrapping_sub(exit),
        part(flow, WHOLE - split),
        part(ramp_flow, split),
        part(flow + ramp_flow, split),
        part(vehicles, split),
        part(queue, split),
        (flow * split).div_ceil(WHOLE) as u32,
    ];
    others.retain(|&other| other != exit);
    others
}

/// Every exit of an accepted record, changed in turn with all else as it was, is refused at its own
/// place: by 7 where it is fixed at zero, by 11 elsewhere; and no plan is written.
pub fn assert_every_exit_is_tested(calls: &dyn WordCalls) {
    let (mut fixed, mut tested) = (0, 0);
    each_simulated(calls, 350_000_000, (600, 4, 4), |case, input, record| {
        let WordCase { corridor, demands, .. } = case;
        let mut words = record.words(Kind::OffRamps);
        if calls.check(corridor, demands, &words) != 0 {
            return;
        }
        let (size, mut plan) = (input.size, vec![7; case.lent_plan]);
        for (k, i) in (0..=size.steps).flat_map(|k| (0..size.nodes()).map(move |i| (k, i))) {
            let place = Kind::OffRamps.entry_place(size, k, i) + ENTRY_WORDS;
            let right = words[place];
            let is_fixed = i == 0 || i == size.links || k == size.steps;
            let answer = refused(if is_fixed { 7 } else { 11 }, k as u32, i as u32);
            for exit in other_exits(input, record, k, i) {
                words[place] = exit;
                assert_eq!(calls.check(corridor, demands, &words), answer, "{exit} {words:?}");
                assert_eq!(calls.convert(corridor, demands, &words, &mut plan), answer);
                assert_eq!(plan, vec![7; case.lent_plan]);
                (fixed, tested) = (fixed + u32::from(is_fixed), tested + u32::from(!is_fixed));
            }
            words[place] = right;
        }
    });
    assert!(fixed > 10_000 && tested > 10_000, "exits changed: {fixed} fixed, {tested} not");
}
