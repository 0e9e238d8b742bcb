//! What document 02 says of the search for a rate, over what the calls give back: it finds what the
//! converter does, with the tries that halving takes, and refuses what the checker does; and it
//! refuses a bad step, a bad node or a list of another length before all else. Tests of any side, the
//! model and the host alike.

use crate::alone::Alone;
use crate::calls::WordCalls;
use crate::compare::Series;
use crate::limits::same_in_fewer_bits;
use crate::model::search::OUT_WORDS;
use crate::model::{Input, NodeStep, Record, Size, WHOLE};
use crate::random::damage::small_case;
use crate::random::search::{flows_to_find, ramp};
use crate::random::sound::WordCase;
use crate::random::Random;
use std::ops::RangeInclusive;

/// The least and the greatest number of tries with rates from 0 to C: halved until one is left, and
/// that one.
fn tries_with(capacity: u64) -> RangeInclusive<u32> {
    let rates = capacity + 1;
    1 + rates.ilog2()..=1 + rates.next_power_of_two().ilog2()
}

/// There are no more tries than there can be, and no fewer.
fn assert_within(tries: u32, capacity: u64) {
    let (fewest, most) = tries_with(capacity).into_inner();
    assert_eq!(tries, tries.clamp(fewest, most), "C = {capacity}");
}

/// The tries that leave the one at that place, from 0, of so many rates. Of an odd number one more is
/// up to the middle than above it.
fn tries_to(place: u64, rates: u64) -> u32 {
    let up_to_middle = rates.div_ceil(2);
    match rates {
        1 => 1,
        _ if place < up_to_middle => 1 + tries_to(place, up_to_middle),
        _ => 1 + tries_to(place - up_to_middle, rates - up_to_middle),
    }
}

/// In range a search answers what the checker does. In an accepted record it finds, at each step and
/// node, the rate that the converter's plan has there with full speed; where it finds none, the plan
/// has the ramp flow and a lower limit.
pub fn assert_search_goes_with_the_converter(calls: &dyn WordCalls) {
    let [mut found, mut none, mut refused] = [0; 3];
    let series = Series::new("search and converter", 360_000_000, 6_000);
    let outcome = series.run(small_case, |case| {
        let [corridor, demands, record] = case.proposal();
        let Ok(input) = Input::new(corridor, demands) else {
            assert_refused(calls, case, (0, 0), 1);
            return Ok(());
        };
        let mut plan = vec![7; input.size.plan()];
        match calls.convert(corridor, demands, record, &mut plan) {
            0 => {
                let counts = assert_plan_is_found(calls, case, &input, &plan);
                (found, none) = (found + counts[0], none + counts[1]);
            }
            answer => {
                let last = (input.size.steps as u32 - 1, input.size.links as u32);
                assert_refused(calls, case, (0, 0), answer);
                assert_refused(calls, case, last, answer);
                refused += 1;
            }
        }
        Ok(())
    });
    assert_eq!(outcome, Ok(()));
    let counts = [found, none, refused];
    assert!(counts.iter().all(|&count| count > 1_000), "found, none, refused: {counts:?}");
}

/// The checker and the search at a place both answer so, and nothing is written.
fn assert_refused(calls: &dyn WordCalls, case: &WordCase, place: (u32, u32), answer: u32) {
    let [corridor, demands, record] = case.proposal();
    assert_eq!(calls.check(corridor, demands, record), answer, "{case:?}");
    let mut out = [7; OUT_WORDS];
    assert_eq!(calls.search(case.proposal(), place, &mut out), answer, "{place:?} {case:?}");
    assert_eq!(out, [7; OUT_WORDS], "{place:?} {case:?}");
}

/// The search at each step and node, of the first fifty, in a case for which the converter gives that
/// plan; how often a rate was found, and how often none.
fn assert_plan_is_found(
    calls: &dyn WordCalls,
    case: &WordCase,
    input: &Input,
    plan: &[u32],
) -> [u32; 2] {
    let size = input.size;
    let record = Record::new(size, &case.record).expect("accepted");
    let mut counts = [0; 2];
    let places = (0..size.steps).flat_map(|k| (0..size.nodes()).map(move |i| (k, i)));
    for (k, i) in places.take(50) {
        let mut out = [7; OUT_WORDS];
        assert_eq!(calls.search(case.proposal(), (k as u32, i as u32), &mut out), 0, "{case:?}");
        let (node, place) = (input.node(i), size.plan_place(k, i));
        let (given_rate, limit) = (plan[place], plan[place + 1]);
        let [tries, found, rate] = out;
        let full = u32::from(limit == node.full_speed);
        assert_eq!((found, rate), (full, full * given_rate), "step {k}, node {i} of {case:?}");
        if found == 0 {
            assert_eq!(u64::from(given_rate), record.entry(k, i).ramp_flow, "{case:?}");
            assert!(limit < node.full_speed);
        }
        assert_within(tries, node.ramp_capacity.into());
        counts[usize::from(found == 0)] += 1;
    }
    counts
}

/// On ramps of up to 300 rates, all tried: the search leaves the first that lets no more than f
/// through and no less than r, or C where there is none, after the tries that halving takes to it,
/// and has found it if it gives just f and r. Then no lower rate does; otherwise none at all does.
pub fn assert_search_leaves_the_first_without_fault(calls: &dyn WordCalls) {
    let mut random = Random::new(370_000_000);
    let [mut found, mut none] = [0; 2];
    for _ in 0..3_000 {
        let capacity = random.within(0, 299);
        let at = ramp(&mut random, capacity);
        let wanted = flows_to_find(&mut random, &at);
        let alone = Alone::new(&at);
        let all: Vec<(u64, u64)> =
            (0..=capacity).map(|rate| alone.flows(calls, rate, at.full_speed)).collect();
        let left = all.iter().position(|tried| tried.0 <= wanted.0 && tried.1 >= wanted.1);
        let left = left.unwrap_or(capacity as usize);
        let first = all.iter().position(|&tried| tried == wanted);
        let rate = (all[left] == wanted).then_some(left);
        assert_eq!(rate, first, "{at:?} {wanted:?}");
        let tries = tries_to(left as u64, capacity + 1);
        let out = [tries, rate.is_some().into(), rate.unwrap_or(0) as u32];
        assert_eq!(alone.search(calls, wanted), out, "{at:?} {wanted:?}");
        (found, none) = (found + u32::from(out[1] == 1), none + u32::from(out[1] == 0));
    }
    assert!(found > 500 && none > 500, "rates found: {found}, none: {none}");
}

/// On long ramps, too long to try each rate: one that is found gives the flows, and one less does
/// not; the converter gives that rate and full speed, and a lower limit where none is found.
pub fn assert_rate_found_is_the_smallest(calls: &dyn WordCalls) {
    let mut random = Random::new(380_000_000);
    let [mut found, mut none] = [0; 2];
    for _ in 0..5_000 {
        let any = random.within(300, WHOLE);
        let capacity = random.pick(&[any, WHOLE - 1, WHOLE]);
        let at = ramp(&mut random, capacity);
        let wanted = flows_to_find(&mut random, &at);
        let alone = Alone::new(&at);
        let [tries, is_found, rate] = alone.search(calls, wanted);
        let (rate, setting) = (u64::from(rate), alone.setting(calls, wanted));
        assert_within(tries, capacity);
        if is_found == 0 {
            none += 1;
            assert!(rate == 0 && setting.1 < at.full_speed);
            continue;
        }
        found += 1;
        assert_eq!(setting, (rate, at.full_speed), "{at:?} {wanted:?}");
        assert_eq!(alone.flows(calls, rate, at.full_speed), wanted, "{at:?}");
        let one_less = rate.checked_sub(1).map(|rate| alone.flows(calls, rate, at.full_speed));
        assert_ne!(one_less, Some(wanted), "{at:?}");
    }
    assert!(found > 1_000 && none > 1_000, "rates found: {found}, none: {none}");
}

/// A ramp of that capacity, with as much in its queue and more, beside an empty link and before one
/// with room for all: each rate lets just itself through.
fn free_ramp(capacity: u64) -> Alone {
    Alone::new(&NodeStep {
        capacity: WHOLE,
        dropped_capacity: WHOLE,
        drop_density: WHOLE,
        full_speed: WHOLE,
        ramp_capacity: capacity,
        vehicles: 0,
        queue: capacity + 1,
        arrivals: 0,
        split: 0,
        supply: WHOLE,
    })
}

/// Whatever C is, rate 0 is found with the most tries that there can be, 1 + log2(C + 1) rounded up,
/// and C with the fewest. On the longest ramp every rate is found, with 17 tries, and 0 and 1 alone
/// with 18.
pub fn assert_tries_follow_the_capacity(calls: &dyn WordCalls) {
    for capacity in 0..=WHOLE {
        let ramp = free_ramp(capacity);
        let (fewest, most) = tries_with(capacity).into_inner();
        let searches = [0, capacity].map(|rate| ramp.search(calls, (0, rate)));
        assert_eq!(searches, [[most, 1, 0], [fewest, 1, capacity as u32]], "C = {capacity}");
    }
    let longest = free_ramp(WHOLE);
    for rate in 0..=WHOLE {
        let tries = if rate < 2 { 18 } else { 17 };
        assert_eq!(longest.search(calls, (0, rate)), [tries, 1, rate as u32]);
    }
}

/// Steps and nodes that there are not, a list of another length than three words: each by itself is
/// refused by 1 whatever else is due, and nothing is written.
pub fn assert_bad_searches_are_refused_first(calls: &dyn WordCalls) {
    let mut others_due = 0;
    let series = Series::new("bad searches", 390_000_000, 3_000);
    let outcome = series.run(small_case, |case| {
        let [corridor, demands, record] = case.proposal();
        let size = Input::new(corridor, demands).map(|input| input.size);
        for (place, length) in size.map_or(vec![], bad_searches) {
            let mut out = vec![7; length];
            let answer = calls.search(case.proposal(), place, &mut out);
            assert_eq!((answer, out), (1, vec![7; length]), "{place:?} {case:?}");
        }
        others_due += u32::from(calls.check(corridor, demands, record) > 1);
        Ok(())
    });
    assert_eq!(outcome, Ok(()));
    assert!(others_due > 500, "cases with other refusals: {others_due}");
}

/// Places and lengths of which one is bad.
fn bad_searches(size: Size) -> Vec<((u32, u32), usize)> {
    let (steps, links) = (size.steps as u32, size.links as u32);
    let beyond =
        |first: u32| [[first, first + 1, u32::MAX], same_in_fewer_bits(first - 1)].concat();
    let bad_steps = beyond(steps).into_iter().map(|step| ((step, links), OUT_WORDS));
    let bad_nodes = beyond(links + 1).into_iter().map(|node| ((0, node), OUT_WORDS));
    let lengths = [0, 1, 2, 4, 5].map(|length| ((0, 0), length));
    bad_steps.chain(bad_nodes).chain(lengths).collect()
}
