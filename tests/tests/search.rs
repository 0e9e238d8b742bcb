//! The host's search for a rate against the model: answers, tries and rates, word for word.

use tests::calls::OnSmallStack;
use tests::compare::{compare_every_search, compare_limit_of_search, compare_search, Series};
use tests::examples::off_ramps::b_of_all_kinds;
use tests::host::Host;
use tests::limits::{greatest, limit_cases};
use tests::model::{Kinds, Paper, Quick, Size, WHOLE};
use tests::random::damage::{full_size, short_ramp_case, size};
use tests::random::search::{large_search_case, ramp_case, ramp_case_of, search_case, SearchCase};
use tests::random::sound::{sound_case, sound_case_of};
use tests::random::Random;
use tests::search::*;
use tests::sweeps::each_search_changed;
use tests::tally::search::{BAD_CALLS, ENDINGS, SEARCH, SEARCHES_BY_KIND, SEARCH_ANSWERS, TRIES};
use tests::tally::Tally;

/// Runs a series and asserts that no difference was found.
fn run(series: Series, make: fn(&mut Random) -> SearchCase) -> Tally {
    let mut tally = Tally::default();
    let outcome = series.run(make, |case| compare_search([&Quick, &Host], case, &mut tally));
    tally.print();
    assert_eq!(outcome, Ok(()));
    tally
}

#[test]
fn small_inputs() {
    let tally = run(Series::new("searches", 430_000_000, 100_000), search_case);
    tally.expect_all_searches(300);
}

#[test]
fn ramps_by_themselves() {
    let tally = run(Series::new("ramps", 440_000_000, 100_000), ramp_case);
    tally.expect_all_tries(30);
}

/// The shortest ramps and the longest, each by itself, every rate tried: with just the numbers of
/// tries that there can be, and with each of them a rate found and none found.
#[test]
fn ramps_of_chosen_lengths() {
    let lengths: [(u64, &[u32]); 5] =
        [(0, &[1]), (1, &[2]), (2, &[2, 3]), (WHOLE - 1, &[17]), (WHOLE, &[17, 18])];
    for (capacity, tries) in lengths {
        let mut tally = Tally::default();
        let series = Series::new("ramps of one length", 450_000_000, 4_000);
        let outcome = series.run(
            |random| ramp_case_of(random, capacity),
            |case| compare_search([&Paper, &Host], case, &mut tally),
        );
        assert_eq!(outcome, Ok(()), "C = {capacity}");
        TRIES.iter().for_each(|name| tally.expect(name, tries, 1));
        let count = |&number: &u32| TRIES.map(|name| tally.count(name, number)).iter().sum::<u64>();
        assert_eq!(tries.iter().map(count).sum::<u64>(), series.count, "C = {capacity}");
    }
}

/// Every step and node of small records.
#[test]
fn every_step_and_node() {
    let mut tally = Tally::default();
    let series = Series::new("every step and node", 460_000_000, 5_000);
    let make = |random: &mut Random| {
        let size = size(random, 6, 6);
        sound_case(random, size, false)
    };
    let outcome = series.run(make, |case| compare_every_search([&Quick, &Host], case, &mut tally));
    assert_eq!(outcome, Ok(()));
    SEARCHES_BY_KIND.iter().for_each(|name| tally.expect(name, &[0, 12], 1_000));
    ENDINGS.iter().for_each(|name| tally.expect(name, &[0], 500));
}

/// The same where the model tries every rate, as the paper has it.
#[test]
fn every_step_and_node_with_every_rate_tried() {
    let mut tally = Tally::default();
    let series = Series::new("every rate tried", 470_000_000, 3_000);
    let outcome =
        series.run(short_ramp_case, |case| compare_every_search([&Paper, &Host], case, &mut tally));
    assert_eq!(outcome, Ok(()));
    SEARCHES_BY_KIND.iter().for_each(|name| tally.expect(name, &SEARCH_ANSWERS[2..], 20));
    ENDINGS.iter().for_each(|name| tally.expect(name, &[0], 200));
}

/// B and a longer case, of all kinds, at every step and node with each of its words, a length, its
/// step or its node changed in turn.
#[test]
fn every_place_changed() {
    let size = Size { links: 3, steps: 3 };
    let longer = |kinds| sound_case_of(&mut Random::new(4), size, kinds, false);
    let mut tally = Tally::default();
    let mut compare = |case: &SearchCase| {
        assert_eq!(compare_search([&Paper, &Host], case, &mut tally), Ok(()), "{case:?}");
    };
    for case in b_of_all_kinds() {
        for node in 0..3 {
            each_search_changed(&SearchCase::at(case.clone(), (0, node)), &mut compare);
        }
    }
    for (place, kinds) in (0..).zip(Kinds::all()) {
        let case = SearchCase::at(longer(kinds), (place % 3, place % 4));
        each_search_changed(&case, &mut compare);
    }
    tally.print();
    let common = [0, 1, 2, 3, 4, 5, 7, 8, 11, 13];
    SEARCHES_BY_KIND.iter().for_each(|name| tally.expect(name, &common, 20));
    BAD_CALLS.iter().for_each(|name| tally.expect(name, &[0], 20));
}

#[test]
fn large_inputs() {
    let tally = run(Series::new("large searches", 480_000_000, 200), large_search_case);
    tally.expect(SEARCH, &[0, 1, 7, 9, 12], 1);
    SEARCHES_BY_KIND.iter().for_each(|name| tally.expect(name, &[0, 12], 1));
}

/// Lists of just the lengths that a bad N or K tells are refused, and its good neighbours' taken.
#[test]
fn limits_of_links_and_steps() {
    let outcome =
        limit_cases().try_for_each(|case| compare_limit_of_search([&Quick, &Host], &case));
    assert_eq!(outcome, Ok(()));
}

/// At full size, accepted and refused, at the first place, one between and the last, in a thread with
/// a stack of 64 KiB.
#[test]
fn full_size_on_a_small_stack() {
    let mut tally = Tally::default();
    for (kinds, jammed) in Kinds::all().flat_map(|kinds| [(kinds, true), (kinds, false)]) {
        let lists = greatest(full_size(), kinds, jammed);
        for place in [(0, 0), (700, 31), (1_439, 64)] {
            let case = SearchCase::at(lists.clone(), place);
            let outcome = compare_search([&Quick, &OnSmallStack(Host)], &case, &mut tally);
            assert_eq!(outcome, Ok(()));
        }
    }
    SEARCHES_BY_KIND.iter().for_each(|name| tally.expect(name, &[0, 12], 12));
}

#[test]
fn search_goes_with_the_converter() {
    assert_search_goes_with_the_converter(&Host);
}

#[test]
fn search_leaves_the_first_without_fault() {
    assert_search_leaves_the_first_without_fault(&Host);
}

#[test]
fn rate_found_is_the_smallest() {
    assert_rate_found_is_the_smallest(&Host);
}

#[test]
fn tries_follow_the_capacity() {
    assert_tries_follow_the_capacity(&Host);
}

#[test]
fn bad_searches_are_refused_first() {
    assert_bad_searches_are_refused_first(&Host);
}
