//! The host's calls on word lists against the model: answers and lent lists, word for word.

use tests::calls::{OnSmallStack, WordCalls};
use tests::capacity_drop::*;
use tests::compare::{compare_limit_on_words, compare_words, Series};
use tests::completed::*;
use tests::downstream::*;
use tests::examples::assert_word_examples;
use tests::examples::capacity_drop::b_above_jam;
use tests::examples::off_ramps::{b_of_all_kinds, b_with_a_rest};
use tests::host::Host;
use tests::limits::{greatest, limit_cases};
use tests::model::{Kinds, List, Paper, Quick, Size};
use tests::off_ramps::*;
use tests::properties::*;
use tests::random::damage::{full_size, large_case, short_ramp_case, small_case};
use tests::random::sound::{sound_case_of, WordCase};
use tests::random::Random;
use tests::sweeps::{each_length_changed, each_word_changed};
use tests::tally::capacity_drop::DROP_REFUSALS;
use tests::tally::kinds::CALLS_BY_KIND;
use tests::tally::off_ramps::EXIT_REFUSALS;
use tests::tally::Tally;

/// Runs a series and asserts that no difference was found.
fn run(series: Series, make: fn(&mut Random) -> WordCase, model: &dyn WordCalls) -> Tally {
    let mut tally = Tally::default();
    let outcome = series.run(make, |case| compare_words([model, &Host], case, &mut tally));
    tally.print();
    assert_eq!(outcome, Ok(()));
    tally
}

#[test]
fn worked_cases_and_table() {
    assert_word_examples(&Host);
}

/// B and a longer case, with a corridor, demands and a record of both kinds, with one word or one
/// length changed, every place in turn.
#[test]
fn every_place_changed() {
    let size = Size { links: 3, steps: 3 };
    let longer = |kinds| sound_case_of(&mut Random::new(4), size, kinds, false);
    let mut tally = Tally::default();
    let b = b_of_all_kinds().into_iter().chain([b_above_jam(), b_with_a_rest()]);
    for case in b.chain(Kinds::all().map(longer)) {
        let mut compare = |case: &WordCase| {
            assert_eq!(compare_words([&Paper, &Host], case, &mut tally), Ok(()), "{case:?}");
        };
        compare(&case);
        each_word_changed(&case, &mut compare);
        each_length_changed(&case, &mut compare);
    }
    tally.print();
    for [simulate, check, ..] in CALLS_BY_KIND {
        tally.expect(simulate, &[0, 1, 2, 3, 4, 5, 6], 20);
        tally.expect(check, &[0, 1, 2, 3, 4, 5, 7, 8, 11, 13], 20);
    }
    for name in ["flow refused by 9 at node N", "word refused by 5"] {
        tally.expect(name, &[0], 10);
    }
    DROP_REFUSALS.iter().for_each(|name| tally.expect(name, &[0], 2));
    let one_word = EXIT_REFUSALS.iter().filter(|name| name.ends_with("alone"));
    one_word.for_each(|name| tally.expect(name, &[0], 10));
}

#[test]
fn small_inputs() {
    let tally = run(Series::new("small inputs", 10_000_000, 100_000), small_case, &Quick);
    tally.expect_all_answers(500);
    tally.expect_all_happenings(5_000);
}

/// The model tries every rate here, as the paper has it.
#[test]
fn small_inputs_with_every_rate_tried() {
    let tally = run(Series::new("every rate tried", 20_000_000, 20_000), short_ramp_case, &Paper);
    tally.expect_all_answers(100);
    tally.expect_all_happenings(1_000);
}

#[test]
fn large_inputs() {
    let tally = run(Series::new("large inputs", 30_000_000, 300), large_case, &Quick);
    tally.expect_common_answers(1);
    tally.expect_all_happenings(5_000);
}

/// Lists of just the lengths that a bad N or K tells are refused, and its good neighbours' taken.
#[test]
fn limits_of_links_and_steps() {
    let outcome = limit_cases().try_for_each(|case| compare_limit_on_words([&Quick, &Host], &case));
    assert_eq!(outcome, Ok(()));
}

/// Every call at full size, accepted and refused, in a thread with a stack of 64 KiB.
#[test]
fn full_size_on_a_small_stack() {
    let mut tally = Tally::default();
    for kinds in Kinds::all() {
        let sound = |seed| sound_case_of(&mut Random::new(seed), full_size(), kinds, false);
        let greatest = [true, false].map(|jammed| greatest(full_size(), kinds, jammed));
        for case in greatest.into_iter().chain((0..3).map(sound)) {
            let outcome = compare_words([&Quick, &OnSmallStack(Host)], &case, &mut tally);
            assert_eq!(outcome, Ok(()));
        }
    }
    for calls in CALLS_BY_KIND {
        calls.iter().for_each(|call| tally.expect(call, &[0], 2));
        tally.expect(calls[3], &[12], 1);
    }
}

#[test]
fn vehicles_are_conserved() {
    assert_vehicles_are_conserved(&Host);
}

#[test]
fn cost_is_the_sum_over_later_states() {
    assert_cost_is_the_sum_over_later_states(&Host);
}

#[test]
fn merge_is_close_and_fits() {
    assert_merge_is_close_and_fits(&Host);
}

#[test]
fn flows_are_monotone_in_the_rate() {
    assert_flows_are_monotone_in_the_rate(&Host);
}

#[test]
fn held_limit_is_the_smallest() {
    assert_held_limit_is_the_smallest(&Host);
}

#[test]
fn flow_out_of_link_n_is_exact() {
    assert_flow_out_of_link_n_is_exact(&Host);
}

#[test]
fn link_n_keeps_to_its_words() {
    assert_link_n_keeps_to_its_words(&Host);
}

#[test]
fn kind_two_is_kind_five_completed() {
    assert_completed_lists_are_the_same(&Host, List::Demands);
}

#[test]
fn kind_one_is_kind_ten_completed() {
    assert_completed_lists_are_the_same(&Host, List::Corridor);
}

#[test]
fn kind_three_is_kind_seven_completed() {
    assert_completed_lists_are_the_same(&Host, List::Record);
}

#[test]
fn exits_are_what_does_not_go_through() {
    assert_exits_are_what_does_not_go_through(&Host);
}

#[test]
fn record_accounts_for_all_vehicles() {
    assert_record_accounts_for_all_vehicles(&Host);
}

#[test]
fn every_exit_is_tested() {
    assert_every_exit_is_tested(&Host);
}

#[test]
fn drop_sets_what_a_link_sends() {
    assert_drop_sets_what_a_link_sends(&Host);
}

#[test]
fn link_keeps_receiving() {
    assert_link_keeps_receiving(&Host);
}

#[test]
fn sending_is_monotone_in_the_limit() {
    assert_sending_is_monotone_in_the_limit(&Host);
}

#[test]
fn links_come_before_the_kind() {
    assert_links_come_before_the_kind(&Host);
}
