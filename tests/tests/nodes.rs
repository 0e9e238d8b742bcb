//! The host's calls with the corridor as a list of nodes against the model, word for word.

use tests::calls::{ByNodes, OnSmallStack};
use tests::capacity_drop::*;
use tests::compare::{compare_limit_on_words, compare_words, Series, CALLS_ON_LISTS};
use tests::completed::*;
use tests::downstream::*;
use tests::examples::assert_word_examples;
use tests::examples::off_ramps::b_of_all_kinds;
use tests::host::Host;
use tests::limits::{greatest, limit_cases};
use tests::model::{Kinds, List, Paper, Quick, Size};
use tests::off_ramps::*;
use tests::properties::*;
use tests::random::damage::{full_size, large_case, size, small_case};
use tests::random::sound::{sound_case, WordCase};
use tests::random::Random;
use tests::sweeps::{each_length_changed, each_word_changed};
use tests::tally::kinds::CALLS_BY_KIND;
use tests::tally::Tally;

#[test]
fn worked_cases_and_table() {
    assert_word_examples(&ByNodes(Host));
}

/// B with a corridor, demands and a record of both kinds, with one word or one length changed, every
/// place in turn.
#[test]
fn every_place_changed() {
    let mut tally = Tally::default();
    let sides = [&ByNodes(Paper) as _, &ByNodes(Host) as _];
    let mut compare = |case: &WordCase| {
        assert_eq!(compare_words(sides, case, &mut tally), Ok(()), "{case:?}");
    };
    for case in b_of_all_kinds() {
        each_word_changed(&case, &mut compare);
        each_length_changed(&case, &mut compare);
    }
    for [simulate, ..] in CALLS_BY_KIND {
        tally.expect(simulate, &[0, 1, 2, 3, 4, 5, 6], 10);
    }
}

fn run(series: Series, make: fn(&mut Random) -> WordCase) -> Tally {
    let sides = [&ByNodes(Quick) as _, &ByNodes(Host) as _];
    let mut tally = Tally::default();
    let outcome = series.run(make, |case| compare_words(sides, case, &mut tally));
    tally.print();
    assert_eq!(outcome, Ok(()));
    tally
}

#[test]
fn small_inputs() {
    let tally = run(Series::new("small inputs", 90_000_000, 50_000), small_case);
    tally.expect_all_answers(200);
    tally.expect_all_happenings(2_000);
}

#[test]
fn large_inputs() {
    let tally = run(Series::new("large inputs", 100_000_000, 300), large_case);
    tally.expect_common_answers(1);
}

/// A sound corridor has the same answers as words and as nodes.
#[test]
fn same_as_on_words() {
    let series = Series::new("words and nodes", 110_000_000, 5_000);
    let make = |random: &mut Random| {
        let size = size(random, 8, 8);
        sound_case(random, size, false)
    };
    let mut tally = Tally::default();
    let outcome = series.run(make, |case| compare_words([&Host, &ByNodes(Host)], case, &mut tally));
    assert_eq!(outcome, Ok(()));
    for [.., normal] in CALLS_BY_KIND {
        tally.expect(normal, &[0, 12], 100);
    }
}

/// All other lists have just the lengths that the number of nodes tells, none at all included.
#[test]
fn limits_of_nodes_and_steps() {
    let sides = [&ByNodes(Quick) as _, &ByNodes(Host) as _];
    let outcome = limit_cases().try_for_each(|case| compare_limit_on_words(sides, &case));
    assert_eq!(outcome, Ok(()));
}

/// Compares a case and asserts that all four calls accept it, or that all refuse it by 1.
fn assert_all(case: &WordCase, accepted: bool) {
    let mut tally = Tally::default();
    assert_eq!(compare_words([&ByNodes(Quick), &ByNodes(Host)], case, &mut tally), Ok(()));
    CALLS_ON_LISTS.iter().for_each(|call| tally.expect(call, &[u32::from(!accepted)], 1));
}

/// Lists of 1 to 70 nodes: N is their number less one, and 2 to 65 of them are allowed where the
/// other lists are for N links too.
#[test]
fn every_number_of_nodes() {
    let most = greatest(full_size(), Kinds::OLDEST, false);
    for nodes in 1..=70 {
        let size = Size { links: nodes - 1, steps: 3 };
        for kinds in Kinds::all() {
            assert_all(&greatest(size, kinds, false), (2..=65).contains(&nodes));
        }
        let corridor = greatest(size, Kinds::OLDEST, false).corridor;
        assert_all(&WordCase { corridor, ..most.clone() }, nodes == 65);
    }
}

/// Every call at full size in a thread with a stack of 64 KiB.
#[test]
fn full_size_on_a_small_stack() {
    let mut tally = Tally::default();
    for kinds in [Kinds::OLDEST, Kinds::NEWEST] {
        for jammed in [true, false] {
            let case = greatest(full_size(), kinds, jammed);
            let sides = [&ByNodes(Quick) as _, &OnSmallStack(ByNodes(Host)) as _];
            assert_eq!(compare_words(sides, &case, &mut tally), Ok(()));
        }
    }
    for call in CALLS_BY_KIND.as_flattened() {
        tally.expect(call, &[0], 1);
    }
}

#[test]
fn vehicles_are_conserved() {
    assert_vehicles_are_conserved(&ByNodes(Host));
}

#[test]
fn cost_is_the_sum_over_later_states() {
    assert_cost_is_the_sum_over_later_states(&ByNodes(Host));
}

#[test]
fn merge_is_close_and_fits() {
    assert_merge_is_close_and_fits(&ByNodes(Host));
}

#[test]
fn flows_are_monotone_in_the_rate() {
    assert_flows_are_monotone_in_the_rate(&ByNodes(Host));
}

#[test]
fn held_limit_is_the_smallest() {
    assert_held_limit_is_the_smallest(&ByNodes(Host));
}

#[test]
fn flow_out_of_link_n_is_exact() {
    assert_flow_out_of_link_n_is_exact(&ByNodes(Host));
}

#[test]
fn link_n_keeps_to_its_words() {
    assert_link_n_keeps_to_its_words(&ByNodes(Host));
}

#[test]
fn kind_two_is_kind_five_completed() {
    assert_completed_lists_are_the_same(&ByNodes(Host), List::Demands);
}

#[test]
fn kind_three_is_kind_seven_completed() {
    assert_completed_lists_are_the_same(&ByNodes(Host), List::Record);
}

#[test]
fn exits_are_what_does_not_go_through() {
    assert_exits_are_what_does_not_go_through(&ByNodes(Host));
}

#[test]
fn record_accounts_for_all_vehicles() {
    assert_record_accounts_for_all_vehicles(&ByNodes(Host));
}

#[test]
fn every_exit_is_tested() {
    assert_every_exit_is_tested(&ByNodes(Host));
}

#[test]
fn drop_sets_what_a_link_sends() {
    assert_drop_sets_what_a_link_sends(&ByNodes(Host));
}

#[test]
fn link_keeps_receiving() {
    assert_link_keeps_receiving(&ByNodes(Host));
}

#[test]
fn sending_is_monotone_in_the_limit() {
    assert_sending_is_monotone_in_the_limit(&ByNodes(Host));
}
