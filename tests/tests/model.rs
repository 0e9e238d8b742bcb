//! The model against documents 01 and 02: the worked cases, the examples of the table, and what they
//! say of the rules, of the search and of the kinds of corridor, demands and record.

use tests::alone::long_ramp;
use tests::calls::{ByNodes, WordCalls};
use tests::capacity_drop::*;
use tests::compare::{compare_file, compare_search, compare_words, Series, READERS};
use tests::completed::*;
use tests::downstream::*;
use tests::examples::{assert_file_examples, assert_program_examples, assert_word_examples};
use tests::model::kinds::KINDS;
use tests::model::lists::{MOST_LINKS, MOST_STEPS};
use tests::model::search::rate_from_zero;
use tests::model::{Kind, List, Paper, Quick, Rules, Size};
use tests::off_ramps::*;
use tests::properties::*;
use tests::random::damage::{full_size, short_ramp_case, small_case};
use tests::random::files::{change_block, file_case, file_of};
use tests::random::records::allowed_flows;
use tests::random::search::{ramp_case, search_case};
use tests::search::*;
use tests::tally::kinds::CALLS_BY_KIND;
use tests::tally::Tally;
use tests::yardstick::{convert_by_every_rate, Yardstick};

#[test]
fn worked_cases_and_table_on_words() {
    assert_word_examples(&Paper);
    assert_word_examples(&Quick);
    assert_word_examples(&ByNodes(Paper));
}

#[test]
fn worked_cases_and_table_on_files() {
    assert_file_examples(&Paper);
}

#[test]
fn printed_examples() {
    assert_program_examples(&Paper);
}

#[test]
fn both_searches_give_the_same_answers() {
    let mut tally = Tally::default();
    let series = Series::new("both searches", 1_000_000, 20_000);
    let outcome =
        series.run(short_ramp_case, |case| compare_words([&Paper, &Quick], case, &mut tally));
    tally.print();
    assert_eq!(outcome, Ok(()));
    tally.expect_all_happenings(1_000);
    // Of 7 to 13 a normal form can meet 12 only.
    assert!([7, 8, 9, 10, 11, 13].iter().all(|&number| tally.count("normal", number) == 0));
    tally.expect_refusals_by_kind(20);
}

/// The benchmarks' yardstick does the same work.
#[test]
fn yardstick_gives_the_same_answers() {
    let mut tally = Tally::default();
    let series = Series::new("yardstick, words", 11_000_000, 20_000);
    let outcome =
        series.run(small_case, |case| compare_words([&Quick, &Yardstick], case, &mut tally));
    assert_eq!(outcome, Ok(()));
    let series = Series::new("yardstick, files", 12_000_000, 20_000);
    let outcome =
        series.run(file_case, |case| compare_file([&Quick, &Yardstick], case, &mut tally));
    assert_eq!(outcome, Ok(()));
    for [_, _, convert, _] in CALLS_BY_KIND {
        tally.expect(convert, &[0, 9, 11, 12], 100);
    }
    for reader in READERS {
        tally.expect(reader, &[0, 1, 14, 15, 16, 17, 18], 30);
    }
}

#[test]
fn yardstick_searches_alike() {
    let mut tally = Tally::default();
    let sides = [&Quick as _, &Yardstick as _];
    let series = Series::new("yardstick, searches", 400_000_000, 40_000);
    let outcome = series.run(search_case, |case| compare_search(sides, case, &mut tally));
    assert_eq!(outcome, Ok(()));
    let series = Series::new("yardstick, ramps", 410_000_000, 40_000);
    let outcome = series.run(ramp_case, |case| compare_search(sides, case, &mut tally));
    tally.print();
    assert_eq!(outcome, Ok(()));
    tally.expect_all_searches(100);
    tally.expect_all_tries(10);
}

/// The converter that tries every rate, as the benchmarks have it.
#[test]
fn every_rate_tried_gives_the_same_plan() {
    let mut accepted = 0;
    let series = Series::new("yardstick, every rate", 420_000_000, 5_000);
    let outcome = series.run(short_ramp_case, |case| {
        let [corridor, demands, record] = case.proposal();
        let [mut plan, mut other] = [vec![7; case.lent_plan], vec![7; case.lent_plan]];
        let answer = Quick.convert(corridor, demands, record, &mut plan);
        accepted += u32::from(answer == 0);
        match (convert_by_every_rate(case.proposal(), &mut other), &other) == (answer, &plan) {
            true => Ok(()),
            false => Err(format!("{case:?}")),
        }
    });
    assert_eq!(outcome, Ok(()));
    assert!(accepted > 1_000, "records accepted: {accepted}");
}

#[test]
fn both_searches_find_the_same_rate_on_long_ramps() {
    let mut found = 0;
    let outcome = Series::new("long ramps", 2_000_000, 5_000).run(
        |random| {
            let at = long_ramp(random);
            (at, allowed_flows(random, &at))
        },
        |(at, (flow, ramp_flow))| {
            let plain = rate_from_zero::<Paper>(at, *flow, *ramp_flow);
            found += u64::from(plain.is_some());
            match plain == Quick::find_rate(at, *flow, *ramp_flow) {
                true => Ok(()),
                false => Err(format!("{at:?} {flow} {ramp_flow}")),
            }
        },
    );
    assert_eq!(outcome, Ok(()));
    assert!(found > 1_000, "rates found: {found}");
}

#[test]
fn vehicles_are_conserved() {
    assert_vehicles_are_conserved(&Paper);
}

#[test]
fn cost_is_the_sum_over_later_states() {
    assert_cost_is_the_sum_over_later_states(&Paper);
}

#[test]
fn merge_is_close_and_fits() {
    assert_merge_is_close_and_fits(&Paper);
}

#[test]
fn flows_are_monotone_in_the_rate() {
    assert_flows_are_monotone_in_the_rate(&Paper);
}

#[test]
fn held_limit_is_the_smallest() {
    assert_held_limit_is_the_smallest(&Quick);
}

#[test]
fn flow_out_of_link_n_is_exact() {
    assert_flow_out_of_link_n_is_exact(&Paper);
}

#[test]
fn link_n_keeps_to_its_words() {
    assert_link_n_keeps_to_its_words(&Quick);
}

#[test]
fn oldest_kinds_are_newest_completed() {
    for list in [List::Corridor, List::Demands, List::Record] {
        assert_completed_lists_are_the_same(&Quick, list);
        assert_completed_files_are_the_same(&Quick, list);
        assert_completed_inputs_are_the_same(&Quick, list);
    }
}

#[test]
fn drop_sets_what_a_link_sends() {
    assert_drop_sets_what_a_link_sends(&Paper);
}

#[test]
fn link_keeps_receiving() {
    assert_link_keeps_receiving(&Paper);
}

#[test]
fn sending_is_monotone_in_the_limit() {
    assert_sending_is_monotone_in_the_limit(&Paper);
}

/// Once N and K are known a length tells the kind: no two kinds of a list share one. The longest
/// record is that of kind 7.
#[test]
fn lengths_tell_kinds_apart() {
    for (n, k) in (1..=MOST_LINKS).flat_map(|n| (1..=MOST_STEPS).map(move |k| (n, k))) {
        let size = Size::new(n, k).expect("within limits");
        for list in [List::Corridor, List::Demands, List::Record] {
            let [oldest, newest] = list.kinds() else { panic!("two kinds of each") };
            for kind in [oldest, newest] {
                assert_eq!(list.kind_of_length(size, kind.words(size)), Ok(*kind), "{n} {k}");
            }
        }
    }
    assert_eq!(Kind::OffRamps.words(full_size()), 468_327);
    assert_eq!(Kind::OffRamps.bytes(full_size()), 1_918_464);
}

#[test]
fn exits_are_what_does_not_go_through() {
    assert_exits_are_what_does_not_go_through(&Paper);
}

#[test]
fn record_accounts_for_all_vehicles() {
    assert_record_accounts_for_all_vehicles(&Paper);
}

#[test]
fn every_exit_is_tested() {
    assert_every_exit_is_tested(&Quick);
}

#[test]
fn search_goes_with_the_converter() {
    assert_search_goes_with_the_converter(&Quick);
}

#[test]
fn search_leaves_the_first_without_fault() {
    assert_search_leaves_the_first_without_fault(&Paper);
}

#[test]
fn rate_found_is_the_smallest() {
    assert_rate_found_is_the_smallest(&Quick);
}

#[test]
fn tries_follow_the_capacity() {
    assert_tries_follow_the_capacity(&Quick);
}

#[test]
fn bad_searches_are_refused_first() {
    assert_bad_searches_are_refused_first(&Quick);
}

#[test]
fn links_come_before_the_kind() {
    assert_links_come_before_the_kind(&Quick);
    assert_links_come_before_the_kind_in_files(&Quick);
}

#[test]
fn files_come_back() {
    assert_files_come_back(&Paper);
}

#[test]
fn check_word_sees_any_one_change() {
    assert_check_word_sees_any_one_change(&Paper);
}

/// A block that `change_block` touched has the right check word, or the file tests would only
/// ever meet refusal 15.
#[test]
fn changed_blocks_keep_their_check() {
    let mut file = file_of(KINDS[0], &[1; 125]);
    change_block(&mut file, 0, 1, |_| 9);
    let words = tests::model::files::words_of(&file);
    assert_eq!((words[1], words[127]), (9, Paper::check_word(&words)));
}
