//! The host's readers, writers and calls on block files against the model, byte for byte.

use tests::calls::{ByFiles, OnSmallStack};
use tests::capacity_drop::*;
use tests::compare::{
    compare_file, compare_limit_on_files, compare_three, Series, CALLS_ON_FILES, READERS, WRITERS,
};
use tests::completed::*;
use tests::downstream::*;
use tests::examples::assert_file_examples;
use tests::host::Host;
use tests::limits::{greatest, limit_cases};
use tests::model::kinds::KINDS;
use tests::model::{Kind, Kinds, List, Quick, Size};
use tests::off_ramps::*;
use tests::properties::*;
use tests::random::damage::full_size;
use tests::random::files::{
    file_case, large_file_case, large_three_files, three_files, FileCase, ThreeFiles,
};
use tests::random::Random;
use tests::sweeps::{each_count_told, each_file_length, each_file_word_changed, each_kind_said};
use tests::tally::kinds::{CALLS_ON_FILES_BY_KIND, KINDS_TOGETHER};
use tests::tally::Tally;

#[test]
fn worked_cases_and_table() {
    assert_file_examples(&Host);
}

/// Readers and writers; asserts that these answers of each reader came up that often, and files and
/// lists of two kinds together.
fn run_files(series: Series, make: fn(&mut Random) -> FileCase, numbers: &[u32], at_least: u64) {
    let mut tally = Tally::default();
    let outcome = series.run(make, |case| compare_file([&Quick, &Host], case, &mut tally));
    tally.print();
    assert_eq!(outcome, Ok(()));
    for (reader, writer) in READERS.into_iter().zip(WRITERS) {
        tally.expect(reader, numbers, at_least);
        tally.expect(writer, &[0, 1], at_least);
    }
    tally.expect_mixed_kinds(at_least / 2);
}

#[test]
fn small_files() {
    let series = Series::new("small files", 40_000_000, 72_000);
    run_files(series, file_case, &[0, 1, 14, 15, 16, 17, 18], 120);
}

#[test]
fn large_files() {
    let series = Series::new("large files", 50_000_000, 1_200);
    run_files(series, large_file_case, &[0, 1, 15, 16, 17], 2);
}

/// Checker and converter on files, each of either kind.
fn run_three(series: Series, make: fn(&mut Random) -> ThreeFiles) -> Tally {
    let mut tally = Tally::default();
    let outcome = series.run(make, |case| compare_three([&Quick, &Host], case, &mut tally));
    tally.print();
    assert_eq!(outcome, Ok(()));
    tally
}

#[test]
fn small_calls_on_files() {
    let tally = run_three(Series::new("small calls on files", 60_000_000, 60_000), three_files);
    let numbers = [0, 1, 2, 3, 4, 5, 7, 8, 9, 10, 11, 12, 13, 14, 15, 16, 17, 18];
    for call in CALLS_ON_FILES_BY_KIND.as_flattened() {
        tally.expect(call, &numbers, 150);
    }
    KINDS_TOGETHER.iter().for_each(|name| tally.expect(name, &[0], 1_000));
    tally.expect_refusals_by_kind(50);
}

#[test]
fn large_calls_on_files() {
    let tally = run_three(Series::new("large calls on files", 70_000_000, 120), large_three_files);
    CALLS_ON_FILES.iter().for_each(|call| tally.expect(call, &[0, 1, 12, 14, 17], 1));
    for call in CALLS_ON_FILES_BY_KIND.as_flattened() {
        tally.expect(call, &[0, 12], 1);
    }
}

/// Files of one and of several blocks with one word, one length or one count changed, in turn.
#[test]
fn every_place_changed() {
    let mut tally = Tally::default();
    for size in [Size { links: 2, steps: 1 }, Size { links: 15, steps: 10 }] {
        let mut compare = |case: &FileCase| {
            assert_eq!(compare_file([&Quick, &Host], case, &mut tally), Ok(()), "{case:?}");
        };
        each_file_word_changed(size, &mut compare);
        each_kind_said(size, &mut compare);
        each_count_told(size, &mut compare);
        each_file_length(size, &mut compare);
    }
    tally.print();
    for (reader, writer) in READERS.into_iter().zip(WRITERS) {
        tally.expect(reader, &[0, 1, 14, 15, 16, 17, 18], 5);
        tally.expect(writer, &[0, 1], 5);
    }
    tally.expect_mixed_kinds(5);
}

/// Files of just the lengths that a bad N or K tells are refused, and its good neighbours' taken.
#[test]
fn limits_of_links_and_steps() {
    let outcome = limit_cases().try_for_each(|case| compare_limit_on_files([&Quick, &Host], &case));
    assert_eq!(outcome, Ok(()));
}

/// Every size with a list that just fills its last block, or is up to three words longer or shorter:
/// kind 7 is always two words longer than a multiple of five, so it never fills a block of 125.
#[test]
fn sizes_around_a_full_block() {
    let mut sizes = [0; KINDS.len()];
    for (n, k) in (1..=64).flat_map(|n| (1..=40).map(move |k| (n, k))) {
        let size = Size::new(n, k).expect("within limits");
        let near_full = |kind: &Kind| (kind.words(size) + 3) % 125 <= 6;
        for kind in KINDS.into_iter().filter(near_full) {
            let mut words = vec![u32::MAX; kind.words(size)];
            words[0] = kind.own_count(size).unwrap_or(5) as u32;
            let case = FileCase::sound(kind, n, k, words);
            let mut tally = Tally::default();
            assert_eq!(compare_file([&Quick, &Host], &case, &mut tally), Ok(()));
            tally.expect(READERS[kind.place()], &[0], 1);
            sizes[kind.place()] += 1;
        }
    }
    assert!(sizes.iter().all(|&sizes| sizes >= 40), "sizes tried: {sizes:?}");
}

#[test]
fn files_come_back() {
    assert_files_come_back(&Host);
}

/// The converter's plan comes from its file.
#[test]
fn held_limit_is_the_smallest() {
    assert_held_limit_is_the_smallest(&ByFiles(Host));
}

#[test]
fn check_word_sees_any_one_change() {
    assert_check_word_sees_any_one_change(&Host);
}

/// Every call at full size in a thread with a stack of 64 KiB.
#[test]
fn full_size_on_a_small_stack() {
    let sides = [&Quick as _, &OnSmallStack(Host) as _];
    let mut tally = Tally::default();
    for kinds in [Kinds::OLDEST, Kinds::NEWEST] {
        let lists = greatest(full_size(), kinds, false);
        let three = ThreeFiles::of_case(full_size(), &lists);
        assert_eq!(compare_three(sides, &three, &mut tally), Ok(()));
        for (kind, words) in lists.by_kind() {
            let case = FileCase::sound(kind, 64, 1_440, words.clone());
            assert_eq!(compare_file(sides, &case, &mut tally), Ok(()));
        }
    }
    let on_files = CALLS_ON_FILES_BY_KIND.as_flattened().iter().copied();
    for call in READERS.into_iter().chain(WRITERS).chain(on_files) {
        tally.expect(call, &[0], 1);
    }
}

/// Checker and converter on the files of both kinds; simulator and normal form have no call on
/// files.
#[test]
fn kind_two_is_kind_five_completed() {
    assert_completed_files_are_the_same(&Host, List::Demands);
}

#[test]
fn kind_one_is_kind_ten_completed() {
    assert_completed_files_are_the_same(&Host, List::Corridor);
}

#[test]
fn kind_three_is_kind_seven_completed() {
    assert_completed_files_are_the_same(&Host, List::Record);
}

/// The record goes to checker and converter as a file.
#[test]
fn every_exit_is_tested() {
    assert_every_exit_is_tested(&ByFiles(Host));
}

#[test]
fn links_come_before_the_kind() {
    assert_links_come_before_the_kind_in_files(&Host);
}

/// The converter's plan comes from its file.
#[test]
fn link_n_keeps_to_its_words() {
    assert_link_n_keeps_to_its_words(&ByFiles(Host));
}
