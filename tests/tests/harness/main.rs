//! Shows that the comparisons bite: each deliberately wrong variant of the model is run against the
//! model by the very comparisons that the host is run by, and must be found out.

mod capacity_drop;
mod files;
mod limits;
mod off_ramps;
mod outputs;
mod program;
mod properties;
mod records;
mod search;
mod steps;

use tests::calls::{FileCalls, Program, WordCalls};
use tests::compare::{
    compare_file, compare_program, compare_search, compare_three, compare_words, Series,
};
use tests::model::{refuse_if, Kind, List, Paper, Quick, Refusal, Size};
use tests::random::damage::small_case;
use tests::random::files::{file_case, program_input, three_files};
use tests::random::search::{ramp_case, search_case};
use tests::tally::Tally;

/// Wrong variants of the rules: a struct for each, which replaces what its braces hold, and a
/// function that lists them all by name.
macro_rules! wrong {
    ($list:ident: $calls:ident; $($(#[$about:meta])* $name:ident { $($replaced:tt)* })*) => {
        $(
            $(#[$about])*
            struct $name;

            impl tests::model::Rules for $name { $($replaced)* }
        )*

        pub fn $list() -> Vec<(&'static str, &'static dyn $calls)> {
            vec![$((stringify!($name), &$name as &'static dyn $calls)),*]
        }
    };
}
pub(crate) use wrong;

/// The kind of a list's length, where lists of one kind are refused for theirs.
fn length_but_of(refused: Kind, list: List, size: Size, words: usize) -> Result<Kind, Refusal> {
    let kind = list.kind_of_length(size, words)?;
    refuse_if(kind == refused, 1, 0, 0)?;
    Ok(kind)
}

/// The kind of a file, where one kind is not known and read as the oldest of its list.
fn file_but_of(unknown: Kind, list: List, file: &[u8]) -> Kind {
    match list.kind_of_file(file) {
        kind if kind == unknown => list.kinds()[0],
        kind => kind,
    }
}

/// Passes if the comparison found a difference, and prints the first one.
fn assert_found(name: &str, outcome: Result<(), String>) {
    let Err(text) = outcome else {
        panic!("{name} was not found out");
    };
    println!("{name} found: {text}");
}

fn words_outcome(variant: &dyn WordCalls) -> Result<(), String> {
    let series = Series { name: "words", seed: 0, count: 20_000 };
    series.run(small_case, |case| compare_words([&Quick, variant], case, &mut Tally::default()))
}

fn search_outcome(variant: &dyn WordCalls) -> Result<(), String> {
    let sides = [&Quick, variant];
    let series = Series { name: "searches", seed: 0, count: 20_000 };
    series.run(search_case, |case| compare_search(sides, case, &mut Tally::default()))?;
    series.run(ramp_case, |case| compare_search(sides, case, &mut Tally::default()))
}

fn files_outcome(variant: &dyn FileCalls) -> Result<(), String> {
    let series = Series { name: "files", seed: 0, count: 10_000 };
    series.run(file_case, |case| compare_file([&Quick, variant], case, &mut Tally::default()))?;
    series.run(three_files, |case| compare_three([&Quick, variant], case, &mut Tally::default()))
}

fn program_outcome(variant: &dyn Program) -> Result<(), String> {
    let series = Series { name: "program", seed: 0, count: 10_000 };
    series.run(program_input, |input| {
        compare_program([&Quick, variant], input, &mut Tally::default())
    })
}

#[test]
fn wrong_steps_are_found() {
    for (name, variant) in steps::variants() {
        assert_found(name, words_outcome(variant));
    }
}

#[test]
fn wrong_tests_of_lists_and_records_are_found() {
    for (name, variant) in records::variants() {
        assert_found(name, words_outcome(variant));
    }
}

#[test]
fn wrong_drops_are_found() {
    let misread = capacity_drop::misread_variants();
    for (name, variant) in capacity_drop::variants().into_iter().chain(misread) {
        assert_found(name, words_outcome(variant));
    }
}

#[test]
fn wrong_exits_are_found() {
    for (name, variant) in off_ramps::variants().into_iter().chain(off_ramps::call_variants()) {
        assert_found(name, words_outcome(variant));
    }
}

#[test]
fn wrong_searches_are_found() {
    let calls = search::call_variants().into_iter().chain(outputs::search_variants());
    for (name, variant) in search::variants().into_iter().chain(calls) {
        assert_found(name, search_outcome(variant));
    }
}

#[test]
fn wrong_outputs_are_found() {
    for (name, variant) in outputs::variants() {
        assert_found(name, words_outcome(variant));
    }
}

#[test]
fn wrong_files_are_found() {
    for (name, variant) in files::variants().into_iter().chain(files::call_variants()) {
        assert_found(name, files_outcome(variant));
    }
}

#[test]
fn wrong_programs_are_found() {
    for (name, variant) in program::variants().into_iter().chain(program::text_variants()) {
        assert_found(name, program_outcome(variant));
    }
}

#[test]
fn wrong_limits_are_found() {
    limits::assert_wide_limits_found();
}

#[test]
fn wrong_variants_break_the_properties() {
    properties::assert_properties_broken();
}

/// The other way round: where there is no difference none is reported.
#[test]
fn nothing_is_found_where_nothing_is_wrong() {
    let series = Series { name: "same", seed: 0, count: 500 };
    let mut tally = Tally::default();
    let outcome = series.run(small_case, |case| compare_words([&Quick, &Quick], case, &mut tally));
    assert_eq!(outcome, Ok(()));
    assert_eq!(search_outcome(&Quick), Ok(()));
    assert_eq!(files_outcome(&Paper), Ok(()));
    assert_eq!(program_outcome(&Quick), Ok(()));
}
