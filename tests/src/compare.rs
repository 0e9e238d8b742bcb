//! Comparisons of two sides, call by call: the answers, every word or byte of the lent lists, and
//! guards around those lists, which no call may touch.

use crate::calls::{FileCalls, Program, WordCalls};
use crate::limits::LimitCase;
use crate::model::program::{three_files, MOST_BYTES};
use crate::model::{Input, Kinds, Quick, Record, Size};
use crate::random::files::{FileCase, ThreeFiles};
use crate::random::search::SearchCase;
use crate::random::sound::WordCase;
use crate::random::Random;
use crate::tally::Tally;

/// Words or bytes before and after each lent list.
const GUARD: usize = 16;

/// What the lent lists hold before a call: different at each place, so that a shift shows.
trait Pattern: Copy + PartialEq + std::fmt::Debug {
    fn pattern(place: usize) -> Self;
}

impl Pattern for u32 {
    fn pattern(place: usize) -> u32 {
        0xA5A5_0000 ^ place as u32
    }
}

impl Pattern for u8 {
    fn pattern(place: usize) -> u8 {
        0xA5 ^ (place % 251) as u8
    }
}

/// A list to lend, filled with the pattern, inside its guards.
struct Lent<T> {
    all: Vec<T>,
}

impl<T: Pattern> Lent<T> {
    fn new(length: usize) -> Lent<T> {
        Lent { all: (0..length + 2 * GUARD).map(T::pattern).collect() }
    }

    fn list(&mut self) -> &mut [T] {
        let end = self.all.len() - GUARD;
        &mut self.all[GUARD..end]
    }
}

fn place_text(answer: u32) -> String {
    let (number, node, row) = (answer % 256, answer / 256 % 256, answer / 65_536);
    format!("{number} (row {row}, node {node})")
}

/// Fails where two buffers differ, with the place counted from the lent list's start.
fn same_buffer<T: Pattern>(call: &str, left: &Lent<T>, right: &Lent<T>) -> Result<(), String> {
    let differing = left.all.iter().zip(&right.all).position(|(a, b)| a != b);
    let Some(place) = differing else {
        return Ok(());
    };
    let (a, b) = (left.all[place], right.all[place]);
    let place = place as i64 - GUARD as i64;
    Err(format!("{call}: lent list differs at {place}: {a:?} and {b:?}"))
}

/// One call by both sides, each with its own lent lists. Gives the answer and the left lists.
fn same_call<C: ?Sized, T: Pattern>(
    call: &'static str,
    sides: [&C; 2],
    lengths: [usize; 2],
    make: impl Fn(&C, &mut [T], &mut [T]) -> u32,
) -> Result<(u32, [Lent<T>; 2]), String> {
    let mut left = lengths.map(Lent::new);
    let mut right = lengths.map(Lent::new);
    let [first, second] = &mut left;
    let left_answer = make(sides[0], first.list(), second.list());
    let [first, second] = &mut right;
    let right_answer = make(sides[1], first.list(), second.list());
    if left_answer != right_answer {
        let (a, b) = (place_text(left_answer), place_text(right_answer));
        return Err(format!("{call}: answers {a} and {b}"));
    }
    same_buffer(call, &left[0], &right[0])?;
    same_buffer(call, &left[1], &right[1])?;
    Ok((left_answer, left))
}

/// Names of the calls on word lists, or on nodes, for messages and counts.
pub const CALLS_ON_LISTS: [&str; 4] = ["simulate", "check", "convert", "normal"];

/// The four calls that there are on word lists and on nodes.
pub fn compare_words(
    sides: [&dyn WordCalls; 2],
    case: &WordCase,
    tally: &mut Tally,
) -> Result<(), String> {
    let WordCase { corridor, demands, plan, record, .. } = case;
    compare_simulate(sides, case, tally)?;
    let (answer, _) = same_call("check", sides, [0, 0], |side, _: &mut [u32], _| {
        side.check(corridor, demands, record)
    })?;
    tally.answer_on_lists(1, case.kinds, answer);
    if let Some((input, record)) = input_and_record(case, record) {
        tally.refusals_by_kind(&input, &record, answer);
    }
    let lengths = [case.lent_plan, 0];
    let (answer, [mut converted, _]) = same_call("convert", sides, lengths, |side, out, _| {
        side.convert(corridor, demands, record, out)
    })?;
    tally.answer_on_lists(2, case.kinds, answer);
    tally_settings(case, answer, record, converted.list(), tally);
    let lengths = [case.lent_record, case.lent_plan];
    let (answer, [mut work, mut normal]) =
        same_call("normal", sides, lengths, |side, work, out| {
            side.normal(corridor, demands, plan, work, out)
        })?;
    tally.answer_on_lists(3, lent_kinds(case), answer);
    tally_settings(case, answer, work.list(), normal.list(), tally);
    Ok(())
}

fn compare_simulate(
    sides: [&dyn WordCalls; 2],
    case: &WordCase,
    tally: &mut Tally,
) -> Result<(), String> {
    let WordCase { corridor, demands, plan, .. } = case;
    let lengths = [case.lent_record, 0];
    let (answer, [mut record, _]) = same_call("simulate", sides, lengths, |side, out, _| {
        side.simulate(corridor, demands, plan, out)
    })?;
    tally.answer_on_lists(0, lent_kinds(case), answer);
    if let (0, Some((input, record))) = (answer, input_and_record(case, record.list())) {
        tally.happenings(&input, plan, &record);
    }
    Ok(())
}

/// The kinds of a case with that of the lent record in place of the given one's.
fn lent_kinds(case: &WordCase) -> Kinds {
    Kinds { record: case.lent_kind, ..case.kinds }
}

/// A case's corridor and demands, and a record with them, if all their lengths are right.
fn input_and_record<'a>(case: &'a WordCase, record: &[u32]) -> Option<(Input<'a>, Record)> {
    let input = Input::new(&case.corridor, &case.demands).ok()?;
    let record = Record::new(input.size, record).ok()?;
    Some((input, record))
}

/// Counts the settings of the plan that came with an answer of 0.
fn tally_settings(case: &WordCase, answer: u32, record: &[u32], plan: &[u32], tally: &mut Tally) {
    if let (0, Some((input, record))) = (answer, input_and_record(case, record)) {
        tally.settings(&input, &record, plan);
    }
}

/// The search at one step and node.
pub fn compare_search(
    sides: [&dyn WordCalls; 2],
    case: &SearchCase,
    tally: &mut Tally,
) -> Result<(), String> {
    let SearchCase { lists, place, lent_out } = case;
    let (answer, [mut out, _]) = same_call("search", sides, [*lent_out, 0], |side, out, _| {
        side.search(lists.proposal(), *place, out)
    })?;
    tally.search(case, answer, out.list());
    Ok(())
}

/// The search at every step and node of a case.
pub fn compare_every_search(
    sides: [&dyn WordCalls; 2],
    lists: &WordCase,
    tally: &mut Tally,
) -> Result<(), String> {
    let Ok(Input { size, .. }) = Input::new(&lists.corridor, &lists.demands) else {
        return Ok(());
    };
    let mut case = SearchCase::at(lists.clone(), (0, 0));
    for k in 0..size.steps {
        for i in 0..size.nodes() {
            case.place = (k as u32, i as u32);
            compare_search(sides, &case, tally)?;
        }
    }
    Ok(())
}

/// Names of the readers and writers for messages and counts, by the kind's place among all.
pub const READERS: [&str; 7] = [
    "read corridor",
    "read demands",
    "read record",
    "read plan",
    "read demands of kind 5",
    "read corridor of kind 10",
    "read record of kind 7",
];
pub const WRITERS: [&str; 7] = [
    "write corridor",
    "write demands",
    "write record",
    "write plan",
    "write demands of kind 5",
    "write corridor of kind 10",
    "write record of kind 7",
];

/// The reader and the writer of one list.
pub fn compare_file(
    sides: [&dyn FileCalls; 2],
    case: &FileCase,
    tally: &mut Tally,
) -> Result<(), String> {
    let FileCase { kind, n, k, file, words, lent_words, lent_file } = case;
    let (reader, writer) = (READERS[kind.place()], WRITERS[kind.place()]);
    let (answer, _) = same_call(reader, sides, [*lent_words, 0], |side, out: &mut [u32], _| {
        side.read(kind.list(), *n, *k, file, out)
    })?;
    tally.answer(reader, answer);
    tally.mixed_kinds(case);
    let (answer, _) = same_call(writer, sides, [*lent_file, 0], |side, out: &mut [u8], _| {
        side.write(kind.list(), *n, *k, words, out)
    })?;
    tally.answer(writer, answer);
    Ok(())
}

/// Names of the two calls on files.
pub const CALLS_ON_FILES: [&str; 2] = ["check files", "convert files"];

/// The checker and the converter on files.
pub fn compare_three(
    sides: [&dyn FileCalls; 2],
    case: &ThreeFiles,
    tally: &mut Tally,
) -> Result<(), String> {
    let (n, k) = (case.n, case.k);
    let (answer, _) = same_call("check files", sides, [0, 0], |side, _: &mut [u8], _| {
        side.check_files(n, k, case.files())
    })?;
    tally.answer_on_files(0, case.files(), answer);
    if let Ok(size) = Size::new(n, k) {
        tally.refusals_of_files_by_kind(size, case.files(), answer);
    }
    let lengths = [case.lent_plan_file, 0];
    let (answer, _) = same_call("convert files", sides, lengths, |side, out: &mut [u8], _| {
        side.convert_files(n, k, case.files(), out)
    })?;
    tally.answer_on_files(1, case.files(), answer);
    Ok(())
}

/// The program, byte for byte; counts plans as 0 and refusals by their number.
pub fn compare_program(
    sides: [&dyn Program; 2],
    input: &[u8],
    tally: &mut Tally,
) -> Result<(), String> {
    let [left, right] = sides.map(|side| side.print(input));
    if left != right {
        let texts = [left, right].map(|bytes| String::from_utf8_lossy(&bytes).into_owned());
        return Err(format!("normal: prints\n{}and\n{}", texts[0], texts[1]));
    }
    let text = String::from_utf8_lossy(&left);
    let answer = printed_answer(&text);
    tally.answer("normal", answer);
    if let Ok((size, files)) = three_files::<Quick>(input) {
        tally.answer_of_program(files, answer);
        tally.refusals_of_files_by_kind(size, files, answer);
    }
    tally.add("held lines", 0, text.lines().filter(|line| line.ends_with(" H")).count() as u64);
    tally.add("full lines", 0, text.lines().filter(|line| line.ends_with(" F")).count() as u64);
    Ok(())
}

/// What was printed as the C host's one number, 0 for a plan.
fn printed_answer(text: &str) -> u32 {
    let Some(refusal) = text.strip_prefix("REFUSED ") else {
        return 0;
    };
    let words: Vec<u32> = refusal.split_whitespace().map_while(|word| word.parse().ok()).collect();
    match words[..] {
        [number, row, node] => row * 65_536 + node * 256 + number,
        _ => u32::MAX,
    }
}

/// Runs a comparison on a case at a limit of N or K: the calls that it makes must all accept within
/// the limits, and all refuse by 1 beyond them.
fn compare_limit(
    case: &LimitCase,
    calls: &[&'static str],
    compare: impl Fn(&mut Tally) -> Result<(), String>,
) -> Result<(), String> {
    let mut tally = Tally::default();
    compare(&mut tally).map_err(|text| format!("N = {}, K = {}: {text}", case.n, case.k))?;
    let answer = u32::from(!case.is_within());
    calls.iter().for_each(|call| tally.expect(call, &[answer], 1));
    Ok(())
}

/// The four calls on words, or on nodes, at a limit of N or K.
pub fn compare_limit_on_words(sides: [&dyn WordCalls; 2], case: &LimitCase) -> Result<(), String> {
    compare_limit(case, &CALLS_ON_LISTS, |tally| compare_words(sides, &case.lists, tally))
}

/// The search at the last step and node, at a limit of N or K; with K = 0 there is no step.
pub fn compare_limit_of_search(sides: [&dyn WordCalls; 2], case: &LimitCase) -> Result<(), String> {
    let Some(step) = case.k.checked_sub(1) else {
        return Ok(());
    };
    let last = SearchCase::at(case.lists.clone(), (step, case.n));
    compare_limit(case, &["search"], |tally| compare_search(sides, &last, tally))
}

/// Each reader, each writer and the two calls on files at a limit of N or K.
pub fn compare_limit_on_files(sides: [&dyn FileCalls; 2], case: &LimitCase) -> Result<(), String> {
    let files = case.file_cases();
    let kinds = files.iter().map(|file| file.kind.place());
    let calls = kinds.flat_map(|kind| [READERS[kind], WRITERS[kind]]).chain(CALLS_ON_FILES);
    compare_limit(case, &calls.collect::<Vec<_>>(), |tally| {
        files.iter().try_for_each(|file| compare_file(sides, file, tally))?;
        compare_three(sides, &case.three_files(), tally)
    })
}

/// The program at a limit of N or K, if it takes an input of that length.
pub fn compare_limit_of_program(sides: [&dyn Program; 2], case: &LimitCase) -> Result<(), String> {
    let input = case.three_files().files().concat();
    if input.len() > MOST_BYTES {
        return Ok(());
    }
    compare_limit(case, &["normal"], |tally| compare_program(sides, &input, tally))
}

/// A series of random cases: case number j is made from the seed plus j.
pub struct Series {
    pub name: &'static str,
    pub seed: u64,
    pub count: u64,
}

impl Series {
    /// The count times GIGORCHID_RUNS, from the seed plus GIGORCHID_SEED.
    pub fn new(name: &'static str, seed: u64, count: u64) -> Series {
        let number = |name, usual| match std::env::var(name) {
            Ok(text) => text.parse().expect("a whole number"),
            Err(_) => usual,
        };
        Series {
            name,
            seed: seed + number("GIGORCHID_SEED", 0),
            count: count * number("GIGORCHID_RUNS", 1),
        }
    }

    /// Makes and compares the cases in turn; the first difference ends the series.
    pub fn run<T>(
        &self,
        make: impl Fn(&mut Random) -> T,
        mut compare: impl FnMut(&T) -> Result<(), String>,
    ) -> Result<(), String> {
        println!("{}: {} cases from seed {}", self.name, self.count, self.seed);
        for seed in self.seed..self.seed + self.count {
            let case = make(&mut Random::new(seed));
            compare(&case).map_err(|text| format!("{}, seed {seed}: {text}", self.name))?;
        }
        Ok(())
    }
}

#[cfg(test)]
mod guards {
    use super::*;

    /// A call that writes before or after the list lent to it is found out.
    #[test]
    fn writing_outside_is_found() {
        for place in [GUARD - 1, GUARD + 5] {
            let left = Lent::<u32>::new(5);
            let mut right = Lent::<u32>::new(5);
            assert_eq!(same_buffer("some call", &left, &right), Ok(()));
            right.all[place] += 1;
            assert!(same_buffer("some call", &left, &right).is_err());
        }
    }
}
