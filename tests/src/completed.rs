//! What document 02 says of the oldest kinds: a list of kind 2 is one of kind 5 with 65,536
//! throughout, a corridor of kind 1 is one of kind 10 with dropped capacity F and drop density J,
//! and a record of kind 3 is one of kind 7 with the exits that its flows and the splits make. Either
//! has the same answers and the same outputs in every call, but that a lent record of kind 3 gets no
//! exits. Tests of any side, the model and the host alike.

use crate::calls::{FileCalls, Program, WordCalls};
use crate::compare::{compare_program, compare_search, compare_three, compare_words, Series};
use crate::model::lists::NODE_WORDS;
use crate::model::program::{three_files, MOST_BYTES};
use crate::model::record::{ENTRY_WORDS, EXIT_WORDS};
use crate::model::{Input, Kind, List, Quick, Record, Rules, Size, WHOLE};
use crate::random::damage::small_case;
use crate::random::files::{self, file_of, program_input};
use crate::random::search::search_case;
use crate::tally::kinds::{by_kind, CALLS_BY_KIND, CALLS_ON_FILES_BY_KIND};
use crate::tally::search::SEARCHES_BY_KIND;
use crate::tally::Tally;

/// A list of the oldest kind as the newest kind that it counts as; a record goes with those demands.
fn as_newest(list: List, size: Size, demands: &[u32], words: &[u32]) -> Vec<u32> {
    match list {
        List::Corridor => {
            let nodes = words[1..].chunks_exact(NODE_WORDS);
            let nodes = nodes.flat_map(|node| [node, &[node[1], node[4]]].concat());
            words[..1].iter().copied().chain(nodes).collect()
        }
        List::Demands => [words, &vec![WHOLE as u32; size.steps]].concat(),
        _ => with_exits(size, demands, words),
    }
}

/// A record of kind 3 as one of kind 7: what leaves by the off-ramps, written out.
pub fn with_exits(size: Size, demands: &[u32], words: &[u32]) -> Vec<u32> {
    let mut record = Record::from_words(Kind::Record, size, words);
    for (k, i) in (0..size.steps).flat_map(|k| (0..size.nodes()).map(move |i| (k, i))) {
        let split = u64::from(demands[size.demand_place(k, i) + 1]);
        let entry = record.entry_mut(k, i);
        entry.exit = Some(entry.flow * split / WHOLE);
    }
    record.words(Kind::OffRamps)
}

/// Corridor, demands and record, the one of that list completed if it is of the oldest kind.
fn completed(list: List, lists: [&[u32]; 3]) -> [Vec<u32>; 3] {
    let [corridor, demands, _] = lists;
    let mut lists = lists.map(<[u32]>::to_vec);
    let words = &mut lists[list as usize];
    if let Ok(Input { size, .. }) = Input::new(corridor, demands) {
        if list.kind_of_length(size, words.len()) == Ok(list.kinds()[0]) {
            *words = as_newest(list, size, demands, words);
        }
    }
    lists
}

/// Fills a lent record from the one that was lent in its place, with exits or without.
fn give_back(lent_instead: &[u32], record: &mut [u32]) {
    if lent_instead.len() == record.len() {
        return record.copy_from_slice(lent_instead);
    }
    // Both end with the two words of the cost.
    let entries = lent_instead.chunks(ENTRY_WORDS + EXIT_WORDS);
    for (place, entry) in record.chunks_mut(ENTRY_WORDS).zip(entries) {
        place.copy_from_slice(&entry[..place.len()]);
    }
}

/// Files of corridor, demands and record, the one of that list completed if it is a sound one of
/// the oldest kind; a record only beside demands that are sound as well.
fn completed_files(list: List, n: u32, k: u32, files: [&[u8]; 3]) -> [Vec<u8>; 3] {
    let mut newest = files.map(<[u8]>::to_vec);
    let read = |list: List, kind: Kind| {
        let size = Size::new(n, k).ok()?;
        Some((size, Quick::read_list(kind, size, files[list as usize]).ok()?))
    };
    let demands = read(List::Demands, List::Demands.kind_of_file(files[1]));
    if let (Some((size, words)), Some((_, demands))) = (read(list, list.kinds()[0]), demands) {
        let words = as_newest(list, size, &demands, &words);
        newest[list as usize] = file_of(list.kinds()[1], &words);
    }
    newest
}

/// Makes each call with what it is given of that list completed. Readers and writers, which tell the
/// kinds apart, stay as they are.
struct Completed<'a, C: ?Sized> {
    calls: &'a C,
    list: List,
}

impl WordCalls for Completed<'_, dyn WordCalls + '_> {
    fn simulate(&self, corridor: &[u32], demands: &[u32], plan: &[u32], record: &mut [u32]) -> u32 {
        let [corridor, demands, mut lent] = completed(self.list, [corridor, demands, record]);
        let answer = self.calls.simulate(&corridor, &demands, plan, &mut lent);
        give_back(&lent, record);
        answer
    }

    fn check(&self, corridor: &[u32], demands: &[u32], record: &[u32]) -> u32 {
        let [corridor, demands, record] = completed(self.list, [corridor, demands, record]);
        self.calls.check(&corridor, &demands, &record)
    }

    fn convert(&self, corridor: &[u32], demands: &[u32], record: &[u32], plan: &mut [u32]) -> u32 {
        let [corridor, demands, record] = completed(self.list, [corridor, demands, record]);
        self.calls.convert(&corridor, &demands, &record, plan)
    }

    fn normal(
        &self,
        corridor: &[u32],
        demands: &[u32],
        plan: &[u32],
        work: &mut [u32],
        normal: &mut [u32],
    ) -> u32 {
        let [corridor, demands, mut lent] = completed(self.list, [corridor, demands, work]);
        let answer = self.calls.normal(&corridor, &demands, plan, &mut lent, normal);
        give_back(&lent, work);
        answer
    }

    fn search(&self, lists: [&[u32]; 3], place: (u32, u32), out: &mut [u32]) -> u32 {
        let [corridor, demands, record] = completed(self.list, lists);
        self.calls.search([&corridor, &demands, &record], place, out)
    }
}

impl FileCalls for Completed<'_, dyn FileCalls + '_> {
    fn read(&self, list: List, n: u32, k: u32, file: &[u8], words: &mut [u32]) -> u32 {
        self.calls.read(list, n, k, file, words)
    }

    fn write(&self, list: List, n: u32, k: u32, words: &[u32], file: &mut [u8]) -> u32 {
        self.calls.write(list, n, k, words, file)
    }

    fn check_files(&self, n: u32, k: u32, files: [&[u8]; 3]) -> u32 {
        let [corridor, demands, record] = completed_files(self.list, n, k, files);
        self.calls.check_files(n, k, [&corridor, &demands, &record])
    }

    fn convert_files(&self, n: u32, k: u32, files: [&[u8]; 3], plan_file: &mut [u8]) -> u32 {
        let [corridor, demands, record] = completed_files(self.list, n, k, files);
        self.calls.convert_files(n, k, [&corridor, &demands, &record], plan_file)
    }
}

/// An input that would become too long stays as it is.
impl Program for Completed<'_, dyn Program + '_> {
    fn print(&self, input: &[u8]) -> Vec<u8> {
        let longer = three_files::<Quick>(input).map(|(size, files)| {
            completed_files(self.list, size.links as u32, size.steps as u32, files).concat()
        });
        let fitting = longer.ok().filter(|input| input.len() <= MOST_BYTES);
        self.calls.print(fitting.as_deref().unwrap_or(input))
    }
}

/// The first seed of the series for a list.
fn seed(list: List) -> u64 {
    match list {
        List::Corridor => 220_000_000,
        List::Demands => 160_000_000,
        _ => 300_000_000,
    }
}

/// The oldest kind of that list and what it counts as have the same answers and outputs in each
/// call, sound or damaged in all else.
pub fn assert_completed_lists_are_the_same(calls: &dyn WordCalls, list: List) {
    let mut tally = Tally::default();
    let series = Series::new("completed lists", seed(list), 10_000);
    let sides = [calls, &Completed { calls, list }];
    let outcome = series.run(small_case, |case| compare_words(sides, case, &mut tally));
    assert_eq!(outcome, Ok(()));
    let series = Series::new("completed lists of searches", seed(list) + 5_000_000, 10_000);
    let outcome = series.run(search_case, |case| compare_search(sides, case, &mut tally));
    assert_eq!(outcome, Ok(()));
    let oldest = by_kind(list.kinds()[0]);
    let [simulate, _, convert, normal] = CALLS_BY_KIND[oldest];
    tally.expect(simulate, &[0, 2, 3, 4, 5, 6], 30);
    tally.expect(convert, &[0, 2, 3, 4, 5, 7, 8, 9, 10, 11, 12, 13], 30);
    tally.expect(normal, &[0, 6, 12], 30);
    tally.expect(SEARCHES_BY_KIND[oldest], &[0, 2, 3, 4, 5, 7, 8, 9, 10, 11, 12, 13], 30);
}

/// The same for files.
pub fn assert_completed_files_are_the_same(calls: &dyn FileCalls, list: List) {
    let mut tally = Tally::default();
    let series = Series::new("completed files", seed(list) + 10_000_000, 10_000);
    let sides = [calls, &Completed { calls, list }];
    let outcome = series.run(files::three_files, |case| compare_three(sides, case, &mut tally));
    assert_eq!(outcome, Ok(()));
    let [_, convert] = CALLS_ON_FILES_BY_KIND[by_kind(list.kinds()[0])];
    tally.expect(convert, &[0, 2, 3, 4, 5, 7, 8, 9, 10, 11, 12, 13], 30);
}

/// The same for what the program prints.
pub fn assert_completed_inputs_are_the_same(program: &dyn Program, list: List) {
    let mut tally = Tally::default();
    let series = Series::new("completed inputs", seed(list) + 20_000_000, 1_000);
    let sides = [program, &Completed { calls: program, list }];
    let outcome = series.run(program_input, |case| compare_program(sides, case, &mut tally));
    assert_eq!(outcome, Ok(()));
    let [.., normal] = CALLS_BY_KIND[by_kind(list.kinds()[0])];
    tally.expect(normal, &[0, 2, 5, 7, 8, 9, 11, 12, 13], 2);
}
