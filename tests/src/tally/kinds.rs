//! Counts by the kinds of corridor, demands and record: the answers of each call, which kinds go
//! together, and kinds mixed in what a reader is given.

use super::Tally;
use crate::compare::{CALLS_ON_FILES, CALLS_ON_LISTS};
use crate::model::files::{read_three, BLOCK_BYTES};
use crate::model::{Input, Kind, Kinds, List, Quick, Record, Size};
use crate::random::files::FileCase;

/// The kinds that answers are counted by.
const COUNTED: [Kind; 6] = [
    Kind::Corridor,
    Kind::CapacityDrop,
    Kind::Demands,
    Kind::Downstream,
    Kind::Record,
    Kind::OffRamps,
];

/// Names of the calls on word lists, or on nodes, by the kind of the corridor, 1 or 10, by that of
/// the demands, 2 or 5, and by that of the record, given or lent, 3 or 7.
pub const CALLS_BY_KIND: [[&str; 4]; 6] = [
    ["simulate kind 1", "check kind 1", "convert kind 1", "normal kind 1"],
    ["simulate kind 10", "check kind 10", "convert kind 10", "normal kind 10"],
    ["simulate kind 2", "check kind 2", "convert kind 2", "normal kind 2"],
    ["simulate kind 5", "check kind 5", "convert kind 5", "normal kind 5"],
    ["simulate kind 3", "check kind 3", "convert kind 3", "normal kind 3"],
    ["simulate kind 7", "check kind 7", "convert kind 7", "normal kind 7"],
];

/// Names of the two calls on files, by the kinds that the files say they are.
pub const CALLS_ON_FILES_BY_KIND: [[&str; 2]; 6] = [
    ["check files kind 1", "convert files kind 1"],
    ["check files kind 10", "convert files kind 10"],
    ["check files kind 2", "convert files kind 2"],
    ["check files kind 5", "convert files kind 5"],
    ["check files kind 3", "convert files kind 3"],
    ["check files kind 7", "convert files kind 7"],
];

/// The kinds of corridor, demands and record that go together, for any call, in the order that
/// `Kinds::all` has them.
pub const KINDS_TOGETHER: [&str; 8] = [
    "kinds 1, 2 and 3",
    "kinds 1, 2 and 7",
    "kinds 1, 5 and 3",
    "kinds 1, 5 and 7",
    "kinds 10, 2 and 3",
    "kinds 10, 2 and 7",
    "kinds 10, 5 and 3",
    "kinds 10, 5 and 7",
];

/// How kinds can be mixed in what the reader of a corridor, of demands or of a record is given, with
/// a good N and K.
pub const MIXED_KINDS: [[&str; 3]; 3] = [
    [
        "corridor lent of the other kind's length",
        "corridor made as one kind says it is the other",
        "corridor that says it is kind 10 ends in its first block",
    ],
    [
        "demands lent of the other kind's length",
        "demands made as one kind say they are the other",
        "demands that say they are kind 5 end in their first block",
    ],
    [
        "record lent of the other kind's length",
        "record made as one kind says it is the other",
        "record that says it is kind 7 ends in its first block",
    ],
];

/// The place of a kind among names by kind.
pub fn by_kind(kind: Kind) -> usize {
    COUNTED.iter().position(|&counted| counted == kind).expect("a kind of one of the three")
}

/// The kinds that the files of corridor, demands and record say they are.
pub fn kinds_of_files(files: [&[u8]; 3]) -> Kinds {
    Kinds {
        corridor: List::Corridor.kind_of_file(files[0]),
        demands: List::Demands.kind_of_file(files[1]),
        record: List::Record.kind_of_file(files[2]),
    }
}

impl Tally {
    /// Counts an answer for the kinds of all three lists.
    pub(super) fn answer_for_kinds(
        &mut self,
        kinds: Kinds,
        name: impl Fn(usize) -> &'static str,
        answer: u32,
    ) {
        for kind in [kinds.corridor, kinds.demands, kinds.record] {
            self.answer(name(by_kind(kind)), answer);
        }
        let together = Kinds::all().position(|all| all == kinds).expect("all kinds are there");
        self.answer(KINDS_TOGETHER[together], answer);
    }

    /// Counts the answer of a call on lists, by its place among them, once for the call and once for
    /// each of the kinds that its lists were made as.
    pub fn answer_on_lists(&mut self, call: usize, kinds: Kinds, answer: u32) {
        self.answer(CALLS_ON_LISTS[call], answer);
        self.answer_for_kinds(kinds, |kind| CALLS_BY_KIND[kind][call], answer);
    }

    /// The same for a call on files.
    pub fn answer_on_files(&mut self, call: usize, files: [&[u8]; 3], answer: u32) {
        self.answer(CALLS_ON_FILES[call], answer);
        let kinds = kinds_of_files(files);
        self.answer_for_kinds(kinds, |kind| CALLS_ON_FILES_BY_KIND[kind][call], answer);
    }

    /// The same for the program, once its three files are told apart.
    pub fn answer_of_program(&mut self, files: [&[u8]; 3], answer: u32) {
        self.answer_for_kinds(kinds_of_files(files), |kind| CALLS_BY_KIND[kind][3], answer);
    }

    /// Counts an answer of the checker's that only the newer kinds bring about.
    pub fn refusals_by_kind(&mut self, input: &Input, record: &Record, answer: u32) {
        self.downstream_refusals(input, answer);
        self.drop_refusals(input, record, answer);
        self.exit_refusals(input, record, answer);
    }

    /// The same for files, which are read once more where the answer tells of their words.
    pub fn refusals_of_files_by_kind(&mut self, size: Size, files: [&[u8]; 3], answer: u32) {
        if ![2, 5, 7, 8, 9, 10, 11].contains(&(answer % 256)) {
            return;
        }
        if let Ok([corridor, demands, record]) = read_three::<Quick>(size, files) {
            let input = Input::new(&corridor, &demands).expect("of the lengths that were read");
            let record = Record::new(size, &record).expect("of the length that was read");
            self.refusals_by_kind(&input, &record, answer);
        }
    }

    pub fn expect_refusals_by_kind(&self, at_least: u64) {
        self.expect_downstream_refusals(at_least);
        self.expect_drop_refusals(at_least);
        self.expect_exit_refusals(at_least);
    }

    /// Counts the kinds that are mixed in a reader's case; a plan comes in one kind.
    pub fn mixed_kinds(&mut self, case: &FileCase) {
        let list = case.kind.list();
        let (Ok(size), Some(names)) = (Size::new(case.n, case.k), MIXED_KINDS.get(list as usize))
        else {
            return;
        };
        let said = list.kind_of_file(&case.file);
        let lent = list.kind_of_length(size, case.lent_words);
        let cut_short = case.file.len() < BLOCK_BYTES;
        let seen = [
            lent.is_ok_and(|lent| lent != said),
            said != case.kind,
            said != list.kinds()[0] && cut_short,
        ];
        self.add_seen(*names, [seen]);
    }

    pub fn expect_mixed_kinds(&self, at_least: u64) {
        MIXED_KINDS.as_flattened().iter().for_each(|name| self.expect(name, &[0], at_least));
    }
}
