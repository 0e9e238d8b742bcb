//! The word lists and the kinds that each comes in, and what chooses where two kinds fit: the
//! length of a list, given or lent; word 0 of the first block of a file.

use super::files::{file_bytes, words_of};
use super::lists::{DROP_WORDS, NODE_WORDS};
use super::record::{COST_WORDS, ENTRY_WORDS, EXIT_WORDS};
use super::{refusal, Refusal, Size};

/// The word lists; each has one reader and one writer for all its kinds.
#[derive(Clone, Copy, Debug, PartialEq, Eq)]
pub enum List {
    Corridor,
    Demands,
    Record,
    Plan,
}

/// The kinds, with the number that word 0 of each block holds.
#[derive(Clone, Copy, Debug, PartialEq, Eq)]
pub enum Kind {
    Corridor = 1,
    Demands = 2,
    Record = 3,
    Plan = 4,
    /// Demands that end with the flow that may leave link N in each step.
    Downstream = 5,
    /// A record that has the off-ramp flow of each node after its other words.
    OffRamps = 7,
    /// A corridor whose nodes end with dropped capacity and drop density.
    CapacityDrop = 10,
}

pub const KINDS: [Kind; 7] = [
    Kind::Corridor,
    Kind::Demands,
    Kind::Record,
    Kind::Plan,
    Kind::Downstream,
    Kind::CapacityDrop,
    Kind::OffRamps,
];

impl List {
    /// The kinds that fit, the oldest first.
    pub fn kinds(self) -> &'static [Kind] {
        match self {
            List::Corridor => &[Kind::Corridor, Kind::CapacityDrop],
            List::Demands => &[Kind::Demands, Kind::Downstream],
            List::Record => &[Kind::Record, Kind::OffRamps],
            List::Plan => &[Kind::Plan],
        }
    }

    /// The kind that has that length, once N and K are known; refusal 1 where none has.
    pub fn kind_of_length(self, size: Size, words: usize) -> Result<Kind, Refusal> {
        let mut kinds = self.kinds().iter().copied();
        kinds.find(|kind| kind.words(size) == words).ok_or(refusal(1, 0, 0))
    }

    /// The kind that word 0 of a file's first block names, whether or not the block is whole. Any
    /// other value, or none where the file ends before that word's last byte, is the oldest kind.
    pub fn kind_of_file(self, file: &[u8]) -> Kind {
        let named = file.get(..4).map(|word| words_of(word)[0]);
        let mut kinds = self.kinds().iter().copied();
        kinds.find(|&kind| named == Some(kind as u32)).unwrap_or(self.kinds()[0])
    }
}

impl Kind {
    /// Where it stands among all kinds.
    pub fn place(self) -> usize {
        KINDS.iter().position(|&kind| kind == self).expect("all kinds are there")
    }

    /// The list that it is a kind of.
    pub fn list(self) -> List {
        match self {
            Kind::Corridor | Kind::CapacityDrop => List::Corridor,
            Kind::Demands | Kind::Downstream => List::Demands,
            Kind::Record | Kind::OffRamps => List::Record,
            Kind::Plan => List::Plan,
        }
    }

    /// The length of the kind's word list.
    pub fn words(self, size: Size) -> usize {
        match self {
            Kind::Corridor | Kind::CapacityDrop => 1 + self.node_words() * size.nodes(),
            Kind::Demands => size.demands(),
            Kind::Record | Kind::OffRamps => self.cost_place(size) + COST_WORDS,
            Kind::Plan => size.plan(),
            Kind::Downstream => size.demands() + size.steps,
        }
    }

    /// The words of a node in a corridor of that kind.
    pub fn node_words(self) -> usize {
        match self {
            Kind::CapacityDrop => NODE_WORDS + DROP_WORDS,
            _ => NODE_WORDS,
        }
    }

    /// The words of a node in one state of a record of that kind.
    pub fn entry_words(self) -> usize {
        match self {
            Kind::OffRamps => ENTRY_WORDS + EXIT_WORDS,
            _ => ENTRY_WORDS,
        }
    }

    /// Where a record of that kind has n of node i in state k; l, f, r and, in kind 7, the off-ramp
    /// flow follow.
    pub fn entry_place(self, size: Size, k: usize, i: usize) -> usize {
        self.entry_words() * (k * size.nodes() + i)
    }

    /// Where a record of that kind has the low word of its cost, behind states 0..K.
    pub fn cost_place(self, size: Size) -> usize {
        self.entry_place(size, size.steps + 1, 0)
    }

    /// The N or K that the kind's first word states, if it states one.
    pub fn own_count(self, size: Size) -> Option<usize> {
        match self.list() {
            List::Corridor => Some(size.links),
            List::Demands => Some(size.steps),
            List::Record | List::Plan => None,
        }
    }

    /// The length of the kind's file in bytes.
    pub fn bytes(self, size: Size) -> usize {
        file_bytes(self.words(size))
    }
}

/// The kinds of corridor, demands and record.
#[derive(Clone, Copy, Debug, PartialEq, Eq)]
pub struct Kinds {
    pub corridor: Kind,
    pub demands: Kind,
    pub record: Kind,
}

impl Kinds {
    pub const OLDEST: Kinds =
        Kinds { corridor: Kind::Corridor, demands: Kind::Demands, record: Kind::Record };
    pub const NEWEST: Kinds =
        Kinds { corridor: Kind::CapacityDrop, demands: Kind::Downstream, record: Kind::OffRamps };

    /// Each kind of corridor with each kind of demands and each kind of record.
    pub fn all() -> impl Iterator<Item = Kinds> + Clone {
        let kinds_of = |list: List| list.kinds().iter().copied();
        kinds_of(List::Corridor).flat_map(move |corridor| {
            kinds_of(List::Demands).flat_map(move |demands| {
                kinds_of(List::Record).map(move |record| Kinds { corridor, demands, record })
            })
        })
    }
}
