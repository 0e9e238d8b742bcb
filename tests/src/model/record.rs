//! A record of either kind: the words of each node in each state, and the cost behind them.

use super::{Input, Kind, List, Quick, Refusal, Rules, Size};

/// The words of a node in a state that both kinds have, and the one that kind 7 has after them.
pub const ENTRY_WORDS: usize = 4;
pub const EXIT_WORDS: usize = 1;
/// The cost's low and high 32 bits.
pub const COST_WORDS: usize = 2;

/// One node in one state.
#[derive(Clone, Copy, Debug, PartialEq, Eq)]
pub struct Entry {
    pub vehicles: u64,
    pub queue: u64,
    pub flow: u64,
    pub ramp_flow: u64,
    /// The off-ramp flow, a word that records of kind 3 lack.
    pub exit: Option<u64>,
}

impl Entry {
    /// A node's words in a record of either kind.
    pub fn from_words(words: &[u32]) -> Entry {
        let (words, exit) = words.split_at(ENTRY_WORDS);
        let [vehicles, queue, flow, ramp_flow] = [0, 1, 2, 3].map(|word| u64::from(words[word]));
        let exit = exit.first().map(|&exit| exit.into());
        Entry { vehicles, queue, flow, ramp_flow, exit }
    }

    /// The words as kind 7 has them; kind 3 has the first four.
    pub fn words(&self) -> [u32; ENTRY_WORDS + EXIT_WORDS] {
        let Entry { vehicles, queue, flow, ramp_flow, exit } = *self;
        [vehicles, queue, flow, ramp_flow, exit.unwrap_or(0)].map(|word| word as u32)
    }
}

/// The states of a record, 0..K, and its cost.
#[derive(Clone, Debug, PartialEq, Eq)]
pub struct Record {
    pub size: Size,
    /// By state, then node.
    pub entries: Vec<Entry>,
    pub cost: u64,
}

impl Record {
    /// The record in a list whose length is that of a kind; refusal 1 for any other length.
    pub fn new(size: Size, words: &[u32]) -> Result<Record, Refusal> {
        Record::by::<Quick>(size, words)
    }

    /// The same by those rules.
    pub fn by<R: Rules>(size: Size, words: &[u32]) -> Result<Record, Refusal> {
        let kind = R::kind_of_length(List::Record, size, words.len())?;
        Ok(R::record_of_words(kind, size, words))
    }

    pub fn from_words(kind: Kind, size: Size, words: &[u32]) -> Record {
        let (states, cost) = words.split_at(kind.cost_place(size));
        let entries = states.chunks_exact(kind.entry_words()).map(Entry::from_words).collect();
        Record { size, entries, cost: u64::from(cost[0]) + (u64::from(cost[1]) << 32) }
    }

    /// The corridor's start in state 0, and zeros in all else.
    pub fn start(input: &Input) -> Record {
        let size = input.size;
        let nothing = Entry::from_words(&[0; ENTRY_WORDS + EXIT_WORDS]);
        let mut entries = vec![nothing; size.nodes() * (size.steps + 1)];
        for (i, entry) in entries.iter_mut().enumerate().take(size.nodes()) {
            entry.vehicles = input.node(i).start_vehicles.into();
            entry.queue = input.node(i).start_queue.into();
        }
        Record { size, entries, cost: 0 }
    }

    /// Fills a list that has the length of that kind.
    pub fn write(&self, kind: Kind, words: &mut [u32]) {
        let (states, cost) = words.split_at_mut(kind.cost_place(self.size));
        for (place, entry) in states.chunks_exact_mut(kind.entry_words()).zip(&self.entries) {
            place.copy_from_slice(&entry.words()[..kind.entry_words()]);
        }
        (cost[0], cost[1]) = (self.cost as u32, (self.cost >> 32) as u32);
    }

    /// The list of that kind.
    pub fn words(&self, kind: Kind) -> Vec<u32> {
        let mut words = vec![0; kind.words(self.size)];
        self.write(kind, &mut words);
        words
    }

    /// All nodes in state k.
    pub fn state(&self, k: usize) -> &[Entry] {
        &self.entries[k * self.size.nodes()..(k + 1) * self.size.nodes()]
    }

    pub fn entry(&self, k: usize, i: usize) -> Entry {
        self.state(k)[i]
    }

    pub fn entry_mut(&mut self, k: usize, i: usize) -> &mut Entry {
        &mut self.entries[k * self.size.nodes() + i]
    }
}
