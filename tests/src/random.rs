//! A small seeded generator of numbers, and the inputs made with it. The same seed gives the same
//! input everywhere.

pub mod damage;
pub mod files;
pub mod records;
pub mod search;
pub mod sound;

/// Splitmix: a counter that is stirred three times for each number.
pub struct Random {
    state: u64,
}

impl Random {
    pub fn new(seed: u64) -> Random {
        Random { state: seed }
    }

    pub fn number(&mut self) -> u64 {
        self.state = self.state.wrapping_add(0x9E37_79B9_7F4A_7C15);
        let mut z = self.state;
        z = (z ^ (z >> 30)).wrapping_mul(0xBF58_476D_1CE4_E5B9);
        z = (z ^ (z >> 27)).wrapping_mul(0x94D0_49BB_1331_11EB);
        z ^ (z >> 31)
    }

    /// A number from 0 to `bound` − 1.
    pub fn below(&mut self, bound: usize) -> usize {
        (self.number() % bound as u64) as usize
    }

    /// A number from `low` to `high`, both included.
    pub fn within(&mut self, low: u64, high: u64) -> u64 {
        low + self.number() % (high - low + 1)
    }

    pub fn one_in(&mut self, times: usize) -> bool {
        self.below(times) == 0
    }

    pub fn pick<T: Copy>(&mut self, from: &[T]) -> T {
        from[self.below(from.len())]
    }

    /// Any word.
    pub fn word(&mut self) -> u32 {
        self.number() as u32
    }

    /// A word to put in the place of `old`: one beside it, a limit of some range or anything.
    pub fn strange_word(&mut self, old: u32) -> u32 {
        let limits = [
            0,
            1,
            2,
            64,
            65,
            256,
            1_440,
            1_441,
            65_535,
            65_536,
            65_537,
            134_217_728,
            134_217_729,
            1 << 31,
            u32::MAX,
        ];
        match self.below(4) {
            0 => old.wrapping_add(1),
            1 => old.wrapping_sub(1),
            2 => self.pick(&limits),
            _ => self.word(),
        }
    }
}
