//! The model: document 01, and what has landed of document 02, in plain Rust. Each rule and each
//! test of the refusal table is a small function of `Rules`; `Paper` and `Quick` take them as they
//! stand, wrong variants replace one.

pub mod check;
pub mod convert;
pub mod files;
pub mod kinds;
pub mod lists;
pub mod program;
pub mod record;
pub mod rules;
pub mod search;
pub mod simulate;

pub use check::check;
pub use convert::{convert, normal, Setting};
pub use files::{check_files, convert_files, read, write};
pub use kinds::{Kind, Kinds, List};
pub use lists::{Input, Node, Size};
pub use record::{Entry, Record};
pub use rules::{NodeStep, Paper, Quick, Rules};
pub use search::{search, Search};
pub use simulate::simulate;

/// A whole section, a whole step, a whole flow: speeds and splits count in parts of it.
pub const WHOLE: u64 = 65_536;

/// The largest queue limit.
pub const MOST_QUEUE_LIMIT: u32 = 134_217_728;

/// A refusal of the table, with its place.
#[derive(Clone, Copy, Debug, PartialEq, Eq)]
pub struct Refusal {
    pub number: u32,
    pub row: u32,
    pub node: u32,
}

/// What a call answers: accepted, or refused.
pub type Outcome = Result<(), Refusal>;

/// The refusal of that number at that place.
pub fn refusal(number: u32, row: usize, node: usize) -> Refusal {
    let (row, node) = (row as u32, node as u32);
    Refusal { number, row, node }
}

/// Refuses with that number at that place if `fault` is so.
pub fn refuse_if(fault: bool, number: u32, row: usize, node: usize) -> Outcome {
    if fault {
        return Err(refusal(number, row, node));
    }
    Ok(())
}

/// The C host's one number: row × 65,536 + node × 256 + refusal number, 0 for accepted.
pub fn answer(outcome: Outcome) -> u32 {
    match outcome {
        Ok(()) => 0,
        Err(Refusal { number, row, node }) => row * 65_536 + node * 256 + number,
    }
}
