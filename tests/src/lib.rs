//! Independent tests of Gigorchid: a model written from documents 01 and 02 alone, seeded inputs,
//! and comparisons of every exported call with the model, word for word.

pub mod alone;
pub mod calls;
pub mod capacity_drop;
pub mod compare;
pub mod completed;
pub mod demand_three;
pub mod downstream;
pub mod examples;
#[cfg(feature = "host")]
pub mod host;
pub mod limits;
pub mod model;
pub mod off_ramps;
pub mod pages;
#[cfg(feature = "program")]
pub mod program;
pub mod properties;
pub mod random;
pub mod samples;
pub mod search;
mod stack;
pub mod sweeps;
pub mod tally;
pub mod yardstick;
