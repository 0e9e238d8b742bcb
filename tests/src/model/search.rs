//! The search for a rate: in the plainest way, and by halving, with the number of its tries; and the
//! call that makes one search, for one node at one step of a record.

use super::lists::same_length;
use super::rules::flows;
use super::{refuse_if, Input, NodeStep, Outcome, Record, Refusal, Rules, Size};

/// The words that the call fills: the tries, 1 if a rate was found and 0 otherwise, the rate.
pub const OUT_WORDS: usize = 3;

/// What a search came to.
#[derive(Clone, Copy, Debug, PartialEq, Eq)]
pub struct Search {
    pub tries: u32,
    pub rate: Option<u64>,
}

impl Search {
    pub fn words(&self) -> [u32; OUT_WORDS] {
        [self.tries, self.rate.is_some().into(), self.rate.unwrap_or(0) as u32]
    }
}

/// Writes what the search at a step and node of a proposed record came to.
pub fn search<R: Rules>(
    corridor: &[u32],
    demands: &[u32],
    record: &[u32],
    step: u32,
    node: u32,
    out: &mut [u32],
) -> Outcome {
    let input = Input::by::<R>(corridor, demands)?;
    let record = Record::by::<R>(input.size, record)?;
    let (k, i) = R::place(input.size, step, node)?;
    same_length(out.len(), OUT_WORDS)?;
    R::test_input(&input)?;
    R::check_record(&input, &record)?;
    let (at, flow, ramp_flow) = R::wanted(&input, &record, k, i);
    out.copy_from_slice(&R::try_rates(&at, flow, ramp_flow).words());
    Ok(())
}

/// Refusal 1 for a step not below K or a node above N, judged as whole words.
pub fn place(size: Size, step: u32, node: u32) -> Result<(usize, usize), Refusal> {
    let (k, i) = (step as usize, node as usize);
    refuse_if(k >= size.steps || i > size.links, 1, 0, 0)?;
    Ok((k, i))
}

/// The plainest way: "none" only after every rate from 0 to C has failed.
pub fn rate_from_zero<R: Rules>(at: &NodeStep, flow: u64, ramp_flow: u64) -> Option<u64> {
    (0..=at.ramp_capacity).find(|&rate| flows::<R>(at, rate, at.full_speed) == (flow, ramp_flow))
}

/// By halving: of the rates left the middle is tried, and those up to it or those above are kept; at
/// last the one left is tried, whether or not it was before. As the rate grows f never rises and r
/// never falls, so this is the only rate that can be the smallest.
pub fn by_halving<R: Rules>(at: &NodeStep, flow: u64, ramp_flow: u64) -> Search {
    let wanted = (flow, ramp_flow);
    let mut tries = 0;
    let mut try_rate = |rate| {
        tries += 1;
        flows::<R>(at, rate, at.full_speed)
    };
    let (mut low, mut high) = R::rates(at);
    while low < high {
        let middle = R::middle(low, high);
        match R::keeps_up_to(try_rate(middle), wanted) {
            true => high = middle,
            false => low = middle + 1,
        }
    }
    let found = try_rate(low) == wanted;
    Search { tries, rate: found.then_some(low) }
}
