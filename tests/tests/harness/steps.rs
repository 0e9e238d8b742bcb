//! Wrong rules of a step and wrong settings: rules 1 to 6, the cost, the search, the held limit.

use super::wrong;
use tests::calls::WordCalls;
use tests::model::rules::flows;
use tests::model::{Entry, Input, NodeStep, Quick, Record, Setting, WHOLE};

/// A product that keeps its low 32 bits only.
fn short_product(a: u64, b: u64) -> u64 {
    u64::from((a as u32).wrapping_mul(b as u32))
}

wrong! { variants: WordCalls;
    /// Arrivals enter in their own step.
    ArrivalsAtOnce {
        fn ramp_offer(at: &NodeStep, rate: u64) -> u64 {
            (at.queue + at.arrivals).min(at.ramp_capacity).min(rate)
        }
    }

    /// Through part and exit both rounded down, so that vehicles vanish.
    ThroughRoundedDown {
        fn through(flow: u64, split: u64) -> u64 {
            flow * (WHOLE - split) / WHOLE
        }
    }

    /// No exits.
    EverythingThrough {
        fn through(flow: u64, _: u64) -> u64 {
            flow
        }
    }

    /// The unit lost by rounding goes to the ramp.
    RampTakesTheRest {
        fn merge(at: &NodeStep, sending: u64, offer: u64) -> (u64, u64) {
            let (flow, ramp_flow) = Quick::merge(at, sending, offer);
            let left = at.supply - Quick::through(flow, at.split);
            (flow, left.min(offer).max(ramp_flow))
        }
    }

    /// The mainline goes first and the ramp gets what is left.
    MainlineFirst {
        fn merge(at: &NodeStep, sending: u64, offer: u64) -> (u64, u64) {
            let (flow, _) = Quick::merge(at, sending, 0);
            let left = at.supply - Quick::through(flow, at.split);
            (flow, left.min(offer))
        }
    }

    /// Without a ramp flow the part that may pass is rounded before it is taken of the flow.
    PartRoundedFirst {
        fn merge(at: &NodeStep, sending: u64, offer: u64) -> (u64, u64) {
            let wanted = Quick::through(sending, at.split);
            if offer > 0 || wanted <= at.supply {
                return Quick::merge(at, sending, offer);
            }
            (sending * (at.supply * WHOLE / wanted) / WHOLE, 0)
        }
    }

    /// Traffic past link N is free.
    AnyFlowLeaves {
        fn supply(input: &Input, state: &[Entry], k: usize, i: usize) -> u64 {
            let supply = Quick::supply(input, state, k, i);
            if i == input.size.links { WHOLE } else { supply }
        }
    }

    FirstWordForEveryStep {
        fn supply(input: &Input, state: &[Entry], k: usize, i: usize) -> u64 {
            let supply = Quick::supply(input, state, k, i);
            if i == input.size.links { input.downstream(0) } else { supply }
        }
    }

    /// The word of the step after; the last has its own.
    WordOfNextStep {
        fn supply(input: &Input, state: &[Entry], k: usize, i: usize) -> u64 {
            let supply = Quick::supply(input, state, k, i);
            let next = (k + 1).min(input.size.steps - 1);
            if i == input.size.links { input.downstream(next) } else { supply }
        }
    }

    /// The word is taken for what may leave the link before as well.
    WordAtEveryNode {
        fn supply(input: &Input, state: &[Entry], k: usize, i: usize) -> u64 {
            Quick::supply(input, state, k, i).min(input.downstream(k))
        }
    }

    OneLessLeaves {
        fn supply(input: &Input, state: &[Entry], k: usize, i: usize) -> u64 {
            let supply = Quick::supply(input, state, k, i);
            let word = i == input.size.links && input.has_downstream();
            if word { supply.saturating_sub(1) } else { supply }
        }
    }

    KindTwoCountsAsOneLess {
        fn supply(input: &Input, state: &[Entry], k: usize, i: usize) -> u64 {
            let supply = Quick::supply(input, state, k, i);
            let none = i == input.size.links && !input.has_downstream();
            if none { WHOLE - 1 } else { supply }
        }
    }

    /// The link's capacity does not bound what it sends.
    SendingBeyondCapacity {
        fn sending(at: &NodeStep, limit: u64) -> u64 {
            at.vehicles * limit / WHOLE
        }
    }

    /// The next link's capacity does not bound what it receives.
    ReceivingBeyondCapacity {
        fn receiving(input: &Input, state: &[Entry], link: usize) -> u64 {
            let node = input.node(link);
            u64::from(node.wave_speed) * (u64::from(node.jam) - state[link].vehicles) / WHOLE
        }
    }

    SendingIn32Bits {
        fn sending(at: &NodeStep, limit: u64) -> u64 {
            (short_product(at.vehicles, limit) / WHOLE).min(Quick::discharge(at))
        }
    }

    ThroughIn32Bits {
        fn through(flow: u64, split: u64) -> u64 {
            flow - (short_product(flow, split) / WHOLE).min(flow)
        }
    }

    ReceivingIn32Bits {
        fn receiving(input: &Input, state: &[Entry], link: usize) -> u64 {
            let node = input.node(link);
            let room = u64::from(node.jam) - state[link].vehicles;
            (short_product(node.wave_speed.into(), room) / WHOLE).min(node.capacity.into())
        }
    }

    MergeIn32Bits {
        fn merge(at: &NodeStep, sending: u64, offer: u64) -> (u64, u64) {
            let wanted = Self::through(sending, at.split) + offer;
            if wanted <= at.supply {
                return (sending, offer);
            }
            let short = |flow| short_product(flow, at.supply) / wanted;
            (short(sending), short(offer))
        }
    }

    CostWithStateZero {
        fn cost(record: &Record) -> u64 {
            let vehicles: u64 = record.state(0).iter().map(|entry| entry.vehicles).sum();
            Quick::cost(record) + vehicles
        }
    }

    CostWithoutLastState {
        fn cost(record: &Record) -> u64 {
            let last = record.state(record.size.steps).iter();
            Quick::cost(record) - last.map(|entry| entry.vehicles + entry.queue).sum::<u64>()
        }
    }

    CostIn32Bits {
        fn cost(record: &Record) -> u64 {
            u64::from(Quick::cost(record) as u32)
        }
    }

    LargestRate {
        fn find_rate(at: &NodeStep, flow: u64, ramp_flow: u64) -> Option<u64> {
            let smallest = Quick::find_rate(at, flow, ramp_flow)?;
            let same = |rate: &u64| flows::<Quick>(at, *rate, at.full_speed) == (flow, ramp_flow);
            (smallest..=at.ramp_capacity).take_while(same).last()
        }
    }

    /// "None found" without a search: only the ramp flow itself is tried.
    RampFlowTriedOnly {
        fn find_rate(at: &NodeStep, flow: u64, ramp_flow: u64) -> Option<u64> {
            let gives = flows::<Quick>(at, ramp_flow, at.full_speed) == (flow, ramp_flow);
            gives.then_some(ramp_flow)
        }
    }

    /// The search ends one short of the ramp's capacity, but where there are no vehicles to hold.
    CapacityNotTried {
        fn find_rate(at: &NodeStep, flow: u64, ramp_flow: u64) -> Option<u64> {
            let found = Quick::find_rate(at, flow, ramp_flow);
            found.filter(|&rate| rate == 0 || rate < at.ramp_capacity || at.vehicles == 0)
        }
    }

    /// The search looks at the ramp flow and not at the mainline.
    RampSearchedOnly {
        fn find_rate(at: &NodeStep, _: u64, ramp_flow: u64) -> Option<u64> {
            let mut rates = 0..=at.ramp_capacity;
            rates.find(|&rate| flows::<Quick>(at, rate, at.full_speed).1 == ramp_flow)
        }
    }

    /// The search looks at the mainline flow and not at the ramp.
    MainlineSearchedOnly {
        fn find_rate(at: &NodeStep, flow: u64, _: u64) -> Option<u64> {
            let mut rates = 0..=at.ramp_capacity;
            rates.find(|&rate| flows::<Quick>(at, rate, at.full_speed).0 == flow)
        }
    }

    /// f / n is posted everywhere.
    HeldEverywhere {
        fn setting(at: &NodeStep, flow: u64, ramp_flow: u64) -> Setting {
            let limit = (flow * WHOLE).checked_div(at.vehicles).unwrap_or(0);
            Setting::Held(ramp_flow, limit)
        }
    }

    /// Held where less may leave link N than it can send.
    CutFlowHeld {
        fn setting(at: &NodeStep, flow: u64, ramp_flow: u64) -> Setting {
            let cut = at.supply < Quick::sending(at, at.full_speed);
            match at.ramp_capacity == 0 && cut && flow > 0 {
                true => Setting::Held(ramp_flow, Quick::held_limit(at, flow)),
                false => Quick::setting(at, flow, ramp_flow),
            }
        }
    }

    FullEverywhere {
        fn setting(at: &NodeStep, flow: u64, ramp_flow: u64) -> Setting {
            Setting::Full(Self::find_rate(at, flow, ramp_flow).unwrap_or(ramp_flow))
        }
    }

    HeldLimitRoundedDown {
        fn held_limit(at: &NodeStep, flow: u64) -> u64 {
            flow * WHOLE / at.vehicles
        }
    }

    HeldAtLargestLimit {
        fn held_limit(at: &NodeStep, flow: u64) -> u64 {
            (((flow + 1) * WHOLE - 1) / at.vehicles).min(at.full_speed)
        }
    }
}
