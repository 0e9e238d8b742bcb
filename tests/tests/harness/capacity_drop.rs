//! A wrong capacity drop: where it sets in, what it bears on, tests of its two words, and lists of
//! kind 10 read as others.

use super::{length_but_of, wrong};
use tests::calls::{Instead, WordCalls};
use tests::model::check::check_record;
use tests::model::lists::{corridor_of, drop_fault, test_input, Node};
use tests::model::{
    refuse_if, Entry, Input, Kind, List, NodeStep, Outcome, Quick, Record, Refusal, Setting, Size,
    WHOLE,
};

wrong! { variants: WordCalls;
    /// The drop sets in at the density itself.
    DropAtItsDensity {
        fn discharge(at: &NodeStep) -> u64 {
            if at.vehicles < at.drop_density { at.capacity } else { at.dropped_capacity }
        }
    }

    DropTwoAboveItsDensity {
        fn discharge(at: &NodeStep) -> u64 {
            if at.vehicles <= at.drop_density + 1 { at.capacity } else { at.dropped_capacity }
        }
    }

    /// F above the density, the dropped capacity up to it.
    DropBelowItsDensity {
        fn discharge(at: &NodeStep) -> u64 {
            if at.vehicles > at.drop_density { at.capacity } else { at.dropped_capacity }
        }
    }

    DroppedWithAnyVehicles {
        fn discharge(at: &NodeStep) -> u64 {
            at.dropped_capacity
        }
    }

    DropPassedOver {
        fn discharge(at: &NodeStep) -> u64 {
            at.capacity
        }
    }

    /// The drop is looked at only where F would bound what the link sends.
    DropOnlyWhereCapacityBinds {
        fn sending(at: &NodeStep, limit: u64) -> u64 {
            let sent = at.vehicles * limit / WHOLE;
            if sent < at.capacity { sent } else { Quick::discharge(at) }
        }
    }

    /// A posted limit below full speed undoes the drop.
    DropOnlyAtFullSpeed {
        fn sending(at: &NodeStep, limit: u64) -> u64 {
            let most = if limit < at.full_speed { at.capacity } else { Quick::discharge(at) };
            (at.vehicles * limit / WHOLE).min(most)
        }
    }

    /// Above its density a link takes in no more than it discharges.
    DropInReceivingToo {
        fn receiving(input: &Input, state: &[Entry], link: usize) -> u64 {
            let node = input.node(link);
            let dropped = state[link].vehicles > node.drop_density.into();
            let most = if dropped { node.dropped_capacity } else { node.capacity };
            Quick::receiving(input, state, link).min(most.into())
        }
    }

    /// The ramp's offer drops with what its link sends.
    DropInRampToo {
        fn ramp_offer(at: &NodeStep, rate: u64) -> u64 {
            let offer = Quick::ramp_offer(at, rate);
            if at.vehicles > at.drop_density { offer.min(at.dropped_capacity) } else { offer }
        }
    }

    /// The simulator passes the drop over; checker and converter do not.
    DropPassedOverBySimulator {
        fn discharge(at: &NodeStep) -> u64 {
            at.capacity
        }

        fn check_record(input: &Input, record: &Record) -> Outcome {
            Quick::check_record(input, record)
        }

        fn setting(at: &NodeStep, flow: u64, ramp_flow: u64) -> Setting {
            Quick::setting(at, flow, ramp_flow)
        }
    }

    DropPassedOverByChecker {
        fn check_record(input: &Input, record: &Record) -> Outcome {
            check_record::<DropPassedOver>(input, record)
        }
    }

    DropPassedOverByConverter {
        fn setting(at: &NodeStep, flow: u64, ramp_flow: u64) -> Setting {
            DropPassedOver::setting(at, flow, ramp_flow)
        }
    }

    /// Held where the drop is all that keeps a flow from being greater.
    DroppedFlowHeld {
        fn setting(at: &NodeStep, flow: u64, ramp_flow: u64) -> Setting {
            let without = DropPassedOver::sending(at, at.full_speed);
            let dropped = Quick::sending(at, at.full_speed);
            match flow == dropped && dropped < without && flow > 0 {
                true => Setting::Held(ramp_flow, Quick::held_limit(at, flow)),
                false => Quick::setting(at, flow, ramp_flow),
            }
        }
    }

    DropUntested {
        fn drop_fault(_: &Node, _: usize) -> bool {
            false
        }
    }

    DroppedCapacityUntested {
        fn drop_fault(node: &Node, _: usize) -> bool {
            node.drop_density > node.jam
        }
    }

    DropDensityUntested {
        fn drop_fault(node: &Node, _: usize) -> bool {
            node.dropped_capacity > node.capacity
        }
    }

    DroppedCapacityWithinJam {
        fn drop_fault(node: &Node, _: usize) -> bool {
            node.dropped_capacity > node.jam || node.drop_density > node.jam
        }
    }

    DropDensityWithinCapacity {
        fn drop_fault(node: &Node, _: usize) -> bool {
            node.dropped_capacity > node.capacity || node.drop_density > node.capacity
        }
    }

    DroppedCapacityWithinWhole {
        fn drop_fault(node: &Node, i: usize) -> bool {
            let most = if i == 0 { 0 } else { WHOLE as u32 };
            node.dropped_capacity > most || node.drop_density > node.jam
        }
    }

    DropDensityWithinWhole {
        fn drop_fault(node: &Node, i: usize) -> bool {
            let most = if i == 0 { 0 } else { WHOLE as u32 };
            node.dropped_capacity > node.capacity || node.drop_density > most
        }
    }

    DroppedCapacityOneMore {
        fn drop_fault(node: &Node, i: usize) -> bool {
            let one_more = i > 0 && node.dropped_capacity == node.capacity + 1;
            drop_fault(node, i) && !(one_more && node.drop_density <= node.jam)
        }
    }

    DropDensityOneMore {
        fn drop_fault(node: &Node, i: usize) -> bool {
            let one_more = i > 0 && node.drop_density == node.jam + 1;
            drop_fault(node, i) && !(one_more && node.dropped_capacity <= node.capacity)
        }
    }

    /// Refused with F itself, which kind 1 counts as.
    DroppedCapacityBelowCapacity {
        fn node_fault(number: u32, input: &Input, i: usize) -> bool {
            let node = input.node(i);
            let equal = input.has_drop() && i > 0 && node.dropped_capacity == node.capacity;
            Quick::node_fault(number, input, i) || (number == 2 && equal)
        }
    }

    /// Refused with J itself, which kind 1 counts as.
    DropDensityBelowJam {
        fn node_fault(number: u32, input: &Input, i: usize) -> bool {
            let node = input.node(i);
            let equal = input.has_drop() && i > 0 && node.drop_density == node.jam;
            Quick::node_fault(number, input, i) || (number == 2 && equal)
        }
    }

    EntryDropFree {
        fn drop_fault(node: &Node, i: usize) -> bool {
            i > 0 && drop_fault(node, i)
        }
    }

    EntryDroppedCapacityFree {
        fn drop_fault(node: &Node, i: usize) -> bool {
            if i == 0 { node.drop_density != 0 } else { drop_fault(node, i) }
        }
    }

    EntryDropDensityFree {
        fn drop_fault(node: &Node, i: usize) -> bool {
            if i == 0 { node.dropped_capacity != 0 } else { drop_fault(node, i) }
        }
    }

    /// F, V, W and J of all nodes before the two words of any.
    DropTestedAfterLinks {
        fn test_input(input: &Input) -> Outcome {
            for fault in [DropUntested::node_fault, Quick::node_fault] {
                (0..input.size.nodes()).try_for_each(|i| refuse_if(fault(2, input, i), 2, 0, i))?;
            }
            test_input::<Quick>(input)
        }
    }

    /// The two words are tested after all of 3 and 4.
    DropTestedLast {
        fn test_input(input: &Input) -> Outcome {
            test_input::<DropUntested>(input)?;
            test_input::<Quick>(input)
        }
    }

    /// A corridor of kind 10's length is one of a wrong length.
    DropRefused {
        fn kind_of_length(list: List, size: Size, words: usize) -> Result<Kind, Refusal> {
            length_but_of(Kind::CapacityDrop, list, size, words)
        }
    }

    /// Corridors of kind 10 only.
    DropAskedFor {
        fn kind_of_length(list: List, size: Size, words: usize) -> Result<Kind, Refusal> {
            length_but_of(Kind::Corridor, list, size, words)
        }
    }

    /// Any length from kind 1's on is taken, and what is beyond it not looked at.
    LongerCorridorTaken {
        fn kind_of_length(list: List, size: Size, words: usize) -> Result<Kind, Refusal> {
            match list == List::Corridor && words > Kind::Corridor.words(size) {
                true => Ok(Kind::Corridor),
                false => list.kind_of_length(size, words),
            }
        }
    }

    /// Nine words to a node in a list of either length.
    TenReadAsOne {
        fn kind_of_length(list: List, size: Size, words: usize) -> Result<Kind, Refusal> {
            let kind = list.kind_of_length(size, words)?;
            Ok(if kind == Kind::CapacityDrop { Kind::Corridor } else { kind })
        }
    }

    /// A length that is kind 1's for some N is taken for kind 1 before N is looked at.
    LengthBeforeLinks {
        fn kind_of_length(list: List, size: Size, words: usize) -> Result<Kind, Refusal> {
            match words % Kind::Corridor.node_words() == 1 {
                true => length_but_of(Kind::CapacityDrop, list, size, words),
                false => list.kind_of_length(size, words),
            }
        }
    }

    /// A length that is kind 10's for some N is taken for kind 10 before N is looked at.
    NewestLengthBeforeLinks {
        fn kind_of_length(list: List, size: Size, words: usize) -> Result<Kind, Refusal> {
            match words % Kind::CapacityDrop.node_words() == 1 {
                true => length_but_of(Kind::Corridor, list, size, words),
                false => list.kind_of_length(size, words),
            }
        }
    }
}

/// A corridor of that kind, of a right length, as one of kind 10 whose nodes are other ones.
fn other_nodes(
    corridor: &[u32],
    demands: &[u32],
    kind: Kind,
    other: impl Fn(&[Node], usize) -> Node,
) -> [Vec<u32>; 2] {
    let input = Input::new(corridor, demands).ok().filter(|input| input.corridor_kind == kind);
    let corridor = input.map_or(corridor.to_vec(), |input| {
        let nodes: Vec<Node> = (0..input.size.nodes()).map(|i| input.node(i)).collect();
        let others: Vec<Node> = (0..nodes.len()).map(|i| other(&nodes, i)).collect();
        corridor_of(Kind::CapacityDrop, &others)
    });
    [corridor, demands.to_vec()]
}

/// Node i with other words for its drop.
fn with_drop(nodes: &[Node], i: usize, (dropped_capacity, drop_density): (u32, u32)) -> Node {
    Node { dropped_capacity, drop_density, ..nodes[i] }
}

/// The two words of a node's drop.
fn drop_of(node: &Node) -> (u32, u32) {
    (node.dropped_capacity, node.drop_density)
}

/// Corridor and demands as they are misread.
type Misread = fn(&[u32], &[u32]) -> [Vec<u32>; 2];

/// The two words read from the next node; the last has its own.
const OF_NEXT_NODE: Misread = |corridor, demands| {
    other_nodes(corridor, demands, Kind::CapacityDrop, |nodes, i| {
        with_drop(nodes, i, drop_of(nodes.get(i + 1).unwrap_or(&nodes[i])))
    })
};

/// The two words read from the node before; the first has its own.
const OF_NODE_BEFORE: Misread = |corridor, demands| {
    other_nodes(corridor, demands, Kind::CapacityDrop, |nodes, i| {
        with_drop(nodes, i, drop_of(&nodes[i.saturating_sub(1)]))
    })
};

const EXCHANGED: Misread = |corridor, demands| {
    other_nodes(corridor, demands, Kind::CapacityDrop, |nodes, i| {
        with_drop(nodes, i, (nodes[i].drop_density, nodes[i].dropped_capacity))
    })
};

/// No drop at node N.
const NOT_AT_THE_END: Misread = |corridor, demands| {
    other_nodes(corridor, demands, Kind::CapacityDrop, |nodes, i| match i + 1 == nodes.len() {
        true => with_drop(nodes, i, (nodes[i].capacity, nodes[i].jam)),
        false => nodes[i],
    })
};

/// No drop but at node N.
const AT_THE_END_ONLY: Misread = |corridor, demands| {
    other_nodes(corridor, demands, Kind::CapacityDrop, |nodes, i| match i + 1 == nodes.len() {
        true => nodes[i],
        false => with_drop(nodes, i, (nodes[i].capacity, nodes[i].jam)),
    })
};

/// A corridor of kind 1 counts as one with zeros for the two words.
const NONE_COUNTS_AS_ZEROS: Misread = |corridor, demands| {
    other_nodes(corridor, demands, Kind::Corridor, |nodes, i| with_drop(nodes, i, (0, 0)))
};

pub fn misread_variants() -> Vec<(&'static str, &'static dyn WordCalls)> {
    vec![
        ("OfNextNode", &Instead { calls: &Quick, lists: OF_NEXT_NODE }),
        ("OfNodeBefore", &Instead { calls: &Quick, lists: OF_NODE_BEFORE }),
        ("Exchanged", &Instead { calls: &Quick, lists: EXCHANGED }),
        ("NotAtTheEnd", &Instead { calls: &Quick, lists: NOT_AT_THE_END }),
        ("AtTheEndOnly", &Instead { calls: &Quick, lists: AT_THE_END_ONLY }),
        ("NoneCountsAsZeros", &Instead { calls: &Quick, lists: NONE_COUNTS_AS_ZEROS }),
    ]
}
