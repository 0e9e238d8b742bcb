//! Wrong tests of the lists and of a record: their bounds, their order, the places they name.

use super::{length_but_of, wrong};
use tests::calls::WordCalls;
use tests::model::check::{check_cost, check_fixed, check_record, check_steps};
use tests::model::check::{step_fault, Proposal};
use tests::model::lists::{demand_fault, plan_fault, test_input};
use tests::model::{refusal, refuse_if, Entry, Input, Kind, List, Outcome, Quick, Record};
use tests::model::{Refusal, Size, WHOLE};

wrong! { variants: WordCalls;
    ThreeBeforeTwo {
        const CORRIDOR_ORDER: [u32; 3] = [3, 2, 4];
    }

    FourBeforeThree {
        const CORRIDOR_ORDER: [u32; 3] = [2, 4, 3];
    }

    /// All tests of a node before the next node.
    NodeByNode {
        fn test_input(input: &Input) -> Outcome {
            for i in 0..input.size.nodes() {
                for number in [2, 3, 4] {
                    refuse_if(Quick::node_fault(number, input, i), number, 0, i)?;
                }
            }
            test_input::<Quick>(input)
        }
    }

    /// Of two equal identifiers the earlier node is named.
    EarlierOfTwoNamed {
        fn node_fault(number: u32, input: &Input, i: usize) -> bool {
            let identifier = input.node(i).identifier;
            let mut others = (0..input.size.nodes()).filter(|&j| j != i);
            let repeated = others.any(|j| input.node(j).identifier == identifier);
            Quick::node_fault(number, input, i) || (number == 3 && repeated)
        }
    }

    /// Identifiers are compared with the node before only.
    NeighboursComparedOnly {
        fn node_fault(number: u32, input: &Input, i: usize) -> bool {
            let node = input.node(i);
            let equal = |j: usize| input.node(j).identifier == node.identifier;
            let fault = Quick::node_fault(number, input, i);
            let only_far = number == 3 && node.identifier != 0 && i > 0 && !equal(i - 1);
            fault && !(only_far && (0..i).any(equal))
        }
    }

    /// The entry's wave speed is not looked at.
    EntryWaveSpeedFree {
        fn node_fault(number: u32, input: &Input, i: usize) -> bool {
            let node = input.node(i);
            let others = [node.capacity, node.full_speed, node.jam];
            match (number, i) {
                (2, 0) => others != [0; 3],
                _ => Quick::node_fault(number, input, i),
            }
        }
    }

    /// A link may start as full as its jam, but this one refuses that.
    JamRefused {
        fn node_fault(number: u32, input: &Input, i: usize) -> bool {
            let node = input.node(i);
            let jammed = i > 0 && node.start_vehicles == node.jam;
            Quick::node_fault(number, input, i) || (number == 4 && jammed)
        }
    }

    OneMoreArrival {
        fn demand_fault(input: &Input, k: usize, i: usize) -> bool {
            let one_more = input.arrivals(k, i) == WHOLE + 1 && i < input.size.links;
            let split_fault = input.split(k, i) > WHOLE || (i == 0 && input.split(k, i) != 0);
            if one_more { split_fault } else { demand_fault(input, k, i) }
        }
    }

    EntrySplitFree {
        fn demand_fault(input: &Input, k: usize, i: usize) -> bool {
            match i {
                0 => input.arrivals(k, i) > WHOLE || input.split(k, i) > WHOLE,
                _ => demand_fault(input, k, i),
            }
        }
    }

    /// A list of kind 5's length is one of a wrong length.
    DownstreamRefused {
        fn kind_of_length(list: List, size: Size, words: usize) -> Result<Kind, Refusal> {
            length_but_of(Kind::Downstream, list, size, words)
        }
    }

    /// Lists of kind 5 only.
    DownstreamAskedFor {
        fn kind_of_length(list: List, size: Size, words: usize) -> Result<Kind, Refusal> {
            length_but_of(Kind::Demands, list, size, words)
        }
    }

    /// Kind 5 taken for kind 2: what may leave link N is neither tested nor used.
    DownstreamPassedOver {
        fn demand_fault(input: &Input, k: usize, i: usize) -> bool {
            demand_fault(input, k, i) && !by_word_alone(input, k, i)
        }

        fn supply(input: &Input, state: &[Entry], k: usize, i: usize) -> u64 {
            match i == input.size.links {
                true => WHOLE,
                false => Quick::supply(input, state, k, i),
            }
        }
    }

    DownstreamUntested {
        fn demand_fault(input: &Input, k: usize, i: usize) -> bool {
            demand_fault(input, k, i) && !by_word_alone(input, k, i)
        }
    }

    DownstreamBelowWhole {
        fn demand_fault(input: &Input, k: usize, i: usize) -> bool {
            let whole = input.has_downstream() && input.downstream(k) == WHOLE;
            demand_fault(input, k, i) || (i == input.size.links && whole)
        }
    }

    DownstreamOneMore {
        fn demand_fault(input: &Input, k: usize, i: usize) -> bool {
            let one_more = input.downstream(k) == WHOLE + 1;
            demand_fault(input, k, i) && !(one_more && by_word_alone(input, k, i))
        }
    }

    /// The words at the list's end are tested after all of Q and b.
    DownstreamTestedLast {
        fn test_input(input: &Input) -> Outcome {
            test_input::<DownstreamUntested>(input)?;
            test_input::<Quick>(input)
        }
    }

    /// The words at the list's end are tested before all of Q and b.
    DownstreamTestedFirst {
        fn test_input(input: &Input) -> Outcome {
            let outcome = test_input::<Quick>(input);
            let word = (0..input.size.steps).find(|&k| input.downstream(k) > WHOLE);
            match (outcome, word) {
                (Err(Refusal { number: 5, .. }), Some(k)) => Err(refusal(5, k, input.size.links)),
                _ => outcome,
            }
        }
    }

    /// The word of a step is named at node 0, before the step's Q and b.
    DownstreamAtTheEntry {
        fn demand_fault(input: &Input, k: usize, i: usize) -> bool {
            let by_word = i == 0 && input.downstream(k) > WHOLE;
            by_word || (demand_fault(input, k, i) && !by_word_alone(input, k, i))
        }
    }

    LimitOfPlanUntested {
        fn plan_fault(input: &Input, i: usize, rate: u32, limit: u32) -> bool {
            plan_fault(input, i, rate, limit.min(input.node(i).full_speed))
        }
    }

    NineBeforeEight {
        const NODE_ORDER: [u32; 5] = [9, 8, 10, 11, 12];
    }

    TenBeforeNine {
        const NODE_ORDER: [u32; 5] = [8, 10, 9, 11, 12];
    }

    TwelveBeforeEleven {
        const NODE_ORDER: [u32; 5] = [8, 9, 10, 12, 11];
    }

    /// T(f) + r in 32 bits.
    RoomIn32Bits {
        fn step_fault(number: u32, here: &Proposal) -> bool {
            let merged = Quick::through(here.flow, here.at.split) as u32;
            let merged = u64::from(merged.wrapping_add(here.ramp_flow as u32));
            match number {
                9 => merged > here.at.supply,
                _ => step_fault::<Quick>(number, here),
            }
        }
    }

    /// Refusal 9 left out at the entry, the one node whose full speed is zero; a link that is then
    /// filled beyond its jam has no room.
    EntryRoomUntested {
        fn step_fault(number: u32, here: &Proposal) -> bool {
            step_fault::<Quick>(number, here) && (number != 9 || here.at.full_speed > 0)
        }

        fn receiving(input: &Input, state: &[Entry], link: usize) -> u64 {
            let jammed = state[link].vehicles >= input.node(link).jam.into();
            if jammed { 0 } else { Quick::receiving(input, state, link) }
        }
    }

    /// Refusal 9 left out at node N, as where traffic past link N is free.
    EndRoomUntested {
        fn check_record(input: &Input, record: &Record) -> Outcome {
            check_record::<DownstreamPassedOver>(input, record)
        }
    }

    NextQueueUntested {
        fn step_fault(number: u32, here: &Proposal) -> bool {
            let vehicles = here.at.vehicles + here.inflow;
            match number {
                11 => here.next_vehicles + here.flow != vehicles,
                _ => step_fault::<Quick>(number, here),
            }
        }
    }

    QueueLimitReachedRefused {
        fn step_fault(number: u32, here: &Proposal) -> bool {
            let reached = here.queue_limit > 0 && here.next_queue == here.queue_limit;
            step_fault::<Quick>(number, here) || (number == 12 && reached)
        }
    }

    /// State 0 is compared after all fixed zeros.
    StartComparedLast {
        fn check_record(input: &Input, record: &Record) -> Outcome {
            for k in 1..=input.size.steps {
                for i in 0..input.size.nodes() {
                    refuse_if(Quick::fixed_fault(input, record, k, i), 7, k, i)?;
                }
            }
            Quick::check_record(input, record)
        }
    }

    /// A wrong cost is refused before the steps are looked at. The sum is taken of any words.
    CostFirst {
        fn check_record(input: &Input, record: &Record) -> Outcome {
            check_fixed::<Quick>(input, record)?;
            check_cost::<Quick>(record)?;
            check_steps::<Quick>(input, record)
        }
    }

    CostHighWordUntested {
        fn check_record(input: &Input, record: &Record) -> Outcome {
            check_fixed::<Quick>(input, record)?;
            check_steps::<Quick>(input, record)?;
            refuse_if(record.cost as u32 != Quick::cost(record) as u32, 13, 0, 0)
        }
    }

    /// Long queues are refused in a last pass of their own.
    TwelveInALastPass {
        fn check_record(input: &Input, record: &Record) -> Outcome {
            check_fixed::<Quick>(input, record)?;
            check_in_order(input, record, &[8, 9, 10, 11])?;
            check_in_order(input, record, &[12])?;
            check_cost::<Quick>(record)
        }
    }

    /// The flows of all nodes of a step before the next state of any.
    FlowsOfAllNodesFirst {
        fn check_record(input: &Input, record: &Record) -> Outcome {
            check_fixed::<Quick>(input, record)?;
            for k in 0..input.size.steps {
                check_step(input, record, k, &[8, 9, 10])?;
                check_step(input, record, k, &[11, 12])?;
            }
            check_cost::<Quick>(record)
        }
    }

    /// The step into the last state is not looked at.
    LastStepUntested {
        fn check_record(input: &Input, record: &Record) -> Outcome {
            check_fixed::<Quick>(input, record)?;
            for k in 0..input.size.steps - 1 {
                check_step(input, record, k, &[8, 9, 10, 11, 12])?;
            }
            check_cost::<Quick>(record)
        }
    }
}

/// Whether a fault of the demands at a place is that of the word at the list's end.
fn by_word_alone(input: &Input, k: usize, i: usize) -> bool {
    i == input.size.links && (input.arrivals(k, i), input.split(k, i)) == (0, 0)
}

fn check_in_order(input: &Input, record: &Record, numbers: &[u32]) -> Outcome {
    (0..input.size.steps).try_for_each(|k| check_step(input, record, k, numbers))
}

fn check_step(input: &Input, record: &Record, k: usize, numbers: &[u32]) -> Outcome {
    for i in 0..input.size.nodes() {
        let here = Proposal::new::<Quick>(input, record, k, i);
        for &number in numbers {
            refuse_if(step_fault::<Quick>(number, &here), number, k, i)?;
        }
    }
    Ok(())
}
