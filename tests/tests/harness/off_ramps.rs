//! Wrong off-ramp flows in the record: another flow, another split or another rounding, exits tested
//! elsewhere or not at all, and lists of kind 7 read and written as others.

use super::{length_but_of, wrong};
use std::ops::Range;
use tests::calls::WordCalls;
use tests::model::check::{
    check_cost, check_fixed, check_record, check_steps, exit_fault, exit_is_fixed, next_fault,
    step_fault, Proposal,
};
use tests::model::{
    refuse_if, Entry, Input, Kind, List, NodeStep, Outcome, Quick, Record, Refusal, Rules, Size,
    WHOLE,
};

/// The flow and the split that an exit is made of.
fn flow_and_split(input: &Input, record: &Record, k: usize, i: usize) -> (u64, u64) {
    (record.entry(k, i).flow, input.split(k, i))
}

/// The exit with that split in the place of its own.
fn with_split(record: &Record, k: usize, i: usize, split: u64) -> u64 {
    Quick::exit(record.entry(k, i).flow, split)
}

/// The first of refusals 8 to 12 where the exit is not among what 11 tests.
fn first_without_exit(here: &Proposal) -> Option<u32> {
    [8, 9, 10, 11, 12].into_iter().find(|&number| match number {
        11 => next_fault(here),
        _ => step_fault::<Quick>(number, here),
    })
}

/// The first of refusals 8 to 12 where the exit is tested just before that number.
fn exit_before(number: u32, here: &Proposal) -> Option<u32> {
    match first_without_exit(here) {
        Some(first) if first < number => Some(first),
        _ if exit_fault(here) => Some(11),
        later => later,
    }
}

/// Refuses the first wrong exit, by step and node.
fn test_exits(input: &Input, record: &Record) -> Outcome {
    for (k, i) in (0..input.size.steps).flat_map(|k| (0..input.size.nodes()).map(move |i| (k, i))) {
        let right = Quick::listed_exit(input, record, k, i);
        refuse_if(record.entry(k, i).exit.is_some_and(|exit| exit != right), 11, k, i)?;
    }
    Ok(())
}

/// The checker where only the exits of those steps and inner nodes are tested.
fn exits_tested_in(
    input: &Input,
    record: &Record,
    steps: Range<usize>,
    nodes: Range<usize>,
) -> Outcome {
    let mut record = record.clone();
    for k in 0..input.size.steps {
        for i in (1..input.size.links).filter(|i| !(steps.contains(&k) && nodes.contains(i))) {
            let right = Quick::listed_exit(input, &record, k, i);
            let entry = record.entry_mut(k, i);
            entry.exit = entry.exit.map(|_| right);
        }
    }
    Quick::check_record(input, &record)
}

/// The checker where a wrong exit is named so many states and nodes on.
fn exit_named_on(input: &Input, record: &Record, (states, nodes): (u32, u32)) -> Outcome {
    match Quick::check_record(input, record) {
        Err(Refusal { number: 11, row, node })
            if exit_fault(&Proposal::new::<Quick>(input, record, row as usize, node as usize)) =>
        {
            Err(Refusal { number: 11, row: row + states, node: node + nodes })
        }
        outcome => outcome,
    }
}

/// A list of kind 7 with the exits before the ramp flows.
fn exchanged(kind: Kind, size: Size, words: &[u32]) -> Vec<u32> {
    let mut words = words.to_vec();
    if kind == Kind::OffRamps {
        let states = &mut words[..kind.cost_place(size)];
        states.chunks_exact_mut(kind.entry_words()).for_each(|entry| entry.swap(3, 4));
    }
    words
}

wrong! { variants: WordCalls;
    ExitRoundedUp {
        fn listed_exit(input: &Input, record: &Record, k: usize, i: usize) -> u64 {
            let (flow, split) = flow_and_split(input, record, k, i);
            (flow * split).div_ceil(WHOLE)
        }
    }

    ExitRoundedToTheNearest {
        fn listed_exit(input: &Input, record: &Record, k: usize, i: usize) -> u64 {
            let (flow, split) = flow_and_split(input, record, k, i);
            (flow * split + WHOLE / 2) / WHOLE
        }
    }

    /// Through part and exit change places.
    ExitIsThroughPart {
        fn listed_exit(input: &Input, record: &Record, k: usize, i: usize) -> u64 {
            let (flow, split) = flow_and_split(input, record, k, i);
            Quick::through(flow, split) * u64::from(split > 0)
        }
    }

    ExitIn32Bits {
        fn listed_exit(input: &Input, record: &Record, k: usize, i: usize) -> u64 {
            let (flow, split) = flow_and_split(input, record, k, i);
            u64::from((flow as u32).wrapping_mul(split as u32)) / WHOLE
        }
    }

    ExitOfRampFlow {
        fn listed_exit(input: &Input, record: &Record, k: usize, i: usize) -> u64 {
            Quick::exit(record.entry(k, i).ramp_flow, input.split(k, i))
        }
    }

    /// Who enters at a node leaves there too.
    ExitOfBothFlows {
        fn listed_exit(input: &Input, record: &Record, k: usize, i: usize) -> u64 {
            let Entry { flow, ramp_flow, .. } = record.entry(k, i);
            Quick::exit(flow + ramp_flow, input.split(k, i))
        }
    }

    /// Of what the ramp could offer.
    ExitOfRampOffer {
        fn listed_exit(input: &Input, record: &Record, k: usize, i: usize) -> u64 {
            let at = NodeStep::new::<Quick>(input, record.state(k), k, i);
            Quick::exit(Quick::ramp_offer(&at, at.ramp_capacity), at.split)
        }
    }

    /// Of what the link could send at full speed, before the merge.
    ExitOfSending {
        fn listed_exit(input: &Input, record: &Record, k: usize, i: usize) -> u64 {
            let at = NodeStep::new::<Quick>(input, record.state(k), k, i);
            Quick::exit(Quick::sending(&at, at.full_speed), at.split)
        }
    }

    ExitOfVehicles {
        fn listed_exit(input: &Input, record: &Record, k: usize, i: usize) -> u64 {
            Quick::exit(record.entry(k, i).vehicles, input.split(k, i))
        }
    }

    /// Of the flow of the link before.
    ExitOfFlowBefore {
        fn listed_exit(input: &Input, record: &Record, k: usize, i: usize) -> u64 {
            Quick::exit(record.entry(k, i.saturating_sub(1)).flow, input.split(k, i))
        }
    }

    /// Of the flow of the next link.
    ExitOfFlowBehind {
        fn listed_exit(input: &Input, record: &Record, k: usize, i: usize) -> u64 {
            Quick::exit(record.entry(k, (i + 1).min(input.size.links)).flow, input.split(k, i))
        }
    }

    /// By the split of the next node, but where that is node N.
    ExitBySplitOfNextNode {
        fn listed_exit(input: &Input, record: &Record, k: usize, i: usize) -> u64 {
            let last_inner = (input.size.links - 1).max(i);
            with_split(record, k, i, input.split(k, (i + 1).min(last_inner)))
        }
    }

    /// By the split of the node before, but at node N.
    ExitBySplitOfNodeBefore {
        fn listed_exit(input: &Input, record: &Record, k: usize, i: usize) -> u64 {
            let before = if i == input.size.links { i } else { i.saturating_sub(1) };
            with_split(record, k, i, input.split(k, before))
        }
    }

    /// By the split of the step after; the last has its own.
    ExitBySplitOfNextStep {
        fn listed_exit(input: &Input, record: &Record, k: usize, i: usize) -> u64 {
            with_split(record, k, i, input.split((k + 1).min(input.size.steps - 1), i))
        }
    }

    /// By the split of the step before; the first has its own.
    ExitBySplitOfStepBefore {
        fn listed_exit(input: &Input, record: &Record, k: usize, i: usize) -> u64 {
            with_split(record, k, i, input.split(k.saturating_sub(1), i))
        }
    }

    ExitBySplitOfFirstStep {
        fn listed_exit(input: &Input, record: &Record, k: usize, i: usize) -> u64 {
            with_split(record, k, i, input.split(0, i))
        }
    }

    /// The exits of the first step in every step.
    ExitsCopiedFromStepBefore {
        fn listed_exit(input: &Input, record: &Record, k: usize, i: usize) -> u64 {
            match k {
                0 => Quick::listed_exit(input, record, k, i),
                _ => record.entry(k - 1, i).exit.unwrap_or(0),
            }
        }
    }

    ExitsAllZero {
        fn listed_exit(_: &Input, _: &Record, _: usize, _: usize) -> u64 {
            0
        }
    }

    /// The last step is taken for state K.
    ExitsOfLastStepZero {
        fn listed_exit(input: &Input, record: &Record, k: usize, i: usize) -> u64 {
            let last = k + 1 == input.size.steps;
            if last { 0 } else { Quick::listed_exit(input, record, k, i) }
        }
    }

    /// The last inner node is taken for node N.
    ExitsBeforeTheEndZero {
        fn listed_exit(input: &Input, record: &Record, k: usize, i: usize) -> u64 {
            let last = i + 1 == input.size.links;
            if last { 0 } else { Quick::listed_exit(input, record, k, i) }
        }
    }

    ExitRoundedUpBySimulator {
        fn listed_exit(input: &Input, record: &Record, k: usize, i: usize) -> u64 {
            ExitRoundedUp::listed_exit(input, record, k, i)
        }

        fn check_record(input: &Input, record: &Record) -> Outcome {
            Quick::check_record(input, record)
        }
    }

    ExitRoundedUpByChecker {
        fn check_record(input: &Input, record: &Record) -> Outcome {
            check_record::<ExitRoundedUp>(input, record)
        }
    }

    ExitUntested {
        fn exit_fault(_: &Proposal) -> bool {
            false
        }
    }

    ExitTestedWhereSplitOnly {
        fn exit_fault(here: &Proposal) -> bool {
            here.at.split > 0 && exit_fault(here)
        }
    }

    ExitTestedWhereFlowOnly {
        fn exit_fault(here: &Proposal) -> bool {
            here.flow > 0 && exit_fault(here)
        }
    }

    ExitTestedWhereNotZeroOnly {
        fn exit_fault(here: &Proposal) -> bool {
            here.exit != Some(0) && exit_fault(here)
        }
    }

    LesserExitTaken {
        fn exit_fault(here: &Proposal) -> bool {
            here.exit.is_some_and(|exit| exit > here.right_exit)
        }
    }

    GreaterExitTaken {
        fn exit_fault(here: &Proposal) -> bool {
            here.exit.is_some_and(|exit| exit < here.right_exit)
        }
    }

    /// An exit rounded up is as good as one rounded down.
    OneMoreWithARestTaken {
        fn exit_fault(here: &Proposal) -> bool {
            let rest = here.flow * here.at.split % WHOLE > 0;
            exit_fault(here) && !(rest && here.exit == Some(here.right_exit + 1))
        }
    }

    /// Exits of which the low 16 bits are right.
    ExitIn16Bits {
        fn exit_fault(here: &Proposal) -> bool {
            let low = |exit: u64| exit % WHOLE;
            here.exit.is_some_and(|exit| low(exit) != low(here.right_exit))
        }
    }

    ExitTestedBeforeEight {
        fn first_fault(here: &Proposal) -> Option<u32> {
            exit_before(8, here)
        }
    }

    ExitTestedBeforeNine {
        fn first_fault(here: &Proposal) -> Option<u32> {
            exit_before(9, here)
        }
    }

    ExitTestedBeforeTen {
        fn first_fault(here: &Proposal) -> Option<u32> {
            exit_before(10, here)
        }
    }

    ExitTestedAfterTwelve {
        fn first_fault(here: &Proposal) -> Option<u32> {
            exit_before(13, here)
        }
    }

    ExitRefusedByTen {
        fn first_fault(here: &Proposal) -> Option<u32> {
            let number = Quick::first_fault(here)?;
            Some(if number == 11 && exit_fault(here) { 10 } else { number })
        }
    }

    /// The wrong exit is named at the next state, as a fixed zero is.
    ExitNamedAtNextState {
        fn check_record(input: &Input, record: &Record) -> Outcome {
            exit_named_on(input, record, (1, 0))
        }
    }

    /// The wrong exit is named at the node that the rest flows to.
    ExitNamedAtNextNode {
        fn check_record(input: &Input, record: &Record) -> Outcome {
            exit_named_on(input, record, (0, 1))
        }
    }

    /// All exits before 8 of any step.
    ExitsTestedFirst {
        fn check_record(input: &Input, record: &Record) -> Outcome {
            check_fixed::<Quick>(input, record)?;
            test_exits(input, record)?;
            Quick::check_record(input, record)
        }
    }

    /// All exits after 12 of all steps.
    ExitsTestedAfterSteps {
        fn check_record(input: &Input, record: &Record) -> Outcome {
            check_fixed::<Quick>(input, record)?;
            check_steps::<ExitUntested>(input, record)?;
            test_exits(input, record)?;
            check_cost::<Quick>(record)
        }
    }

    ExitsTestedAfterCost {
        fn check_record(input: &Input, record: &Record) -> Outcome {
            check_record::<ExitUntested>(input, record)?;
            test_exits(input, record)
        }
    }

    ExitsOfFirstStepTestedOnly {
        fn check_record(input: &Input, record: &Record) -> Outcome {
            exits_tested_in(input, record, 0..1, 0..input.size.links)
        }
    }

    ExitsOfFirstStepUntested {
        fn check_record(input: &Input, record: &Record) -> Outcome {
            exits_tested_in(input, record, 1..input.size.steps, 0..input.size.links)
        }
    }

    ExitsOfLastStepUntested {
        fn check_record(input: &Input, record: &Record) -> Outcome {
            exits_tested_in(input, record, 0..input.size.steps - 1, 0..input.size.links)
        }
    }

    /// The last inner node is not looked at.
    ExitsBeforeTheEndUntested {
        fn check_record(input: &Input, record: &Record) -> Outcome {
            exits_tested_in(input, record, 0..input.size.steps, 0..input.size.links - 1)
        }
    }

    FixedExitsUntested {
        fn exit_is_fixed(_: Size, _: usize, _: usize) -> bool {
            false
        }
    }

    EntryExitFree {
        fn exit_is_fixed(size: Size, k: usize, i: usize) -> bool {
            exit_is_fixed(size, k, i) && (i > 0 || k == size.steps)
        }
    }

    EndExitFree {
        fn exit_is_fixed(size: Size, k: usize, i: usize) -> bool {
            exit_is_fixed(size, k, i) && (i < size.links || k == size.steps)
        }
    }

    LastStateExitsFree {
        fn exit_is_fixed(size: Size, _: usize, i: usize) -> bool {
            i == 0 || i == size.links
        }
    }

    LastStateExitsOfInnerNodesOnly {
        fn exit_is_fixed(size: Size, k: usize, i: usize) -> bool {
            let inner = i > 0 && i < size.links;
            if k == size.steps { inner } else { exit_is_fixed(size, k, i) }
        }
    }

    /// The exits of the last step are fixed as well.
    LastStepExitsFixed {
        fn exit_is_fixed(size: Size, k: usize, i: usize) -> bool {
            exit_is_fixed(size, k, i) || k + 1 == size.steps
        }
    }

    /// Fixed exits after all other fixed words.
    FixedExitsAfterOtherFixedWords {
        fn check_record(input: &Input, record: &Record) -> Outcome {
            check_fixed::<FixedExitsUntested>(input, record)?;
            Quick::check_record(input, record)
        }
    }

    /// Fixed exits after all steps: 11 where a step's rules meet one first.
    FixedExitsAfterSteps {
        fn check_record(input: &Input, record: &Record) -> Outcome {
            check_fixed::<FixedExitsUntested>(input, record)?;
            check_steps::<Quick>(input, record)?;
            Quick::check_record(input, record)
        }
    }

    FixedExitsRefusedByEleven {
        fn check_record(input: &Input, record: &Record) -> Outcome {
            match Quick::check_record(input, record) {
                Err(Refusal { number: 7, row, node })
                    if check_fixed::<FixedExitsUntested>(input, record).is_ok() =>
                {
                    Err(Refusal { number: 11, row, node })
                }
                outcome => outcome,
            }
        }
    }

    CostWithExits {
        fn cost(record: &Record) -> u64 {
            let exits = record.entries[record.size.nodes()..].iter();
            Quick::cost(record) + exits.map(|entry| entry.exit.unwrap_or(0)).sum::<u64>()
        }
    }

    /// The cost is looked for behind four words for each node, in either kind.
    CostReadByWidthFour {
        fn record_of_words(kind: Kind, size: Size, words: &[u32]) -> Record {
            let place = Kind::Record.cost_place(size);
            let cost = u64::from(words[place]) + (u64::from(words[place + 1]) << 32);
            Record { cost, ..Record::from_words(kind, size, words) }
        }
    }

    /// A record of kind 7's length is one of a wrong length.
    SevenRefused {
        fn kind_of_length(list: List, size: Size, words: usize) -> Result<Kind, Refusal> {
            length_but_of(Kind::OffRamps, list, size, words)
        }
    }

    /// Records of kind 7 only.
    SevenAskedFor {
        fn kind_of_length(list: List, size: Size, words: usize) -> Result<Kind, Refusal> {
            length_but_of(Kind::Record, list, size, words)
        }
    }

    /// Four words to a node in a list of either length.
    SevenReadAsThree {
        fn kind_of_length(list: List, size: Size, words: usize) -> Result<Kind, Refusal> {
            let kind = list.kind_of_length(size, words)?;
            Ok(if kind == Kind::OffRamps { Kind::Record } else { kind })
        }
    }

    /// Any length from kind 3's on is taken, and what is beyond it not looked at.
    LongerRecordTaken {
        fn kind_of_length(list: List, size: Size, words: usize) -> Result<Kind, Refusal> {
            match list == List::Record && words > Kind::Record.words(size) {
                true => Ok(Kind::Record),
                false => list.kind_of_length(size, words),
            }
        }
    }

    /// Kind 7 one word longer than it is.
    SevenOneWordLonger {
        fn kind_of_length(list: List, size: Size, words: usize) -> Result<Kind, Refusal> {
            match list == List::Record && words == Kind::OffRamps.words(size) + 1 {
                true => Ok(Kind::OffRamps),
                false => list.kind_of_length(size, words),
            }
        }
    }

    /// n, l, f, the exit, r.
    ExitBeforeRampFlow {
        fn record_of_words(kind: Kind, size: Size, words: &[u32]) -> Record {
            Record::from_words(kind, size, &exchanged(kind, size, words))
        }

        fn write_record(record: &Record, kind: Kind, words: &mut [u32]) {
            record.write(kind, words);
            words.copy_from_slice(&exchanged(kind, record.size, words));
        }
    }

    /// The exits of all nodes and states behind n, l, f and r of all.
    ExitsBehindAllStates {
        fn record_of_words(kind: Kind, size: Size, words: &[u32]) -> Record {
            let mut record = Record::from_words(kind, size, words);
            if kind == Kind::OffRamps {
                let (entries, exits) = words.split_at(Kind::Record.cost_place(size));
                let entries = entries.chunks_exact(4).zip(exits);
                let entries = entries.map(|(entry, &exit)| [entry, &[exit]].concat());
                record.entries = entries.map(|entry| Entry::from_words(&entry)).collect();
            }
            record
        }

        fn write_record(record: &Record, kind: Kind, words: &mut [u32]) {
            record.write(kind, words);
            if kind == Kind::OffRamps {
                let mut behind = record.words(Kind::Record);
                let cost = behind.split_off(Kind::Record.cost_place(record.size));
                behind.extend(record.entries.iter().map(|entry| entry.words()[4]));
                words.copy_from_slice(&[behind, cost].concat());
            }
        }
    }
}

/// What a variant of the calls does wrong; everything else is the model's.
#[derive(Clone, Copy)]
enum Wrong {
    Simulated(Spoiled),
    Worked(Spoiled),
    FormOfSevenUnchanged,
    FormOfSevenHeld,
    WorkOfSevenRefused,
    WorkOfThreeRefused,
    WorkOfSevenLeftAloneOnTwelve,
    CheckerPassesExitsOver,
    ConverterPassesExitsOver,
}

/// How a lent record of kind 7 is filled wrongly.
#[derive(Clone, Copy)]
enum Spoiled {
    /// n, l, f and r are written, and the exits left as lent.
    ExitsLeftAsLent,
    LastStateLeftAsLent,
    /// The last step's exits in state K too.
    ExitsKept,
    /// What leaves link N among the exits.
    FlowOutOfLinkNListed,
    /// As one of kind 3, and the rest left as lent.
    FilledAsThree,
    /// The cost behind four words for each node.
    CostByWidthFour,
    CostLeftAsLent,
}

use Spoiled::*;
use Wrong::*;

/// A record that the model has filled, made wrong if it is of kind 7.
fn spoil(spoiled: Spoiled, size: Size, lent: &[u32], words: &mut [u32]) {
    let kind = Kind::OffRamps;
    if words.len() != kind.words(size) {
        return;
    }
    let (steps, links) = (size.steps, size.links);
    let exit = |k: usize, i: usize| kind.entry_place(size, k, i) + 4;
    let record = Record::from_words(kind, size, words);
    let end = kind.cost_place(size);
    match spoiled {
        ExitsLeftAsLent => (4..end).step_by(5).for_each(|place| words[place] = lent[place]),
        LastStateLeftAsLent => {
            (0..=links).for_each(|i| words[exit(steps, i)] = lent[exit(steps, i)]);
        }
        ExitsKept => (0..=links).for_each(|i| words[exit(steps, i)] = words[exit(steps - 1, i)]),
        FlowOutOfLinkNListed => {
            (0..steps).for_each(|k| words[exit(k, links)] = record.entry(k, links).flow as u32);
        }
        FilledAsThree => {
            words.copy_from_slice(lent);
            record.write(Kind::Record, words);
        }
        CostByWidthFour => words.copy_within(end.., Kind::Record.cost_place(size)),
        CostLeftAsLent => words[end..].copy_from_slice(&lent[end..]),
    }
}

/// The size of an accepted call and the kind of its record, given or lent.
fn form(corridor: &[u32], demands: &[u32], record: &[u32]) -> Option<(Size, Kind)> {
    let size = Input::new(corridor, demands).ok()?.size;
    Some((size, List::Record.kind_of_length(size, record.len()).ok()?))
}

/// A record of kind 7 as one of kind 3.
fn passed_over(corridor: &[u32], demands: &[u32], record: &[u32]) -> Vec<u32> {
    form(corridor, demands, record).map_or(record.to_vec(), |(size, kind)| {
        Record::from_words(kind, size, record).words(Kind::Record)
    })
}

impl WordCalls for Wrong {
    fn simulate(&self, corridor: &[u32], demands: &[u32], plan: &[u32], record: &mut [u32]) -> u32 {
        let lent = record.to_vec();
        let answer = Quick.simulate(corridor, demands, plan, record);
        if let (Simulated(spoiled), 0, Some((size, _))) =
            (self, answer, form(corridor, demands, record))
        {
            spoil(*spoiled, size, &lent, record);
        }
        answer
    }

    fn check(&self, corridor: &[u32], demands: &[u32], record: &[u32]) -> u32 {
        match self {
            CheckerPassesExitsOver => {
                Quick.check(corridor, demands, &passed_over(corridor, demands, record))
            }
            _ => Quick.check(corridor, demands, record),
        }
    }

    fn convert(&self, corridor: &[u32], demands: &[u32], record: &[u32], plan: &mut [u32]) -> u32 {
        match self {
            ConverterPassesExitsOver => {
                Quick.convert(corridor, demands, &passed_over(corridor, demands, record), plan)
            }
            _ => Quick.convert(corridor, demands, record, plan),
        }
    }

    fn normal(
        &self,
        corridor: &[u32],
        demands: &[u32],
        plan: &[u32],
        work: &mut [u32],
        normal: &mut [u32],
    ) -> u32 {
        let (lent, lent_normal) = (work.to_vec(), normal.to_vec());
        let answer = Quick.normal(corridor, demands, plan, work, normal);
        let filled = [0, 12].contains(&(answer % 256));
        let Some((size, kind)) = form(corridor, demands, work).filter(|_| filled) else {
            return answer;
        };
        let refused = match self {
            WorkOfSevenRefused => kind == Kind::OffRamps,
            WorkOfThreeRefused => kind == Kind::Record,
            _ => false,
        };
        if refused {
            work.copy_from_slice(&lent);
            normal.copy_from_slice(&lent_normal);
            return 1;
        }
        match (self, kind) {
            (Worked(spoiled), _) => spoil(*spoiled, size, &lent, work),
            (FormOfSevenUnchanged, Kind::OffRamps) if answer == 0 => normal.copy_from_slice(plan),
            (FormOfSevenHeld, Kind::OffRamps) if answer == 0 => {
                let settings = normal.chunks_exact_mut(2).zip(plan.chunks_exact(2));
                settings.for_each(|(setting, given)| setting[1] = given[1]);
            }
            (WorkOfSevenLeftAloneOnTwelve, Kind::OffRamps) if answer != 0 => {
                work.copy_from_slice(&lent);
            }
            _ => {}
        }
        answer
    }

    fn search(&self, lists: [&[u32]; 3], place: (u32, u32), out: &mut [u32]) -> u32 {
        Quick.search(lists, place, out)
    }
}

pub fn call_variants() -> Vec<(&'static str, &'static dyn WordCalls)> {
    vec![
        ("ExitsLeftAsLent by the simulator", &Simulated(ExitsLeftAsLent)),
        ("ExitsLeftAsLent in the work record", &Worked(ExitsLeftAsLent)),
        ("LastStateLeftAsLent by the simulator", &Simulated(LastStateLeftAsLent)),
        ("LastStateLeftAsLent in the work record", &Worked(LastStateLeftAsLent)),
        ("ExitsKept by the simulator", &Simulated(ExitsKept)),
        ("ExitsKept in the work record", &Worked(ExitsKept)),
        ("FlowOutOfLinkNListed by the simulator", &Simulated(FlowOutOfLinkNListed)),
        ("FlowOutOfLinkNListed in the work record", &Worked(FlowOutOfLinkNListed)),
        ("FilledAsThree by the simulator", &Simulated(FilledAsThree)),
        ("FilledAsThree in the work record", &Worked(FilledAsThree)),
        ("CostByWidthFour by the simulator", &Simulated(CostByWidthFour)),
        ("CostByWidthFour in the work record", &Worked(CostByWidthFour)),
        ("CostLeftAsLent by the simulator", &Simulated(CostLeftAsLent)),
        ("CostLeftAsLent in the work record", &Worked(CostLeftAsLent)),
        ("FormOfSevenUnchanged", &FormOfSevenUnchanged),
        ("FormOfSevenHeld", &FormOfSevenHeld),
        ("WorkOfSevenRefused", &WorkOfSevenRefused),
        ("WorkOfThreeRefused", &WorkOfThreeRefused),
        ("WorkOfSevenLeftAloneOnTwelve", &WorkOfSevenLeftAloneOnTwelve),
        ("CheckerPassesExitsOver", &CheckerPassesExitsOver),
        ("ConverterPassesExitsOver", &ConverterPassesExitsOver),
    ]
}
