//! Wrong searches for a rate: other rates, other tries, another end, another step or node, refusals
//! in another order or passed over, and other words for what a search came to.

use super::wrong;
use std::ops::RangeInclusive;
use tests::calls::WordCalls;
use tests::model::rules::flows;
use tests::model::search::{by_halving, place, OUT_WORDS};
use tests::model::{
    refusal, refuse_if, Input, Kind, List, NodeStep, Quick, Record, Refusal, Rules, Search, Size,
    WHOLE,
};

/// What a rate gives at full speed.
fn given(at: &NodeStep, rate: u64) -> (u64, u64) {
    flows::<Quick>(at, rate, at.full_speed)
}

/// The rates that a search of 0 to C tries, in turn.
fn tried(at: &NodeStep, wanted: (u64, u64)) -> Vec<u64> {
    tried_from(0, at, wanted)
}

/// The same where the rates left at first start with that one.
fn tried_from(least: u64, at: &NodeStep, wanted: (u64, u64)) -> Vec<u64> {
    let (mut low, mut high) = (least, at.ramp_capacity);
    let mut tried = vec![];
    while low < high {
        let middle = (low + high) / 2;
        tried.push(middle);
        match Quick::keeps_up_to(given(at, middle), wanted) {
            true => high = middle,
            false => low = middle + 1,
        }
    }
    tried.push(low);
    tried
}

/// A search that ends with the first try of which `ends` is so; the last is counted in any case.
fn ended_early(at: &NodeStep, wanted: (u64, u64), ends: impl Fn((u64, u64)) -> bool) -> Search {
    let tried = tried(at, wanted);
    let early = tried.iter().position(|&rate| ends(given(at, rate)));
    let tries = early.map_or(tried.len(), |place| place + 1) as u32;
    Search { tries, ..by_halving::<Quick>(at, wanted.0, wanted.1) }
}

/// The search with another number of tries, made of the number and of the rate if one was found.
fn with_tries(
    at: &NodeStep,
    (flow, ramp_flow): (u64, u64),
    other: impl Fn(u32, Option<u64>) -> u32,
) -> Search {
    let Search { tries, rate } = by_halving::<Quick>(at, flow, ramp_flow);
    Search { tries: other(tries, rate), rate }
}

/// The search where the rate left is found if `gives` is so of what it gives.
fn with_found(at: &NodeStep, wanted: (u64, u64), gives: impl Fn((u64, u64)) -> bool) -> Search {
    let tried = tried(at, wanted);
    let rate = tried.last().copied().filter(|&rate| gives(given(at, rate)));
    Search { tries: tried.len() as u32, rate }
}

/// The last of as many steps or nodes for the first beyond.
fn or_first_beyond(number: u32, count: usize) -> u32 {
    if number as usize == count {
        number - 1
    } else {
        number
    }
}

wrong! { variants: WordCalls;
    RatesFromOne {
        fn rates(at: &NodeStep) -> (u64, u64) {
            (at.ramp_capacity.min(1), at.ramp_capacity)
        }
    }

    /// Rates above the queue give what the queue gives, and are left out.
    RatesUpToOffer {
        fn rates(at: &NodeStep) -> (u64, u64) {
            (0, Quick::ramp_offer(at, at.ramp_capacity))
        }
    }

    RatesBelowCapacity {
        fn rates(at: &NodeStep) -> (u64, u64) {
            (0, at.ramp_capacity.saturating_sub(1))
        }
    }

    RatesUpToOneMore {
        fn rates(at: &NodeStep) -> (u64, u64) {
            (0, at.ramp_capacity + 1)
        }
    }

    /// However short the ramp is.
    RatesUpToWhole {
        fn rates(_: &NodeStep) -> (u64, u64) {
            (0, WHOLE)
        }
    }

    /// No rate below r lets r through.
    RatesFromRampFlow {
        fn try_rates(at: &NodeStep, flow: u64, ramp_flow: u64) -> Search {
            let tried = tried_from(ramp_flow, at, (flow, ramp_flow));
            with_tries(at, (flow, ramp_flow), |_, _| tried.len() as u32)
        }
    }

    /// But where two are left, of which the upper would be left for ever.
    MiddleRoundedUp {
        fn middle(low: u64, high: u64) -> u64 {
            if high - low > 1 { (low + high).div_ceil(2) } else { low }
        }
    }

    /// A quarter of the rates left in place of half of them.
    QuarterTried {
        fn middle(low: u64, high: u64) -> u64 {
            low + (high - low) / 4
        }
    }

    KeptOnMainlineAlone {
        fn keeps_up_to(tried: (u64, u64), wanted: (u64, u64)) -> bool {
            tried.0 <= wanted.0
        }
    }

    KeptOnRampAlone {
        fn keeps_up_to(tried: (u64, u64), wanted: (u64, u64)) -> bool {
            tried.1 >= wanted.1
        }
    }

    KeptOnEither {
        fn keeps_up_to(tried: (u64, u64), wanted: (u64, u64)) -> bool {
            tried.0 <= wanted.0 || tried.1 >= wanted.1
        }
    }

    KeptOnlyWithLessMainline {
        fn keeps_up_to(tried: (u64, u64), wanted: (u64, u64)) -> bool {
            tried.0 < wanted.0 && tried.1 >= wanted.1
        }
    }

    KeptOnlyWithMoreOfTheRamp {
        fn keeps_up_to(tried: (u64, u64), wanted: (u64, u64)) -> bool {
            tried.0 <= wanted.0 && tried.1 > wanted.1
        }
    }

    KeptOnlyWhereGiven {
        fn keeps_up_to(tried: (u64, u64), wanted: (u64, u64)) -> bool {
            tried == wanted
        }
    }

    OtherHalfKept {
        fn keeps_up_to(tried: (u64, u64), wanted: (u64, u64)) -> bool {
            !Quick::keeps_up_to(tried, wanted)
        }
    }

    LastNotCounted {
        fn try_rates(at: &NodeStep, flow: u64, ramp_flow: u64) -> Search {
            with_tries(at, (flow, ramp_flow), |tries, _| tries - 1)
        }
    }

    /// The one left is not tried again if it was tried before.
    EachRateCountedOnce {
        fn try_rates(at: &NodeStep, flow: u64, ramp_flow: u64) -> Search {
            let mut tried = tried(at, (flow, ramp_flow));
            tried.sort();
            tried.dedup();
            with_tries(at, (flow, ramp_flow), |_, _| tried.len() as u32)
        }
    }

    /// The one left is counted twice where it was not tried before.
    LastCountedTwiceIfNew {
        fn try_rates(at: &NodeStep, flow: u64, ramp_flow: u64) -> Search {
            let tried = tried(at, (flow, ramp_flow));
            let new = at.ramp_capacity > 0 && tried.last() == Some(&at.ramp_capacity);
            with_tries(at, (flow, ramp_flow), |tries, _| tries + u32::from(new))
        }
    }

    EndedWhereGiven {
        fn try_rates(at: &NodeStep, flow: u64, ramp_flow: u64) -> Search {
            ended_early(at, (flow, ramp_flow), |tried| tried == (flow, ramp_flow))
        }
    }

    /// Less of both than wanted: no lower rate lets more of the ramp through, no greater one more of
    /// the mainline.
    EndedWhereNoneCanBe {
        fn try_rates(at: &NodeStep, flow: u64, ramp_flow: u64) -> Search {
            ended_early(at, (flow, ramp_flow), |tried| tried.0 < flow && tried.1 < ramp_flow)
        }
    }

    /// C is tried before all, and where it has a fault nothing else.
    CapacityTriedFirst {
        fn try_rates(at: &NodeStep, flow: u64, ramp_flow: u64) -> Search {
            let most = given(at, at.ramp_capacity);
            let fault = !Quick::keeps_up_to(most, (flow, ramp_flow));
            with_tries(at, (flow, ramp_flow), |tries, _| if fault { 1 } else { tries + 1 })
        }
    }

    NoTriesWhereNone {
        fn try_rates(at: &NodeStep, flow: u64, ramp_flow: u64) -> Search {
            with_tries(at, (flow, ramp_flow), |tries, rate| tries * u32::from(rate.is_some()))
        }
    }

    NoTryWithoutARamp {
        fn try_rates(at: &NodeStep, flow: u64, ramp_flow: u64) -> Search {
            with_tries(at, (flow, ramp_flow), |tries, _| tries * u32::from(at.ramp_capacity > 0))
        }
    }

    TwoTriesAtLeast {
        fn try_rates(at: &NodeStep, flow: u64, ramp_flow: u64) -> Search {
            with_tries(at, (flow, ramp_flow), |tries, _| tries.max(2))
        }
    }

    SeventeenTriesAtMost {
        fn try_rates(at: &NodeStep, flow: u64, ramp_flow: u64) -> Search {
            with_tries(at, (flow, ramp_flow), |tries, _| tries.min(17))
        }
    }

    EighteenTriesAlways {
        fn try_rates(at: &NodeStep, flow: u64, ramp_flow: u64) -> Search {
            with_tries(at, (flow, ramp_flow), |_, _| 18)
        }
    }

    MostTriesAlways {
        fn try_rates(at: &NodeStep, flow: u64, ramp_flow: u64) -> Search {
            let rates = at.ramp_capacity + 1;
            with_tries(at, (flow, ramp_flow), |_, _| 1 + rates.next_power_of_two().ilog2())
        }
    }

    FewestTriesAlways {
        fn try_rates(at: &NodeStep, flow: u64, ramp_flow: u64) -> Search {
            with_tries(at, (flow, ramp_flow), |_, _| 1 + (at.ramp_capacity + 1).ilog2())
        }
    }

    /// As many as there are rates up to the one found, or in all.
    EveryRateTried {
        fn try_rates(at: &NodeStep, flow: u64, ramp_flow: u64) -> Search {
            with_tries(at, (flow, ramp_flow), |_, rate| {
                rate.unwrap_or(at.ramp_capacity) as u32 + 1
            })
        }
    }

    FoundWithoutFault {
        fn try_rates(at: &NodeStep, flow: u64, ramp_flow: u64) -> Search {
            let wanted = (flow, ramp_flow);
            with_found(at, wanted, |tried| Quick::keeps_up_to(tried, wanted))
        }
    }

    FoundOnMainlineAlone {
        fn try_rates(at: &NodeStep, flow: u64, ramp_flow: u64) -> Search {
            with_found(at, (flow, ramp_flow), |tried| tried.0 == flow)
        }
    }

    FoundOnRampAlone {
        fn try_rates(at: &NodeStep, flow: u64, ramp_flow: u64) -> Search {
            with_found(at, (flow, ramp_flow), |tried| tried.1 == ramp_flow)
        }
    }

    /// The one left is found whatever it gives.
    FoundAlways {
        fn try_rates(at: &NodeStep, flow: u64, ramp_flow: u64) -> Search {
            with_found(at, (flow, ramp_flow), |_| true)
        }
    }

    /// The greatest rate that gives the flows.
    GreatestRateFound {
        fn try_rates(at: &NodeStep, flow: u64, ramp_flow: u64) -> Search {
            let Search { tries, rate } = by_halving::<Quick>(at, flow, ramp_flow);
            let same = |rate: &u64| given(at, *rate) == (flow, ramp_flow);
            let rate = rate.and_then(|rate| (rate..=at.ramp_capacity).take_while(same).last());
            Search { tries, rate }
        }
    }

    /// The search passes the drop over; the checker does not.
    DropPassedOverBySearch {
        fn wanted(input: &Input, record: &Record, k: usize, i: usize) -> (NodeStep, u64, u64) {
            let (at, flow, ramp_flow) = Quick::wanted(input, record, k, i);
            (NodeStep { dropped_capacity: at.capacity, ..at }, flow, ramp_flow)
        }
    }

    /// Traffic past link N is free in the search; it is not to the checker.
    AnyFlowLeavesInSearch {
        fn wanted(input: &Input, record: &Record, k: usize, i: usize) -> (NodeStep, u64, u64) {
            let (at, flow, ramp_flow) = Quick::wanted(input, record, k, i);
            let supply = if i == input.size.links { WHOLE } else { at.supply };
            (NodeStep { supply, ..at }, flow, ramp_flow)
        }
    }

    /// The flows of the step after; state K has none.
    FlowsOfNextStep {
        fn wanted(input: &Input, record: &Record, k: usize, i: usize) -> (NodeStep, u64, u64) {
            let next = record.entry(k + 1, i);
            (Quick::wanted(input, record, k, i).0, next.flow, next.ramp_flow)
        }
    }

    /// The state that the step leads to.
    StateOfNextStep {
        fn wanted(input: &Input, record: &Record, k: usize, i: usize) -> (NodeStep, u64, u64) {
            let (_, flow, ramp_flow) = Quick::wanted(input, record, k, i);
            (NodeStep::new::<Quick>(input, record.state(k + 1), k, i), flow, ramp_flow)
        }
    }

    StateOfFirstStep {
        fn wanted(input: &Input, record: &Record, k: usize, i: usize) -> (NodeStep, u64, u64) {
            let (_, flow, ramp_flow) = Quick::wanted(input, record, k, i);
            (NodeStep::new::<Quick>(input, record.state(0), k, i), flow, ramp_flow)
        }
    }

    DemandsOfFirstStep {
        fn wanted(input: &Input, record: &Record, k: usize, i: usize) -> (NodeStep, u64, u64) {
            let (_, flow, ramp_flow) = Quick::wanted(input, record, k, i);
            (NodeStep::new::<Quick>(input, record.state(k), 0, i), flow, ramp_flow)
        }
    }

    /// Four words to a node, in a record of either kind, where the flows are looked for.
    FlowsReadByWidthFour {
        fn wanted(input: &Input, record: &Record, k: usize, i: usize) -> (NodeStep, u64, u64) {
            let (at, flow, ramp_flow) = Quick::wanted(input, record, k, i);
            if record.entry(k, i).exit.is_none() {
                return (at, flow, ramp_flow);
            }
            let place = Kind::Record.entry_place(input.size, k, i);
            let words = record.words(Kind::OffRamps);
            (at, words[place + 2].into(), words[place + 3].into())
        }
    }

    NodeBefore {
        fn wanted(input: &Input, record: &Record, k: usize, i: usize) -> (NodeStep, u64, u64) {
            Quick::wanted(input, record, k, i.saturating_sub(1))
        }
    }

    StepAndNodeExchanged {
        fn place(size: Size, step: u32, node: u32) -> Result<(usize, usize), Refusal> {
            place(size, node, step)
        }
    }

    /// The step behind the last is taken for the last.
    StepOfKTaken {
        fn place(size: Size, step: u32, node: u32) -> Result<(usize, usize), Refusal> {
            place(size, or_first_beyond(step, size.steps), node)
        }
    }

    /// The node behind node N is taken for node N.
    NodePastNTaken {
        fn place(size: Size, step: u32, node: u32) -> Result<(usize, usize), Refusal> {
            place(size, step, or_first_beyond(node, size.nodes()))
        }
    }

    /// The node behind node N is node 0 of the next step, as its words are.
    NodesCountedOn {
        fn place(size: Size, step: u32, node: u32) -> Result<(usize, usize), Refusal> {
            let place = step as usize * size.nodes() + node as usize;
            refuse_if(place >= size.steps * size.nodes(), 1, 0, 0)?;
            Ok((place / size.nodes(), place % size.nodes()))
        }
    }

    /// Node N has no ramp.
    NodeNRefused {
        fn place(size: Size, step: u32, node: u32) -> Result<(usize, usize), Refusal> {
            refuse_if(node as usize == size.links, 1, 0, 0)?;
            place(size, step, node)
        }
    }

    LastStepRefused {
        fn place(size: Size, step: u32, node: u32) -> Result<(usize, usize), Refusal> {
            refuse_if(step as usize + 1 == size.steps, 1, 0, 0)?;
            place(size, step, node)
        }
    }

    StepIn16Bits {
        fn place(size: Size, step: u32, node: u32) -> Result<(usize, usize), Refusal> {
            place(size, step % 65_536, node)
        }
    }

    StepIn31Bits {
        fn place(size: Size, step: u32, node: u32) -> Result<(usize, usize), Refusal> {
            place(size, step % (1 << 31), node)
        }
    }

    NodeIn8Bits {
        fn place(size: Size, step: u32, node: u32) -> Result<(usize, usize), Refusal> {
            place(size, step, node % 256)
        }
    }

    NodeIn16Bits {
        fn place(size: Size, step: u32, node: u32) -> Result<(usize, usize), Refusal> {
            place(size, step, node % 65_536)
        }
    }

    NodeIn31Bits {
        fn place(size: Size, step: u32, node: u32) -> Result<(usize, usize), Refusal> {
            place(size, step, node % (1 << 31))
        }
    }

    /// A bad step or node is named in the refusal.
    BadPlaceNamed {
        fn place(size: Size, step: u32, node: u32) -> Result<(usize, usize), Refusal> {
            let named = refusal(1, step as usize % 65_536, node as usize % 256);
            place(size, step, node).map_err(|_| named)
        }
    }
}

/// Corridor, demands and record.
type Lists<'a> = [&'a [u32]; 3];

/// What is wanted of a search at a good place, whatever the checker says of the record.
fn wanted_at(lists: Lists, (step, node): (u32, u32)) -> (NodeStep, u64, u64) {
    let input = Input::new(lists[0], lists[1]).expect("of right lengths");
    let record = Record::new(input.size, lists[2]).expect("of a right length");
    Quick::wanted(&input, &record, step as usize, node as usize)
}

fn longer_out_taken(lists: Lists, place: (u32, u32), out: &mut [u32]) -> u32 {
    let taken = out.len().min(OUT_WORDS);
    Quick.search(lists, place, &mut out[..taken])
}

/// As many words as there is room for.
fn shorter_out_taken(lists: Lists, place: (u32, u32), out: &mut [u32]) -> u32 {
    if out.len() >= OUT_WORDS {
        return Quick.search(lists, place, out);
    }
    let mut words = [0; OUT_WORDS];
    let answer = Quick.search(lists, place, &mut words);
    if answer == 0 {
        out.copy_from_slice(&words[..out.len()]);
    }
    answer
}

/// The search where the checker's refusals of those numbers, if `due`, come before any by 1.
fn after(
    numbers: RangeInclusive<u32>,
    due: bool,
    lists: Lists,
    place: (u32, u32),
    out: &mut [u32],
) -> u32 {
    let checked = Quick.check(lists[0], lists[1], lists[2]);
    match due && numbers.contains(&(checked % 256)) {
        true => checked,
        false => Quick.search(lists, place, out),
    }
}

fn place_tested_after_lists(lists: Lists, place: (u32, u32), out: &mut [u32]) -> u32 {
    after(2..=5, out.len() == OUT_WORDS, lists, place, out)
}

fn place_tested_last(lists: Lists, place: (u32, u32), out: &mut [u32]) -> u32 {
    after(2..=13, out.len() == OUT_WORDS, lists, place, out)
}

/// Whether there is such a step and such a node.
fn is_place(lists: Lists, (step, node): (u32, u32)) -> bool {
    Input::new(lists[0], lists[1]).is_ok_and(|input| place(input.size, step, node).is_ok())
}

fn out_tested_after_lists(lists: Lists, place: (u32, u32), out: &mut [u32]) -> u32 {
    after(2..=5, is_place(lists, place), lists, place, out)
}

fn out_tested_last(lists: Lists, place: (u32, u32), out: &mut [u32]) -> u32 {
    after(2..=13, is_place(lists, place), lists, place, out)
}

/// The search where refusals of which `passed` is so, by number, step and node, are passed over.
fn passing_over(
    passed: impl Fn(u32, u32, u32) -> bool,
    lists: Lists,
    place: (u32, u32),
    out: &mut [u32],
) -> u32 {
    let answer = Quick.search(lists, place, out);
    if !passed(answer % 256, answer / 65_536, answer / 256 % 256) {
        return answer;
    }
    let (at, flow, ramp_flow) = wanted_at(lists, place);
    out.copy_from_slice(&by_halving::<Quick>(&at, flow, ramp_flow).words());
    0
}

fn later_steps_untested(lists: Lists, place: (u32, u32), out: &mut [u32]) -> u32 {
    let passed = |number, k, _| (8..=12).contains(&number) && k > place.0;
    passing_over(passed, lists, place, out)
}

fn later_nodes_untested(lists: Lists, place: (u32, u32), out: &mut [u32]) -> u32 {
    let passed = |number, k, i| (8..=12).contains(&number) && k == place.0 && i > place.1;
    passing_over(passed, lists, place, out)
}

fn cost_untested(lists: Lists, place: (u32, u32), out: &mut [u32]) -> u32 {
    passing_over(|number, _, _| number == 13, lists, place, out)
}

/// The search where a list of its newest kind is one of a wrong length.
fn newest_refused(list: List, lists: Lists, place: (u32, u32), out: &mut [u32]) -> u32 {
    let newest = Input::new(lists[0], lists[1]).is_ok_and(|Input { size, .. }| {
        list.kind_of_length(size, lists[list as usize].len()) == Ok(list.kinds()[1])
    });
    if newest {
        1
    } else {
        Quick.search(lists, place, out)
    }
}

fn drop_refused(lists: Lists, place: (u32, u32), out: &mut [u32]) -> u32 {
    newest_refused(List::Corridor, lists, place, out)
}

fn downstream_refused(lists: Lists, place: (u32, u32), out: &mut [u32]) -> u32 {
    newest_refused(List::Demands, lists, place, out)
}

fn exits_refused(lists: Lists, place: (u32, u32), out: &mut [u32]) -> u32 {
    newest_refused(List::Record, lists, place, out)
}

/// The search with other words for what it came to.
fn reworded(other: impl Fn(&mut [u32]), lists: Lists, place: (u32, u32), out: &mut [u32]) -> u32 {
    let answer = Quick.search(lists, place, out);
    if answer == 0 {
        other(out);
    }
    answer
}

fn found_before_tries(lists: Lists, place: (u32, u32), out: &mut [u32]) -> u32 {
    reworded(|words| words.swap(0, 1), lists, place, out)
}

fn rate_before_found(lists: Lists, place: (u32, u32), out: &mut [u32]) -> u32 {
    reworded(|words| words.swap(1, 2), lists, place, out)
}

/// As the converter has it.
fn ramp_flow_where_none(lists: Lists, place: (u32, u32), out: &mut [u32]) -> u32 {
    let other = |words: &mut [u32]| {
        if words[1] == 0 {
            words[2] = wanted_at(lists, place).2 as u32;
        }
    };
    reworded(other, lists, place, out)
}

fn last_rate_where_none(lists: Lists, place: (u32, u32), out: &mut [u32]) -> u32 {
    let other = |words: &mut [u32]| {
        if words[1] == 0 {
            let (at, flow, ramp_flow) = wanted_at(lists, place);
            words[2] = *tried(&at, (flow, ramp_flow)).last().expect("one at least") as u32;
        }
    };
    reworded(other, lists, place, out)
}

fn rate_as_lent_where_none(lists: Lists, place: (u32, u32), out: &mut [u32]) -> u32 {
    let lent = out.to_vec();
    let other = |words: &mut [u32]| {
        if words[1] == 0 {
            words[2] = lent[2];
        }
    };
    reworded(other, lists, place, out)
}

/// A search; all other calls are the model's.
struct Searching<F>(F);

impl<F: Fn(Lists, (u32, u32), &mut [u32]) -> u32 + Sync> WordCalls for Searching<F> {
    fn simulate(&self, corridor: &[u32], demands: &[u32], plan: &[u32], record: &mut [u32]) -> u32 {
        Quick.simulate(corridor, demands, plan, record)
    }

    fn check(&self, corridor: &[u32], demands: &[u32], record: &[u32]) -> u32 {
        Quick.check(corridor, demands, record)
    }

    fn convert(&self, corridor: &[u32], demands: &[u32], record: &[u32], plan: &mut [u32]) -> u32 {
        Quick.convert(corridor, demands, record, plan)
    }

    fn normal(
        &self,
        corridor: &[u32],
        demands: &[u32],
        plan: &[u32],
        work: &mut [u32],
        normal: &mut [u32],
    ) -> u32 {
        Quick.normal(corridor, demands, plan, work, normal)
    }

    fn search(&self, lists: Lists, place: (u32, u32), out: &mut [u32]) -> u32 {
        self.0(lists, place, out)
    }
}

pub fn call_variants() -> Vec<(&'static str, &'static dyn WordCalls)> {
    vec![
        ("LongerOutTaken", &Searching(longer_out_taken)),
        ("ShorterOutTaken", &Searching(shorter_out_taken)),
        ("PlaceTestedAfterLists", &Searching(place_tested_after_lists)),
        ("PlaceTestedLast", &Searching(place_tested_last)),
        ("OutTestedAfterLists", &Searching(out_tested_after_lists)),
        ("OutTestedLast", &Searching(out_tested_last)),
        ("LaterStepsUntested", &Searching(later_steps_untested)),
        ("LaterNodesUntested", &Searching(later_nodes_untested)),
        ("CostUntested", &Searching(cost_untested)),
        ("DropRefusedBySearch", &Searching(drop_refused)),
        ("DownstreamRefusedBySearch", &Searching(downstream_refused)),
        ("ExitsRefusedBySearch", &Searching(exits_refused)),
        ("FoundBeforeTries", &Searching(found_before_tries)),
        ("RateBeforeFound", &Searching(rate_before_found)),
        ("RampFlowWhereNone", &Searching(ramp_flow_where_none)),
        ("LastRateWhereNone", &Searching(last_rate_where_none)),
        ("RateAsLentWhereNone", &Searching(rate_as_lent_where_none)),
    ]
}
