//! Shows that demand 3 and the properties bite: each fails for wrong variants that contradict it.

use super::{capacity_drop, files, off_ramps, outputs, program, records, search, steps, wrong};
use std::any::Any;
use std::panic::{catch_unwind, AssertUnwindSafe};
use tests::calls::{FileCalls, Program, WordCalls};
use tests::capacity_drop::*;
use tests::completed::*;
use tests::demand_three::assert_demand_three;
use tests::downstream::*;
use tests::model::{List, NodeStep, Quick};
use tests::off_ramps::*;
use tests::properties::*;
use tests::search::*;

wrong! { rate_variants: WordCalls;
    /// Rates 0 and 1 change places, 2 and 3, and so on.
    RatesInPairsSwapped {
        fn ramp_offer(at: &NodeStep, rate: u64) -> u64 {
            Quick::ramp_offer(at, rate ^ 1)
        }
    }
}

/// What a property is asked of, and the names of variants for which it fails.
type Broken<C> = (fn(&C), &'static [&'static str]);

const OF_WORDS: [Broken<dyn WordCalls>; 23] = [
    (
        |calls| assert_vehicles_are_conserved(calls),
        &["ThroughRoundedDown", "EverythingThrough", "AnyFlowLeaves"],
    ),
    (
        |calls| assert_cost_is_the_sum_over_later_states(calls),
        &["CostIn32Bits", "CostWithStateZero"],
    ),
    (
        |calls| assert_merge_is_close_and_fits(calls),
        &["RampTakesTheRest", "MainlineFirst", "PartRoundedFirst", "AnyFlowLeaves"],
    ),
    (|calls| assert_flows_are_monotone_in_the_rate(calls), &["RatesInPairsSwapped"]),
    (
        |calls| assert_held_limit_is_the_smallest(calls),
        &["HeldLimitRoundedDown", "HeldAtLargestLimit"],
    ),
    (
        |calls| assert_flow_out_of_link_n_is_exact(calls),
        &["AnyFlowLeaves", "FirstWordForEveryStep", "OneLessLeaves", "PartRoundedFirst"],
    ),
    (
        |calls| assert_link_n_keeps_to_its_words(calls),
        &["EndRoomUntested", "CutFlowHeld", "FullEverywhere"],
    ),
    (
        |calls| assert_completed_lists_are_the_same(calls, List::Demands),
        &[
            "KindTwoCountsAsOneLess",
            "DownstreamRefused",
            "DownstreamBelowWhole",
            "DownstreamRefusedBySearch",
        ],
    ),
    (
        |calls| assert_completed_lists_are_the_same(calls, List::Corridor),
        &[
            "DropRefused",
            "TenReadAsOne",
            "DroppedCapacityBelowCapacity",
            "DropDensityBelowJam",
            "NoneCountsAsZeros",
            "DropRefusedBySearch",
        ],
    ),
    (
        |calls| assert_completed_lists_are_the_same(calls, List::Record),
        &[
            "SevenRefused",
            "SevenAskedFor",
            "ExitRoundedUpByChecker",
            "LastStepExitsFixed",
            "CostReadByWidthFour",
            "CostLeftAsLent by the simulator",
            "CostLeftAsLent in the work record",
            "FormOfSevenUnchanged",
            "WorkOfSevenRefused",
            "WorkOfSevenLeftAloneOnTwelve",
            "ExitsRefusedBySearch",
        ],
    ),
    (
        |calls| assert_exits_are_what_does_not_go_through(calls),
        &[
            "ExitRoundedUp",
            "ExitIsThroughPart",
            "ExitIn32Bits",
            "ExitOfRampFlow",
            "ExitOfSending",
            "ExitBySplitOfNextNode",
            "ExitBySplitOfNextStep",
            "ExitBySplitOfStepBefore",
            "ExitsCopiedFromStepBefore",
            "ExitsKept by the simulator",
            "FlowOutOfLinkNListed by the simulator",
            "ExitsLeftAsLent by the simulator",
            "ThroughRoundedDown",
        ],
    ),
    (
        |calls| assert_record_accounts_for_all_vehicles(calls),
        &[
            "ExitRoundedUp",
            "ExitOfSending",
            "ExitsAllZero",
            "FlowOutOfLinkNListed by the simulator",
            "ThroughRoundedDown",
        ],
    ),
    (
        |calls| assert_every_exit_is_tested(calls),
        &[
            "ExitUntested",
            "ExitTestedWhereSplitOnly",
            "ExitTestedWhereFlowOnly",
            "ExitTestedWhereNotZeroOnly",
            "LesserExitTaken",
            "GreaterExitTaken",
            "OneMoreWithARestTaken",
            "ExitIn16Bits",
            "ExitNamedAtNextNode",
            "ExitsOfLastStepUntested",
            "ExitsBeforeTheEndUntested",
            "EntryExitFree",
            "EndExitFree",
            "LastStateExitsFree",
            "LastStateExitsOfInnerNodesOnly",
            "FixedExitsAfterSteps",
            "CheckerPassesExitsOver",
            "ConverterPassesExitsOver",
        ],
    ),
    (
        |calls| assert_drop_sets_what_a_link_sends(calls),
        &["DropAtItsDensity", "DropPassedOver", "DropInReceivingToo", "OfNextNode", "Exchanged"],
    ),
    (|calls| assert_link_keeps_receiving(calls), &["DropInReceivingToo"]),
    (
        |calls| assert_sending_is_monotone_in_the_limit(calls),
        &["DropOnlyAtFullSpeed", "DropOnlyWhereCapacityBinds", "DropAtItsDensity"],
    ),
    (
        |calls| assert_links_come_before_the_kind(calls),
        &["LengthBeforeLinks", "NewestLengthBeforeLinks", "LongerCorridorTaken"],
    ),
    (
        |calls| assert_search_goes_with_the_converter(calls),
        &[
            "LastRateWhereNone",
            "RampFlowWhereNone",
            "RateAsLentWhereNone",
            "FoundBeforeTries",
            "NodeNRefused",
            "LastStepRefused",
            "NoTriesWhereNone",
            "EighteenTriesAlways",
            "RatesUpToWhole",
            "LaterStepsUntested",
            "LaterNodesUntested",
            "CostUntested",
            "WritesOnRefusal",
            "DropRefusedBySearch",
        ],
    ),
    (
        |calls| assert_search_leaves_the_first_without_fault(calls),
        &[
            "RatesFromOne",
            "RatesUpToOffer",
            "RatesBelowCapacity",
            "RatesUpToOneMore",
            "RatesFromRampFlow",
            "MiddleRoundedUp",
            "QuarterTried",
            "KeptOnMainlineAlone",
            "KeptOnRampAlone",
            "KeptOnEither",
            "KeptOnlyWithLessMainline",
            "KeptOnlyWithMoreOfTheRamp",
            "KeptOnlyWhereGiven",
            "OtherHalfKept",
            "LastNotCounted",
            "EachRateCountedOnce",
            "LastCountedTwiceIfNew",
            "EndedWhereGiven",
            "EndedWhereNoneCanBe",
            "CapacityTriedFirst",
            "NoTriesWhereNone",
            "MostTriesAlways",
            "FewestTriesAlways",
            "EveryRateTried",
            "FoundWithoutFault",
            "FoundOnMainlineAlone",
            "FoundOnRampAlone",
            "GreatestRateFound",
        ],
    ),
    (
        |calls| assert_rate_found_is_the_smallest(calls),
        &["GreatestRateFound", "FoundAlways", "FoundOnRampAlone", "RatesUpToWhole"],
    ),
    (
        |calls| assert_tries_follow_the_capacity(calls),
        &[
            "RatesFromOne",
            "RatesBelowCapacity",
            "RatesUpToOneMore",
            "MiddleRoundedUp",
            "LastNotCounted",
            "EachRateCountedOnce",
            "NoTryWithoutARamp",
            "TwoTriesAtLeast",
            "SeventeenTriesAtMost",
            "MostTriesAlways",
            "FewestTriesAlways",
        ],
    ),
    (
        |calls| assert_bad_searches_are_refused_first(calls),
        &[
            "StepOfKTaken",
            "NodePastNTaken",
            "NodesCountedOn",
            "StepIn16Bits",
            "StepIn31Bits",
            "NodeIn8Bits",
            "NodeIn16Bits",
            "NodeIn31Bits",
            "BadPlaceNamed",
            "LongerOutTaken",
            "ShorterOutTaken",
            "PlaceTestedAfterLists",
            "PlaceTestedLast",
            "OutTestedAfterLists",
            "OutTestedLast",
            "WritesOnRefusal",
        ],
    ),
    (
        |calls| assert_demand_three(calls, 400, 4),
        &[
            "PlanUnchanged",
            "RefusesAll",
            "OneFixedPlan",
            "OutputLeftAsLent",
            "HeldEverywhere",
            "FullEverywhere",
            "LargestRate",
            "RampFlowTriedOnly",
            "RampSearchedOnly",
            "MainlineSearchedOnly",
            "HeldLimitRoundedDown",
            "HeldAtLargestLimit",
            "CutFlowHeld",
            "EndRoomUntested",
            "DropPassedOverBySimulator",
            "DropPassedOverByChecker",
            "DropPassedOverByConverter",
            "DroppedFlowHeld",
            "ExitUntested",
            "ExitRoundedUpBySimulator",
            "ExitRoundedUpByChecker",
            "LastStateExitsFree",
            "CheckerPassesExitsOver",
            "ConverterPassesExitsOver",
            "ExitsLeftAsLent in the work record",
            "FormOfSevenUnchanged",
        ],
    ),
];

const OF_FILES: [Broken<dyn FileCalls>; 6] = [
    (|calls| assert_files_come_back(calls), &["PaddingUntested", "BytesLeftOver"]),
    (|calls| assert_check_word_sees_any_one_change(calls), &["LastWordNotSummed", "OtherWeights"]),
    (
        |calls| assert_completed_files_are_the_same(calls, List::Demands),
        &["FiveReadAsTwo", "FiveNotWritten"],
    ),
    (
        |calls| assert_completed_files_are_the_same(calls, List::Corridor),
        &["TenReadAsOne", "TenNotWritten"],
    ),
    (
        |calls| assert_completed_files_are_the_same(calls, List::Record),
        &["SevenReadAsThree", "SevenNotWritten", "ExitsReadAsZeros"],
    ),
    (|calls| assert_links_come_before_the_kind_in_files(calls), &["TenNotWritten"]),
];

const OF_PROGRAM: [Broken<dyn Program>; 3] = [
    (
        |program| assert_completed_inputs_are_the_same(program, List::Demands),
        &["FiveReadAsTwo", "FiveRefused"],
    ),
    (
        |program| assert_completed_inputs_are_the_same(program, List::Corridor),
        &["TenReadAsOne", "TenRefused", "StepsBehindKindOne"],
    ),
    (
        |program| assert_completed_inputs_are_the_same(program, List::Record),
        &["SevenReadAsThree", "SevenRefused"],
    ),
];

/// What a failed assertion says, in either form that it can have.
fn text_of(failure: Box<dyn Any + Send>) -> String {
    let whole = failure.downcast_ref::<&str>().map(ToString::to_string);
    whole.or(failure.downcast_ref::<String>().cloned()).unwrap_or_default()
}

/// Passes if an assertion of each property fails for each of its variants, which are among those
/// listed; a variant that fails by itself, as by a division by zero, shows nothing.
fn assert_broken<C: ?Sized>(properties: &[Broken<C>], variants: &[(&'static str, &'static C)]) {
    for (property, names) in properties {
        for name in *names {
            let (_, variant) = variants.iter().find(|(known, _)| known == name).expect("listed");
            let outcome = catch_unwind(AssertUnwindSafe(|| property(variant)));
            let text = outcome.map_or_else(text_of, |()| "nothing found".to_string());
            assert!(text.starts_with("assertion"), "{name}: {text}");
        }
    }
}

pub fn assert_properties_broken() {
    let words = [
        steps::variants(),
        records::variants(),
        capacity_drop::variants(),
        capacity_drop::misread_variants(),
        off_ramps::variants(),
        off_ramps::call_variants(),
        search::variants(),
        search::call_variants(),
        outputs::variants(),
        rate_variants(),
    ];
    assert_broken(&OF_WORDS, &words.concat());
    assert_broken(&OF_FILES, &files::variants());
    assert_broken(&OF_PROGRAM, &program::variants());
}
