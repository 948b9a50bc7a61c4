//! Every known error is told apart.

use compare::mutants::survives;
use compare::vectors::{wrong, Side};
use reference::Mutant;
use std::fs;
use std::path::Path;

#[test]
fn no_error_survives() {
    let survivors: Vec<&Mutant> = Mutant::ALL
        .iter()
        .filter(|&&mutant| survives(mutant, 1, 20_000))
        .collect();
    assert!(survivors.is_empty(), "not told apart: {survivors:?}");
}

/// "Easy errors here": those that a marked example shows.
#[test]
fn marked_examples_show_the_easy_errors() {
    let shown = |mutant| wrong(Side::Theirs(mutant)).join(" ");
    assert!(shown(Mutant::EqualOutranks).contains("K3 "));
    assert!(shown(Mutant::FirstCpuBelow).contains("K10 "));
    assert!(shown(Mutant::OnlyFirstWaiter).contains("K7 "));
}

/// The errors about the fourth number of a log entry show in K2, and a wrong place of the second entry in K5.
#[test]
fn marked_examples_show_the_errors_of_the_log() {
    let shown = |mutant| wrong(Side::Theirs(mutant)).join(" ");
    for mutant in [
        Mutant::LogLevelAfterMove,
        Mutant::LogLevelOfOrigin,
        Mutant::LogLevelUnwritten,
    ] {
        assert!(shown(mutant).contains("K2 log: [1, 0, 1, "), "{mutant:?}");
    }
    assert!(shown(Mutant::LogWidthThree).starts_with("K5 log: [0, 0, 1, 1, "));
}

/// Each error has a case that shows it, by the first words of what is said then.
fn shown(errors: &[(Mutant, &str)]) {
    for &(mutant, name) in errors {
        let said = wrong(Side::Theirs(mutant));
        let shows = |says: &String| says.starts_with(name);
        assert!(said.iter().any(shows), "{mutant:?}: {said:?}");
    }
}

/// The errors about a new priority, each in a case that shows it; that of a lowered task behind its equals in K11 too.
#[test]
fn examples_show_the_errors_of_a_new_priority() {
    shown(&[
        (Mutant::LoweredBehindEquals, "K11 rows: [[1, 0]]"),
        (Mutant::LoweredBehindEquals, "lowered-runs-on "),
        (Mutant::LoweredBeforeAll, "lowered-waits "),
        (Mutant::LoweredWaiterBehindEquals, "lowered-waited "),
        (Mutant::RaisedBeforeEquals, "raised "),
        (Mutant::SamePriorityRequeues, "unchanged "),
        (Mutant::NoStepAfterLowered, "lowered-draws "),
        (Mutant::NoStepAfterLowered, "lowered-moves "),
    ]);
}

/// The errors of the finder, each in a case that shows it.
#[test]
fn examples_show_the_errors_of_the_finder() {
    shown(&[
        (Mutant::FinderTakesEqual, "find-none level found: 101"),
        (Mutant::FinderForgetsMask, "find-once CPUs found: 37"),
        (Mutant::FinderHighest, "find-up-to level found: 7"),
        (Mutant::FinderNoneIsZero, "find-none level found: 0"),
        (Mutant::FinderRefusesInvalid, "find-once answer"),
        (Mutant::FinderChecksSlice, "find-refused answer"),
    ]);
}

/// The same of how many masks it read.
#[test]
fn examples_show_the_errors_of_the_masks_read() {
    shown(&[
        (Mutant::FinderUncountsAnswered, "find-up-to masks read: 0"),
        (Mutant::FinderCountsPast, "find-up-to masks read: 3"),
        (Mutant::FinderCountsEmpty, "find-up-to masks read: 6"),
        (Mutant::FinderCountsAllowed, "find-up-to masks read: 1"),
        (Mutant::FinderCountsAllowed, "find-none masks read: 0"),
        (Mutant::FinderCountsAsked, "find-none masks read: 4"),
        (Mutant::FinderNoneReadsZero, "find-none masks read: 0"),
        (Mutant::FinderCountsCpus, "find-once masks read: 3"),
        (Mutant::FinderCountsFirstWord, "find-words masks read: 2"),
        (Mutant::FinderCountsFirstWord, "find-second masks read: 0"),
        (Mutant::FinderCountsAnew, "find-words masks read: 1"),
        (Mutant::FinderRefusalCounts, "find-refused masks read: 3"),
    ]);
}

/// The errors about full slices, each in a case that shows it.
#[test]
fn examples_show_the_errors_of_full_slices() {
    shown(&[
        (Mutant::TickRefillsHundred, "slice-1 slice: 100"),
        (Mutant::TickRefillsHundred, "slice-25 slice: 100"),
        (Mutant::TickRefillsHundred, "slice-1000 slice: 100"),
        (Mutant::AddGivesHundred, "slice-default "),
        (Mutant::AddGivesHundred, "slice-1000 slice: 100"),
        (Mutant::SliceToHundred, "slice-60-left answer of the check"),
        (
            Mutant::SlicePastFullPasses,
            "slice-1000 answer of the check",
        ),
        (Mutant::FullSliceZeroPasses, "slice-out-of-range "),
        (Mutant::FullSlicePastPasses, "slice-out-of-range "),
        (Mutant::FullSliceCut, "slice-out-of-range "),
        (Mutant::FullSliceRefusedWithTwo, "slice-out-of-range "),
        (Mutant::DefaultHundred, "slice-default full slice"),
        (Mutant::RefusalHandsBackSlice, "K12 full slice"),
        (Mutant::TickKeepsPlace, "slice-one-tick rows"),
    ]);
}

/// The errors about CPUs that go offline and come back, each in a case that shows it. Those that need a machine which no events
/// lead to no case asks for.
#[test]
fn examples_show_the_errors_of_hotplug() {
    shown(&[
        (Mutant::LeaveBackToFront, "offline-equals rows"),
        (Mutant::LeaveBeforeEquals, "offline-equals rows"),
        (Mutant::LeaveToHighest, "offline-masks rows"),
        (Mutant::LeaveToItself, "offline-and-back rows"),
        (Mutant::LeaveSliceRefilled, "offline-and-back slice"),
        (Mutant::LeavingLogged, "offline-and-back number of moves"),
        (Mutant::SleepersLeave, "offline-pinned CPUs"),
        (Mutant::OfflineKeepsLevel, "offline-and-back levels"),
        (Mutant::OfflineAtFlag, "offline-and-back levels"),
        (Mutant::OfflineLosesFlag, "offline-ordinary flags"),
        (Mutant::OfflineReceives, "offline-destinations log"),
        (Mutant::NoStepAfterOffline, "offline-moves "),
        (Mutant::NoStepAfterOnline, "offline-and-back "),
        (Mutant::BackIdle, "offline-ordinary levels"),
        (Mutant::BackLosesFlag, "offline-ordinary flags"),
        (Mutant::OrdinaryLostOffline, "offline-ordinary flags"),
        (Mutant::OrdinaryRaisesOffline, "offline-ordinary levels"),
        (Mutant::FreshOneOnline, "offline-and-back online mask"),
        (Mutant::FreshKeepsOnline, "offline-and-back online mask"),
        (Mutant::FreshAllBitsOnline, "offline-and-back online mask"),
        (
            Mutant::SleeperCpuOnline,
            "offline-pinned answer of the check",
        ),
        (
            Mutant::OnlinePastPasses,
            "offline-checks answer of the check",
        ),
        (
            Mutant::OfflineLevelUnchecked,
            "offline-checks answer of the check",
        ),
        (
            Mutant::OnlineInvalidPasses,
            "offline-checks answer of the check",
        ),
    ]);
}

/// The same of the refusals 10 to 12, and of where add, wake and a new mask place a task.
#[test]
fn examples_show_the_errors_of_placing_online() {
    shown(&[
        (Mutant::AddOnOnline, "offline-adds CPUs"),
        (Mutant::AddNowhereRefused, "offline-adds answer"),
        (Mutant::WakeOwnOffline, "offline-wakes "),
        (Mutant::WakeLowestOffline, "offline-wakes "),
        (Mutant::WakeNowherePasses, "offline-wakes answer"),
        (Mutant::MaskToOffline, "offline-new-masks rows"),
        (Mutant::MaskNowherePasses, "offline-new-masks answer"),
        (Mutant::SleeperMaskRefused, "offline-new-masks answer"),
        (Mutant::NowhereBeforeMask, "offline-new-masks answer"),
        (Mutant::OrdinaryRefusedOffline, "offline-ordinary answer"),
        (Mutant::TickOfflinePasses, "offline-tick-yield answer"),
        (Mutant::EmptyBeforeOffline, "offline-tick-yield answer"),
        (Mutant::AlreadyOfflinePasses, "offline-last answer"),
        (Mutant::AlreadyOnlinePasses, "offline-last answer"),
        (Mutant::LastGoes, "offline-last answer"),
        (Mutant::LastBeforeNowhere, "offline-last answer"),
        (Mutant::LastWhichever, "offline-last answer"),
        (Mutant::PinnedGoes, "offline-pinned answer"),
        (Mutant::NowhereOfRunning, "offline-pinned answer"),
        (Mutant::NowhereOfSleepers, "offline-pinned answer"),
        (Mutant::RefusalTakesOut, "offline-pinned online mask"),
        (Mutant::OfflineCpuUnchecked, "offline-numbers answer"),
        (Mutant::KindTwelvePasses, "offline-numbers answer"),
    ]);
}

/// The errors about recordings, each in one that shows it. Those of tables of another length, of very many records and of
/// batches no example asks for.
#[test]
fn examples_show_the_errors_of_a_replay() {
    shown(&[
        (Mutant::EmptyWhole, "night-empty end"),
        (Mutant::FirstAloneCut, "night-no-event end"),
        (Mutant::FirstKindCut, "night-first-kind end"),
        (Mutant::FirstTwelveStops, "night-slice end"),
        (Mutant::FirstZeroDefault, "night-no-event first record"),
        (Mutant::BadCpusCut, "night-bad-cpus end"),
        (Mutant::BadCpusSliceCut, "night-bad-cpus-12 end"),
        (Mutant::CutSliceStops, "night-half-slice end"),
        (Mutant::BadSliceCut, "night-bad-slice end"),
        (Mutant::BadSliceClamped, "night-bad-slice end"),
        (Mutant::LongestSliceStops, "night-slice end"),
        (Mutant::SliceLowByte, "night-slice first record"),
        (Mutant::SliceHighFirst, "night-cut first record"),
        (Mutant::StampHighFirst, "night-wraps times"),
        (Mutant::StampThreeBytes, "night-wraps times"),
        (Mutant::TaskHighFirst, "night-cut rows"),
        (Mutant::TaskLowByte, "night-cut refused events"),
        (Mutant::MaskHighFirst, "night-cut refused events"),
        (Mutant::PriorityBeforePolicy, "night-cut refused events"),
        (Mutant::HotplugStops, "night-one-byte end"),
        (Mutant::HotplugBodySix, "night-stopped end"),
        (Mutant::LaterZeroSkipped, "night-later-0 end"),
        (Mutant::LaterTwelveSkipped, "night-stopped end"),
        (Mutant::UnknownSkipped, "night-unknown end"),
        (Mutant::LastUnknownCut, "night-unknown end"),
        (Mutant::PlaceAfterKind, "night-stopped end"),
        (Mutant::PlaceBeforeStop, "night-stopped end"),
        (Mutant::PlaceOfCutEnd, "night-cut end"),
        (Mutant::PlaceWholeZero, "night-wraps end"),
        (Mutant::NoFirstHasCpus, "night-bad-slice first record"),
        (Mutant::NoFirstHasSlice, "night-empty first record"),
    ]);
}

/// The same of times, totals and what the tables hold.
#[test]
fn examples_show_the_errors_of_what_a_replay_gives() {
    shown(&[
        (Mutant::TimesAfterEvent, "night-cut times"),
        (Mutant::RefusedStampSkipped, "night-wraps times"),
        (Mutant::StampsSaturate, "night-wraps times"),
        (Mutant::StampsApart, "night-wraps times"),
        (Mutant::LastIntervalLost, "night-cut times: [900, "),
        (Mutant::BeforeFirstTimed, "night-stopped times: [100, "),
        (Mutant::OrdinaryTimed, "night-stopped times: [90, "),
        (Mutant::OfflineTimed, "night-stopped times: [90, 60, 70, "),
        (Mutant::TimesByTasks, "night-cut times: [3700, "),
        (Mutant::TimesNarrow, "night-wraps times: [272, 63, "),
        (Mutant::CutStampCounts, "night-cut times: [2900, "),
        (Mutant::TimesAdded, "night-cut times: [1909, "),
        (Mutant::TimesPastKept, "night-cut times: [1900, 9, "),
        (Mutant::NoFirstKeepsTimes, "night-empty times"),
        (Mutant::RefusedUncounted, "night-wraps refused events"),
        (Mutant::RefusedEnds, "night-wraps refused events"),
        (Mutant::MovesOfLast, "night-stopped moves"),
        (Mutant::RowsPastCleared, "night-wraps what is beyond N"),
        (Mutant::CountsPastCleared, "night-wraps what is beyond N"),
        (Mutant::FlagsPastCleared, "night-wraps what is beyond N"),
        (Mutant::StoppedGivesNothing, "night-stopped first record"),
        (Mutant::CutGivesNothing, "night-cut first record"),
    ]);
}

/// The two pages that say how many errors there are.
#[test]
fn the_pages_count_the_errors() {
    let count = format!(" {} known errors ", Mutant::ALL.len());
    for page in ["../README.md", "../../README.md"] {
        let path = Path::new(env!("CARGO_MANIFEST_DIR")).join(page);
        let text = fs::read_to_string(path).expect(page);
        assert!(text.contains(&count), "{page} has no '{count}'");
    }
}
