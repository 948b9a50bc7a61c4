//! Known errors, to be put into the reference one at a time.

macro_rules! mutants {
    (
        $($(#[doc = $says:literal])* $name:ident,)*
        ;
        $($(#[doc = $replay_says:literal])* $replay_name:ident,)*
    ) => {
        /// Which error the reference has.
        #[derive(Clone, Copy, Debug, PartialEq, Eq)]
        pub enum Mutant {
            /// The paper's behaviour.
            None,
            $($(#[doc = $says])* $name,)*
            $($(#[doc = $replay_says])* $replay_name,)*
        }

        impl Mutant {
            /// Every error, without `None`.
            pub const ALL: &'static [Mutant] = &[$(Mutant::$name,)* $(Mutant::$replay_name,)*];

            /// Those of them that only a replay shows.
            pub const REPLAY: &'static [Mutant] = &[$(Mutant::$replay_name,)*];

            /// What is wrong, in words.
            pub fn says(self) -> &'static str {
                match self {
                    Mutant::None => "no error",
                    $(Mutant::$name => concat!($($says),*).trim_ascii(),)*
                    $(Mutant::$replay_name => concat!($($replay_says),*).trim_ascii(),)*
                }
            }
        }
    };
}

mutants! {
    /// paper: "not lower" is used for "higher"
    EqualOutranks,
    /// paper: the lowest movable task moves first
    LowestMoverFirst,
    /// paper: the destination is the first allowed CPU below the task
    FirstCpuBelow,
    /// paper: only the first waiter of a row is looked at
    OnlyFirstWaiter,
    /// paper: the mask of a CPU's old level stays set
    OldMaskStays,
    /// of two CPUs of the lowest level, the highest-numbered is taken
    DestinationHighest,
    /// of equal movers on one CPU, the last moves
    MoverLastInRow,
    /// of equal movers, the one on the highest-numbered CPU moves
    MoverHighestCpu,
    /// running tasks move too
    RunningMoves,
    /// one migration step at most
    OneStepOnly,
    /// no migration after an event without effect of its own
    NoStepAfterNothing,
    /// no migration after a lowered priority
    NoStepAfterLowered,
    /// a log entry is (task, to, from, level)
    LogSwapped,
    /// a log entry gives the destination's level after the move
    LogLevelAfterMove,
    /// a log entry gives the level of the CPU that the mover waited on
    LogLevelOfOrigin,
    /// a log entry has three numbers, and the place of the fourth stays as it was
    LogLevelUnwritten,
    /// log entry i starts at place 3 times i
    LogWidthThree,
    /// log entries from the count on are wiped
    LogWiped,
    /// a mover gets a full slice
    MoverSliceRefilled,
    /// a woken task gets a full slice
    WakeSliceRefilled,
    /// a woken task always goes to its lowest-numbered allowed CPU
    WakeForgetsCpu,
    /// a woken task goes to its CPU even where that is not allowed any more
    WakeIgnoresMask,
    /// a sleeping task's CPU keeps its level
    SleepKeepsLevel,
    /// a sleeping task gets a full slice
    SleepSliceRefilled,
    /// a yielding task stands before its equals again
    YieldBeforeEquals,
    /// a yield gives a full slice
    YieldSliceRefilled,
    /// a slice that ends does not send the task behind its equals
    TickKeepsPlace,
    /// a slice ends one tick early
    TickEarly,
    /// a slice that ends becomes 100, whatever the full slice is
    TickRefillsHundred,
    /// FIFO tasks use up slices
    TickCountsFifo,
    /// the unchanged priority sends a runnable task behind its equals
    SamePriorityRequeues,
    /// a raised task goes before its equals
    RaisedBeforeEquals,
    /// a lowered task goes behind its equals
    LoweredBehindEquals,
    /// a lowered task goes behind its equals unless it ran
    LoweredWaiterBehindEquals,
    /// a lowered task goes before all of its row, higher ones too
    LoweredBeforeAll,
    /// a mask that still allows the CPU sends the task to the lowest-numbered allowed one
    MaskAlwaysMoves,
    /// a sleeper's new mask changes its CPU
    MaskMovesSleeper,
    /// an added task has CPU 0
    AddOnCpuZero,
    /// an added task has 100 ticks, whatever the full slice is
    AddGivesHundred,
    /// a removed task's slice stays in its column
    RemoveLeavesSlice,
    /// ordinary work does not raise an empty row's level
    OrdinaryUncounted,
    /// tasks leave a CPU that goes offline back to front
    LeaveBackToFront,
    /// tasks leave for the highest-numbered allowed online CPU
    LeaveToHighest,
    /// tasks that leave go before their equals
    LeaveBeforeEquals,
    /// tasks that leave get a full slice
    LeaveSliceRefilled,
    /// a CPU that goes offline counts as online for its own tasks
    LeaveToItself,
    /// that a task leaves a CPU that goes offline is logged and counted
    LeavingLogged,
    /// migrations follow each task that leaves
    StepsBetweenLeaving,
    /// sleepers leave a CPU that goes offline too
    SleepersLeave,
    /// a CPU that goes offline keeps its level
    OfflineKeepsLevel,
    /// a CPU that goes offline loses its flag
    OfflineLosesFlag,
    /// an offline CPU is at the level of its flag
    OfflineAtFlag,
    /// tasks move to offline CPUs
    OfflineReceives,
    /// no migration after a CPU goes offline
    NoStepAfterOffline,
    /// no migration after a CPU comes back
    NoStepAfterOnline,
    /// a CPU that comes back has level 0, whatever its flag
    BackIdle,
    /// a CPU that comes back has flag 0
    BackLosesFlag,
    /// an added task has the lowest-numbered allowed online CPU
    AddOnOnline,
    /// an add without an allowed online CPU is refused with 10
    AddNowhereRefused,
    /// a woken task goes to its CPU even where that is offline
    WakeOwnOffline,
    /// a woken task whose CPU is not allowed goes to the lowest-numbered allowed one, online or not
    WakeLowestOffline,
    /// a wake without an allowed online CPU is not refused
    WakeNowherePasses,
    /// a new mask sends a task to the lowest-numbered allowed CPU, online or not
    MaskToOffline,
    /// a runnable task's mask without an online CPU is not refused
    MaskNowherePasses,
    /// a sleeper's mask without an online CPU is refused with 10
    SleeperMaskRefused,
    /// ordinary work on an offline CPU does not set the flag
    OrdinaryLostOffline,
    /// ordinary work on an offline CPU is its level
    OrdinaryRaisesOffline,
    /// ordinary work on an offline CPU is refused with 11
    OrdinaryRefusedOffline,
    /// a tick on an offline CPU is nothing, as on any empty row
    TickOfflinePasses,
    /// to take an offline CPU offline is nothing
    AlreadyOfflinePasses,
    /// to bring an online CPU back is nothing
    AlreadyOnlinePasses,
    /// the last online CPU goes offline
    LastGoes,
    /// a runnable task with no other allowed online CPU does not keep its CPU online
    PinnedGoes,
    /// whether a CPU may go offline is asked of its running task alone
    NowhereOfRunning,
    /// a sleeper with no other allowed online CPU keeps its CPU online
    NowhereOfSleepers,
    /// refusal 10 is looked for before 8
    NowhereBeforeMask,
    /// refusal 9 is given where 11 fits too
    EmptyBeforeOffline,
    /// refusal 12 is looked for before 10
    LastBeforeNowhere,
    /// with one CPU online, to take any offline is refused with 12
    LastWhichever,
    /// refusal 4 does not cover kind 10
    OfflineCpuUnchecked,
    /// kind 12 is accepted, as nothing
    KindTwelvePasses,
    /// a refused kind 10 clears the bit of the online mask
    RefusalTakesOut,
    /// refusal 5 is looked for before 4
    StateBeforeNumber,
    /// refusal 6 is looked for before 5
    PolicyBeforeState,
    /// refusal 7 is looked for before 6
    ValueBeforePolicy,
    /// refusal 8 is looked for before 7
    MaskBeforeValue,
    /// refusal 3 is looked for before 2
    KindBeforeForm,
    /// refusal 4 is looked for before 3
    NumberBeforeKind,
    /// numbers that a kind does not use are checked too
    UnusedChecked,
    /// a refused event wipes the log
    RefusalWritesLog,
    /// a fresh machine keeps the old log
    FreshKeepsLog,
    /// a fresh machine's missing CPUs have level 0
    FreshMissingIdle,
    /// of a fresh machine CPU 0 alone is online
    FreshOneOnline,
    /// a fresh machine keeps the old online mask
    FreshKeepsOnline,
    /// a fresh machine's online mask has all 64 bits
    FreshAllBitsOnline,
    /// the maker that is told no full slice gives 100
    DefaultHundred,
    /// a refused maker hands back the full slice
    RefusalHandsBackSlice,
    /// a full slice of 0 passes
    FullSliceZeroPasses,
    /// a full slice of 1001 passes
    FullSlicePastPasses,
    /// of the full slice the lower 16 bits are read
    FullSliceCut,
    /// a full slice out of range is refused with 2
    FullSliceRefusedWithTwo,
    /// a free place may have numbers in its columns (W1)
    FreeColumnsUnchecked,
    /// a sleeper's CPU must be allowed (W2)
    SleeperCpuAllowed,
    /// a slice of 0 passes (W2)
    SliceZeroPasses,
    /// slices of 1 to 100 pass, whatever the full slice is (W2)
    SliceToHundred,
    /// a slice of one more than the full slice passes (W2)
    SlicePastFullPasses,
    /// unused places of a row may hold anything (W3)
    TailUnchecked,
    /// a runnable task's CPU need not be allowed (W4)
    RunnableCpuUnchecked,
    /// a task may stand in two rows (W4)
    TwoRowsPass,
    /// equals may not stand in one row (W5)
    EqualsRefused,
    /// level 2 passes (W6)
    LevelTwoPasses,
    /// word bits 102 to 127 are not looked at (W6)
    HighBitsUnchecked,
    /// levels of CPU places N and up are not looked at (W6)
    MissingCpusUnchecked,
    /// a record that is consistent in itself passes for any rows (W6)
    LevelsUnrelated,
    /// an online mask of 0 passes
    OnlineZeroPasses,
    /// an online mask with bits at N or above passes
    OnlinePastPasses,
    /// tasks may stand in an offline CPU's row
    OfflineRowPasses,
    /// an offline CPU may have any level
    OfflineLevelUnchecked,
    /// an online CPU may have level INVALID
    OnlineInvalidPasses,
    /// a sleeper's CPU must be online
    SleeperCpuOnline,
    /// the finder refuses a full slice out of range, which it is not asked with
    FinderChecksSlice,
    /// the finder refuses a record with INVALID below N
    FinderRefusesInvalid,
    /// the finder takes the asked level too
    FinderTakesEqual,
    /// the finder answers all CPUs of the level, allowed or not
    FinderForgetsMask,
    /// the finder answers the highest level below the asked one
    FinderHighest,
    /// a finder that finds nothing gives level 0
    FinderNoneIsZero,
    /// the finder does not count the mask of the answered level
    FinderUncountsAnswered,
    /// on none the finder counts the mask of the asked level too, if that has a CPU
    FinderCountsAsked,
    /// the finder counts the masks above the answered level too
    FinderCountsPast,
    /// a finder that finds nothing has read no mask
    FinderNoneReadsZero,
    /// a refusing finder counts the masks below the asked level
    FinderRefusalCounts,
    /// the finder counts the masks with an allowed CPU alone
    FinderCountsAllowed,
    /// the finder counts the CPUs in the masks that it read
    FinderCountsCpus,
    /// the finder counts the masks of levels without a CPU too
    FinderCountsEmpty,
    /// the finder does not count the masks of levels 64 and up
    FinderCountsFirstWord,
    /// from level 64 on the finder counts anew
    FinderCountsAnew,
    ;
    // Those that only a replay shows.
    /// an empty recording is whole
    EmptyWhole,
    /// a first record that no event follows is cut
    FirstAloneCut,
    /// a first kind that is no first one is cut
    FirstKindCut,
    /// a first kind 12 stops the replay
    FirstTwelveStops,
    /// a first kind 0 means a full slice of 25
    FirstZeroDefault,
    /// an N out of range is cut
    BadCpusCut,
    /// an N out of range is cut if its slice is
    BadCpusSliceCut,
    /// an N of 64 stops the replay
    AllCpusStop,
    /// a slice that is cut stops the replay
    CutSliceStops,
    /// a slice out of range is cut
    BadSliceCut,
    /// a slice out of range is the nearest in range
    BadSliceClamped,
    /// a slice of 1000 stops the replay
    LongestSliceStops,
    /// of a recorded slice the low byte is read
    SliceLowByte,
    /// a recorded slice has its high byte first
    SliceHighFirst,
    /// a stamp has its high byte first
    StampHighFirst,
    /// of a stamp three bytes are read
    StampThreeBytes,
    /// a recorded task number has its high byte first
    TaskHighFirst,
    /// of a recorded task number the low byte is read
    TaskLowByte,
    /// a recorded mask has its high byte first
    MaskHighFirst,
    /// of a recorded mask the low four bytes are read
    MaskFourBytes,
    /// an add has its priority before its policy
    PriorityBeforePolicy,
    /// the bodies of kinds 10 and 11 are 6 bytes
    HotplugBodySix,
    /// kinds 10 and 11 stop the replay
    HotplugStops,
    /// a later 0 is skipped
    LaterZeroSkipped,
    /// a later 12 is skipped
    LaterTwelveSkipped,
    /// a byte of an unknown kind is skipped
    UnknownSkipped,
    /// a last byte of an unknown kind is cut
    LastUnknownCut,
    /// 65,535 records at most
    RecordsOneLess,
    /// 65,536 records at most, without the first
    RecordsOneMore,
    /// any number of records
    RecordsUnlimited,
    /// a byte after record 65,536 is cut
    TooManyCut,
    /// a record after record 65,536 that is cut is cut
    TooManyCutCut,
    /// the place of a stop is the byte after its kind
    PlaceAfterKind,
    /// the place of a stop is the record before it
    PlaceBeforeStop,
    /// the place of a cut is the recording's end
    PlaceOfCutEnd,
    /// the place of a whole recording is 0
    PlaceWholeZero,
    /// an interval goes to the CPUs that have a task after the event that ends it
    TimesAfterEvent,
    /// a refused event's stamp is skipped
    RefusedStampSkipped,
    /// a stamp before the one before it gives no time
    StampsSaturate,
    /// the time between two stamps is their distance
    StampsApart,
    /// the interval that the last event ends is lost
    LastIntervalLost,
    /// the time from stamp 0 to the first event's goes to every CPU
    BeforeFirstTimed,
    /// a CPU with ordinary work has a real-time task
    OrdinaryTimed,
    /// an offline CPU has a real-time task
    OfflineTimed,
    /// an interval goes to a CPU once for each of its tasks
    TimesByTasks,
    /// times are 32 bits wide
    TimesNarrow,
    /// the stamp of a cut record counts
    CutStampCounts,
    /// times are added to what the table held
    TimesAdded,
    /// times from N on stay as they were
    TimesPastKept,
    /// on refusal 1 the times stay as they were
    RefusalKeepsTimes,
    /// on refusal 1 64 times are 0, however many are lent
    RefusalClearsSome,
    /// without a good first record the times stay as they were
    NoFirstKeepsTimes,
    /// without a good first record the log is wiped
    NoFirstWipesLog,
    /// without a good first record all CPUs are online
    NoFirstPlugs,
    /// an N is reported though its slice is out of range
    NoFirstHasCpus,
    /// a full slice of 100 is reported without a good first record
    NoFirstHasSlice,
    /// on refusal 1 the ending and the place are the recording's
    RefusalReads,
    /// times of another length pass
    TimesLengthPasses,
    /// tables for the recording's N pass
    TablesOfCpusPass,
    /// longer rows, counts and flags pass
    LongRowsPass,
    /// refused events are not counted
    RefusedUncounted,
    /// a refused event is the last
    RefusedEnds,
    /// the moves are those of the last event
    MovesOfLast,
    /// an event with moves is counted once
    MovesOnce,
    /// rows beyond N are emptied
    RowsPastCleared,
    /// counts beyond N become 0
    CountsPastCleared,
    /// flags beyond N become 0
    FlagsPastCleared,
    /// a stopped recording gives nothing
    StoppedGivesNothing,
    /// a cut recording gives nothing
    CutGivesNothing,
    /// the interval before every 64th event is lost
    BatchLosesInterval,
    /// every 64th event is lost
    BatchLosesEvent,
    /// the moves of the last 64 events alone are counted
    BatchLosesMoves,
}
