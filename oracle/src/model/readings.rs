//! Other readings of the documents' sentences, and from StateIgnored on plain slips
//! (the highest for the lowest, the last for the first). The model takes none of
//! them; each can be switched on alone, to find the smallest trace on which the
//! Rust speaks against it.

use std::cell::Cell;

/// A reading that is not the Rust's.
#[derive(Clone, Copy, Debug, PartialEq, Eq)]
pub enum Reading {
    LowestIndexAtGeneration,
    CrashForgetsApplied,
    RefusalForgetsApplied,
    RemovalForgetsApplied,
    DescriptorSetsApplied,
    UnmarkedSnapshotIsNothing,
    UnmarkedDescriptorIsNothing,
    StatementsAlsoStand,
    JudgedOnlyWhenTraced,
    NeverRestatedCountsAsRestated,
    OwesByThisSplit,
    TookJudgesItsOwnRight,
    TookAppliesUnregistered,
    PendingUsedByRegisteringOnly,
    ServerOfTheLatestRecord,
    GreatestIndexDebt,
    LackedNow,
    OnlyCreationsAreHeldTwice,
    NamedByEarlierStartsOnly,
    AnyWriteUsesUpTheIndex,
    LaterValuesRaiseEarlierWrites,
    LatestNameAtEqualIndex,
    VotersAsSets,
    StateIgnored,
    HighestTakenIndex,
    LatestFaultyStatement,
    HighestOther,
    LastSpanInstalled,
    HighestRangeInstalled,
    HighestOwed,
    HighestNode,
    FirstDebtStands,
    FirstServerStays,
    RunIgnored,
    LowestSharingBlock,
    FirstOpposingWrite,
    LastFaultyPiece,
    RemovalKeepsDebt,
    RecordsWhenRestated,
    ReachesAbove,
    AppliesBelow,
    AppliesFalling,
    JudgesUnrestated,
    BootstrapRegisters,
    CrashDropsServer,
    RefusalDropsServer,
    RemovedStillOverlaps,
    DebtNotAsked,
    AnyEffectTakes,
    PendingOfAnyIndex,
    FirstPendingStays,
    SameRangeMayFall,
    MetaStartIgnored,
    MetaEndIgnored,
    MetaVotersIgnored,
    FifthVoterIgnored,
    FifthIsNoVoter,
    PositionByRecord,
    ParentContinues,
    SameNumbersContinue,
    LastFaultyRecord,
    OneRangeAnEvent,
    TwoRecordsAnEvent,
    /// A crash drops what it leaves, or leaves what it drops.
    Crash(Thing),
    /// RaftRefused likewise.
    Refusal(Thing),
}

/// What half keeps for a node and a crash or RaftRefused may drop.
#[derive(Clone, Copy, Debug, PartialEq, Eq)]
pub enum Thing {
    RestatedMark,
    Pending,
    Applied,
    Recorded,
    Debts,
    HeldAtRestating,
}

use Reading::*;
use Thing::*;

/// All of them, each with the words that it reads otherwise; the last six are
/// about document 02's events.
pub const READINGS: [(Reading, &str); 75] = [
    (LowestIndexAtGeneration, "`first_at_generation` the lowest index with that generation"),
    (
        CrashForgetsApplied,
        "the applied index is that of the latest marked kind 1, 3 or 4: a crash forgets it",
    ),
    (RefusalForgetsApplied, "the same: RaftRefused forgets it"),
    (RemovalForgetsApplied, "the same: RangeRemoved forgets it"),
    (DescriptorSetsApplied, "the same: a RangeDescriptor's own applied index counts too"),
    (UnmarkedSnapshotIsNothing, "Snapshot states it there: only when marked"),
    (
        UnmarkedDescriptorIsNothing,
        "a statement .. when marked ..; else a put: unmarked it is neither",
    ),
    (StatementsAlsoStand, "the first put stands: a statement with no value below it stands too"),
    (
        JudgedOnlyWhenTraced,
        "a statement differs from the standing value: judged at its own record alone",
    ),
    (
        NeverRestatedCountsAsRestated,
        "while not restated: a node that never crashed counts as restated",
    ),
    (OwesByThisSplit, "owes it: by this split, not by any"),
    (
        TookJudgesItsOwnRight,
        "at such a Took an owed range isn't held: the right range of that split alone",
    ),
    (
        TookAppliesUnregistered,
        "at Took, if registered: at any Took, so that it owes when the split registers",
    ),
    (PendingUsedByRegisteringOnly, "which it uses up: only where the split was not registered yet"),
    (
        ServerOfTheLatestRecord,
        "its server at that moment is a voter: its server when the fault is judged",
    ),
    (GreatestIndexDebt, "the latest debt replacing: the one with the greatest index"),
    (LackedNow, "lacked it at its latest RangesRestated: lacks it now"),
    (OnlyCreationsAreHeldTwice, "a RangeCreated of a range already held: held by a RangeCreated"),
    (NamedByEarlierStartsOnly, "a held range that no start in the record names: no earlier start"),
    (
        AnyWriteUsesUpTheIndex,
        "the first Applied write with a key counts: the first RaftApply, if it is one",
    ),
    (
        LaterValuesRaiseEarlierWrites,
        "at the generation of `before` at that record: as the values stand now",
    ),
    (LatestNameAtEqualIndex, "greatest index, earliest among equals: latest among equals"),
    (VotersAsSets, "voters compare as lists: as sets"),
    (StateIgnored, "a value is (start, end, generation, voters, state): without the state"),
    (HighestTakenIndex, "lowest such index: the highest"),
    (LatestFaultyStatement, "the earliest such statement is reported: the latest"),
    (HighestOther, "overlap: node, range, lowest other: the highest"),
    (LastSpanInstalled, "install: first span, then lowest range: last span"),
    (HighestRangeInstalled, "install: first span, then lowest range: highest range"),
    (HighestOwed, "an owed range isn't held (the lowest such): the highest"),
    (HighestNode, "at registering the lowest such node: the highest"),
    (FirstDebtStands, "the latest debt replacing: the first standing"),
    (FirstServerStays, "its latest RaftRecovered: its first"),
    (RunIgnored, "a grant differs in (node, run, first, last): without the run"),
    (LowestSharingBlock, "the greatest older first not above the new last: the lowest that shares"),
    (FirstOpposingWrite, "the key's last write's generation and range: the first opposing write's"),
    (LastFaultyPiece, "the walk stops at its first faulty piece: at its last"),
    (RemovalKeepsDebt, "RangeRemoved cancels: it leaves the debt"),
    (RecordsWhenRestated, "while not restated, kind 2 also records: always"),
    (ReachesAbove, "recorded index reaches it: is above it"),
    (AppliesBelow, "every registered index up to applied: below it"),
    (AppliesFalling, "every registered index up to applied, rising: falling"),
    (JudgesUnrestated, "at registering, a restated node: any node"),
    (BootstrapRegisters, "by kind 1, Split, with a parent: Bootstrap with a parent too"),
    (CrashDropsServer, "only through its latest RaftRecovered: a crash drops it"),
    (RefusalDropsServer, "only through its latest RaftRecovered: RaftRefused drops it"),
    (RemovedStillOverlaps, "removal ends it: a range removed still overlaps"),
    (DebtNotAsked, "at registering, a node that owes it: whether it owes it or not"),
    (AnyEffectTakes, "at Took: at any RaftApply"),
    (PendingOfAnyIndex, "at the range and index of the pending RangeSplit: at its range"),
    (FirstPendingStays, "the pending (latest) RangeSplit: the first not used up"),
    (SameRangeMayFall, "a higher generation, or another range and the same: another range's only"),
    (MetaStartIgnored, "start, end or voters differ from it: without the start"),
    (MetaEndIgnored, "start, end or voters differ from it: without the end"),
    (MetaVotersIgnored, "start, end or voters differ from it: without the voters"),
    (FifthVoterIgnored, "voters compare as lists: without the fifth"),
    (FifthIsNoVoter, "its server at that moment is a voter: one of the first four"),
    (Crash(RestatedMark), "a crash drops the restated mark: it does not"),
    (Crash(Pending), "both drop the pending split: a crash does not"),
    (Crash(Applied), "RaftRefused drops applied splits: a crash too"),
    (Crash(Recorded), "RaftRefused drops the recorded indexes: a crash too"),
    (Crash(Debts), "RaftRefused drops debts: a crash too"),
    (Crash(HeldAtRestating), "RaftRefused drops what was held at the restatement: a crash too"),
    (Refusal(RestatedMark), "only a crash drops the restated mark: RaftRefused too"),
    (Refusal(Pending), "both drop the pending split: RaftRefused does not"),
    (Refusal(Applied), "RaftRefused drops applied splits: it does not"),
    (Refusal(Recorded), "RaftRefused drops the recorded indexes: it does not"),
    (Refusal(Debts), "RaftRefused drops debts: it does not"),
    (Refusal(HeldAtRestating), "RaftRefused drops what was held at the restatement: it does not"),
    (PositionByRecord, "positions in reports now count events: records"),
    (ParentContinues, "in kind 12 flag 1 continues: a RangeCreated's parent too"),
    (SameNumbersContinue, "flag 0 begins one: not beside an event of the same node and index"),
    (LastFaultyRecord, "a fault inside an event: its last faulty record's, not the first's"),
    (OneRangeAnEvent, "the same node mark, node and index: and range"),
    (TwoRecordsAnEvent, "the last one is not kind 12 ..: or itself continues"),
];

thread_local! {
    static TAKEN: Cell<Option<Reading>> = const { Cell::new(None) };
}

/// Switches one reading on, or all off.
pub fn take(reading: Option<Reading>) {
    TAKEN.with(|cell| cell.set(reading));
}

/// Whether the reading is switched on.
pub fn takes(reading: Reading) -> bool {
    TAKEN.with(|cell| cell.get() == Some(reading))
}
