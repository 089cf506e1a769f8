//! What is wrong with an impostor.

use crate::interface::{Family, Name};

/// Makes the faults: what each is called, and behind it the family that may have it where one alone may.
macro_rules! faults {
    ($($name:ident $($family:ident)?,)*) => {
        /// What is wrong; those with a name are a call's own, and the last are a driver's.
        #[derive(Clone, Copy, Debug, PartialEq, Eq)]
        pub enum Fault {
            $($name,)*
            TakesAnyWidth(Name),
            Refuses64(Name),
            IgnoresTwins(Name),
            TakesEqualVersionsForTwins(Name),
            ComparesNoBytesOfTwins(Name),
            TakesNoStarts(Name),
            Takes17Starts(Name),
            TakesAnyFirstStart(Name),
            TakesEqualStarts(Name),
            TakesAStartAtS(Name),
            LooksAtTheTableFirst(Name),
            DriverBlanksBeforeItCopies,
            DriverSweepsRising,
            DriverSweepsObsoleteWithExposed,
        }

        const PLAIN: &[(Fault, &[Family])] = &[$((Fault::$name, &[$(Family::$family)?]),)*];
    };
}

faults! {
    FormatDoesNothing,
    FormatFills32Bytes,
    LaunchDoesNothing,
    LaunchRefusesEveryList,
    WriteStoresTheWholeTransaction,
    WriteSkipsTheFlash,
    WriteSkipsTheContents,
    WriteCopies32Bytes,
    WriteIsDoneTooEarly,
    WriteBuriesEveryRecord Scc,
    WriteLooksAtPagesOnly Scc,
    WriteLooksAtLinksOnly Scc,
    WriteLooksAtLinksLiterally Scc,
    WriteTakesTheRuleLiterally Scc,
    WriteLooksAtObsoleteRecordsToo Scc,
    WriteLooksAtTheSlotLast Scc,
    WithdrawDoesNothing,
    WithdrawForgetsOnePage,
    EraseDoesNothing,
    EraseKeepsTheContents,
    EraseBlanks32Bytes,
    EraseTakesRecordsInFlight,
    EraseJudgesAfterBlanking Bpcc,
    EraseIgnoresStraddlers Bpcc,
    EraseLooksAtHighestLinksOnly Bpcc,
    EraseKeepsStraddlers Scc,
    EraseKeepsExposedRecords,
    EraseTakesAllTwins Bpcc,
    CleanDoesNothing Bpcc,
    CleanCopiesEveryTwin Bpcc,
    CleanCopiesTheHighestTwin Bpcc,
    CleanCopiesErasableRecords Bpcc,
    CleanCopiesInFallingOrder Bpcc,
    CleanCopiesToTheHighestSlots Bpcc,
    CleanCopiesIntoTheBlock Bpcc,
    CleanCopies32Bytes Bpcc,
    CleanForgetsTheContents Bpcc,
    CleanJudgesOneByOne Bpcc,
    CleanJudgesAfterBlanking Bpcc,
    CleanBlanksBeforeItCopies Bpcc,
    CleanKeepsTheContents Bpcc,
    CleanLeavesBlankSlots Bpcc,
    CleanCountsEveryTwin Bpcc,
    CleanNeedsASlotToSpare Bpcc,
    CleanWrapsTheBlock Bpcc,
    CleanTakesABlockPastTheTable Bpcc,
    CleanEndsTheLastBlockEarly Bpcc,
    CleanTakesBlocksOf64 Bpcc,
    CleanLooksAtSlotsBeforeTheTable Bpcc,
    CleanLooksAtTheStateBeforeTheTable Bpcc,
    CleanLooksAtTheBlockBeforeTheTable Bpcc,
    CleanLooksAtTheBlockBeforeSlots Bpcc,
    PickDoesNothing Bpcc,
    PickFillsBeforeItRefuses Bpcc,
    PickErasesWhatItCounts Bpcc,
    PickSaysWhatItFrees Bpcc,
    PickTakesMoreWords Bpcc,
    PickTakesFewerWords Bpcc,
    PickLooksAtSlotsBeforeTheTable Bpcc,
    PickLooksAtTheStateBeforeSlots Bpcc,
    PickLooksAtTheBlockBeforeTheState Bpcc,
    PickLooksAtTheNumberFirst Bpcc,
    PickLooksAtTheNumberBeforeTheTable Bpcc,
    PickLooksAtTheNumberBeforeTheBlock Bpcc,
    PickLooksAtNoBlock Bpcc,
    PickGoesRoundToTheStart Bpcc,
    PickSkipsTheStart Bpcc,
    PickStopsAtTheEnd Bpcc,
    PickEndsAtTheEnd Bpcc,
    PickStartsAtBlock0 Bpcc,
    PickGoesBack Bpcc,
    PickLooksAtOneMore Bpcc,
    PickLooksAtAll Bpcc,
    PickTakesTheLastOnTies Bpcc,
    PickTakesTheLowestOnTies Bpcc,
    PickTellsThePlace Bpcc,
    PickTellsTheFirstSlot Bpcc,
    PickTellsN Bpcc,
    PickJudgesTheBlockAsOneList Bpcc,
    PickCountsBlankSlots Bpcc,
    PickCountsEveryRecord Bpcc,
    PickCountsNeededRecords Bpcc,
    PickCountsRecordsInFlight Bpcc,
    PickCountsObsoleteRecordsAlone Bpcc,
    PickCountsTwinsOnce Bpcc,
    PickEndsTheLastBlockEarly Bpcc,
    PickWrapsTheBound Bpcc,
    PickTellsTheSize Bpcc,
    PickTakesTheLargestOfAll Bpcc,
    PickTakesTheSmallestUnseen Bpcc,
    PickTakesTheFirstUnseen Bpcc,
    PickLooksIntoUnseenBlocks Bpcc,
    SweepDoesNothing Bpcc,
    SweepKeepsExposedRecords Bpcc,
    SweepKeepsPagesInFlight Bpcc,
    SweepKeepsWrittenPagesAlone Bpcc,
    SweepTakesRecordsInFlight Bpcc,
    SweepKeepsObsoleteRecords Bpcc,
    SweepJudgesBeforeItErases Bpcc,
    SweepTakesNeededRecords Bpcc,
    SweepKeepsEveryTwin Bpcc,
    SweepKeepsTheHighestTwin Bpcc,
    SweepTakesAllTwins Bpcc,
    SweepKeepsTheContents Bpcc,
    SweepBlanks32Bytes Bpcc,
    SweepSaysNothingToErase Bpcc,
    SweepCountsSlots Bpcc,
    SweepLooksAtTheStateBeforeSlots Bpcc,
    SuggestSaysNothingToErase Bpcc,
    SuggestNamesABlankSlot Bpcc,
    SuggestNamesTheHighestSlot Bpcc,
    SuggestSkipsSlotZero Bpcc,
    RecoverDoesNothing,
    RecoverPutsEveryPageAtZero,
    RecoverTakesUsedFromVersionsAlone,
    RecoverFillsBeforeItRefuses,
    RecoverCallsABrokenRingUncommitted,
    RecoverStopsAtTheStartsPage,
    RecoverLooksAtTheLowestLaterVersion Bpcc,
    RecoverLooksForStraddlers Scc,
    RecoverTakesTheHighestVersion,
    RecoverTakesTheLowestVersion Scc,
    RecoverNeedsNoSecondVersion Scc,
    RecoverTakesEqualRecords Scc,
    RecoverCountsNoReturn,
    RecoverCountsNoUncommittedEnd,
    RecoverCountsEachPageOnce,
    RecoverCountsLinksWhereItRefuses,
    DoubtfulDoesNothing Bpcc,
    DoubtfulLeavesAFilling Bpcc,
    DoubtfulFillsBeforeItRefuses Bpcc,
    DoubtfulCountsWhereItRefuses Bpcc,
    DoubtfulTakesMoreWords Bpcc,
    DoubtfulTakesFewerWords Bpcc,
    DoubtfulLooksAtTheListBeforeSlots Bpcc,
    DoubtfulLooksAtTheNumberFirst Bpcc,
    DoubtfulLooksAtTheNumberBeforeSlots Bpcc,
    DoubtfulLooksAtTheNumberBeforeTheList Bpcc,
    DoubtfulRecoversBeforeItLooksAtTheList Bpcc,
    DoubtfulRecoversBeforeItLooksAtTheNumber Bpcc,
    DoubtfulRefusesAnEmptyList Bpcc,
    DoubtfulFindsNothingInAnEmptyList Bpcc,
    DoubtfulTakesBlankSlots Bpcc,
    DoubtfulTakesASlotTwice Bpcc,
    DoubtfulTakesSlotsPastS Bpcc,
    DoubtfulTakesNineSlots Bpcc,
    DoubtfulRefusesEightSlots Bpcc,
    DoubtfulGivesRecoverysRefusal Bpcc,
    DoubtfulNeedsTheVolumeItself Bpcc,
    DoubtfulNeedsEveryFilling Bpcc,
    DoubtfulBlanksEverySlot Bpcc,
    DoubtfulBlanksNoSlot Bpcc,
    DoubtfulBlanksOneSlotAtATime Bpcc,
    DoubtfulBlanksInTheListsOrder Bpcc,
    DoubtfulBlanksTwinsTogether Bpcc,
    DoubtfulSkipsTheVolumeItself Bpcc,
    DoubtfulSkipsAllBlank Bpcc,
    DoubtfulStopsAtTheFirstFilling Bpcc,
    DoubtfulCountsEveryFilling Bpcc,
    DoubtfulCountsTwinsOnce Bpcc,
    DoubtfulCountsOutcomes Bpcc,
    DoubtfulCountsSlots Bpcc,
    DoubtfulTakesTheHighestOfAll Bpcc,
    DoubtfulTakesTheLowestOfAll Bpcc,
    DoubtfulTakesTheFirstAndTheLast Bpcc,
    DoubtfulTakesTheLowestFilling Bpcc,
    DoubtfulStartsAtZero Bpcc,
    DoubtfulComparesSigned Bpcc,
    DoubtfulTellsUsedVersions Bpcc,
    DoubtfulTellsHighestVersions Bpcc,
    DoubtfulTellsTheLowestTwice Bpcc,
    DoubtfulTellsTheHighestTwice Bpcc,
    DoubtfulExchangesTheEnds Bpcc,
    DoubtfulTellsAllLowestFirst Bpcc,
    CountGivesZero Bpcc,
    CountLooksAtOneBitOfEachByte Bpcc,
    CountStopsAt256 Bpcc,
    ReadDoesNothing,
    ReadCopies32Bytes,
    ReadTakesSlotsFor32Bytes,
    ReadTakesTheHighestSlot,
    RefusesBySlotsBeforeState,
}

/// The calls that look for twins.
const OF_TWINS: [Name; 7] = [Name::Erase, Name::Suggest, Name::Clean, Name::Pick, Name::Sweep, Name::Recover, Name::Doubtful];

/// The calls that take a table of blocks.
const OF_BLOCKS: [Name; 3] = [Name::CheckBlocks, Name::Clean, Name::Pick];

/// Every fault of a family's calls; those of a call for each of its calls that may have them.
pub fn faults(family: Family) -> Vec<Fault> {
    let plain = PLAIN.iter().filter(|(_, of)| of.is_empty() || of.contains(&family)).map(|&(fault, _)| fault);
    let takes_any_width = family.calls().filter(|&name| name != Name::Count).map(Fault::TakesAnyWidth);
    let of_twins = |name: Name| [Fault::IgnoresTwins(name), Fault::TakesEqualVersionsForTwins(name), Fault::ComparesNoBytesOfTwins(name)];
    let of_blocks = |name: Name| {
        [
            Fault::TakesNoStarts(name),
            Fault::Takes17Starts(name),
            Fault::TakesAnyFirstStart(name),
            Fault::TakesEqualStarts(name),
            Fault::TakesAStartAtS(name),
            Fault::LooksAtTheTableFirst(name),
        ]
    };
    let of_both = plain.chain(takes_any_width).chain(family.calls().map(Fault::Refuses64));
    match family {
        Family::Bpcc => of_both.chain(OF_TWINS.into_iter().flat_map(of_twins)).chain(OF_BLOCKS.into_iter().flat_map(of_blocks)).collect(),
        Family::Scc => of_both.collect(),
    }
}

/// The faults of a family that lose a completed page at a width, so that runs with crashes find them without a second implementation.
pub fn losing(family: Family, width: u32) -> Vec<Fault> {
    let own: &[Fault] = match family {
        Family::Bpcc => &[Fault::EraseJudgesAfterBlanking, Fault::EraseIgnoresStraddlers, Fault::EraseLooksAtHighestLinksOnly],
        Family::Scc => &[
            Fault::WriteBuriesEveryRecord,
            Fault::WriteLooksAtPagesOnly,
            Fault::WriteLooksAtLinksOnly,
            Fault::RecoverLooksForStraddlers,
            Fault::RecoverTakesTheLowestVersion,
        ],
    };
    let wide: &[Fault] = if width == 64 { &LOSING_64 } else { &[] };
    [&LOSING, own, wide].concat()
}

/// The faults that lose a completed page, or the whole volume, where a volume is cleaned. As its calls are lent other tables of blocks, a
/// block may have twins within it.
pub fn losing_in_blocks(family: Family, width: u32) -> Vec<Fault> {
    match (family, width) {
        (Family::Scc, _) => Vec::new(),
        (_, 64) => [&LOSING_IN_BLOCKS[..], &[Fault::CleanCopies32Bytes]].concat(),
        _ => LOSING_IN_BLOCKS.to_vec(),
    }
}

/// The faults that lose a page where a volume is swept, or leave another number of records than they may.
pub fn losing_in_sweeps(family: Family) -> &'static [Fault] {
    match family {
        Family::Bpcc => &LOSING_IN_SWEEPS,
        Family::Scc => &[],
    }
}

/// The faults of a pick that break what is shown of it, or alter something.
pub fn breaking_picks(family: Family) -> &'static [Fault] {
    match family {
        Family::Bpcc => &BREAKING_PICKS,
        Family::Scc => &[],
    }
}

/// The faults of doubtful that runs find: what a set's last record decides, and what may be erased, is told otherwise.
pub fn breaking_doubts(family: Family) -> &'static [Fault] {
    match family {
        Family::Bpcc => &BREAKING_DOUBTS,
        Family::Scc => &[],
    }
}

const BREAKING_PICKS: [Fault; 25] = [
    Fault::PickDoesNothing,
    Fault::PickErasesWhatItCounts,
    Fault::PickSaysWhatItFrees,
    Fault::PickSkipsTheStart,
    Fault::PickStopsAtTheEnd,
    Fault::PickEndsAtTheEnd,
    Fault::PickStartsAtBlock0,
    Fault::PickGoesBack,
    Fault::PickLooksAtOneMore,
    Fault::PickLooksAtAll,
    Fault::PickTakesTheLastOnTies,
    Fault::PickTakesTheLowestOnTies,
    Fault::PickTellsThePlace,
    Fault::PickTellsTheFirstSlot,
    Fault::PickJudgesTheBlockAsOneList,
    Fault::PickCountsBlankSlots,
    Fault::PickCountsEveryRecord,
    Fault::PickCountsRecordsInFlight,
    Fault::PickCountsObsoleteRecordsAlone,
    Fault::PickCountsTwinsOnce,
    Fault::PickEndsTheLastBlockEarly,
    Fault::PickTakesTheLargestOfAll,
    Fault::PickTakesTheSmallestUnseen,
    Fault::PickTakesTheFirstUnseen,
    Fault::IgnoresTwins(Name::Pick),
];

const BREAKING_DOUBTS: [Fault; 19] = [
    Fault::DoubtfulDoesNothing,
    Fault::DoubtfulLeavesAFilling,
    Fault::DoubtfulBlanksEverySlot,
    Fault::DoubtfulBlanksNoSlot,
    Fault::DoubtfulBlanksOneSlotAtATime,
    Fault::DoubtfulBlanksInTheListsOrder,
    Fault::DoubtfulSkipsTheVolumeItself,
    Fault::DoubtfulSkipsAllBlank,
    Fault::DoubtfulStopsAtTheFirstFilling,
    Fault::DoubtfulCountsOutcomes,
    Fault::DoubtfulCountsSlots,
    Fault::DoubtfulTakesTheFirstAndTheLast,
    Fault::DoubtfulStartsAtZero,
    Fault::DoubtfulTellsUsedVersions,
    Fault::DoubtfulTellsHighestVersions,
    Fault::DoubtfulTellsTheLowestTwice,
    Fault::DoubtfulTellsTheHighestTwice,
    Fault::DoubtfulExchangesTheEnds,
    Fault::DoubtfulTellsAllLowestFirst,
];

const LOSING: [Fault; 8] = [
    Fault::RecoverCallsABrokenRingUncommitted,
    Fault::WriteSkipsTheFlash,
    Fault::WriteSkipsTheContents,
    Fault::WriteStoresTheWholeTransaction,
    Fault::EraseTakesRecordsInFlight,
    Fault::RecoverPutsEveryPageAtZero,
    Fault::RecoverTakesTheHighestVersion,
    Fault::RecoverTakesUsedFromVersionsAlone,
];

const LOSING_64: [Fault; 3] = [Fault::WriteCopies32Bytes, Fault::ReadCopies32Bytes, Fault::ReadTakesSlotsFor32Bytes];

const LOSING_IN_BLOCKS: [Fault; 10] = [
    Fault::EraseTakesAllTwins,
    Fault::CleanCopiesIntoTheBlock,
    Fault::CleanForgetsTheContents,
    Fault::CleanJudgesOneByOne,
    Fault::CleanJudgesAfterBlanking,
    Fault::CleanBlanksBeforeItCopies,
    Fault::CleanEndsTheLastBlockEarly,
    Fault::CleanTakesBlocksOf64,
    Fault::DriverBlanksBeforeItCopies,
    Fault::IgnoresTwins(Name::Recover),
];

const LOSING_IN_SWEEPS: [Fault; 12] = [
    Fault::SweepDoesNothing,
    Fault::SweepKeepsExposedRecords,
    Fault::SweepKeepsPagesInFlight,
    Fault::SweepTakesRecordsInFlight,
    Fault::SweepKeepsObsoleteRecords,
    Fault::SweepJudgesBeforeItErases,
    Fault::SweepKeepsEveryTwin,
    Fault::SweepTakesAllTwins,
    Fault::IgnoresTwins(Name::Sweep),
    Fault::SweepSaysNothingToErase,
    Fault::DriverSweepsRising,
    Fault::DriverSweepsObsoleteWithExposed,
];
