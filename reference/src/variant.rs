//! Wrong ways to keep the book, its editions and its rounding difference, to share,
//! to report the hedges, to reckon the calendar, to check a profile, to write and
//! read packed decimal and to run `settle`. The stored cases must show each of them.

#[derive(Clone, Copy, Debug, Default, PartialEq, Eq)]
pub enum Variant {
    #[default]
    Right,

    // The book.
    /// Rounds each interval's amount to cents, not the day's sum.
    RoundsEachInterval,
    /// Weighs the reference price with IEQ itself, negative ones too.
    WeighsNegativeIeq,
    /// Values the residual of day r at the reference price of the closing day.
    PricesResidualAtClosingDay,
    /// Takes the closing day's hedges off the load of day r.
    LoadsResidualWithClosingDayHedges,
    /// Settles the first day truly and posts zeros later.
    PostsZerosAfterFirstDay,
    /// Accepts files and stores none of their rows.
    StoresNothing,
    /// Stores the rows before the one that a file is refused for.
    StoresRowsOfRefusedFile,
    /// Reports a datum absent without searching the flags.
    SaysAbsentUnsearched,
    /// Counts 48 residuals an account at every close.
    InventsResidualCount,
    /// Writes the first day's statement only: lent again, it stands for all days.
    OneStatementForAllDays,
    RefusesEverything,

    // The editions: that of a close.
    /// Takes the closing day for the residual day.
    EditionByClosingDay,
    /// A book has one edition, that of its first day.
    EditionByFirstDay,
    /// X itself still has the first edition.
    SecondAfterChangeDay,
    /// The day before X has the second edition.
    SecondFromDayBefore,
    SecondOnChangeDayAlone,
    /// Exchanges the editions.
    FirstFromChangeDay,
    FirstIfChangedBeforeFirstDay,
    FirstIfChangedUpToFirstDay,
    /// Compares with an X of 0.
    NeverIsAlways,
    SecondNeverUsed,
    SecondAlwaysUsed,
    StatementInFirstEdition,
    BalancesInFirstEdition,
    /// Clears word 7.
    CloseForgetsChangeDay,

    // The editions: X at the opening.
    OpensChangeDay1,
    OpensChangeDay9496,
    OpensChangeDay36525,
    /// Judges X from above only.
    OpensEarlyChangeDays,
    /// Judges X from below only.
    OpensLateChangeDays,
    OpensAnyChangeDay,
    ReadsChangeDayOf32Bits,
    /// Refuses an X of 0.
    RefusesNever,
    RefusesChangeDay9497,
    RefusesChangeDay36524,
    RefusesChangeBeforeFirstDay,
    RefusesChangeUpToFirstDay,
    /// Refuses an X that no close's residual day reaches.
    RefusesUnreachedChangeDay,
    /// Gives 2 before the 1 of an X.
    SizeBeforeChangeDay,
    /// Leaves word 7 zero.
    ChangeDayNotWritten,
    /// Writes F for an X before it.
    WritesFirstDayForEarlier,
    /// Writes 0 for an X that no close's residual day reaches.
    WritesNeverForUnreached,

    // The editions: X in word 7 of a lent book.
    WordMustBeZero,
    WordUnjudged,
    /// Takes words below 9,497, negative ones too.
    WordJudgedFromAbove,
    /// Takes words above 36,524.
    WordJudgedFromBelow,
    TakesWord1,
    TakesWord9496,
    TakesWord36525,
    RefusesWord0,
    RefusesWord9497,
    RefusesWord36524,
    RefusesWordBeforeFirstDay,
    /// Refuses an X before the next day to close.
    RefusesPassedWord,
    SubmitLeavesWordUnjudged,
    CloseLeavesWordUnjudged,
    /// A close gives 9 and 10 before the 3 of an X.
    WordJudgedAfterStatement,

    // The second edition of the share: its sums.
    SumsFromLastAccount,
    /// An account's sums are those of the account before it.
    SumsWithoutAccount,
    /// A close's sums go on from one interval to the next.
    SumsOfEarlierIntervals,
    /// R × UEGQ / S of the load and the spare generation that are left.
    SharesWhatIsLeft,

    // The second edition of the share: its roundings.
    RoundsSumsUp,
    RoundsSumsToNearest,
    RoundsSumWithUp,
    RoundsSumBeforeUp,
    RoundsDifferenceUp,
    RoundsDifferenceToNearest,
    /// R × (running sum / S rounded down).
    DividesSumsFirst,
    DividesInDoubles,

    // The second edition of the share: shares rounded down, and then the odd kWh.
    LeftoverToFirst,
    LeftoverToLast,
    LeftoverToLargest,
    LeftoverOneEachFromFirst,
    LeftoverOneEachFromLast,
    /// One each to the largest remainders, the first of equal ones.
    LargestRemaindersFirst,
    /// One each to the largest remainders, the last of equal ones.
    LargestRemaindersLast,

    // The second edition of the share: the cases without a division.
    DividesWhereAllIsTaken,
    DividesNegativeLoad,
    TakesMagnitudeOfLoad,
    /// Shares R alike where S is 0.
    SharesWithoutSpare,

    // The share calls.
    FirstCallIsSecond,
    SecondCallIsFirst,
    RefusesWithoutSpare,
    LoadUnjudged,
    LoadFromMinusOneBillion,
    RefusesNegativeLoad,
    TakesNoAccounts,
    Refuses32Accounts,
    Takes33Accounts,
    UegqsUnjudged,
    TakesNegativeUegqs,
    TakesLargeUegqs,
    /// Leaves UEGQ unjudged where no account has a share.
    UegqsUnjudgedWithoutLoad,
    LastUegqUnjudged,
    /// Gives 10 before 1.
    OutputBeforeRanges,
    /// Gives 10 where the output is longer than the list of UEGQ.
    NeedsExactOutput,
    /// Writes the shares that have room, then gives 10.
    WritesBeforeTooShort,
    ClearsRefusedOutput,
    ClearsWordsBeyond,

    // The hedge total of a residual day: its rounds.
    LeavesOutFirstTranches,
    LeavesOutSecondTranches,
    LeavesOutThirdTranches,
    /// Takes the figure after the base round.
    LeavesOutTranches,
    /// The base round counts BVQ and TVQ.
    CountsTendersInBaseRound,
    /// The third tranches alone.
    StartsAnewAtEachRound,
    /// Base quantities and third tranches.
    StartsFromBaseAtEachRound,
    /// A close's figure goes on from one interval to the next.
    FigureOfEarlierIntervals,
    /// There are as many rounds as the first account has quantities.
    AsManyRoundsAsFirstAccount,

    // The hedge total of a residual day: what a round reads.
    /// Reads the first tranche for the second.
    ReadsFirstTranchesTwice,
    /// Reads the second tranche for the third.
    ReadsSecondTranchesTwice,
    ReadsTranchePrices,
    /// Reads no tranche of an account with BVQ 0.
    SkipsTranchesWithoutBase,
    /// Reads no tranche of an account with MQ 0.
    SkipsTranchesWithoutMq,
    /// Reads one tranche less of each account than it has.
    LeavesOutEachLastTranche,
    /// A tranche's round ends at the first account without it.
    RoundEndsWithoutTranche,
    BaseRoundWithoutLastAccount,
    TrancheRoundsWithoutLastAccount,

    // The rounding difference: that of a day.
    /// Posted amounts of the accounts less their exact ones.
    DifferenceReversed,
    DifferenceWithoutFirstAccount,
    DifferenceWithoutLastAccount,
    /// Takes the rounded amounts for the exact ones: it is always 0.
    DifferenceOfRoundedAmounts,
    /// Rounds the sum of all accounts once.
    DifferenceOfSum,
    /// Adds up how far each account is off, either way.
    DifferenceOfMagnitudes,
    /// Takes amounts for posted that are cut to whole cents.
    DifferenceOfCutAmounts,
    /// Takes amounts for posted that are rounded down to whole cents.
    DifferenceOfFlooredAmounts,
    /// A half cent counts as if it were posted toward zero.
    DifferenceWithTiesTowardZero,
    /// Of the base and tender amounts, rounded by themselves.
    DifferenceWithoutResiduals,
    /// Rounds base and tender amounts and those of day r apart.
    DifferenceOfPartsApart,
    /// Whole cents, cut.
    DifferenceInCents,

    // The rounding difference: word 8 after a call.
    /// Holds the last day's difference alone.
    Word8Overwritten,
    Word8NotGrown,
    Word8GrowsReversed,
    /// Grows at a 10 too, if no datum is absent.
    Word8GrownWhenTooShort,
    /// Grows at an 11 too, by the base and tender amounts if their rows are there.
    Word8GrownWhenAbsent,
    /// Leaves word 8 of a new book as it was lent.
    OpeningKeepsWord8,

    // The rounding difference: what a close tells.
    /// Tells word 8 after the close.
    TellsRunningSum,
    /// Tells word 8 before the close.
    TellsSumBefore,
    TellsNoDifference,
    TellsReversedDifference,
    /// Tells word 8 at a 9, a 10 and an 11.
    TellsSumWhenRefused,
    /// Tells at a 10 what the close would have told.
    TellsDifferenceWhenTooShort,
    /// Tells at an 11 that of the base and tender amounts.
    TellsDifferenceWhenAbsent,

    // The rounding difference: word 8 of a lent book.
    Word8Unjudged,
    Word8MustBeZero,
    Word8JudgedFromAbove,
    Word8JudgedFromBelow,
    /// The bound itself is too much.
    BoundExclusive,
    /// The bound is that of C − F + 1 days.
    BoundOfDayMore,
    /// The bound is that of C − F − 1 days.
    BoundOfDayLess,
    /// A book without a closed day has the bound of one.
    BoundOfOneDayAtLeast,
    /// The bound is that of one account.
    BoundWithoutAccounts,
    BoundOf499,
    BoundOf1000,
    SubmitLeavesWord8Unjudged,
    CloseLeavesWord8Unjudged,
    /// A close gives 9 and 10 before the 3 of word 8.
    Word8JudgedAfterStatement,
    /// Takes the word after word 8 for one that may be anything.
    Word9Unjudged,

    // The calendar.
    /// The day of a date of year −2026 is that of 2026.
    TakesMagnitudeOfYear,
    /// Residual data of a month of −2026 fall due as those of 2026.
    TakesMagnitudeOfDueYear,
    /// Residual data of month −1 fall due as those of January.
    TakesMagnitudeOfDueMonth,
    /// Says that the due month lies in 2100 before the holidays are judged.
    SaysDuePastLastDayBeforeHolidays,

    // The profile check: its pairs and their limits.
    /// Pairs begin at even-numbered intervals, 48 and 1 being the last pair.
    PairsFromSecondInterval,
    /// Any two intervals in a row are a pair.
    OverlappingPairs,
    FirstPairUnjudged,
    LastPairUnjudged,
    /// Compares the total alone.
    PairsUnjudged,
    /// Holds each interval against half the limits of a pair.
    HalvesLimits,
    FloorRoundedDown,
    CapRoundedUp,
    LimitsToNearest,
    /// 80 per cent itself is too little.
    ExclusiveFloor,
    /// 125 per cent itself is too much.
    ExclusiveCap,
    FloorOf75PerCent,
    CapOf120PerCent,
    NoFloor,
    NoCap,
    /// A pair's limits are of T / 24, not of D.
    LimitsOfTotal,
    /// A pair's limits are of 2 × D, as if D were an interval's.
    ContractedPerInterval,
    /// A pair's limits are of D / 24, as if D were the day's.
    ContractedPerDay,
    /// Rounds D / 5 and D / 4 down before it multiplies them.
    DividesBeforeMultiplying,

    // The profile check: the total.
    TotalNotCompared,
    /// Says yes where all 48 add to less than T.
    TotalAtMost,
    /// Says yes where all 48 add to more than T.
    TotalAtLeast,
    /// Says no of an impossible T.
    NeverImpossible,
    ImpossibleBelowOnly,
    ImpossibleAboveOnly,
    /// The least and the greatest total are impossible too.
    EndsImpossible,
    /// T is possible from 19.2 × D to 30 × D.
    ImpossibleBy19And30,
    /// Says no where a pair breaks its limits, before T is judged.
    ImpossibleAfterQuantities,
    /// Says that T is impossible where a pair breaks its limits.
    ImpossibleForBrokenPairs,
    /// Says that T is impossible where the quantities do not add to it.
    ImpossibleForOtherSum,

    // The profile check: ranges.
    ImpossibleBeforeRange,
    /// Judges T before the list, but after the ranges of T and D.
    ImpossibleBeforeList,
    /// Judges T before the quantities' range, but after the list's length.
    ImpossibleBeforeQuantities,
    /// Takes a list of 47, the last quantity being 0.
    TakesShortProfile,
    /// Takes a list of 49, the last quantity being ignored.
    TakesLongProfile,
    TakesAnyWholePairs,
    TakesEmptyProfile,
    QuantitiesUnjudged,
    TakesNegativeQuantities,
    TakesLargeQuantities,
    /// Leaves the quantities after a pair that breaks its limits unjudged.
    LeavesAtBrokenPair,
    /// Leaves the quantities after those that add to more than T unjudged.
    LeavesAtPassedTotal,
    TotalUnjudged,
    /// T has no more than the caps of the largest D.
    TotalUpTo300Million,
    ContractedUnjudged,
    RefusesContractedOfZero,

    // Packed decimal: the form of a field, written and read.
    /// Digits least significant first.
    DigitsFromLeast,
    /// The sign is the first half byte.
    SignInFirstHalf,
    /// A field's bytes in reverse order.
    BytesReversed,
    /// Hex D for zero and above, hex C below zero.
    ExchangesSigns,
    DigitsOfBase16,

    // Packed decimal: both calls.
    TakesNoAmounts,
    TakesOneAmount,
    RefusesTwoAmounts,
    Refuses33Amounts,
    Takes34Amounts,
    /// Gives 10 before any 1.
    TooShortBeforeNumber,
    /// Gives 10 where the output is longer than what is written.
    NeedsExactRoom,
    /// Writes what has room, then gives 10.
    FillsRoomBeforeTooShort,
    /// Clears the output beyond what is written.
    ClearsBeyondStatement,

    // Packed decimal: writing.
    /// Takes −1,000,000,000,000,000, which has 16 digits.
    TakesMinusTenTo15,
    /// Drops the first of 16 digits.
    Takes16Digits,
    /// The magnitude of the least word is negative.
    WrapsLeastAmount,
    /// Refuses 999,999,999,999,999 either way.
    Refuses15Nines,
    FirstAmountAloneJudged,
    LastAmountUnjudged,
    /// Gives 10 before the 1 of an amount.
    TooShortBeforeAmounts,
    /// Writes the amounts before the one that it refuses.
    WritesUpToBadAmount,
    WritesZeroWithD,
    WritesPlusAsF,
    WritesNegativeAsPositive,

    // Packed decimal: numbers 1 and 10 of reading.
    /// Counts a cut field as a whole one.
    RoundsFieldsUp,
    /// Gives 10 where a cut field has no word.
    RoomForCutField,
    /// Gives 10 after any 16.
    TooShortAfterFields,
    /// Gives 10 after the 16 of whole fields, before that of a cut one.
    TooShortBeforeCutAlone,

    // Packed decimal: a field that is read.
    TakesNegativeZero,
    /// Takes hex F for zero and above.
    TakesSignF,
    /// Takes hex A and E for zero and above.
    TakesSignsAAndE,
    /// Takes hex B for below zero.
    TakesSignB,
    /// Every half byte but hex D is for zero and above.
    SignsUnjudged,
    UpperHalvesUnjudged,
    /// Leaves digits in lower half bytes unjudged.
    LowerHalvesUnjudged,
    LastDigitUnjudged,
    ReadsNegativeAsPositive,

    // Packed decimal: which wrong half byte is named, and where.
    /// Judges a field's sign before its digits.
    SignBeforeDigits,
    /// Names a field's last wrong half byte.
    LastWrongOfField,
    /// Names the last wrong field.
    LastWrongField,
    /// Judges the digits of all fields before their signs.
    DigitsOfAllFieldsFirst,
    /// Judges negative zeros after all digits and signs.
    NegativeZerosAfterAllFields,
    WrongDigitAtFieldStart,
    WrongSignAtFieldStart,
    NegativeZeroAtFieldStart,
    /// Names the last byte of digits alone.
    NegativeZeroAtByteBefore,
    PositionsInHalfBytes,
    PositionsInFields,
    /// Counts positions from the field's first byte.
    PositionsWithinField,

    // Packed decimal: a cut last field.
    /// Names a cut field before a wrong one.
    CutBeforeFields,
    /// Takes the whole fields before it.
    IgnoresCutField,
    /// Judges the digits that are there.
    JudgesCutField,
    CutAtLastByte,
    /// Names the first byte that is not there.
    CutAtFileEnd,
    CutGives1,

    // Packed decimal: what is read.
    /// Writes the amounts before a wrong field.
    ReadsUpToWrongField,
    /// Counts 0 amounts where it accepts.
    CountsNothing,
    /// Counts the amounts before a wrong field.
    CountsBeforeWrongField,

    // `settle`: its opening.
    ExchangesLagAndHorizon,
    ExchangesAccountsAndLag,
    ReadsFirstDayBigEndian,
    /// First days above 32,767 are negative.
    ReadsFirstDaySigned,
    BookOf3000Words,
    BookOf5071Words,
    /// N = 1 with L + H = 4 fits.
    BookOf5448Words,
    BookOfAnySize,
    /// Performs the items on a book that is all zero.
    ReadsOnAfterRefusedOpening,
    SaysBadAtRefusedOpening,
    /// Takes the opening's missing bytes for zeros.
    FillsCutOpening,
    SilentOnEmptyInput,
    /// Opens with X = F.
    ChangesOnFirstDay,

    // `settle`: its items.
    EndsAfterFirstItem,
    EndsAtRefusedSubmission,
    EndsAtRefusedClose,
    EndsWithFinishedBook,
    IgnoresUnknownCommands,
    TakesLowerCaseCommands,
    SkipsLineFeeds,
    ReadsOnly65536Bytes,
    /// Goes on at the byte after the position that `bad` names.
    GoesOnAfterBad,
    /// Ends without a line at an item cut short.
    IgnoresCutItem,
    /// Submits as much of a cut file as there is.
    SubmitsCutFile,
    /// Goes on at the byte that a file was refused for.
    GoesOnInRefusedFile,

    // `settle`: a file's length.
    LongestFileOf1000,
    LongestFileOf16383,
    LongestFileOf16385,
    FilesOfAnyLength,
    /// Submits 16,384 bytes of a longer file and goes on after them.
    CutsLongFile,
    ReadsLengthBigEndian,
    /// Takes lengths above 32,767, being negative, for 0.
    ReadsLengthSigned,
    /// The length counts its own two bytes.
    LengthCountsItself,
    SaysBadAtEmptyFile,
    AcceptsEmptyFile,

    // `settle`: the position after `bad`.
    BadWithoutPosition,
    /// The items' positions do not advance.
    BadAtFirstItem,
    BadAtSubmitByte,
    /// Names a submission by its file's first byte.
    BadAtFile,
    BadAtInputEnd,
    /// Counts positions from the first byte after the opening.
    CountsFromAfterOpening,
    CountsFromOne,
    CountsItems,
    PositionsOf16Bits,
    /// Prints nothing but `bad` for an input with a bad item.
    DropsLinesBeforeBad,

    // `settle`: its other lines.
    OpensWithoutPosition,
    MisspellsSubmit,
    SubmitsWithoutPosition,
    PrintsPositionBeforeNumber,
    /// Counts a submission's position from the input's start.
    PrintsPositionInInput,
    RefusesCloseWithoutPosition,
    ClosesWithPosition,
    ClosesWithDifference,
    PrintsCountBeforeDay,
    OmitsCountOfZero,
    PrintsNextDay,
    OmitsMsslAmount,
    PrintsMsslAmountFirst,
    /// The MSSL's amount is the sum, not minus the sum.
    PrintsMsslAmountUnnegated,
    /// Prints the amounts of 32 accounts.
    PrintsWholeStatement,
    PrintsAmountsUnsigned,
    PrintsAmountsOf32Bits,
    PrintsBalances,
    /// Has no room for the MSSL's amount where N = 2.
    StatementOfTwoWords,
    EndsLinesWithSpace,
    OmitsLastLineFeed,
}

/// The wrong books.
pub const WRONG_BOOKS: [Variant; 11] = [
    Variant::RoundsEachInterval,
    Variant::WeighsNegativeIeq,
    Variant::PricesResidualAtClosingDay,
    Variant::LoadsResidualWithClosingDayHedges,
    Variant::PostsZerosAfterFirstDay,
    Variant::StoresNothing,
    Variant::StoresRowsOfRefusedFile,
    Variant::SaysAbsentUnsearched,
    Variant::InventsResidualCount,
    Variant::OneStatementForAllDays,
    Variant::RefusesEverything,
];

/// The wrong editions of a close.
pub const WRONG_EDITIONS: [Variant; 14] = [
    Variant::EditionByClosingDay,
    Variant::EditionByFirstDay,
    Variant::SecondAfterChangeDay,
    Variant::SecondFromDayBefore,
    Variant::SecondOnChangeDayAlone,
    Variant::FirstFromChangeDay,
    Variant::FirstIfChangedBeforeFirstDay,
    Variant::FirstIfChangedUpToFirstDay,
    Variant::NeverIsAlways,
    Variant::SecondNeverUsed,
    Variant::SecondAlwaysUsed,
    Variant::StatementInFirstEdition,
    Variant::BalancesInFirstEdition,
    Variant::CloseForgetsChangeDay,
];

/// The wrong openings with a change day.
pub const WRONG_CHANGE_DAYS: [Variant; 17] = [
    Variant::OpensChangeDay1,
    Variant::OpensChangeDay9496,
    Variant::OpensChangeDay36525,
    Variant::OpensEarlyChangeDays,
    Variant::OpensLateChangeDays,
    Variant::OpensAnyChangeDay,
    Variant::ReadsChangeDayOf32Bits,
    Variant::RefusesNever,
    Variant::RefusesChangeDay9497,
    Variant::RefusesChangeDay36524,
    Variant::RefusesChangeBeforeFirstDay,
    Variant::RefusesChangeUpToFirstDay,
    Variant::RefusesUnreachedChangeDay,
    Variant::SizeBeforeChangeDay,
    Variant::ChangeDayNotWritten,
    Variant::WritesFirstDayForEarlier,
    Variant::WritesNeverForUnreached,
];

/// The wrong judges of word 7.
pub const WRONG_WORDS: [Variant; 15] = [
    Variant::WordMustBeZero,
    Variant::WordUnjudged,
    Variant::WordJudgedFromAbove,
    Variant::WordJudgedFromBelow,
    Variant::TakesWord1,
    Variant::TakesWord9496,
    Variant::TakesWord36525,
    Variant::RefusesWord0,
    Variant::RefusesWord9497,
    Variant::RefusesWord36524,
    Variant::RefusesWordBeforeFirstDay,
    Variant::RefusesPassedWord,
    Variant::SubmitLeavesWordUnjudged,
    Variant::CloseLeavesWordUnjudged,
    Variant::WordJudgedAfterStatement,
];

/// Those of the three lists above that change a book of X = 0, and so `settle`.
pub const WRONG_WITHOUT_CHANGE_DAY: [Variant; 4] = [
    Variant::NeverIsAlways,
    Variant::SecondAlwaysUsed,
    Variant::RefusesNever,
    Variant::RefusesWord0,
];

/// The wrong shares of the second edition, in its call and in the close.
pub const WRONG_SHARES: [Variant; 23] = [
    Variant::SumsFromLastAccount,
    Variant::SumsWithoutAccount,
    Variant::SumsOfEarlierIntervals,
    Variant::SharesWhatIsLeft,
    Variant::RoundsSumsUp,
    Variant::RoundsSumsToNearest,
    Variant::RoundsSumWithUp,
    Variant::RoundsSumBeforeUp,
    Variant::RoundsDifferenceUp,
    Variant::RoundsDifferenceToNearest,
    Variant::DividesSumsFirst,
    Variant::DividesInDoubles,
    Variant::LeftoverToFirst,
    Variant::LeftoverToLast,
    Variant::LeftoverToLargest,
    Variant::LeftoverOneEachFromFirst,
    Variant::LeftoverOneEachFromLast,
    Variant::LargestRemaindersFirst,
    Variant::LargestRemaindersLast,
    Variant::DividesWhereAllIsTaken,
    Variant::DividesNegativeLoad,
    Variant::TakesMagnitudeOfLoad,
    Variant::SharesWithoutSpare,
];

/// The wrong share calls, of which the book knows nothing.
pub const WRONG_SHARE_CALLS: [Variant; 19] = [
    Variant::FirstCallIsSecond,
    Variant::SecondCallIsFirst,
    Variant::RefusesWithoutSpare,
    Variant::LoadUnjudged,
    Variant::LoadFromMinusOneBillion,
    Variant::RefusesNegativeLoad,
    Variant::TakesNoAccounts,
    Variant::Refuses32Accounts,
    Variant::Takes33Accounts,
    Variant::UegqsUnjudged,
    Variant::TakesNegativeUegqs,
    Variant::TakesLargeUegqs,
    Variant::UegqsUnjudgedWithoutLoad,
    Variant::LastUegqUnjudged,
    Variant::OutputBeforeRanges,
    Variant::NeedsExactOutput,
    Variant::WritesBeforeTooShort,
    Variant::ClearsRefusedOutput,
    Variant::ClearsWordsBeyond,
];

/// The wrong hedge totals of a close.
pub const WRONG_REPORTS: [Variant; 18] = [
    Variant::LeavesOutFirstTranches,
    Variant::LeavesOutSecondTranches,
    Variant::LeavesOutThirdTranches,
    Variant::LeavesOutTranches,
    Variant::CountsTendersInBaseRound,
    Variant::StartsAnewAtEachRound,
    Variant::StartsFromBaseAtEachRound,
    Variant::FigureOfEarlierIntervals,
    Variant::AsManyRoundsAsFirstAccount,
    Variant::ReadsFirstTranchesTwice,
    Variant::ReadsSecondTranchesTwice,
    Variant::ReadsTranchePrices,
    Variant::SkipsTranchesWithoutBase,
    Variant::SkipsTranchesWithoutMq,
    Variant::LeavesOutEachLastTranche,
    Variant::RoundEndsWithoutTranche,
    Variant::BaseRoundWithoutLastAccount,
    Variant::TrancheRoundsWithoutLastAccount,
];

/// The wrong rounding differences.
pub const WRONG_DIFFERENCES: [Variant; 40] = [
    Variant::DifferenceReversed,
    Variant::DifferenceWithoutFirstAccount,
    Variant::DifferenceWithoutLastAccount,
    Variant::DifferenceOfRoundedAmounts,
    Variant::DifferenceOfSum,
    Variant::DifferenceOfMagnitudes,
    Variant::DifferenceOfCutAmounts,
    Variant::DifferenceOfFlooredAmounts,
    Variant::DifferenceWithTiesTowardZero,
    Variant::DifferenceWithoutResiduals,
    Variant::DifferenceOfPartsApart,
    Variant::DifferenceInCents,
    Variant::Word8Overwritten,
    Variant::Word8NotGrown,
    Variant::Word8GrowsReversed,
    Variant::Word8GrownWhenTooShort,
    Variant::Word8GrownWhenAbsent,
    Variant::OpeningKeepsWord8,
    Variant::TellsRunningSum,
    Variant::TellsSumBefore,
    Variant::TellsNoDifference,
    Variant::TellsReversedDifference,
    Variant::TellsSumWhenRefused,
    Variant::TellsDifferenceWhenTooShort,
    Variant::TellsDifferenceWhenAbsent,
    Variant::Word8Unjudged,
    Variant::Word8MustBeZero,
    Variant::Word8JudgedFromAbove,
    Variant::Word8JudgedFromBelow,
    Variant::BoundExclusive,
    Variant::BoundOfDayMore,
    Variant::BoundOfDayLess,
    Variant::BoundOfOneDayAtLeast,
    Variant::BoundWithoutAccounts,
    Variant::BoundOf499,
    Variant::BoundOf1000,
    Variant::SubmitLeavesWord8Unjudged,
    Variant::CloseLeavesWord8Unjudged,
    Variant::Word8JudgedAfterStatement,
    Variant::Word9Unjudged,
];

/// Those of them that refuse a book which calls left, or leave one that is not well
/// formed, and so may change what `settle` prints.
pub const WRONG_BETWEEN_CALLS: [Variant; 9] = [
    Variant::DifferenceOfCutAmounts,
    Variant::DifferenceOfFlooredAmounts,
    Variant::DifferenceOfPartsApart,
    Variant::Word8GrownWhenAbsent,
    Variant::Word8MustBeZero,
    Variant::BoundExclusive,
    Variant::BoundOfDayLess,
    Variant::BoundWithoutAccounts,
    Variant::BoundOf499,
];

/// The wrong calendars, of which the book and `settle` know nothing.
pub const WRONG_CALENDARS: [Variant; 4] = [
    Variant::TakesMagnitudeOfYear,
    Variant::TakesMagnitudeOfDueYear,
    Variant::TakesMagnitudeOfDueMonth,
    Variant::SaysDuePastLastDayBeforeHolidays,
];

/// The wrong profile checks, of which the book and `settle` know nothing.
pub const WRONG_PROFILES: [Variant; 46] = [
    Variant::PairsFromSecondInterval,
    Variant::OverlappingPairs,
    Variant::FirstPairUnjudged,
    Variant::LastPairUnjudged,
    Variant::PairsUnjudged,
    Variant::HalvesLimits,
    Variant::FloorRoundedDown,
    Variant::CapRoundedUp,
    Variant::LimitsToNearest,
    Variant::ExclusiveFloor,
    Variant::ExclusiveCap,
    Variant::FloorOf75PerCent,
    Variant::CapOf120PerCent,
    Variant::NoFloor,
    Variant::NoCap,
    Variant::LimitsOfTotal,
    Variant::ContractedPerInterval,
    Variant::ContractedPerDay,
    Variant::DividesBeforeMultiplying,
    Variant::TotalNotCompared,
    Variant::TotalAtMost,
    Variant::TotalAtLeast,
    Variant::NeverImpossible,
    Variant::ImpossibleBelowOnly,
    Variant::ImpossibleAboveOnly,
    Variant::EndsImpossible,
    Variant::ImpossibleBy19And30,
    Variant::ImpossibleAfterQuantities,
    Variant::ImpossibleForBrokenPairs,
    Variant::ImpossibleForOtherSum,
    Variant::ImpossibleBeforeRange,
    Variant::ImpossibleBeforeList,
    Variant::ImpossibleBeforeQuantities,
    Variant::TakesShortProfile,
    Variant::TakesLongProfile,
    Variant::TakesAnyWholePairs,
    Variant::TakesEmptyProfile,
    Variant::QuantitiesUnjudged,
    Variant::TakesNegativeQuantities,
    Variant::TakesLargeQuantities,
    Variant::LeavesAtBrokenPair,
    Variant::LeavesAtPassedTotal,
    Variant::TotalUnjudged,
    Variant::TotalUpTo300Million,
    Variant::ContractedUnjudged,
    Variant::RefusesContractedOfZero,
];

/// The wrong ways to write and read packed decimal, of which the book and `settle`
/// know nothing.
pub const WRONG_PACKED: [Variant; 59] = [
    Variant::DigitsFromLeast,
    Variant::SignInFirstHalf,
    Variant::BytesReversed,
    Variant::ExchangesSigns,
    Variant::DigitsOfBase16,
    Variant::TakesNoAmounts,
    Variant::TakesOneAmount,
    Variant::RefusesTwoAmounts,
    Variant::Refuses33Amounts,
    Variant::Takes34Amounts,
    Variant::TooShortBeforeNumber,
    Variant::NeedsExactRoom,
    Variant::FillsRoomBeforeTooShort,
    Variant::ClearsBeyondStatement,
    Variant::TakesMinusTenTo15,
    Variant::Takes16Digits,
    Variant::WrapsLeastAmount,
    Variant::Refuses15Nines,
    Variant::FirstAmountAloneJudged,
    Variant::LastAmountUnjudged,
    Variant::TooShortBeforeAmounts,
    Variant::WritesUpToBadAmount,
    Variant::WritesZeroWithD,
    Variant::WritesPlusAsF,
    Variant::WritesNegativeAsPositive,
    Variant::RoundsFieldsUp,
    Variant::RoomForCutField,
    Variant::TooShortAfterFields,
    Variant::TooShortBeforeCutAlone,
    Variant::TakesNegativeZero,
    Variant::TakesSignF,
    Variant::TakesSignsAAndE,
    Variant::TakesSignB,
    Variant::SignsUnjudged,
    Variant::UpperHalvesUnjudged,
    Variant::LowerHalvesUnjudged,
    Variant::LastDigitUnjudged,
    Variant::ReadsNegativeAsPositive,
    Variant::SignBeforeDigits,
    Variant::LastWrongOfField,
    Variant::LastWrongField,
    Variant::DigitsOfAllFieldsFirst,
    Variant::NegativeZerosAfterAllFields,
    Variant::WrongDigitAtFieldStart,
    Variant::WrongSignAtFieldStart,
    Variant::NegativeZeroAtFieldStart,
    Variant::NegativeZeroAtByteBefore,
    Variant::PositionsInHalfBytes,
    Variant::PositionsInFields,
    Variant::PositionsWithinField,
    Variant::CutBeforeFields,
    Variant::IgnoresCutField,
    Variant::JudgesCutField,
    Variant::CutAtLastByte,
    Variant::CutAtFileEnd,
    Variant::CutGives1,
    Variant::ReadsUpToWrongField,
    Variant::CountsNothing,
    Variant::CountsBeforeWrongField,
];

/// The wrong programs `settle`, which keep the right book.
pub const WRONG_SETTLES: [Variant; 66] = [
    Variant::ExchangesLagAndHorizon,
    Variant::ExchangesAccountsAndLag,
    Variant::ReadsFirstDayBigEndian,
    Variant::ReadsFirstDaySigned,
    Variant::BookOf3000Words,
    Variant::BookOf5071Words,
    Variant::BookOf5448Words,
    Variant::BookOfAnySize,
    Variant::ReadsOnAfterRefusedOpening,
    Variant::SaysBadAtRefusedOpening,
    Variant::FillsCutOpening,
    Variant::SilentOnEmptyInput,
    Variant::ChangesOnFirstDay,
    Variant::EndsAfterFirstItem,
    Variant::EndsAtRefusedSubmission,
    Variant::EndsAtRefusedClose,
    Variant::EndsWithFinishedBook,
    Variant::IgnoresUnknownCommands,
    Variant::TakesLowerCaseCommands,
    Variant::SkipsLineFeeds,
    Variant::ReadsOnly65536Bytes,
    Variant::GoesOnAfterBad,
    Variant::IgnoresCutItem,
    Variant::SubmitsCutFile,
    Variant::GoesOnInRefusedFile,
    Variant::LongestFileOf1000,
    Variant::LongestFileOf16383,
    Variant::LongestFileOf16385,
    Variant::FilesOfAnyLength,
    Variant::CutsLongFile,
    Variant::ReadsLengthBigEndian,
    Variant::ReadsLengthSigned,
    Variant::LengthCountsItself,
    Variant::SaysBadAtEmptyFile,
    Variant::AcceptsEmptyFile,
    Variant::BadWithoutPosition,
    Variant::BadAtFirstItem,
    Variant::BadAtSubmitByte,
    Variant::BadAtFile,
    Variant::BadAtInputEnd,
    Variant::CountsFromAfterOpening,
    Variant::CountsFromOne,
    Variant::CountsItems,
    Variant::PositionsOf16Bits,
    Variant::DropsLinesBeforeBad,
    Variant::OpensWithoutPosition,
    Variant::MisspellsSubmit,
    Variant::SubmitsWithoutPosition,
    Variant::PrintsPositionBeforeNumber,
    Variant::PrintsPositionInInput,
    Variant::RefusesCloseWithoutPosition,
    Variant::ClosesWithPosition,
    Variant::ClosesWithDifference,
    Variant::PrintsCountBeforeDay,
    Variant::OmitsCountOfZero,
    Variant::PrintsNextDay,
    Variant::OmitsMsslAmount,
    Variant::PrintsMsslAmountFirst,
    Variant::PrintsMsslAmountUnnegated,
    Variant::PrintsWholeStatement,
    Variant::PrintsAmountsUnsigned,
    Variant::PrintsAmountsOf32Bits,
    Variant::PrintsBalances,
    Variant::StatementOfTwoWords,
    Variant::EndsLinesWithSpace,
    Variant::OmitsLastLineFeed,
];

/// All wrong variants.
pub fn wrong() -> impl Iterator<Item = Variant> {
    WRONG_BOOKS
        .into_iter()
        .chain(WRONG_EDITIONS)
        .chain(WRONG_CHANGE_DAYS)
        .chain(WRONG_WORDS)
        .chain(WRONG_SHARES)
        .chain(WRONG_SHARE_CALLS)
        .chain(WRONG_REPORTS)
        .chain(WRONG_DIFFERENCES)
        .chain(WRONG_CALENDARS)
        .chain(WRONG_PROFILES)
        .chain(WRONG_PACKED)
        .chain(WRONG_SETTLES)
}

/// What a call is told beside its arguments: which variant it is a call of.
#[derive(Clone, Copy, Debug, Default)]
pub struct Context {
    pub variant: Variant,
}

impl Context {
    pub const RIGHT: Context = Context::of(Variant::Right);

    pub const fn of(variant: Variant) -> Context {
        Context { variant }
    }

    pub fn is(self, variant: Variant) -> bool {
        self.variant == variant
    }
}
