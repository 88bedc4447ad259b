//! Faults on request. With one of them the reference is wrong in one place, so
//! that a test can show that a comparison notices it.

use crate::cause::Cause::{self, *};
use crate::encoder::MOST_ENCODED_BITS;
use crate::run::{FORMER_MOST_ITERATIONS, MOST_ITERATIONS};
use crate::Reference;
use interface::MOST_FRAMES;

/// Defines the faults, and lists those with a place of their own in the
/// reference after the entries in which they show.
macro_rules! faults {
    ($([$($entry:literal),+]: $($fault:ident),+;)+) => {
        /// Where the reference goes wrong.
        #[derive(Clone, Copy, Debug, PartialEq, Eq)]
        pub enum Fault {
            /// This limit of the document is one more, or one less.
            OneMore(usize),
            OneLess(usize),
            /// These two causes are judged in the other order.
            Exchanged(Cause, Cause),
            /// This cause is never told.
            Overlooked(Cause),
            $($($fault,)+)+
        }

        const SLIPS: &[(&[&str], &[Fault])] =
            &[$((&[$($entry),+], &[$(Fault::$fault),+])),+];
    };
}

faults! {
    ["read", "split", "test", "extend", "decode", "decode_group", "export", "export_size",
     "message_length", "encode", "encode_frames", "read_message"]:
        CutMarkJudged, SizesReadTogether, HighIndexJudgedLast, TriplesJudgedAtOnce;
    ["read", "split", "test", "extend", "decode", "decode_group", "import", "export",
     "export_size", "message_length", "encode", "encode_frames", "read_message", "frames"]:
        TwoBitsMakeNoTriple;
    ["split", "extend", "decode", "decode_group", "frames"]:
        AuxiliaryOfTwoBits;
    ["split", "decode", "decode_group", "frames"]:
        BlankCounted;
    ["split", "decode", "decode_group"]:
        BlankIsNextIndex;
    ["decode", "decode_group", "frames"]:
        BlankIsOne, BlankIsZero, BlankIsFirst, BlankIsLast, BlankRenewed, BlankShareAdded,
        BlankRowsLeftAtZero, BlankRowsNotCounted;
    ["test", "extend", "decode", "decode_group", "read_message", "frames"]:
        TwoBitsNotTested;
    ["message_length", "encode", "encode_frames", "read_message"]:
        TwoBitsNotReduced;
    ["read"]:
        SizesWithRefusal;
    ["split", "decode", "decode_group"]:
        LastTripleTurned, CountsOfRows;
    ["split", "decode", "decode_group", "import", "export", "reflect", "extend", "add_words",
     "encode", "encode_frames", "read_message"]:
        RestCleared;
    ["test", "extend", "read_message"]:
        LastOddCheck, OddCheckFromOne;
    ["extend"]:
        AuxiliaryOfLastTwo, AuxiliaryOfFirst, AuxiliaryIsOr;
    ["reflect"]:
        NegatedAtZeros, NegatedAtNext, MadeNegative, NoCostsRefused;
    ["add_words"]:
        SumIsOr, SumIsFirst, SumWhereEqual, SumNotReduced, OtherWordNotJudged, NoEntriesRefused;
    ["gaussian"]:
        ProductNotRounded, HalfAddedAndFloored, InfiniteProductIsZero, SubnormalsFlushed;
    ["gaussian", "hard", "erasing"]:
        SettingNotJudgedWithoutSamples;
    ["hard", "erasing"]:
        NegativeZeroIsBelow;
    ["erasing"]:
        NegativeZeroFloorRefused;
    ["decode", "decode_group"]:
        QuotientFloored, QuotientIn32Bits, ScaledSumsIn32Bits, ChangedRowOrder,
        TripleSumsIn16Bits, RowsIn16Bits, TotalsTogether, SumsOfNextIteration,
        NotSettledAtLimit, OneIterationMore,
        AuxiliariesUndecided, HighestUndecided, SameWordEachTime, WordWrittenAlways,
        SplitBeforeJudged, ShortWordPassesUnwritten, SignedTolerance, WeightIn16Bits,
        DividendCutBelowLimit, TruncatedBelowLimit, LastHalfTowardsZero, LimitFromOneLess,
        LimitOneEarly, LimitTurned, LimitOfNextCount, LimitOfCountBefore;
    ["decode", "decode_group", "frames"]:
        FormerLimitJudged, CutAtFormerLimit, RowsAtFormerBound;
    ["decode_group"]:
        FramesExchanged, SecondFourAsFirst, LastFrameLeftOut, StoppedFrameRenewed,
        GroupStopsWithFirst, LongestRunTold, SettledTogether, WordsAtVariables,
        FalseFrameRowsCleared, FalseFrameEndsGroup, FalseFramesLeaveSplit,
        FalseCostRefusesGroup, FalseCostBeforeRoom, NoFramesAccepted, LongerCostsAccepted,
        RoomForEightAsked, WorkForFourAsked, WorkForEightAsked, WorkNotJudged,
        WorkClearedFirst, AnswersExchanged, AnswersPacked, AnswersPastFrames,
        AnswersWithRefusal, RestOfFramesCleared;
    ["import"]:
        LeadingZerosRefused, NumbersIn16Bits, CountIn32Bits, NumbersAfterIgnored, TabSeparates,
        CarriageReturnSeparates, NulSeparates, SeparatorFirstRefused, NoSeparatorLastRefused,
        SecondSeparatorRefused, OneLineRefused, MaximaNotJudged, FillerNotJudged,
        NoDegreeRefused, PlacesAsSets, PlacesAsSetsOfOneSize, PlacesByDegrees,
        ColumnsWithinRows, RowsWithinColumns, ColumnOrderDemanded, HighIndexIsFive,
        DegreesJudgedFirst;
    ["export", "export_size"]:
        LastLineFeedLeftOut, LeadingZeroWritten, SpaceAtLineEnd, ListsNotFilled;
    ["export"]:
        ColumnsFalling, MaximaTurned, IndicesFromZero;
    ["import", "export"]:
        OneByteMoreNeeded, WrittenAsFarAsRoom;
    ["import", "export", "export_size"]:
        BytesToldShort, BytesWithRefusal;
    ["message_length"]:
        LengthWithRefusal;
    ["message_length", "encode", "encode_frames", "read_message"]:
        RankTold, DependentChecksCounted;
    ["encode", "encode_frames", "read_message"]:
        LastPivots, MessageBackwards;
    ["encode", "encode_frames"]:
        RowNotCleared, PivotCounted, NoMessageRefused;
    ["encode_frames"]:
        WordsOverlap, NoFramesRefused, FramesWrapped, FirstMessageJudged, RoomForOneFrame;
    ["read_message"]:
        PivotsRead;
    ["frames"]:
        RoomJudgedBeforeChecks, RoomJudgedBeforeIndices, MarkAfterCodeIsNine,
        HalfMarkEndsQuietly, CostJudgedBeforeCut;
}

const OF_RECORDS: &[&str] = &[
    "read",
    "split",
    "test",
    "extend",
    "decode",
    "decode_group",
    "export",
    "export_size",
    "message_length",
    "encode",
    "encode_frames",
    "read_message",
];
const OF_ENCODER: &[&str] = &["message_length", "encode", "encode_frames", "read_message"];
const OF_CHANNELS: &[&str] = &["gaussian", "hard", "erasing"];
const OF_FIELDS: &[Cause] = &[Mark, Size, Degree, IndexTooHigh, IndexNotRising];
const OF_IMPORT: &[Cause] = &[
    Text,
    Places,
    Size,
    Degree,
    IndexNotRising,
    TooManyTriples,
    UnusedBit,
    ListTooShort,
];

/// Limits to move.
const LIMITS: &[(&[&str], &[usize])] = &[
    (OF_RECORDS, &[2, 3, 32, 2_048, 4_096, 8_192]),
    (OF_ENCODER, &[MOST_ENCODED_BITS]),
    (OF_CHANNELS, &[32_767]),
    (
        &["decode", "decode_group"],
        &[1_023, MOST_ITERATIONS, 16_384, 65_535],
    ),
    (&["decode_group"], &[MOST_FRAMES]),
    (&["import"], &[2, 3, 32, 2_048, 4_096, 8_192, 65_535]),
    (&["frames"], &[2, 32, 512, 1_023, 1_024, MOST_ITERATIONS]),
];

/// Causes that are judged together, in their order.
const TOGETHER: &[(&[&str], &[Cause])] = &[
    (OF_RECORDS, &[BytesAfter, TooManyTriples, UnusedBit]),
    (OF_CHANNELS, &[Setting, Sample, ListTooShort]),
    (&["reflect"], &[Lengths, Cost, WordEntry, ListTooShort]),
    (&["add_words"], &[Lengths, WordEntry, ListTooShort]),
    (&["test"], &[Lengths, WordEntry, NotCodeword]),
    (
        &["extend"],
        &[Lengths, WordEntry, ListTooShort, NotCodeword],
    ),
    (
        &["encode", "encode_frames"],
        &[TooLong, Lengths, WordEntry, ListTooShort],
    ),
    (
        &["read_message"],
        &[TooLong, Lengths, WordEntry, ListTooShort, NotCodeword],
    ),
    (&["decode"], &[Setting, Lengths, Cost, ListTooShort]),
    (
        &["decode_group"],
        &[Setting, FrameCount, Lengths, ListTooShort],
    ),
    (
        &["decode", "decode_group", "frames"],
        &[Undecided, NotCodeword],
    ),
    (&["import"], OF_IMPORT),
];

/// Causes that are judged alone.
const ALONE: &[(&[&str], &[Cause])] = &[
    (OF_RECORDS, OF_FIELDS),
    (&["split", "export"], &[ListTooShort]),
    (&["message_length"], &[TooLong]),
    (&["decode_group"], &[Cost]),
    (&["frames"], OF_FIELDS),
    (&["frames"], &[UnusedBit, ListTooShort, Setting, Cost]),
];

/// Every fault, with the entries in which it shows.
pub fn all() -> Vec<(&'static [&'static str], Fault)> {
    let mut all = Vec::new();
    for &(entries, slips) in SLIPS {
        all.extend(slips.iter().map(|&slip| (entries, slip)));
    }
    for &(entries, limits) in LIMITS {
        all.extend(limits.iter().map(|&limit| (entries, Fault::OneMore(limit))));
        all.extend(limits.iter().map(|&limit| (entries, Fault::OneLess(limit))));
    }
    for &(entries, causes) in TOGETHER {
        for (place, &cause) in causes.iter().enumerate() {
            let earlier = causes[..place].iter();
            all.extend(earlier.map(|&other| (entries, Fault::Exchanged(other, cause))));
        }
    }
    for &(entries, causes) in TOGETHER.iter().chain(ALONE) {
        let overlooked = causes.iter().map(|&cause| Fault::Overlooked(cause));
        all.extend(overlooked.map(|fault| (entries, fault)));
    }
    all
}

impl Reference {
    pub(crate) fn has(self, fault: Fault) -> bool {
        self.fault == Some(fault)
    }

    /// A limit of the document.
    pub(crate) fn limit(self, number: usize) -> usize {
        match self.fault {
            Some(Fault::OneMore(moved)) if moved == number => number + 1,
            Some(Fault::OneLess(moved)) if moved == number => number - 1,
            Some(Fault::FormerLimitJudged) if number == MOST_ITERATIONS => FORMER_MOST_ITERATIONS,
            _ => number,
        }
    }

    /// A number, cut to 16 bits with this fault.
    pub(crate) fn narrowed(self, number: i64, fault: Fault) -> i64 {
        if self.has(fault) {
            i64::from(number as i16)
        } else {
            number
        }
    }

    /// Clears a list that is to be written, with the fault that clears its rest.
    pub(crate) fn clear_rest<T: Clone + Default>(self, list: &mut [T]) {
        if self.has(Fault::RestCleared) {
            list.fill(T::default());
        }
    }

    /// Whether a number lies in a range of the document.
    pub(crate) fn within(self, number: usize, least: usize, most: usize) -> bool {
        self.limit(least) <= number && number <= self.limit(most)
    }

    /// The first of these causes that holds.
    pub(crate) fn judge(self, causes: &[(Cause, bool)]) -> Result<(), Cause> {
        let place_of = |cause| causes.iter().position(|&(other, _)| other == cause);
        let exchanged = match self.fault {
            Some(Fault::Exchanged(one, other)) => place_of(one).zip(place_of(other)),
            _ => None,
        };
        let at = |place| match exchanged {
            Some((one, other)) if place == one => causes[other],
            Some((one, other)) if place == other => causes[one],
            _ => causes[place],
        };
        let told = |&(cause, holds): &(Cause, bool)| holds && !self.has(Fault::Overlooked(cause));
        match (0..causes.len()).map(at).find(told) {
            Some((cause, _)) => Err(cause),
            None => Ok(()),
        }
    }
}
