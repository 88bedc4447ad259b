//! The harness itself: the reference with a fault is caught, in each entry in
//! which its fault shows.

use compare::case::Case;
use compare::chains::{self, check_chains};
use compare::encodings::{self, check_encodings};
use compare::families::{all, Effort};
use compare::groupings::{self, check_groupings};
use compare::limit_edges::{first, late, Edge};
use compare::outcome::{outcome, Outcome};
use compare::random::Random;
use compare::reflections::{self, check_reflections};
use compare::round_trips::{self, check_round_trips};
use compare::sums::check_laws;
use reference::cause::Cause;
use reference::fault::{self, Fault};
use reference::{Reference, SOUND};
use std::cell::Cell;
use std::collections::{BTreeMap, BTreeSet};
use std::convert::Infallible;
use std::panic;

type Expected = BTreeMap<&'static str, Vec<(Case, Outcome)>>;

/// Every quick case with the reference's outcome, by entry.
fn expected() -> Expected {
    let mut expected = Expected::new();
    for family in all() {
        let Ok(()) = family.visit(Effort::Quick, |_, case| {
            let outcome = outcome(SOUND, &case);
            expected
                .entry(case.entry())
                .or_default()
                .push((case, outcome));
            Ok::<(), Infallible>(())
        });
    }
    expected
}

thread_local! {
    /// Whether panics of this thread are expected.
    static QUIET: Cell<bool> = const { Cell::new(false) };
}

fn keep_quiet_panics_unprinted() {
    let print = panic::take_hook();
    panic::set_hook(Box::new(move |info| {
        if !QUIET.get() {
            print(info);
        }
    }));
}

fn with(fault: Fault) -> Reference {
    Reference { fault: Some(fault) }
}

/// Whether the reference with a fault goes wrong on a case; a panic counts.
fn goes_wrong(fault: Fault, case: &Case, expected: &Outcome) -> bool {
    QUIET.set(true);
    let found = panic::catch_unwind(|| outcome(with(fault), case));
    QUIET.set(false);
    match found {
        Ok(found) => found.difference(expected).is_some(),
        Err(_) => true,
    }
}

#[test]
fn every_fault_is_caught() {
    let expected = expected();
    keep_quiet_panics_unprinted();
    let mut missed = Vec::new();
    for (entries, fault) in fault::all() {
        for entry in entries {
            let mut cases = expected[entry].iter();
            match cases.position(|(case, due)| goes_wrong(fault, case, due)) {
                Some(place) => println!("{fault:?}: {entry} case {place}"),
                None => missed.push(format!("{fault:?} in {entry}")),
            }
        }
    }
    assert!(missed.is_empty(), "not caught: {missed:?}");
}

/// Each slip at the limit is caught by the edges of each count at which it shows: two slips
/// show with a divisor of 1 alone, and count 1 has no count before it.
#[test]
fn edges_of_every_count_catch_slips_at_the_limit() {
    keep_quiet_panics_unprinted();
    let edges = first().into_iter().chain(late());
    let expected = |edge: Edge| (edge.count, edge.case(), outcome(SOUND, &edge.case()));
    let edges: Vec<(usize, Case, Outcome)> = edges.map(expected).collect();
    let all: BTreeSet<usize> = edges.iter().map(|(count, ..)| *count).collect();
    assert!(all.is_superset(&(1..=33).collect()) && all.contains(&2_048));
    let one = BTreeSet::from([1]);
    for (fault, counts) in [
        (Fault::LimitOneEarly, &one),
        (Fault::DividendCutBelowLimit, &one),
        (Fault::LimitOfCountBefore, &(&all - &one)),
        (Fault::TruncatedBelowLimit, &all),
        (Fault::LastHalfTowardsZero, &all),
        (Fault::LimitFromOneLess, &all),
        (Fault::LimitTurned, &all),
        (Fault::LimitOfNextCount, &all),
    ] {
        let wrong = |(_, case, due): &&(usize, Case, Outcome)| goes_wrong(fault, case, due);
        let caught = edges.iter().filter(wrong).map(|(count, ..)| *count);
        assert_eq!(&caught.collect::<BTreeSet<usize>>(), counts, "{fault:?}");
    }
}

#[test]
fn reflections_catch_what_breaks_them() {
    for fault in [
        Fault::QuotientFloored,
        Fault::Overlooked(Cause::Undecided),
        Fault::SameWordEachTime,
        Fault::WordWrittenAlways,
        Fault::AuxiliaryOfLastTwo,
        Fault::NegatedAtZeros,
        Fault::BlankIsFirst,
        Fault::BlankIsLast,
        Fault::BlankShareAdded,
        Fault::BlankIsNextIndex,
    ] {
        let faulty = with(fault);
        assert!(
            check_reflections(&faulty, &faulty, reflections::SEED).is_err(),
            "{fault:?}"
        );
    }
}

#[test]
fn round_trips_catch_what_breaks_them() {
    for fault in [
        Fault::LeadingZerosRefused,
        Fault::SecondSeparatorRefused,
        Fault::ColumnOrderDemanded,
        Fault::LastLineFeedLeftOut,
        Fault::LeadingZeroWritten,
        Fault::SpaceAtLineEnd,
        Fault::ListsNotFilled,
        Fault::ColumnsFalling,
        Fault::IndicesFromZero,
        Fault::RestCleared,
        Fault::WrittenAsFarAsRoom,
        Fault::BytesToldShort,
        Fault::BytesWithRefusal,
        Fault::OneByteMoreNeeded,
        Fault::OneMore(2),
    ] {
        assert!(
            check_round_trips(&with(fault), round_trips::SEED).is_err(),
            "{fault:?}"
        );
    }
}

#[test]
fn chains_catch_what_breaks_them() {
    for (fault, what) in [
        (Fault::NegatedAtZeros, "chain: a word of zeros put in"),
        (Fault::MadeNegative, "chain: the chain backwards"),
        (Fault::NegatedAtNext, "chain: entry"),
        (Fault::NoCostsRefused, "chain: refused with 12"),
        (Fault::RestCleared, "chain: number 0, and an entry past"),
        (Fault::SumIsOr, "chain: one reflection by the sum"),
        (Fault::SumNotReduced, "chain: refused with 15"),
        (Fault::NoEntriesRefused, "chain: refused with 12"),
        (Fault::OtherWordNotJudged, "sums: number 0 where 15 is due"),
        (
            Fault::Overlooked(Cause::Lengths),
            "chain: number 0 where 12 is due",
        ),
        (
            Fault::Overlooked(Cause::WordEntry),
            "chain: number 0 where 15 is due",
        ),
        (
            Fault::Exchanged(Cause::Lengths, Cause::WordEntry),
            "chain: number 15 where 12 is due",
        ),
        (Fault::AuxiliaryIsOr, "points: the point of the sum"),
        (Fault::AuxiliaryOfFirst, "run: "),
        (Fault::AuxiliaryOfLastTwo, "run: "),
        (Fault::QuotientFloored, "run: "),
        (Fault::SameWordEachTime, "run: "),
        (Fault::WordWrittenAlways, "run: "),
    ] {
        let found = check_chains(&with(fault), chains::SEED).unwrap_err();
        println!("{fault:?}: {found}");
        assert!(found.contains(what), "{fault:?}: {found}");
    }
}

#[test]
fn laws_of_sums_catch_what_breaks_them() {
    for (fault, what) in [
        (Fault::SumIsFirst, "in the other order"),
        (Fault::SumWhereEqual, "with the word of zeros"),
        (Fault::SumIsOr, "with itself"),
        (Fault::SumNotReduced, "refused with 15"),
    ] {
        let found = check_laws(&with(fault), &mut Random::new(1), 20).unwrap_err();
        assert!(found.contains(what), "{fault:?}: {found}");
    }
}

#[test]
fn encodings_catch_what_breaks_them() {
    for (fault, what) in [
        (Fault::LastPivots, "do not rise"),
        (Fault::MessageBackwards, "do not rise"),
        (Fault::RowNotCleared, "is no codeword"),
        (Fault::PivotCounted, "is no codeword"),
        (Fault::RankTold, "is no codeword"),
        (Fault::DependentChecksCounted, "is no codeword"),
        (Fault::PivotsRead, "as another message"),
        (Fault::NoMessageRefused, "refused with 12"),
        (Fault::NoFramesRefused, "refused with 12"),
        (Fault::WordsOverlap, "frames are other words"),
        (Fault::FirstMessageJudged, "number 0 where 15 is due"),
        (Fault::OneLess(256), "number: 20"),
        (
            Fault::Overlooked(Cause::NotCodeword),
            "number 0 where 17 is due",
        ),
        (Fault::RestCleared, "an entry past"),
        (Fault::TwoBitsNotReduced, "is no codeword"),
        (Fault::TwoBitsNotTested, "number 0 where 17 is due"),
        (Fault::OneMore(2), "number: 4"),
    ] {
        let found = check_encodings(&with(fault), encodings::SEED).unwrap_err();
        println!("{fault:?}: {found}");
        assert!(found.contains(what), "{fault:?}: {found}");
    }
}

#[test]
fn groupings_catch_what_breaks_them() {
    for (fault, what) in [
        (Fault::FramesExchanged, "than alone"),
        (Fault::SecondFourAsFirst, "than alone"),
        (Fault::LastFrameLeftOut, "another answer than alone"),
        (Fault::StoppedFrameRenewed, "other lists than alone"),
        (Fault::GroupStopsWithFirst, "another answer than alone"),
        (Fault::LongestRunTold, "another answer than alone"),
        (Fault::SettledTogether, "another answer than alone"),
        (Fault::WordsAtVariables, "an entry past the frames"),
        (Fault::FalseFrameRowsCleared, "other lists than alone"),
        (Fault::FalseFrameEndsGroup, "another answer than alone"),
        (Fault::FalseFramesLeaveSplit, "triples or counts"),
        (Fault::FalseCostRefusesGroup, "a group is refused"),
        (Fault::FalseCostBeforeRoom, "number 13 where 10 is due"),
        (Fault::NoFramesAccepted, "number 12 where 21 is due"),
        (Fault::LongerCostsAccepted, "number 0 where 12 is due"),
        (Fault::WorkForFourAsked, "number 0 where 10 is due"),
        (Fault::WorkForEightAsked, "a group is refused"),
        (Fault::WorkClearedFirst, "a refused group changed a list"),
        (Fault::AnswersExchanged, "another answer than alone"),
        (Fault::AnswersPacked, "another answer than alone"),
        (Fault::AnswersPastFrames, "an answer past the frames"),
        (Fault::RestOfFramesCleared, "an entry past the frames"),
        (Fault::QuotientFloored, "c or S of variable"),
        (Fault::WordWrittenAlways, "bit"),
        (Fault::BlankShareAdded, "c or S of variable"),
        (
            Fault::Exchanged(Cause::FrameCount, Cause::Lengths),
            "number 12 where 21 is due",
        ),
        (
            Fault::Exchanged(Cause::Setting, Cause::FrameCount),
            "number 21 where 11 is due",
        ),
        (Fault::Overlooked(Cause::Cost), "the reflector's number"),
    ] {
        let found = check_groupings(&with(fault), groupings::SEED).map(|_| ());
        println!("{fault:?}: {found:?}");
        let found = found.unwrap_err();
        assert!(found.contains(what), "{fault:?}: {found}");
    }
}
