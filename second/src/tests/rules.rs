//! Each rule is dropped in turn, and the stored items are run again: some must come back different.

use super::stream;
use crate::rules::{without, Rule, ALL};
use crate::vectors::{self, Fleet, Item, Outcome};
use std::panic::{catch_unwind, AssertUnwindSafe};

/// What the vectors must say of a rule.
enum Demand {
    /// At least so many items come back different without it.
    Decided(usize),
    /// No item can, for this reason.
    Follows(&'static str),
}

use Demand::{Decided, Follows};

/// How many items must decide a rule of the redoing, of how much a merge changed, of which copy is
/// ahead, of what is known, of what is turned, of the herd book, of losers that block nobody, or of
/// twelve fields.
const MANY: usize = 20;

/// Every rule has its line here: a match without one does not compile.
fn demand(rule: Rule) -> Demand {
    match rule {
        Rule::OldTargetDifferent => {
            Follows("an old target that is the new one is redone as the new one, if it is odd")
        }
        Rule::DeletionOther => Follows(
            "a shown record with an odd flag is referenced by abort by another standing record, \
             which answer 10 comes before; so the deleted record is even, and no target to redo",
        ),
        Rule::DeletionReadsOwnFound => {
            Follows("the deleted record does not count, so that its flag is not read")
        }
        Rule::KeysInOrder => {
            Follows("a conflict on either key is the same answer, and step 3 looks at both at once")
        }
        Rule::ChainsAboveRelations
        | Rule::InsertionRedoes
        | Rule::InsertionTargetOdd
        | Rule::InsertionOnce
        | Rule::NewTargetRedone
        | Rule::NewTargetOdd
        | Rule::OldTargetRedone
        | Rule::OldTargetByAbort
        | Rule::OldTargetOdd
        | Rule::UpdateSupport
        | Rule::UpdateSupportComplete
        | Rule::UpdateSupportEven
        | Rule::UpdateSupportOther
        | Rule::UpdateSupportByAbort
        | Rule::UpdateSupportByPropagation
        | Rule::UpdateReadsFound
        | Rule::DeletionRedoes
        | Rule::DeletionByAbort
        | Rule::DeletionOnce
        | Rule::DeletionTargetOdd
        | Rule::DeletionSupport
        | Rule::DeletionSupportComplete
        | Rule::DeletionSupportEven
        | Rule::DeletionSupportOther
        | Rule::DeletionSupportByAbort
        | Rule::DeletionSupportByPropagation
        | Rule::DeletionReadsFound
        | Rule::ChangedValue
        | Rule::ChangedStamp
        | Rule::RegisterBefore
        | Rule::ChangedFlag
        | Rule::FlagBefore
        | Rule::OldCounted
        | Rule::OldWithChange
        | Rule::OldCountedOnce
        | Rule::AddedCounted
        | Rule::AddedCountedOnce
        | Rule::AddedCountedBare
        | Rule::ClockNotCounted
        | Rule::ComparedClock
        | Rule::ComparedRecords
        | Rule::ComparedIncomplete
        | Rule::ComparedHidden
        | Rule::ComparedBare
        | Rule::ComparedValues
        | Rule::ComparedStamps
        | Rule::ComparedFlags
        | Rule::FirstHasNot
        | Rule::SecondHasNot
        | Rule::CapacityNoPart
        | Rule::RoomNoPart
        | Rule::ReplicaNoPart
        | Rule::PositionNoPart
        | Rule::ComparedSchemaLength
        | Rule::FirstLength
        | Rule::SecondLength
        | Rule::FirstDamaged
        | Rule::SecondDamaged
        | Rule::FirstBeforeSecond
        | Rule::KnownByRelation
        | Rule::KnownByWholeLabel
        | Rule::KnownApart
        | Rule::KnownOnChain
        | Rule::StopAtLabel
        | Rule::StopAtLarger
        | Rule::LargerAsNumber
        | Rule::NoLabelWalked
        | Rule::NoLabelAnswered
        | Rule::KnownDeleted
        | Rule::KnownIncomplete
        | Rule::KnownHidden
        | Rule::KnownIndex
        | Rule::UnknownZero
        | Rule::LookupSchemaLength
        | Rule::LookupTableLength
        | Rule::LookupRelationNumber
        | Rule::LengthBeforeSchema
        | Rule::SchemaBeforeHeader
        | Rule::HeaderBeforeRelation
        | Rule::NoRecordRead
        | Rule::AskedFirst
        | Rule::OtherFirsts
        | Rule::EmptyAboveRelations
        | Rule::WayOwnWords
        | Rule::LastOwnWords
        | Rule::WayRelation
        | Rule::LastRelation
        | Rule::WayRaises
        | Rule::LastRaises
        | Rule::RaisesStrictly
        | Rule::WayCounters
        | Rule::LastCounters
        | Rule::WayNext
        | Rule::LastNext
        | Rule::OtherChainsUnseen
        | Rule::AboveUsedUnseen
        | Rule::LostUnseen
        | Rule::TurnedSchemaLength
        | Rule::TurnedTableLength
        | Rule::WrittenSchemaLength
        | Rule::WrittenTableLength
        | Rule::EqualCapacity
        | Rule::TurnedSchemaBroken
        | Rule::TurnedTableDamaged
        | Rule::TurnedLengthFirst
        | Rule::TurnedSchemaFirst
        | Rule::TooManyFields
        | Rule::ManyOfAny
        | Rule::ManyUnused
        | Rule::MoreThanEight
        | Rule::ManyAfterTable
        | Rule::ManyAfterSchema
        | Rule::ManyAfterLength
        | Rule::WrittenSchemaUnasked
        | Rule::WrittenTableUnasked
        | Rule::SameRelations
        | Rule::SameFieldCounts
        | Rule::SameKinds
        | Rule::EighthKind
        | Rule::SameFirstMask
        | Rule::SameSecondMask
        | Rule::SameReplica
        | Rule::SameClock
        | Rule::SameUsed
        | Rule::SameFirsts
        | Rule::SamePositions
        | Rule::SameNext
        | Rule::SameRelation
        | Rule::SameLabel
        | Rule::SameFlag
        | Rule::SameValues
        | Rule::EighthValue
        | Rule::SameStamps
        | Rule::EighthStamp
        | Rule::LackingKinds
        | Rule::LackingValues
        | Rule::LackingStamps
        | Rule::AboveUsedZero
        | Rule::OldSchemaIgnored
        | Rule::OldTableIgnored
        | Rule::RefusalKeepsSchema
        | Rule::RefusalKeepsTable
        | Rule::KindsInOrder
        | Rule::FieldsInOrder
        | Rule::GroupNumberIsKey
        | Rule::RobotNumberIsKey
        | Rule::EarTagIsKey
        | Rule::TransponderIsKey
        | Rule::EachIsKey
        | Rule::GroupByAbort
        | Rule::MilkingCowByPropagation
        | Rule::MilkingRobotByAbort
        | Rule::CleaningRobotByAbort
        | Rule::TreatmentCowByPropagation
        | Rule::OfTheKind
        | Rule::KindAfterTable
        | Rule::KindBeforeField
        | Rule::FoundMilking
        | Rule::FoundLabel
        | Rule::FoundWholeLabel
        | Rule::FoundShown
        | Rule::FoundNotOnlyStanding
        | Rule::ByRisingLabel
        | Rule::LabelAsNumber
        | Rule::LoserBlocksNobody
        | Rule::KeptInTurn
        | Rule::FirstKeyNotBefore
        | Rule::SecondKeyNotBefore
        | Rule::ConflictWithLosers
        | Rule::GuardedByLosers
        | Rule::FieldsToTwelve
        | Rule::KindsToTwelve
        | Rule::ZeroKindsToTwelve
        | Rule::KeysToTwelve
        | Rule::RegistersToTwelve
        | Rule::UnusedToTwelve
        | Rule::CompleteToTwelve
        | Rule::ValuesToTwelve
        | Rule::ReachedToTwelve
        | Rule::ClosedToTwelve
        | Rule::JoinToTwelve
        | Rule::ChangesToTwelve
        | Rule::ComparedToTwelve
        | Rule::StampsToTwelve
        | Rule::InsertionTargetsToTwelve
        | Rule::NewTargetToTwelve
        | Rule::OldTargetToTwelve
        | Rule::UpdateSupportToTwelve
        | Rule::DeletionTargetsToTwelve
        | Rule::DeletionSupportToTwelve
        | Rule::FieldNumberToTwelve
        | Rule::ReferencesToTwelve
        | Rule::TargetsShownToTwelve
        | Rule::GuardedToTwelve
        | Rule::DeltaToThirteen => Decided(MANY),
        Rule::LargerStamp
        | Rule::LargerValue
        | Rule::LargerFlag
        | Rule::DeletesEven
        | Rule::RedoesOdd
        | Rule::SomeRelation
        | Rule::MostRelations
        | Rule::SomeField
        | Rule::MostFields
        | Rule::KnownKind
        | Rule::AbortWithinRelations
        | Rule::PropagationWithinRelations
        | Rule::KindsAboveFields
        | Rule::BlocksAboveRelations
        | Rule::LastWordOfBlock
        | Rule::MostKeyFields
        | Rule::KeyWithinFields
        | Rule::SomeReplica
        | Rule::MostReplica
        | Rule::ClockRange
        | Rule::HeaderZero
        | Rule::HeaderEnd
        | Rule::RecordLabel
        | Rule::Stamp
        | Rule::FlagRange
        | Rule::ValueUnderNone
        | Rule::UsedWithinCapacity
        | Rule::ChainOfRelation
        | Rule::RisingLabels
        | Rule::StrictlyRising
        | Rule::OnAChain
        | Rule::NoIndexAbove
        | Rule::WordsAboveUsed
        | Rule::UnusedValues
        | Rule::UnusedStamps
        | Rule::Reference
        | Rule::ClockOverLabels
        | Rule::ClockOverStamps
        | Rule::ClockOverReferences
        | Rule::TakenComplete
        | Rule::TakenEven
        | Rule::AddReached
        | Rule::ReachedByAbort
        | Rule::AnyHops
        | Rule::HopOnComplete
        | Rule::DropLosers
        | Rule::OlderWins
        | Rule::StandingWins
        | Rule::WithinRelation
        | Rule::OnSecondKey
        | Rule::OnFirstKey
        | Rule::AllKeyFields
        | Rule::EmptyReferenceInKey
        | Rule::PlainZeroInKey
        | Rule::KeepClosed
        | Rule::LargestSet
        | Rule::ClosedByAbort
        | Rule::ClosedByPropagation
        | Rule::ClosedButForEmpty
        | Rule::LeadsToMember
        | Rule::LoserStaysOut
        | Rule::WalkInListOrder
        | Rule::MarkIsOne
        | Rule::JoinRegisters
        | Rule::JoinFlags
        | Rule::AddOthers
        | Rule::AddedInListOrder
        | Rule::LargerClock
        | Rule::OwnReplica
        | Rule::MergeFull
        | Rule::NewLabelReplica
        | Rule::StampsAllFields
        | Rule::InsertionClock
        | Rule::UpdateClock
        | Rule::DeletionRaises
        | Rule::DeletionClock
        | Rule::OnlyChanged
        | Rule::DeltaInListOrder
        | Rule::UnchangedRegistersNone
        | Rule::UnchangedFlagsZero
        | Rule::DeltaLength
        | Rule::RelationNumber
        | Rule::StartReplica
        | Rule::UpdateShown
        | Rule::DeletionShown
        | Rule::FieldNumber
        | Rule::ValueCount
        | Rule::ReferenceValue
        | Rule::TargetShown
        | Rule::TargetNonempty
        | Rule::TargetNotOnlyStanding
        | Rule::InsertionConflict
        | Rule::UpdateConflict
        | Rule::ConflictWithStanding
        | Rule::ConflictWithAnother
        | Rule::ConflictOnNamedKey
        | Rule::Guarded
        | Rule::GuardedByAnother
        | Rule::GuardedByStanding
        | Rule::GuardedByAbort
        | Rule::InsertionFull
        | Rule::InsertionClockAtEnd
        | Rule::UpdateClockAtEnd
        | Rule::FlagAtEnd => Decided(1),
    }
}

/// The items that stand for themselves. In a fleet a difference would show again in all items that
/// follow, and a table of 4,096 records takes long.
fn single_items() -> Vec<(Item, Outcome)> {
    let fleets = vectors::FLEET_BEGIN..=vectors::FLEET_WALK;
    let single = |item: &Item| {
        !fleets.contains(&item.call) && item.slices.iter().all(|slice| slice.len() < 2_000)
    };
    vectors::read(stream()).unwrap().into_iter().filter(|(item, _)| single(item)).collect()
}

/// Whether an item comes back different, or ends in a panic, as it does where a table without room
/// is written.
fn differs(fleet: &mut Fleet, item: &Item, told: &Outcome) -> bool {
    let back = catch_unwind(AssertUnwindSafe(|| vectors::run(fleet, item)));
    back.map_or(true, |back| back != *told)
}

fn differences(items: &[(Item, Outcome)]) -> usize {
    let mut fleet = Fleet::default();
    items.iter().filter(|(item, told)| differs(&mut fleet, item, told)).count()
}

#[test]
fn each_rule_is_decided_by_the_vectors() {
    let items = single_items();
    assert_eq!(differences(&items), 0);
    let mut wrong = Vec::new();
    for rule in ALL {
        let count = without(*rule, || differences(&items));
        println!("{:?} {}", rule, count);
        match demand(*rule) {
            Decided(least) if count < least => wrong.push((rule, count, "too few")),
            Follows(reason) if count > 0 => wrong.push((rule, count, reason)),
            _ => {}
        }
    }
    assert!(wrong.is_empty(), "{:?}", wrong);
}

/// What a change is decides the joins, and the merges too.
#[test]
fn changes_are_decided_by_joins_and_by_merges() {
    let items = single_items();
    for (rule, join) in [
        (Rule::ChangedValue, vectors::REGISTER_JOIN),
        (Rule::ChangedStamp, vectors::REGISTER_JOIN),
        (Rule::ChangedFlag, vectors::FLAG_JOIN),
    ] {
        for call in [join, vectors::MERGE] {
            let of_call: Vec<(Item, Outcome)> =
                items.iter().filter(|(item, _)| item.call == call).cloned().collect();
            let count = without(rule, || differences(&of_call));
            assert!(count >= MANY, "{:?} {} {}", rule, call, count);
        }
    }
}

/// Which copy is ahead goes by the merge: its rules of clock, records, registers and flags decide
/// comparisons too.
#[test]
fn comparisons_are_decided_by_the_merge() {
    let items = single_items();
    let compares: Vec<(Item, Outcome)> =
        items.into_iter().filter(|(item, _)| item.call == vectors::COMPARE).collect();
    for rule in [
        Rule::LargerClock,
        Rule::AddOthers,
        Rule::JoinRegisters,
        Rule::JoinFlags,
        Rule::LargerStamp,
        Rule::LargerValue,
        Rule::LargerFlag,
    ] {
        let count = without(rule, || differences(&compares));
        assert!(count >= MANY, "{:?} {}", rule, count);
    }
}

/// A lookup tests the words of the header, and of the records that it reads, as a table check does.
#[test]
fn lookups_are_decided_by_the_rules_of_words() {
    let items = single_items();
    let lookups: Vec<(Item, Outcome)> =
        items.into_iter().filter(|(item, _)| item.call == vectors::LOOKUP).collect();
    for rule in [
        Rule::SomeReplica,
        Rule::MostReplica,
        Rule::ClockRange,
        Rule::UsedWithinCapacity,
        Rule::HeaderZero,
        Rule::HeaderEnd,
        Rule::RecordLabel,
        Rule::FlagRange,
        Rule::Stamp,
        Rule::ValueUnderNone,
        Rule::UnusedValues,
        Rule::UnusedStamps,
        Rule::Reference,
        Rule::ClockOverLabels,
        Rule::ClockOverStamps,
        Rule::ClockOverReferences,
    ] {
        let count = without(rule, || differences(&lookups));
        assert!(count >= MANY / 2, "{:?} {}", rule, count);
    }
}

/// Where a rule of the herd book, or of empty references, decides two of its calls, each has items
/// that it decides.
#[test]
fn book_calls_are_decided_by_their_items() {
    let items = single_items();
    for (rule, calls) in [
        (Rule::OfTheKind, [vectors::BOOK_CHANGE, vectors::BOOK_STRIKE]),
        (Rule::KindAfterTable, [vectors::BOOK_CHANGE, vectors::BOOK_STRIKE]),
        (Rule::KindBeforeField, [vectors::BOOK_CHANGE, vectors::BOOK_STRIKE]),
        (Rule::EarTagIsKey, [vectors::BOOK_ENTER, vectors::BOOK_CHANGE]),
        (Rule::TransponderIsKey, [vectors::BOOK_ENTER, vectors::BOOK_CHANGE]),
        (Rule::TargetNonempty, [vectors::BOOK_ENTER, vectors::BOOK_CHANGE]),
        (Rule::ClosedButForEmpty, [vectors::BOOK_STRIKE, vectors::BOOK_FIND]),
    ] {
        for call in calls {
            let of_call: Vec<(Item, Outcome)> =
                items.iter().filter(|(item, _)| item.call == call).cloned().collect();
            let count = without(rule, || differences(&of_call));
            assert!(count >= MANY / 2, "{:?} {} {}", rule, call, count);
        }
    }
}

/// Losers that block nobody, and that still conflict and guard, decide items of each call that looks
/// at them.
#[test]
fn losers_are_decided_by_each_call() {
    let items = single_items();
    for (rule, calls) in [
        (
            Rule::LoserBlocksNobody,
            &[
                vectors::MARKS,
                vectors::INSERTION,
                vectors::UPDATE,
                vectors::DELETION,
                vectors::BOOK_CHANGE,
                vectors::BOOK_FIND,
            ][..],
        ),
        (
            Rule::ConflictWithLosers,
            &[vectors::INSERTION, vectors::UPDATE, vectors::BOOK_ENTER, vectors::BOOK_CHANGE],
        ),
        (Rule::GuardedByLosers, &[vectors::DELETION, vectors::BOOK_STRIKE]),
    ] {
        for call in calls {
            let of_call: Vec<(Item, Outcome)> =
                items.iter().filter(|(item, _)| item.call == *call).cloned().collect();
            let count = without(rule, || differences(&of_call));
            assert!(count >= MANY / 2, "{:?} {} {}", rule, call, count);
        }
    }
}

/// Fields 9 to 12 decide items of each call that looks at them.
#[test]
fn twelve_fields_are_decided_by_each_call() {
    let items = single_items();
    for (rule, calls) in [
        (
            Rule::FieldsToTwelve,
            &[
                vectors::SCHEMA_CHECK,
                vectors::TABLE_CHECK,
                vectors::MERGE,
                vectors::COMPARE,
                vectors::LOOKUP,
                vectors::MARKS,
                vectors::INSERTION,
                vectors::UPDATE,
                vectors::DELETION,
            ][..],
        ),
        (
            Rule::KeysToTwelve,
            &[vectors::SCHEMA_CHECK, vectors::MARKS, vectors::INSERTION, vectors::UPDATE],
        ),
        (Rule::RegistersToTwelve, &[vectors::TABLE_CHECK, vectors::LOOKUP]),
        (Rule::UnusedToTwelve, &[vectors::TABLE_CHECK, vectors::LOOKUP]),
        (Rule::JoinToTwelve, &[vectors::MERGE, vectors::COMPARE]),
        (Rule::CompleteToTwelve, &[vectors::MARKS]),
        (Rule::ReachedToTwelve, &[vectors::MARKS]),
        (Rule::ClosedToTwelve, &[vectors::MARKS]),
        (Rule::ReferencesToTwelve, &[vectors::INSERTION, vectors::UPDATE]),
        (Rule::TargetsShownToTwelve, &[vectors::INSERTION, vectors::UPDATE]),
        (Rule::DeltaToThirteen, &[vectors::INSERTION, vectors::DELETION]),
    ] {
        for call in calls {
            let of_call: Vec<(Item, Outcome)> =
                items.iter().filter(|(item, _)| item.call == *call).cloned().collect();
            let count = without(rule, || differences(&of_call));
            assert!(count >= MANY / 2, "{:?} {} {}", rule, call, count);
        }
    }
}

/// The rules of both calls that turn a schema and a table.
const TURNED_BOTH_WAYS: [Rule; 35] = [
    Rule::TurnedSchemaLength,
    Rule::TurnedTableLength,
    Rule::WrittenSchemaLength,
    Rule::WrittenTableLength,
    Rule::EqualCapacity,
    Rule::TurnedSchemaBroken,
    Rule::TurnedTableDamaged,
    Rule::TurnedLengthFirst,
    Rule::TurnedSchemaFirst,
    Rule::WrittenSchemaUnasked,
    Rule::WrittenTableUnasked,
    Rule::SameRelations,
    Rule::SameFieldCounts,
    Rule::SameKinds,
    Rule::EighthKind,
    Rule::SameFirstMask,
    Rule::SameSecondMask,
    Rule::SameReplica,
    Rule::SameClock,
    Rule::SameUsed,
    Rule::SameFirsts,
    Rule::SamePositions,
    Rule::SameNext,
    Rule::SameRelation,
    Rule::SameLabel,
    Rule::SameFlag,
    Rule::SameValues,
    Rule::EighthValue,
    Rule::SameStamps,
    Rule::EighthStamp,
    Rule::AboveUsedZero,
    Rule::OldSchemaIgnored,
    Rule::OldTableIgnored,
    Rule::RefusalKeepsSchema,
    Rule::RefusalKeepsTable,
];

/// A schema and a table that are turned are judged by the rules of their own form.
const TURNED_BY_FORM: [Rule; 35] = [
    Rule::SomeRelation,
    Rule::MostRelations,
    Rule::SomeField,
    Rule::MostFields,
    Rule::KnownKind,
    Rule::AbortWithinRelations,
    Rule::PropagationWithinRelations,
    Rule::KindsAboveFields,
    Rule::BlocksAboveRelations,
    Rule::LastWordOfBlock,
    Rule::MostKeyFields,
    Rule::KeyWithinFields,
    Rule::SomeReplica,
    Rule::MostReplica,
    Rule::ClockRange,
    Rule::HeaderZero,
    Rule::HeaderEnd,
    Rule::RecordLabel,
    Rule::Stamp,
    Rule::FlagRange,
    Rule::ValueUnderNone,
    Rule::UsedWithinCapacity,
    Rule::ChainOfRelation,
    Rule::RisingLabels,
    Rule::StrictlyRising,
    Rule::OnAChain,
    Rule::NoIndexAbove,
    Rule::WordsAboveUsed,
    Rule::UnusedValues,
    Rule::UnusedStamps,
    Rule::Reference,
    Rule::ClockOverLabels,
    Rule::ClockOverStamps,
    Rule::ClockOverReferences,
    Rule::ChainsAboveRelations,
];

/// Each rule decides both calls that turn, and each rule of schemas and tables the old form too.
#[test]
fn turns_are_decided_each_way() {
    let items = single_items();
    for call in [vectors::WIDEN, vectors::NARROW] {
        let of_call: Vec<(Item, Outcome)> =
            items.iter().filter(|(item, _)| item.call == call).cloned().collect();
        for rule in TURNED_BOTH_WAYS {
            let count = without(rule, || differences(&of_call));
            assert!(count >= MANY, "{:?} {} {}", rule, call, count);
        }
        let least = if call == vectors::WIDEN { MANY } else { MANY / 2 };
        for rule in TURNED_BY_FORM {
            let count = without(rule, || differences(&of_call));
            println!("{:?} {} {}", rule, call, count);
            assert!(count >= least, "{:?} {} {}", rule, call, count);
        }
    }
}
