//! The rules of document 01 and of the requests of document 02, one by one, each with its sentence.
//!
//! The code asks `rule` or `holds` where a rule decides. Both are constant, but in this crate's own
//! tests, of which one drops each rule in turn and looks for a difference in the vectors.

use crate::layout::{NEW, OLD};

/// The list of the rules, from which both the type and the list of all are made.
macro_rules! rules {
    ($($(#[$sentence:meta])+ $name:ident,)+) => {
        #[derive(Clone, Copy, Debug, PartialEq, Eq)]
        pub(crate) enum Rule {
            $($(#[$sentence])+ $name,)+
        }

        #[cfg(test)]
        pub(crate) const ALL: &[Rule] = &[$(Rule::$name,)+];
    };
}

rules! {
    // Labels, registers, flags.
    /// "Merge keeps the larger stamp." Dropped: the right side's register.
    LargerStamp,
    /// "With equal stamps the larger value is kept". Dropped: the right side's value.
    LargerValue,
    /// "Merge takes the larger." Dropped: the right side's flag.
    LargerFlag,
    /// "Joining a register will say whether the value or stamp differs from before": the value.
    ChangedValue,
    /// "Joining a register will say whether the value or stamp differs from before": the stamp.
    ChangedStamp,
    /// "Joining a register will say whether the value or stamp differs from before": from before.
    /// Dropped: from the right side.
    RegisterBefore,
    /// "joining a flag likewise".
    ChangedFlag,
    /// "joining a flag likewise": from before. Dropped: from the right side.
    FlagBefore,
    /// "Deleting adds 1 to an even flag [...]; otherwise neither alters it."
    DeletesEven,
    /// "redoing adds 1 to an odd flag; otherwise neither alters it."
    RedoesOdd,

    // The schema.
    /// "Word 0 is the number of relations R, 1 to 8": at least 1.
    SomeRelation,
    /// "Word 0 is the number of relations R, 1 to 8": at most 8.
    MostRelations,
    /// "F may be 1 to 12": at least 1.
    SomeField,
    /// "F may be 1 to 12": at most 12.
    MostFields,
    /// "Kind 1 is a plain value; 16 + r is a reference to relation r with abort; 32 + r is one with
    /// propagation". Dropped: any other word is a plain value.
    KnownKind,
    /// "16 + r [...]; r is 1 to R", at most R. Dropped: at most 8.
    AbortWithinRelations,
    /// "32 + r [...]; r is 1 to R", at most R. Dropped: at most 8.
    PropagationWithinRelations,
    /// "kinds above F are 0".
    KindsAboveFields,
    /// "Blocks above R [...] are 0."
    BlocksAboveRelations,
    /// "two key masks, a zero".
    LastWordOfBlock,
    /// "a key names at least one and at most four fields".
    MostKeyFields,
    /// "all within F".
    KeyWithinFields,

    // Well-formed.
    /// "header fields lie in their ranges": "replica (1 to 255)", at least 1.
    SomeReplica,
    /// "header fields lie in their ranges": "replica (1 to 255)", at most 255.
    MostReplica,
    /// "header fields lie in their ranges": "clock (0 to 2^40 − 1)".
    ClockRange,
    /// "header fields lie in their ranges": "3 zero".
    HeaderZero,
    /// "header fields lie in their ranges": "12 to 15 zero".
    HeaderEnd,
    /// "record labels are labels".
    RecordLabel,
    /// "stamps labels or none".
    Stamp,
    /// "flags within range".
    FlagRange,
    /// "a value under stamp none is 0".
    ValueUnderNone,
    /// "used is at most N".
    UsedWithinCapacity,
    /// "each chain holds records of its relation".
    ChainOfRelation,
    /// "with strictly rising labels": rising.
    RisingLabels,
    /// "with strictly rising labels": strictly.
    StrictlyRising,
    /// "each of 1 to used lies on a chain".
    OnAChain,
    /// "and no index above it". Dropped: such an index ends its chain.
    NoIndexAbove,
    /// "words above the used records are zero".
    WordsAboveUsed,
    /// "unused fields are zero": the values.
    UnusedValues,
    /// "unused fields are zero": the stamps.
    UnusedStamps,
    /// "a reference is 0 or a label".
    Reference,
    /// "the clock is at least every counter in labels, stamps and references": labels.
    ClockOverLabels,
    /// "the clock is at least every counter in labels, stamps and references": stamps.
    ClockOverStamps,
    /// "the clock is at least every counter in labels, stamps and references": references.
    ClockOverReferences,
    /// "Chains of relations above R are empty." Dropped: their records have no fields.
    ChainsAboveRelations,

    // The shown list.
    /// Step 1: "Take complete records".
    TakenComplete,
    /// Step 1: "with even flags".
    TakenEven,
    /// Step 2: "Add complete records reached from these".
    AddReached,
    /// Step 2: "by abort references".
    ReachedByAbort,
    /// Step 2: "any number of hops". Dropped: one hop.
    AnyHops,
    /// Step 2: "each hop landing on a complete record".
    HopOnComplete,
    /// Step 3: "drops a record exactly if it conflicts".
    DropLosers,
    /// Step 3: "goes by rising label". Dropped: in the order of the positions.
    ByRisingLabel,
    /// Step 3: "goes by rising label"; "Labels compare as numbers." Dropped: by replica before
    /// counter.
    LabelAsNumber,
    /// Step 3: "with an older one"; "smaller label". Dropped: with a younger one.
    OlderWins,
    /// Step 3: "an older one that step 3 kept". Dropped: any older standing one.
    LoserBlocksNobody,
    /// Step 3: "that step 3 kept", by the same rule. Dropped: one that conflicts with no older
    /// standing one.
    KeptInTurn,
    /// Step 3: "standing". Dropped: a record that does not stand is gone through and blocks too.
    StandingWins,
    /// Step 3: "same relation".
    WithinRelation,
    /// Step 3: "on either key". Dropped: on the first alone.
    OnSecondKey,
    /// Step 3: "on either key". Dropped: on the last alone.
    OnFirstKey,
    /// Step 3: "an older one that step 3 kept", on both keys. Dropped: the losers on the first key
    /// go before the second is looked at.
    FirstKeyNotBefore,
    /// The same. Dropped: the losers on the second key go before the first is looked at.
    SecondKeyNotBefore,
    /// "Two records conflict on a key if all its fields are equal". Dropped: the first of them.
    AllKeyFields,
    /// "and no reference among them is empty (0)".
    EmptyReferenceInKey,
    /// "no reference among them is empty": a plain 0 is not. Dropped: it is.
    PlainZeroInKey,
    /// Step 4: "keep the largest set in which every nonempty reference leads to a member".
    KeepClosed,
    /// Step 4: "the largest set". Dropped: what is built up from records without references.
    LargestSet,
    /// Step 4: "every nonempty reference": abort references.
    ClosedByAbort,
    /// Step 4: "every nonempty reference": propagation references.
    ClosedByPropagation,
    /// Step 4: "every nonempty reference": an empty one is left out.
    ClosedButForEmpty,
    /// Step 4: "leads to a member". Dropped: to a record that step 3 left.
    LeadsToMember,
    /// "A step 3 winner lost in step 4 does not bring its loser back."
    LoserStaysOut,
    /// "gives the next record in list order". Dropped: in the order of the positions.
    WalkInListOrder,
    /// "whose mark is 1, and takes any other mark for 0". Dropped: any mark but 0.
    MarkIsOne,

    // Merge.
    /// "records with the same relation and label join register by register".
    JoinRegisters,
    /// "and flag by flag".
    JoinFlags,
    /// "others are added".
    AddOthers,
    /// "at used + 1 onward in list order". Dropped: in the order of the other's positions.
    AddedInListOrder,
    /// "The clock becomes the larger one".
    LargerClock,
    /// "the own replica number and old positions remain": the number.
    OwnReplica,
    /// Answer 11: "merge needs more than N distinct records".
    MergeFull,
    /// "the number of old records with such a change". Dropped: old records count nothing.
    OldCounted,
    /// "old records with such a change". Dropped: each old record counts.
    OldWithChange,
    /// "the number of old records with such a change": once each. Dropped: each register and flag.
    OldCountedOnce,
    /// "plus those added". Dropped: added records count nothing.
    AddedCounted,
    /// "plus those added": once each. Dropped: each stamped register, and a flag other than 0.
    AddedCountedOnce,
    /// "plus those added": each of them. Dropped: not with flag 0 and no stamps.
    AddedCountedBare,
    /// "such a change", of a register or a flag. Dropped: a larger clock counts too.
    ClockNotCounted,

    // Which copy is ahead.
    /// "exactly the second's clock, records, registers and flags": the clock.
    ComparedClock,
    /// "exactly the second's [...] records". Dropped: a record of one alone does not count.
    ComparedRecords,
    /// "records": incomplete ones too. Dropped: complete ones alone.
    ComparedIncomplete,
    /// "records": hidden ones too. Dropped: shown ones alone.
    ComparedHidden,
    /// "records": those with flag 0 and no stamps too. Dropped: the others alone.
    ComparedBare,
    /// "exactly the second's [...] registers": the values.
    ComparedValues,
    /// "exactly the second's [...] registers": the stamps.
    ComparedStamps,
    /// "exactly the second's [...] flags".
    ComparedFlags,
    /// "and the first has not". Dropped: of two that are alike the first is behind.
    FirstHasNot,
    /// The same of the second. Dropped: of two that are alike the second is behind.
    SecondHasNot,
    /// "Capacities play no part": those of the tables. Dropped: they are compared.
    CapacityNoPart,
    /// "Capacities play no part": room for the merge. Dropped: a merge that has no room in the first
    /// leaves it as it is.
    RoomNoPart,
    /// "The contents of a table are its clock and, for each relation and label it holds, that
    /// record's flag, values and stamps": not the replica number. Dropped: it is compared.
    ReplicaNoPart,
    /// The same: not the positions. Dropped: they are compared.
    PositionNoPart,
    /// 1: "a lent slice [...] has a wrong length": the schema's.
    ComparedSchemaLength,
    /// 1: "a lent slice [...] has a wrong length": the first table's.
    FirstLength,
    /// 1: "a lent slice [...] has a wrong length": the second table's.
    SecondLength,
    /// "Either table being damaged gives 3 for the first". Dropped: 4.
    FirstDamaged,
    /// "Either table being damaged gives [...] 4 for the second". Dropped: 3.
    SecondDamaged,
    /// "the lowest that applies is the answer": 3 where both are damaged. Dropped: 4.
    FirstBeforeSecond,

    // Known or not.
    /// "looks up a record by relation and label": by the relation. Dropped: a record of any relation
    /// with the label is known.
    KnownByRelation,
    /// The same: by the label, as it is. Dropped: its last 48 bits.
    KnownByWholeLabel,
    /// The same: by each apart. Dropped: by relation × 2^48 + label.
    KnownApart,
    /// "walk the relation's chain". Dropped: a record that is on no chain is known too.
    KnownOnChain,
    /// "stop at the label". Dropped: the next one is read.
    StopAtLabel,
    /// "stop [...] at a larger one". Dropped: the chain is read to its end.
    StopAtLarger,
    /// "a larger one"; "Labels compare as numbers." Dropped: by replica before counter.
    LargerAsNumber,
    /// "stop at the label, at a larger one, or at the end", for a number that is no label too.
    /// Dropped: no record is read.
    NoLabelWalked,
    /// "its yes or no", for a number that is no label too. Dropped: 7.
    NoLabelAnswered,
    /// "a search through all records": deleted ones too. Dropped: even ones alone.
    KnownDeleted,
    /// "a search through all records": incomplete ones too. Dropped: complete ones alone.
    KnownIncomplete,
    /// "a search through all records": hidden ones too. Dropped: shown ones alone.
    KnownHidden,
    /// Yes comes with the record's index. Dropped: with the number of records read.
    KnownIndex,
    /// No comes with index 0. Dropped: with that of the last record read.
    UnknownZero,
    /// "length [...] as before": the schema's.
    LookupSchemaLength,
    /// "length [...] as before": the table's.
    LookupTableLength,
    /// "length, schema and relation as before": the relation. Dropped: one that is not 1 to R has no
    /// records.
    LookupRelationNumber,
    /// "the lowest that applies is the answer": 1 before 2. Dropped: 2 before 1.
    LengthBeforeSchema,
    /// "the lowest that applies is the answer": 2 before 3. Dropped: 3 before 2.
    SchemaBeforeHeader,
    /// "the lowest that applies is the answer": 3 before 5. Dropped: 5 before 3.
    HeaderBeforeRelation,
    /// "a record read on the way": none of a relation that is not 1 to R. Dropped: those of all
    /// chains, before 5.
    NoRecordRead,
    /// "a first index passes used": that of the relation asked for. Dropped: its chain is empty.
    AskedFirst,
    /// "a first index passes used": those of the others.
    OtherFirsts,
    /// "a chain above R isn't empty".
    EmptyAboveRelations,
    /// "a record read on the way [...] breaks a rule of its own words": one before the last.
    WayOwnWords,
    /// "the last included, breaks a rule of its own words".
    LastOwnWords,
    /// "a record read on the way [...] is of another relation": one before the last.
    WayRelation,
    /// "the last included, [...] is of another relation".
    LastRelation,
    /// "a record read on the way [...] doesn't raise the label": one before the last.
    WayRaises,
    /// "the last included, [...] doesn't raise the label".
    LastRaises,
    /// "doesn't raise the label": an equal one does not. Dropped: it does.
    RaisesStrictly,
    /// "a record read on the way [...] holds a counter above the clock": one before the last.
    WayCounters,
    /// "the last included, [...] holds a counter above the clock".
    LastCounters,
    /// "a record read on the way [...] has a next above used": one before the last. Dropped: such an
    /// index ends the chain.
    WayNext,
    /// "the last included, [...] has a next above used".
    LastNext,
    /// "3 exactly if": not for other chains' records. Dropped: for them too.
    OtherChainsUnseen,
    /// "3 exactly if": not for words above the used records. Dropped: for them too.
    AboveUsedUnseen,
    /// "3 exactly if": not for a record that is on no chain. Dropped: for it too.
    LostUnseen,

    // Between old and new tables.
    /// 1: "a lent slice [...] has a wrong length": that of the schema turned.
    TurnedSchemaLength,
    /// 1: "a lent slice [...] has a wrong length": that of the table turned.
    TurnedTableLength,
    /// 1: "a lent slice [...] has a wrong length": that of the schema written. Dropped: as many words
    /// as it has are written.
    WrittenSchemaLength,
    /// 1: "a lent slice [...] has a wrong length": that of the table written. Dropped: as many words
    /// as it has are written.
    WrittenTableLength,
    /// "with N equal on both sides".
    EqualCapacity,
    /// 2: "schema broken", of the side turned. Dropped: 3.
    TurnedSchemaBroken,
    /// "3 for the table turned". Dropped: 4.
    TurnedTableDamaged,
    /// "the lowest that applies is the answer": 1 before 2. Dropped: 2 before 1.
    TurnedLengthFirst,
    /// "the lowest that applies is the answer": 2 before 3. Dropped: 3 before 2, where a header word
    /// breaks its rule.
    TurnedSchemaFirst,
    /// "14 [...] if a schema to be turned back has a relation with more than eight fields". Dropped:
    /// the first eight of them are turned back.
    TooManyFields,
    /// "a relation": any. Dropped: the first alone.
    ManyOfAny,
    /// "a schema [...] has a relation": with records or without. Dropped: one that has records.
    ManyUnused,
    /// "more than eight fields". Dropped: eight or more.
    MoreThanEight,
    /// "14, after 3". Dropped: before 3.
    ManyAfterTable,
    /// "14, after 3": after 2. Dropped: before 2, by the field counts as they stand.
    ManyAfterSchema,
    /// "14, after 3": after 1. Dropped: before 1, by the field counts as they stand.
    ManyAfterLength,
    /// "Old contents of the side written are ignored": a broken schema there is no 2.
    WrittenSchemaUnasked,
    /// "Old contents of the side written are ignored": a broken header there is no 3.
    WrittenTableUnasked,
    /// "R [...] stay the same".
    SameRelations,
    /// "each relation's field count".
    SameFieldCounts,
    /// "each relation's [...] kinds".
    SameKinds,
    /// "kinds": all eight. Dropped: the first seven.
    EighthKind,
    /// "each relation's [...] masks": the first.
    SameFirstMask,
    /// "each relation's [...] masks": the second.
    SameSecondMask,
    /// "the header": the replica number.
    SameReplica,
    /// "the header": the clock.
    SameClock,
    /// "the header": the used count.
    SameUsed,
    /// "the header": the first records of the relations.
    SameFirsts,
    /// "at each position". Dropped: records are laid in list order.
    SamePositions,
    /// "the record's next".
    SameNext,
    /// "the record's [...] relation".
    SameRelation,
    /// "the record's [...] label".
    SameLabel,
    /// "the record's [...] flag".
    SameFlag,
    /// "the record's [...] values".
    SameValues,
    /// "values": all eight. Dropped: the first seven.
    EighthValue,
    /// "the record's [...] stamps".
    SameStamps,
    /// "stamps": all eight. Dropped: the first seven.
    EighthStamp,
    /// "what the old form lacks is 0": the kinds. Dropped: they are left as they were.
    LackingKinds,
    /// "what the old form lacks is 0": the values. Dropped: they are left as they were.
    LackingValues,
    /// "what the old form lacks is 0": the stamps. Dropped: they are left as they were.
    LackingStamps,
    /// "words above the used records are zero". Dropped: they are left as they were.
    AboveUsedZero,
    /// "Old contents of the side written are ignored": the schema's. Dropped: no 0 is written.
    OldSchemaIgnored,
    /// "Old contents of the side written are ignored": the table's. Dropped: no 0 is written.
    OldTableIgnored,
    /// "A refusal changes no lent word": the schema written. Dropped: it is written before 3 and 14
    /// are found.
    RefusalKeepsSchema,
    /// "A refusal changes no lent word": the table written. Dropped: it is zeroed before 2, 3 and 14
    /// are found.
    RefusalKeepsTable,

    // Insertion.
    /// "the new label is clock + 1 with the own replica number": the number. Dropped: 1.
    NewLabelReplica,
    /// "and it stamps all fields". Dropped: the first alone.
    StampsAllFields,
    /// Insertion: "the clock rises by 1".
    InsertionClock,
    /// "Each target [...] is redone".
    InsertionRedoes,
    /// "Each target with an odd flag".
    InsertionTargetOdd,
    /// "once however often it is referenced".
    InsertionOnce,

    // Update.
    /// Update: "new stamp as above", with the clock that rises.
    UpdateClock,
    /// "For references the new target is redone if odd."
    NewTargetRedone,
    /// "For references the new target is redone if odd.": if odd.
    NewTargetOdd,
    /// "Then the old target [...] is redone".
    OldTargetRedone,
    /// "the old target, if different".
    OldTargetDifferent,
    /// "and reached by abort".
    OldTargetByAbort,
    /// "is redone if it is odd".
    OldTargetOdd,
    /// Update: "and a [...] record other than the updated one references it": one at all.
    UpdateSupport,
    /// Update: "a complete even record": complete.
    UpdateSupportComplete,
    /// Update: "a complete even record": even.
    UpdateSupportEven,
    /// Update: "other than the updated one".
    UpdateSupportOther,
    /// Update: "references it", by abort.
    UpdateSupportByAbort,
    /// Update: "references it", by propagation.
    UpdateSupportByPropagation,
    /// "In updates [...] the condition reads all flags as the call found them." Dropped: with the
    /// new target redone.
    UpdateReadsFound,

    // Deletion.
    /// "its flag is raised".
    DeletionRaises,
    /// Deletion: "the clock stays". Dropped: it rises.
    DeletionClock,
    /// "Each [...] target [...] is redone".
    DeletionRedoes,
    /// "Each abort target".
    DeletionByAbort,
    /// "other than itself".
    DeletionOther,
    /// "is redone, once".
    DeletionOnce,
    /// Deletion: "under the same condition": the target is odd.
    DeletionTargetOdd,
    /// Deletion: "under the same condition": a record references it.
    DeletionSupport,
    /// Deletion: "under the same condition": a complete one.
    DeletionSupportComplete,
    /// Deletion: "under the same condition": an even one.
    DeletionSupportEven,
    /// "the deleted record not counting".
    DeletionSupportOther,
    /// Deletion: "under the same condition": "references it", by abort.
    DeletionSupportByAbort,
    /// Deletion: "under the same condition": "references it", by propagation.
    DeletionSupportByPropagation,
    /// "In [...] deletions the condition reads all flags as the call found them." Dropped: with the
    /// targets before it redone, in the order of the fields.
    DeletionReadsFound,
    /// The same. Dropped: with the deleted record's flag raised.
    DeletionReadsOwnFound,

    // The delta.
    /// "It holds [...] only the changed records". Dropped: each target too.
    OnlyChanged,
    /// "in list order from 1". Dropped: the edited record first.
    DeltaInListOrder,
    /// "with unchanged registers none".
    UnchangedRegistersNone,
    /// "and unchanged flags 0".
    UnchangedFlagsZero,

    // What a call hands back.
    /// 1: "a lent slice other than an insertion's values has a wrong length": the delta's.
    DeltaLength,
    /// 5: "relation not 1 to R". Dropped: a relation above R or 0 is relation 1.
    RelationNumber,
    /// 5: "replica not 1 to 255 at start".
    StartReplica,
    /// 6: "record to edit is not shown": in an update.
    UpdateShown,
    /// 6: "record to edit is not shown": in a deletion.
    DeletionShown,
    /// 7: "field not 1 to F". Dropped: such a field is the first.
    FieldNumber,
    /// 7: "wrong value count". Dropped: missing values are 0, further ones go.
    ValueCount,
    /// 7: "reference neither 0 nor a label".
    ReferenceValue,
    /// 8: "nonempty new target not shown".
    TargetShown,
    /// 8: "nonempty". Dropped: an empty target is not shown either.
    TargetNonempty,
    /// 8: "not shown". Dropped: not standing.
    TargetNotOnlyStanding,
    /// 9: "insertion: a standing record conflicts with the new one".
    InsertionConflict,
    /// 9: "update: another standing record would conflict".
    UpdateConflict,
    /// 9: "a standing record". Dropped: a shown one.
    ConflictWithStanding,
    /// "Answer 9 still looks at all standing records." Dropped: at those that step 3 kept.
    ConflictWithLosers,
    /// 9: "another standing record", in an update.
    ConflictWithAnother,
    /// 9: "on a key that names the field".
    ConflictOnNamedKey,
    /// 10: "another standing record references it by abort".
    Guarded,
    /// 10: "another".
    GuardedByAnother,
    /// 10: "standing". Dropped: a shown one.
    GuardedByStanding,
    /// 10: "standing". Dropped: one that step 3 kept.
    GuardedByLosers,
    /// 10: "by abort".
    GuardedByAbort,
    /// 11: "insertion with used = N".
    InsertionFull,
    /// 12: "insertion [...] with clock 2^40 − 1".
    InsertionClockAtEnd,
    /// 12: "[...] update with clock 2^40 − 1".
    UpdateClockAtEnd,
    /// 13: "a flag to be redone is 65,535".
    FlagAtEnd,

    // Twelve fields: "All earlier rules apply with these figures." Dropped: they apply to the first
    // eight fields alone.
    /// "F may be 1 to 12". Dropped: 1 to 8.
    FieldsToTwelve,
    /// "twelve kinds": of fields within F. Dropped: those above 8 are plain, whatever their words.
    KindsToTwelve,
    /// "twelve kinds": "kinds above F are 0".
    ZeroKindsToTwelve,
    /// "In a key mask bit 0 is field 1", so that bit 11 is field 12. Dropped: those bits mean nothing.
    KeysToTwelve,
    /// "twelve values, twelve stamps": each register keeps its rules.
    RegistersToTwelve,
    /// "unused fields are zero".
    UnusedToTwelve,
    /// "A record is complete if all F registers have stamps."
    CompleteToTwelve,
    /// "Asked for a record's values": twelve.
    ValuesToTwelve,
    /// Step 2: "by abort references".
    ReachedToTwelve,
    /// Step 4: "every nonempty reference".
    ClosedToTwelve,
    /// "join register by register".
    JoinToTwelve,
    /// "old records with such a change", of any register.
    ChangesToTwelve,
    /// "exactly the second's [...] registers".
    ComparedToTwelve,
    /// Insertion: "and it stamps all fields".
    StampsToTwelve,
    /// Insertion: "Each target with an odd flag is redone".
    InsertionTargetsToTwelve,
    /// "For references the new target is redone if odd."
    NewTargetToTwelve,
    /// "Then the old target [...] is redone".
    OldTargetToTwelve,
    /// Update: "a complete even record other than the updated one references it".
    UpdateSupportToTwelve,
    /// Deletion: "Each abort target".
    DeletionTargetsToTwelve,
    /// Deletion: "under the same condition": "references it".
    DeletionSupportToTwelve,
    /// 7: "field not 1 to F". Dropped: nor 1 to 8.
    FieldNumberToTwelve,
    /// 7: "reference neither 0 nor a label".
    ReferencesToTwelve,
    /// 8: "nonempty new target not shown".
    TargetsShownToTwelve,
    /// 10: "another standing record references it by abort".
    GuardedToTwelve,
    /// "deltas have N = 13". Dropped: the first nine of the changed records.
    DeltaToThirteen,

    // The herd book.
    /// "relations 1 to 6 in that order". Dropped: treatments before cleanings.
    KindsInOrder,
    /// "fields and keys in the order told here": fields. Dropped: a milking's robot before its cow.
    FieldsInOrder,
    /// "fields and keys in the order told here": keys. Dropped: the transponder before the ear tag.
    KeysInOrder,
    /// "A group and a robot have one field, a number, which is their key": a group's.
    GroupNumberIsKey,
    /// "A group and a robot have one field, a number, which is their key": a robot's.
    RobotNumberIsKey,
    /// "A cow has ear tag and transponder, each a key": the ear tag.
    EarTagIsKey,
    /// "A cow has ear tag and transponder, each a key": the transponder.
    TransponderIsKey,
    /// "A cow has ear tag and transponder, each a key": each. Dropped: both are one key.
    EachIsKey,
    /// "and may name her group by abort". Dropped: by propagation.
    GroupByAbort,
    /// "A milking names cow by propagation". Dropped: by abort.
    MilkingCowByPropagation,
    /// "A milking names [...] robot by abort". Dropped: by propagation.
    MilkingRobotByAbort,
    /// "A cleaning names its robot by abort". Dropped: by propagation.
    CleaningRobotByAbort,
    /// "A treatment names its cow by propagation". Dropped: by abort.
    TreatmentCowByPropagation,
    /// "with 6 also for a record of another kind".
    OfTheKind,
    /// The place of this 6: after 3. Dropped: before it.
    KindAfterTable,
    /// The place of this 6: before 7 and the others. Dropped: after them.
    KindBeforeField,
    /// "the index of the shown milking with that label": a milking.
    FoundMilking,
    /// "the index of the shown milking with that label": with that label.
    FoundLabel,
    /// "with that label": a number that is no label is none's. Dropped: its last 48 bits are.
    FoundWholeLabel,
    /// "the index of the shown milking with that label": a shown one.
    FoundShown,
    /// "0 if the library shows none". Dropped: if none stands.
    FoundNotOnlyStanding,
}

/// Whether the rule is in force: always.
#[cfg(not(test))]
pub(crate) const fn rule(_: Rule) -> bool {
    true
}

#[cfg(test)]
pub(crate) use switch::{rule, without};

/// What a rule demands, where it is in force.
pub(crate) fn holds(by: Rule, demanded: bool) -> bool {
    demanded || !rule(by)
}

/// How many fields a rule is applied to: twelve, and eight where it is dropped.
pub(crate) fn to_twelve(by: Rule) -> usize {
    if rule(by) {
        NEW.fields
    } else {
        OLD.fields
    }
}

/// The switch, which only the tests of this crate have.
#[cfg(test)]
mod switch {
    use super::Rule;
    use std::cell::Cell;

    thread_local! {
        static DROPPED: Cell<Option<Rule>> = const { Cell::new(None) };
    }

    pub(crate) fn rule(rule: Rule) -> bool {
        DROPPED.get() != Some(rule)
    }

    /// Runs with one rule dropped, on this thread.
    pub(crate) fn without<T>(rule: Rule, run: impl FnOnce() -> T) -> T {
        DROPPED.set(Some(rule));
        let back = run();
        DROPPED.set(None);
        back
    }
}
