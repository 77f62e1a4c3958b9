//! Known or not: a record looked up by relation and label, along its relation's chain.

use crate::label::{self, LABELS, LARGEST_COUNTER};
use crate::layout::{
    self, CLOCK, FIRSTS, LABEL, NEW, NEXT, RECORD, RELATION, RELATIONS, SCHEMA, USED, ZEROS,
};
use crate::rules::{holds, rule, Rule};
use crate::schema::{self, Schema};
use crate::shown::shown;
use crate::table;
use crate::{need, Answer, Refusal};

/// A walk along a relation's chain, to a label.
struct Walk<'a> {
    schema: &'a Schema,
    table: &'a [u64],
    relation: u64,
    label: u64,
}

impl Walk<'_> {
    fn record(&self, index: u64) -> &[u64] {
        let begin = layout::record(index as usize - 1);
        &self.table[begin..begin + RECORD]
    }

    /// "stop at the label, at a larger one".
    fn stops_at(&self, label: u64) -> bool {
        let order = |label: u64| match rule(Rule::LargerAsNumber) {
            true => (label, 0),
            false => (label::replica(label), label::counter(label)),
        };
        rule(Rule::StopAtLabel) && label == self.label
            || rule(Rule::StopAtLarger) && order(label) > order(self.label)
    }

    /// Whether a record that is read keeps the rules. Each is dropped of the last one that is read,
    /// or of those before it.
    fn is_good(&self, record: &[u64], before: u64) -> bool {
        let last = record[NEXT] == 0 || self.stops_at(record[LABEL]);
        let keeps = |way: Rule, of_last: Rule, kept: bool| {
            let by = if last { of_last } else { way };
            holds(by, kept)
        };
        let own_words = table::read_record(NEW, self.schema, record, LARGEST_COUNTER).is_some();
        let counters = table::read_record(NEW, self.schema, record, self.table[CLOCK]).is_some();
        keeps(Rule::WayOwnWords, Rule::LastOwnWords, own_words)
            && keeps(Rule::WayRelation, Rule::LastRelation, record[RELATION] == self.relation)
            && keeps(Rule::WayRaises, Rule::LastRaises, before <= record[LABEL])
            && holds(Rule::RaisesStrictly, before != record[LABEL])
            && keeps(Rule::WayCounters, Rule::LastCounters, counters || !own_words)
            && keeps(Rule::WayNext, Rule::LastNext, record[NEXT] <= self.table[USED])
    }

    /// The indices of the records read, in their order.
    fn read(&self) -> Answer<Vec<u64>> {
        let used = self.table[USED];
        let (mut read, mut before) = (Vec::new(), label::NONE);
        let mut index = self.table[layout::first(self.relation as usize)];
        // Labels rise: of used + 1 records one is met again, and is refused.
        while index != 0 && index <= used && read.len() as u64 <= used {
            let record = self.record(index);
            need(self.is_good(record, before), Refusal::OwnTable)?;
            read.push(index);
            if self.stops_at(record[LABEL]) {
                break;
            }
            (index, before) = (record[NEXT], record[LABEL]);
        }
        Ok(read)
    }

    /// Whether a stored record is known: each one is, shown or not.
    fn is_known(&self, index: u64) -> bool {
        let is_shown = || {
            let table = table::read(self.schema, self.table);
            table.is_none_or(|table| shown(self.schema, &table)[index as usize - 1])
        };
        let record = table::read_record(NEW, self.schema, self.record(index), LARGEST_COUNTER);
        let counts = record.is_none_or(|record| {
            (rule(Rule::KnownDeleted) || record.is_even())
                && (rule(Rule::KnownIncomplete) || record.is_complete())
        });
        counts && (rule(Rule::KnownHidden) || is_shown())
    }

    /// A record that is taken for the one asked for where a rule is dropped.
    fn mistaken(&self) -> Option<u64> {
        let key = |relation: u64, label: u64| relation.wrapping_mul(LABELS).wrapping_add(label);
        (1..=self.table[USED]).find(|index| {
            let (relation, label) = (self.record(*index)[RELATION], self.record(*index)[LABEL]);
            !rule(Rule::KnownByRelation) && label == self.label
                || !rule(Rule::KnownApart) && key(relation, label) == key(self.relation, self.label)
                || !rule(Rule::KnownOnChain) && (relation, label) == (self.relation, self.label)
        })
    }

    /// The index of the record with the label, 0 if none has it.
    fn found(&self) -> Answer<u64> {
        let read = self.read()?;
        let is_it = |index: &u64| self.record(*index)[LABEL] == self.label;
        let found = read.iter().copied().find(|index| is_it(index) && self.is_known(*index));
        Ok(match found {
            Some(index) if rule(Rule::KnownIndex) => index,
            Some(_) => read.len() as u64,
            None if rule(Rule::UnknownZero) => self.mistaken().unwrap_or(0),
            None => read.last().copied().unwrap_or(0),
        })
    }
}

/// "a header word breaks its rule, a first index passes used, a chain above R isn't empty": none.
fn header_good(relations: usize, words: &[u64], relation: u64) -> bool {
    let first_good = |of: usize| {
        let by = if of as u64 == relation { Rule::AskedFirst } else { Rule::OtherFirsts };
        let first = words[layout::first(of)];
        holds(by, first <= words[USED])
            && holds(Rule::EmptyAboveRelations, of <= relations || first == 0)
    };
    let capacity = table::capacity_of(words.len());
    capacity.is_some_and(|capacity| table::header_holds(words, capacity))
        && (1..=RELATIONS).all(first_good)
}

/// Whether the records of all chains but one relation's are good.
fn others_good(schema: &Schema, words: &[u64], relation: u64) -> bool {
    let mut others = (1..=schema.relations.len() as u64).filter(|of| *of != relation);
    others.all(|of| Walk { schema, table: words, relation: of, label: u64::MAX }.read().is_ok())
}

/// "3 exactly if": of all else nothing is tested, but where a rule is dropped.
fn rest_good(schema: &Schema, words: &[u64], relation: u64) -> bool {
    let end = layout::record(words[USED] as usize);
    let is_next =
        |index: u64| words[layout::record(0)..end].chunks(RECORD).any(|of| of[NEXT] == index);
    let on_a_chain = |index: u64| words[FIRSTS..ZEROS].contains(&index) || is_next(index);
    (rule(Rule::OtherChainsUnseen) || others_good(schema, words, relation))
        && (rule(Rule::AboveUsedUnseen) || words[end..].iter().all(|word| *word == 0))
        && (rule(Rule::LostUnseen) || (1..=words[USED]).all(on_a_chain))
}

/// The checks 1, 2, 3 as far as it reads no record, and 5; then the schema.
fn read_checked(schema: &[u64], table: &[u64], relation: u64) -> Answer<Schema> {
    let lengths = holds(Rule::LookupSchemaLength, schema.len() == SCHEMA)
        && holds(Rule::LookupTableLength, table::capacity_of(table.len()).is_some());
    let told = schema::read(schema);
    let relations = told.as_ref().map_or(RELATIONS, |schema| schema.relations.len());
    let is_relation = (1..=relations as u64).contains(&relation);
    let header = header_good(relations, table, relation);
    let unread = is_relation || rule(Rule::NoRecordRead);
    let records = |schema: &Schema| unread || others_good(schema, table, relation);
    let mut checks = [
        need(lengths, Refusal::LengthOrIndex),
        need(told.is_some(), Refusal::BrokenSchema),
        need(header && told.as_ref().is_none_or(records), Refusal::OwnTable),
        need(holds(Rule::LookupRelationNumber, is_relation), Refusal::RelationOrReplica),
    ];
    let orders = [Rule::LengthBeforeSchema, Rule::SchemaBeforeHeader, Rule::HeaderBeforeRelation];
    for (at, order) in orders.into_iter().enumerate() {
        if !rule(order) {
            checks.swap(at, at + 1);
        }
    }
    checks.into_iter().collect::<Answer<()>>()?;
    told.ok_or(Refusal::BrokenSchema)
}

/// The index of the record of this relation with this label, 0 if it is not known.
pub fn lookup(schema: &[u64], table: &[u64], relation: u64, label: u64) -> Answer<u64> {
    let schema = read_checked(schema, table, relation)?;
    need(rest_good(&schema, table, relation), Refusal::OwnTable)?;
    let is_label = label::is_label(label);
    need(is_label || rule(Rule::NoLabelAnswered), Refusal::FieldOrValue)?;
    if !is_label && !rule(Rule::NoLabelWalked) {
        return Ok(0);
    }
    let label = if rule(Rule::KnownByWholeLabel) { label } else { label % LABELS };
    Walk { schema: &schema, table, relation, label }.found()
}
