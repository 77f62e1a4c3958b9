//! Between old and new tables: schema and table of one form, turned into the other.

use crate::layout::{
    self, Form, BLOCKS, CLOCK, FIELD_COUNT, FIRSTS, FLAG, HEADER, KINDS, LABEL, NEW, NEXT, OLD,
    RELATION, RELATIONS, REPLICA, USED, VALUES, ZERO, ZEROS,
};
use crate::rules::{holds, rule, Rule};
use crate::schema::{self, Schema};
use crate::table::{self, Table};
use crate::{need, Answer, Refusal};

/// The schema and the table that are turned, their form, and the one that they get.
#[derive(Clone, Copy)]
struct Turned<'a> {
    from: Form,
    to: Form,
    schema: &'a [u64],
    table: &'a [u64],
}

/// Words that "stay the same". Dropped: they are 0.
fn same(by: Rule, words: &mut [u64]) {
    if !rule(by) {
        words.fill(0);
    }
}

/// Writes words over old contents, which are left where a rule is dropped.
fn write(to: &mut [u64], words: &[u64], left: impl Fn(usize) -> bool) {
    for (at, (word, new)) in to.iter_mut().zip(words).enumerate() {
        if !left(at) {
            *word = *new;
        }
    }
}

/// Whether the words of a table's header but for the first indices keep their rules.
fn has_header(form: Form, table: &[u64]) -> bool {
    let capacity = table::capacity_in(form, table.len());
    capacity.is_some_and(|capacity| table::header_holds(table, capacity))
}

impl Turned<'_> {
    /// All four lengths, "with N equal on both sides".
    fn lengths_hold(&self, schema: &[u64], table: &[u64]) -> bool {
        let capacity = table::capacity_in(self.from, self.table.len());
        let written = table::capacity_in(self.to, table.len());
        let unequal = capacity.is_some() && written.is_some() && capacity != written;
        holds(Rule::TurnedSchemaLength, self.schema.len() == self.from.schema())
            && holds(Rule::TurnedTableLength, capacity.is_some())
            && holds(Rule::WrittenSchemaLength, schema.len() == self.to.schema())
            && holds(Rule::WrittenTableLength, written.is_some())
            && holds(Rule::EqualCapacity, !unequal)
    }

    /// "if a schema to be turned back has a relation with more than eight fields", as its words tell.
    fn has_too_many(&self) -> bool {
        let most = self.to.fields - (!rule(Rule::MoreThanEight)) as usize;
        let relations = if rule(Rule::ManyOfAny) { RELATIONS } else { 1 };
        let word = |words: &[u64], at: usize| words.get(at).copied().unwrap_or(0);
        let has = |relation: usize| {
            let begin = self.from.block(relation);
            let counts = rule(Rule::ManyUnused) || word(self.table, layout::first(relation)) != 0;
            word(self.schema, begin + FIELD_COUNT) > most as u64 && counts
        };
        self.to == OLD && rule(Rule::TooManyFields) && (1..=relations).any(has)
    }

    /// Whether the table is well-formed; under a broken schema, whether its header is.
    fn is_good(&self, told: Option<&Schema>) -> bool {
        match told {
            Some(schema) => table::read_in(self.from, schema, self.table).is_some(),
            None => has_header(self.from, self.table),
        }
    }

    /// The checks 1, 2, 3 and 14, in the order of these numbers.
    fn check(&self, told: Option<&Schema>, schema: &[u64], table: &[u64]) -> Answer<()> {
        let schema_unasked =
            rule(Rule::WrittenSchemaUnasked) || schema::read_in(self.to, schema).is_some();
        let table_unasked = rule(Rule::WrittenTableUnasked) || has_header(self.to, table);
        let number = |by: Rule, told: Refusal, other: Refusal| if rule(by) { told } else { other };
        let two = number(Rule::TurnedSchemaBroken, Refusal::BrokenSchema, Refusal::OwnTable);
        let three = number(Rule::TurnedTableDamaged, Refusal::OwnTable, Refusal::OtherTable);
        let mut checks = [
            need(self.lengths_hold(schema, table), Refusal::LengthOrIndex),
            need(told.is_some() && schema_unasked, two),
            need(self.is_good(told) && table_unasked, three),
            need(!self.has_too_many(), Refusal::TooManyFields),
        ];
        let orders = [Rule::TurnedLengthFirst, Rule::TurnedSchemaFirst];
        for (at, order) in orders.into_iter().enumerate() {
            if !rule(order) {
                checks.swap(at, at + 1);
            }
        }
        let before = [Rule::ManyAfterLength, Rule::ManyAfterSchema, Rule::ManyAfterTable];
        if let Some(place) = before.into_iter().position(|after| !rule(after)) {
            checks[place..].rotate_right(1);
        }
        checks.into_iter().collect()
    }

    /// The words of the schema in the form written.
    fn schema_words(&self, schema: &Schema) -> Vec<u64> {
        let (to, eighth) = (self.to, KINDS + OLD.fields - 1);
        let mut words = schema.words_in(to);
        same(Rule::SameRelations, &mut words[..BLOCKS]);
        for block in words[BLOCKS..].chunks_mut(to.block_words()) {
            same(Rule::SameFieldCounts, &mut block[FIELD_COUNT..KINDS]);
            same(Rule::SameKinds, &mut block[KINDS..to.masks()]);
            same(Rule::EighthKind, &mut block[eighth..=eighth]);
            same(Rule::SameFirstMask, &mut block[to.masks()..to.masks() + 1]);
            same(Rule::SameSecondMask, &mut block[to.masks() + 1..to.block_zero()]);
        }
        words
    }

    /// The words of the table in the form written: each record stands at its position.
    fn table_words(&self, table: &Table) -> Vec<u64> {
        let (mut table, to, eighth) = (table.clone(), self.to, OLD.fields - 1);
        if !rule(Rule::SamePositions) {
            table.records.sort_by_key(|record| record.name());
        }
        let mut words = table.words_in(to);
        same(Rule::SameReplica, &mut words[REPLICA..CLOCK]);
        same(Rule::SameClock, &mut words[CLOCK..USED]);
        same(Rule::SameUsed, &mut words[USED..ZERO]);
        same(Rule::SameFirsts, &mut words[FIRSTS..ZEROS]);
        for record in words[HEADER..].chunks_mut(to.record_words()) {
            same(Rule::SameNext, &mut record[NEXT..RELATION]);
            same(Rule::SameRelation, &mut record[RELATION..LABEL]);
            same(Rule::SameLabel, &mut record[LABEL..FLAG]);
            same(Rule::SameFlag, &mut record[FLAG..VALUES]);
            same(Rule::SameValues, &mut record[VALUES..to.stamps()]);
            same(Rule::SameStamps, &mut record[to.stamps()..]);
            same(Rule::EighthValue, &mut record[VALUES + eighth..][..1]);
            same(Rule::EighthStamp, &mut record[to.stamps() + eighth..][..1]);
        }
        words
    }

    fn write_schema(&self, told: &Schema, schema: &mut [u64]) {
        let words = self.schema_words(told);
        let lacking = KINDS + self.from.fields..KINDS + self.to.fields;
        let lacks =
            |at: usize| at >= BLOCKS && lacking.contains(&((at - BLOCKS) % self.to.block_words()));
        write(schema, &words, |at| {
            !rule(Rule::OldSchemaIgnored) && words[at] == 0
                || !rule(Rule::LackingKinds) && lacks(at)
        });
    }

    fn write_table(&self, told: &Table, table: &mut [u64]) {
        let words = self.table_words(told);
        let (end, lacking) = (self.to.record(told.records.len()), self.from.fields..self.to.fields);
        let lacks = |by: Rule, at: usize, from: usize| {
            let field = (at - HEADER) % self.to.record_words();
            !rule(by) && (from + lacking.start..from + lacking.end).contains(&field)
        };
        write(table, &words, |at| {
            !rule(Rule::OldTableIgnored) && words[at] == 0
                || at >= HEADER && lacks(Rule::LackingValues, at, VALUES)
                || at >= HEADER && lacks(Rule::LackingStamps, at, self.to.stamps())
                || at >= end && !rule(Rule::AboveUsedZero)
        });
    }

    /// "A refusal changes no lent word": nothing is done here, but where a rule is dropped.
    fn refuse(
        &self,
        refusal: Refusal,
        told: Option<&Schema>,
        schema: &mut [u64],
        table: &mut [u64],
    ) {
        if refusal > Refusal::BrokenSchema && !rule(Rule::RefusalKeepsSchema) {
            if let Some(told) = told {
                self.write_schema(told, schema);
            }
        }
        if refusal > Refusal::LengthOrIndex && !rule(Rule::RefusalKeepsTable) {
            table.fill(0);
        }
    }

    fn turn(&self, schema: &mut [u64], table: &mut [u64]) -> Answer<()> {
        let told = schema::read_in(self.from, self.schema);
        let checked = self.check(told.as_ref(), schema, table);
        if let Err(refusal) = checked {
            self.refuse(refusal, told.as_ref(), schema, table);
        }
        checked?;
        let told = told.ok_or(Refusal::BrokenSchema)?;
        let read = table::read_in(self.from, &told, self.table).ok_or(Refusal::OwnTable)?;
        self.write_schema(&told, schema);
        self.write_table(&read, table);
        Ok(())
    }
}

/// Turns an old schema and table into new ones.
pub fn widen(
    old_schema: &[u64],
    old_table: &[u64],
    schema: &mut [u64],
    table: &mut [u64],
) -> Answer<()> {
    Turned { from: OLD, to: NEW, schema: old_schema, table: old_table }.turn(schema, table)
}

/// Turns a new schema and table back into old ones.
pub fn narrow(
    schema: &[u64],
    table: &[u64],
    old_schema: &mut [u64],
    old_table: &mut [u64],
) -> Answer<()> {
    Turned { from: NEW, to: OLD, schema, table }.turn(old_schema, old_table)
}
