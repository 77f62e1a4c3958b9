//! The table.

use crate::label::{self, Register};
use crate::layout::{
    self, Form, CAPACITY, CLOCK, FLAG, HEADER, LABEL, NEW, NEXT, RELATION, RELATIONS, REPLICA,
    USED, VALUES, ZERO, ZEROS,
};
use crate::rules::{holds, rule, to_twelve, Rule};
use crate::schema::{self, Kind, Schema};
use crate::{need, Answer, Refusal};
use std::collections::BTreeMap;

#[derive(Clone, Debug, PartialEq, Eq)]
pub struct Record {
    pub relation: u64,
    pub label: u64,
    pub flag: u64,
    /// As many as the relation has fields.
    pub registers: Vec<Register>,
}

impl Record {
    pub fn is_complete(&self) -> bool {
        let mut registers = self.registers.iter().take(to_twelve(Rule::CompleteToTwelve));
        registers.all(|register| register.stamp != label::NONE)
    }

    pub fn is_even(&self) -> bool {
        !label::is_deleted(self.flag)
    }

    pub fn name(&self) -> (u64, u64) {
        (self.relation, self.label)
    }
}

/// A well-formed table, decoded. The record of index i stands at i − 1.
#[derive(Clone, Debug, PartialEq, Eq)]
pub struct Table {
    pub capacity: usize,
    pub replica: u64,
    pub clock: u64,
    pub records: Vec<Record>,
}

impl Table {
    /// The positions of the records by relation and label; its order is the list order.
    pub fn positions(&self) -> BTreeMap<(u64, u64), usize> {
        self.records.iter().enumerate().map(|(at, record)| (record.name(), at)).collect()
    }

    /// The words of the table; chains follow the list order.
    pub fn words(&self) -> Vec<u64> {
        self.words_in(NEW)
    }

    /// The same in a form; of fields that it lacks there are no words.
    pub fn words_in(&self, form: Form) -> Vec<u64> {
        let mut words = vec![0; form.table(self.capacity)];
        words[REPLICA] = self.replica;
        words[CLOCK] = self.clock;
        words[USED] = self.records.len() as u64;
        for (at, record) in self.records.iter().enumerate() {
            let begin = form.record(at);
            words[begin + RELATION] = record.relation;
            words[begin + LABEL] = record.label;
            words[begin + FLAG] = record.flag;
            for (field, register) in record.registers.iter().take(form.fields).enumerate() {
                words[begin + VALUES + field] = register.value;
                words[begin + form.stamps() + field] = register.stamp;
            }
        }
        let mut last: Option<(u64, usize)> = None;
        for ((relation, _), at) in self.positions() {
            let link = match last {
                Some((before, begin)) if before == relation => begin + NEXT,
                _ => layout::first(relation as usize),
            };
            words[link] = at as u64 + 1;
            last = Some((relation, form.record(at)));
        }
        words
    }
}

/// The N of a table of this many words.
pub fn capacity_of(length: usize) -> Option<usize> {
    capacity_in(NEW, length)
}

/// The same in a form.
pub fn capacity_in(form: Form, length: usize) -> Option<usize> {
    if length < HEADER || (length - HEADER) % form.record_words() != 0 {
        return None;
    }
    let capacity = (length - HEADER) / form.record_words();
    if capacity <= CAPACITY {
        Some(capacity)
    } else {
        None
    }
}

/// Whether this is an index of 1 to used and to N, in a table of a right length.
pub fn is_index(table: &[u64], index: u64) -> bool {
    index != 0 && is_place(table, index)
}

/// Whether this is 0 to used and to N, in a table of a right length.
pub fn is_place(table: &[u64], place: u64) -> bool {
    match capacity_of(table.len()) {
        Some(capacity) => place <= table[USED] && place <= capacity as u64,
        None => false,
    }
}

fn read_register(kind: Kind, value: u64, stamp: u64, clock: u64) -> Option<Register> {
    let stamp_good = holds(Rule::Stamp, label::is_label_or_none(stamp))
        && holds(Rule::ClockOverStamps, label::counter(stamp) <= clock)
        && holds(Rule::ValueUnderNone, stamp != label::NONE || value == 0);
    let value_good = kind == Kind::Plain
        || holds(Rule::Reference, label::is_label_or_none(value))
            && holds(Rule::ClockOverReferences, label::counter(value) <= clock);
    if stamp_good && value_good {
        Some(Register { value, stamp })
    } else {
        None
    }
}

/// The record that these words tell, if they keep their rules and hold no counter above the clock.
pub fn read_record(form: Form, schema: &Schema, words: &[u64], clock: u64) -> Option<Record> {
    let (relation, name, flag) = (words[RELATION], words[LABEL], words[FLAG]);
    let kinds: &[Kind] = match schema.relation(relation) {
        Some(of) => &of.kinds,
        None if rule(Rule::ChainsAboveRelations) => return None,
        None => &[],
    };
    if !holds(Rule::RecordLabel, label::is_label(name))
        || !holds(Rule::ClockOverLabels, label::counter(name) <= clock)
        || !holds(Rule::FlagRange, flag <= label::LARGEST_FLAG)
    {
        return None;
    }
    let mut registers = Vec::new();
    for (field, kind) in kinds.iter().enumerate() {
        let (value, stamp) = (words[VALUES + field], words[form.stamps() + field]);
        let tested = field < to_twelve(Rule::RegistersToTwelve);
        let register = read_register(*kind, value, stamp, clock);
        registers.push(if tested { register? } else { Register { value, stamp } });
    }
    let unused = kinds.len()..form.fields.min(to_twelve(Rule::UnusedToTwelve));
    let zero = |from: usize| unused.clone().all(|field| words[from + field] == 0);
    if !holds(Rule::UnusedValues, zero(VALUES)) || !holds(Rule::UnusedStamps, zero(form.stamps())) {
        return None;
    }
    Some(Record { relation, label: name, flag, registers })
}

/// Whether the chains hold each record once, in its relation's chain, with strictly rising labels.
fn chains_hold(form: Form, words: &[u64], records: &[Record]) -> bool {
    let mut held = 0;
    for relation in 1..=RELATIONS {
        let mut index = words[layout::first(relation)];
        let mut before = 0;
        while index != 0 {
            if index > records.len() as u64 {
                if rule(Rule::NoIndexAbove) {
                    return false;
                }
                break;
            }
            let at = index as usize - 1;
            let record = &records[at];
            let rising = holds(Rule::RisingLabels, record.label >= before)
                && holds(Rule::StrictlyRising, record.label != before);
            if !rising || !holds(Rule::ChainOfRelation, record.relation == relation as u64) {
                return false;
            }
            // Chains that hold more than all records hold one twice; a ring would not end.
            held += 1;
            if held > records.len() {
                return false;
            }
            before = record.label;
            index = words[form.record(at) + NEXT];
        }
    }
    holds(Rule::OnAChain, held == records.len())
}

/// Whether the words of the header but for the first indices keep their rules.
pub fn header_holds(words: &[u64], capacity: usize) -> bool {
    holds(Rule::SomeReplica, 1 <= words[REPLICA])
        && holds(Rule::MostReplica, words[REPLICA] <= label::LARGEST_REPLICA)
        && holds(Rule::ClockRange, words[CLOCK] <= label::LARGEST_COUNTER)
        && holds(Rule::UsedWithinCapacity, words[USED] <= capacity as u64)
        && holds(Rule::HeaderZero, words[ZERO] == 0)
        && holds(Rule::HeaderEnd, words[ZEROS..HEADER].iter().all(|word| *word == 0))
}

/// The table that the words tell, if they have a right length and are well-formed.
pub fn read(schema: &Schema, words: &[u64]) -> Option<Table> {
    read_in(NEW, schema, words)
}

/// The same of words in a form.
pub fn read_in(form: Form, schema: &Schema, words: &[u64]) -> Option<Table> {
    let capacity = capacity_in(form, words.len())?;
    let (replica, clock, used) = (words[REPLICA], words[CLOCK], words[USED]);
    let header = header_holds(words, capacity);
    let end = form.record((used as usize).min(capacity));
    if !header || !holds(Rule::WordsAboveUsed, words[end..].iter().all(|word| *word == 0)) {
        return None;
    }
    let mut records = Vec::new();
    for record in words[HEADER..end].chunks(form.record_words()) {
        records.push(read_record(form, schema, record, clock)?);
    }
    if !chains_hold(form, words, &records) {
        return None;
    }
    Some(Table { capacity, replica, clock, records })
}

/// The checks 1 to 3 of a call on a schema and a table.
pub fn read_checked(schema: &[u64], table: &[u64], more: bool) -> Answer<(Schema, Table)> {
    let lengths = schema.len() == layout::SCHEMA && capacity_of(table.len()).is_some();
    need(lengths && more, Refusal::LengthOrIndex)?;
    let schema = schema::read(schema).ok_or(Refusal::BrokenSchema)?;
    let table = read(&schema, table).ok_or(Refusal::OwnTable)?;
    Ok((schema, table))
}

pub fn table_check(schema: &[u64], table: &[u64]) -> Answer<()> {
    read_checked(schema, table, true).map(|_| ())
}

pub fn start(table: &mut [u64], replica: u64) -> Answer<()> {
    need(capacity_of(table.len()).is_some(), Refusal::LengthOrIndex)?;
    let replica_fits = 1 <= replica && replica <= label::LARGEST_REPLICA;
    need(holds(Rule::StartReplica, replica_fits), Refusal::RelationOrReplica)?;
    table.fill(0);
    table[REPLICA] = replica;
    Ok(())
}

/// The values of the record of this index, or an empty part.
pub fn values(table: &[u64], index: u64) -> &[u64] {
    if !is_index(table, index) {
        return &[];
    }
    let begin = layout::record(index as usize - 1) + VALUES;
    &table[begin..begin + to_twelve(Rule::ValuesToTwelve)]
}
