//! Fields 9 to 12: schemas, tables, merges, comparisons, lookups and values that eight fields cannot
//! tell.

use super::chains::item as lookup_item;
use super::items::Items;
use super::new_field_edits::thirteen;
use super::treatments::{index, kinds, some_relation, Treatments, TARGET};
use crate::compare::Verdict;
use crate::label::{label_of, Register};
use crate::layout::{
    self, abort, mask, propagation, ABORT, CLOCK, DELTA_CAPACITY, FIELDS, FIELD_COUNT, KINDS,
    MASKS, NEW_FIELDS, OLD, PLAIN, PROPAGATION, RELATION_COUNT, STAMPS, USED, VALUES,
};
use crate::random::{self, Random};
use crate::table::Table;
use crate::vectors::item::{Item, COMPARE, MERGE, RECORD_VALUES, SCHEMA_CHECK, TABLE_CHECK};

const SCHEMAS: u8 = 103;
const MASKED: u8 = 104;
const CHECKS: u8 = 105;
const MERGES: u8 = 106;
const DELTAS: u8 = 107;
const COMPARES: u8 = 108;
const LOOKUPS: u8 = 109;
const PARTS: u8 = 110;

/// How many tables each case has.
const ENOUGH: u64 = 24;
const FEW: u64 = 2;

fn check(items: &mut Items, category: u8, schema: Vec<u64>, answer: u64) {
    let slices = vec![schema];
    items.push_with(answer, Item { category, call: SCHEMA_CHECK, slices, words: vec![] });
}

/// A schema, of which the block of one relation has this field count, these kinds and no keys.
fn with_block(base: &[u64], block: usize, fields: usize, kinds: &[u64]) -> Vec<u64> {
    let mut words = base.to_vec();
    words[block + FIELD_COUNT] = fields as u64;
    words[block + KINDS..block + KINDS + FIELDS].fill(0);
    words[block + KINDS..][..kinds.len()].copy_from_slice(kinds);
    words[block + MASKS..block + layout::BLOCK].fill(0);
    words
}

/// F = 12, and F = 13; F of 9 to 11, and a kind above F; and a kind of fields 9 to 12 that is none.
fn schemas(items: &mut Items, random: &mut Random) {
    for round in 0..ENOUGH {
        let base = random::schema(random);
        let relations = base[RELATION_COUNT];
        let block = layout::block(1 + random.below(relations) as usize);
        let target = 1 + random.below(relations);
        let known = [PLAIN, abort(target), propagation(target)];
        let kinds: Vec<u64> = (0..FIELDS).map(|_| random.pick(&known)).collect();
        check(items, SCHEMAS, with_block(&base, block, FIELDS, &kinds), 0);
        let mut one_more = with_block(&base, block, FIELDS + 1, &kinds);
        one_more[block + MASKS] = round % 2 * PLAIN;
        check(items, SCHEMAS, one_more, 2);
        let fields = OLD.fields + 1 + round as usize % 3;
        let fewer = with_block(&base, block, fields, &kinds[..fields]);
        check(items, SCHEMAS, fewer.clone(), 0);
        let above = fields + random.below((FIELDS - fields) as u64) as usize;
        let mut more = fewer;
        more[block + KINDS + above] = kinds[above];
        check(items, SCHEMAS, more, 2);
        let beyond = [abort(relations + 1), propagation(relations + 1)];
        let none = [[0, PLAIN + 1, ABORT, PROPAGATION].as_slice(), &beyond].concat();
        let mut wrong = kinds;
        wrong[OLD.fields + random.below(4) as usize] = random.pick(&none);
        check(items, SCHEMAS, with_block(&base, block, FIELDS, &wrong), 2);
    }
}

/// Keys that name the last field of 9 to 12, alone and with three others; the one above it, alone and
/// with three others; and five fields with the last.
fn masks(items: &mut Items, random: &mut Random) {
    for round in 0..ENOUGH {
        let base = random::schema(random);
        let block = layout::block(1 + random.below(base[RELATION_COUNT]) as usize);
        let last = OLD.fields + 1 + round as usize % 4;
        let kinds = vec![PLAIN; last];
        let at = block + MASKS + random.below(2) as usize;
        let mut others: Vec<usize> = (1..last).collect();
        random.shuffle(&mut others);
        let mut push = |of: &[usize], field: usize, answer: u64| {
            let mut words = with_block(&base, block, last, &kinds);
            words[at] = mask(of) | mask(&[field]);
            check(items, MASKED, words, answer);
        };
        push(&[], last, 0);
        push(&[], last + 1, 2);
        push(&others[..3], last, 0);
        push(&others[..3], last + 1, 2);
        push(&others[..4], last, 2);
    }
}

fn table_item(category: u8, schema: &[u64], words: Vec<u64>) -> Item {
    let slices = vec![schema.to_vec(), words];
    Item { category, call: TABLE_CHECK, slices, words: vec![] }
}

/// Unused fields that are not zero, at each place above the eighth; and a stamp at each of twelve.
fn unused(items: &mut Items, random: &mut Random) {
    for fields in NEW_FIELDS {
        for (place, part) in (fields..FIELDS).flat_map(|at| [(at, VALUES), (at, STAMPS)]) {
            for _ in 0..FEW {
                let (relation, kinds) = (some_relation(random), kinds(random, fields));
                let mut made = Treatments::new(random, relation, &kinds, [0, 0]);
                let label = made.treatment(&[]);
                let table = made.table(0);
                let mut words = table.words();
                let begin = layout::record(index(&table, label) as usize - 1);
                words[begin + part + place] = made.random.pick(&[1, label]);
                items.push_with(3, table_item(CHECKS, &made.schema, words));
            }
        }
    }
    for place in 0..FIELDS {
        let mut made = Treatments::with(random, &[]);
        let label = made.treatment(&[]);
        let stamp = made.new_label();
        let registers = &mut made.record(label).registers;
        registers.fill(Register::default());
        registers[place].stamp = stamp;
        let words = made.table(0).words();
        items.push_with(0, table_item(CHECKS, &made.schema, words));
    }
}

/// What may be wrong with a register.
#[derive(Clone, Copy)]
enum Wrong {
    Stamp,
    StampCounter,
    ValueUnderNone,
    Reference,
    ReferenceCounter,
}

const WRONGS: [Wrong; 5] = [
    Wrong::Stamp,
    Wrong::StampCounter,
    Wrong::ValueUnderNone,
    Wrong::Reference,
    Wrong::ReferenceCounter,
];

/// The register of a field of a treatment, with something wrong.
fn wrong_register(words: &mut [u64], begin: usize, field: usize, label: u64, wrong: Wrong) {
    let above = label_of(words[CLOCK] + 1, 1);
    let (value, stamp) = match wrong {
        Wrong::Stamp => (0, 255),
        Wrong::StampCounter => (0, above),
        Wrong::ValueUnderNone => (label, 0),
        Wrong::Reference => (255, label),
        Wrong::ReferenceCounter => (above, label),
    };
    words[begin + VALUES + field] = value;
    words[begin + STAMPS + field] = stamp;
}

/// A treatment with a reference in a field, before others; and its label.
fn some_treatments(random: &mut Random, field: usize) -> (Treatments<'_>, u64) {
    let kind = random.pick(&[abort(TARGET), propagation(TARGET)]);
    let mut made = Treatments::with(random, &[(field, kind)]);
    let target = made.target(0);
    let label = made.treatment(&[(field, target)]);
    for _ in 0..1 + made.random.below(2) {
        made.treatment(&[]);
    }
    (made, label)
}

/// Registers of fields 9 to 12 with something wrong: table checks, and lookups that read them and
/// that do not.
fn registers(items: &mut Items, random: &mut Random) {
    for (field, wrong) in NEW_FIELDS.flat_map(|field| WRONGS.map(|wrong| (field, wrong))) {
        let (mut made, label) = some_treatments(random, field);
        let table = made.table(0);
        let (relation, schema) = (made.relation, made.schema.clone());
        items.push_with(0, table_item(CHECKS, &schema, table.words()));
        for damaged in [label, table.records.iter().map(|of| of.label).max().unwrap_or(0)] {
            let mut words = table.words();
            let begin = layout::record(index(&table, damaged) as usize - 1);
            wrong_register(&mut words, begin, field, damaged, wrong);
            items.push_with(3, table_item(CHECKS, &schema, words.clone()));
            let read = damaged == label;
            let lookup = lookup_item(LOOKUPS, &schema, &words, relation, label);
            let back = items.push_with(if read { 3 } else { 0 }, lookup);
            assert_eq!(back.results, [if read { 0 } else { index(&table, label) }]);
        }
    }
}

/// Unused fields of the record that is read are not zero.
fn unused_read(items: &mut Items, random: &mut Random) {
    for (fields, part) in NEW_FIELDS.flat_map(|fields| [(fields, VALUES), (fields, STAMPS)]) {
        let (relation, kinds) = (some_relation(random), kinds(random, fields));
        let mut made = Treatments::new(random, relation, &kinds, [0, 0]);
        let label = made.treatment(&[]);
        let table = made.table(1);
        let mut words = table.words();
        let begin = layout::record(index(&table, label) as usize - 1);
        words[begin + part + FIELDS - 1] = label;
        items.push_with(3, lookup_item(LOOKUPS, &made.schema, &words, relation, label));
    }
}

/// What a copy has in a field that the other has not.
#[derive(Clone, Copy)]
enum News {
    Value,
    Stamp,
    Both,
    /// The other has no stamp there.
    Register,
}

const NEWS: [News; 4] = [News::Value, News::Stamp, News::Both, News::Register];

/// Two copies of treatments; the second has news in a field of one of them.
fn copies(random: &mut Random, field: usize, news: News) -> (Vec<u64>, [Table; 2]) {
    let (mut made, label) = some_treatments(random, field);
    let stamp = made.new_label();
    let mut first = made.table(0);
    let mut second = first.clone();
    (first.clock, second.clock) = (first.clock + 8, second.clock + 8);
    let at = index(&first, label) as usize - 1;
    let (own, other) =
        (&mut first.records[at].registers[field], &mut second.records[at].registers[field]);
    match news {
        News::Value => other.value = stamp,
        News::Stamp => other.stamp = stamp,
        News::Both => *other = Register { value: 0, stamp },
        News::Register => *own = Register::default(),
    }
    (made.schema, [first, second])
}

fn pair_item(category: u8, call: u8, schema: &[u64], own: &Table, other: &Table) -> Item {
    let slices = vec![schema.to_vec(), own.words(), other.words()];
    Item { category, call, slices, words: vec![] }
}

/// Copies that differ in one field: merged and compared, in both directions.
fn differing(items: &mut Items, random: &mut Random) {
    for (field, news) in NEW_FIELDS.flat_map(|field| NEWS.map(|news| (field, news))) {
        for _ in 0..FEW {
            let (schema, [first, second]) = copies(random, field, news);
            let ways = [
                (&first, &second, 1, Verdict::FirstBehind),
                (&second, &first, 0, Verdict::SecondBehind),
            ];
            for (own, other, changed, verdict) in ways {
                let back = items.push_with(0, pair_item(MERGES, MERGE, &schema, own, other));
                assert_eq!(back.results, [changed]);
                let back = items.push_with(0, pair_item(COMPARES, COMPARE, &schema, own, other));
                assert_eq!(back.results, [verdict as u64]);
            }
        }
    }
}

/// Each copy has news in another field: neither contains the other, and the merge changes both.
fn neither(items: &mut Items, random: &mut Random) {
    for (field, news) in NEW_FIELDS.zip(NEWS) {
        let (schema, [mut first, second]) = copies(random, field, news);
        let of_treatment = |at: &usize| first.records[*at].registers.len() == FIELDS;
        let at = (0..first.records.len()).find(of_treatment).unwrap_or(0);
        let other = if field == FIELDS - 1 { OLD.fields } else { FIELDS - 1 };
        first.records[at].registers[other].stamp = label_of(first.clock, 9);
        for (own, other) in [(&first, &second), (&second, &first)] {
            let back = items.push_with(0, pair_item(MERGES, MERGE, &schema, own, other));
            assert_eq!(back.results, [1]);
            let back = items.push_with(0, pair_item(COMPARES, COMPARE, &schema, own, other));
            assert_eq!(back.results, [Verdict::Neither as u64]);
        }
    }
}

/// A delta of thirteen records is merged into the table before its edit, into the one after it, into
/// an empty one with room and without, and into one that has a few of the records.
fn deltas(items: &mut Items, random: &mut Random) {
    for round in 0..8 {
        let (schema, before, after, delta) = thirteen(random, round % 2 == 0);
        let mut few = before.clone();
        few.records.truncate(3 + round);
        few.capacity = few.records.len() + DELTA_CAPACITY;
        let empty = |capacity: usize| Table { capacity, records: vec![], ..before.clone() };
        for (own, answer, changed) in [
            (before.words(), 0, DELTA_CAPACITY),
            (after, 0, 0),
            (empty(DELTA_CAPACITY).words(), 0, DELTA_CAPACITY),
            (empty(DELTA_CAPACITY - 1).words(), 11, 0),
            (few.words(), 0, DELTA_CAPACITY),
        ] {
            let slices = vec![schema.clone(), own, delta.clone()];
            let item = Item { category: DELTAS, call: MERGE, slices, words: vec![] };
            assert_eq!(items.push_with(answer, item).results, [changed as u64]);
        }
    }
}

/// Twelve values of the first record and of the last, and none above used.
fn parts(items: &mut Items, random: &mut Random) {
    for _ in 0..ENOUGH {
        let relation = some_relation(random);
        let mut made = Treatments::new(random, relation, &[PLAIN; FIELDS], [0, 0]);
        for _ in 0..1 + made.random.below(3) {
            let values: Vec<u64> = (0..FIELDS).map(|_| made.random.next()).collect();
            made.add(0, &values);
        }
        let words = made.table(1).words();
        let used = words[USED];
        for (index, answer) in [(1, 0), (used, 0), (used + 1, 1)] {
            let (slices, asked) = (vec![words.clone()], vec![index]);
            let item = Item { category: PARTS, call: RECORD_VALUES, slices, words: asked };
            items.push_with(answer, item);
        }
    }
}

pub fn new_fields(items: &mut Items, random: &mut Random) {
    schemas(items, random);
    masks(items, random);
    unused(items, random);
    registers(items, random);
    unused_read(items, random);
    differing(items, random);
    neither(items, random);
    deltas(items, random);
    parts(items, random);
}
