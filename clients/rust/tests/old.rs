//! Between old and new tables, through the types: each word of both sides, deltas, storages, and what
//! is refused.

use herd::layout::{
    block_word, record_word, BLOCK_WORDS, HEADER_WORDS, HEAD_WORDS, KEY_WORDS, KIND_WORDS,
    REPLICA_WORD, USED_WORD,
};
use herd::{
    old, raw, table_words, Compared, Delta, Error, Label, Schema, SchemaBuilder, Table,
    DELTA_RECORDS, DELTA_WORDS, FIELDS, MOST_RECORDS, MOST_RELATIONS, SCHEMA_WORDS,
};

const GROUP: usize = 1;
const COW: usize = 2;
const RECORDS: usize = 7;

type Words = [u64; table_words(RECORDS)];
type OldSchema = [u64; old::SCHEMA_WORDS];
type OldWords = [u64; old::table_words(RECORDS)];

/// Cows of so many fields, the eighth their group and a key.
fn farm(fields: usize) -> Schema {
    let groups = SchemaBuilder::new().relation().plain().key(&[1]);
    let cows = (0..fields).fold(groups.relation(), |schema, field| match field {
        7 => schema.abort(GROUP),
        _ => schema.plain(),
    });
    cows.key(&[8]).key(&[1, 2]).build().unwrap()
}

/// Two groups and two cows; of these one leaves her group, which is deleted then.
fn barn(schema: &Schema) -> Table<Words> {
    let mut table = Table::start([0; table_words(RECORDS)], 3).unwrap();
    let mut delta = Delta::new();
    for (tag, name) in [(40, 12), (41, 14)] {
        let group = table.insert(schema, &mut delta, GROUP, &[name]).unwrap();
        let values = [tag, 7, 33, u64::MAX, 35, 36, 37, group.word()];
        table.insert(schema, &mut delta, COW, &values).unwrap();
    }
    table.update(schema, &mut delta, 4, 8, Label::NONE).unwrap();
    table.delete(schema, &mut delta, 3).unwrap();
    table
}

/// A schema and a table turned back, over words with old contents.
fn narrowed(schema: &Schema, table: &Table<Words>) -> Result<(OldSchema, OldWords), Error> {
    let mut words = ([9; old::SCHEMA_WORDS], [9; old::table_words(RECORDS)]);
    old::narrow(schema, table, &mut words.0, &mut words.1)?;
    Ok(words)
}

#[test]
fn the_old_figures_are_those_of_eight_fields() {
    assert_eq!((old::FIELDS, old::BLOCK_WORDS, old::SCHEMA_WORDS), (8, 12, 97));
    assert_eq!((old::RECORD_WORDS, old::table_words(0), old::table_words(3)), (20, 16, 76));
    assert_eq!((old::DELTA_RECORDS, old::DELTA_WORDS), (9, 196));
    // A length does not tell the form.
    assert_eq!(old::table_words(7), table_words(5));
}

#[test]
fn each_word_stays_the_same_and_nothing_is_lost() {
    let schema = farm(8);
    let table = barn(&schema);
    let (old_schema, old_table) = narrowed(&schema, &table).unwrap();
    assert_eq!(old_schema[0], schema.words()[0]);
    for relation in 1..=MOST_RELATIONS {
        let block = &schema.words()[block_word(relation)..][..BLOCK_WORDS];
        let turned = &old_schema[1 + old::BLOCK_WORDS * (relation - 1)..][..old::BLOCK_WORDS];
        let kinds = KIND_WORDS + old::FIELDS;
        assert_eq!((&turned[..kinds], &turned[kinds..]), (&block[..kinds], &block[KEY_WORDS..]));
    }
    assert_eq!(old_table[..HEADER_WORDS], table.words()[..HEADER_WORDS]);
    for index in 1..=RECORDS {
        let record = &table.words()[record_word(index)..record_word(index + 1)];
        let turned = &old_table[old::table_words(index - 1)..old::table_words(index)];
        let (values, stamps) = (HEAD_WORDS + old::FIELDS, HEAD_WORDS + FIELDS);
        assert_eq!(turned[..values], record[..values]);
        assert_eq!(turned[values..], record[stamps..stamps + old::FIELDS]);
    }
    // And back: what the old form lacks is 0.
    let words = ([9; SCHEMA_WORDS], [9; table_words(RECORDS)]);
    let (again, back) = old::widen(&old_schema, &old_table, words.0, words.1).unwrap();
    assert_eq!((again.words(), back.words()), (schema.words(), table.words()));
    assert_eq!(narrowed(&schema, &back), Ok((old_schema, old_table)));
}

#[test]
fn a_widened_table_is_used_as_any_other() {
    let schema = farm(8);
    let (old_schema, old_table) = narrowed(&schema, &barn(&schema)).unwrap();
    // In a Vec, in lent slices.
    let (again, mut table) =
        old::widen(&old_schema, &old_table, vec![9; SCHEMA_WORDS], vec![9; table_words(RECORDS)])
            .unwrap();
    table.insert(&again, &mut Delta::new(), GROUP, &[13]).unwrap();
    assert_eq!((table.replica(), table.clock(), table.used()), (3, 6, 5));
    let (mut lent_schema, mut lent) = (vec![9; SCHEMA_WORDS], vec![9; table_words(RECORDS)]);
    let (again, other) =
        old::widen(&old_schema, &old_table, &mut lent_schema[..], &mut lent[..]).unwrap();
    assert_eq!(other.compare(&again, &table), Ok(Compared::FirstBehind));
    assert_eq!(Schema::new(again.words()).map(|schema| schema.fields(COW)), Ok(8));
}

#[test]
fn deltas_go_both_ways_as_tables() {
    let schema = farm(8);
    let (mut table, mut delta) = (barn(&schema), Delta::new());
    let mut other = table.clone();
    table.insert(&schema, &mut delta, COW, &[42, 8, 0, 0, 0, 0, 0, 0]).unwrap();
    // Cut to nine records the delta is the one that a sealed robot writes.
    let mut old_schema = [0; old::SCHEMA_WORDS];
    let mut sealed = [9; old::DELTA_WORDS];
    let cut = &delta.words()[..table_words(old::DELTA_RECORDS)];
    let nine = Table::open(&schema, cut).unwrap();
    old::narrow(&schema, &nine, &mut old_schema, &mut sealed).unwrap();
    assert_eq!(other.merge(&schema, &sealed), Err(Error::LengthOrIndex));
    assert_eq!(Delta::from_words(&sealed), Err(Error::LengthOrIndex));
    let words = ([9; SCHEMA_WORDS], [9; table_words(old::DELTA_RECORDS)]);
    let (_, widened) = old::widen(&old_schema, &sealed, words.0, words.1).unwrap();
    assert_eq!((widened.words(), widened.words().len()), (cut, 268));
    assert_eq!(other.merge(&schema, &widened), Ok(1));
    assert_eq!(other, table);
    // Uncut it becomes an old table with N = 13, cut behind its record one with N = 1.
    let whole = Table::open(&schema, delta.words()).unwrap();
    let mut thirteen = [9; old::table_words(DELTA_RECORDS)];
    old::narrow(&schema, &whole, &mut old_schema, &mut thirteen).unwrap();
    assert_eq!((thirteen.len(), DELTA_WORDS), (276, 380));
    let used = delta.words()[USED_WORD] as usize;
    let one = Table::open(&schema, &delta.words()[..table_words(used)]).unwrap();
    let mut sent = [9; old::table_words(1)];
    old::narrow(&schema, &one, &mut old_schema, &mut sent).unwrap();
    assert_eq!((&sent[..], &sent[..]), (&thirteen[..36], &sealed[..36]));
}

#[test]
fn the_smallest_and_the_largest_table_are_turned() {
    let schema = farm(8);
    for records in [0, 1, MOST_RECORDS] {
        let mut table = Table::start(vec![0; table_words(records)], 255).unwrap();
        for name in 0..records.min(3) {
            table.insert(&schema, &mut Delta::new(), GROUP, &[name as u64]).unwrap();
        }
        let mut old_schema = [9; old::SCHEMA_WORDS];
        let mut old_table = vec![9; old::table_words(records)];
        old::narrow(&schema, &table, &mut old_schema, &mut old_table).unwrap();
        let words = ([9; SCHEMA_WORDS], vec![9; table_words(records)]);
        let (_, again) = old::widen(&old_schema, &old_table, words.0, words.1).unwrap();
        assert_eq!(again, table);
    }
}

#[test]
fn a_ninth_field_has_no_way_back() {
    let eight = farm(8);
    let table = barn(&eight);
    for fields in 9..=FIELDS {
        // No record has it, and without records there is none that could.
        let empty = Table::start([0; table_words(RECORDS)], 1).unwrap();
        assert_eq!(narrowed(&farm(fields), &table), Err(Error::TooManyFields));
        assert_eq!(narrowed(&farm(fields), &empty), Err(Error::TooManyFields));
    }
    // A damaged table is told first.
    let mut damaged = table.into_words();
    damaged[REPLICA_WORD] = 0;
    let (mut old_schema, mut old_table) = narrowed(&eight, &barn(&eight)).unwrap();
    let told = raw::narrow(farm(9).words(), &damaged, &mut old_schema, &mut old_table);
    assert_eq!(told, Error::OwnNotWellFormed.number());
    // A count of nine in an old schema is broken.
    old_schema[1 + old::BLOCK_WORDS] = 9;
    let words = ([0; SCHEMA_WORDS], [0; table_words(RECORDS)]);
    assert_eq!(
        old::widen(&old_schema, &old_table, words.0, words.1).err(),
        Some(Error::SchemaBroken)
    );
}

/// The answer of a widening into lent words of these lengths, which a refusal leaves as they were.
fn refused(old_schema: &[u64], old_table: &[u64], schema: usize, table: usize) -> Option<Error> {
    let (mut schema, mut table) = (vec![9; schema], vec![9; table]);
    let told = old::widen(old_schema, old_table, &mut schema[..], &mut table[..]).err();
    assert!(told.is_none() || schema.iter().chain(&table).all(|word| *word == 9));
    told
}

#[test]
fn lengths_then_the_schema_then_the_table_are_refused() {
    let schema = farm(8);
    let (old_schema, mut old_table) = narrowed(&schema, &barn(&schema)).unwrap();
    let (s, t) = (SCHEMA_WORDS, table_words(RECORDS));
    assert_eq!(refused(&old_schema, &old_table, s, t), None);
    old_table[REPLICA_WORD] = 0;
    assert_eq!(refused(&old_schema, &old_table, s, t), Some(Error::OwnNotWellFormed));
    let broken = [0; old::SCHEMA_WORDS];
    assert_eq!(refused(&broken, &old_table, s, t), Some(Error::SchemaBroken));
    let smaller = (old::table_words(RECORDS - 1), table_words(RECORDS - 1));
    for told in [
        refused(&broken[1..], &old_table, s, t),
        refused(&broken, &old_table[1..], s, t),
        refused(&broken, &old_table, s - 1, t),
        refused(&broken, &old_table, s, t - 1),
        refused(&broken, &old_table[..smaller.0], s, t),
        refused(&broken, &old_table, s, smaller.1),
        // Lengths that are equal are of two N.
        refused(&broken, &old_table, s, old_table.len()),
        refused(&[], &[], 0, 0),
    ] {
        assert_eq!(told, Some(Error::LengthOrIndex));
    }
}
