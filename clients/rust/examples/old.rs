//! A robot that is sealed with version 3.1.0 keeps old tables, of eight fields. Its delta arrives at
//! the office, is widened and merged, and the office's table goes back narrowed.

use herd::layout::{HEADER_WORDS, HEAD_WORDS, LABEL_WORD, RELATION_WORD, USED_WORD};
use herd::{old, table_words, Delta, Error, Label, Schema, SchemaBuilder, Table, SCHEMA_WORDS};

const GROUP: usize = 1;
const COW: usize = 2;
const MILKING: usize = 3;

const FARM: SchemaBuilder = SchemaBuilder::new()
    .relation() // group: name
    .plain()
    .key(&[1])
    .relation() // cow: tag, group
    .plain()
    .abort(GROUP)
    .key(&[1])
    .relation() // milking: cow, grams
    .propagation(COW)
    .plain();

const RECORDS: usize = 20;

/// The version of the sealed robot, and the first one with tables of twelve fields.
const SEALED: u64 = 30_100;
const TWELVE_FIELDS: u64 = 40_000;

type Words = [u64; table_words(RECORDS)];

/// What arrives: the version of the sender, which the length does not tell, and the words of a table
/// or a delta.
struct Message<'a> {
    version: u64,
    words: &'a [u64],
}

/// The sealed robot's delta as it was sent, of nine records, of which one is used: milking 3.1 of
/// cow 2.2.
fn milked() -> [u64; old::DELTA_WORDS] {
    let [label, cow] = [(3, 1), (2, 2)].map(|(counter, replica)| counter * 256 + replica);
    let mut words = [0; old::DELTA_WORDS];
    let (header, record) = words.split_at_mut(HEADER_WORDS);
    // Replica, clock, used, 0; the first record of each relation.
    header[..7].copy_from_slice(&[1, 3, 1, 0, 0, 0, 1]);
    // Next, relation, label, flag; eight values; eight stamps.
    record[..HEAD_WORDS].copy_from_slice(&[0, MILKING as u64, label, 0]);
    record[HEAD_WORDS..][..2].copy_from_slice(&[cow, 9_000]);
    record[HEAD_WORDS + old::FIELDS..][..2].copy_from_slice(&[label, label]);
    words
}

/// This call is to be refused.
fn refused<T>(what: &str, told: Result<T, Error>) {
    match told {
        Ok(_) => panic!("{what}: not refused"),
        Err(error) => println!("{what}: refused {}: {error}", error.number()),
    }
}

/// The schema that the sealed robot was built with: the office's, turned back with a table without
/// records.
fn old_schema(schema: &Schema) -> Result<[u64; old::SCHEMA_WORDS], Error> {
    let mut words = [0; old::SCHEMA_WORDS];
    let none = Table::start([0; table_words(0)], 1)?;
    old::narrow(schema, &none, &mut words, &mut [0; old::table_words(0)])?;
    Ok(words)
}

/// Widens an old table or delta. Its schema must be the own one.
fn widen(schema: &Schema, words: &[u64]) -> Result<Table<Vec<u64>>, Error> {
    let records = words.len().saturating_sub(HEADER_WORDS) / old::RECORD_WORDS;
    let into = ([0; SCHEMA_WORDS], vec![0; table_words(records)]);
    let (widened, table) = old::widen(&old_schema(schema)?, words, into.0, into.1)?;
    assert_eq!(widened.words(), schema.words(), "another schema");
    let (before, after) = (words.len(), table.words().len());
    println!("widened: {before} words to {after}, room for {records} records");
    Ok(table)
}

/// Takes in a message; one of an old version is widened first.
fn take_in(schema: &Schema, own: &mut Table<Words>, message: &Message) -> Result<(), Error> {
    let changed = if message.version < TWELVE_FIELDS {
        own.merge(schema, &widen(schema, message.words)?)?
    } else {
        own.merge(schema, message.words)?
    };
    println!("merged: changed {changed}");
    Ok(())
}

/// The records of an old table, in the order in which they stand: relation, label and the first two
/// values, a reference as a number.
fn print_old(words: &[u64]) {
    let (header, records) = words.split_at(HEADER_WORDS);
    for record in records.chunks(old::RECORD_WORDS).take(header[USED_WORD] as usize) {
        let label = Label::from_word(record[LABEL_WORD]).expect("a record has a label");
        let values = &record[HEAD_WORDS..];
        println!("{} {label}: {} {}", record[RELATION_WORD], values[0], values[1]);
    }
}

/// The office's table for the sealed robot, and widened again.
fn send_back(schema: &Schema, office: &Table<Words>) -> Result<(), Error> {
    let mut sent = [0; old::table_words(RECORDS)];
    old::narrow(schema, office, &mut [0; old::SCHEMA_WORDS], &mut sent)?;
    println!("narrowed: {} words to {}", office.words().len(), sent.len());
    print_old(&sent);
    let same = widen(schema, &sent)?.words() == office.words();
    println!("and back: {} words", if same { "the same" } else { "other" });
    Ok(())
}

fn main() -> Result<(), Error> {
    assert!(herd::version_fits(), "the linked library is of version {}", herd::version());
    let schema = FARM.build()?;
    let mut delta = Delta::new();

    // The office enters group 1.2 and cow 2.2.
    let mut office = Table::start([0; table_words(RECORDS)], 2)?;
    let group = office.insert(&schema, &mut delta, GROUP, &[12])?;
    office.insert(&schema, &mut delta, COW, &[40, group.word()])?;

    // The sealed robot has milked her. Its delta is merged only converted.
    let words = milked();
    let message = Message { version: SEALED, words: &words };
    refused("as it came", office.merge(&schema, message.words));
    take_in(&schema, &mut office, &message)?;
    take_in(&schema, &mut office, &message)?;

    send_back(&schema, &office)?;

    // A relation of nine fields has no place in the old form, even without records.
    let nine = (0..9).fold(SchemaBuilder::new().relation(), |schema, _| schema.plain());
    refused("treatments", old_schema(&nine.build()?));
    Ok(())
}
