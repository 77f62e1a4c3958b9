//! Treatments of twelve fields, which eight could not hold: every field is inserted, read, updated,
//! compared as part of a key and merged; an edit that fills a delta; and the lengths of before, with
//! eight fields.

use herd::layout::{
    block_word, record_word, BLOCK_WORDS, HEAD_WORDS, KEY_WORDS, RECORD_WORDS, REPLICA_WORD,
    USED_WORD,
};
use herd::{
    old, raw, table_words, Compared, Delta, Error, Kind, Label, Marks, Schema, SchemaBuilder,
    Table, DELTA_RECORDS, DELTA_WORDS, FIELDS, MOST_RECORDS, SCHEMA_WORDS,
};

const GROUP: usize = 1;
const COW: usize = 2;
const TREATMENT: usize = 3;
const PEN: usize = 4;

/// The fields of a treatment from the ninth on, those of its keys; the eight before them are plain.
const RECEIPT: usize = 9;
const DRUG: usize = 10;
const MINUTE: usize = 11;
const PATIENT: usize = 12;

const RECORDS: usize = 20;

type Words = [u64; table_words(RECORDS)];

/// A pen has a group by abort in every field.
fn schema() -> Schema {
    let cows = SchemaBuilder::new().relation().plain().key(&[1]).relation().plain().key(&[1]);
    let treatments = (1..FIELDS).fold(cows.relation(), |schema, _| schema.plain());
    let treatments = treatments.propagation(COW).key(&[RECEIPT]).key(&[DRUG, MINUTE, PATIENT]);
    let pens = (0..FIELDS).fold(treatments.relation(), |schema, _| schema.abort(GROUP));
    pens.build().unwrap()
}

fn start(replica: u64) -> Table<Words> {
    Table::start([0; table_words(RECORDS)], replica).unwrap()
}

fn cow(table: &mut Table<Words>, tag: u64) -> Label {
    table.insert(&schema(), &mut Delta::new(), COW, &[tag]).unwrap()
}

/// The values of a treatment with this receipt, drug 70 in minute 800.
fn treatment(receipt: u64, patient: Option<Label>) -> [u64; FIELDS] {
    let patient = patient.map_or(0, Label::word);
    [31, 32, 33, 34, 35, 36, 37, 38, receipt, 70, 800, patient]
}

fn treat(table: &mut Table<Words>, receipt: u64, patient: Option<Label>) -> Result<Label, Error> {
    table.insert(&schema(), &mut Delta::new(), TREATMENT, &treatment(receipt, patient))
}

fn update(
    table: &mut Table<Words>,
    delta: &mut Delta,
    index: usize,
    field: usize,
    value: u64,
) -> Result<(), Error> {
    table.update(&schema(), delta, index, field, value)
}

/// The stamps of a record.
fn stamps(words: &[u64], index: usize) -> &[u64] {
    &words[record_word(index) + HEAD_WORDS + FIELDS..record_word(index + 1)]
}

fn lines(table: &Table<Words>) -> Vec<String> {
    let schema = schema();
    let marks = Marks::of(&schema, table, [0; RECORDS]).unwrap();
    table.list(&schema, &marks).unwrap().map(|record| record.to_string()).collect()
}

#[test]
fn the_figures_are_those_of_twelve_fields() {
    assert_eq!((FIELDS, BLOCK_WORDS, SCHEMA_WORDS), (12, 16, 129));
    assert_eq!((RECORD_WORDS, HEAD_WORDS, HEAD_WORDS + FIELDS), (28, 4, 16));
    assert_eq!((DELTA_RECORDS, DELTA_WORDS), (13, 380));
    let schema = schema();
    assert_eq!(schema.fields(TREATMENT), 12);
    assert_eq!(schema.kind(TREATMENT, PATIENT), Some(Kind::Propagation(COW)));
    assert_eq!(schema.kind(TREATMENT, FIELDS + 1), None);
    let masks = block_word(TREATMENT) + KEY_WORDS;
    assert_eq!(schema.words()[masks..block_word(PEN)], [1 << 8, 7 << 9, 0]);
}

#[test]
fn twelve_values_are_inserted_and_given_back() {
    let (schema, mut table) = (schema(), start(1));
    let patient = cow(&mut table, 40);
    let label = treat(&mut table, 1, Some(patient)).unwrap();
    let values = treatment(1, Some(patient));
    assert_eq!(table.values(2), Ok(&values[..]));
    assert_eq!(stamps(table.words(), 2), [label.word(); FIELDS]);
    // The list has all of them.
    let marks = Marks::of(&schema, &table, [0; RECORDS]).unwrap();
    let record = table.list(&schema, &marks).unwrap().last().unwrap();
    assert_eq!((record.values, record.reference(PATIENT)), (&values[..], Some(patient)));
    assert_eq!(record.to_string(), "3 2.1 31 32 33 34 35 36 37 38 1 70 800 1.1");
    // A value too few, and one too many.
    let more = [0; FIELDS + 1];
    for wrong in [&values[..FIELDS - 1], &more] {
        let told = table.insert(&schema, &mut Delta::new(), TREATMENT, wrong);
        assert_eq!(told, Err(Error::FieldOrValue));
    }
}

#[test]
fn each_of_twelve_fields_is_updated() {
    let (mut table, mut delta) = (start(1), Delta::new());
    let patient = cow(&mut table, 40);
    let other = cow(&mut table, 41);
    treat(&mut table, 1, Some(patient)).unwrap();
    let mut values = treatment(1, Some(patient));
    for field in 1..=FIELDS {
        values[field - 1] = if field == PATIENT { other.word() } else { 100 + field as u64 };
        update(&mut table, &mut delta, 3, field, values[field - 1]).unwrap();
        assert_eq!(table.values(3), Ok(&values[..]));
        // The delta has this register alone.
        let stamp = Label::of(table.clock(), 1).unwrap().word();
        let mut alone = [0; FIELDS];
        alone[field - 1] = stamp;
        assert_eq!((delta.words()[USED_WORD], stamps(delta.words(), 1)), (1, &alone[..]));
    }
    assert_eq!(lines(&table)[2], "3 3.1 101 102 103 104 105 106 107 108 109 110 111 2.1");
    let unknown = Label::of(9, 9).unwrap().word();
    for (field, value, error) in [
        (0, 5, Error::FieldOrValue),
        (FIELDS + 1, 5, Error::FieldOrValue),
        (PATIENT, 1, Error::FieldOrValue),
        (PATIENT, unknown, Error::TargetNotShown),
    ] {
        assert_eq!(update(&mut table, &mut delta, 3, field, value), Err(error), "{field} {value}");
    }
}

#[test]
fn keys_of_the_last_fields_are_compared() {
    let (mut table, mut delta) = (start(1), Delta::new());
    let first = Some(cow(&mut table, 40));
    let second = Some(cow(&mut table, 41));
    treat(&mut table, 1, first).unwrap();
    treat(&mut table, 2, second).unwrap();
    assert_eq!(treat(&mut table, 2, None), Err(Error::Conflict));
    assert_eq!(treat(&mut table, 3, second), Err(Error::Conflict));
    // Without a cow drug, minute and cow are no key.
    treat(&mut table, 3, None).unwrap();
    treat(&mut table, 4, None).unwrap();
    let patient = first.map_or(0, Label::word);
    assert_eq!(update(&mut table, &mut delta, 4, PATIENT, patient), Err(Error::Conflict));
    assert_eq!(update(&mut table, &mut delta, 4, RECEIPT, 1), Err(Error::Conflict));
    // With another drug or minute she is free.
    assert_eq!(update(&mut table, &mut delta, 4, DRUG, 71), Ok(()));
    assert_eq!(update(&mut table, &mut delta, 4, PATIENT, patient), Ok(()));
    assert_eq!(update(&mut table, &mut delta, 4, DRUG, 70), Err(Error::Conflict));
    assert_eq!(update(&mut table, &mut delta, 4, MINUTE, 801), Ok(()));
    assert_eq!(update(&mut table, &mut delta, 4, DRUG, 70), Ok(()));
}

#[test]
fn treatments_entered_apart_are_merged_and_listed_alike() {
    let (schema, mut delta) = (schema(), Delta::new());
    let (mut robot, mut office) = (start(1), start(2));
    let patient = Some(cow(&mut robot, 40));
    office.merge(&schema, &robot).unwrap();
    treat(&mut robot, 1, patient).unwrap();
    treat(&mut office, 2, patient).unwrap();
    assert_eq!((office.merge(&schema, &robot), robot.merge(&schema, &office)), (Ok(1), Ok(1)));
    // Drug, minute and cow are the same: the older one is listed.
    let older = ["2 1.1 40", "3 2.1 31 32 33 34 35 36 37 38 1 70 800 1.1"];
    assert_eq!(lines(&robot), older);
    assert_eq!(lines(&office), older);
    // Each side updates another field of it, behind the eighth.
    update(&mut robot, &mut delta, 2, RECEIPT, 9).unwrap();
    office.merge(&schema, &delta).unwrap();
    update(&mut office, &mut delta, 3, MINUTE, 900).unwrap();
    assert_eq!(robot.merge(&schema, &delta), Ok(1));
    assert_eq!(robot.compare(&schema, &office), Ok(Compared::Alike));
    assert_eq!(robot.values(2), office.values(3));
    let both = [
        "2 1.1 40",
        "3 2.1 31 32 33 34 35 36 37 38 9 70 900 1.1",
        "3 2.2 31 32 33 34 35 36 37 38 2 70 800 1.1",
    ];
    assert_eq!(lines(&robot), both);
    assert_eq!(lines(&office), both);
    // The treatments leave the list with their cow.
    robot.delete(&schema, &mut delta, 1).unwrap();
    assert!(lines(&robot).is_empty());
}

#[test]
fn an_edit_changes_as_many_records_as_a_delta_holds() {
    let (schema, mut delta) = (schema(), Delta::new());
    let (mut robot, mut office) = (start(1), start(2));
    let mut enter = |name: usize| office.insert(&schema, &mut delta, GROUP, &[name as u64]);
    let groups: [u64; FIELDS] = std::array::from_fn(|name| enter(name).unwrap().word());
    robot.merge(&schema, &office).unwrap();
    robot.insert(&schema, &mut delta, PEN, &groups).unwrap();
    for index in 1..=FIELDS {
        office.delete(&schema, &mut delta, index).unwrap();
    }
    // The groups stay with their pen, and with a second one all are redone.
    assert_eq!(robot.merge(&schema, &office), Ok(FIELDS));
    assert_eq!(lines(&robot).len(), FIELDS + 1);
    robot.insert(&schema, &mut delta, PEN, &groups).unwrap();
    assert_eq!(delta.words()[USED_WORD], DELTA_RECORDS as u64);
    assert_eq!(office.merge(&schema, &delta), Ok(DELTA_RECORDS));
    assert_eq!(lines(&office).len(), DELTA_RECORDS);
}

#[test]
fn lengths_of_eight_fields_are_refused() {
    let schema = schema();
    let mut table = start(1);
    assert_eq!(Schema::new([0; old::SCHEMA_WORDS]), Err(Error::LengthOrIndex));
    assert_eq!(Delta::from_words(&[0; old::DELTA_WORDS]), Err(Error::LengthOrIndex));
    assert_eq!(table.merge(&schema, &[0; old::DELTA_WORDS]), Err(Error::LengthOrIndex));
    let (mut own, mut delta) = (table.into_words(), [0; old::DELTA_WORDS]);
    assert_eq!(raw::insert(schema.words(), &mut own, &mut delta, GROUP, &[12], &mut 0), 1);
    // A table's length is one of both shapes for every seventh N.
    let mut words = vec![0; old::table_words(MOST_RECORDS)];
    for records in 0..=MOST_RECORDS {
        let table = &mut words[..old::table_words(records)];
        assert_eq!(raw::start(table, 1), (records % 7 != 0) as u64, "{records}");
    }
}

#[test]
fn an_empty_table_of_eight_fields_may_be_one_of_twelve() {
    let mut words = [0; old::table_words(7)];
    words[REPLICA_WORD] = 3;
    let table = Table::open(&schema(), words).unwrap();
    assert_eq!((table.capacity(), table.used(), table.replica()), (5, 0, 3));
}
