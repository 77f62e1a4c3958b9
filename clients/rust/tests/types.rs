//! The types over the calls: the table of cases, the builder, the list, and random fleets through
//! the types against the second implementation.

use herd::layout::{
    record_word, CLOCK_WORD, FIRST_WORDS, FLAG_WORD, HEADER_WORDS, HEAD_WORDS, LABEL_WORD,
    NEXT_WORD, RELATION_WORD, REPLICA_WORD, USED_WORD,
};
use herd::{
    raw, table_words, words_from_bytes, words_to_bytes, Compared, Delta, Error, Kind, Label, Marks,
    Schema, SchemaBuilder, Table, DELTA_WORDS, FIELDS, MOST_RECORDS, MOST_RELATIONS, SCHEMA_WORDS,
    WORD_BYTES,
};
use second::cases;
use second::random::{self, Random};
use second::vectors::{random_edit, Edit};

const GROUP: usize = 1;
const COW: usize = 2;
const MILKING: usize = 3;

const FARM: SchemaBuilder = SchemaBuilder::new()
    .relation()
    .plain()
    .key(&[1])
    .relation()
    .plain()
    .abort(GROUP)
    .key(&[1])
    .relation()
    .propagation(COW)
    .plain();

fn farm() -> Schema {
    FARM.build().unwrap()
}

fn lines<W: AsRef<[u64]>>(schema: &Schema, table: &Table<W>) -> Vec<String> {
    let marks = Marks::of(schema, table, vec![0; table.capacity()]).unwrap();
    let list: Vec<String> =
        table.list(schema, &marks).unwrap().map(|record| record.to_string()).collect();
    assert_eq!(list.len(), marks.shown());
    list
}

fn case(number: u64) -> Table<Vec<u64>> {
    Table::open(&farm(), cases::table(number).words()).unwrap()
}

#[test]
fn the_builder_makes_the_schema_of_the_cases() {
    assert_eq!(farm().words(), cases::herd());
    let schema = farm();
    assert_eq!((schema.relations(), schema.fields(2), schema.fields(4)), (3, 2, 0));
    assert_eq!(schema.kind(2, 2), Some(Kind::Abort(GROUP)));
    assert_eq!(schema.kind(3, 1), Some(Kind::Propagation(COW)));
    assert_eq!((schema.kind(3, 0), schema.kind(3, 3), schema.kind(0, 1)), (None, None, None));
}

/// The kinds and the keys of each relation; a second key without a first is as good as the first.
fn parts(schema: &[u64]) -> Vec<(Vec<second::schema::Kind>, Vec<Vec<usize>>)> {
    random::decoded(schema).relations.into_iter().map(|of| (of.kinds, of.keys)).collect()
}

#[test]
fn the_builder_makes_every_random_schema() {
    let mut random = Random::new(1);
    for _ in 0..500 {
        let words = random::schema(&mut random);
        let decoded = random::decoded(&words);
        let mut builder = SchemaBuilder::new();
        for relation in &decoded.relations {
            builder = builder.relation();
            for kind in &relation.kinds {
                builder = match kind {
                    second::schema::Kind::Plain => builder.plain(),
                    second::schema::Kind::Abort(target) => builder.abort(*target as usize),
                    second::schema::Kind::Propagation(target) => {
                        builder.propagation(*target as usize)
                    }
                };
            }
            for key in &relation.keys {
                let fields: Vec<usize> = key.iter().map(|field| field + 1).collect();
                builder = builder.key(&fields);
            }
        }
        let schema = builder.build().unwrap();
        assert_eq!(parts(schema.words()), parts(&words));
    }
}

#[test]
fn the_builder_refuses_what_has_no_place() {
    let one = SchemaBuilder::new().relation().plain();
    let mut wide = SchemaBuilder::new().relation();
    for _ in 0..FIELDS {
        wide = wide.plain();
    }
    let last = [FIELDS - 3, FIELDS - 2, FIELDS - 1, FIELDS];
    assert!(wide.key(&[1, 2, 3, 4]).key(&last).build().is_ok());
    let mut many = SchemaBuilder::new();
    for _ in 0..MOST_RELATIONS {
        many = many.relation().plain();
    }
    assert!(many.build().is_ok());
    let broken = [
        SchemaBuilder::new(),
        SchemaBuilder::new().plain().relation().plain(),
        SchemaBuilder::new().key(&[1]).relation().plain(),
        SchemaBuilder::new().relation(),
        one.abort(2),
        one.abort(0),
        one.propagation(usize::MAX),
        one.key(&[]),
        one.key(&[0]),
        one.key(&[2]),
        one.key(&[FIELDS + 1]),
        one.key(&[usize::MAX]),
        one.key(&[1]).key(&[1]).key(&[1]),
        wide.plain(),
        wide.key(&[1, 2, 3, 4, 5]),
        many.relation().plain(),
    ];
    for builder in broken {
        assert_eq!(builder.build(), Err(Error::SchemaBroken), "{builder:?}");
    }
}

#[test]
fn cases_c5_to_c10_show_what_the_page_tells() {
    let schema = farm();
    assert_eq!(lines(&schema, &case(5)), ["1 1.1 12", "2 2.1 40 1.1"]);
    assert_eq!(lines(&schema, &case(6)), ["1 1.1 12"]);
    assert_eq!(lines(&schema, &case(7)), ["1 1.1 12", "2 2.1 40 1.1"]);
    assert_eq!(lines(&schema, &case(8)), ["1 1.1 12", "2 2.1 40 1.1"]);
    assert!(lines(&schema, &case(9)).is_empty());
    assert_eq!(lines(&schema, &case(10)), ["2 2.1 40 -"]);
}

#[test]
fn cases_c11_and_c12_delete_a_cow() {
    let schema = farm();
    let mut delta = Delta::new();
    let mut table = case(11);
    table.delete(&schema, &mut delta, 2).unwrap();
    assert!(lines(&schema, &table).is_empty());
    let mut table = case(12);
    table.delete(&schema, &mut delta, 2).unwrap();
    assert_eq!(lines(&schema, &table), ["1 1.1 12", "2 2.2 41 1.1"]);
}

#[test]
fn words_that_are_no_table_are_refused() {
    let schema = farm();
    let mut table = case(5);
    let before = table.clone();
    assert_eq!(table.merge(&schema, &[0; 3]), Err(Error::LengthOrIndex));
    assert_eq!(table.merge(&schema, &Delta::new()), Err(Error::OtherNotWellFormed));
    let damaged = Delta::from_words(&[1; DELTA_WORDS]).unwrap();
    assert_eq!(table.merge(&schema, &damaged), Err(Error::OtherNotWellFormed));
    assert_eq!(table, before);
    assert_eq!(Delta::from_words(&[0; DELTA_WORDS - 1]), Err(Error::LengthOrIndex));
    assert_eq!(Table::open(&schema, [0; HEADER_WORDS - 1]), Err(Error::LengthOrIndex));
    assert_eq!(Table::start(vec![0; table_words(MOST_RECORDS + 1)], 1), Err(Error::LengthOrIndex));
    assert_eq!(Schema::new([1; SCHEMA_WORDS]), Err(Error::SchemaBroken));
    assert_eq!(table.values(0), Err(Error::LengthOrIndex));
    assert_eq!(table.values(3), Err(Error::LengthOrIndex));
    assert_eq!(Marks::of(&schema, &table, [0; 3]), Err(Error::LengthOrIndex));
}

#[test]
fn a_merge_tells_how_many_records_it_changed() {
    let schema = farm();
    let mut delta = Delta::new();
    let mut robot = Table::start([0; table_words(4)], 1).unwrap();
    let mut office = Table::start([0; table_words(4)], 2).unwrap();
    let group = office.insert(&schema, &mut delta, GROUP, &[12]).unwrap();
    office.insert(&schema, &mut delta, COW, &[40, group.word()]).unwrap();
    // Records added; none in the other direction, and none by a copy.
    assert_eq!(robot.merge(&schema, &office), Ok(2));
    assert_eq!(office.merge(&schema, &robot), Ok(0));
    assert_eq!(robot.merge(&schema, &robot.clone()), Ok(0));
    // Two registers of one record, and a register and the flag of another.
    office.update(&schema, &mut delta, 2, 1, 41).unwrap();
    office.update(&schema, &mut delta, 2, 2, 0).unwrap();
    assert_eq!(robot.clone().merge(&schema, &office), Ok(1));
    office.update(&schema, &mut delta, 1, 1, 13).unwrap();
    office.delete(&schema, &mut delta, 1).unwrap();
    assert_eq!(robot.merge(&schema, &office), Ok(2));
    // The stamp alone, then the flag alone.
    office.update(&schema, &mut delta, 2, 1, 41).unwrap();
    assert_eq!(robot.merge(&schema, &delta), Ok(1));
    office.delete(&schema, &mut delta, 2).unwrap();
    assert_eq!(robot.merge(&schema, &delta), Ok(1));
    assert_eq!(robot.merge(&schema, &delta), Ok(0));
    // The clock alone, then a value alone, the larger one under one stamp.
    let mut later = office.into_words();
    later[CLOCK_WORD] += 7;
    assert_eq!(robot.merge(&schema, &later), Ok(0));
    assert_eq!(robot.clock(), later[CLOCK_WORD]);
    later[record_word(1) + HEAD_WORDS] += 1;
    assert_eq!(robot.merge(&schema, &later), Ok(1));
    // A record with flag 0 and no stamps.
    let mut bare = Table::start([0; table_words(1)], 3).unwrap().into_words();
    (bare[CLOCK_WORD], bare[USED_WORD], bare[FIRST_WORDS]) = (1, 1, 1);
    bare[record_word(1) + RELATION_WORD] = GROUP as u64;
    bare[record_word(1) + LABEL_WORD] = Label::of(1, 3).unwrap().word();
    assert_eq!(robot.merge(&schema, &bare), Ok(1));
    assert_eq!(robot.merge(&schema, &bare), Ok(0));
    // A refusal.
    let mut changed = 7;
    let mut own = robot.into_words();
    assert_eq!(raw::merge(schema.words(), &mut own, &[0; 3], &mut changed), 1);
    assert_eq!(changed, 0);
}

/// The verdict on two tables; it is the same of the tables exchanged, with first and second
/// exchanged. Each table is alike with itself.
#[track_caller]
fn compared(first: &[u64], second: &[u64]) -> Compared {
    let schema = farm();
    let open = |words| Table::open(&schema, words).unwrap();
    let (first, second) = (open(first), open(second));
    let verdict = first.compare(&schema, &second).unwrap();
    let exchanged = match verdict {
        Compared::FirstBehind => Compared::SecondBehind,
        Compared::SecondBehind => Compared::FirstBehind,
        same => same,
    };
    assert_eq!(second.compare(&schema, &first), Ok(exchanged));
    assert_eq!(first.compare(&schema, &first), Ok(Compared::Alike));
    verdict
}

/// A table of a group and a cow, of replica 1, with room for this many records.
fn group_and_cow(capacity: usize) -> Table<Vec<u64>> {
    let (schema, mut delta) = (farm(), Delta::new());
    let mut table = Table::start(vec![0; table_words(capacity)], 1).unwrap();
    let group = table.insert(&schema, &mut delta, GROUP, &[12]).unwrap();
    table.insert(&schema, &mut delta, COW, &[40, group.word()]).unwrap();
    table
}

#[test]
fn a_comparison_tells_which_table_must_take_in_the_other() {
    let (schema, mut delta) = (farm(), Delta::new());
    let mut robot = group_and_cow(6);
    let mut office = Table::start(vec![0; table_words(6)], 2).unwrap();
    // A table without records is behind; a delta that was taken in is behind or alike.
    assert_eq!(compared(office.words(), robot.words()), Compared::FirstBehind);
    office.merge(&schema, &robot).unwrap();
    assert_eq!(compared(robot.words(), office.words()), Compared::Alike);
    office.update(&schema, &mut delta, 1, 1, 13).unwrap();
    assert_eq!(office.compare(&schema, &delta), Ok(Compared::SecondBehind));
    assert_eq!(robot.compare(&schema, &delta), Ok(Compared::Neither));
    // Each has what the other lacks, until each has taken in the other.
    assert_eq!(compared(robot.words(), office.words()), Compared::FirstBehind);
    robot.delete(&schema, &mut delta, 2).unwrap();
    assert_eq!(compared(robot.words(), office.words()), Compared::Neither);
    robot.merge(&schema, &office).unwrap();
    assert_eq!(compared(robot.words(), office.words()), Compared::SecondBehind);
    office.merge(&schema, &robot).unwrap();
    assert_eq!(compared(robot.words(), office.words()), Compared::Alike);
}

#[test]
fn every_part_of_the_contents_is_compared() {
    let table = group_and_cow(2).into_words();
    let raised = |word: usize, by: u64| {
        let mut other = table.clone();
        other[word] += by;
        other
    };
    // The clock alone, a flag, a value under its stamp, a stamp.
    let (flag, value) = (record_word(2) + FLAG_WORD, record_word(2) + HEAD_WORDS);
    let stamp = value + FIELDS;
    for word in [CLOCK_WORD, flag, value, stamp] {
        assert_eq!(compared(&table, &raised(word, 1)), Compared::FirstBehind, "{word}");
    }
    // One on each side; of two values that with the later stamp is kept.
    for (first, second) in [(CLOCK_WORD, flag), (CLOCK_WORD, value), (flag, value), (flag, stamp)] {
        assert_eq!(compared(&raised(first, 1), &raised(second, 1)), Compared::Neither);
    }
    assert_eq!(compared(&raised(value, 9), &raised(stamp, 1)), Compared::FirstBehind);
    // A record with flag 0 and no stamps; its label differs from another's by the replica.
    let bare = |replica| {
        let mut bare = Table::start(vec![0; table_words(1)], 3).unwrap().into_words();
        (bare[CLOCK_WORD], bare[USED_WORD], bare[FIRST_WORDS]) = (1, 1, 1);
        bare[record_word(1) + RELATION_WORD] = GROUP as u64;
        bare[record_word(1) + LABEL_WORD] = Label::of(1, replica).unwrap().word();
        bare
    };
    assert_eq!(compared(&table, &bare(1)), Compared::SecondBehind);
    assert_eq!(compared(&table, &bare(2)), Compared::Neither);
}

#[test]
fn replicas_positions_and_capacities_are_not_compared() {
    let schema = farm();
    let table = group_and_cow(2);
    // Every other replica number.
    let mut other = table.clone().into_words();
    for replica in 2..=255 {
        other[REPLICA_WORD] = replica;
        assert_eq!(compared(table.words(), &other), Compared::Alike);
    }
    // Records in another order, and room for more.
    let mut cow = Table::start(vec![0; table_words(7)], 2).unwrap();
    cow.insert(&schema, &mut Delta::new(), COW, &[41, 0]).unwrap();
    let mut group = Table::start(vec![0; table_words(5)], 3).unwrap();
    group.insert(&schema, &mut Delta::new(), GROUP, &[14]).unwrap();
    let (first, second) = (cow.clone(), group.clone());
    cow.merge(&schema, &second).unwrap();
    group.merge(&schema, &first).unwrap();
    let records = HEADER_WORDS..table_words(2);
    assert_ne!(cow.words()[records.clone()], group.words()[records]);
    assert_eq!(compared(cow.words(), group.words()), Compared::Alike);
    // A part of a table that has all its records is a table too, and both are lent at once.
    let words = cow.words();
    assert_eq!(compared(words, &words[..table_words(2)]), Compared::Alike);
}

#[test]
fn full_tables_are_compared() {
    let schema = farm();
    let mut table = group_and_cow(2);
    let mut other = Table::start(vec![0; table_words(1)], 2).unwrap();
    other.insert(&schema, &mut Delta::new(), COW, &[41, 0]).unwrap();
    assert_eq!(table.merge(&schema, &other), Err(Error::Full));
    assert_eq!(compared(table.words(), other.words()), Compared::Neither);
    let empty = Table::start(vec![0; table_words(0)], 3).unwrap();
    assert_eq!(compared(empty.words(), table.words()), Compared::FirstBehind);
    assert_eq!(compared(empty.words(), empty.words()), Compared::Alike);
}

#[test]
fn a_comparison_refuses_lengths_then_the_schema_then_each_table() {
    let schema = farm();
    let table = case(5);
    assert_eq!(table.compare(&schema, &[0; 3]), Err(Error::LengthOrIndex));
    assert_eq!(table.compare(&schema, &Delta::new()), Err(Error::OtherNotWellFormed));
    let other = SchemaBuilder::new().relation().plain().build().unwrap();
    assert_eq!(table.compare(&other, &table), Err(Error::OwnNotWellFormed));
    let empty = Table::start([0; table_words(0)], 1).unwrap();
    assert_eq!(empty.compare(&other, &table), Err(Error::OtherNotWellFormed));
    // All are damaged at first; the numbers rise as one after the other is mended.
    let (good, damaged) = (table.words(), [0; table_words(2)]);
    let broken = [0; SCHEMA_WORDS];
    let told = |schema: &[u64], first: &[u64], second: &[u64]| {
        let mut verdict = 7;
        (raw::compare(schema, first, second, &mut verdict), verdict)
    };
    assert_eq!(told(&broken[1..], &damaged, &damaged), (1, 0));
    assert_eq!(told(&broken, &damaged[1..], &damaged), (1, 0));
    assert_eq!(told(&broken, &damaged, &damaged[1..]), (1, 0));
    assert_eq!(told(&broken, &[], &damaged), (1, 0));
    assert_eq!(told(&broken, &damaged, &damaged), (2, 0));
    assert_eq!(told(schema.words(), &damaged, &damaged), (3, 0));
    assert_eq!(told(schema.words(), good, &damaged), (4, 0));
    assert_eq!(told(schema.words(), good, good), (0, 1));
}

#[test]
fn every_verdict_has_its_number_and_its_text() {
    for (number, verdict) in (1..).zip(Compared::ALL) {
        assert_eq!(verdict.number(), number);
        assert_eq!(Compared::from_number(number), Some(*verdict));
    }
    for number in [0, Compared::ALL.len() as u64 + 1, u64::MAX] {
        assert_eq!(Compared::from_number(number), None);
    }
    let mut texts: Vec<String> = Compared::ALL.iter().map(Compared::to_string).collect();
    texts.sort();
    texts.dedup();
    assert_eq!(texts.len(), Compared::ALL.len());
}

/// The label of a counter and a replica.
fn label(counter: u64, replica: u64) -> Label {
    Label::of(counter, replica).unwrap()
}

#[test]
fn a_record_is_found_by_relation_and_label() {
    let schema = farm();
    let table = group_and_cow(3);
    assert_eq!(table.find(&schema, GROUP, label(1, 1)), Ok(Some(1)));
    assert_eq!(table.find(&schema, COW, label(2, 1)), Ok(Some(2)));
    // The label of a record of another relation, in a relation without records too.
    assert_eq!(table.find(&schema, GROUP, label(2, 1)), Ok(None));
    assert_eq!(table.find(&schema, COW, label(1, 1)), Ok(None));
    assert_eq!(table.find(&schema, MILKING, label(1, 1)), Ok(None));
    // A table without records, and one without room for any.
    for capacity in [0, 1] {
        let empty = Table::start(vec![0; table_words(capacity)], 1).unwrap();
        assert_eq!(empty.find(&schema, COW, label(1, 1)), Ok(None));
    }
}

/// A table of cows with the labels 1.6, 1.2 and 1.4, in this order.
fn three_cows() -> Table<Vec<u64>> {
    let schema = farm();
    let mut table = Table::start(vec![0; table_words(4)], 9).unwrap();
    for replica in [6, 2, 4] {
        let mut other = Table::start([0; table_words(1)], replica).unwrap();
        other.insert(&schema, &mut Delta::new(), COW, &[40 + replica, 0]).unwrap();
        table.merge(&schema, &other).unwrap();
    }
    table
}

#[test]
fn a_record_is_found_wherever_it_stands() {
    let schema = farm();
    let table = three_cows();
    for (replica, index) in [(6, 1), (2, 2), (4, 3)] {
        assert_eq!(table.find(&schema, COW, label(1, replica)), Ok(Some(index)));
    }
    // Labels before the first of the chain, between two, and after the last.
    for replica in [1, 3, 5, 7, 255] {
        assert_eq!(table.find(&schema, COW, label(1, replica)), Ok(None));
    }
    assert_eq!(table.find(&schema, COW, label(Label::LARGEST_COUNTER, 255)), Ok(None));
}

#[test]
fn a_record_that_is_not_shown_is_found() {
    let (schema, mut delta) = (farm(), Delta::new());
    let mut table = group_and_cow(5);
    // Deleted.
    table.delete(&schema, &mut delta, 2).unwrap();
    assert_eq!(table.find(&schema, COW, label(2, 1)), Ok(Some(2)));
    // Younger than another with its key.
    let cow = |replica| {
        let mut other = Table::start([0; table_words(1)], replica).unwrap();
        other.insert(&schema, &mut Delta::new(), COW, &[41, 0]).unwrap();
        other
    };
    table.merge(&schema, &cow(2)).unwrap();
    table.merge(&schema, &cow(3)).unwrap();
    // Incomplete, with flag 0 and no stamps.
    let mut bare = Table::start([0; table_words(1)], 4).unwrap().into_words();
    (bare[CLOCK_WORD], bare[USED_WORD], bare[FIRST_WORDS]) = (1, 1, 1);
    bare[record_word(1) + RELATION_WORD] = GROUP as u64;
    bare[record_word(1) + LABEL_WORD] = label(1, 4).word();
    table.merge(&schema, &bare).unwrap();
    assert_eq!(lines(&schema, &table), ["1 1.1 12", "2 1.2 41 -"]);
    assert_eq!(table.find(&schema, COW, label(1, 2)), Ok(Some(3)));
    assert_eq!(table.find(&schema, COW, label(1, 3)), Ok(Some(4)));
    assert_eq!(table.find(&schema, GROUP, label(1, 4)), Ok(Some(5)));
}

/// The answer and the index of a lookup in these words.
fn looked_up(table: &[u64], relation: usize, label: u64) -> (u64, u64) {
    let mut index = 7;
    (raw::lookup(farm().words(), table, relation, label, &mut index), index)
}

#[test]
fn any_number_may_be_looked_up() {
    let table = three_cows();
    let cow = label(1, 6).word();
    assert_eq!(looked_up(table.words(), COW, cow), (0, 1));
    for number in [Label::NONE, 1, 255, 256, 512, cow + (1 << 48), 1 << 48, u64::MAX] {
        assert_eq!(looked_up(table.words(), COW, number), (0, 0), "{number}");
    }
}

/// Words with one of them changed.
fn with(words: &[u64], at: usize, word: u64) -> Vec<u64> {
    let mut changed = words.to_vec();
    changed[at] = word;
    changed
}

#[test]
fn a_lookup_sees_each_word_of_the_records_that_it_reads() {
    let words = three_cows().into_words();
    // The chain goes from record 2 to 3 to 1. The middle one is damaged.
    let (first, middle, last) = (label(1, 2).word(), label(1, 4).word(), label(1, 6).word());
    let at = record_word(3);
    let (value, stamp) = (at + HEAD_WORDS, at + HEAD_WORDS + FIELDS);
    let damages = [
        (at + NEXT_WORD, 4),                   // above used
        (at + RELATION_WORD, GROUP as u64),    // of another relation
        (at + LABEL_WORD, 0),                  // no label
        (at + LABEL_WORD, first),              // not above the one before
        (at + LABEL_WORD, label(2, 4).word()), // a counter above the clock
        (at + FLAG_WORD, 65_536),
        (value + 1, 1),                  // a reference that is no label
        (value + 1, label(2, 1).word()), // a counter above the clock
        (value + 2, 1),                  // above the fields of a cow
        (stamp, 0),                      // a value without a stamp
        (stamp, 1),                      // no label
        (stamp, label(2, 1).word()),     // a counter above the clock
        (stamp + 2, first),              // above the fields of a cow
    ];
    for (at, word) in damages {
        let damaged = with(&words, at, word);
        // It is seen where the walk ends with it or goes on, and not where it ends before.
        for wanted in [first + 1, middle, middle + 1, last, last + 1, u64::MAX] {
            assert_eq!(looked_up(&damaged, COW, wanted), (3, 0), "{at} {word} {wanted}");
        }
        assert_eq!(looked_up(&damaged, COW, first), (0, 2));
        assert_eq!(looked_up(&damaged, COW, first - 1), (0, 0));
        // Nor in another chain; no relation, no record.
        assert_eq!(looked_up(&damaged, GROUP, middle), (0, 0));
        assert_eq!(looked_up(&damaged, 4, middle), (5, 0));
    }
}

#[test]
fn a_lookup_is_no_table_check() {
    let words = three_cows().into_words();
    let last = label(1, 6).word();
    // A chain that comes back to a record ends where it does not rise.
    let ring = with(&words, record_word(1) + NEXT_WORD, 2);
    assert_eq!(looked_up(&ring, COW, last), (0, 1));
    assert_eq!(looked_up(&ring, COW, last + 1), (3, 0));
    // Above the used records, and a record that is on no chain.
    assert_eq!(looked_up(&with(&words, record_word(4), 9), COW, last + 1), (0, 0));
    let loose = with(&words, record_word(3) + NEXT_WORD, 0);
    assert_eq!(looked_up(&loose, COW, last), (0, 0));
}

#[test]
fn a_lookup_sees_the_header_of_any_relation() {
    let words = three_cows().into_words();
    for relation in [0, GROUP, COW, MILKING, 4, usize::MAX] {
        for at in 0..HEADER_WORDS {
            let damaged = with(&words, at, u64::MAX);
            assert_eq!(looked_up(&damaged, relation, 1), (3, 0), "{relation} {at}");
        }
        // No replica; fewer records used than a chain begins with; a chain of relation 4.
        assert_eq!(looked_up(&with(&words, REPLICA_WORD, 0), relation, 1), (3, 0));
        assert_eq!(looked_up(&with(&words, USED_WORD, 1), relation, 1), (3, 0));
        assert_eq!(looked_up(&with(&words, FIRST_WORDS + 3, 1), relation, 1), (3, 0));
    }
}

#[test]
fn a_lookup_refuses_lengths_then_the_schema_then_the_table_then_the_relation() {
    let (schema, table) = (farm(), three_cows());
    let other = SchemaBuilder::new().relation().plain().build().unwrap();
    assert_eq!(table.find(&other, COW, label(1, 2)), Err(Error::OwnNotWellFormed));
    for relation in [0, 4, usize::MAX] {
        let told = table.find(&schema, relation, label(1, 2));
        assert_eq!(told, Err(Error::RelationOrReplica));
    }
    // All are wrong at first; the numbers rise as one after the other is mended.
    let damaged = [0; table_words(2)];
    let broken = [0; SCHEMA_WORDS];
    let told = |schema: &[u64], table: &[u64], relation: usize| {
        let mut index = 7;
        (raw::lookup(schema, table, relation, label(1, 2).word(), &mut index), index)
    };
    assert_eq!(told(&broken[1..], &damaged, 0), (1, 0));
    assert_eq!(told(&broken, &damaged[1..], 0), (1, 0));
    assert_eq!(told(&broken, &[], 0), (1, 0));
    assert_eq!(told(&broken, &vec![0; table_words(MOST_RECORDS + 1)], 0), (1, 0));
    assert_eq!(told(&broken, &damaged, 0), (2, 0));
    assert_eq!(told(schema.words(), &damaged, 0), (3, 0));
    assert_eq!(told(schema.words(), table.words(), 0), (5, 0));
    assert_eq!(told(schema.words(), table.words(), COW), (0, 2));
}

#[test]
fn a_list_of_other_marks_or_another_schema_is_refused() {
    let (schema, table) = (farm(), case(5));
    let marks = Marks::of(&schema, &table, [0; 2]).unwrap();
    let empty = Table::start([0; table_words(0)], 1).unwrap();
    assert_eq!(empty.list(&schema, &marks).err(), Some(Error::LengthOrIndex));
    assert_eq!(table.list_from(&schema, &marks, 3).err(), Some(Error::LengthOrIndex));
    let other = SchemaBuilder::new().relation().plain().build().unwrap();
    assert_eq!(table.list(&other, &marks).err(), Some(Error::OwnNotWellFormed));
    let mut list = table.list(&schema, &marks).unwrap();
    assert_eq!(list.by_ref().count(), 2);
    assert_eq!((list.place(), list.next()), (2, None));
}

#[test]
fn labels_keep_their_limits() {
    let most = (1 << 40) - 1;
    for (counter, replica) in [(0, 1), (1, 0), (most + 1, 1), (1, 256), (u64::MAX, 1)] {
        assert_eq!(Label::of(counter, replica), None);
    }
    let label = Label::of(most, 255).unwrap();
    assert_eq!(label.word(), (1 << 48) - 1);
    assert_eq!(Label::from_word(1 << 48), None);
    assert!(Label::of(1, 255) < Label::of(2, 1));
}

#[test]
fn every_number_has_its_error() {
    for (number, error) in (1..).zip(Error::ALL) {
        assert_eq!(error.number(), number);
        assert_eq!(Error::from_number(number), Some(*error));
    }
    assert_eq!(Error::from_number(0), None);
    // Numbers of no error, as a later library may answer them.
    for number in [Error::ALL.len() as u64 + 1, u64::MAX] {
        let error = Error::from_number(number).unwrap();
        assert_eq!(error, Error::Other(number));
        assert_eq!(
            (error.number(), error.to_string()),
            (number, "no answer of this version".into())
        );
    }
}

#[test]
fn every_error_has_its_text() {
    let mut texts: Vec<String> = Error::ALL.iter().map(Error::to_string).collect();
    texts.sort();
    texts.dedup();
    assert_eq!(texts.len(), Error::ALL.len());
}

#[test]
fn the_library_fits_the_crate() {
    assert!(herd::version_fits());
    assert_eq!(herd::version(), herd::VERSION);
}

#[test]
fn words_go_to_bytes_and_back() {
    let table = case(12);
    let words = table.words();
    let mut bytes = vec![0; words.len() * WORD_BYTES];
    words_to_bytes(words, &mut bytes).unwrap();
    assert_eq!(bytes, cases::bytes_of(words));
    let mut again = vec![0; words.len()];
    words_from_bytes(&bytes, &mut again).unwrap();
    assert_eq!(again, words);
    for length in [0, bytes.len() - 1, bytes.len() - WORD_BYTES, bytes.len() + 1] {
        let mut other = vec![7; length];
        assert_eq!(words_to_bytes(words, &mut other), Err(Error::LengthOrIndex));
        assert_eq!(other, vec![7; length]);
        assert_eq!(words_from_bytes(&other, &mut again), Err(Error::LengthOrIndex));
        assert_eq!(again, words);
    }
}

/// One random edit through the types, with what the second implementation does on the same words.
fn edit(
    random: &mut Random,
    schema: &Schema<Vec<u64>>,
    own: &mut Table<&mut [u64]>,
    delta: &mut Delta,
) {
    let edit = random_edit(random, schema.words(), own.words());
    let (mut words, mut changes) = (own.words().to_vec(), delta.words().to_vec());
    let expected = edit.run(schema.words(), &mut words, &mut changes);
    let told = match edit {
        Edit::Insertion { relation, values } => {
            own.insert(schema, delta, relation as usize, &values).map(Label::word)
        }
        Edit::Update { index, field, value } => {
            own.update(schema, delta, index as usize, field as usize, value).map(|()| 0)
        }
        Edit::Deletion { index } => own.delete(schema, delta, index as usize).map(|()| 0),
    };
    assert_eq!((told.map_or_else(Error::number, |_| 0), told.unwrap_or(0)), expected);
    assert_eq!(own.words(), words);
    assert_eq!(delta.words(), changes);
}

fn listed<W: AsRef<[u64]>>(schema: &Schema<Vec<u64>>, table: &Table<W>) -> String {
    let marks = Marks::of(schema, table, vec![9; table.capacity()]).unwrap();
    let mut text = format!("shown {}\n", marks.shown());
    for record in table.list(schema, &marks).unwrap() {
        text.push_str(&format!("{record}\n"));
    }
    text
}

#[test]
fn fleets_through_the_types() {
    let mut random = Random::new(2);
    let mut delta = Delta::new();
    let (mut first, mut second) = (vec![0; table_words(24)], vec![0; table_words(24)]);
    for _ in 0..60 {
        let schema = Schema::new(random::schema(&mut random)).unwrap();
        let mut robot = Table::start(&mut first[..], 1).unwrap();
        let mut office = Table::start(&mut second[..], 2).unwrap();
        for _ in 0..20 {
            edit(&mut random, &schema, &mut robot, &mut delta);
            edit(&mut random, &schema, &mut office, &mut delta);
        }
        let before = robot.words().to_vec();
        let verdict = robot.compare(&schema, &office).unwrap();
        let expected = second::compare(schema.words(), robot.words(), office.words());
        assert_eq!(verdict.number(), second::compare::told(&expected));
        let mut words = before.clone();
        let expected = second::merge(schema.words(), &mut words, office.words());
        let told = robot.merge(&schema, &office);
        assert_eq!(told.map_or_else(Error::number, |_| 0), second::number(&expected));
        assert_eq!(told.ok(), expected.ok());
        assert_eq!(robot.words(), words);
        // The robot lacks something exactly if a merge has no room for it or changes a word.
        let lacks = matches!(verdict, Compared::FirstBehind | Compared::Neither);
        assert_eq!(lacks, told.is_err() || words != before);
        let merged = told.is_ok() && office.merge(&schema, &robot).is_ok();
        for table in [&robot, &office] {
            let input = [cases::bytes_of(schema.words()), cases::bytes_of(table.words())].concat();
            assert_eq!(listed(&schema, table), second::list::list(&input));
            for index in 1..=table.used() {
                let record = &table.words()[record_word(index)..];
                let label = Label::from_word(record[LABEL_WORD]).unwrap();
                let found = table.find(&schema, record[RELATION_WORD] as usize, label);
                assert_eq!(found, Ok(Some(index)));
            }
        }
        if merged {
            assert_eq!(robot.compare(&schema, &office), Ok(Compared::Alike));
            assert_eq!(listed(&schema, &robot), listed(&schema, &office));
        }
    }
}
