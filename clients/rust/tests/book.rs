//! The herd book through the types: each call beside the library's own on a copy of the table.

use herd::book::{self, SCHEMA};
use herd::layout::{block_word, COUNT_WORD, KEY_WORDS};
use herd::{table_words, Delta, Error, Kind, Label, Schema, SchemaBuilder, Table};

type Words = [u64; table_words(16)];

type Change = fn(&mut Table<Words>, &mut Delta, usize, usize, u64) -> Result<(), Error>;
type Strike = fn(&mut Table<Words>, &mut Delta, usize) -> Result<(), Error>;

/// The calls that change and strike off, by kind, and the fields of each kind.
const KINDS: [(usize, Change, Strike); book::TREATMENT] = [
    (book::GROUP_NUMBER, book::change_group, book::strike_group),
    (book::COW_GROUP, book::change_cow, book::strike_cow),
    (book::ROBOT_NUMBER, book::change_robot, book::strike_robot),
    (book::MILKING_MINUTE, book::change_milking, book::strike_milking),
    (book::CLEANING_END, book::change_cleaning, book::strike_cleaning),
    (book::TREATMENT_LAST, book::change_treatment, book::strike_treatment),
];

/// The indices of the records of `barn`, one of each kind.
const GROUP: usize = 1;
const ROBOT: usize = 2;
const COW: usize = 3;
const MILKING: usize = 4;
const CLEANING: usize = 5;
const TREATMENT: usize = 6;

/// By kind.
const INDICES: [usize; book::TREATMENT] = [GROUP, COW, ROBOT, MILKING, CLEANING, TREATMENT];

/// The same edit on two tables: they and the deltas are the same before and after.
struct Both {
    table: Table<Words>,
    delta: Delta,
    library: (Table<Words>, Delta),
}

impl Both {
    fn new() -> Both {
        let table = Table::start([0; table_words(16)], 1).unwrap();
        Both { table: table.clone(), delta: Delta::new(), library: (table, Delta::new()) }
    }

    #[track_caller]
    fn check<T: PartialEq + std::fmt::Debug>(
        &mut self,
        call: impl FnOnce(&mut Table<Words>, &mut Delta) -> Result<T, Error>,
        library: impl FnOnce(&mut Table<Words>, &mut Delta) -> Result<T, Error>,
    ) -> Result<T, Error> {
        let told = call(&mut self.table, &mut self.delta);
        assert_eq!(told, library(&mut self.library.0, &mut self.library.1));
        assert_eq!((&self.table, &self.delta), (&self.library.0, &self.library.1));
        told
    }

    #[track_caller]
    fn enter(
        &mut self,
        kind: usize,
        values: &[u64],
        call: impl FnOnce(&mut Table<Words>, &mut Delta) -> Result<Label, Error>,
    ) -> Label {
        self.check(call, |t, d| t.insert(&SCHEMA, d, kind, values)).unwrap()
    }
}

/// A table with a record of each kind.
fn barn() -> Both {
    let mut both = Both::new();
    let group = both.enter(book::GROUP, &[12], |t, d| book::enter_group(t, d, 12));
    let robot = both.enter(book::ROBOT, &[1], |t, d| book::enter_robot(t, d, 1));
    let cow = both.enter(book::COW, &[4711, 982, group.word()], |t, d| {
        book::enter_cow(t, d, 4711, 982, Some(group))
    });
    both.enter(book::MILKING, &[cow.word(), robot.word(), 12_400, 385, 300], |t, d| {
        book::enter_milking(t, d, Some(cow), Some(robot), 12_400, 385, 300)
    });
    both.enter(book::CLEANING, &[robot.word(), 310, 322], |t, d| {
        book::enter_cleaning(t, d, Some(robot), 310, 322)
    });
    both.enter(book::TREATMENT, &[cow.word(), 400, 7_400], |t, d| {
        book::enter_treatment(t, d, Some(cow), 400, 7_400)
    });
    both
}

#[test]
fn the_schema_has_the_kinds_and_their_fields() {
    assert_eq!(Schema::new(SCHEMA.words()).unwrap().relations(), book::TREATMENT);
    for (relation, (fields, _, _)) in (1..).zip(KINDS) {
        assert_eq!(SCHEMA.fields(relation), fields);
    }
    let references = [
        (book::COW, book::COW_GROUP, Kind::Abort(book::GROUP)),
        (book::MILKING, book::MILKING_COW, Kind::Propagation(book::COW)),
        (book::MILKING, book::MILKING_ROBOT, Kind::Abort(book::ROBOT)),
        (book::CLEANING, book::CLEANING_ROBOT, Kind::Abort(book::ROBOT)),
        (book::TREATMENT, book::TREATMENT_COW, Kind::Propagation(book::COW)),
    ];
    for relation in 1..=SCHEMA.relations() {
        for field in 1..=SCHEMA.fields(relation) {
            let told = references.iter().find(|(r, f, _)| (*r, *f) == (relation, field));
            let kind = told.map_or(Kind::Plain, |(_, _, kind)| *kind);
            assert_eq!(SCHEMA.kind(relation, field), Some(kind));
        }
    }
    let keys = [(1, 0), (1, 2), (1, 0), (0, 0), (0, 0), (0, 0)];
    for (relation, (first, second)) in (1..).zip(keys) {
        let key = block_word(relation) + KEY_WORDS;
        assert_eq!(SCHEMA.words()[key..key + 2], [first, second]);
    }
    assert_eq!(SCHEMA.words()[block_word(book::TREATMENT + 1) + COUNT_WORD], 0);
}

#[test]
fn records_are_entered_as_by_the_library() {
    let mut both = barn();
    let second = both.check(
        |t, d| book::enter_cow(t, d, 4712, 982, None),
        |t, d| t.insert(&SCHEMA, d, book::COW, &[4712, 982, 0]),
    );
    assert_eq!(second, Err(Error::Conflict));
    let lost = Label::of(9, 9);
    let milking = both.check(
        |t, d| book::enter_milking(t, d, lost, None, 1, 2, 3),
        |t, d| t.insert(&SCHEMA, d, book::MILKING, &[9 * 256 + 9, 0, 1, 2, 3]),
    );
    assert_eq!(milking, Err(Error::TargetNotShown));
    // Empty references.
    both.enter(book::COW, &[4712, 983, 0], |t, d| book::enter_cow(t, d, 4712, 983, None));
    both.enter(book::MILKING, &[0, 0, 1, 2, 3], |t, d| {
        book::enter_milking(t, d, None, None, 1, 2, 3)
    });
    both.enter(book::CLEANING, &[0, 2, 1], |t, d| book::enter_cleaning(t, d, None, 2, 1));
    both.enter(book::TREATMENT, &[0, 2, 1], |t, d| book::enter_treatment(t, d, None, 2, 1));
}

#[test]
fn fields_are_changed_as_by_the_library() {
    let mut both = barn();
    for ((fields, change, _), index) in KINDS.into_iter().zip(INDICES) {
        for field in 0..=fields + 1 {
            let told = both.check(
                |t, d| change(t, d, index, field, 0),
                |t, d| t.update(&SCHEMA, d, index, field, 0),
            );
            let there = (1..=fields).contains(&field);
            assert_eq!(told, if there { Ok(()) } else { Err(Error::FieldOrValue) });
        }
    }
}

#[test]
fn records_are_struck_off_as_by_the_library() {
    let mut both = barn();
    let strike = |both: &mut Both, index: usize| {
        let kind = INDICES.iter().position(|other| *other == index).unwrap();
        both.check(|t, d| KINDS[kind].2(t, d, index), |t, d| t.delete(&SCHEMA, d, index))
    };
    for index in [GROUP, ROBOT] {
        assert_eq!(strike(&mut both, index), Err(Error::Referenced));
    }
    for index in [TREATMENT, CLEANING, MILKING, COW, ROBOT, GROUP] {
        assert_eq!(strike(&mut both, index), Ok(()));
        assert_eq!(strike(&mut both, index), Err(Error::NotShown));
    }
}

#[test]
fn a_record_of_another_kind_is_refused() {
    let mut both = barn();
    let (before, delta) = (both.table.clone(), both.delta.clone());
    let (table, changes) = (&mut both.table, &mut both.delta);
    for (kind, (_, change, strike)) in KINDS.into_iter().enumerate() {
        for (other, index) in INDICES.into_iter().enumerate() {
            if other != kind {
                // Of a wrong field too: 6 comes before 7.
                for field in [1, 9] {
                    assert_eq!(change(table, changes, index, field, 5), Err(Error::NotShown));
                }
                assert_eq!(strike(table, changes, index), Err(Error::NotShown));
            }
        }
        for index in [0, INDICES.len() + 1] {
            assert_eq!(change(table, changes, index, 1, 5), Err(Error::LengthOrIndex));
            assert_eq!(strike(table, changes, index), Err(Error::LengthOrIndex));
        }
    }
    assert_eq!((&both.table, &both.delta), (&before, &delta));
}

#[test]
fn every_kind_is_known_by_its_label() {
    let both = barn();
    for (kind, index) in (1..).zip(INDICES) {
        for other in INDICES {
            let found = both.table.find(&SCHEMA, kind, Label::of(other as u64, 1).unwrap());
            assert_eq!(found, Ok(Some(index).filter(|index| *index == other)));
        }
    }
}

#[test]
fn a_milking_is_found_while_it_is_shown() {
    let mut both = barn();
    let label = |counter| Label::of(counter, 1).unwrap();
    assert_eq!(book::find_milking(&both.table, label(4)), Ok(Some(MILKING)));
    for counter in [1, 2, 3, 5, 6, 7] {
        assert_eq!(book::find_milking(&both.table, label(counter)), Ok(None));
    }
    book::strike_cow(&mut both.table, &mut both.delta, COW).unwrap();
    assert_eq!(book::find_milking(&both.table, label(4)), Ok(None));
    // It is known all the same.
    assert_eq!(both.table.find(&SCHEMA, book::MILKING, label(4)), Ok(Some(MILKING)));
    // A table of another schema, whose first relation has two fields.
    let other = SchemaBuilder::new().relation().plain().plain().build().unwrap();
    let mut table = Table::start([0; table_words(4)], 1).unwrap();
    table.insert(&other, &mut Delta::new(), 1, &[40, 41]).unwrap();
    assert_eq!(book::find_milking(&table, label(1)), Err(Error::OwnNotWellFormed));
}
