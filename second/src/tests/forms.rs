//! The old form and the new: their figures, and words in each.

use crate::cases::{self, herd_in, schema_words_in};
use crate::layout::{
    mask, Form, DELTA, DELTA_CAPACITY, FIELDS, LIST_CAPACITY, NEW, OLD, PLAIN, RECORD, SCHEMA,
    STAMPS,
};
use crate::random::{self, Random, Shape};
use crate::schema;
use crate::table::{self, Table};

/// "28 words (four, twelve values, twelve stamps), schemas 129 words with blocks of 16 (count, twelve
/// kinds, two masks, zero), deltas have N = 13 and 380 words".
#[test]
fn figures_of_the_new_form() {
    assert_eq!((NEW.fields, NEW.record_words(), NEW.schema()), (12, 28, 129));
    assert_eq!((NEW.block_words(), NEW.masks(), NEW.block_zero()), (16, 13, 15));
    assert_eq!((NEW.delta_capacity(), NEW.delta(), LIST_CAPACITY), (13, 380, 200));
    assert_eq!((NEW.table(0), NEW.table(5), NEW.record(1)), (16, 156, 44));
    let named = (FIELDS, RECORD, SCHEMA, STAMPS, DELTA_CAPACITY, DELTA);
    assert_eq!(named, (12, 28, 129, 16, 13, 380));
}

/// "97 words", "eight blocks of 12", "16 + 20N words", "N = 9", "196 words".
#[test]
fn figures_of_the_old_form() {
    assert_eq!((OLD.fields, OLD.record_words(), OLD.schema()), (8, 20, 97));
    assert_eq!((OLD.block_words(), OLD.masks(), OLD.block_zero()), (12, 9, 11));
    assert_eq!((OLD.delta_capacity(), OLD.delta()), (9, 196));
    assert_eq!((OLD.table(0), OLD.table(7), OLD.record(1)), (16, 156, 36));
}

/// A relation of as many fields as a form has is read in it, and one of more fields is not.
#[test]
fn fields_of_a_form() {
    for form in [OLD, NEW] {
        let all = mask(&[1, form.fields]);
        let words = |fields: usize| {
            let mut words = schema_words_in(form, &[(&vec![PLAIN; form.fields], all, 0)]);
            words[form.block(1)] = fields as u64;
            words
        };
        let read = schema::read_in(form, &words(form.fields)).unwrap();
        assert_eq!(read.relations[0].kinds.len(), form.fields);
        assert_eq!(read.relations[0].keys, [[0, form.fields - 1]]);
        assert_eq!(schema::read_in(form, &words(form.fields + 1)), None);
        assert_eq!(schema::read_in(form, &words(form.fields - 1)), None);
    }
}

fn some_table(random: &mut Random, form: Form) -> (Vec<u64>, Table) {
    let words = random::encoded(form, &random::blocks(random, form.fields));
    let shape = Shape::small(random);
    let schema = schema::read_in(form, &words).unwrap();
    (words, random::table(random, &schema, &shape))
}

/// What is written in a form is read in it.
#[test]
fn words_are_read_in_their_form() {
    let mut random = Random::new(16);
    for round in 0..10_000 {
        let form = [OLD, NEW][round % 2];
        let (words, table) = some_table(&mut random, form);
        let schema = schema::read_in(form, &words).unwrap();
        let written = table.words_in(form);
        assert_eq!(table::capacity_in(form, written.len()), Some(table.capacity));
        assert_eq!(table::read_in(form, &schema, &written), Some(table.clone()));
        // The words of accepted tables are those of the table that is read.
        let mut changed = written;
        let (at, from) = (random.below(changed.len() as u64), random.below(changed.len() as u64));
        changed[at as usize] = random.pick(&[0, 1, changed[from as usize]]);
        if let Some(read) = table::read_in(form, &schema, &changed) {
            assert_eq!(read.words_in(form), changed);
        }
    }
}

/// Relations of at most eight fields and their tables are the same in both forms.
#[test]
fn both_forms_tell_the_same() {
    let mut random = Random::new(17);
    for _ in 0..5_000 {
        let blocks = random::blocks(&mut random, OLD.fields);
        let [old, new] = [OLD, NEW].map(|form| random::encoded(form, &blocks));
        let schema = schema::read(&new).unwrap();
        assert_eq!(schema::read_in(OLD, &old).as_ref(), Some(&schema));
        assert_eq!((schema::read(&old), schema::read_in(OLD, &new)), (None, None));
        let shape = Shape::small(&mut random);
        let table = random::table(&mut random, &schema, &shape);
        let read = table::read_in(OLD, &schema, &table.words_in(OLD));
        assert_eq!(read, table::read(&schema, &table.words()));
    }
}

/// C5 in the old form, word for word.
#[test]
fn old_words_of_a_case() {
    let case = cases::table(5);
    let words = case.words_in(OLD);
    assert_eq!(words[..6], [1, 2, 2, 0, 1, 2]);
    assert_eq!(words[16..26], [0, 1, 257, 1, 12, 0, 0, 0, 0, 0]);
    assert_eq!(words[36..42], [0, 2, 513, 0, 40, 257]);
    assert_eq!((words.len(), words[28], words[48], words[49]), (56, 257, 513, 513));
    let schema = schema::read_in(OLD, &herd_in(OLD)).unwrap();
    assert_eq!(table::read_in(OLD, &schema, &words), Some(case));
    assert_eq!(table::read(&schema, &words), None);
}
