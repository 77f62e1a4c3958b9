//! Between old and new tables.

use super::{random_read, stream};
use crate::cases::{self, herd, herd_in, record, schema_words, schema_words_in, COW, GROUP};
use crate::label::label_of;
use crate::layout::{
    abort, mask, Form, CAPACITY, FIELD_COUNT, HEADER, KINDS, NEW, OLD, PLAIN, RELATIONS,
    RELATION_COUNT, USED, VALUES, ZERO,
};
use crate::merge::{join, merge_in};
use crate::random::{self, Block, Random, Shape};
use crate::table::{self, Table};
use crate::vectors::{self, NARROW, WIDEN};
use crate::{merge, narrow, number, table_check, widen, Answer};
use std::collections::BTreeMap;

/// A schema and a table.
type Words = (Vec<u64>, Vec<u64>);

const FORMS: [(Form, Form); 2] = [(OLD, NEW), (NEW, OLD)];

/// Turns words of a form over these buffers.
fn turn(from: Form, words: &Words, to: &mut Words) -> Answer<()> {
    let call = if from == OLD { widen } else { narrow };
    call(&words.0, &words.1, &mut to.0, &mut to.1)
}

/// Empty buffers of a form, for a table of this capacity.
fn buffers(form: Form, capacity: usize) -> Words {
    (vec![0; form.schema()], vec![0; form.table(capacity)])
}

fn capacity(form: Form, words: &Words) -> usize {
    table::capacity_in(form, words.1.len()).unwrap()
}

/// The words in the other form.
fn turned(from: Form, to: Form, words: &Words) -> Words {
    let mut back = buffers(to, capacity(from, words));
    assert_eq!(turn(from, words, &mut back), Ok(()));
    back
}

/// The answer's number, with empty buffers of the right lengths.
fn answer(from: Form, to: Form, words: &Words) -> u64 {
    number(&turn(from, words, &mut buffers(to, capacity(from, words))))
}

/// The words of a schema in another form, moved one by one.
fn moved_schema(from: Form, to: Form, words: &[u64]) -> Vec<u64> {
    let mut moved = vec![0; to.schema()];
    moved[RELATION_COUNT] = words[RELATION_COUNT];
    for relation in 1..=RELATIONS {
        let (old, new) = (from.block(relation), to.block(relation));
        let kinds = from.fields.min(to.fields);
        moved[new + FIELD_COUNT] = words[old + FIELD_COUNT];
        for field in 0..kinds {
            moved[new + KINDS + field] = words[old + KINDS + field];
        }
        for word in 0..3 {
            moved[new + to.masks() + word] = words[old + from.masks() + word];
        }
    }
    moved
}

/// The words of a table in another form, moved one by one.
fn moved_table(from: Form, to: Form, words: &[u64]) -> Vec<u64> {
    let capacity = table::capacity_in(from, words.len()).unwrap();
    let mut moved = vec![0; to.table(capacity)];
    moved[..HEADER].copy_from_slice(&words[..HEADER]);
    for at in 0..capacity {
        let (old, new) = (from.record(at), to.record(at));
        moved[new..new + VALUES].copy_from_slice(&words[old..old + VALUES]);
        for field in 0..from.fields.min(to.fields) {
            moved[new + VALUES + field] = words[old + VALUES + field];
            moved[new + to.stamps() + field] = words[old + from.stamps() + field];
        }
    }
    moved
}

fn moved(from: Form, to: Form, words: &Words) -> Words {
    (moved_schema(from, to, &words.0), moved_table(from, to, &words.1))
}

/// A table of these relations.
fn some_table(random: &mut Random, blocks: &[Block]) -> Table {
    let shape = Shape::small(random);
    random::table(random, &random::decoded(&random::encoded(NEW, blocks)), &shape)
}

fn words_in(form: Form, blocks: &[Block], table: &Table) -> Words {
    (random::encoded(form, blocks), table.words_in(form))
}

/// Buffers with any words in them.
fn stale(random: &mut Random, form: Form, capacity: usize) -> Words {
    let (mut schema, mut table) = buffers(form, capacity);
    schema.iter_mut().chain(&mut table).for_each(|word| *word = random.next());
    (schema, table)
}

/// The cow of C10 and a group in both forms, word for word.
#[test]
fn word_for_word() {
    let records = vec![record(COW, 513, 2, &[40, 0]), record(GROUP, 258, 0, &[12])];
    let table = Table { capacity: 3, replica: 7, clock: 2, records };
    let mut old = vec![7, 2, 2, 0, 2, 1, 0, 0, 0, 0, 0, 0, 0, 0, 0, 0];
    old.extend([0, 2, 513, 2, 40, 0, 0, 0, 0, 0, 0, 0, 513, 513, 0, 0, 0, 0, 0, 0]);
    old.extend([0, 1, 258, 0, 12, 0, 0, 0, 0, 0, 0, 0, 258, 0, 0, 0, 0, 0, 0, 0]);
    old.extend([0; 20]);
    let mut new = vec![7, 2, 2, 0, 2, 1, 0, 0, 0, 0, 0, 0, 0, 0, 0, 0];
    new.extend([0, 2, 513, 2, 40, 0, 0, 0, 0, 0, 0, 0, 0, 0, 0, 0]);
    new.extend([513, 513, 0, 0, 0, 0, 0, 0, 0, 0, 0, 0]);
    new.extend([0, 1, 258, 0, 12, 0, 0, 0, 0, 0, 0, 0, 0, 0, 0, 0]);
    new.extend([258, 0, 0, 0, 0, 0, 0, 0, 0, 0, 0, 0]);
    new.extend([0; 28]);
    assert_eq!((table.words_in(OLD), table.words()), (old.clone(), new.clone()));
    let (old, new) = ((herd_in(OLD), old), (herd(), new));
    assert_eq!(turned(OLD, NEW, &old), new);
    assert_eq!(turned(NEW, OLD, &new), old);
    assert_eq!(old.0[..4], [3, 1, 1, 0]);
    assert_eq!((old.0[10], new.0[14], old.0.len(), new.0.len()), (1, 1, 97, 129));
}

#[test]
fn cases_are_turned() {
    for case in 5..=12 {
        let table = cases::table(case);
        let old = (herd_in(OLD), table.words_in(OLD));
        let new = (herd(), table.words());
        assert_eq!(turned(OLD, NEW, &old), new);
        assert_eq!(turned(NEW, OLD, &new), old);
    }
}

/// "Old to new and back gives the same words", new to old and back too; old contents are ignored.
#[test]
fn round_trips() {
    let mut random = Random::new(18);
    for _ in 0..5_000 {
        let blocks = random::blocks(&mut random, OLD.fields);
        let table = some_table(&mut random, &blocks);
        for (from, to) in FORMS {
            let words = words_in(from, &blocks, &table);
            let mut there = stale(&mut random, to, table.capacity);
            assert_eq!(turn(from, &words, &mut there), Ok(()));
            assert_eq!(there, words_in(to, &blocks, &table));
            let mut back = stale(&mut random, from, table.capacity);
            assert_eq!(turn(to, &there, &mut back), Ok(()));
            assert_eq!(back, words);
        }
    }
}

/// A word or two anywhere are changed. What is turned is judged as its words are in the new form, and
/// moved word by word; a refusal changes no word.
#[test]
fn rules_are_those_of_the_moved_words() {
    let mut random = Random::new(19);
    let mut counts = BTreeMap::new();
    for round in 0..60_000 {
        let most = if round % 8 == 1 { NEW.fields } else { OLD.fields };
        let blocks = random::blocks(&mut random, most);
        let (from, to) = FORMS[round % 2];
        let mut words = words_in(from, &blocks, &some_table(&mut random, &blocks));
        for _ in 0..random.below(3) {
            let part = if random.chance(1, 3) { &mut words.0 } else { &mut words.1 };
            let at = random.below(part.len() as u64) as usize;
            let (other, flipped) = (random.below(part.len() as u64), 1 << random.below(64));
            let near = part[at].wrapping_add(1);
            part[at] = random.pick(&[0, 1, 257, near, part[other as usize], part[at] ^ flipped]);
        }
        let as_new = if from == OLD { moved(OLD, NEW, &words) } else { words.clone() };
        let has_many = (1..=RELATIONS).any(|of| words.0[from.block(of)] > OLD.fields as u64);
        let expected = match number(&table_check(&as_new.0, &as_new.1)) {
            0 if has_many => 14,
            told => told,
        };
        let before = stale(&mut random, to, capacity(from, &words));
        let mut back = before.clone();
        assert_eq!(number(&turn(from, &words, &mut back)), expected);
        assert_eq!(back, if expected == 0 { moved(from, to, &words) } else { before });
        *counts.entry((round % 2, expected)).or_insert(0) += 1;
    }
    assert!(counts.values().all(|count| *count > 300), "{:?}", counts);
    assert_eq!(counts.len(), 7);
}

/// Records stay at their positions, which are in no order.
#[test]
fn positions_stay() {
    let cow = |counter: u64| record(COW, label_of(counter, 1), 0, &[counter, 0]);
    let records = vec![cow(4), cow(2), record(GROUP, label_of(3, 1), 1, &[12]), cow(6)];
    let table = Table { capacity: 6, replica: 1, clock: 9, records };
    let old = (herd_in(OLD), table.words_in(OLD));
    let new = turned(OLD, NEW, &old);
    let read = random_read(&herd(), &new.1);
    assert_eq!(read, table);
    for at in 0..4 {
        assert_eq!(old.1[OLD.record(at)..][..4], new.1[NEW.record(at)..][..4]);
    }
    assert_eq!([0, 1, 2, 3].map(|at| new.1[NEW.record(at)]), [4, 1, 0, 0]);
}

/// "14 [...] if a schema to be turned back has a relation with more than eight fields".
#[test]
fn more_than_eight_fields() {
    for fields in 1..=NEW.fields {
        for relation in 1..=RELATIONS {
            let mut blocks: Vec<Block> = vec![(vec![PLAIN], [0, 0]); RELATIONS];
            blocks[relation - 1] = (vec![PLAIN; fields], [mask(&[fields]), 0]);
            let mut new = (random::encoded(NEW, &blocks), vec![0; NEW.table(1)]);
            assert_eq!(answer(NEW, OLD, &new), 3);
            new.1[0] = 1;
            assert_eq!(answer(NEW, OLD, &new), if fields > 8 { 14 } else { 0 });
            if fields > 8 {
                let mut old = (moved_schema(NEW, OLD, &new.0), vec![0; OLD.table(1)]);
                assert_eq!(answer(OLD, NEW, &old), 2);
                old.1[0] = 1;
                assert_eq!(answer(OLD, NEW, &old), 2);
            }
        }
    }
    // One above the fields of the new form is broken, and no 14.
    let mut words = (schema_words(&[(&[PLAIN; 12], 0, 0)]), vec![0; HEADER]);
    words.1[0] = 1;
    assert_eq!(answer(NEW, OLD, &words), 14);
    words.0[1 + FIELD_COUNT] = 13;
    assert_eq!(answer(NEW, OLD, &words), 2);
}

/// The answer's number where one of the four lengths is changed by this much.
fn with_length(from: Form, to: Form, words: &Words, which: usize, by: isize) -> u64 {
    let (mut words, mut back) = (words.clone(), buffers(to, capacity(from, words)));
    let slices = [&mut words.0, &mut words.1, &mut back.0, &mut back.1];
    let slice = slices.into_iter().nth(which).unwrap();
    slice.resize((slice.len() as isize + by) as usize, 0);
    number(&turn(from, &words, &mut back))
}

#[test]
fn order_of_checks() {
    for (from, to) in FORMS {
        let block: (&[u64], u64, u64) = (&[PLAIN, abort(1)], 1, 0);
        let table = Table { capacity: 2, replica: 1, clock: 0, records: vec![] };
        let good = (schema_words_in(from, &[block]), table.words_in(from));
        let mut broken = good.clone();
        broken.0[from.block(1) + from.block_zero()] = 1;
        let mut damaged = good.clone();
        damaged.1[ZERO] = 1;
        let both = (broken.0.clone(), damaged.1.clone());
        let mut all = vec![(good, 0), (broken, 2), (damaged, 3), (both, 2)];
        if from == NEW {
            let twelve = schema_words(&[(&[PLAIN; 12], 1, 0)]);
            let many: Vec<(Words, u64)> =
                all.iter().map(|(of, told)| (of.clone(), *told)).collect();
            for (mut words, told) in many {
                words.0 = twelve.clone();
                if told == 2 {
                    words.0[from.block_words()] = 1;
                }
                all.push((words, if told == 0 { 14 } else { told }));
            }
        }
        for (words, told) in &all {
            assert_eq!(answer(from, to, words), *told);
            for (which, by) in [(0, -1), (0, 1), (1, -1), (1, 1), (2, -1), (2, 1), (3, -1), (3, 1)]
            {
                assert_eq!(with_length(from, to, words, which, by), 1);
            }
            // One record more or less, of either table.
            let (lent, written) = (from.record_words() as isize, to.record_words() as isize);
            for (which, by) in [(1, -lent), (1, lent), (3, -written), (3, written)] {
                assert_eq!(with_length(from, to, words, which, by), 1);
            }
        }
    }
}

/// The side written is not read: a broken schema and a damaged table there are good, and so is what a
/// call wrote before.
#[test]
fn old_contents_are_ignored() {
    let mut random = Random::new(20);
    let table = cases::table(8);
    for (from, to) in FORMS {
        let words = (herd_in(from), table.words_in(from));
        let expected = (herd_in(to), table.words_in(to));
        let mut back = expected.clone();
        for _ in 0..100 {
            assert_eq!(turn(from, &words, &mut back), Ok(()));
            assert_eq!(back, expected);
            back = stale(&mut random, to, table.capacity);
        }
    }
}

/// "The new robot merges old tables only converted": the merge of the converted is the converted
/// merge, with the same answer and number.
#[test]
fn merges_are_turned() {
    let mut random = Random::new(21);
    let mut counts = BTreeMap::new();
    for _ in 0..5_000 {
        let blocks = random::blocks(&mut random, OLD.fields);
        let [mut own, mut other] = [(); 2].map(|_| some_table(&mut random, &blocks));
        let joined = join(&own, &other).records.len();
        own.capacity = own.capacity.max(joined - random.below(2) as usize * joined.min(1));
        if other.records.len() <= OLD.delta_capacity() && random.chance(1, 3) {
            other.capacity = OLD.delta_capacity();
        }
        let [old, taken] = [&own, &other].map(|table| words_in(OLD, &blocks, table));
        let [mut new, new_taken] = [&old, &taken].map(|words| turned(OLD, NEW, words));
        let mut merged = old.clone();
        let of_old = merge_in(OLD, &old.0, &mut merged.1, &taken.1);
        assert_eq!(merge(&new.0, &mut new.1, &new_taken.1), of_old);
        assert_eq!(turned(OLD, NEW, &merged), new);
        assert_eq!(turned(NEW, OLD, &new), merged);
        *counts.entry(number(&of_old)).or_insert(0) += 1;
    }
    assert!(counts[&0] > 1_000 && counts[&11] > 300, "{:?}", counts);
    assert_eq!(counts.len(), 2);
}

/// An old delta is a table with N = 9, and a new one with N = 13.
#[test]
fn deltas_are_turned() {
    let table = |capacity: usize| Table { capacity, ..cases::table(5) };
    for (from, to) in FORMS {
        let delta = (herd_in(from), table(from.delta_capacity()).words_in(from));
        assert_eq!(delta.1.len(), from.delta());
        let there = turned(from, to, &delta);
        assert_eq!(there.1.len(), to.table(from.delta_capacity()));
        assert_eq!(turned(to, from, &there), delta);
        let mut buffer = (vec![0; to.schema()], vec![0; to.delta()]);
        assert_eq!(number(&turn(from, &delta, &mut buffer)), 1);
    }
    assert_eq!((OLD.table(13), NEW.table(9)), (276, 268));
}

#[test]
fn capacities() {
    for (from, to) in FORMS {
        let mut words = (herd_in(from), vec![0; HEADER]);
        assert_eq!(answer(from, to, &words), 3);
        (words.1[0], words.1[1]) = (255, 5);
        assert_eq!(turned(from, to, &words), (herd_in(to), words.1.clone()));
        words.1[USED] = 1;
        assert_eq!(answer(from, to, &words), 3);
        let cow = |counter: u64| record(COW, label_of(counter, 1), 0, &[counter, 0]);
        let most = CAPACITY as u64;
        let records = (1..=most).rev().map(cow).collect();
        let mut full = Table { capacity: CAPACITY, replica: 1, clock: most, records };
        let words = (herd_in(from), full.words_in(from));
        assert_eq!(turned(from, to, &words), (herd_in(to), full.words_in(to)));
        full.capacity += 1;
        let (words, mut back) = ((herd_in(from), full.words_in(from)), buffers(to, CAPACITY + 1));
        assert_eq!(number(&turn(from, &words, &mut back)), 1);
    }
}

/// Seven old records are as long as five new ones.
#[test]
fn seven_old_records() {
    let seven = Table { capacity: 7, ..cases::table(8) };
    let old = (herd_in(OLD), seven.words_in(OLD));
    assert_eq!(old.1.len(), NEW.table(5));
    assert_eq!(turned(OLD, NEW, &old).1, seven.words());
    let mut five = buffers(NEW, 5);
    assert_eq!(number(&turn(OLD, &old, &mut five)), 1);
    // As a new table of five records these words are damaged.
    assert_eq!(answer(NEW, OLD, &(herd(), old.1)), 3);
    let empty = Table { records: vec![], ..seven }.words_in(OLD);
    let mut back = buffers(OLD, 5);
    assert_eq!(turn(NEW, &(herd(), empty.clone()), &mut back), Ok(()));
    assert_eq!(back.1[..], empty[..OLD.table(5)]);
}

/// In the vectors each answer of both calls has many items.
#[test]
fn vectors_tell_each_answer() {
    let mut counts = BTreeMap::new();
    for (item, back) in vectors::read(stream()).unwrap() {
        if item.call == WIDEN || item.call == NARROW {
            *counts.entry((item.call, back.answer)).or_insert(0) += 1;
        }
    }
    let numbers: Vec<u64> = counts.keys().map(|(_, number)| *number).collect();
    assert_eq!(numbers, [0, 1, 2, 3, 0, 1, 2, 3, 14]);
    assert!(counts.values().all(|count| *count >= 100), "{:?}", counts);
}
