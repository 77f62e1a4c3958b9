//! Between old and new tables: what is turned, wrong lengths, and the order of the refusals.

use super::items::Items;
use super::sources::accepted_edit;
use super::turn_damage::{Damaged, BROKEN, HEADERS};
use super::turned::{
    blocks_of, eight_blocks, most_fields, some_blocks, Contents, Lent, Way, NARROWING, WAYS,
    WIDENING,
};
use crate::label::{label_of, Register, LARGEST_COUNTER, LARGEST_FLAG};
use crate::layout::{
    mask, Form, CAPACITY, FIELD_COUNT, FIRSTS, HEADER, KINDS, NEW, OLD, PLAIN, RELATIONS, REPLICA,
    USED, ZEROS,
};
use crate::random::{self, Block, Random};
use crate::schema::{Kind, Schema};
use crate::table::{self, Record, Table};
use crate::vectors::digest::digest;

const TABLES: u8 = 122;
const DELTAS: u8 = 123;
const STALE: u8 = 124;
const LIMITS: u8 = 125;
const MANY: u8 = 126;
const LENGTHS: u8 = 131;
const ORDER: u8 = 132;
const CAPACITIES: u8 = 133;
const SEVEN_OLD: u8 = 134;

/// How many tables each case has.
const ENOUGH: u64 = 24;
const FEW: u64 = 8;

/// So many old records, of 20 words each, are as long as so many new ones, of 28.
const SEVEN: usize = 7;
const FIVE: usize = 5;

/// Pushes a call that is done: the words of the contents in the other form come back.
fn push_done(items: &mut Items, category: u8, contents: &Contents, lent: &Lent) {
    let back = items.push_with(0, lent.item(category));
    let schema = random::encoded(lent.way.to, &contents.blocks);
    let sum = schema.iter().fold(0, |sum, word| digest(sum, *word));
    assert_eq!(back.results, [sum]);
    assert_eq!(back.exits, [contents.table.words_in(lent.way.to)]);
}

/// Turns contents both ways.
fn both(items: &mut Items, random: &mut Random, category: u8, contents: &Contents) {
    for way in WAYS {
        let lent = contents.lent(way).stale_or_not(random);
        push_done(items, category, contents, &lent);
    }
}

/// Tables made by calls, and directly.
fn tables(items: &mut Items, random: &mut Random) {
    for _ in 0..2 * ENOUGH {
        let contents = Contents::called(random);
        both(items, random, TABLES, &contents);
        let contents = Contents::some(random);
        both(items, random, TABLES, &contents);
    }
}

/// The delta of an accepted edit under relations of at most eight fields.
fn delta(random: &mut Random) -> Contents {
    loop {
        let (schema, _, _, delta) = accepted_edit(random);
        let blocks = blocks_of(&schema);
        let read = table::read(&random::decoded(&schema), &delta);
        if let (Some(table), true) = (read, most_fields(&blocks) <= OLD.fields) {
            return Contents { blocks, table };
        }
    }
}

/// Deltas of both forms are tables with N = 9 and N = 13; a delta of the other form has another N.
fn deltas(items: &mut Items, random: &mut Random) {
    for _ in 0..FEW {
        let mut contents = delta(random);
        for form in [OLD, NEW] {
            contents.table.capacity = form.delta_capacity();
            both(items, random, DELTAS, &contents);
        }
        for way in WAYS {
            contents.table.capacity = way.from.delta_capacity();
            let mut lent = contents.lent(way);
            lent.to_table = vec![0; way.to.delta()];
            items.push_with(1, lent.item(DELTAS));
        }
    }
}

/// Old contents of the schema written, of the table written, and of both.
fn stale(items: &mut Items, random: &mut Random) {
    for round in 0..ENOUGH * 3 / 2 {
        let contents = Contents::some(random);
        for way in WAYS {
            let mut lent = contents.lent(way);
            if round % 3 != 0 {
                lent.stale_schema(random);
            }
            if round % 3 != 1 {
                lent.stale_table(random);
            }
            push_done(items, STALE, &contents, &lent);
        }
    }
}

/// Keys that name the eighth field, and a second key without a first.
fn limit_blocks(random: &mut Random) -> Vec<Block> {
    let keys = [mask(&[8]), mask(&[1, 2, 3, 8]), mask(&[5, 6, 7, 8]), mask(&[7, 8])];
    let (key, other) = (random.pick(&keys), random.pick(&keys));
    let masks = random.pick(&[[key, other], [0, key], [key, 0], [key, key]]);
    match random.below(3) {
        0 => eight_blocks(random),
        1 => vec![(vec![PLAIN; OLD.fields], masks)],
        _ => {
            let mut blocks = some_blocks(random);
            let at = random.below(blocks.len() as u64) as usize;
            blocks[at].0.resize(OLD.fields, PLAIN);
            blocks[at].1 = masks;
            blocks
        }
    }
}

/// A record whose words are at their limits.
fn limit_record(random: &mut Random, schema: &Schema, at: u64) -> Record {
    let relation = 1 + random.below(schema.relations.len() as u64);
    let kinds = schema.relation(relation).map_or(vec![], |of| of.kinds.clone());
    let label = label_of(LARGEST_COUNTER - at, 255);
    let register = |kind: &Kind| {
        let value = if kind.target().is_some() { label_of(LARGEST_COUNTER, 255) } else { u64::MAX };
        Register { value, stamp: random.pick(&[label, label_of(1, 1)]) }
    };
    let registers = kinds.iter().map(register).collect();
    Record { relation, label, flag: LARGEST_FLAG, registers }
}

/// F = 8 with keys on field 8, eight relations, words at their limits, and tables without records.
fn limits(items: &mut Items, random: &mut Random) {
    for round in 0..ENOUGH {
        let blocks = limit_blocks(random);
        let mut contents = Contents::with(random, blocks, 2 + round as usize % 3, 0);
        both(items, random, LIMITS, &contents);
        let schema = random::decoded(&random::encoded(NEW, &contents.blocks));
        (contents.table.replica, contents.table.clock) = (255, LARGEST_COUNTER);
        contents.table.records = match round % 3 {
            0 => vec![],
            _ => (0..round % 3).map(|at| limit_record(random, &schema, at)).collect(),
        };
        contents.table.capacity = contents.table.capacity.max(2);
        both(items, random, LIMITS, &contents);
    }
}

/// Relations, of which the one at a place has more than eight fields, and may have a key with the
/// last of them.
fn many_blocks(random: &mut Random, at: usize) -> Vec<Block> {
    let mut blocks = some_blocks(random);
    blocks.resize(blocks.len().max(at + 1), (vec![PLAIN], [0, 0]));
    let fields = OLD.fields + 1 + random.below((NEW.fields - OLD.fields) as u64) as usize;
    blocks[at].0.resize(fields, PLAIN);
    blocks[at].1 = random.pick(&[[0, 0], [0, 0], [mask(&[fields]), 0], [0, mask(&[1, fields])]]);
    blocks
}

/// Contents of which one relation has more than eight fields.
fn many(random: &mut Random, at: usize) -> Contents {
    let blocks = many_blocks(random, at);
    let (used, room) = (1 + random.below(4) as usize, random.below(2) as usize);
    Contents::with(random, blocks, used, room)
}

/// The same cut to eight fields.
fn cut(random: &mut Random, contents: &Contents) -> Contents {
    let mut blocks = contents.blocks.clone();
    for (kinds, masks) in &mut blocks {
        kinds.truncate(OLD.fields);
        masks.iter_mut().for_each(|mask| *mask %= 1 << OLD.fields);
    }
    Contents::with(random, blocks, 2, 0)
}

/// More than eight fields in the first relation or another, with its records, without, or without
/// any; and F = 8 in their place.
fn too_many(items: &mut Items, random: &mut Random) {
    for round in 0..5 * ENOUGH {
        let at = if round % 4 == 0 { 0 } else { random.below(RELATIONS as u64) as usize };
        let mut contents = many(random, at);
        match round % 3 {
            0 => {}
            1 => contents.table.records.retain(|record| record.relation != at as u64 + 1),
            _ => contents.table.records.clear(),
        }
        let lent = contents.lent(NARROWING).stale_or_not(random);
        items.push_with(14, lent.item(MANY));
        if round % 4 == 0 {
            let contents = cut(random, &contents);
            both(items, random, MANY, &contents);
        }
        if round % 2 == 0 {
            let mut lent = cut(random, &contents).lent(WIDENING).stale_or_not(random);
            let block = OLD.block(at + 1);
            lent.schema[block + KINDS..block + OLD.masks()].fill(PLAIN);
            lent.schema[block + FIELD_COUNT] = contents.blocks[at].0.len() as u64;
            items.push_with(2, lent.item(MANY));
        }
    }
}

/// A length that no schema of the form has. Both schemas have room in one slice of 256 words.
fn schema_length(random: &mut Random, form: Form) -> usize {
    let (whole, block) = (form.schema(), form.block_words());
    let other = if form == NEW { OLD.schema() } else { whole + 1 };
    random.pick(&[0, 1, block, whole - block, whole - 1, whole + 1, whole + block, other])
}

/// A length that no table of the form has, near the one of this capacity.
fn table_length(random: &mut Random, form: Form, capacity: usize) -> usize {
    let (whole, record) = (form.table(capacity), form.record_words());
    let some = random.below(record as u64) as usize;
    let lengths = [0, HEADER - 1, whole - 1, whole + 1, whole + 4, whole + 8, whole + some];
    let length = random.pick(&lengths);
    if table::capacity_in(form, length).is_some() {
        whole + 1
    } else {
        length
    }
}

/// Another N than this one: one more or less, 0, or that of a table of the other form with so many
/// words.
fn other_capacity(random: &mut Random, way: Way, capacity: usize) -> usize {
    let same_words = table::capacity_in(way.to, way.from.table(capacity));
    let other = same_words.unwrap_or(capacity + 1);
    let pick = random.pick(&[capacity + 1, capacity.saturating_sub(1), 0, 2 * capacity, other]);
    if pick == capacity {
        capacity + 1
    } else {
        pick
    }
}

/// Makes one length wrong: of the schema or the table turned, of the schema or the table written, or
/// N of the table written.
fn wrong_length(random: &mut Random, lent: &mut Lent, which: u64) {
    let (way, capacity) = (lent.way, lent.capacity());
    match which {
        0 => lent.schema.resize(schema_length(random, way.from), 0),
        1 => lent.table.resize(table_length(random, way.from, capacity), 0),
        2 => lent.to_schema.resize(schema_length(random, way.to), 0),
        3 => lent.to_table.resize(table_length(random, way.to, capacity), 0),
        _ => lent.to_table.resize(way.to.table(other_capacity(random, way, capacity)), 0),
    }
}

/// Each of the four lengths, and unequal N; both sides in each other's place.
fn lengths(items: &mut Items, random: &mut Random) {
    for way in WAYS {
        for which in 0..5 {
            for _ in 0..ENOUGH {
                let mut lent = Contents::some(random).lent(way).stale_or_not(random);
                wrong_length(random, &mut lent, which);
                items.push_with(1, lent.item(LENGTHS));
            }
        }
        for _ in 0..4 {
            let contents = Contents::some(random);
            let (mut lent, other) = (contents.lent(way), Way { from: way.to, to: way.from, ..way });
            let swapped = contents.lent(other);
            (lent.schema, lent.to_schema) = (swapped.schema, swapped.to_schema);
            items.push_with(1, lent.item(LENGTHS));
            (lent.table, lent.to_table) = (swapped.table, swapped.to_table);
            items.push_with(1, lent.item(LENGTHS));
        }
    }
}

/// What is wrong, by the numbers of the answers.
const WRONGS: [&[u64]; 9] = [
    &[1, 2],
    &[1, 3],
    &[2, 3],
    &[1, 2, 3],
    &[1, 14],
    &[2, 14],
    &[3, 14],
    &[2, 3, 14],
    &[1, 2, 3, 14],
];

/// Whether a schema tells a relation of more than eight fields, broken or not.
fn tells_many(lent: &Lent) -> bool {
    let count = |relation| lent.schema[lent.way.from.block(relation) + FIELD_COUNT];
    (1..=RELATIONS).any(|relation| count(relation) > OLD.fields as u64)
}

/// What a call is lent, with all of this wrong; where that cannot be, none.
fn wrong(random: &mut Random, way: Way, wrongs: &[u64], round: u64) -> Option<Lent> {
    let has = |number: u64| wrongs.contains(&number);
    let at = random.below(RELATIONS as u64) as usize;
    let contents = if has(14) { many(random, at) } else { Contents::some(random) };
    let mut lent = contents.lent(way).stale_or_not(random);
    if has(3) && has(2) {
        lent.damage(random, HEADERS[round as usize % HEADERS.len()])?;
    } else if has(3) {
        let others = [Damaged::Flag, Damaged::Stamp, Damaged::Lost, Damaged::AboveUsed];
        let damaged = random.pick(&[&HEADERS[..], &others].concat());
        lent.damage(random, damaged)?;
    }
    if has(2) {
        lent.break_schema(random, BROKEN[round as usize % BROKEN.len()])?;
    }
    if has(14) && !tells_many(&lent) {
        return None;
    }
    if has(1) {
        let which = if has(14) { 1 + round % 4 } else { round % 5 };
        wrong_length(random, &mut lent, which);
    }
    Some(lent)
}

/// Two or more answers apply, and the lowest comes back.
fn order(items: &mut Items, random: &mut Random) {
    for way in WAYS {
        let narrows = way.call == NARROWING.call;
        for wrongs in WRONGS.into_iter().filter(|wrongs| narrows || !wrongs.contains(&14)) {
            let mut made = 0;
            while made < ENOUGH - 2 {
                let round = random.below(60);
                if let Some(lent) = wrong(random, way, wrongs, round) {
                    items.push_with(wrongs[0], lent.item(ORDER));
                    made += 1;
                }
            }
        }
    }
}

/// Capacity 0: the header alone, which both forms have alike; damaged too.
fn capacity_zero(items: &mut Items, random: &mut Random) {
    for _ in 0..FEW {
        let blocks = some_blocks(random);
        let mut contents = Contents::with(random, blocks, 0, 0);
        contents.table.clock = random.pick(&[0, 1, LARGEST_COUNTER]);
        for way in WAYS {
            let lent = contents.lent(way).stale_or_not(random);
            push_done(items, CAPACITIES, &contents, &lent);
            let mut damaged = lent.clone();
            let first = FIRSTS + random.below((ZEROS - FIRSTS) as u64) as usize;
            damaged.table[random.pick(&[REPLICA, USED, first])] = random.pick(&[256, u64::MAX]);
            items.push_with(3, damaged.item(CAPACITIES));
            let mut other = lent;
            other.to_table = vec![0; way.to.table(1)];
            items.push_with(1, other.item(CAPACITIES));
        }
    }
}

/// A record with label and flag alone.
fn bare(at: u64) -> Record {
    let registers = vec![Register::default()];
    Record { relation: 1, label: label_of(at + 1, 1), flag: at % 3, registers }
}

/// Capacity 4,096: few records, and as many; one record more or less.
fn capacity_largest(items: &mut Items, random: &mut Random) {
    for way in WAYS {
        for _ in 0..3 {
            let mut contents = Contents::some(random);
            contents.table.capacity = CAPACITY;
            let mut lent = contents.lent(way);
            lent.to_table[way.to.record(CAPACITY - 1)..].fill(1 + random.below(127));
            push_done(items, CAPACITIES, &contents, &lent);
            let last = lent.table.len() - 1;
            lent.table[last] = 1;
            items.push_with(3, lent.item(CAPACITIES));
            lent.to_table.truncate(way.to.table(CAPACITY - 1));
            items.push_with(1, lent.item(CAPACITIES));
        }
        let mut contents = Contents::some(random);
        contents.table.capacity = CAPACITY + 1;
        items.push_with(1, contents.lent(way).item(CAPACITIES));
        let most = CAPACITY as u64;
        let records = (0..most).rev().map(bare).collect();
        let table = Table { capacity: CAPACITY, replica: 1, clock: most, records };
        let contents = Contents { blocks: vec![(vec![PLAIN], [0, 0])], table };
        push_done(items, CAPACITIES, &contents, &contents.lent(way));
    }
}

/// Seven old records are as long as five new ones: N tells them apart, and words that are lent to the
/// wrong call are judged as they stand.
fn seven(items: &mut Items, random: &mut Random) {
    for round in 0..ENOUGH / 2 {
        let mut contents = Contents::some(random);
        let times = 1 + round as usize % 2;
        for (way, capacity) in [(WIDENING, SEVEN * times), (NARROWING, FIVE * times)] {
            contents.table.capacity = capacity;
            let mut lent = contents.lent(way).stale_or_not(random);
            push_done(items, SEVEN_OLD, &contents, &lent);
            lent.to_table.resize(lent.table.len(), 0);
            items.push_with(1, lent.item(SEVEN_OLD));
            // The table of this form, lent as one of the other form.
            let other = if way.call == NARROWING.call { WIDENING } else { NARROWING };
            let mut mistaken = contents.lent(other);
            mistaken.table = contents.table.words_in(way.from);
            let length = other.to.table(mistaken.capacity());
            mistaken.to_table = vec![0; length];
            items.push_item(mistaken.item(SEVEN_OLD));
            let mut empty = contents.clone();
            empty.table.records.clear();
            mistaken.table = empty.table.words_in(way.from);
            items.push_with(0, mistaken.item(SEVEN_OLD));
        }
    }
}

pub fn turns(items: &mut Items, random: &mut Random) {
    tables(items, random);
    deltas(items, random);
    stale(items, random);
    limits(items, random);
    too_many(items, random);
    lengths(items, random);
    order(items, random);
    capacity_zero(items, random);
    capacity_largest(items, random);
    seven(items, random);
}
