//! Which copy is ahead: each word of the sentence, in both directions.

use super::copies::{Copies, News, NEWS};
use super::damage::{break_chain, break_schema, break_table};
use super::fleets;
use super::items::Items;
use super::sources::accepted_edit;
use crate::compare::{told, Verdict};
use crate::label::{label_of, Register, LARGEST_COUNTER};
use crate::layout::{self, CAPACITY, CLOCK, HEADER, RECORD, REPLICA, USED};
use crate::random::{self, Random};
use crate::table::{self, Record, Table};
use crate::vectors::fleet::Fleet;
use crate::vectors::item::{Item, COMPARE};
use crate::vectors::run::run;
use crate::{compare, merge};

const ALIKE: u8 = 63;
const ALONE: u8 = 64;
const SEVERAL: u8 = 65;
const NEITHER: u8 = 66;
const RECORDS: u8 = 67;
const ROOM: u8 = 68;
const EDITS: u8 = 69;
const FLEETS: u8 = 70;
const WORD: u8 = 71;
const REFUSED: u8 = 72;
const ORDER: u8 = 73;
const CAPACITIES: u8 = 74;

/// How many tables each case has.
const ENOUGH: u64 = 12;
const FEW: u64 = 4;

fn item(category: u8, schema: &[u64], first: &[u64], second: &[u64]) -> Item {
    let slices = vec![schema.to_vec(), first.to_vec(), second.to_vec()];
    Item { category, call: COMPARE, slices, words: vec![] }
}

/// Pushes a comparison, from which this answer and this verdict must come back.
fn push(items: &mut Items, item: Item, answer: u64, verdict: u64) {
    let back = items.tried(&item);
    assert_eq!((back.answer, back.results), (answer, vec![verdict]), "{:?}", item);
    items.push_item(item);
}

/// Pushes the comparison of two tables and that of the second with the first.
fn both(items: &mut Items, category: u8, schema: &[u64], tables: &[Vec<u64>; 2], verdict: Verdict) {
    let back = match verdict {
        Verdict::FirstBehind => Verdict::SecondBehind,
        Verdict::SecondBehind => Verdict::FirstBehind,
        same => same,
    };
    let [first, second] = tables;
    push(items, item(category, schema, first, second), 0, verdict as u64);
    push(items, item(category, schema, second, first), 0, back as u64);
}

/// Pushes the comparison of two copies, in both directions.
fn copies(items: &mut Items, category: u8, made: &mut Copies, verdict: Verdict) {
    let words = made.any_words();
    both(items, category, &made.schema, &words, verdict);
}

/// A copy of itself; and copies at other positions, with other replica numbers and capacities.
fn alike(items: &mut Items, random: &mut Random) {
    for _ in 0..ENOUGH {
        let mut made = Copies::some(random);
        let [words, _] = made.any_words();
        push(items, item(ALIKE, &made.schema, &words, &words), 0, Verdict::Alike as u64);
        copies(items, ALIKE, &mut made, Verdict::Alike);
    }
}

/// One thing alone, and several, that one copy has and the other has not.
fn behind(items: &mut Items, random: &mut Random) {
    for round in 0..ENOUGH {
        for news in NEWS {
            let mut made = Copies::some(random);
            let (at, field) = made.places()[0];
            made.tell(1, news(at, field));
            copies(items, ALONE, &mut made, Verdict::FirstBehind);
        }
        let mut made = Copies::some(random);
        let places = made.places();
        for (at, field) in &places[..places.len().min(2 + round as usize % 3)] {
            let news = made.random.pick(&NEWS[1..4])(*at, *field);
            made.tell(1, news);
        }
        let more = [News::Clock, News::Flag(0), News::Record, News::Bare];
        for _ in 0..1 + made.random.below(2) {
            let news = made.random.pick(&more);
            made.tell(1, news);
        }
        copies(items, SEVERAL, &mut made, Verdict::FirstBehind);
    }
}

/// Each has what the other has not: each pair of news, of one record or of two.
fn neither(items: &mut Items, random: &mut Random) {
    for (of_first, first) in NEWS.into_iter().enumerate() {
        for (of_second, second) in NEWS.into_iter().enumerate().skip(of_first) {
            if of_second == 0 {
                continue;
            }
            let mut made = Copies::some(random);
            let mut places = made.places();
            let (at, field) = places.remove(0);
            let flags = matches!((first(0, 0), second(0, 0)), (News::Flag(_), News::Flag(_)));
            if flags || matches!(second(0, 0), News::Kept(_)) {
                places.retain(|place| place.0 != at);
            }
            let (other, of_other) = places[0];
            made.tell(0, first(at, field));
            made.tell(1, second(other, of_other));
            copies(items, NEITHER, &mut made, Verdict::Neither);
        }
    }
}

/// The difference is in an incomplete record, in one that is not shown, or is a bare record.
fn records(items: &mut Items, random: &mut Random) {
    let mut hidden = 0;
    while hidden < ENOUGH {
        let mut made = Copies::some(random);
        if let Some(at) = made.hidden() {
            made.tell(1, News::Stamp(at, 0));
            copies(items, RECORDS, &mut made, Verdict::FirstBehind);
            hidden += 1;
        }
    }
    for round in 0..ENOUGH {
        let mut made = Copies::some(random);
        let (at, field) = made.places()[0];
        for records in &mut made.records {
            records[at].registers[field] = Register::default();
        }
        let other = made.random.below(made.records[0][at].registers.len() as u64) as usize;
        let news = if other == field { News::Flag(at) } else { News::Stamp(at, other) };
        made.tell(1, news);
        copies(items, RECORDS, &mut made, Verdict::FirstBehind);
        let mut made = Copies::new(random, round as usize % 4);
        made.tell(1, News::Bare);
        copies(items, RECORDS, &mut made, Verdict::FirstBehind);
    }
}

/// Full tables: the merge has no room in the first, or in neither.
fn room(items: &mut Items, random: &mut Random) {
    for round in 0..ENOUGH {
        let mut made = Copies::new(random, round as usize % 4);
        made.tell(1, News::Record);
        let words = made.words([0, 0]);
        both(items, ROOM, &made.schema, &words, Verdict::FirstBehind);
        made.tell(0, News::Record);
        let words = made.words([0, 0]);
        both(items, ROOM, &made.schema, &words, Verdict::Neither);
    }
}

/// A table before an edit and after it; its delta and the table after it; and before it.
fn edits(items: &mut Items, random: &mut Random) {
    for _ in 0..ENOUGH {
        let (schema, before, after, delta) = accepted_edit(random);
        both(items, EDITS, &schema, &[before.clone(), after.clone()], Verdict::FirstBehind);
        items.push_item(item(EDITS, &schema, &delta, &after));
        items.push_item(item(EDITS, &schema, &before, &delta));
    }
}

/// A fleet after some calls.
pub fn some_fleet(random: &mut Random) -> Fleet {
    let mut fleet = Fleet::default();
    for item in fleets::begin(random) {
        run(&mut fleet, &item);
    }
    for _ in 0..20 + random.below(20) {
        let item = fleets::next(random, &fleet);
        run(&mut fleet, &item);
    }
    fleet
}

/// Two tables of fleets or their copies: as they are, one after it took in the other, or both.
fn of_fleets(items: &mut Items, random: &mut Random) {
    let mut counts = [0; 5];
    while counts[1..].iter().any(|count| *count < 2 * ENOUGH) {
        let fleet = some_fleet(random);
        let filled = fleet.slots.into_iter().filter(|slot| slot[USED] != 0);
        let mut filled: Vec<Vec<u64>> = filled.collect();
        if filled.len() < 2 {
            continue;
        }
        random.shuffle(&mut filled);
        let mut of = [filled[0].clone(), filled[1].clone()];
        let taken = of.clone();
        for side in 0..random.below(3) as usize {
            let _ = merge(&fleet.schema, &mut of[side], &taken[1 - side]);
        }
        let verdict = told(&compare(&fleet.schema, &of[0], &of[1])) as usize;
        if counts[verdict] < 2 * ENOUGH {
            counts[verdict] += 1;
            items.push_item(item(FLEETS, &fleet.schema, &of[0], &of[1]));
        }
    }
}

/// One word of one copy is changed: to a near one, or to one at a limit.
fn words(items: &mut Items, random: &mut Random) {
    for round in 0..4 * ENOUGH {
        let mut made = Copies::some(random);
        let mut words = made.any_words();
        let changed = &mut words[round as usize % 2];
        let at = made.random.below(changed.len() as u64) as usize;
        let at = if round % 3 == 0 { at } else { at % layout::record(2) };
        changed[at] = match made.random.below(4) {
            0 => changed[at].wrapping_add(1),
            1 => changed[at].wrapping_sub(1),
            2 => changed[at] ^ (1 << made.random.below(64)),
            _ => made.random.pick(&[0, 1, 257, 65_535, u64::MAX]),
        };
        items.push_item(item(WORD, &made.schema, &words[0], &words[1]));
    }
}

/// Two tables that differ, with records.
fn differing(random: &mut Random) -> (Vec<u64>, [Vec<u64>; 2]) {
    let mut made = Copies::some(random);
    for side in 0..made.random.below(3) as usize {
        made.tell(side, News::Record);
    }
    let words = made.any_words();
    (made.schema, words)
}

fn damage(random: &mut Random, schema: &[u64], words: &mut [u64]) {
    let before = words.to_vec();
    while table::read(&random::decoded(schema), words).is_some() {
        words.copy_from_slice(&before);
        if random.chance(1, 3) {
            break_chain(random, schema, words);
        } else {
            break_table(random, schema, words);
        }
    }
}

pub fn broken(random: &mut Random, schema: &[u64]) -> Vec<u64> {
    let mut words = schema.to_vec();
    while crate::schema::read(&words).is_some() {
        break_schema(random, &mut words);
    }
    words
}

pub fn resize(random: &mut Random, words: &mut Vec<u64>) {
    let length = words.len();
    let lengths = [0, HEADER - 1, length - 1, length + 1, length + RECORD - 1];
    words.resize(random.pick(&lengths), 0);
}

/// One table damaged, or both; the schema broken; one slice of a wrong length.
fn refused(items: &mut Items, random: &mut Random) {
    for _ in 0..2 * ENOUGH {
        for (damaged, answer) in [([true, false], 3), ([false, true], 4), ([true, true], 3)] {
            let (schema, mut of) = differing(random);
            for side in (0..2).filter(|side| damaged[*side]) {
                damage(random, &schema, &mut of[side]);
            }
            push(items, item(REFUSED, &schema, &of[0], &of[1]), answer, 0);
        }
        let (schema, of) = differing(random);
        push(items, item(REFUSED, &broken(random, &schema), &of[0], &of[1]), 2, 0);
        for slice in 0..3 {
            let (schema, of) = differing(random);
            let mut wrong = item(REFUSED, &schema, &of[0], &of[1]);
            resize(random, &mut wrong.slices[slice]);
            push(items, wrong, 1, 0);
        }
    }
}

/// A broken schema comes before damaged tables, and a wrong length before both.
fn order(items: &mut Items, random: &mut Random) {
    for round in 0..ENOUGH {
        let (schema, mut of) = differing(random);
        damage(random, &schema, &mut of[round as usize % 2]);
        let mut wrong = item(ORDER, &broken(random, &schema), &of[0], &of[1]);
        push(items, wrong.clone(), 2, 0);
        resize(random, &mut wrong.slices[round as usize % 3]);
        push(items, wrong, 1, 0);
    }
}

/// A table of capacity 0.
fn empty(clock: u64) -> Vec<u64> {
    let mut words = vec![0; HEADER];
    (words[REPLICA], words[CLOCK]) = (7, clock);
    words
}

/// 4,096 groups with flag 0 and no stamps, and counters from this one on.
fn full(from: u64, clock: u64) -> Table {
    let bare = |at: u64| Record {
        relation: 1,
        label: label_of(from + at, 1),
        flag: 0,
        registers: vec![Register::default()],
    };
    let records = (0..CAPACITY as u64).map(bare).collect();
    Table { capacity: CAPACITY, replica: 1, clock, records }
}

fn capacities(items: &mut Items, random: &mut Random) {
    for clock in [0, 5, LARGEST_COUNTER - 1] {
        let schema = random::schema(random);
        let tables = [empty(clock), empty(clock)];
        both(items, CAPACITIES, &schema, &tables, Verdict::Alike);
        let tables = [empty(clock), empty(clock + 1)];
        both(items, CAPACITIES, &schema, &tables, Verdict::FirstBehind);
    }
    for _ in 0..FEW {
        let mut made = Copies::some(random);
        let [words, _] = made.any_words();
        let tables = [empty(words[CLOCK]), words.clone()];
        both(items, CAPACITIES, &made.schema, &tables, Verdict::FirstBehind);
        let tables = [empty(words[CLOCK] + 1), words];
        both(items, CAPACITIES, &made.schema, &tables, Verdict::Neither);
    }
    let mut made = Copies::some(random);
    let most = CAPACITY - made.records[0].len();
    let words = made.words([0, most]);
    both(items, CAPACITIES, &made.schema, &words, Verdict::Alike);
    full_tables(items);
}

/// Tables of 4,096 records, of which each has one that the other has not; and one of capacity 4,097.
fn full_tables(items: &mut Items) {
    let (schema, clock) = (crate::cases::herd(), CAPACITY as u64 + 1);
    let (first, mut second) = (full(1, clock), full(2, clock));
    second.records.reverse();
    let neither = item(CAPACITIES, &schema, &first.words(), &second.words());
    push(items, neither, 0, Verdict::Neither as u64);
    let mut beyond = empty(0);
    beyond.resize(layout::table(CAPACITY + 1), 0);
    for (first, second) in [(&beyond, &empty(0)), (&empty(0), &beyond)] {
        push(items, item(CAPACITIES, &schema, first, second), 1, 0);
    }
}

pub fn compares(items: &mut Items, random: &mut Random) {
    alike(items, random);
    behind(items, random);
    neither(items, random);
    records(items, random);
    room(items, random);
    edits(items, random);
    of_fleets(items, random);
    words(items, random);
    refused(items, random);
    order(items, random);
    capacities(items, random);
}
