//! Known or not: lookups in well-formed tables, wrong lengths and broken schemas.

use super::chains::{item, At, Chain, DAMAGES};
use super::compares::{broken, resize, some_fleet};
use super::items::Items;
use super::lookup_damage::{break_header, no_relation};
use super::sources::any_table;
use crate::label::{counter, label_of, Register, LABELS, LARGEST_COUNTER, LARGEST_FLAG};
use crate::layout::{
    self, CAPACITY, CLOCK, FLAG, HEADER, LABEL, RECORD, RELATION, RELATIONS, REPLICA, USED, VALUES,
};
use crate::random::{self, Random};
use crate::shown::shown;
use crate::table::{self, Record, Table};
use crate::vectors::item::{Item, LOOKUP};

const STORED: u8 = 88;
const BESIDE: u8 = 89;
const NOT_SHOWN: u8 = 90;
const NO_LABEL: u8 = 91;
const OTHERS: u8 = 92;
const ORDER: u8 = 101;
const CAPACITIES: u8 = 102;

/// How many tables each case has.
const ENOUGH: u64 = 10;
const FEW: u64 = 8;

/// Pushes a lookup, from which this answer and this index must come back.
pub fn push(items: &mut Items, item: Item, answer: u64, index: u64) {
    let back = items.tried(&item);
    assert_eq!((back.answer, back.results), (answer, vec![index]), "{:?}", item);
    items.push_item(item);
}

/// Pushes a lookup of each record of a table.
fn every_record(items: &mut Items, schema: &[u64], words: &[u64]) {
    let Some(table) = table::read(&random::decoded(schema), words) else {
        return;
    };
    for (at, record) in table.records.iter().enumerate() {
        let lookup = item(STORED, schema, words, record.relation, record.label);
        push(items, lookup, 0, at as u64 + 1);
    }
}

/// Every stored label, of tables of fleets and of others.
fn stored(items: &mut Items, random: &mut Random) {
    let before = items.count(LOOKUP);
    while items.count(LOOKUP) < before + 4 * ENOUGH {
        let fleet = some_fleet(random);
        let some = fleet.slots.iter().find(|slot| (3..=8).contains(&slot[USED]));
        if let Some(words) = some {
            every_record(items, &fleet.schema, words);
        }
    }
    while items.count(LOOKUP) < before + 6 * ENOUGH {
        let schema = random::schema(random);
        let (words, _) = any_table(random, &schema);
        if words[USED] <= 5 {
            every_record(items, &schema, &words);
        }
    }
}

/// Labels below the first, between two and above all, and any label of an empty chain.
fn beside(items: &mut Items, random: &mut Random) {
    for _ in 0..FEW {
        let chain = Chain::with(random, |chain| chain.indices.len() > 1);
        let last = chain.indices.len() - 1;
        let between = random.below(last as u64) as usize;
        let above = label_of(chain.words[CLOCK] + 1, 1);
        for label in [
            random.pick(&[chain.label(0) - 1, label_of(1, 1)]),
            chain.label(between) + random.pick(&[1, 256]),
            chain.label(last) + 1,
            random.pick(&[above, LABELS - 1]),
        ] {
            push(items, chain.item(BESIDE, chain.relation, label), 0, 0);
        }
        let chain = Chain::new(random, 0);
        let label = random.pick(&[0, label_of(1, 1), above, LABELS - 1, u64::MAX]);
        push(items, chain.item(BESIDE, chain.relation, label), 0, 0);
    }
}

/// Deleted records, incomplete ones, and ones with flag 0 and no stamps.
fn not_shown(items: &mut Items, random: &mut Random) {
    for round in 0..3 * ENOUGH {
        let mut chain = Chain::some(random);
        let place = random.below(chain.indices.len() as u64) as usize;
        let begin = chain.begin(place);
        if round % 4 < 2 {
            chain.words[begin + FLAG] = random.pick(&[1, 3, LARGEST_FLAG]);
        } else if round % 4 == 2 {
            chain.words[begin + VALUES] = 0;
            chain.words[begin + layout::STAMPS] = 0;
        } else {
            chain.words[begin + FLAG..begin + RECORD].fill(0);
        }
        let lookup = chain.item(NOT_SHOWN, chain.relation, chain.label(place));
        push(items, lookup, 0, chain.indices[place]);
    }
}

/// Complete even records that are not shown.
fn hidden(items: &mut Items, random: &mut Random) {
    let mut made = 0;
    while made < ENOUGH {
        let schema = random::schema(random);
        let decoded = random::decoded(&schema);
        let (words, _) = any_table(random, &schema);
        let Some(table) = table::read(&decoded, &words) else {
            continue;
        };
        let is_hidden = |(of, shown): (&Record, bool)| !shown && of.is_complete() && of.is_even();
        let found = table.records.iter().zip(shown(&decoded, &table)).position(is_hidden);
        if let Some(at) = found {
            let (relation, label) = table.records[at].name();
            push(items, item(NOT_SHOWN, &schema, &words, relation, label), 0, at as u64 + 1);
            made += 1;
        }
    }
}

/// Relation and label of a record of another relation.
fn other_name(chain: &Chain) -> Option<(u64, u64)> {
    let begin = layout::record(chain.other()? as usize - 1);
    Some((chain.words[begin + RELATION], chain.words[begin + LABEL]))
}

/// 0, numbers with counter 0, with replica 0, and of 2^48 and more. Some of these are a stored label
/// plus a multiple of 2^48: any, its relation's, or the difference of two relations'. A damaged
/// record is met with them too: the first one, or any where the number is above all.
fn no_label(items: &mut Items, random: &mut Random) {
    for _ in 0..2 * ENOUGH {
        let chain = Chain::with(random, |chain| chain.other().is_some());
        let Some((of, other)) = other_name(&chain) else {
            continue;
        };
        let label = chain.label(random.below(chain.indices.len() as u64) as usize);
        let apart = LABELS.wrapping_mul(of.wrapping_sub(chain.relation));
        for number in [
            random.pick(&[0, 0, 1, 255, counter(label) * 256, u64::MAX]),
            label + LABELS * random.pick(&[1, 255, 65_535, chain.relation, chain.relation]),
            other.wrapping_add(apart),
        ] {
            push(items, chain.item(NO_LABEL, chain.relation, number), 0, 0);
        }
    }
    let mut made = 0;
    while made < 2 * ENOUGH {
        let mut chain = Chain::some(random);
        let place = random.below(chain.indices.len() as u64) as usize;
        let (far, damage) = (LABELS + chain.label(0), random.pick(&DAMAGES));
        if chain.damage(random, place, damage).is_some() {
            let numbers = if place == 0 { [0, 0, 1, 255] } else { [LABELS, far, far, u64::MAX] };
            let number = random.pick(&numbers);
            push(items, chain.item(NO_LABEL, chain.relation, number), 3, 0);
            made += 1;
        }
    }
}

/// A label that only another relation has, and one that both have.
fn of_others(items: &mut Items, random: &mut Random) {
    for round in 0..2 * ENOUGH {
        let mut chain = Chain::with(random, |chain| chain.other().is_some());
        let (Some((of, label)), Some(index)) = (other_name(&chain), chain.other()) else {
            continue;
        };
        push(items, chain.item(OTHERS, chain.relation, label), 0, 0);
        if round % 3 == 0 && chain.of(of).indices.len() == 1 {
            let label = chain.label(0);
            chain.words[layout::record(index as usize - 1) + LABEL] = label;
            push(items, chain.item(OTHERS, chain.relation, label), 0, chain.indices[0]);
            push(items, chain.item(OTHERS, of, label), 0, index);
        }
    }
}

/// A wrong length, alone and with a broken schema; a broken schema, alone and with a damaged header;
/// each also with a relation that is not 1 to R.
fn order(items: &mut Items, random: &mut Random) {
    for round in 0..2 * ENOUGH {
        let mut chain = Chain::some(random);
        let label = chain.label(0);
        let wrong = no_relation(random, &chain);
        let relation = random.pick(&[chain.relation, wrong]);
        if round % 4 == 0 {
            let mut alone = chain.item(ORDER, relation, label);
            resize(random, &mut alone.slices[1]);
            push(items, alone, 1, 0);
        }
        let mut lookup = chain.item(ORDER, relation, label);
        resize(random, &mut lookup.slices[0]);
        push(items, lookup, 1, 0);
        chain.schema = broken(random, &chain.schema);
        if round % 2 == 1 {
            push(items, chain.item(ORDER, relation, label), 2, 0);
        }
        let mut lookup = chain.item(ORDER, relation, label);
        resize(random, &mut lookup.slices[1]);
        push(items, lookup, 1, 0);
        break_header(random, &mut chain.words, round);
        push(items, chain.item(ORDER, relation, label), 2, 0);
    }
}

/// Capacity 0, well-formed and damaged.
fn capacity_zero(items: &mut Items, random: &mut Random) {
    for round in 0..FEW {
        let schema = random::schema(random);
        let mut words = vec![0; HEADER];
        (words[REPLICA], words[CLOCK]) = (1 + random.below(255), random.below(LARGEST_COUNTER));
        let label = random.pick(&[0, label_of(1, 1), LABELS - 1, u64::MAX]);
        push(items, item(CAPACITIES, &schema, &words, 1, label), 0, 0);
        if round % 2 == 0 {
            let above = schema[layout::RELATION_COUNT] + 1;
            push(items, item(CAPACITIES, &schema, &words, above, label), 5, 0);
        }
        let first = layout::first(1 + random.below(RELATIONS as u64) as usize);
        let at = random.pick(&[USED, layout::first(1), first]);
        words[at] = random.pick(&[1, u64::MAX]);
        push(items, item(CAPACITIES, &schema, &words, 1, label), 3, 0);
    }
}

/// Capacity 4,096: few records, and a chain of as many; and one more.
fn capacity_largest(items: &mut Items, random: &mut Random) {
    for at in [At::Label, At::Larger, At::End] {
        let mut chain = Chain::some(random);
        chain.words.resize(layout::table(CAPACITY), 0);
        let place = chain.indices.len() - 1;
        let label = chain.asked(random, place, at);
        let index = if at == At::Label { chain.indices[place] } else { 0 };
        push(items, chain.item(CAPACITIES, chain.relation, label), 0, index);
        if at == At::End {
            chain.words.resize(layout::table(CAPACITY + 1), 0);
            push(items, chain.item(CAPACITIES, chain.relation, label), 1, 0);
        }
    }
    let bare = |at: u64| Record {
        relation: 1,
        label: label_of(at + 1, 1),
        flag: 0,
        registers: vec![Register::default()],
    };
    let most = CAPACITY as u64;
    let records = (0..most).rev().map(bare).collect();
    let words = Table { capacity: CAPACITY, replica: 1, clock: most, records }.words();
    let lookup = item(CAPACITIES, &crate::cases::herd(), &words, 1, label_of(most, 1));
    push(items, lookup, 0, 1);
}

pub fn lookups(items: &mut Items, random: &mut Random) {
    stored(items, random);
    beside(items, random);
    not_shown(items, random);
    hidden(items, random);
    no_label(items, random);
    of_others(items, random);
    order(items, random);
    capacity_zero(items, random);
    capacity_largest(items, random);
}
