//! Known or not: lookups in damaged tables. What is read is refused, and what is not is not seen.

use super::chains::{At, Chain, Damage, DAMAGES};
use super::items::Items;
use super::lookups::push;
use super::sources::capacity;
use crate::label::LARGEST_COUNTER;
use crate::layout::{self, CLOCK, HEADER, NEXT, RELATIONS, REPLICA, USED, ZERO, ZEROS};
use crate::random::Random;

const LAST: u8 = 93;
const WAY: u8 = 94;
const RING: u8 = 95;
const BEHIND: u8 = 96;
const ELSEWHERE: u8 = 97;
const LOST: u8 = 98;
const HEADERS: u8 = 99;
const RELATION: u8 = 100;

/// How many tables each case has.
const ENOUGH: u64 = 20;

/// How many tables a record damaged so has, where the walk does this at it. A record that doesn't
/// raise the label is below the one asked for; at the end next is 0; above the clock no label rises.
fn times(damage: Damage, at: At) -> u64 {
    match (damage, at) {
        (Damage::EqualLabel | Damage::FallingLabel, At::Label | At::Larger) => 0,
        (Damage::FallingLabel, At::End) => 20,
        (Damage::FallingLabel, _) => 14,
        (Damage::EqualLabel, _) => 6,
        (Damage::Next, At::End) => 0,
        (Damage::Next, At::Way) => 20,
        (Damage::Next, _) => 10,
        (Damage::LabelCounter, At::Way) => 0,
        (Damage::Relation | Damage::Link, At::Way) => 10,
        (Damage::StampCounter | Damage::ReferenceCounter, At::Way) => 10,
        (Damage::Relation | Damage::Link | Damage::LabelCounter, _) => 4,
        (Damage::Stamp | Damage::Reference, _) => 4,
        _ => 3,
    }
}

/// A chain with a record damaged so where the walk can do this; and the place of the record.
fn damaged(random: &mut Random, damage: Damage, at: At) -> (Chain, usize) {
    loop {
        let mut chain = Chain::some(random);
        if let Some(place) = chain.place(random, at) {
            if chain.damage(random, place, damage).is_some() {
                return (chain, place);
            }
        }
    }
}

/// A record that is read is damaged: the last one, or one before it.
fn read(items: &mut Items, random: &mut Random) {
    for damage in DAMAGES {
        for at in [At::Label, At::Larger, At::End, At::Way] {
            for _ in 0..times(damage, at) {
                let (chain, place) = damaged(random, damage, at);
                let label = chain.asked(random, place, at);
                let category = if at == At::Way { WAY } else { LAST };
                push(items, chain.item(category, chain.relation, label), 3, 0);
            }
        }
    }
}

/// The last record leads back to one of the chain, which is read to its end.
fn rings(items: &mut Items, random: &mut Random) {
    for _ in 0..ENOUGH {
        let mut chain = Chain::some(random);
        let last = chain.indices.len() - 1;
        let label = chain.asked(random, last, At::End);
        let end = chain.begin(last) + NEXT;
        chain.words[end] = random.pick(&chain.indices);
        push(items, chain.item(RING, chain.relation, label), 3, 0);
    }
}

/// Where the walk stops at a record: what comes back.
fn index(chain: &Chain, place: usize, at: At) -> u64 {
    if at == At::Label {
        chain.indices[place]
    } else {
        0
    }
}

/// The record behind the last one read is damaged, or the last one leads to the wrong record.
fn behind(items: &mut Items, random: &mut Random) {
    for at in [At::Label, At::Larger] {
        for damage in DAMAGES {
            let (chain, place) = loop {
                let mut chain = Chain::with(random, |chain| chain.indices.len() > 1);
                let place = random.below(chain.indices.len() as u64 - 1) as usize;
                if chain.damage(random, place + 1, damage).is_some() {
                    break (chain, place);
                }
            };
            let label = chain.asked(random, place, at);
            push(items, chain.item(BEHIND, chain.relation, label), 0, index(&chain, place, at));
        }
        for round in 0..12 {
            let mut chain = Chain::some(random);
            let place = random.below(chain.indices.len() as u64) as usize;
            let next = chain.begin(place) + NEXT;
            chain.words[next] = match round % 3 {
                0 => 0,
                1 => chain.indices[place],
                _ => chain.other().unwrap_or(chain.indices[0]),
            };
            let label = chain.asked(random, place, at);
            push(items, chain.item(BEHIND, chain.relation, label), 0, index(&chain, place, at));
        }
    }
}

/// Pushes a lookup in a table whose chain of the relation asked for is good.
fn push_good(items: &mut Items, random: &mut Random, category: u8, chain: &Chain) {
    let at = random.pick(&[At::Label, At::Label, At::Larger, At::End]);
    if let Some(place) = chain.place(random, at) {
        let label = chain.asked(random, place, at);
        push(items, chain.item(category, chain.relation, label), 0, index(chain, place, at));
    }
}

/// Another relation's chain is damaged, or leads to a record of the one asked for.
fn other_chains(items: &mut Items, random: &mut Random) {
    for damage in DAMAGES.into_iter().filter(|damage| *damage != Damage::Link) {
        for _ in 0..2 {
            let chain = loop {
                let chain = Chain::with(random, |chain| chain.other().is_some());
                let of = 1 + random.below(chain.relations());
                let mut other = chain.of(of);
                let count = other.indices.len() as u64;
                if of == chain.relation || count == 0 {
                    continue;
                }
                let place = random.below(count) as usize;
                if other.damage(random, place, damage).is_some() {
                    break Chain { words: other.words, ..chain };
                }
            };
            push_good(items, random, ELSEWHERE, &chain);
        }
    }
    for _ in 0..4 {
        let mut chain = Chain::with(random, |chain| chain.relations() > 1);
        let of = if chain.relation == 1 { 2 } else { 1 };
        chain.words[layout::first(of)] = random.pick(&chain.indices);
        push_good(items, random, ELSEWHERE, &chain);
    }
}

/// Words above the used records are not 0.
fn above_used(items: &mut Items, random: &mut Random) {
    for _ in 0..ENOUGH {
        let mut chain = Chain::with(random, Chain::has_room);
        let end = layout::record(chain.used() as usize);
        let at = end + random.below((chain.words.len() - end) as u64) as usize;
        chain.words[at] = random.pick(&[1, 257, u64::MAX]);
        push_good(items, random, ELSEWHERE, &chain);
    }
}

/// A record that lies on no chain is not known, and is not seen: the chain is empty, ends before it,
/// or leaves it out; or used counts one record more.
fn lost(items: &mut Items, random: &mut Random) {
    for round in 0..ENOUGH * 3 / 2 {
        let mut chain = Chain::with(random, Chain::has_room);
        let place = random.below(chain.indices.len() as u64) as usize;
        let (link, next) = (chain.link(place), chain.words[chain.begin(place) + NEXT]);
        let label = chain.label(place);
        if round % 4 == 3 {
            chain.words[USED] += 1;
            push_good(items, random, LOST, &chain);
            continue;
        }
        chain.words[link] = if round % 2 == 0 { 0 } else { next };
        push(items, chain.item(LOST, chain.relation, label), 0, 0);
    }
}

/// How many rules the header words have.
const HEADER_RULES: u64 = 6;

/// Breaks the rule of a header word, in each round another.
pub fn break_header(random: &mut Random, words: &mut [u64], round: u64) {
    let above = capacity(words) as u64 + 1;
    let zero = ZEROS + (round / HEADER_RULES) as usize % (HEADER - ZEROS);
    let (at, word) = match round % HEADER_RULES {
        0 => (REPLICA, 0),
        1 => (REPLICA, random.pick(&[256, u64::MAX])),
        2 => (CLOCK, random.pick(&[LARGEST_COUNTER + 1, u64::MAX])),
        3 => (USED, random.pick(&[above, u64::MAX])),
        4 => (ZERO, random.pick(&[1, u64::MAX])),
        _ => (zero, random.pick(&[1, u64::MAX])),
    };
    words[at] = word;
}

/// A relation that is not 1 to R.
pub fn no_relation(random: &mut Random, chain: &Chain) -> u64 {
    random.pick(&[0, chain.relations() + 1, RELATIONS as u64 + 1, u64::MAX])
}

/// A table with a first index above used: that of the relation asked for, or of another one.
fn first_above(random: &mut Random, asked: bool) -> Chain {
    let mut chain = Chain::with(random, |chain| chain.relations() > 1);
    let mut of = chain.relation;
    while !asked && of == chain.relation {
        of = 1 + random.below(chain.relations());
    }
    chain.words[layout::first(of as usize)] = chain.index_above(random);
    chain
}

/// A table with a chain above R that has a record, and the number of the chain.
fn chain_above(random: &mut Random) -> (Chain, u64) {
    let most = RELATIONS as u64;
    let mut chain = Chain::with(random, |chain| chain.relations() < most);
    let (first, any) = (chain.relations() + 1, random.below(most - chain.relations()));
    let of = random.pick(&[first, first + any, most]);
    chain.words[layout::first(of as usize)] = 1 + random.below(chain.used());
    (chain, of)
}

/// A header word breaks its rule.
fn headers(items: &mut Items, random: &mut Random) {
    for round in 0..7 * HEADER_RULES {
        let mut chain = Chain::some(random);
        break_header(random, &mut chain.words, round);
        let place = random.below(chain.indices.len() as u64) as usize;
        push(items, chain.item(HEADERS, chain.relation, chain.label(place)), 3, 0);
    }
}

/// A first index passes used, or a chain above R isn't empty.
fn firsts(items: &mut Items, random: &mut Random) {
    let most = RELATIONS as u64;
    for round in 0..ENOUGH {
        let (mut above, of) = chain_above(random);
        if round % 5 == 0 {
            above.words[layout::first(of as usize)] = above.index_above(random);
        }
        for chain in [first_above(random, true), first_above(random, false), above] {
            let place = random.below(chain.indices.len() as u64) as usize;
            let at = random.pick(&[At::Label, At::Larger, At::Way]);
            let label = chain.asked(random, place, at);
            push(items, chain.item(HEADERS, chain.relation, label), 3, 0);
        }
    }
    for of in 1..=most {
        let mut chain =
            Chain::with(random, |chain| chain.relations() == most && chain.relation != of);
        chain.words[layout::first(of as usize)] = chain.index_above(random);
        push(items, chain.item(HEADERS, chain.relation, chain.label(0)), 3, 0);
    }
}

/// A relation that is not 1 to R: with a good table, with damaged records, with a damaged header.
fn relations(items: &mut Items, random: &mut Random) {
    for round in 0..ENOUGH {
        let damage = DAMAGES[round as usize % DAMAGES.len()];
        let (chain, place) = damaged(random, damage, At::Label);
        let (wrong, label) = (no_relation(random, &chain), chain.label(place));
        push(items, chain.item(RELATION, wrong, label), 5, 0);
        let mut chain = Chain::some(random);
        let (wrong, label) = (no_relation(random, &chain), chain.label(0));
        if round % 2 == 0 {
            push(items, chain.item(RELATION, wrong, label), 5, 0);
        }
        break_header(random, &mut chain.words, round);
        push(items, chain.item(RELATION, wrong, label), 3, 0);
    }
    for _ in 0..5 {
        let chain = first_above(random, false);
        let wrong = no_relation(random, &chain);
        push(items, chain.item(RELATION, wrong, chain.label(0)), 3, 0);
        let (chain, above) = chain_above(random);
        push(items, chain.item(RELATION, above, chain.label(0)), 3, 0);
    }
}

pub fn lookup_damage(items: &mut Items, random: &mut Random) {
    read(items, random);
    rings(items, random);
    behind(items, random);
    other_chains(items, random);
    above_used(items, random);
    lost(items, random);
    headers(items, random);
    firsts(items, random);
    relations(items, random);
}
