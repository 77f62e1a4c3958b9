//! The seeded generator of the vectors, a module for each group of calls.

mod book;
mod book_find;
mod book_tables;
mod capacities;
mod chains;
mod changes;
mod compares;
mod copies;
mod damage;
mod edges;
mod edits;
mod fleets;
mod items;
mod lines;
mod lists;
mod lookup_damage;
mod lookups;
mod loser_edits;
mod loser_fleets;
mod losers;
mod merges;
mod new_field_edits;
mod new_field_fleets;
mod new_field_lists;
mod new_fields;
mod old_words;
mod redoing;
mod scalars;
mod schemas;
mod sources;
mod tables;
mod treatments;
mod turn_damage;
mod turn_merges;
mod turned;
mod turns;

pub use fleets::{begin as some_fleet, next as next_of_fleet};
pub use sources::{called_table, random_edit};

use super::item::{Item, MARKS, MERGE, TABLE_CHECK};
use crate::random::{self, Random};
use items::Items;
use sources::{any_table, capacity, marks_words};

/// Further items of a call until there are `least`.
fn more(items: &mut Items, random: &mut Random, call: u8, least: u64) {
    while items.count(call) < least {
        let schema = random::schema(random);
        let (words, category) = any_table(random, &schema);
        match call {
            TABLE_CHECK => items.push(category, call, vec![schema, words], vec![]),
            MERGE => {
                let other = any_table(random, &schema).0;
                items.push(15, call, vec![schema, words, other], vec![])
            }
            _ => {
                let marks = marks_words(random, capacity(&words));
                items.push(22, call, vec![schema, words, marks], vec![])
            }
        };
    }
}

/// Added to the seed for the items of F-8, which have their own random numbers.
const TURNS: u64 = 8 << 32;

/// The items of a seed. Those of F-8 follow all others, so that the others stay as they are.
pub fn vectors(seed: u64) -> Vec<Item> {
    let mut random = Random::new(seed);
    let mut items = Items::default();
    scalars::scalars(&mut items, &mut random);
    schemas::schema_pairs(&mut items, &mut random);
    schemas::schemas(&mut items, &mut random);
    tables::table_pairs(&mut items, &mut random);
    tables::tables(&mut items, &mut random);
    capacities::capacity_zero(&mut items, &mut random);
    capacities::capacity_largest(&mut items, &mut random);
    capacities::starts_and_values(&mut items, &mut random);
    merges::merges(&mut items, &mut random);
    lists::marks_items(&mut items, &mut random);
    lists::walks(&mut items, &mut random);
    edits::held_groups(&mut items, &mut random);
    edits::edits(&mut items, &mut random);
    for call in [TABLE_CHECK, MERGE, MARKS] {
        more(&mut items, &mut random, call, 2_100);
    }
    fleets::fleets(&mut items, &mut random);
    edges::edges(&mut items, &mut random);
    redoing::redoing(&mut items, &mut random);
    changes::changes(&mut items, &mut random);
    book::book(&mut items, &mut random);
    book_find::finds(&mut items, &mut random);
    compares::compares(&mut items, &mut random);
    losers::losers(&mut items, &mut random);
    loser_edits::loser_edits(&mut items, &mut random);
    loser_fleets::loser_fleets(&mut items, &mut random);
    lookups::lookups(&mut items, &mut random);
    lookup_damage::lookup_damage(&mut items, &mut random);
    new_fields::new_fields(&mut items, &mut random);
    new_field_lists::new_field_lists(&mut items, &mut random);
    new_field_edits::new_field_edits(&mut items, &mut random);
    new_field_fleets::new_field_fleets(&mut items, &mut random);
    old_words::old_words(&mut items, &mut random);
    let mut random = Random::new(seed.wrapping_add(TURNS));
    turns::turns(&mut items, &mut random);
    turn_damage::turn_damage(&mut items, &mut random);
    turn_merges::turn_merges(&mut items, &mut random);
    items.into_items()
}
