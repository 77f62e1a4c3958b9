//! The items so far.

use super::sources::edit_item;
use crate::vectors::edit::Edit;
use crate::vectors::fleet::Fleet;
use crate::vectors::item::{Item, Outcome};
use crate::vectors::run::run;
use std::collections::BTreeMap;
use std::ops::RangeInclusive;

/// The items so far, with the number of each answer of each call.
#[derive(Default)]
pub struct Items {
    items: Vec<Item>,
    counts: BTreeMap<(u8, u64), u64>,
    fleet: Fleet,
}

impl Items {
    pub fn push(&mut self, category: u8, call: u8, slices: Vec<Vec<u64>>, words: Vec<u64>) -> u64 {
        self.push_item(Item { category, call, slices, words })
    }

    pub fn push_item(&mut self, item: Item) -> u64 {
        let answer = run(&mut self.fleet, &item).answer;
        *self.counts.entry((item.call, answer)).or_insert(0) += 1;
        self.items.push(item);
        answer
    }

    /// Pushes an item, from which this answer must come back; gives all that comes back.
    pub fn push_with(&mut self, answer: u64, item: Item) -> Outcome {
        let back = self.tried(&item);
        assert_eq!(back.answer, answer, "{:?}", item);
        self.push_item(item);
        back
    }

    pub fn push_edit(
        &mut self,
        category: u8,
        schema: &[u64],
        own: &[u64],
        delta: Vec<u64>,
        edit: Edit,
    ) {
        self.push_item(edit_item(category, schema, own, delta, edit));
    }

    /// Pushes the item unless its answer is there `most` times already.
    pub fn push_rare(&mut self, most: u64, item: Item) -> bool {
        if self.count_of(item.call, self.tried(&item).answer) >= most {
            return false;
        }
        self.push_item(item);
        true
    }

    /// What comes back of an item that is not pushed.
    pub fn tried(&self, item: &Item) -> Outcome {
        run(&mut self.fleet.clone(), item)
    }

    /// How many items of a call have this answer.
    pub fn count_of(&self, call: u8, answer: u64) -> u64 {
        self.counts.get(&(call, answer)).copied().unwrap_or(0)
    }

    /// Whether each answer of these calls that there is has so many items.
    pub fn all_have(&self, calls: RangeInclusive<u8>, least: u64) -> bool {
        self.counts.iter().all(|((call, _), count)| !calls.contains(call) || *count >= least)
    }

    pub fn fleet(&self) -> &Fleet {
        &self.fleet
    }

    pub fn into_items(self) -> Vec<Item> {
        self.items
    }

    /// How many items a call has.
    pub fn count(&self, call: u8) -> u64 {
        self.counts.iter().filter(|(key, _)| key.0 == call).map(|(_, count)| count).sum()
    }
}
