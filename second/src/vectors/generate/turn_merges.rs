//! Old tables merged in the old form and then turned: the merge of the turned tables.

use super::items::Items;
use super::turned::{some_blocks, Contents, WIDENING};
use crate::layout::OLD;
use crate::merge::{join, merge_in};
use crate::random::{self, Random};
use crate::vectors::item::{Item, MERGE};
use crate::{number, widen};

const MERGES: u8 = 135;

/// The new schema and table of old ones.
fn widened(contents: &Contents) -> (Vec<u64>, Vec<u64>) {
    let mut lent = contents.lent(WIDENING);
    let answer = widen(&lent.schema, &lent.table, &mut lent.to_schema, &mut lent.to_table);
    assert_eq!(answer, Ok(()));
    (lent.to_schema, lent.to_table)
}

/// Two tables of the same relations that may share labels; the first has room for the merge, or none.
fn pair(random: &mut Random, round: u64) -> [Contents; 2] {
    let blocks = some_blocks(random);
    let [mut own, mut other] = [(); 2].map(|_| {
        let used = random.below(5) as usize;
        Contents::with(random, blocks.clone(), used, 0)
    });
    let joined = join(&own.table, &other.table).records.len();
    let room = if round % 4 == 0 { joined.saturating_sub(1) } else { joined };
    own.table.capacity = own.table.records.len().max(room) + (round % 3 == 1) as usize;
    if round % 5 == 0 {
        other.table.capacity = OLD.delta_capacity();
    }
    [own, other]
}

pub fn turn_merges(items: &mut Items, random: &mut Random) {
    for round in 0..60 {
        let [mut own, other] = pair(random, round);
        let ((schema, table), (_, taken)) = (widened(&own), widened(&other));
        let (old_schema, old_other) =
            (random::encoded(OLD, &own.blocks), other.table.words_in(OLD));
        let mut merged = own.table.words_in(OLD);
        let answer = merge_in(OLD, &old_schema, &mut merged, &old_other);
        let item = Item {
            category: MERGES,
            call: MERGE,
            slices: vec![schema.clone(), table, taken],
            words: vec![],
        };
        let back = items.push_with(number(&answer), item);
        assert_eq!(back.results, [answer.unwrap_or(0) as u64]);
        if answer.is_ok() {
            own.table = join(&own.table, &other.table);
        }
        assert_eq!(merged, own.table.words_in(OLD));
        assert_eq!(back.exits, [widened(&own).1]);
    }
}
