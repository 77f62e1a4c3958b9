//! Labels, registers and flags.

use super::items::Items;
use crate::label::LARGEST_COUNTER;
use crate::random::Random;
use crate::vectors::item::{DELETE, FLAG_JOIN, LABEL_OF, REDO, REGISTER_JOIN};

pub fn scalars(items: &mut Items, random: &mut Random) {
    let counters = [0, 1, 2, 255, 256, LARGEST_COUNTER - 1, LARGEST_COUNTER, LARGEST_COUNTER + 1];
    let replicas = [0, 1, 2, 254, 255, 256, 257, u64::MAX];
    for counter in counters.into_iter().chain([1 << 56, u64::MAX]) {
        for replica in replicas {
            items.push(1, LABEL_OF, vec![], vec![counter, replica]);
        }
    }
    for _ in 0..120 {
        let counter = random.next() >> random.below(64);
        items.push(1, LABEL_OF, vec![], vec![counter, random.next() >> random.below(64)]);
    }
    let stamps = [0, 257, 258, 513, 514, (1 << 48) - 1];
    for a in stamps {
        for b in stamps {
            for (x, y) in [(5, 7), (7, 5), (7, 7), (0, u64::MAX), (u64::MAX, 1 << 63)] {
                let x = if a == 0 { 0 } else { x };
                let y = if b == 0 { 0 } else { y };
                items.push(1, REGISTER_JOIN, vec![], vec![x, a, y, b]);
            }
        }
    }
    let flags = [0, 1, 2, 3, 4, 255, 256, 32_767, 32_768, 65_533, 65_534, 65_535];
    for a in flags {
        for b in flags {
            items.push(1, FLAG_JOIN, vec![], vec![a, b]);
        }
    }
    for flag in (0..120).chain(65_400..65_535) {
        items.push(1, DELETE, vec![], vec![flag]);
        items.push(1, REDO, vec![], vec![flag]);
    }
    items.push(1, DELETE, vec![], vec![65_535]);
}
