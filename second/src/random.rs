//! Seeded random schemas and tables, for the tests and the vectors.

use crate::cases::{herd, schema_words, schema_words_in};
use crate::label::{counter, label_of, Register, LARGEST_COUNTER, LARGEST_FLAG};
use crate::layout::{abort, mask, propagation, Form, FIELDS, KEY_FIELDS, NEW, PLAIN};
use crate::schema::{self, Kind, Schema};
use crate::table::{Record, Table};
use std::collections::BTreeSet;

/// The generator splitmix64.
#[derive(Clone)]
pub struct Random(u64);

impl Random {
    pub fn new(seed: u64) -> Random {
        Random(seed)
    }

    pub fn next(&mut self) -> u64 {
        self.0 = self.0.wrapping_add(0x9e37_79b9_7f4a_7c15);
        let mut word = self.0;
        word = (word ^ (word >> 30)).wrapping_mul(0xbf58_476d_1ce4_e5b9);
        word = (word ^ (word >> 27)).wrapping_mul(0x94d0_49bb_1331_11eb);
        word ^ (word >> 31)
    }

    /// A number below `limit`; 0 for the limit 0.
    pub fn below(&mut self, limit: u64) -> u64 {
        if limit == 0 {
            0
        } else {
            self.next() % limit
        }
    }

    /// True `times` in `of` times.
    pub fn chance(&mut self, times: u64, of: u64) -> bool {
        self.below(of) < times
    }

    pub fn pick<T: Copy>(&mut self, from: &[T]) -> T {
        from[self.below(from.len() as u64) as usize]
    }

    pub fn shuffle<T>(&mut self, list: &mut [T]) {
        for at in (1..list.len()).rev() {
            list.swap(at, self.below(at as u64 + 1) as usize);
        }
    }
}

/// Nodes that reference each other by abort and by propagation, with two keys.
pub fn nodes() -> Vec<u64> {
    schema_words(&[(&[abort(1), propagation(1), PLAIN], 4, 5)])
}

/// Two relations that reference each other, with empty references in keys.
pub fn pair() -> Vec<u64> {
    schema_words(&[(&[PLAIN, abort(2)], 3, 0), (&[abort(1), propagation(1), PLAIN], 2, 4)])
}

/// Eight relations; the last has twelve fields and keys of the first four and of the last four.
pub fn wide() -> Vec<u64> {
    schema_words(&[
        (&[PLAIN], 1, 0),
        (&[abort(1), PLAIN], 2, 0),
        (&[propagation(1)], 0, 0),
        (&[PLAIN, PLAIN, abort(3)], 3, 0),
        (&[abort(8), propagation(8)], 0, 0),
        (&[PLAIN], 0, 1),
        (&[abort(7)], 1, 0),
        (
            &[
                PLAIN,
                abort(1),
                propagation(2),
                abort(3),
                propagation(4),
                abort(8),
                PLAIN,
                propagation(8),
                PLAIN,
                abort(1),
                propagation(2),
                abort(8),
            ],
            mask(&[1, 2, 3, 4]),
            mask(&[9, 10, 11, 12]),
        ),
    ])
}

/// The kinds and the two masks of a relation.
pub type Block = (Vec<u64>, [u64; 2]);

/// A mask of at most four of so many fields, or none.
fn some_mask(random: &mut Random, fields: u64) -> u64 {
    let mut mask = random.below(1 << fields);
    while mask.count_ones() > KEY_FIELDS {
        mask &= random.next();
    }
    if random.chance(1, 3) {
        0
    } else {
        mask
    }
}

/// One to four relations, of at most so many fields.
pub fn blocks(random: &mut Random, most: usize) -> Vec<Block> {
    let relations = 1 + random.below(4);
    let mut blocks = Vec::new();
    for _ in 0..relations {
        let fields = 1 + random.below(most as u64);
        let kinds: Vec<u64> = (0..fields)
            .map(|_| {
                let target = 1 + random.below(relations);
                random.pick(&[PLAIN, PLAIN, abort(target), abort(target), propagation(target)])
            })
            .collect();
        blocks.push((kinds, [some_mask(random, fields), some_mask(random, fields)]));
    }
    blocks
}

/// The words of a schema of these relations, in a form that has the fields.
pub fn encoded(form: Form, blocks: &[Block]) -> Vec<u64> {
    let blocks: Vec<(&[u64], u64, u64)> =
        blocks.iter().map(|(kinds, masks)| (kinds.as_slice(), masks[0], masks[1])).collect();
    schema_words_in(form, &blocks)
}

fn random_schema(random: &mut Random) -> Vec<u64> {
    let most = random.pick(&[4, 4, 4, FIELDS]);
    encoded(NEW, &blocks(random, most))
}

/// A schema that is not broken.
pub fn schema(random: &mut Random) -> Vec<u64> {
    match random.below(8) {
        0..=2 => herd(),
        3 => nodes(),
        4 => pair(),
        5 => wide(),
        _ => random_schema(random),
    }
}

/// One of these schemas.
pub fn pick_schema(random: &mut Random, from: &[Vec<u64>]) -> Vec<u64> {
    from[random.below(from.len() as u64) as usize].clone()
}

/// How a table is made directly.
#[derive(Clone, Copy)]
pub struct Shape {
    pub used: usize,
    pub capacity: usize,
    /// Labels have counters from `base` + 1 to `base` + `spread`.
    pub base: u64,
    pub spread: u64,
    pub replicas: u64,
    /// One record in so many is incomplete; 0 is none.
    pub incomplete: u64,
    /// One flag in so many lies near 65,535; 0 is none.
    pub high_flags: u64,
}

impl Shape {
    pub fn small(random: &mut Random) -> Shape {
        let used = random.below(9) as usize;
        let base = match random.below(8) {
            0 => LARGEST_COUNTER - 12,
            1 => random.below(1 << 39),
            _ => 0,
        };
        Shape {
            used,
            capacity: used + random.pick(&[0, 0, 1, 2, 4]),
            base,
            spread: 12,
            replicas: 3,
            incomplete: random.pick(&[0, 4, 8]),
            high_flags: random.pick(&[0, 0, 6]),
        }
    }
}

fn flag(random: &mut Random, shape: &Shape) -> u64 {
    if shape.high_flags != 0 && random.chance(1, shape.high_flags) {
        LARGEST_FLAG - random.below(3)
    } else {
        random.pick(&[0, 0, 0, 0, 1, 1, 2, 3])
    }
}

fn any_label(random: &mut Random, shape: &Shape) -> u64 {
    label_of(shape.base + 1 + random.below(shape.spread), 1 + random.below(shape.replicas))
}

fn names(random: &mut Random, schema: &Schema, shape: &Shape) -> Vec<(u64, u64)> {
    let mut names = BTreeSet::new();
    let mut tries = 0;
    while names.len() < shape.used && tries < 20 * shape.used {
        let relation = 1 + random.below(schema.relations.len() as u64);
        names.insert((relation, any_label(random, shape)));
        tries += 1;
    }
    let mut names: Vec<_> = names.into_iter().collect();
    random.shuffle(&mut names);
    names
}

fn register(
    random: &mut Random,
    shape: &Shape,
    names: &[(u64, u64)],
    kind: Kind,
    own: u64,
) -> Register {
    let value = match kind.target() {
        None => random.pick(&[0, 7, 40, 41, 40, random_word(40)]),
        Some(target) => {
            let known: Vec<u64> =
                names.iter().filter(|name| name.0 == target).map(|name| name.1).collect();
            if random.chance(1, 6) {
                0
            } else if known.is_empty() || random.chance(1, 12) {
                any_label(random, shape)
            } else {
                random.pick(&known)
            }
        }
    };
    let stamp = if random.chance(1, 4) { any_label(random, shape) } else { own };
    Register { value, stamp }
}

/// One value near the end of the 64-bit words.
fn random_word(below: u64) -> u64 {
    u64::MAX - below
}

/// A well-formed table, made directly.
pub fn table(random: &mut Random, schema: &Schema, shape: &Shape) -> Table {
    let names = names(random, schema, shape);
    let mut records = Vec::new();
    for (relation, label) in &names {
        let kinds = match schema.relation(*relation) {
            Some(of) => of.kinds.clone(),
            None => Vec::new(),
        };
        let mut registers: Vec<Register> =
            kinds.iter().map(|kind| register(random, shape, &names, *kind, *label)).collect();
        if shape.incomplete != 0 && random.chance(1, shape.incomplete) {
            let at = random.below(registers.len() as u64) as usize;
            registers[at] = Register::default();
            if random.chance(1, 4) {
                registers.fill(Register::default());
            }
        }
        records.push(Record {
            relation: *relation,
            label: *label,
            flag: flag(random, shape),
            registers,
        });
    }
    let least = least_clock(schema, &records);
    let clock =
        if random.chance(1, 2) { least } else { (least + random.below(5)).min(LARGEST_COUNTER) };
    let replica = random.pick(&[1, 1, 2, 3, 255]);
    Table { capacity: shape.capacity.max(records.len()), replica, clock, records }
}

/// The least clock of these records.
pub fn least_clock(schema: &Schema, records: &[Record]) -> u64 {
    let mut least = 0;
    for record in records {
        least = least.max(counter(record.label));
        if let Some(of) = schema.relation(record.relation) {
            for (kind, register) in of.kinds.iter().zip(&record.registers) {
                least = least.max(counter(register.stamp));
                if kind.target().is_some() {
                    least = least.max(counter(register.value));
                }
            }
        }
    }
    least
}

/// The decoded form of a schema that is not broken.
pub fn decoded(words: &[u64]) -> Schema {
    schema::read(words).unwrap_or(Schema { relations: Vec::new() })
}
