//! What the calls that turn a schema and a table are lent, in the making.

use super::sources::called_table;
use crate::cases::herd;
use crate::layout::{
    self, abort, mask, propagation, Form, FIELD_COUNT, KINDS, NEW, NEXT, OLD, PLAIN, RELATION,
    RELATIONS, RELATION_COUNT, USED,
};
use crate::random::{self, Block, Random, Shape};
use crate::schema::Relation;
use crate::table::{self, Table};
use crate::vectors::item::{Item, NARROW, WIDEN};

/// A call that turns: the form of the side turned, and of the side written.
#[derive(Clone, Copy)]
pub struct Way {
    pub call: u8,
    pub from: Form,
    pub to: Form,
}

pub const WIDENING: Way = Way { call: WIDEN, from: OLD, to: NEW };
pub const NARROWING: Way = Way { call: NARROW, from: NEW, to: OLD };
pub const WAYS: [Way; 2] = [WIDENING, NARROWING];

/// The schema and the table turned, and the buffers that are written.
#[derive(Clone)]
pub struct Lent {
    pub way: Way,
    pub schema: Vec<u64>,
    pub table: Vec<u64>,
    pub to_schema: Vec<u64>,
    pub to_table: Vec<u64>,
}

impl Lent {
    pub fn item(&self, category: u8) -> Item {
        let schemas = [self.schema.as_slice(), &self.to_schema].concat();
        let slices = vec![schemas, self.table.clone(), self.to_table.clone()];
        let begins = self.schema.len() as u64;
        Item { category, call: self.way.call, slices, words: vec![begins] }
    }

    /// Both buffers have old contents.
    pub fn stale(mut self, random: &mut Random) -> Lent {
        self.stale_schema(random);
        self.stale_table(random);
        self
    }

    pub fn stale_schema(&mut self, random: &mut Random) {
        let good = random::encoded(self.way.to, &some_blocks(random));
        spoil(random, &mut self.to_schema, &good);
    }

    pub fn stale_table(&mut self, random: &mut Random) {
        let capacity = table::capacity_in(self.way.to, self.to_table.len()).unwrap_or(0);
        let mut good = Contents::some(random).table;
        good.records.truncate(capacity);
        good.capacity = capacity;
        spoil(random, &mut self.to_table, &good.words_in(self.way.to));
    }

    /// Both buffers have old contents, or none.
    pub fn stale_or_not(self, random: &mut Random) -> Lent {
        if random.chance(1, 2) {
            self.stale(random)
        } else {
            self
        }
    }

    pub fn relations(&self) -> usize {
        self.schema[RELATION_COUNT] as usize
    }

    pub fn capacity(&self) -> usize {
        table::capacity_in(self.way.from, self.table.len()).unwrap_or(0)
    }

    pub fn used(&self) -> usize {
        self.table[USED] as usize
    }

    /// Where the record of an index begins.
    pub fn begin(&self, index: usize) -> usize {
        self.way.from.record(index - 1)
    }

    /// The kinds of the record of an index, as many as its relation has fields.
    pub fn kinds(&self, index: usize) -> &[u64] {
        let relation = self.table[self.begin(index) + RELATION] as usize;
        let block = self.way.from.block(relation);
        &self.schema[block + KINDS..][..self.schema[block + FIELD_COUNT] as usize]
    }

    /// The indices of a relation's records, in the order of the chain.
    pub fn chain(&self, relation: usize) -> Vec<usize> {
        let mut indices = Vec::new();
        let mut index = self.table[layout::first(relation)] as usize;
        while index != 0 {
            indices.push(index);
            index = self.table[self.begin(index) + NEXT] as usize;
        }
        indices
    }

    /// A relation with at least so many records.
    pub fn some_chain(&self, random: &mut Random, least: usize) -> Option<usize> {
        let has = |relation: &usize| self.chain(*relation).len() >= least;
        let relations: Vec<usize> = (1..=RELATIONS).filter(has).collect();
        if relations.is_empty() {
            None
        } else {
            Some(random.pick(&relations))
        }
    }

    /// The index of a record, if there is one.
    pub fn some_index(&self, random: &mut Random) -> Option<usize> {
        let used = self.used() as u64;
        if used == 0 {
            None
        } else {
            Some(1 + random.below(used) as usize)
        }
    }
}

/// Old contents of a buffer: any words, one word, a few large ones, or words of its form.
fn spoil(random: &mut Random, words: &mut [u64], good: &[u64]) {
    let length = words.len() as u64;
    match random.below(4) {
        0 => words.iter_mut().for_each(|word| *word = 1 + random.below(127)),
        1 => {
            let at = random.below(length) as usize;
            words.iter_mut().skip(at).take(1).for_each(|word| *word = u64::MAX);
        }
        2 => {
            for _ in 0..8 {
                let (at, new) = (random.below(length) as usize, random.next());
                words.iter_mut().skip(at).take(1).for_each(|word| *word = new);
            }
        }
        _ => words.iter_mut().zip(good).for_each(|(word, new)| *word = *new),
    }
}

/// The relations that a schema tells.
pub fn blocks_of(schema: &[u64]) -> Vec<Block> {
    let block = |of: Relation| {
        let kinds = of.kinds.iter().map(|kind| kind.word()).collect();
        (kinds, of.masks)
    };
    random::decoded(schema).relations.into_iter().map(block).collect()
}

/// Eight relations, of which the last has eight fields and keys that name the eighth.
pub fn eight_blocks(random: &mut Random) -> Vec<Block> {
    let most = RELATIONS as u64;
    let mut blocks = Vec::new();
    for relation in 1..=most {
        let fields = if relation == most { OLD.fields } else { 1 + random.below(4) as usize };
        let target = 1 + random.below(most);
        let known = [PLAIN, abort(target), propagation(target)];
        let kinds: Vec<u64> = (0..fields).map(|_| random.pick(&known)).collect();
        blocks.push((kinds, [random.below(2), 0]));
    }
    let keys = [mask(&[8]), mask(&[1, 8]), mask(&[5, 6, 7, 8]), mask(&[2, 4, 8])];
    blocks[RELATIONS - 1].1 = [random.pick(&keys), random.pick(&keys)];
    blocks
}

/// Relations of at most eight fields.
pub fn some_blocks(random: &mut Random) -> Vec<Block> {
    match random.below(8) {
        0 => blocks_of(&herd()),
        1 => blocks_of(&random::nodes()),
        2 => blocks_of(&random::pair()),
        3 => eight_blocks(random),
        _ => random::blocks(random, OLD.fields),
    }
}

/// The most fields of these relations.
pub fn most_fields(blocks: &[Block]) -> usize {
    blocks.iter().map(|(kinds, _)| kinds.len()).max().unwrap_or(0)
}

/// Relations and a table, which both forms can have unless a relation has more than eight fields.
#[derive(Clone)]
pub struct Contents {
    pub blocks: Vec<Block>,
    pub table: Table,
}

impl Contents {
    /// A table with so many records, or fewer, and room for so many more.
    pub fn with(random: &mut Random, blocks: Vec<Block>, used: usize, room: usize) -> Contents {
        let schema = random::decoded(&random::encoded(NEW, &blocks));
        let shape = Shape { used, capacity: used, ..Shape::small(random) };
        let mut table = random::table(random, &schema, &shape);
        table.capacity = table.records.len() + room;
        Contents { blocks, table }
    }

    /// A small table, made directly.
    pub fn some(random: &mut Random) -> Contents {
        let blocks = some_blocks(random);
        let (used, room) = (random.pick(&[1, 2, 2, 3, 4, 5]), random.pick(&[0, 0, 1, 2]));
        Contents::with(random, blocks, used, room)
    }

    /// A small table, made by calls.
    pub fn called(random: &mut Random) -> Contents {
        loop {
            let blocks = some_blocks(random);
            let schema = random::encoded(NEW, &blocks);
            let capacity = 1 + random.below(8) as usize;
            let words = called_table(random, &schema, capacity, 2);
            if let Some(table) = table::read(&random::decoded(&schema), &words) {
                return Contents { blocks, table };
            }
        }
    }

    /// What a call is lent, with empty buffers.
    pub fn lent(&self, way: Way) -> Lent {
        Lent {
            way,
            schema: random::encoded(way.from, &self.blocks),
            table: self.table.words_in(way.from),
            to_schema: vec![0; way.to.schema()],
            to_table: vec![0; way.to.table(self.table.capacity)],
        }
    }
}
