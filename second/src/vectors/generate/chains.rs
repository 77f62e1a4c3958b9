//! A table with a chain that is walked, and what may be wrong with a record of it.

use super::damage::reference_field;
use super::sources::capacity;
use crate::label::{counter, label_of, Register, LABELS, LARGEST_REPLICA};
use crate::layout::{
    self, CLOCK, FIELDS, FIELD_COUNT, FLAG, LABEL, NEXT, RECORD, RELATION, RELATION_COUNT, STAMPS,
    USED, VALUES,
};
use crate::random::{self, Random};
use crate::schema::Kind;
use crate::table::{Record, Table};
use crate::vectors::item::{Item, LOOKUP};

/// What the walk does at a record.
#[derive(Clone, Copy, PartialEq)]
pub enum At {
    /// It stops, at the label.
    Label,
    /// It stops, at a larger one.
    Larger,
    /// It stops, at the end.
    End,
    /// It goes on.
    Way,
}

/// How a record is damaged.
#[derive(Clone, Copy, PartialEq)]
pub enum Damage {
    // A rule of its own words.
    Label,
    Flag,
    Stamp,
    ValueUnderNone,
    UnusedValue,
    UnusedStamp,
    Reference,
    /// It is of another relation of the schema.
    Relation,
    /// It is of none.
    NoRelation,
    /// Another relation's record stands in its place.
    Link,
    // It doesn't raise the label.
    EqualLabel,
    FallingLabel,
    // A counter above the clock.
    LabelCounter,
    StampCounter,
    ReferenceCounter,
    /// A next above used.
    Next,
}

pub const DAMAGES: [Damage; 16] = [
    Damage::Label,
    Damage::Flag,
    Damage::Stamp,
    Damage::ValueUnderNone,
    Damage::UnusedValue,
    Damage::UnusedStamp,
    Damage::Reference,
    Damage::Relation,
    Damage::NoRelation,
    Damage::Link,
    Damage::EqualLabel,
    Damage::FallingLabel,
    Damage::LabelCounter,
    Damage::StampCounter,
    Damage::ReferenceCounter,
    Damage::Next,
];

/// A table, with the chain of the relation that is asked for.
#[derive(Clone)]
pub struct Chain {
    pub schema: Vec<u64>,
    pub words: Vec<u64>,
    pub relation: u64,
    /// The indices of the relation's records, in the order of the chain.
    pub indices: Vec<u64>,
}

pub fn item(category: u8, schema: &[u64], words: &[u64], relation: u64, label: u64) -> Item {
    let slices = vec![schema.to_vec(), words.to_vec()];
    Item { category, call: LOOKUP, slices, words: vec![relation, label] }
}

/// Registers with this label as their stamp, of which one may be none.
fn registers(random: &mut Random, kinds: &[Kind], label: u64) -> Vec<Register> {
    let mut registers = Vec::new();
    for kind in kinds {
        let value = random.pick(&[0, 7, 40]);
        let value = if *kind == Kind::Plain { value } else { label * random.below(2) };
        registers.push(Register { value, stamp: label });
    }
    if random.chance(1, 6) {
        let at = random.below(registers.len() as u64) as usize;
        registers[at] = Register::default();
    }
    registers
}

fn indices(words: &[u64], relation: u64) -> Vec<u64> {
    let mut indices = Vec::new();
    let mut index = words[layout::first(relation as usize)];
    while index != 0 {
        indices.push(index);
        index = words[layout::record(index as usize - 1) + NEXT];
    }
    indices
}

impl Chain {
    /// A chain of so many records, beside a few of other relations. No label is next to another.
    pub fn new(random: &mut Random, length: usize) -> Chain {
        let schema = random::schema(random);
        let decoded = random::decoded(&schema);
        let relations = schema[RELATION_COUNT];
        let relation = 1 + random.below(relations);
        let mut of_records = vec![relation; length];
        for _ in 0..random.below(4) {
            let other = 1 + random.below(relations);
            of_records.extend((other != relation).then_some(other));
        }
        random.shuffle(&mut of_records);
        let mut clock = random.pick(&[0, 0, 0, 300, 1 << 39]);
        let mut records = Vec::new();
        for relation in of_records {
            clock += 2 + random.below(2);
            let label = label_of(clock, 2 + random.below(LARGEST_REPLICA - 2));
            let kinds = decoded.relation(relation).map_or(vec![], |of| of.kinds.clone());
            let registers = registers(random, &kinds, label);
            records.push(Record { relation, label, flag: random.pick(&[0, 0, 1, 2]), registers });
        }
        random.shuffle(&mut records);
        let capacity = records.len() + random.pick(&[0, 1, 2]);
        let (replica, clock) = (random.pick(&[1, 2, 255]), clock + random.below(3));
        let words = Table { capacity, replica, clock, records }.words();
        let indices = indices(&words, relation);
        Chain { schema, words, relation, indices }
    }

    /// A chain of which this is true, with one to four records.
    pub fn with(random: &mut Random, is_wanted: impl Fn(&Chain) -> bool) -> Chain {
        loop {
            let length = 1 + random.below(4) as usize;
            let chain = Chain::new(random, length);
            if is_wanted(&chain) {
                return chain;
            }
        }
    }

    pub fn some(random: &mut Random) -> Chain {
        Chain::with(random, |_| true)
    }

    /// The same table, with the chain of another relation.
    pub fn of(&self, relation: u64) -> Chain {
        let indices = indices(&self.words, relation);
        Chain { relation, indices, ..self.clone() }
    }

    pub fn relations(&self) -> u64 {
        self.schema[RELATION_COUNT]
    }

    pub fn used(&self) -> u64 {
        self.words[USED]
    }

    /// Whether there is room for one more record.
    pub fn has_room(&self) -> bool {
        self.used() < capacity(&self.words) as u64
    }

    /// The index of a record of another relation, if there is one.
    pub fn other(&self) -> Option<u64> {
        let relation = |index: u64| self.words[layout::record(index as usize - 1) + RELATION];
        (1..=self.used()).find(|index| relation(*index) != self.relation)
    }

    /// An index above used.
    pub fn index_above(&self, random: &mut Random) -> u64 {
        random.pick(&[self.used() + 1, capacity(&self.words) as u64 + 1, u64::MAX])
    }

    /// Where the record at a place of the chain begins.
    pub fn begin(&self, at: usize) -> usize {
        layout::record(self.indices[at] as usize - 1)
    }

    pub fn label(&self, at: usize) -> u64 {
        self.words[self.begin(at) + LABEL]
    }

    /// Where the index of the record at a place of the chain stands.
    pub fn link(&self, at: usize) -> usize {
        match at.checked_sub(1) {
            Some(before) => self.begin(before) + NEXT,
            None => layout::first(self.relation as usize),
        }
    }

    /// A place of the chain at which the walk can do this.
    pub fn place(&self, random: &mut Random, at: At) -> Option<usize> {
        let length = self.indices.len();
        let places = match at {
            At::Label | At::Larger => 0..length,
            At::End => length.checked_sub(1)?..length,
            At::Way => 0..length.checked_sub(1)?,
        };
        let count = places.end - places.start;
        (count > 0).then(|| places.start + random.below(count as u64) as usize)
    }

    /// A number for which the walk does this at a place of the chain.
    pub fn asked(&self, random: &mut Random, place: usize, at: At) -> u64 {
        let label = self.label(place);
        let last = (0..=place).map(|at| self.label(at)).max().unwrap_or(label);
        match at {
            At::Label => label,
            At::Larger => label - 1,
            At::End | At::Way => random.pick(&[last + 1, last + 256, LABELS - 1, u64::MAX]),
        }
    }

    pub fn item(&self, category: u8, relation: u64, label: u64) -> Item {
        item(category, &self.schema, &self.words, relation, label)
    }

    /// Puts another relation's record into a place of the chain, with the label that stands there.
    fn replace(&mut self, place: usize) -> Option<()> {
        let other = self.other()?;
        let (link, from) = (self.link(place), self.begin(place));
        let to = layout::record(other as usize - 1);
        for word in [LABEL, NEXT] {
            self.words[to + word] = self.words[from + word];
        }
        self.words[link] = other;
        self.indices[place] = other;
        Some(())
    }

    /// Damages the record at a place of the chain, if it can be damaged so.
    pub fn damage(&mut self, random: &mut Random, place: usize, damage: Damage) -> Option<()> {
        let (begin, label) = (self.begin(place), self.label(place));
        let above = label_of(self.words[CLOCK] + 1, 1 + random.below(LARGEST_REPLICA));
        let (at, word) = match damage {
            Damage::Label => (LABEL, counter(label) * 256),
            Damage::Flag => (FLAG, random.pick(&[65_536, 65_537, u64::MAX])),
            Damage::Relation => {
                self.words[begin + VALUES..begin + RECORD].fill(0);
                (RELATION, (1..=self.relations()).find(|of| *of != self.relation)?)
            }
            Damage::NoRelation => (RELATION, random.pick(&[0, self.relations() + 1, 9, u64::MAX])),
            Damage::Link => return self.replace(place),
            Damage::EqualLabel => (LABEL, self.label(place.checked_sub(1)?)),
            Damage::FallingLabel => {
                (LABEL, self.label(place.checked_sub(1)?) - random.pick(&[1, 256]))
            }
            Damage::LabelCounter => (LABEL, above),
            Damage::Next => (NEXT, self.index_above(random)),
            _ => return self.damage_field(random, place, damage, above),
        };
        self.words[begin + at] = word;
        Some(())
    }

    /// Damages a field of the record at a place of the chain, if it can be damaged so.
    fn damage_field(
        &mut self,
        random: &mut Random,
        place: usize,
        damage: Damage,
        above: u64,
    ) -> Option<()> {
        let (begin, label) = (self.begin(place), self.label(place));
        let block = layout::block(self.relation as usize);
        let fields = self.schema[block + FIELD_COUNT] as usize;
        let is_reference = matches!(damage, Damage::Reference | Damage::ReferenceCounter);
        let is_unused = matches!(damage, Damage::UnusedValue | Damage::UnusedStamp);
        let field = if is_reference {
            reference_field(random, &self.schema, &self.words, begin)?
        } else if is_unused {
            random.pick(&[fields, FIELDS - 1])
        } else {
            random.below(fields as u64) as usize
        };
        let none = counter(label) * 256;
        let no_label = random.pick(&[1, 255, 255, none, none, LABELS + label]);
        let (value, stamp) = match damage {
            Damage::Stamp => (0, no_label),
            Damage::StampCounter => (0, above),
            Damage::ValueUnderNone => (label, 0),
            Damage::Reference => (no_label, label),
            Damage::ReferenceCounter => (above, label),
            Damage::UnusedValue => (random.pick(&[1, label]), 0),
            _ => (0, label),
        };
        if is_unused && fields == FIELDS {
            return None;
        }
        self.words[begin + VALUES + field] = value;
        self.words[begin + STAMPS + field] = stamp;
        Some(())
    }
}
