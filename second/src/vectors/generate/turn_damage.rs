//! Schemas and tables that are turned, with one rule broken, in both forms.

use super::items::Items;
use super::turned::{Contents, Lent, Way, WAYS, WIDENING};
use crate::label::{counter, label_of, LARGEST_COUNTER, LARGEST_FLAG};
use crate::layout::{
    self, abort, mask, propagation, ABORT, CLOCK, FIELD_COUNT, FLAG, HEADER, KEYS, KINDS, LABEL,
    NEW, NEXT, OLD, PLAIN, PROPAGATION, RELATION, RELATIONS, RELATION_COUNT, REPLICA, USED, VALUES,
    ZERO, ZEROS,
};
use crate::random::Random;

const SCHEMAS: u8 = 127;
const WORDS: u8 = 128;
const CHAINS: u8 = 129;
const ONE_WORD: u8 = 130;

/// How many items each rule has, in the old form and in the new.
const ENOUGH: [u64; 2] = [22, 12];

/// What is wrong with a schema.
#[derive(Clone, Copy, PartialEq)]
pub enum Broken {
    NoRelation,
    NineRelations,
    NoField,
    OneFieldMore,
    Kind,
    AbortAbove,
    PropagationAbove,
    KindAboveFields,
    BlockAbove,
    BlockZero,
    FiveInKey,
    KeyAboveFields,
}

pub const BROKEN: [Broken; 12] = [
    Broken::NoRelation,
    Broken::NineRelations,
    Broken::NoField,
    Broken::OneFieldMore,
    Broken::Kind,
    Broken::AbortAbove,
    Broken::PropagationAbove,
    Broken::KindAboveFields,
    Broken::BlockAbove,
    Broken::BlockZero,
    Broken::FiveInKey,
    Broken::KeyAboveFields,
];

/// What is wrong with a table.
#[derive(Clone, Copy, PartialEq)]
pub enum Damaged {
    // The header.
    NoReplica,
    ReplicaAbove,
    Clock,
    Zero,
    End,
    Used,
    // A record, or the words above the records.
    Label,
    Flag,
    Stamp,
    ValueUnderNone,
    UnusedValue,
    UnusedStamp,
    Reference,
    LabelCounter,
    StampCounter,
    ReferenceCounter,
    AboveUsed,
    // The chains.
    OfAnother,
    Falling,
    Equal,
    Lost,
    IndexAbove,
    AboveRelations,
}

pub const HEADERS: [Damaged; 6] = [
    Damaged::NoReplica,
    Damaged::ReplicaAbove,
    Damaged::Clock,
    Damaged::Zero,
    Damaged::End,
    Damaged::Used,
];

const RECORDS: [Damaged; 11] = [
    Damaged::Label,
    Damaged::Flag,
    Damaged::Stamp,
    Damaged::ValueUnderNone,
    Damaged::UnusedValue,
    Damaged::UnusedStamp,
    Damaged::Reference,
    Damaged::LabelCounter,
    Damaged::StampCounter,
    Damaged::ReferenceCounter,
    Damaged::AboveUsed,
];

const LINKS: [Damaged; 6] = [
    Damaged::OfAnother,
    Damaged::Falling,
    Damaged::Equal,
    Damaged::Lost,
    Damaged::IndexAbove,
    Damaged::AboveRelations,
];

impl Lent {
    /// The block of a relation, and its number of fields.
    fn some_block(&self, random: &mut Random) -> (usize, usize) {
        let block = self.way.from.block(1 + random.below(self.relations() as u64) as usize);
        (block, self.schema[block + FIELD_COUNT] as usize)
    }

    /// Breaks one rule of the schema, if it can be broken in this one.
    pub fn break_schema(&mut self, random: &mut Random, broken: Broken) -> Option<()> {
        let form = self.way.from;
        let (block, fields) = self.some_block(random);
        match broken {
            Broken::NoRelation => self.schema.fill(0),
            Broken::NoField => self.schema[block..block + form.block_words()].fill(0),
            Broken::OneFieldMore => {
                let (most, new) = (form.fields as u64, NEW.fields as u64);
                self.schema[block + KINDS..block + form.masks()].fill(PLAIN);
                let counts = [most + 1, most + 1, new + 1, u64::MAX];
                self.schema[block + FIELD_COUNT] = random.pick(&counts);
            }
            Broken::FiveInKey | Broken::KeyAboveFields => {
                let at = block + form.masks() + random.below(KEYS as u64) as usize;
                self.schema[at] = wrong_key(random, fields, broken)?;
            }
            _ => {
                let (at, word) = self.wrong_word(random, (block, fields), broken)?;
                self.schema[at] = word;
            }
        }
        Some(())
    }

    /// A word of the schema that breaks a rule, and where it stands.
    fn wrong_word(
        &self,
        random: &mut Random,
        (block, fields): (usize, usize),
        broken: Broken,
    ) -> Option<(usize, u64)> {
        let form = self.way.from;
        let (above, unused) = (RELATIONS - self.relations(), form.fields - fields);
        let any = RELATIONS - random.below(above as u64) as usize;
        let beyond = (above > 0).then_some(any);
        let kind = block + KINDS + random.below(fields as u64) as usize;
        Some(match broken {
            Broken::NineRelations if above == 0 => {
                (RELATION_COUNT, random.pick(&[9, 10, u64::MAX]))
            }
            Broken::Kind => {
                let none = [0, PLAIN + 1, ABORT - 1, ABORT, PROPAGATION, 48, u64::MAX];
                (kind, random.pick(&none))
            }
            Broken::AbortAbove => (kind, abort(beyond? as u64)),
            Broken::PropagationAbove => (kind, propagation(beyond? as u64)),
            Broken::KindAboveFields if unused > 0 => {
                let at = block + form.masks() - 1 - random.below(unused as u64) as usize;
                (at, random.pick(&[PLAIN, abort(1)]))
            }
            Broken::BlockAbove => {
                let word = random.below(form.block_words() as u64) as usize;
                (form.block(beyond?) + word, random.pick(&[1, u64::MAX]))
            }
            Broken::BlockZero => (block + form.block_zero(), random.pick(&[1, u64::MAX])),
            _ => return None,
        })
    }

    /// The first and the last record of a chain, and any record.
    fn records(&self, random: &mut Random) -> Option<(usize, usize, usize)> {
        let chain = self.chain(self.some_chain(random, 1)?);
        let any = self.some_index(random)?;
        Some((self.begin(chain[0]), self.begin(*chain.last()?), any))
    }

    /// Breaks the rule of a header word.
    fn break_header(&mut self, random: &mut Random, damaged: Damaged) -> Option<()> {
        let above = self.capacity() as u64 + 1;
        let end = ZEROS + random.below((HEADER - ZEROS) as u64) as usize;
        let (at, word) = match damaged {
            Damaged::NoReplica => (REPLICA, 0),
            Damaged::ReplicaAbove => (REPLICA, random.pick(&[256, 257, u64::MAX])),
            Damaged::Clock => (CLOCK, random.pick(&[LARGEST_COUNTER + 1, u64::MAX])),
            Damaged::Zero => (ZERO, random.pick(&[1, u64::MAX])),
            Damaged::End => (end, random.pick(&[1, u64::MAX])),
            _ if self.used() < self.capacity() => return None,
            _ => (USED, random.pick(&[above, u64::MAX])),
        };
        self.table[at] = word;
        Some(())
    }

    /// Breaks one rule of a record, or of the words above the records.
    fn break_record(&mut self, random: &mut Random, damaged: Damaged) -> Option<()> {
        let (form, clock) = (self.way.from, self.table[CLOCK]);
        let (first, last, any) = self.records(random)?;
        let (begin, kinds) = (self.begin(any), self.kinds(any).to_vec());
        let (label, field) = (self.table[begin + LABEL], random.below(kinds.len() as u64) as usize);
        let (value, stamp) = (begin + VALUES, begin + form.stamps());
        let above = label_of(clock + 1, 1 + random.below(255));
        let none = [clock * 256, 255, 1 + random.below(255)];
        let references: Vec<usize> = (0..kinds.len()).filter(|at| kinds[*at] != PLAIN).collect();
        let reference = random.below(references.len() as u64) as usize;
        let unused = kinds.len() + random.below((form.fields - kinds.len()) as u64) as usize;
        let is_unused = unused < form.fields;
        let of_first = self.table[first + LABEL];
        let (at, word) = match damaged {
            Damaged::Label => (first + LABEL, random.pick(&[counter(of_first) * 256, none[2]])),
            Damaged::Flag => (begin + FLAG, random.pick(&[LARGEST_FLAG + 1, u64::MAX])),
            Damaged::Stamp => (stamp + field, random.pick(&none)),
            Damaged::ValueUnderNone => {
                self.table[stamp + field] = 0;
                (value + field, label)
            }
            Damaged::UnusedValue if is_unused => (value + unused, random.pick(&[1, label])),
            Damaged::UnusedStamp if is_unused => (stamp + unused, label),
            Damaged::Reference | Damaged::ReferenceCounter => {
                let (field, wrong) = (*references.get(reference)?, random.pick(&none));
                self.table[stamp + field] = label;
                (value + field, if damaged == Damaged::Reference { wrong } else { above })
            }
            Damaged::LabelCounter => (last + LABEL, above),
            Damaged::StampCounter => (stamp + field, above),
            Damaged::AboveUsed if self.used() < self.capacity() => {
                let end = form.record(self.used());
                let at = end + random.below((self.table.len() - end) as u64) as usize;
                (at, random.pick(&[1, 257, u64::MAX]))
            }
            _ => return None,
        };
        self.table[at] = word;
        Some(())
    }

    /// The word that leads to the record at a place of a chain.
    fn link(&self, relation: usize, place: usize) -> usize {
        match place {
            0 => layout::first(relation),
            _ => self.begin(self.chain(relation)[place - 1]) + NEXT,
        }
    }

    /// Breaks one rule of the chains.
    fn break_chain(&mut self, random: &mut Random, damaged: Damaged) -> Option<()> {
        let (used, pair) = (self.used(), [Damaged::Falling, Damaged::Equal].contains(&damaged));
        let relation = self.some_chain(random, 1 + pair as usize)?;
        let chain = self.chain(relation);
        let place = random.below((chain.len() - pair as usize) as u64) as usize;
        let begin = self.begin(chain[place]);
        match damaged {
            Damaged::OfAnother => {
                let is_empty = |of: &usize| self.table[layout::first(*of)] == 0;
                let other = (1..=self.relations()).find(is_empty)?;
                self.table.swap(layout::first(relation), layout::first(other));
            }
            Damaged::Falling | Damaged::Equal => {
                let next = self.begin(chain[place + 1]);
                let (label, larger) = (self.table[begin + LABEL], self.table[next + LABEL]);
                self.table[next + LABEL] = label;
                if damaged == Damaged::Falling {
                    self.table[begin + LABEL] = larger;
                }
            }
            Damaged::Lost => {
                let link = self.link(relation, place);
                self.table[link] = self.table[begin + NEXT];
            }
            Damaged::IndexAbove => {
                let empty = (1..=RELATIONS).find(|of| self.table[layout::first(*of)] == 0);
                let end = self.begin(*chain.last()?) + NEXT;
                let at = random.pick(&[end, empty.map_or(end, layout::first)]);
                self.table[at] = random.pick(&[used as u64 + 1, u64::MAX]);
            }
            _ => self.add_above(random)?,
        }
        Some(())
    }

    /// Adds a record of a relation above R, with label and flag alone.
    fn add_above(&mut self, random: &mut Random) -> Option<()> {
        let (relations, index) = (self.relations(), self.used() + 1);
        if relations == RELATIONS || index > self.capacity() {
            return None;
        }
        let above = relations + 1 + random.below((RELATIONS - relations) as u64) as usize;
        let begin = self.begin(index);
        self.table[begin + RELATION] = above as u64;
        self.table[begin + LABEL] = label_of(self.table[CLOCK], 1);
        self.table[begin + FLAG] = random.below(3);
        self.table[layout::first(above)] = index as u64;
        self.table[USED] = index as u64;
        Some(())
    }

    /// Breaks one rule of the table, if it can be broken in this one.
    pub fn damage(&mut self, random: &mut Random, damaged: Damaged) -> Option<()> {
        if HEADERS.contains(&damaged) {
            self.break_header(random, damaged)
        } else if LINKS.contains(&damaged) {
            self.break_chain(random, damaged)
        } else if self.table[CLOCK] < LARGEST_COUNTER {
            self.break_record(random, damaged)
        } else {
            None
        }
    }
}

/// A key mask that names five fields, or one above F.
fn wrong_key(random: &mut Random, fields: usize, broken: Broken) -> Option<u64> {
    let mut named: Vec<usize> = (1..=fields).collect();
    random.shuffle(&mut named);
    if broken == Broken::FiveInKey {
        return (fields > 4).then(|| mask(&named[..random.pick(&[5, 5, fields])]));
    }
    let others = random.below(1 + fields.min(3) as u64) as usize;
    let far =
        random.pick(&[fields + 1, fields + 1, OLD.fields + 1, NEW.fields, NEW.fields + 1, 64]);
    Some(mask(&named[..others]) | mask(&[far.max(fields + 1)]))
}

/// What a call is lent, changed so; where that cannot be, another.
pub fn lent_with(
    random: &mut Random,
    way: Way,
    change: impl Fn(&mut Random, &mut Lent) -> Option<()>,
) -> Lent {
    loop {
        let mut lent = Contents::some(random).lent(way);
        if change(random, &mut lent).is_some() {
            return lent.stale_or_not(random);
        }
    }
}

/// How many items each rule has.
fn times(way: Way) -> u64 {
    ENOUGH[(way.call != WIDENING.call) as usize]
}

fn broken(items: &mut Items, random: &mut Random, way: Way) {
    for broken in BROKEN {
        for _ in 0..times(way) {
            let lent = lent_with(random, way, |random, lent| lent.break_schema(random, broken));
            items.push_with(2, lent.item(SCHEMAS));
        }
    }
}

fn damaged(items: &mut Items, random: &mut Random, way: Way) {
    for damaged in [&HEADERS[..], &RECORDS, &LINKS].concat() {
        let category = if LINKS.contains(&damaged) { CHAINS } else { WORDS };
        for _ in 0..times(way) {
            let lent = lent_with(random, way, |random, lent| lent.damage(random, damaged));
            items.push_with(3, lent.item(category));
        }
    }
}

/// One word of the schema, the header, a record or the words above the records is changed.
fn one_word(items: &mut Items, random: &mut Random, way: Way) {
    for round in 0..100 {
        let lent = lent_with(random, way, |random, lent| {
            let (end, length) = (way.from.record(lent.used()), lent.table.len());
            let (words, from, to) = match round % 4 {
                0 => (&mut lent.schema, 0, way.from.schema()),
                1 => (&mut lent.table, 0, HEADER),
                2 => (&mut lent.table, HEADER, end),
                _ if end == length => return None,
                _ => (&mut lent.table, end, length),
            };
            let at = from + random.below((to - from) as u64) as usize;
            let (before, flipped) = (words[at], words[at] ^ (1 << random.below(64)));
            let more = before.wrapping_add(1);
            words[at] = random.pick(&[0, 1, 257, 65_536, u64::MAX, flipped, flipped, more, more]);
            (words[at] != before).then_some(())
        });
        items.push_item(lent.item(ONE_WORD));
    }
}

pub fn turn_damage(items: &mut Items, random: &mut Random) {
    for way in WAYS {
        broken(items, random, way);
        damaged(items, random, way);
        one_word(items, random, way);
    }
}
