//! The schema.

use crate::layout::{
    self, Form, ABORT, FIELD_COUNT, KEYS, KEY_FIELDS, KINDS, NEW, OLD, PLAIN, PROPAGATION,
    RELATIONS, RELATION_COUNT,
};
use crate::rules::{holds, rule, to_twelve, Rule};
use crate::{need, Answer, Refusal};

#[derive(Clone, Copy, Debug, PartialEq, Eq)]
pub enum Kind {
    Plain,
    Abort(u64),
    Propagation(u64),
}

impl Kind {
    /// The relation that a reference leads to.
    pub fn target(self) -> Option<u64> {
        match self {
            Kind::Plain => None,
            Kind::Abort(relation) | Kind::Propagation(relation) => Some(relation),
        }
    }

    /// The word of a schema that tells it.
    pub fn word(self) -> u64 {
        match self {
            Kind::Plain => PLAIN,
            Kind::Abort(relation) => layout::abort(relation),
            Kind::Propagation(relation) => layout::propagation(relation),
        }
    }

    pub fn abort_target(self) -> Option<u64> {
        match self {
            Kind::Abort(relation) => Some(relation),
            _ => None,
        }
    }
}

#[derive(Clone, Debug, PartialEq, Eq)]
pub struct Relation {
    pub kinds: Vec<Kind>,
    /// For each key the fields it names, counted from 0.
    pub keys: Vec<Vec<usize>>,
    /// The key masks; 0 is no key.
    pub masks: [u64; KEYS],
}

#[derive(Clone, Debug, PartialEq, Eq)]
pub struct Schema {
    pub relations: Vec<Relation>,
}

impl Schema {
    /// The relation of this number, which counts from 1.
    pub fn relation(&self, number: u64) -> Option<&Relation> {
        if number == 0 || number > self.relations.len() as u64 {
            return None;
        }
        self.relations.get(number as usize - 1)
    }

    /// The words of the schema in a form; of fields that it lacks there are none.
    pub fn words_in(&self, form: Form) -> Vec<u64> {
        let mut words = vec![0; form.schema()];
        words[RELATION_COUNT] = self.relations.len() as u64;
        for (at, relation) in self.relations.iter().enumerate() {
            let block = &mut words[form.block(at + 1)..form.block(at + 2)];
            block[FIELD_COUNT] = relation.kinds.len() as u64;
            for (field, kind) in relation.kinds.iter().take(form.fields).enumerate() {
                block[KINDS + field] = kind.word();
            }
            block[form.masks()..form.block_zero()].copy_from_slice(&relation.masks);
        }
        words
    }
}

fn read_kind(word: u64, relations: u64) -> Option<Kind> {
    let most = |by: Rule| if rule(by) { relations } else { RELATIONS as u64 };
    if word == PLAIN {
        Some(Kind::Plain)
    } else if ABORT < word && word <= ABORT + most(Rule::AbortWithinRelations) {
        Some(Kind::Abort(word - ABORT))
    } else if PROPAGATION < word && word <= PROPAGATION + most(Rule::PropagationWithinRelations) {
        Some(Kind::Propagation(word - PROPAGATION))
    } else if rule(Rule::KnownKind) {
        None
    } else {
        Some(Kind::Plain)
    }
}

fn read_key(mask: u64, fields: usize) -> Option<Vec<usize>> {
    let mask = if rule(Rule::KeysToTwelve) { mask } else { mask % (1 << OLD.fields) };
    let within = holds(Rule::KeyWithinFields, mask < 1 << fields);
    if within && holds(Rule::MostKeyFields, mask.count_ones() <= KEY_FIELDS) {
        Some((0..fields).filter(|field| mask >> field & 1 == 1).collect())
    } else {
        None
    }
}

fn read_block(form: Form, block: &[u64], relations: u64) -> Option<Relation> {
    let (told, most) = (block[FIELD_COUNT], form.fields as u64);
    let some = holds(Rule::SomeField, 1 <= told);
    let within = rule(Rule::FieldsToTwelve) || told <= OLD.fields as u64;
    if !some || !within || !holds(Rule::MostFields, told <= most) {
        return None;
    }
    let fields = told.min(most) as usize;
    let (words, rest) = block[KINDS..form.masks()].split_at(fields);
    let mut kinds = Vec::new();
    for (field, word) in words.iter().enumerate() {
        let read = field < to_twelve(Rule::KindsToTwelve);
        kinds.push(if read { read_kind(*word, relations)? } else { Kind::Plain });
    }
    let mut above = rest.iter().take(to_twelve(Rule::ZeroKindsToTwelve).saturating_sub(fields));
    if !holds(Rule::KindsAboveFields, above.all(|word| *word == 0))
        || !holds(Rule::LastWordOfBlock, block[form.block_zero()] == 0)
    {
        return None;
    }
    let (mut keys, mut masks) = (Vec::new(), [0; KEYS]);
    masks.copy_from_slice(&block[form.masks()..form.block_zero()]);
    for mask in masks {
        let key = read_key(mask, fields)?;
        if !key.is_empty() {
            keys.push(key);
        }
    }
    Some(Relation { kinds, keys, masks })
}

/// The schema that these words tell, if they are not broken.
pub fn read(words: &[u64]) -> Option<Schema> {
    read_in(NEW, words)
}

/// The same of words in a form.
pub fn read_in(form: Form, words: &[u64]) -> Option<Schema> {
    if words.len() != form.schema() {
        return None;
    }
    let told = words[RELATION_COUNT];
    let some = holds(Rule::SomeRelation, 1 <= told);
    if !some || !holds(Rule::MostRelations, told <= RELATIONS as u64) {
        return None;
    }
    let count = told.min(RELATIONS as u64);
    let mut relations = Vec::new();
    for number in 1..=RELATIONS {
        let block = &words[form.block(number)..form.block(number + 1)];
        if number as u64 <= count {
            relations.push(read_block(form, block, count)?);
        } else if !holds(Rule::BlocksAboveRelations, block.iter().all(|word| *word == 0)) {
            return None;
        }
    }
    Some(Schema { relations })
}

pub fn schema_check(schema: &[u64]) -> Answer<()> {
    need(schema.len() == layout::SCHEMA, Refusal::LengthOrIndex)?;
    need(read(schema).is_some(), Refusal::BrokenSchema)
}
