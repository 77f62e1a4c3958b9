//! The numbers of the layout, each once; the others follow from them.

use std::ops::Range;

/// The form of schemas and tables: what follows from the number of fields.
#[derive(Clone, Copy, Debug, PartialEq, Eq)]
pub struct Form {
    /// The fields that a relation has at most.
    pub fields: usize,
}

/// The form that all calls take, of request F-7.
pub const NEW: Form = Form { fields: 12 };
/// The form before that request.
pub const OLD: Form = Form { fields: 8 };

pub const FIELDS: usize = NEW.fields;
/// The fields, counted from 0, that the old form lacks.
pub const NEW_FIELDS: Range<usize> = OLD.fields..NEW.fields;
pub const RELATIONS: usize = 8;
pub const KEYS: usize = 2;
/// The fields that a key names at most.
pub const KEY_FIELDS: u32 = 4;

// The words of a schema: the number of relations, then a block for each.
pub const RELATION_COUNT: usize = 0;
pub const BLOCKS: usize = 1;
pub const SCHEMA: usize = NEW.schema();

// The words of a block: the field count, the kinds, the key masks, a zero.
pub const FIELD_COUNT: usize = 0;
pub const KINDS: usize = 1;
pub const MASKS: usize = NEW.masks();
pub const BLOCK_ZERO: usize = NEW.block_zero();
pub const BLOCK: usize = NEW.block_words();

// The kinds of a field; a reference to relation r adds r.
pub const PLAIN: u64 = 1;
pub const ABORT: u64 = 16;
pub const PROPAGATION: u64 = 32;

// The words of a table's header: after a zero the first record of each relation, then zeros.
pub const REPLICA: usize = 0;
pub const CLOCK: usize = 1;
pub const USED: usize = 2;
pub const ZERO: usize = 3;
pub const FIRSTS: usize = 4;
pub const ZEROS: usize = FIRSTS + RELATIONS;
pub const HEADER: usize = 16;

// The words of a record.
pub const NEXT: usize = 0;
pub const RELATION: usize = 1;
pub const LABEL: usize = 2;
pub const FLAG: usize = 3;
pub const VALUES: usize = 4;
pub const STAMPS: usize = NEW.stamps();
pub const RECORD: usize = NEW.record_words();

/// The records that a table has at most.
pub const CAPACITY: usize = 4_096;
pub const DELTA_CAPACITY: usize = NEW.delta_capacity();
pub const DELTA: usize = NEW.delta();
/// The records that the list program takes at most.
pub const LIST_CAPACITY: usize = 200;
/// The bytes of a word.
pub const WORD: usize = 8;

impl Form {
    /// Where the key masks of a block begin.
    pub const fn masks(self) -> usize {
        KINDS + self.fields
    }

    /// Where the zero of a block stands.
    pub const fn block_zero(self) -> usize {
        self.masks() + KEYS
    }

    pub const fn block_words(self) -> usize {
        self.block_zero() + 1
    }

    /// Where the block of a relation begins.
    pub const fn block(self, relation: usize) -> usize {
        BLOCKS + self.block_words() * (relation - 1)
    }

    /// The words of a schema.
    pub const fn schema(self) -> usize {
        self.block(RELATIONS + 1)
    }

    /// Where the stamps of a record begin.
    pub const fn stamps(self) -> usize {
        VALUES + self.fields
    }

    pub const fn record_words(self) -> usize {
        self.stamps() + self.fields
    }

    /// The words of a table of this many records.
    pub const fn table(self, capacity: usize) -> usize {
        HEADER + self.record_words() * capacity
    }

    /// Where the record at a position begins; positions count from 0.
    pub const fn record(self, at: usize) -> usize {
        self.table(at)
    }

    /// A delta has the edited record and a record for each field.
    pub const fn delta_capacity(self) -> usize {
        1 + self.fields
    }

    /// The words of a delta.
    pub const fn delta(self) -> usize {
        self.table(self.delta_capacity())
    }
}

/// The words of a table of this many records.
pub const fn table(capacity: usize) -> usize {
    NEW.table(capacity)
}

/// Where the record at a position begins; positions count from 0.
pub const fn record(at: usize) -> usize {
    NEW.record(at)
}

/// Where the index of the first record of a relation stands.
pub const fn first(relation: usize) -> usize {
    FIRSTS + relation - 1
}

/// Where the block of a relation begins.
pub const fn block(relation: usize) -> usize {
    NEW.block(relation)
}

/// The mask of a key that names these fields, counted from 1.
pub const fn mask(fields: &[usize]) -> u64 {
    let (mut mask, mut at) = (0, 0);
    while at < fields.len() {
        mask |= 1 << (fields[at] - 1);
        at += 1;
    }
    mask
}

/// The kind of a reference with abort.
pub const fn abort(relation: u64) -> u64 {
    ABORT + relation
}

/// The kind of a reference with propagation.
pub const fn propagation(relation: u64) -> u64 {
    PROPAGATION + relation
}
