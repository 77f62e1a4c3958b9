//! The numbers of the layout: of a schema, of a table's header, of its records. A table is the
//! header, then [`RECORD_WORDS`] for each record.

/// Fields of a record, and of a relation in the schema.
pub const FIELDS: usize = 12;

/// Relations of a schema.
pub const MOST_RELATIONS: usize = 8;

/// Fields of a key.
pub const MOST_KEY_FIELDS: usize = 4;

/// A relation's block of the schema: field count, kinds, two key masks, a zero.
pub const BLOCK_WORDS: usize = FIELDS + 4;

/// Words of a schema.
pub const SCHEMA_WORDS: usize = 1 + MOST_RELATIONS * BLOCK_WORDS;

/// The words of a block: the field count.
pub const COUNT_WORD: usize = 0;

/// The words of a block: the first kind.
pub const KIND_WORDS: usize = 1;

/// The words of a block: the first key mask.
pub const KEY_WORDS: usize = KIND_WORDS + FIELDS;

/// Words of a table before its records.
pub const HEADER_WORDS: usize = 16;

/// The words of the header: the replica number.
pub const REPLICA_WORD: usize = 0;

/// The words of the header: the clock.
pub const CLOCK_WORD: usize = 1;

/// The words of the header: the number of used records.
pub const USED_WORD: usize = 2;

/// The words of the header: the first record of relation 1.
pub const FIRST_WORDS: usize = 4;

/// The words of a record: the next one of its relation.
pub const NEXT_WORD: usize = 0;

/// The words of a record: its relation.
pub const RELATION_WORD: usize = 1;

/// The words of a record: its label.
pub const LABEL_WORD: usize = 2;

/// The words of a record: its flag.
pub const FLAG_WORD: usize = 3;

/// Words of a record before its values: next, relation, label, flag.
pub const HEAD_WORDS: usize = 4;

/// Words of a record: the head, a value and a stamp for each field.
pub const RECORD_WORDS: usize = HEAD_WORDS + 2 * FIELDS;

/// Records of the largest table.
pub const MOST_RECORDS: usize = 4096;

/// Records of a delta.
pub const DELTA_RECORDS: usize = FIELDS + 1;

/// Words of a delta.
pub const DELTA_WORDS: usize = table_words(DELTA_RECORDS);

/// Words of a table of N records.
pub const fn table_words(records: usize) -> usize {
    HEADER_WORDS + RECORD_WORDS * records
}

/// The word at which the record of an index begins; the index counts from 1.
pub const fn record_word(index: usize) -> usize {
    table_words(index - 1)
}

/// The word at which the block of a relation begins; the relation counts from 1.
pub const fn block_word(relation: usize) -> usize {
    1 + BLOCK_WORDS * (relation - 1)
}
