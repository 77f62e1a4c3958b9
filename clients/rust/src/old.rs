//! Between old and new tables: schemas and tables of versions up to 3.1.0, which have eight fields,
//! and their way into the form of this version and back.
//!
//! A robot that is sealed with such a version sends old tables and deltas. They are merged only
//! converted, by [`widen`]; [`narrow`] makes of a table of this version one that the robot reads. N
//! is the same on both sides, and so are R, each relation's field count, kinds and masks, the
//! header, and at each position the record's next, relation, label, flag, values and stamps; what
//! the old form lacks is 0. Old to new and back gives the same words.
//!
//! A length does not tell the form: 7 old records are as long as 5 of this version. A file or
//! message carries its version beside it.
//!
//! The replica number stays the same too: of an old table and the one that it was turned into only
//! one is edited further, or a label is handed out twice.
//!
//! ```
//! use herd::{old, table_words, Delta, Error, SchemaBuilder, Table, SCHEMA_WORDS};
//!
//! const COW: usize = 1;
//! let schema = SchemaBuilder::new().relation().plain().key(&[1]).build()?; // cow: ear tag
//! let mut office = Table::start([0; table_words(7)], 2)?;
//! office.insert(&schema, &mut Delta::new(), COW, &[40])?;
//!
//! // For a sealed robot: 97 words and 16 + 20 for each record. The words were used before.
//! let mut old_schema = [9; old::SCHEMA_WORDS];
//! let mut old_table = [9; old::table_words(7)];
//! old::narrow(&schema, &office, &mut old_schema, &mut old_table)?;
//!
//! // And back: the same words.
//! let words = ([9; SCHEMA_WORDS], [9; table_words(7)]);
//! let (again, table) = old::widen(&old_schema, &old_table, words.0, words.1)?;
//! assert_eq!((again.words(), table.words()), (schema.words(), office.words()));
//!
//! // Seven old records have the length of five new ones. They are no table of this version.
//! assert_eq!(old::table_words(7), table_words(5));
//! assert_eq!(office.merge(&schema, &old_table), Err(Error::OtherNotWellFormed));
//! # Ok::<(), Error>(())
//! ```

use crate::error::told;
use crate::layout::{self, HEADER_WORDS, HEAD_WORDS, MOST_RELATIONS};
use crate::{raw, Error, Schema, Table};

/// Fields of an old record, and of a relation in an old schema.
pub const FIELDS: usize = 8;

/// A relation's block of an old schema.
pub const BLOCK_WORDS: usize = layout::BLOCK_WORDS - layout::FIELDS + FIELDS;

/// Words of an old schema.
pub const SCHEMA_WORDS: usize = 1 + MOST_RELATIONS * BLOCK_WORDS;

/// Words of an old record.
pub const RECORD_WORDS: usize = HEAD_WORDS + 2 * FIELDS;

/// Records of an old delta.
pub const DELTA_RECORDS: usize = FIELDS + 1;

/// Words of an old delta.
pub const DELTA_WORDS: usize = table_words(DELTA_RECORDS);

/// Words of an old table of N records.
pub const fn table_words(records: usize) -> usize {
    HEADER_WORDS + RECORD_WORDS * records
}

/// Turns an old schema and an old table into those of this version, written into these words, whose
/// old contents are ignored. The table has [`table_words`](crate::table_words)`(N)` words for the N
/// of the old one. An old delta becomes a table with N = [`DELTA_RECORDS`], which is merged as one.
///
/// Refusals: [`Error::LengthOrIndex`], also for N that differ; [`Error::SchemaBroken`] of the old
/// schema; [`Error::OwnNotWellFormed`] of the old table.
///
/// ```
/// use herd::{old, table_words, Error, SchemaBuilder, Table, SCHEMA_WORDS};
///
/// // The schema that the sealed robot was built with: that of a table without records.
/// let schema = SchemaBuilder::new().relation().plain().build()?;
/// let empty = Table::start([0; table_words(0)], 1)?;
/// let mut old_schema = [0; old::SCHEMA_WORDS];
/// old::narrow(&schema, &empty, &mut old_schema, &mut [0; old::table_words(0)])?;
///
/// // Its delta, as it arrived: record 1.1 with the value 12. The table here has room for it.
/// let label = 257;
/// let mut received = [0; old::DELTA_WORDS];
/// received[..5].copy_from_slice(&[1, 1, 1, 0, 1]); // replica, clock, used, zero, first
/// received[16..21].copy_from_slice(&[0, 1, label, 0, 12]); // next, relation, label, flag, value
/// received[28] = label; // stamp
/// let words = ([0; SCHEMA_WORDS], [0; table_words(old::DELTA_RECORDS)]);
/// let (widened, delta) = old::widen(&old_schema, &received, words.0, words.1)?;
///
/// // It is merged under the own schema, which is the same.
/// assert_eq!(widened.words(), schema.words());
/// let mut table = Table::start([0; table_words(4)], 2)?;
/// assert_eq!(table.merge(&schema, &received), Err(Error::LengthOrIndex));
/// assert_eq!(table.merge(&schema, &delta)?, 1);
/// assert_eq!(table.values(1)?[0], 12);
/// # Ok::<(), Error>(())
/// ```
pub fn widen<S, W>(
    old_schema: &[u64],
    old_table: &[u64],
    mut schema: S,
    mut table: W,
) -> Result<(Schema<S>, Table<W>), Error>
where
    S: AsRef<[u64]> + AsMut<[u64]>,
    W: AsRef<[u64]> + AsMut<[u64]>,
{
    told(raw::widen(old_schema, old_table, schema.as_mut(), table.as_mut()))?;
    Ok((Schema::given(schema), Table::given(table)))
}

/// Turns a schema and a table back into old ones, written into these words, whose old contents are
/// ignored. The old table has [`table_words`]`(N)` words for the N of the table.
///
/// A delta is opened as a table first; cut behind its used records it is shorter. Uncut it becomes
/// an old table with N = [`DELTA_RECORDS`](crate::DELTA_RECORDS), which is no old delta.
///
/// The old table holds the same records. The list of a sealed robot may differ all the same: before
/// 3.0.0 a record that is not kept hid others too.
///
/// Refusals: [`Error::LengthOrIndex`], also for N that differ; [`Error::OwnNotWellFormed`];
/// [`Error::TooManyFields`].
///
/// ```
/// use herd::layout::USED_WORD;
/// use herd::{old, table_words, Delta, Error, SchemaBuilder, Table};
///
/// let nine = (0..9).fold(SchemaBuilder::new().relation(), |schema, _| schema.plain()).build()?;
/// let eight = (0..8).fold(SchemaBuilder::new().relation(), |schema, _| schema.plain()).build()?;
/// let mut table = Table::start([0; table_words(4)], 2)?;
/// let mut delta = Delta::new();
/// let (mut old_schema, mut old_table) = ([0; old::SCHEMA_WORDS], [0; old::table_words(4)]);
///
/// // Nine fields have no place in the old form, used or not.
/// let refused = old::narrow(&nine, &table, &mut old_schema, &mut old_table);
/// assert_eq!(refused, Err(Error::TooManyFields));
/// table.insert(&eight, &mut delta, 1, &[1, 2, 3, 4, 5, 6, 7, 8])?;
/// old::narrow(&eight, &table, &mut old_schema, &mut old_table)?;
///
/// // The delta of the insertion, cut behind its one record: 36 words go over the link.
/// let used = delta.words()[USED_WORD] as usize;
/// let cut = Table::open(&eight, &delta.words()[..table_words(used)])?;
/// let mut sent = [0; old::table_words(1)];
/// old::narrow(&eight, &cut, &mut old_schema, &mut sent)?;
/// assert_eq!((used, sent.len()), (1, 36));
/// # Ok::<(), Error>(())
/// ```
pub fn narrow<S: AsRef<[u64]>, W: AsRef<[u64]>>(
    schema: &Schema<S>,
    table: &Table<W>,
    old_schema: &mut [u64],
    old_table: &mut [u64],
) -> Result<(), Error> {
    told(raw::narrow(schema.words(), table.words(), old_schema, old_table))
}
