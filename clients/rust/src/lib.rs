//! Tables of records that several replicas edit apart and merge later: safe functions over the
//! static libraries `herd` and `herdbook`.
//!
//! The library has no heap and no state. A caller lends it slices of 64-bit words: a schema, a
//! table, a delta. Every call is total. Bad schemas, damaged tables and wrong arguments are refused
//! with an [`Error`], and a refused call changes nothing. Tables that took in the same edits, in
//! whatever order, show the same list.
//!
//! - [`SchemaBuilder`] makes a [`Schema`]: relations, fields, references, keys.
//! - [`Table`] is started, edited and merged; each edit writes a [`Delta`], which is enough to bring
//!   it to the other replicas; a merge tells how many records it changed.
//! - [`Table::compare`] tells of two copies which one must take in the other, as [`Compared`].
//! - [`Table::find`] tells whether a record is known, by relation and label, and its index.
//! - [`old`] turns tables of versions before 4.0.0 into those of this version, and back.
//! - [`Marks`] say which records are shown, and [`List`] reads them in order.
//! - [`words_to_bytes`] and [`words_from_bytes`] are for files and messages.
//! - [`version_fits`] tells whether the linked library fits this crate; ask it at start-up.
//! - [`book`] is the herd book of a barn, with calls in the barn's own words under a fixed schema.
//! - [`raw`] has the calls over plain slices and numbers, [`layout`] the numbers of the words.
//!
//! The crate is `no_std` and needs no heap; storage is the caller's.
//!
//! ```
//! use herd::{table_words, Delta, Error, Marks, Schema, SchemaBuilder, Table};
//!
//! const GROUP: usize = 1;
//! const COW: usize = 2;
//! const MILKING: usize = 3;
//! const RECORDS: usize = 16;
//!
//! fn schema() -> Result<Schema, Error> {
//!     SchemaBuilder::new()
//!         .relation() // group: name
//!         .plain()
//!         .key(&[1])
//!         .relation() // cow: tag, group
//!         .plain()
//!         .abort(GROUP)
//!         .key(&[1])
//!         .relation() // milking: cow, grams
//!         .propagation(COW)
//!         .plain()
//!         .build()
//! }
//!
//! assert!(herd::version_fits());
//! let schema = schema()?;
//! let mut delta = Delta::new();
//! let mut robot = Table::start([0; table_words(RECORDS)], 1)?;
//! let mut office = Table::start([0; table_words(RECORDS)], 2)?;
//!
//! let group = office.insert(&schema, &mut delta, GROUP, &[12])?;
//! let cow = office.insert(&schema, &mut delta, COW, &[40, group.word()])?;
//! robot.merge(&schema, &office)?;
//!
//! robot.insert(&schema, &mut delta, MILKING, &[cow.word(), 9_000])?;
//! office.merge(&schema, &delta)?;
//!
//! let marks = Marks::of(&schema, &office, [0; RECORDS])?;
//! let lines: Vec<String> = office.list(&schema, &marks)?.map(|r| r.to_string()).collect();
//! assert_eq!(lines, ["1 1.2 12", "2 2.2 40 1.2", "3 3.1 2.2 9000"]);
//! # Ok::<(), Error>(())
//! ```
//!
//! # Stack
//!
//! A call needs up to [`STACK`] bytes, whatever the size of the tables, and `include/herd.h` tells
//! the number of each; where the stack is smaller, call from a thread or task that has it. A call of
//! the herd book needs up to [`book::STACK`]. Both rose in 4.0.0 with the number of fields.

#![no_std]
#![deny(unsafe_code)]
#![warn(missing_docs)]

pub mod book;
mod bytes;
mod compared;
mod error;
mod label;
pub mod layout;
mod list;
pub mod old;
#[allow(unsafe_code)]
pub mod raw;
mod schema;
mod table;
mod version;

pub use bytes::{words_from_bytes, words_to_bytes, WORD_BYTES};
pub use compared::Compared;
pub use error::Error;
pub use label::Label;
pub use layout::{
    table_words, DELTA_RECORDS, DELTA_WORDS, FIELDS, MOST_KEY_FIELDS, MOST_RECORDS, MOST_RELATIONS,
    SCHEMA_WORDS,
};
pub use list::{List, Marks, Record};
pub use schema::{Kind, Schema, SchemaBuilder, SchemaWords};
pub use table::{Delta, Table};
pub use version::{version, version_fits, VERSION};

/// The stack that a call of the static library `herd` needs at most, in bytes, as `tools/stack`
/// measures it.
pub const STACK: usize = 152128;
