//! The second implementation of the herd tables.
//!
//! It is written from document 01, the requests of document 02 and the recorded readings alone, for
//! tests: vectors made with it are compared with what the library answers. It is in no shipped
//! artifact.
//!
//! Each call first decodes the lent words. The decoding of a broken schema, or of a table that is
//! not well-formed, fails, and this failure is the check. An accepted call works on the decoded
//! table and encodes it again. A lookup alone decodes no table: it reads and tests the records on its
//! way. No call panics on any words.

pub mod book;
pub mod cases;
pub mod compare;
pub mod edit;
pub mod inputs;
pub mod label;
pub mod layout;
pub mod list;
pub mod lookup;
pub mod merge;
pub mod random;
mod rules;
pub mod schema;
pub mod shapes;
pub mod shown;
pub mod table;
pub mod vectors;

#[cfg(test)]
mod tests;

pub use compare::{compare, Verdict};
pub use edit::{deletion, insertion, update};
pub use label::{delete, join_flags, join_registers, label_of, redo, Register};
pub use lookup::lookup;
pub use merge::merge;
pub use schema::schema_check;
pub use shapes::{narrow, widen};
pub use shown::{marks, walk, Step};
pub use table::{start, table_check, values};

/// The refusals, with the numbers of document 01 and of the requests.
#[derive(Clone, Copy, Debug, PartialEq, Eq, PartialOrd, Ord)]
pub enum Refusal {
    LengthOrIndex = 1,
    BrokenSchema = 2,
    OwnTable = 3,
    OtherTable = 4,
    RelationOrReplica = 5,
    NotShown = 6,
    FieldOrValue = 7,
    TargetNotShown = 8,
    Conflict = 9,
    Guarded = 10,
    Full = 11,
    ClockAtEnd = 12,
    FlagAtEnd = 13,
    TooManyFields = 14,
}

/// What a call hands back: its values, or the refusal.
pub type Answer<T> = Result<T, Refusal>;

/// The number of an answer: 0 for a call that was done.
pub fn number<T>(answer: &Answer<T>) -> u64 {
    match answer {
        Ok(_) => 0,
        Err(refusal) => *refusal as u64,
    }
}

/// `Ok` where `holds`, otherwise the refusal.
fn need(holds: bool, refusal: Refusal) -> Answer<()> {
    if holds {
        Ok(())
    } else {
        Err(refusal)
    }
}
