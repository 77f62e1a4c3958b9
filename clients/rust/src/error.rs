use core::fmt;

/// Why a call was refused, with the page's numbers. A refused call changes nothing.
///
/// The calls check in number order, and answer the lowest number that applies. Later versions may
/// have more numbers; one that this crate does not know is [`Error::Other`].
///
/// ```
/// use herd::Error;
///
/// assert_eq!(Error::Full.number(), 11);
/// assert_eq!(Error::from_number(11), Some(Error::Full));
/// assert_eq!(Error::SchemaBroken.to_string(), "schema broken");
/// ```
#[derive(Clone, Copy, Debug, PartialEq, Eq, PartialOrd, Ord, Hash)]
#[non_exhaustive]
pub enum Error {
    /// A lent slice other than an insertion's values has a wrong length, or a record index is 0,
    /// above used or above N.
    LengthOrIndex,
    /// The schema is broken.
    SchemaBroken,
    /// The own table, in a comparison the first, is not well-formed; in a search for a record, what
    /// it reads of the table; between old and new tables, the table turned.
    OwnNotWellFormed,
    /// The other table, in a comparison the second, is not well-formed.
    OtherNotWellFormed,
    /// The relation is not 1 to R, or the replica is not 1 to 255 at start.
    RelationOrReplica,
    /// The record to edit is not shown.
    NotShown,
    /// The field is not 1 to F, the value count is wrong, or a reference is neither 0 nor a label.
    FieldOrValue,
    /// A nonempty new target is not shown.
    TargetNotShown,
    /// A standing record conflicts with the new values on a key.
    Conflict,
    /// Another standing record references the record by abort.
    Referenced,
    /// The merge needs more than N distinct records, or an insertion finds used = N.
    Full,
    /// The clock is 2^40 − 1.
    ClockAtEnd,
    /// A flag to be redone is 65,535.
    FlagAtEnd,
    /// A schema to be turned back has a relation with more than eight fields.
    TooManyFields,
    /// A number that this version of the crate does not know, as a later library may answer it.
    Other(u64),
}

impl Error {
    /// Those that this version knows, in number order.
    pub const ALL: &'static [Error] = &[
        Error::LengthOrIndex,
        Error::SchemaBroken,
        Error::OwnNotWellFormed,
        Error::OtherNotWellFormed,
        Error::RelationOrReplica,
        Error::NotShown,
        Error::FieldOrValue,
        Error::TargetNotShown,
        Error::Conflict,
        Error::Referenced,
        Error::Full,
        Error::ClockAtEnd,
        Error::FlagAtEnd,
        Error::TooManyFields,
    ];

    /// The page's number, 1 or above.
    pub const fn number(self) -> u64 {
        match self {
            Error::LengthOrIndex => 1,
            Error::SchemaBroken => 2,
            Error::OwnNotWellFormed => 3,
            Error::OtherNotWellFormed => 4,
            Error::RelationOrReplica => 5,
            Error::NotShown => 6,
            Error::FieldOrValue => 7,
            Error::TargetNotShown => 8,
            Error::Conflict => 9,
            Error::Referenced => 10,
            Error::Full => 11,
            Error::ClockAtEnd => 12,
            Error::FlagAtEnd => 13,
            Error::TooManyFields => 14,
            Error::Other(number) => number,
        }
    }

    /// The refusal of this number; none for 0, which is a call that was done.
    pub fn from_number(number: u64) -> Option<Error> {
        if number == 0 {
            return None;
        }
        let known = Error::ALL.iter().find(|error| error.number() == number);
        Some(known.copied().unwrap_or(Error::Other(number)))
    }
}

/// In the page's words, which `herd_answer_text` of the C header has too.
impl fmt::Display for Error {
    fn fmt(&self, f: &mut fmt::Formatter<'_>) -> fmt::Result {
        f.write_str(match self {
            Error::LengthOrIndex => {
                "a lent slice other than an insertion's values has a wrong length, \
                 or a record index is 0, above used or above N"
            }
            Error::SchemaBroken => "schema broken",
            Error::OwnNotWellFormed => "own table not well-formed",
            Error::OtherNotWellFormed => "other table not well-formed",
            Error::RelationOrReplica => "relation not 1 to R, or replica not 1 to 255 at start",
            Error::NotShown => "record to edit is not shown",
            Error::FieldOrValue => {
                "field not 1 to F, wrong value count, reference neither 0 nor a label"
            }
            Error::TargetNotShown => "nonempty new target not shown",
            Error::Conflict => {
                "insertion: a standing record conflicts with the new one; \
                 update: another standing record would conflict on a key that names the field"
            }
            Error::Referenced => "deletion: another standing record references it by abort",
            Error::Full => "merge needs more than N distinct records; insertion with used = N",
            Error::ClockAtEnd => "insertion or update with clock 2^40 - 1",
            Error::FlagAtEnd => "a flag to be redone is 65,535",
            Error::TooManyFields => {
                "a schema to be turned back has a relation with more than eight fields"
            }
            Error::Other(_) => "no answer of this version",
        })
    }
}

impl core::error::Error for Error {}

/// The answer of a call as a result.
pub(crate) fn told(number: u64) -> Result<(), Error> {
    match Error::from_number(number) {
        None => Ok(()),
        Some(error) => Err(error),
    }
}
