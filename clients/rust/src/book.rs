//! The herd book of a barn: groups, cows, robots, milkings, cleanings and treatments.
//!
//! The kinds of records and their fields are fixed ([`SCHEMA`]). For each kind one call enters a
//! record, one changes a field of a record, and one strikes a record off; [`find_milking`] finds a
//! shown milking by its label. The table is a [`Table`]: it is started, merged, compared, searched
//! and listed as any other, under [`SCHEMA`].
//!
//! A record has a label and an index. The label is given when it is entered, and is the same in all
//! tables: records name each other by it. The index is where the record stands in one table, and
//! stays there; the calls that change and strike off take it. A record just entered has the index
//! [`Table::used`]; a [`List`](crate::List) gives the index of each shown record, and
//! [`Table::find`] that of any record, by kind and label.
//!
//! To enter is [`Table::insert`] under the schema, to change is [`Table::update`], to strike off is
//! [`Table::delete`], each with its refusals. [`Error::NotShown`] is also the refusal of a record of
//! another kind; [`Error::RelationOrReplica`] does not occur.
//!
//! ```
//! use herd::{book, table_words, Delta, Error, Marks, Table};
//!
//! let mut delta = Delta::new();
//! let mut barn = Table::start([0; table_words(16)], 1)?;
//! let mut office = Table::start([0; table_words(16)], 2)?;
//!
//! // The office enters a group, a robot and a cow.
//! let group = book::enter_group(&mut office, &mut delta, 12)?;
//! let robot = book::enter_robot(&mut office, &mut delta, 1)?;
//! let cow = book::enter_cow(&mut office, &mut delta, 4711, 982, Some(group))?;
//! barn.merge(&book::SCHEMA, &office)?;
//!
//! // The robot milks her: 12,400 grams at 38.5 degrees in minute 300.
//! let milking =
//!     book::enter_milking(&mut barn, &mut delta, Some(cow), Some(robot), 12_400, 385, 300)?;
//! office.merge(&book::SCHEMA, &delta)?;
//!
//! // The office corrects the grams.
//! let index = book::find_milking(&office, milking)?.unwrap();
//! book::change_milking(&mut office, &mut delta, index, book::MILKING_GRAMS, 12_300)?;
//!
//! // A milking is no cow, and a cow that names her group keeps it in the book.
//! assert_eq!(book::strike_cow(&mut office, &mut delta, index), Err(Error::NotShown));
//! assert_eq!(book::strike_group(&mut office, &mut delta, 1), Err(Error::Referenced));
//!
//! let marks = Marks::of(&book::SCHEMA, &office, [0; 16])?;
//! let lines: Vec<String> = office.list(&book::SCHEMA, &marks)?.map(|r| r.to_string()).collect();
//! assert_eq!(lines, ["1 1.2 12", "2 3.2 4711 982 1.2", "3 2.2 1", "4 4.1 3.2 2.2 12300 385 300"]);
//! # Ok::<(), Error>(())
//! ```

use crate::error::told;
use crate::raw::book as raw;
use crate::{Delta, Error, Label, Schema, SchemaBuilder, Table};

/// The kinds of records, which are the relations of [`SCHEMA`]: a group.
pub const GROUP: usize = 1;

/// The kinds of records: a cow.
pub const COW: usize = 2;

/// The kinds of records: a robot.
pub const ROBOT: usize = 3;

/// The kinds of records: a milking.
pub const MILKING: usize = 4;

/// The kinds of records: a cleaning.
pub const CLEANING: usize = 5;

/// The kinds of records: a treatment.
pub const TREATMENT: usize = 6;

/// The fields of a group: its number. No two listed groups have the same.
pub const GROUP_NUMBER: usize = 1;

/// The fields of a cow: her ear tag. No two listed cows have the same.
pub const COW_EAR_TAG: usize = 1;

/// The fields of a cow: her transponder. No two listed cows have the same.
pub const COW_TRANSPONDER: usize = 2;

/// The fields of a cow: her group, which stays in the list as long as she does.
pub const COW_GROUP: usize = 3;

/// The fields of a robot: its number. No two listed robots have the same.
pub const ROBOT_NUMBER: usize = 1;

/// The fields of a milking: the cow. The milking leaves the list with her.
pub const MILKING_COW: usize = 1;

/// The fields of a milking: the robot, which stays in the list as long as the milking does.
pub const MILKING_ROBOT: usize = 2;

/// The fields of a milking: the milk, in grams.
pub const MILKING_GRAMS: usize = 3;

/// The fields of a milking: its temperature, in tenths of a degree.
pub const MILKING_TENTHS: usize = 4;

/// The fields of a milking: when, in minutes.
pub const MILKING_MINUTE: usize = 5;

/// The fields of a cleaning: the robot, which stays in the list as long as the cleaning does.
pub const CLEANING_ROBOT: usize = 1;

/// The fields of a cleaning: the minute of its start.
pub const CLEANING_START: usize = 2;

/// The fields of a cleaning: the minute of its end.
pub const CLEANING_END: usize = 3;

/// The fields of a treatment: the cow. The treatment leaves the list with her.
pub const TREATMENT_COW: usize = 1;

/// The fields of a treatment: the first minute in which her milk is withheld.
pub const TREATMENT_FIRST: usize = 2;

/// The fields of a treatment: the last minute in which her milk is withheld.
pub const TREATMENT_LAST: usize = 3;

/// The schema, for [`Table::merge`], [`Table::compare`], [`Table::find`], [`Marks`](crate::Marks)
/// and [`Table::list`].
///
/// ```
/// use herd::{book, Error, Kind, Schema};
///
/// assert_eq!(book::SCHEMA.relations(), book::TREATMENT);
/// let kind = book::SCHEMA.kind(book::COW, book::COW_GROUP);
/// assert_eq!(kind, Some(Kind::Abort(book::GROUP)));
/// # Schema::new(book::SCHEMA.words())?;
/// # Ok::<(), Error>(())
/// ```
pub static SCHEMA: Schema = SchemaBuilder::new()
    .relation() // group
    .plain()
    .key(&[GROUP_NUMBER])
    .relation() // cow
    .plain()
    .plain()
    .abort(GROUP)
    .key(&[COW_EAR_TAG])
    .key(&[COW_TRANSPONDER])
    .relation() // robot
    .plain()
    .key(&[ROBOT_NUMBER])
    .relation() // milking
    .propagation(COW)
    .abort(ROBOT)
    .plain()
    .plain()
    .plain()
    .relation() // cleaning
    .abort(ROBOT)
    .plain()
    .plain()
    .relation() // treatment
    .propagation(COW)
    .plain()
    .plain()
    .known();

/// The stack that a call of the static library `herdbook` needs at most, in bytes, as `tools/stack`
/// measures it.
pub const STACK: usize = 153280;

/// The word of a reference.
fn word(reference: Option<Label>) -> u64 {
    reference.map_or(Label::NONE, Label::word)
}

/// The label of a record that a call entered, or why it did not.
fn entered(call: impl FnOnce(&mut u64) -> u64) -> Result<Label, Error> {
    let mut label = 0;
    told(call(&mut label))?;
    Ok(Label::given(label))
}

/// Enters a group and gives its label.
///
/// Refusals: [`Error::LengthOrIndex`], [`Error::OwnNotWellFormed`], [`Error::Conflict`],
/// [`Error::Full`], [`Error::ClockAtEnd`].
///
/// ```
/// use herd::{book, table_words, Delta, Error, Table};
///
/// let mut table = Table::start([0; table_words(4)], 1)?;
/// let mut delta = Delta::new();
/// book::enter_group(&mut table, &mut delta, 12)?;
/// assert_eq!(book::enter_group(&mut table, &mut delta, 12), Err(Error::Conflict));
/// # Ok::<(), Error>(())
/// ```
pub fn enter_group<W: AsRef<[u64]> + AsMut<[u64]>>(
    own: &mut Table<W>,
    delta: &mut Delta,
    number: u64,
) -> Result<Label, Error> {
    entered(|label| raw::enter_group(own.words_mut(), delta.words_mut(), number, label))
}

/// Enters a cow, in a group or in none, and gives her label.
///
/// Refusals: [`Error::LengthOrIndex`], [`Error::OwnNotWellFormed`], [`Error::TargetNotShown`],
/// [`Error::Conflict`], [`Error::Full`], [`Error::ClockAtEnd`], [`Error::FlagAtEnd`].
///
/// ```
/// use herd::{book, table_words, Delta, Error, Label, Table};
///
/// let mut table = Table::start([0; table_words(4)], 1)?;
/// let mut delta = Delta::new();
/// let group = book::enter_group(&mut table, &mut delta, 12)?;
/// book::enter_cow(&mut table, &mut delta, 4711, 982, Some(group))?;
///
/// // Another cow with her transponder; a cow in a group that is not there.
/// let taken = book::enter_cow(&mut table, &mut delta, 4712, 982, None);
/// assert_eq!(taken, Err(Error::Conflict));
/// let lost = book::enter_cow(&mut table, &mut delta, 4712, 983, Label::of(9, 9));
/// assert_eq!(lost, Err(Error::TargetNotShown));
/// # Ok::<(), Error>(())
/// ```
pub fn enter_cow<W: AsRef<[u64]> + AsMut<[u64]>>(
    own: &mut Table<W>,
    delta: &mut Delta,
    ear_tag: u64,
    transponder: u64,
    group: Option<Label>,
) -> Result<Label, Error> {
    let (own, delta) = (own.words_mut(), delta.words_mut());
    entered(|label| raw::enter_cow(own, delta, ear_tag, transponder, word(group), label))
}

/// Enters a robot and gives its label.
///
/// Refusals: [`Error::LengthOrIndex`], [`Error::OwnNotWellFormed`], [`Error::Conflict`],
/// [`Error::Full`], [`Error::ClockAtEnd`].
pub fn enter_robot<W: AsRef<[u64]> + AsMut<[u64]>>(
    own: &mut Table<W>,
    delta: &mut Delta,
    number: u64,
) -> Result<Label, Error> {
    entered(|label| raw::enter_robot(own.words_mut(), delta.words_mut(), number, label))
}

/// Enters a milking, with grams, tenths of a degree and minute, and gives its label.
///
/// Refusals: [`Error::LengthOrIndex`], [`Error::OwnNotWellFormed`], [`Error::TargetNotShown`],
/// [`Error::Full`], [`Error::ClockAtEnd`], [`Error::FlagAtEnd`].
///
/// ```
/// use herd::{book, table_words, Delta, Error, Table};
///
/// let mut table = Table::start([0; table_words(4)], 1)?;
/// let mut delta = Delta::new();
/// let robot = book::enter_robot(&mut table, &mut delta, 1)?;
/// let cow = book::enter_cow(&mut table, &mut delta, 4711, 982, None)?;
/// book::enter_milking(&mut table, &mut delta, Some(cow), Some(robot), 12_400, 385, 300)?;
/// assert_eq!(table.values(table.used())?[book::MILKING_GRAMS - 1], 12_400);
/// # Ok::<(), Error>(())
/// ```
pub fn enter_milking<W: AsRef<[u64]> + AsMut<[u64]>>(
    own: &mut Table<W>,
    delta: &mut Delta,
    cow: Option<Label>,
    robot: Option<Label>,
    grams: u64,
    tenths: u64,
    minute: u64,
) -> Result<Label, Error> {
    let (own, delta) = (own.words_mut(), delta.words_mut());
    let (cow, robot) = (word(cow), word(robot));
    entered(|label| raw::enter_milking(own, delta, cow, robot, grams, tenths, minute, label))
}

/// Enters a cleaning, with its start and end minute, and gives its label.
///
/// Refusals: [`Error::LengthOrIndex`], [`Error::OwnNotWellFormed`], [`Error::TargetNotShown`],
/// [`Error::Full`], [`Error::ClockAtEnd`], [`Error::FlagAtEnd`].
pub fn enter_cleaning<W: AsRef<[u64]> + AsMut<[u64]>>(
    own: &mut Table<W>,
    delta: &mut Delta,
    robot: Option<Label>,
    start: u64,
    end: u64,
) -> Result<Label, Error> {
    let (own, delta) = (own.words_mut(), delta.words_mut());
    entered(|label| raw::enter_cleaning(own, delta, word(robot), start, end, label))
}

/// Enters a treatment, with the first and the last withheld minute, and gives its label.
///
/// Refusals: [`Error::LengthOrIndex`], [`Error::OwnNotWellFormed`], [`Error::TargetNotShown`],
/// [`Error::Full`], [`Error::ClockAtEnd`].
pub fn enter_treatment<W: AsRef<[u64]> + AsMut<[u64]>>(
    own: &mut Table<W>,
    delta: &mut Delta,
    cow: Option<Label>,
    first: u64,
    last: u64,
) -> Result<Label, Error> {
    let (own, delta) = (own.words_mut(), delta.words_mut());
    entered(|label| raw::enter_treatment(own, delta, word(cow), first, last, label))
}

/// Calls that change a field of a record.
macro_rules! changes {
    ($($(#[$told:meta])+ $change:ident;)+) => {$(
        $(#[$told])+
        pub fn $change<W: AsRef<[u64]> + AsMut<[u64]>>(
            own: &mut Table<W>,
            delta: &mut Delta,
            index: usize,
            field: usize,
            value: u64,
        ) -> Result<(), Error> {
            told(raw::$change(own.words_mut(), delta.words_mut(), index, field, value))
        }
    )+};
}

changes! {
    /// Changes one field of a shown group.
    ///
    /// Refusals: [`Error::LengthOrIndex`], [`Error::OwnNotWellFormed`], [`Error::NotShown`],
    /// [`Error::FieldOrValue`], [`Error::Conflict`], [`Error::ClockAtEnd`].
    change_group;

    /// Changes one field of a shown cow. A group is given by the word of its label, or 0 for none.
    ///
    /// Refusals: [`Error::LengthOrIndex`], [`Error::OwnNotWellFormed`], [`Error::NotShown`],
    /// [`Error::FieldOrValue`], [`Error::TargetNotShown`], [`Error::Conflict`],
    /// [`Error::ClockAtEnd`], [`Error::FlagAtEnd`].
    ///
    /// ```
    /// use herd::{book, table_words, Delta, Error, Table};
    ///
    /// let mut table = Table::start([0; table_words(4)], 1)?;
    /// let mut delta = Delta::new();
    /// let group = book::enter_group(&mut table, &mut delta, 12)?;
    /// book::enter_cow(&mut table, &mut delta, 4711, 982, None)?;
    /// let cow = table.used();
    ///
    /// book::change_cow(&mut table, &mut delta, cow, book::COW_GROUP, group.word())?;
    /// assert_eq!(table.values(cow)?[..3], [4711, 982, group.word()]);
    /// # Ok::<(), Error>(())
    /// ```
    change_cow;

    /// Changes one field of a shown robot.
    ///
    /// Refusals: [`Error::LengthOrIndex`], [`Error::OwnNotWellFormed`], [`Error::NotShown`],
    /// [`Error::FieldOrValue`], [`Error::Conflict`], [`Error::ClockAtEnd`].
    change_robot;

    /// Changes one field of a shown milking. A cow or a robot is given by the word of its label, or
    /// 0 for none.
    ///
    /// Refusals: [`Error::LengthOrIndex`], [`Error::OwnNotWellFormed`], [`Error::NotShown`],
    /// [`Error::FieldOrValue`], [`Error::TargetNotShown`], [`Error::ClockAtEnd`],
    /// [`Error::FlagAtEnd`].
    change_milking;

    /// Changes one field of a shown cleaning. A robot is given by the word of its label, or 0 for
    /// none.
    ///
    /// Refusals: [`Error::LengthOrIndex`], [`Error::OwnNotWellFormed`], [`Error::NotShown`],
    /// [`Error::FieldOrValue`], [`Error::TargetNotShown`], [`Error::ClockAtEnd`],
    /// [`Error::FlagAtEnd`].
    change_cleaning;

    /// Changes one field of a shown treatment. A cow is given by the word of her label, or 0 for
    /// none.
    ///
    /// Refusals: [`Error::LengthOrIndex`], [`Error::OwnNotWellFormed`], [`Error::NotShown`],
    /// [`Error::FieldOrValue`], [`Error::TargetNotShown`], [`Error::ClockAtEnd`].
    change_treatment;
}

/// Calls that strike a record off.
macro_rules! strikes {
    ($($(#[$told:meta])+ $strike:ident;)+) => {$(
        $(#[$told])+
        pub fn $strike<W: AsRef<[u64]> + AsMut<[u64]>>(
            own: &mut Table<W>,
            delta: &mut Delta,
            index: usize,
        ) -> Result<(), Error> {
            told(raw::$strike(own.words_mut(), delta.words_mut(), index))
        }
    )+};
}

strikes! {
    /// Strikes off a shown group in which no cow is. It stays in the table, and is no longer shown.
    ///
    /// Refusals: [`Error::LengthOrIndex`], [`Error::OwnNotWellFormed`], [`Error::NotShown`],
    /// [`Error::Referenced`].
    strike_group;

    /// Strikes off a shown cow; her milkings and treatments leave the list with her.
    ///
    /// Refusals: [`Error::LengthOrIndex`], [`Error::OwnNotWellFormed`], [`Error::NotShown`],
    /// [`Error::FlagAtEnd`].
    ///
    /// ```
    /// use herd::{book, table_words, Delta, Error, Table};
    ///
    /// let mut table = Table::start([0; table_words(4)], 1)?;
    /// let mut delta = Delta::new();
    /// book::enter_cow(&mut table, &mut delta, 4711, 982, None)?;
    /// let cow = table.used();
    ///
    /// // A cow is no robot, and is struck off once.
    /// assert_eq!(book::strike_robot(&mut table, &mut delta, cow), Err(Error::NotShown));
    /// book::strike_cow(&mut table, &mut delta, cow)?;
    /// assert_eq!(book::strike_cow(&mut table, &mut delta, cow), Err(Error::NotShown));
    /// # Ok::<(), Error>(())
    /// ```
    strike_cow;

    /// Strikes off a shown robot that no milking and no cleaning names.
    ///
    /// Refusals: [`Error::LengthOrIndex`], [`Error::OwnNotWellFormed`], [`Error::NotShown`],
    /// [`Error::Referenced`].
    strike_robot;

    /// Strikes off a shown milking.
    ///
    /// Refusals: [`Error::LengthOrIndex`], [`Error::OwnNotWellFormed`], [`Error::NotShown`],
    /// [`Error::FlagAtEnd`].
    strike_milking;

    /// Strikes off a shown cleaning.
    ///
    /// Refusals: [`Error::LengthOrIndex`], [`Error::OwnNotWellFormed`], [`Error::NotShown`],
    /// [`Error::FlagAtEnd`].
    strike_cleaning;

    /// Strikes off a shown treatment.
    ///
    /// Refusals: [`Error::LengthOrIndex`], [`Error::OwnNotWellFormed`], [`Error::NotShown`].
    strike_treatment;
}

/// The index of the shown milking with this label; none if no milking with it is shown.
///
/// Refusals: [`Error::LengthOrIndex`], [`Error::OwnNotWellFormed`].
///
/// ```
/// use herd::{book, table_words, Delta, Error, Table};
///
/// let mut table = Table::start([0; table_words(4)], 1)?;
/// let mut delta = Delta::new();
/// let cow = book::enter_cow(&mut table, &mut delta, 4711, 982, None)?;
/// let milking = book::enter_milking(&mut table, &mut delta, Some(cow), None, 9_000, 385, 300)?;
/// assert_eq!(book::find_milking(&table, milking)?, Some(2));
/// assert_eq!(book::find_milking(&table, cow)?, None);
///
/// // With the cow the milking leaves the list.
/// book::strike_cow(&mut table, &mut delta, 1)?;
/// assert_eq!(book::find_milking(&table, milking)?, None);
/// # Ok::<(), Error>(())
/// ```
pub fn find_milking<W: AsRef<[u64]>>(
    table: &Table<W>,
    label: Label,
) -> Result<Option<usize>, Error> {
    let mut index = 0;
    told(raw::find_milking(table.words(), label.word(), &mut index))?;
    Ok(Some(index as usize).filter(|index| *index != 0))
}
