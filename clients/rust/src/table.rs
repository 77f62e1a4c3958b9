use crate::error::told;
use crate::layout::{
    CLOCK_WORD, DELTA_WORDS, FIELDS, HEADER_WORDS, RECORD_WORDS, REPLICA_WORD, USED_WORD,
};
use crate::list::List;
use crate::{raw, Compared, Error, Label, Marks, Schema};

/// What an edit changed: a small table, to be merged into the tables of others.
///
/// An edit writes it whole, so one delta can be lent to each edit in turn. A refused edit leaves it
/// as it was.
#[derive(Clone, Debug, PartialEq, Eq)]
pub struct Delta([u64; DELTA_WORDS]);

impl Delta {
    /// A delta of zeros, which no edit has written yet.
    pub const fn new() -> Delta {
        Delta([0; DELTA_WORDS])
    }

    /// The delta of these words, as they were stored or received. The merge refuses what is none.
    ///
    /// Refusal: [`Error::LengthOrIndex`].
    pub fn from_words(words: &[u64]) -> Result<Delta, Error> {
        words.try_into().map(Delta).map_err(|_| Error::LengthOrIndex)
    }

    /// The words, as they are stored or sent.
    pub const fn words(&self) -> &[u64] {
        &self.0
    }

    /// The words, for a call to write.
    pub(crate) fn words_mut(&mut self) -> &mut [u64] {
        &mut self.0
    }
}

impl Default for Delta {
    fn default() -> Delta {
        Delta::new()
    }
}

impl AsRef<[u64]> for Delta {
    fn as_ref(&self) -> &[u64] {
        &self.0
    }
}

/// A table of one replica, in [`table_words`](crate::table_words)`(N)` words of any storage: an
/// array, a `Vec`, a lent slice.
///
/// For large N lend a slice or take a `Vec`: with N = 4,096 an array has 0.9 MB, a debug build copies
/// it on the stack, and the 2 MiB of a thread overflow.
///
/// Every call that takes a schema takes the one under which the table was made; under another it
/// answers [`Error::OwnNotWellFormed`] where the table does not fit it.
///
/// ```
/// use herd::{table_words, Delta, Error, Marks, SchemaBuilder, Table};
///
/// let schema = SchemaBuilder::new().relation().plain().key(&[1]).build()?;
/// let mut delta = Delta::new();
///
/// // Two robots, each with its own replica number.
/// let mut first = Table::start([0; table_words(8)], 1)?;
/// let mut second = Table::start(vec![0; table_words(20)], 2)?;
///
/// // Each edits its own table; a delta is enough to bring the edit to the other.
/// let label = first.insert(&schema, &mut delta, 1, &[12])?;
/// second.merge(&schema, &delta)?;
/// second.insert(&schema, &mut delta, 1, &[13])?;
///
/// // Or the whole table.
/// first.merge(&schema, &second)?;
///
/// let marks = Marks::of(&schema, &first, [0; 8])?;
/// let names: Vec<u64> = first.list(&schema, &marks)?.map(|record| record.values[0]).collect();
/// assert_eq!(label.to_string(), "1.1");
/// assert_eq!(names, [12, 13]);
/// # Ok::<(), Error>(())
/// ```
#[derive(Clone, Debug, PartialEq, Eq)]
pub struct Table<W> {
    words: W,
}

impl<W: AsRef<[u64]>> Table<W> {
    /// The table that these words hold, as they were stored or received.
    ///
    /// Refusals: [`Error::LengthOrIndex`], [`Error::OwnNotWellFormed`].
    ///
    /// ```
    /// use herd::{table_words, Error, SchemaBuilder, Table};
    ///
    /// let schema = SchemaBuilder::new().relation().plain().build()?;
    /// let stored = Table::start(vec![0; table_words(4)], 7)?.into_words();
    /// assert_eq!(Table::open(&schema, &stored[..])?.replica(), 7);
    ///
    /// let damaged = vec![0; table_words(4)];
    /// assert_eq!(Table::open(&schema, damaged), Err(Error::OwnNotWellFormed));
    /// # Ok::<(), Error>(())
    /// ```
    pub fn open<S: AsRef<[u64]>>(schema: &Schema<S>, words: W) -> Result<Table<W>, Error> {
        told(raw::table_check(schema.words(), words.as_ref()))?;
        Ok(Table { words })
    }

    /// The table of words that the library wrote as one.
    pub(crate) const fn given(words: W) -> Table<W> {
        Table { words }
    }

    /// The words, as they are stored or sent.
    pub fn words(&self) -> &[u64] {
        self.words.as_ref()
    }

    /// The storage.
    pub fn into_words(self) -> W {
        self.words
    }

    /// The replica number.
    pub fn replica(&self) -> u64 {
        self.word(REPLICA_WORD)
    }

    /// The clock: the largest counter that the table has seen.
    pub fn clock(&self) -> u64 {
        self.word(CLOCK_WORD)
    }

    /// The number of used records, shown or not. The record of an insertion has this index.
    pub fn used(&self) -> usize {
        self.word(USED_WORD) as usize
    }

    /// The number of records that the table can hold, N.
    pub fn capacity(&self) -> usize {
        self.words().len().saturating_sub(HEADER_WORDS) / RECORD_WORDS
    }

    /// The values of a record, one for each of [`FIELDS`](crate::FIELDS), a part of the table; those
    /// above the relation's fields are 0.
    ///
    /// Refusal: [`Error::LengthOrIndex`].
    pub fn values(&self, index: usize) -> Result<&[u64], Error> {
        let words = self.words();
        let mut first = 0;
        told(raw::values(words, index, &mut first))?;
        Ok(&words[first as usize..first as usize + FIELDS])
    }

    /// The shown list from its beginning, over marks made of this table.
    ///
    /// Refusals: [`Error::LengthOrIndex`], [`Error::OwnNotWellFormed`].
    pub fn list<'a, S: AsRef<[u64]>, B: AsRef<[u8]>>(
        &'a self,
        schema: &'a Schema<S>,
        marks: &'a Marks<B>,
    ) -> Result<List<'a>, Error> {
        self.list_from(schema, marks, 0)
    }

    /// The shown list after the record of this index, which is a list's
    /// [`place`](List::place); 0 is the beginning.
    ///
    /// Refusals: [`Error::LengthOrIndex`], [`Error::OwnNotWellFormed`].
    pub fn list_from<'a, S: AsRef<[u64]>, B: AsRef<[u8]>>(
        &'a self,
        schema: &'a Schema<S>,
        marks: &'a Marks<B>,
        place: usize,
    ) -> Result<List<'a>, Error> {
        List::new(schema.words(), self.words(), marks.bytes(), place)
    }

    /// Compares this table, the first, with another table or a delta, the second: which one is
    /// behind, and so must take in the other. The second one may be words as received: what is no
    /// table is refused. Both stay as they are.
    ///
    /// The contents are compared: clock, records, registers and flags. Replica numbers, the indices
    /// of records and the capacities play no part, and the merge of both need not have room in
    /// either.
    ///
    /// Refusals: [`Error::LengthOrIndex`], [`Error::OwnNotWellFormed`] of this table,
    /// [`Error::OtherNotWellFormed`] of the second.
    ///
    /// ```
    /// use herd::{table_words, Compared, Delta, Error, SchemaBuilder, Table};
    ///
    /// let schema = SchemaBuilder::new().relation().plain().build()?;
    /// let mut delta = Delta::new();
    /// let mut robot = Table::start([0; table_words(4)], 1)?;
    /// let mut office = Table::start([0; table_words(8)], 2)?;
    /// assert_eq!(robot.compare(&schema, &office)?, Compared::Alike);
    ///
    /// // The office inserts a record, and then so does the robot.
    /// office.insert(&schema, &mut delta, 1, &[12])?;
    /// assert_eq!(robot.compare(&schema, &office)?, Compared::FirstBehind);
    /// robot.insert(&schema, &mut delta, 1, &[13])?;
    /// assert_eq!(robot.compare(&schema, &office)?, Compared::Neither);
    ///
    /// // Each takes in the other.
    /// robot.merge(&schema, &office)?;
    /// assert_eq!(robot.compare(&schema, &office)?, Compared::SecondBehind);
    /// office.merge(&schema, &robot)?;
    /// assert_eq!(robot.compare(&schema, &office)?, Compared::Alike);
    /// # Ok::<(), Error>(())
    /// ```
    pub fn compare<S: AsRef<[u64]>, O: AsRef<[u64]> + ?Sized>(
        &self,
        schema: &Schema<S>,
        other: &O,
    ) -> Result<Compared, Error> {
        let mut verdict = 0;
        told(raw::compare(schema.words(), self.words(), other.as_ref(), &mut verdict))?;
        // An accepted call gives 1 to 4. With another number both merges are asked for, and nothing
        // is lost.
        Ok(Compared::from_number(verdict).unwrap_or(Compared::Neither))
    }

    /// Finds a record by relation and label: its index, or none if this table does not hold it. A
    /// record is found shown or not, also once it is deleted; [`update`](Table::update) and
    /// [`delete`](Table::delete) refuse one that is not shown themselves, and [`Marks`] tell which
    /// are.
    ///
    /// The walk goes along the chain of the relation from its oldest record on, and stops at the
    /// label, at a larger one, or at the end. The time grows with the records of the relation that
    /// are older than the label, and not with those of other relations.
    ///
    /// It is no table check: of the words it reads the header and the records on the way.
    ///
    /// Refusals: [`Error::LengthOrIndex`], [`Error::OwnNotWellFormed`],
    /// [`Error::RelationOrReplica`].
    ///
    /// ```
    /// use herd::{table_words, Delta, Error, Label, SchemaBuilder, Table};
    ///
    /// const COW: usize = 1;
    /// const ROBOT: usize = 2;
    /// let schema = SchemaBuilder::new().relation().plain().relation().plain().build()?;
    /// let mut table = Table::start([0; table_words(4)], 1)?;
    /// let mut delta = Delta::new();
    /// let cow = table.insert(&schema, &mut delta, COW, &[40])?;
    ///
    /// // By this label a cow is known, and no robot is; another cow is not known.
    /// assert_eq!(table.find(&schema, COW, cow)?, Some(1));
    /// assert_eq!(table.find(&schema, ROBOT, cow)?, None);
    /// let other = Label::of(9, 1).unwrap();
    /// assert_eq!(table.find(&schema, COW, other)?, None);
    ///
    /// // An edit takes the index. A deleted cow stays known.
    /// if let Some(index) = table.find(&schema, COW, cow)? {
    ///     table.delete(&schema, &mut delta, index)?;
    /// }
    /// assert_eq!(table.find(&schema, COW, cow)?, Some(1));
    /// assert_eq!(table.delete(&schema, &mut delta, 1), Err(Error::NotShown));
    ///
    /// assert_eq!(table.find(&schema, 3, cow), Err(Error::RelationOrReplica));
    /// # Ok::<(), Error>(())
    /// ```
    pub fn find<S: AsRef<[u64]>>(
        &self,
        schema: &Schema<S>,
        relation: usize,
        label: Label,
    ) -> Result<Option<usize>, Error> {
        let mut index = 0;
        told(raw::lookup(schema.words(), self.words(), relation, label.word(), &mut index))?;
        Ok(Some(index as usize).filter(|index| *index != 0))
    }

    fn word(&self, at: usize) -> u64 {
        self.words().get(at).copied().unwrap_or(0)
    }
}

impl<W: AsRef<[u64]> + AsMut<[u64]>> Table<W> {
    /// Starts an empty table of this replica, 1 to 255; the words are zeroed.
    ///
    /// Refusals: [`Error::LengthOrIndex`], [`Error::RelationOrReplica`].
    ///
    /// ```
    /// use herd::{table_words, Error, Table};
    ///
    /// assert_eq!(Table::start([0; table_words(8)], 1)?.capacity(), 8);
    /// assert_eq!(Table::start([0; table_words(8)], 256), Err(Error::RelationOrReplica));
    /// assert_eq!(Table::start([0; table_words(8) + 1], 1), Err(Error::LengthOrIndex));
    ///
    /// // The largest table, in words that are lent.
    /// let mut words = vec![0; table_words(4096)];
    /// assert_eq!(Table::start(&mut words[..], 1)?.capacity(), 4096);
    /// # Ok::<(), Error>(())
    /// ```
    pub fn start(mut words: W, replica: u64) -> Result<Table<W>, Error> {
        told(raw::start(words.as_mut(), replica))?;
        Ok(Table { words })
    }

    /// Merges another table, or a delta, into this one. The other one may be words as received: the
    /// merge refuses what is no table.
    ///
    /// Gives the number of old records of which a value, a stamp or the flag differs from before,
    /// each counted once, plus the number of records added. It is 0 for a copy of this table, and
    /// where only the clock is raised. It is about this table: a merge in the other direction may
    /// give another number. A robot sends on only if it is not 0.
    ///
    /// Refusals: [`Error::LengthOrIndex`], [`Error::OwnNotWellFormed`],
    /// [`Error::OtherNotWellFormed`], [`Error::Full`].
    ///
    /// ```
    /// use herd::{table_words, Delta, Error, SchemaBuilder, Table};
    ///
    /// let schema = SchemaBuilder::new().relation().plain().build()?;
    /// let mut table = Table::start([0; table_words(4)], 1)?;
    /// let mut other = Table::start([0; table_words(4)], 2)?;
    /// other.insert(&schema, &mut Delta::new(), 1, &[12])?;
    ///
    /// // The first merge brings a record, the second no news: there is nothing to send on.
    /// assert_eq!(table.merge(&schema, &other)?, 1);
    /// assert_eq!(table.merge(&schema, &other)?, 0);
    ///
    /// let received = [0xff; table_words(4)];
    /// assert_eq!(table.merge(&schema, &received), Err(Error::OtherNotWellFormed));
    /// # Ok::<(), Error>(())
    /// ```
    pub fn merge<S: AsRef<[u64]>, O: AsRef<[u64]> + ?Sized>(
        &mut self,
        schema: &Schema<S>,
        other: &O,
    ) -> Result<usize, Error> {
        let mut changed = 0;
        told(raw::merge(schema.words(), self.words.as_mut(), other.as_ref(), &mut changed))?;
        Ok(changed as usize)
    }

    /// Inserts a record and gives its label; it becomes the last used record. A reference is given
    /// by the word of its label, or 0 if it is empty.
    ///
    /// Refusals: [`Error::LengthOrIndex`], [`Error::OwnNotWellFormed`],
    /// [`Error::RelationOrReplica`], [`Error::FieldOrValue`], [`Error::TargetNotShown`],
    /// [`Error::Conflict`], [`Error::Full`], [`Error::ClockAtEnd`], [`Error::FlagAtEnd`].
    ///
    /// ```
    /// use herd::{table_words, Delta, Error, SchemaBuilder, Table};
    ///
    /// const GROUP: usize = 1;
    /// const COW: usize = 2;
    /// let schema = SchemaBuilder::new()
    ///     .relation()
    ///     .plain()
    ///     .relation()
    ///     .plain()
    ///     .abort(GROUP)
    ///     .key(&[1])
    ///     .build()?;
    /// let mut table = Table::start([0; table_words(4)], 1)?;
    /// let mut delta = Delta::new();
    ///
    /// let group = table.insert(&schema, &mut delta, GROUP, &[12])?;
    /// table.insert(&schema, &mut delta, COW, &[40, group.word()])?;
    /// let taken = table.insert(&schema, &mut delta, COW, &[40, 0]);
    /// assert_eq!(taken, Err(Error::Conflict));
    /// # Ok::<(), Error>(())
    /// ```
    pub fn insert<S: AsRef<[u64]>>(
        &mut self,
        schema: &Schema<S>,
        delta: &mut Delta,
        relation: usize,
        values: &[u64],
    ) -> Result<Label, Error> {
        let mut label = 0;
        let own = self.words.as_mut();
        told(raw::insert(schema.words(), own, &mut delta.0, relation, values, &mut label))?;
        Ok(Label::given(label))
    }

    /// Updates one field, counted from 1, of a shown record.
    ///
    /// Refusals: [`Error::LengthOrIndex`], [`Error::OwnNotWellFormed`], [`Error::NotShown`],
    /// [`Error::FieldOrValue`], [`Error::TargetNotShown`], [`Error::Conflict`],
    /// [`Error::ClockAtEnd`], [`Error::FlagAtEnd`].
    ///
    /// ```
    /// use herd::{table_words, Delta, Error, SchemaBuilder, Table};
    ///
    /// let schema = SchemaBuilder::new().relation().plain().build()?;
    /// let mut table = Table::start([0; table_words(4)], 1)?;
    /// let mut delta = Delta::new();
    ///
    /// table.insert(&schema, &mut delta, 1, &[12])?;
    /// let index = table.used();
    /// table.update(&schema, &mut delta, index, 1, 14)?;
    /// assert_eq!(table.values(index)?[0], 14);
    /// # Ok::<(), Error>(())
    /// ```
    pub fn update<S: AsRef<[u64]>>(
        &mut self,
        schema: &Schema<S>,
        delta: &mut Delta,
        index: usize,
        field: usize,
        value: u64,
    ) -> Result<(), Error> {
        let own = self.words.as_mut();
        told(raw::update(schema.words(), own, &mut delta.0, index, field, value))
    }

    /// Deletes a shown record. It stays in the table, and is no longer shown.
    ///
    /// Refusals: [`Error::LengthOrIndex`], [`Error::OwnNotWellFormed`], [`Error::NotShown`],
    /// [`Error::Referenced`], [`Error::FlagAtEnd`].
    ///
    /// ```
    /// use herd::{table_words, Delta, Error, SchemaBuilder, Table};
    ///
    /// let schema = SchemaBuilder::new().relation().plain().build()?;
    /// let mut table = Table::start([0; table_words(4)], 1)?;
    /// let mut delta = Delta::new();
    ///
    /// table.insert(&schema, &mut delta, 1, &[12])?;
    /// table.delete(&schema, &mut delta, 1)?;
    /// assert_eq!(table.delete(&schema, &mut delta, 1), Err(Error::NotShown));
    /// # Ok::<(), Error>(())
    /// ```
    pub fn delete<S: AsRef<[u64]>>(
        &mut self,
        schema: &Schema<S>,
        delta: &mut Delta,
        index: usize,
    ) -> Result<(), Error> {
        told(raw::delete(schema.words(), self.words.as_mut(), &mut delta.0, index))
    }

    /// The words, for a call to write.
    pub(crate) fn words_mut(&mut self) -> &mut [u64] {
        self.words.as_mut()
    }
}

impl<W: AsRef<[u64]>> AsRef<[u64]> for Table<W> {
    fn as_ref(&self) -> &[u64] {
        self.words()
    }
}
