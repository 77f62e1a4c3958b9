use crate::error::told;
use crate::layout::{HEAD_WORDS, LABEL_WORD, RELATION_WORD};
use crate::schema::{kinds, Kind};
use crate::{raw, Error, Label, Schema, Table};
use core::fmt;
use core::iter::FusedIterator;

/// Which records of a table are shown: a byte for each, N bytes of any storage.
///
/// ```
/// use herd::{table_words, Delta, Error, Marks, SchemaBuilder, Table};
///
/// let schema = SchemaBuilder::new().relation().plain().build()?;
/// let mut table = Table::start([0; table_words(4)], 1)?;
/// table.insert(&schema, &mut Delta::new(), 1, &[12])?;
///
/// let mut marks = Marks::of(&schema, &table, [0; 4])?;
/// assert_eq!(marks.shown(), 1);
/// assert!(marks.is_shown(1) && !marks.is_shown(2));
///
/// // The marks are those of the table as it was; after an edit or a merge they are made anew.
/// table.delete(&schema, &mut Delta::new(), 1)?;
/// assert_eq!(marks.refresh(&schema, &table)?, 0);
/// # Ok::<(), Error>(())
/// ```
///
/// Of records that share a key, from the oldest on, one is dropped exactly if an older one that is
/// kept has the key. Three cows with the keys ear tag and transponder, entered apart:
///
/// ```
/// use herd::{book, table_words, Delta, Error, Marks, Table};
///
/// let mut delta = Delta::new();
/// let mut office = Table::start([0; table_words(8)], 1)?;
/// book::enter_cow(&mut office, &mut delta, 40, 7, None)?;
/// for (replica, tag) in [(2, 40), (3, 41)] {
///     let mut robot = Table::start([0; table_words(8)], replica)?;
///     book::enter_cow(&mut robot, &mut delta, tag, 8, None)?;
///     office.merge(&book::SCHEMA, &robot)?;
/// }
///
/// // (40, 8) is dropped for (40, 7), and does not hide (41, 8).
/// let mut marks = Marks::of(&book::SCHEMA, &office, [0; 8])?;
/// assert_eq!([1, 2, 3].map(|index| marks.is_shown(index)), [true, false, true]);
///
/// // Without (40, 7), (40, 8) is kept and (41, 8) is not.
/// book::strike_cow(&mut office, &mut delta, 1)?;
/// marks.refresh(&book::SCHEMA, &office)?;
/// assert_eq!([1, 2, 3].map(|index| marks.is_shown(index)), [false, true, false]);
/// # Ok::<(), Error>(())
/// ```
#[derive(Clone, Debug, PartialEq, Eq)]
pub struct Marks<B> {
    bytes: B,
    shown: usize,
}

impl<B: AsRef<[u8]> + AsMut<[u8]>> Marks<B> {
    /// The marks of a table, written into these bytes, whose old contents are ignored.
    ///
    /// Refusals: [`Error::LengthOrIndex`], [`Error::OwnNotWellFormed`].
    pub fn of<S: AsRef<[u64]>, W: AsRef<[u64]>>(
        schema: &Schema<S>,
        table: &Table<W>,
        bytes: B,
    ) -> Result<Marks<B>, Error> {
        let mut marks = Marks { bytes, shown: 0 };
        marks.refresh(schema, table)?;
        Ok(marks)
    }

    /// Makes the marks anew, of the table as it is now; gives the count of shown records. A refusal
    /// leaves the marks as they were.
    ///
    /// Refusals: [`Error::LengthOrIndex`], [`Error::OwnNotWellFormed`].
    pub fn refresh<S: AsRef<[u64]>, W: AsRef<[u64]>>(
        &mut self,
        schema: &Schema<S>,
        table: &Table<W>,
    ) -> Result<usize, Error> {
        let mut shown = 0;
        told(raw::marks(schema.words(), table.words(), self.bytes.as_mut(), &mut shown))?;
        self.shown = shown as usize;
        Ok(self.shown)
    }
}

impl<B: AsRef<[u8]>> Marks<B> {
    /// The count of shown records.
    pub fn shown(&self) -> usize {
        self.shown
    }

    /// Whether the record of this index is shown.
    pub fn is_shown(&self, index: usize) -> bool {
        index.checked_sub(1).and_then(|at| self.bytes().get(at)) == Some(&1)
    }

    /// The bytes, 1 shown and 0 not.
    pub fn bytes(&self) -> &[u8] {
        self.bytes.as_ref()
    }
}

/// A shown record. Written, it is a line of the list program: relation, label and values, a
/// reference as a label, an empty one as `-`.
#[derive(Clone, Copy, Debug, PartialEq, Eq)]
pub struct Record<'a> {
    /// The index in the table, which update and delete take.
    pub index: usize,
    /// The relation, counted from 1.
    pub relation: usize,
    /// The label, which references to the record hold.
    pub label: Label,
    /// A value for each field of the relation, a part of the table.
    pub values: &'a [u64],
    kinds: &'a [u64],
}

impl<'a> Record<'a> {
    /// The target of a reference, by the number of its field; none if the reference is empty or the
    /// field is plain.
    pub fn reference(&self, field: usize) -> Option<Label> {
        let at = field.checked_sub(1)?;
        match Kind::from_word(*self.kinds.get(at)?)? {
            Kind::Plain => None,
            _ => Label::from_word(*self.values.get(at)?),
        }
    }
}

impl fmt::Display for Record<'_> {
    fn fmt(&self, f: &mut fmt::Formatter<'_>) -> fmt::Result {
        write!(f, "{} {}", self.relation, self.label)?;
        for (kind, value) in self.kinds.iter().zip(self.values) {
            match (Kind::from_word(*kind), Label::from_word(*value)) {
                (Some(Kind::Plain), _) => write!(f, " {value}")?,
                (_, Some(label)) => write!(f, " {label}")?,
                (_, None) => write!(f, " -")?,
            }
        }
        Ok(())
    }
}

/// The shown list: the marked records by relation, then label.
///
/// Each step is one call, which checks the whole table anew.
///
/// ```
/// use herd::{table_words, Delta, Error, Marks, SchemaBuilder, Table};
///
/// const GROUP: usize = 1;
/// const COW: usize = 2;
/// let schema = SchemaBuilder::new()
///     .relation()
///     .plain()
///     .key(&[1])
///     .relation()
///     .plain()
///     .abort(GROUP)
///     .key(&[1])
///     .build()?;
/// let mut table = Table::start([0; table_words(4)], 1)?;
/// let mut delta = Delta::new();
/// let group = table.insert(&schema, &mut delta, GROUP, &[12])?;
/// table.insert(&schema, &mut delta, COW, &[40, group.word()])?;
/// table.insert(&schema, &mut delta, COW, &[41, 0])?;
///
/// let marks = Marks::of(&schema, &table, [0; 4])?;
/// let lines: Vec<String> = table.list(&schema, &marks)?.map(|r| r.to_string()).collect();
/// assert_eq!(lines, ["1 1.1 12", "2 2.1 40 1.1", "2 3.1 41 -"]);
///
/// // A reader may stop, and go on from its place later.
/// let mut list = table.list(&schema, &marks)?;
/// list.next();
/// let place = list.place();
/// let cow = table.list_from(&schema, &marks, place)?.next().unwrap();
/// assert_eq!((cow.relation, cow.values, cow.reference(2)), (COW, &[40, 257][..], Some(group)));
/// # Ok::<(), Error>(())
/// ```
#[derive(Clone, Debug)]
pub struct List<'a> {
    schema: &'a [u64],
    table: &'a [u64],
    marks: &'a [u8],
    place: u64,
}

impl<'a> List<'a> {
    /// A list whose first step is accepted. None of the slices changes while it is read, so that all
    /// its steps are.
    pub(crate) fn new(
        schema: &'a [u64],
        table: &'a [u64],
        marks: &'a [u8],
        place: usize,
    ) -> Result<List<'a>, Error> {
        let list = List { schema, table, marks, place: place as u64 };
        list.clone().step()?;
        Ok(list)
    }

    /// The index of the record last given, 0 before the first.
    pub fn place(&self) -> usize {
        self.place as usize
    }

    /// The index of the next marked record, 0 at the end.
    fn step(&mut self) -> Result<usize, Error> {
        let mut given = 0;
        told(raw::walk(self.schema, self.table, self.marks, &mut self.place, &mut given))?;
        Ok(given as usize)
    }
}

impl<'a> Iterator for List<'a> {
    type Item = Record<'a>;

    fn next(&mut self) -> Option<Record<'a>> {
        let index = self.step().ok().filter(|index| *index != 0)?;
        let mut first = 0;
        told(raw::values(self.table, index, &mut first)).ok()?;
        let record = &self.table[first as usize - HEAD_WORDS..];
        let relation = record[RELATION_WORD] as usize;
        let label = Label::given(record[LABEL_WORD]);
        let kinds = kinds(self.schema, relation);
        let values = &record[HEAD_WORDS..HEAD_WORDS + kinds.len()];
        Some(Record { index, relation, label, values, kinds })
    }

    fn size_hint(&self) -> (usize, Option<usize>) {
        (0, Some(self.marks.len()))
    }
}

impl FusedIterator for List<'_> {}
