use crate::error::told;
use crate::layout::{
    block_word, COUNT_WORD, FIELDS, KEY_WORDS, KIND_WORDS, MOST_RELATIONS, SCHEMA_WORDS,
};
use crate::{raw, Error};

const PLAIN: u64 = 1;
const ABORT: u64 = 16;
const PROPAGATION: u64 = 32;

/// The kind of a field.
#[derive(Clone, Copy, Debug, PartialEq, Eq, Hash)]
pub enum Kind {
    /// A plain value.
    Plain,
    /// A reference to this relation; the record keeps its target in the list.
    Abort(usize),
    /// A reference to this relation; the record leaves the list with its target.
    Propagation(usize),
}

impl Kind {
    /// The kind's word in a schema.
    pub const fn word(self) -> u64 {
        match self {
            Kind::Plain => PLAIN,
            Kind::Abort(relation) => ABORT + relation as u64,
            Kind::Propagation(relation) => PROPAGATION + relation as u64,
        }
    }

    /// The kind that this word is in a schema, if it is one.
    pub fn from_word(word: u64) -> Option<Kind> {
        let most = MOST_RELATIONS as u64;
        match word {
            PLAIN => Some(Kind::Plain),
            _ if ABORT < word && word <= ABORT + most => Some(Kind::Abort((word - ABORT) as usize)),
            _ if PROPAGATION < word && word <= PROPAGATION + most => {
                Some(Kind::Propagation((word - PROPAGATION) as usize))
            }
            _ => None,
        }
    }
}

/// The storage of a schema that a [`SchemaBuilder`] made.
#[derive(Clone, Copy, Debug, PartialEq, Eq)]
pub struct SchemaWords([u64; SCHEMA_WORDS]);

impl AsRef<[u64]> for SchemaWords {
    fn as_ref(&self) -> &[u64] {
        &self.0
    }
}

/// A schema that is not broken, in [`SCHEMA_WORDS`] words of any storage.
///
/// It comes from a [`SchemaBuilder`], or from words.
///
/// ```
/// use herd::{Error, Kind, Schema, SchemaBuilder, SCHEMA_WORDS};
///
/// let built = SchemaBuilder::new().relation().plain().key(&[1]).build()?;
/// let stored: Vec<u64> = built.words().to_vec();
///
/// let schema = Schema::new(stored)?;
/// assert_eq!(schema.relations(), 1);
/// assert_eq!(schema.fields(1), 1);
/// assert_eq!(schema.kind(1, 1), Some(Kind::Plain));
///
/// assert_eq!(Schema::new([0; SCHEMA_WORDS]), Err(Error::SchemaBroken));
/// assert_eq!(Schema::new([0; SCHEMA_WORDS - 1]), Err(Error::LengthOrIndex));
/// # Ok::<(), Error>(())
/// ```
#[derive(Clone, Debug, PartialEq, Eq)]
pub struct Schema<W = SchemaWords> {
    words: W,
}

impl<W: AsRef<[u64]>> Schema<W> {
    /// The schema of these words.
    ///
    /// Refusals: [`Error::LengthOrIndex`], [`Error::SchemaBroken`].
    pub fn new(words: W) -> Result<Schema<W>, Error> {
        told(raw::schema_check(words.as_ref()))?;
        Ok(Schema { words })
    }

    /// The schema of words that the library wrote as one.
    pub(crate) const fn given(words: W) -> Schema<W> {
        Schema { words }
    }

    /// The words, as they are stored or sent.
    pub fn words(&self) -> &[u64] {
        self.words.as_ref()
    }

    /// The storage.
    pub fn into_words(self) -> W {
        self.words
    }

    /// The number of relations.
    pub fn relations(&self) -> usize {
        self.words().first().map_or(0, |count| *count as usize)
    }

    /// The number of fields of a relation; 0 if there is no such relation.
    pub fn fields(&self, relation: usize) -> usize {
        kinds(self.words(), relation).len()
    }

    /// The kind of a field; both numbers count from 1.
    pub fn kind(&self, relation: usize, field: usize) -> Option<Kind> {
        let word = kinds(self.words(), relation).get(field.checked_sub(1)?)?;
        Kind::from_word(*word)
    }
}

/// The kinds of the fields of a relation, in the words of a schema.
pub(crate) fn kinds(schema: &[u64], relation: usize) -> &[u64] {
    if !(1..=MOST_RELATIONS).contains(&relation) {
        return &[];
    }
    let block = block_word(relation);
    let fields = schema.get(block + COUNT_WORD).map_or(0, |count| *count as usize);
    schema.get(block + KIND_WORDS..).and_then(|kinds| kinds.get(..fields)).unwrap_or(&[])
}

/// Makes a schema: relations in their order, of each the fields and then its keys.
///
/// A relation has the number of its place, from 1, and so has a field in its relation. Every step is
/// a `const fn`. What has no place in a schema, as a field too many or a third key, is refused by
/// [`build`](SchemaBuilder::build).
///
/// ```
/// use herd::{Error, SchemaBuilder};
///
/// const GROUP: usize = 1;
/// const COW: usize = 2;
/// const FARM: SchemaBuilder = SchemaBuilder::new()
///     .relation() // 1 group: name
///     .plain()
///     .key(&[1])
///     .relation() // 2 cow: tag, group
///     .plain()
///     .abort(GROUP)
///     .key(&[1])
///     .relation() // 3 milking: cow, grams
///     .propagation(COW)
///     .plain();
///
/// let schema = FARM.build()?;
/// assert_eq!(schema.relations(), 3);
///
/// // A reference to a relation that there is not.
/// assert_eq!(FARM.abort(4).build(), Err(Error::SchemaBroken));
/// # Ok::<(), Error>(())
/// ```
///
/// A relation has up to [`FIELDS`]. Treatments with all of them, the last one the cow; the keys are
/// the ninth field, a receipt, and drug, minute and cow together:
///
/// ```
/// use herd::{Error, SchemaBuilder, FIELDS};
///
/// const COW: usize = 1;
/// let cows = SchemaBuilder::new().relation().plain().key(&[1]);
/// let treatments = (1..FIELDS).fold(cows.relation(), |schema, _| schema.plain());
/// let treatments = treatments.propagation(COW).key(&[9]).key(&[10, 11, 12]);
/// assert_eq!(treatments.build()?.fields(2), 12);
///
/// // There is no thirteenth.
/// assert_eq!(treatments.plain().build(), Err(Error::SchemaBroken));
/// # Ok::<(), Error>(())
/// ```
#[derive(Clone, Copy, Debug)]
pub struct SchemaBuilder {
    words: [u64; SCHEMA_WORDS],
    relations: usize,
    broken: bool,
}

impl SchemaBuilder {
    /// No relation yet.
    pub const fn new() -> SchemaBuilder {
        SchemaBuilder { words: [0; SCHEMA_WORDS], relations: 0, broken: false }
    }

    /// Begins the next relation.
    pub const fn relation(mut self) -> SchemaBuilder {
        if self.relations == MOST_RELATIONS {
            self.broken = true;
        } else {
            self.relations += 1;
            self.words[0] = self.relations as u64;
        }
        self
    }

    /// Adds a plain field.
    pub const fn plain(self) -> SchemaBuilder {
        self.field(Kind::Plain)
    }

    /// Adds a reference to a relation with abort.
    pub const fn abort(self, relation: usize) -> SchemaBuilder {
        self.field(Kind::Abort(relation))
    }

    /// Adds a reference to a relation with propagation.
    pub const fn propagation(self, relation: usize) -> SchemaBuilder {
        self.field(Kind::Propagation(relation))
    }

    /// Adds a field of this kind.
    pub const fn field(mut self, kind: Kind) -> SchemaBuilder {
        let fits = match kind {
            Kind::Plain => true,
            Kind::Abort(relation) | Kind::Propagation(relation) => relation <= MOST_RELATIONS,
        };
        if !fits || self.relations == 0 || self.words[self.block() + COUNT_WORD] == FIELDS as u64 {
            self.broken = true;
            return self;
        }
        let block = self.block();
        let count = self.words[block + COUNT_WORD];
        self.words[block + KIND_WORDS + count as usize] = kind.word();
        self.words[block + COUNT_WORD] = count + 1;
        self
    }

    /// Adds a key, of one to four fields by their numbers; a relation has at most two.
    pub const fn key(mut self, fields: &[usize]) -> SchemaBuilder {
        let mut mask = 0;
        let mut at = 0;
        while at < fields.len() {
            if fields[at] < 1 || FIELDS < fields[at] {
                self.broken = true;
                return self;
            }
            mask |= 1 << (fields[at] - 1);
            at += 1;
        }
        if self.relations == 0 || mask == 0 {
            self.broken = true;
            return self;
        }
        let first = self.block() + KEY_WORDS;
        if self.words[first] == 0 {
            self.words[first] = mask;
        } else if self.words[first + 1] == 0 {
            self.words[first + 1] = mask;
        } else {
            self.broken = true;
        }
        self
    }

    /// The schema.
    ///
    /// Refusal: [`Error::SchemaBroken`].
    pub fn build(self) -> Result<Schema, Error> {
        if self.broken {
            return Err(Error::SchemaBroken);
        }
        Schema::new(SchemaWords(self.words))
    }

    /// The schema of a builder that is known to make one; a step that was broken does not compile.
    pub(crate) const fn known(self) -> Schema {
        assert!(!self.broken);
        Schema { words: SchemaWords(self.words) }
    }

    /// The word at which the block of the last relation begins.
    const fn block(&self) -> usize {
        block_word(self.relations)
    }
}

impl Default for SchemaBuilder {
    fn default() -> SchemaBuilder {
        SchemaBuilder::new()
    }
}
