use core::fmt;

/// The name of a record within its relation: counter × 256 + replica.
///
/// Labels compare as numbers, so the smaller one is older. It is written as counter, point, replica.
///
/// ```
/// use herd::Label;
///
/// let label = Label::of(2, 1).unwrap();
/// assert_eq!(label.word(), 513);
/// assert_eq!((label.counter(), label.replica()), (2, 1));
/// assert_eq!(label.to_string(), "2.1");
/// assert_eq!(Label::from_word(513), Some(label));
/// assert_eq!(Label::from_word(0), None); // an empty reference
/// ```
#[derive(Clone, Copy, Debug, PartialEq, Eq, PartialOrd, Ord, Hash)]
pub struct Label(u64);

impl Label {
    /// The largest counter, 2^40 − 1.
    pub const LARGEST_COUNTER: u64 = (1 << 40) - 1;
    /// The largest replica number.
    pub const LARGEST_REPLICA: u64 = 255;
    /// The word of an empty reference.
    pub const NONE: u64 = 0;

    /// The label of a counter, 1 to 2^40 − 1, and a replica, 1 to 255.
    pub const fn of(counter: u64, replica: u64) -> Option<Label> {
        let counter_fits = 1 <= counter && counter <= Label::LARGEST_COUNTER;
        if counter_fits && 1 <= replica && replica <= Label::LARGEST_REPLICA {
            Some(Label(counter * 256 + replica))
        } else {
            None
        }
    }

    /// The label that this word is, if it is one.
    pub const fn from_word(word: u64) -> Option<Label> {
        Label::of(word / 256, word % 256)
    }

    /// The label of a word that the library gave as one.
    pub(crate) const fn given(word: u64) -> Label {
        Label(word)
    }

    /// The label as a word, which is how a record's values hold it.
    pub const fn word(self) -> u64 {
        self.0
    }

    /// The counter, 1 to 2^40 − 1.
    pub const fn counter(self) -> u64 {
        self.0 / 256
    }

    /// The replica that gave the label, 1 to 255.
    pub const fn replica(self) -> u64 {
        self.0 % 256
    }
}

impl From<Label> for u64 {
    fn from(label: Label) -> u64 {
        label.word()
    }
}

impl fmt::Display for Label {
    fn fmt(&self, f: &mut fmt::Formatter<'_>) -> fmt::Result {
        write!(f, "{}.{}", self.counter(), self.replica())
    }
}
