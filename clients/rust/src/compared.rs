use core::fmt;

/// What a comparison says of two tables, the first and the second.
///
/// A table is behind if the merge of both has exactly the other's clock, records, registers and
/// flags, and the table itself has not. It must take in the other one.
///
/// ```
/// use herd::Compared;
///
/// assert_eq!(Compared::Neither.number(), 4);
/// assert_eq!(Compared::from_number(4), Some(Compared::Neither));
/// assert_eq!(Compared::Alike.to_string(), "the tables are alike");
/// ```
#[derive(Clone, Copy, Debug, PartialEq, Eq, Hash)]
pub enum Compared {
    /// The tables are alike: nothing is to be merged.
    Alike,
    /// The first is behind: it must take in the second.
    FirstBehind,
    /// The second is behind: it must take in the first.
    SecondBehind,
    /// Neither contains the other: each must take in the other.
    Neither,
}

impl Compared {
    /// All of them, in number order.
    pub const ALL: &'static [Compared] =
        &[Compared::Alike, Compared::FirstBehind, Compared::SecondBehind, Compared::Neither];

    /// The number, 1 to 4, which [`raw::compare`](crate::raw::compare) hands back.
    pub const fn number(self) -> u64 {
        match self {
            Compared::Alike => 1,
            Compared::FirstBehind => 2,
            Compared::SecondBehind => 3,
            Compared::Neither => 4,
        }
    }

    /// The verdict of this number; none for 0, which is a refusal, and above 4.
    pub fn from_number(number: u64) -> Option<Compared> {
        Compared::ALL.iter().find(|verdict| verdict.number() == number).copied()
    }
}

/// In the words that `herd_verdict_text` of the C header has too.
impl fmt::Display for Compared {
    fn fmt(&self, f: &mut fmt::Formatter<'_>) -> fmt::Result {
        f.write_str(match self {
            Compared::Alike => "the tables are alike",
            Compared::FirstBehind => "the first table is behind and must take in the second",
            Compared::SecondBehind => "the second table is behind and must take in the first",
            Compared::Neither => {
                "neither table contains the other, and each must take in the other"
            }
        })
    }
}
