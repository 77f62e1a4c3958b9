//! One edit of a table, as a value.

use crate::{deletion, insertion, number, update};

/// One edit of a table.
#[derive(Clone, Debug, PartialEq, Eq)]
pub enum Edit {
    Insertion { relation: u64, values: Vec<u64> },
    Update { index: u64, field: u64, value: u64 },
    Deletion { index: u64 },
}

impl Edit {
    /// The number of the answer, and the label.
    pub fn run(&self, schema: &[u64], own: &mut [u64], delta: &mut [u64]) -> (u64, u64) {
        match self {
            Edit::Insertion { relation, values } => {
                let answer = insertion(schema, own, delta, *relation, values);
                (number(&answer), answer.unwrap_or(0))
            }
            Edit::Update { index, field, value } => {
                (number(&update(schema, own, delta, *index, *field, *value)), 0)
            }
            Edit::Deletion { index } => (number(&deletion(schema, own, delta, *index)), 0),
        }
    }
}
