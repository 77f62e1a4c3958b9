//! The vector stream: items, each one call with its inputs and what must come back.
//!
//! docs/VECTORS.md tells the format. `item` says what an item is; `fleet` and `run` run it; `stream`
//! writes and reads the stream; `generate` makes the items.

mod digest;
mod edit;
mod fleet;
mod generate;
mod item;
mod run;
mod stream;

pub use crate::shown::given;
pub use edit::Edit;
pub use fleet::{Fleet, SLOTS};
pub use generate::{called_table, next_of_fleet, random_edit, some_fleet, vectors};
pub use item::*;
pub use run::run;
pub use stream::{expect, read, write};
