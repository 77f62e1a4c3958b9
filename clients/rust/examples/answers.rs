//! The refusals and the verdicts of a comparison with their texts, a line each.

use herd::{Compared, Error};

fn main() {
    for error in Error::ALL {
        println!("{} {error}", error.number());
    }
    for verdict in Compared::ALL {
        println!("{} {verdict}", verdict.number());
    }
}
