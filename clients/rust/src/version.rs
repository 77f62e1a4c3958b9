use crate::raw;

/// The version of this crate as one number: 4.1.0 is 40100.
///
/// A change of a parameter list, of a layout figure or of what a call answers raises the major part,
/// an addition the minor part, anything else the patch.
pub const VERSION: u64 = number(env!("CARGO_PKG_VERSION_MAJOR")) * 10_000
    + number(env!("CARGO_PKG_VERSION_MINOR")) * 100
    + number(env!("CARGO_PKG_VERSION_PATCH"));

/// The version of the linked library, made as [`VERSION`] is.
pub fn version() -> u64 {
    raw::version()
}

/// Whether the linked library fits this crate: the same major part, and at least its minor part.
///
/// ```
/// assert!(herd::version_fits(), "the library is of version {}", herd::version());
/// ```
pub fn version_fits() -> bool {
    fits(version(), VERSION)
}

const fn fits(library: u64, wanted: u64) -> bool {
    library / 10_000 == wanted / 10_000 && library / 100 >= wanted / 100
}

/// The number that decimal digits write.
const fn number(digits: &str) -> u64 {
    let digits = digits.as_bytes();
    let mut number = 0;
    let mut at = 0;
    while at < digits.len() {
        number = number * 10 + (digits[at] - b'0') as u64;
        at += 1;
    }
    number
}

#[cfg(test)]
mod tests {
    use super::{fits, number};

    #[test]
    fn the_major_part_is_equal_and_the_minor_part_at_least_as_large() {
        let wanted = 3_04_05;
        for library in [3_04_00, 3_04_05, 3_04_99, 3_05_00] {
            assert!(fits(library, wanted), "{library}");
        }
        for library in [0, 2_04_05, 2_99_99, 3_03_99, 4_00_00, 4_04_05] {
            assert!(!fits(library, wanted), "{library}");
        }
    }

    #[test]
    fn digits_are_read() {
        assert_eq!((number("0"), number("7"), number("120")), (0, 7, 120));
    }
}
