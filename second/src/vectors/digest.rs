//! The digest of a list of words.

/// The modulus of the digest, 2^40 − 87.
pub const MODULUS: u64 = 1_099_511_627_689;
pub const FACTOR: u64 = 1_000_003;

pub fn digest(sum: u64, word: u64) -> u64 {
    ((sum % MODULUS) * FACTOR + word % MODULUS) % MODULUS
}
