//! Labels, registers and flags.

use crate::rules::{holds, rule, Rule};

pub const LARGEST_COUNTER: u64 = (1 << 40) - 1;
pub const LARGEST_REPLICA: u64 = 255;
pub const LARGEST_FLAG: u64 = 65_535;
pub const NONE: u64 = 0;
/// Every label is below this, 2^48.
pub const LABELS: u64 = (LARGEST_COUNTER + 1) * 256;

/// The label of a counter and a replica; 0 outside the limits.
pub fn label_of(counter: u64, replica: u64) -> u64 {
    let counter_fits = 1 <= counter && counter <= LARGEST_COUNTER;
    let replica_fits = 1 <= replica && replica <= LARGEST_REPLICA;
    if counter_fits && replica_fits {
        counter * 256 + replica
    } else {
        NONE
    }
}

pub fn counter(label: u64) -> u64 {
    label / 256
}

pub fn replica(label: u64) -> u64 {
    label % 256
}

pub fn is_label(word: u64) -> bool {
    word != NONE && label_of(counter(word), replica(word)) == word
}

pub fn is_label_or_none(word: u64) -> bool {
    word == NONE || is_label(word)
}

/// A label as counter, point, replica.
pub fn written(label: u64) -> String {
    format!("{}.{}", counter(label), replica(label))
}

#[derive(Clone, Copy, Debug, PartialEq, Eq, Default)]
pub struct Register {
    pub value: u64,
    pub stamp: u64,
}

/// Whether the value or the stamp differs from before.
pub fn register_changed(before: Register, after: Register) -> bool {
    rule(Rule::ChangedValue) && after.value != before.value
        || rule(Rule::ChangedStamp) && after.stamp != before.stamp
}

/// Whether the flag differs from before.
pub fn flag_changed(before: u64, after: u64) -> bool {
    rule(Rule::ChangedFlag) && after != before
}

/// The larger stamp, with equal stamps the larger value; and whether it differs from `a`, which was
/// there before.
pub fn join_registers(a: Register, b: Register) -> (Register, bool) {
    let by = if a.stamp != b.stamp { Rule::LargerStamp } else { Rule::LargerValue };
    let left_is_larger = if a.stamp != b.stamp { a.stamp > b.stamp } else { a.value > b.value };
    let joined = if rule(by) && left_is_larger { a } else { b };
    let before = if rule(Rule::RegisterBefore) { a } else { b };
    (joined, register_changed(before, joined))
}

/// The larger flag; and whether it differs from `a`, which was there before.
pub fn join_flags(a: u64, b: u64) -> (u64, bool) {
    let joined = if rule(Rule::LargerFlag) { a.max(b) } else { b };
    let before = if rule(Rule::FlagBefore) { a } else { b };
    (joined, flag_changed(before, joined))
}

pub fn is_deleted(flag: u64) -> bool {
    flag % 2 == 1
}

/// Adds 1 to an even flag. What is no flag is left as it is.
pub fn delete(flag: u64) -> u64 {
    if flag > LARGEST_FLAG || !holds(Rule::DeletesEven, !is_deleted(flag)) {
        flag
    } else {
        flag + 1
    }
}

/// Adds 1 to an odd flag. The calls refuse to redo 65,535, above which there is no flag; it and
/// what is no flag are left as they are.
pub fn redo(flag: u64) -> u64 {
    if flag < LARGEST_FLAG && holds(Rule::RedoesOdd, is_deleted(flag)) {
        flag + 1
    } else {
        flag
    }
}
