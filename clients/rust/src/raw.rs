//! The calls over plain slices. The answer is the page's number, 0 for a call that was done.
//!
//! Every call takes any words and any lengths. These functions are for words that are not known to
//! be a schema or a table; the types of this crate stand over them.

#[cfg(not(target_pointer_width = "64"))]
compile_error!("the static library herd is for targets with 64-bit pointers");

pub mod book;

mod c {
    extern "C" {
        pub fn herd_version() -> u64;
        pub fn herd_schema_check(schema: *const u64, schema_words: usize) -> u64;
        pub fn herd_table_check(
            schema: *const u64,
            schema_words: usize,
            table: *const u64,
            table_words: usize,
        ) -> u64;
        pub fn herd_start(table: *mut u64, table_words: usize, replica: u64) -> u64;
        pub fn herd_merge(
            schema: *const u64,
            schema_words: usize,
            own: *mut u64,
            own_words: usize,
            other: *const u64,
            other_words: usize,
            changed: *mut u64,
        ) -> u64;
        pub fn herd_compare(
            schema: *const u64,
            schema_words: usize,
            first: *const u64,
            first_words: usize,
            second: *const u64,
            second_words: usize,
            verdict: *mut u64,
        ) -> u64;
        pub fn herd_lookup(
            schema: *const u64,
            schema_words: usize,
            table: *const u64,
            table_words: usize,
            relation: usize,
            label: u64,
            index: *mut u64,
        ) -> u64;
        pub fn herd_widen(
            old_schema: *const u64,
            old_schema_words: usize,
            old_table: *const u64,
            old_table_words: usize,
            schema: *mut u64,
            schema_words: usize,
            table: *mut u64,
            table_words: usize,
        ) -> u64;
        pub fn herd_narrow(
            schema: *const u64,
            schema_words: usize,
            table: *const u64,
            table_words: usize,
            old_schema: *mut u64,
            old_schema_words: usize,
            old_table: *mut u64,
            old_table_words: usize,
        ) -> u64;
        pub fn herd_insert(
            schema: *const u64,
            schema_words: usize,
            own: *mut u64,
            own_words: usize,
            delta: *mut u64,
            delta_words: usize,
            relation: usize,
            values: *const u64,
            value_count: usize,
            label: *mut u64,
        ) -> u64;
        pub fn herd_update(
            schema: *const u64,
            schema_words: usize,
            own: *mut u64,
            own_words: usize,
            delta: *mut u64,
            delta_words: usize,
            index: usize,
            field: usize,
            value: u64,
        ) -> u64;
        pub fn herd_delete(
            schema: *const u64,
            schema_words: usize,
            own: *mut u64,
            own_words: usize,
            delta: *mut u64,
            delta_words: usize,
            index: usize,
        ) -> u64;
        pub fn herd_marks(
            schema: *const u64,
            schema_words: usize,
            table: *const u64,
            table_words: usize,
            marks: *mut u8,
            mark_count: usize,
            shown: *mut u64,
        ) -> u64;
        pub fn herd_walk(
            schema: *const u64,
            schema_words: usize,
            table: *const u64,
            table_words: usize,
            marks: *const u8,
            mark_count: usize,
            place: *mut u64,
            given: *mut u64,
        ) -> u64;
        pub fn herd_values(
            table: *const u64,
            table_words: usize,
            index: usize,
            first: *mut u64,
        ) -> u64;
    }
}

/// The version of the linked library.
pub fn version() -> u64 {
    // SAFETY: the call takes nothing.
    unsafe { c::herd_version() }
}

/// Whether the words are a schema that is not broken: 0, 1 or 2.
pub fn schema_check(schema: &[u64]) -> u64 {
    // SAFETY: the pointer and the length are those of a borrowed slice, which the call only reads.
    unsafe { c::herd_schema_check(schema.as_ptr(), schema.len()) }
}

/// Whether the words are a well-formed table under the schema: 0, 1, 2 or 3.
pub fn table_check(schema: &[u64], table: &[u64]) -> u64 {
    // SAFETY: each pointer and length are those of a borrowed slice, which the call only reads.
    unsafe { c::herd_table_check(schema.as_ptr(), schema.len(), table.as_ptr(), table.len()) }
}

/// Zeroes the table and writes the replica number: 0, 1 or 5.
pub fn start(table: &mut [u64], replica: u64) -> u64 {
    // SAFETY: the pointer and the length are those of a slice that is borrowed for writing.
    unsafe { c::herd_start(table.as_mut_ptr(), table.len(), replica) }
}

/// Merges the other table into the own one: 0, 1, 2, 3, 4 or 11. `changed` becomes the number of
/// old records of which a value, a stamp or the flag differs from before plus those added, 0 in a
/// refusal.
pub fn merge(schema: &[u64], own: &mut [u64], other: &[u64], changed: &mut u64) -> u64 {
    // SAFETY: each pointer and length are those of a borrowed slice; `own` and `changed` are
    // borrowed for writing, so that they overlap nothing else.
    unsafe {
        c::herd_merge(
            schema.as_ptr(),
            schema.len(),
            own.as_mut_ptr(),
            own.len(),
            other.as_ptr(),
            other.len(),
            changed,
        )
    }
}

/// Compares two tables: 0, 1, 2, 3 for the first or 4 for the second. `verdict` becomes 1 if they are
/// alike, 2 if the first is behind, 3 if the second is behind, 4 if neither contains the other, 0 in a
/// refusal.
pub fn compare(schema: &[u64], first: &[u64], second: &[u64], verdict: &mut u64) -> u64 {
    // SAFETY: each pointer and length are those of a borrowed slice, which the call only reads;
    // `verdict` is borrowed for writing, so that it overlaps nothing else.
    unsafe {
        c::herd_compare(
            schema.as_ptr(),
            schema.len(),
            first.as_ptr(),
            first.len(),
            second.as_ptr(),
            second.len(),
            verdict,
        )
    }
}

/// Looks up a record along the chain of its relation: 0, 1, 2, 3 or 5. `index` becomes its index, 0
/// where the table does not hold it and in a refusal. Any number may be asked for; one that is no
/// label is not known. It is no table check: what the walk does not read is not seen.
pub fn lookup(schema: &[u64], table: &[u64], relation: usize, label: u64, index: &mut u64) -> u64 {
    // SAFETY: each pointer and length are those of a borrowed slice, which the call only reads;
    // `index` is borrowed for writing, so that it overlaps nothing else.
    unsafe {
        c::herd_lookup(
            schema.as_ptr(),
            schema.len(),
            table.as_ptr(),
            table.len(),
            relation,
            label,
            index,
        )
    }
}

/// Turns an old schema and table into new ones with the same N: 0, 1, 2 or 3. Of `schema` and
/// `table` only the lengths are asked, and old contents are ignored.
pub fn widen(old_schema: &[u64], old_table: &[u64], schema: &mut [u64], table: &mut [u64]) -> u64 {
    // SAFETY: each pointer and length are those of a borrowed slice; `schema` and `table` are
    // borrowed for writing, so that they overlap nothing else.
    unsafe {
        c::herd_widen(
            old_schema.as_ptr(),
            old_schema.len(),
            old_table.as_ptr(),
            old_table.len(),
            schema.as_mut_ptr(),
            schema.len(),
            table.as_mut_ptr(),
            table.len(),
        )
    }
}

/// Turns a schema and a table back into old ones with the same N: 0, 1, 2, 3 or 14. Of `old_schema`
/// and `old_table` only the lengths are asked, and old contents are ignored.
pub fn narrow(schema: &[u64], table: &[u64], old_schema: &mut [u64], old_table: &mut [u64]) -> u64 {
    // SAFETY: each pointer and length are those of a borrowed slice; `old_schema` and `old_table`
    // are borrowed for writing, so that they overlap nothing else.
    unsafe {
        c::herd_narrow(
            schema.as_ptr(),
            schema.len(),
            table.as_ptr(),
            table.len(),
            old_schema.as_mut_ptr(),
            old_schema.len(),
            old_table.as_mut_ptr(),
            old_table.len(),
        )
    }
}

/// Inserts a record: 0, 1, 2, 3, 5, 7, 8, 9, 11, 12 or 13. `label` becomes its label, 0 in a
/// refusal.
pub fn insert(
    schema: &[u64],
    own: &mut [u64],
    delta: &mut [u64],
    relation: usize,
    values: &[u64],
    label: &mut u64,
) -> u64 {
    // SAFETY: each pointer and length are those of a borrowed slice; `own`, `delta` and `label` are
    // borrowed for writing, so that they overlap nothing else.
    unsafe {
        c::herd_insert(
            schema.as_ptr(),
            schema.len(),
            own.as_mut_ptr(),
            own.len(),
            delta.as_mut_ptr(),
            delta.len(),
            relation,
            values.as_ptr(),
            values.len(),
            label,
        )
    }
}

/// Updates one field of a shown record: 0, 1, 2, 3, 6, 7, 8, 9, 12 or 13.
pub fn update(
    schema: &[u64],
    own: &mut [u64],
    delta: &mut [u64],
    index: usize,
    field: usize,
    value: u64,
) -> u64 {
    // SAFETY: each pointer and length are those of a borrowed slice; `own` and `delta` are borrowed
    // for writing, so that they overlap nothing else.
    unsafe {
        c::herd_update(
            schema.as_ptr(),
            schema.len(),
            own.as_mut_ptr(),
            own.len(),
            delta.as_mut_ptr(),
            delta.len(),
            index,
            field,
            value,
        )
    }
}

/// Deletes a shown record: 0, 1, 2, 3, 6, 10 or 13.
pub fn delete(schema: &[u64], own: &mut [u64], delta: &mut [u64], index: usize) -> u64 {
    // SAFETY: each pointer and length are those of a borrowed slice; `own` and `delta` are borrowed
    // for writing, so that they overlap nothing else.
    unsafe {
        c::herd_delete(
            schema.as_ptr(),
            schema.len(),
            own.as_mut_ptr(),
            own.len(),
            delta.as_mut_ptr(),
            delta.len(),
            index,
        )
    }
}

/// Writes one mark for each record, 1 shown and 0 not: 0, 1, 2 or 3. `shown` becomes the count of
/// shown records, 0 in a refusal.
pub fn marks(schema: &[u64], table: &[u64], marks: &mut [u8], shown: &mut u64) -> u64 {
    // SAFETY: each pointer and length are those of a borrowed slice; `marks` and `shown` are
    // borrowed for writing, so that they overlap nothing else.
    unsafe {
        c::herd_marks(
            schema.as_ptr(),
            schema.len(),
            table.as_ptr(),
            table.len(),
            marks.as_mut_ptr(),
            marks.len(),
            shown,
        )
    }
}

/// Moves the place to the next marked record in list order: 0, 1, 2 or 3. `given` becomes its index,
/// 0 at the end and in a refusal.
pub fn walk(schema: &[u64], table: &[u64], marks: &[u8], place: &mut u64, given: &mut u64) -> u64 {
    // SAFETY: each pointer and length are those of a borrowed slice; `place` and `given` are
    // borrowed for writing, so that they overlap nothing else.
    unsafe {
        c::herd_walk(
            schema.as_ptr(),
            schema.len(),
            table.as_ptr(),
            table.len(),
            marks.as_ptr(),
            marks.len(),
            place,
            given,
        )
    }
}

/// Finds the values of a record: 0 or 1. `first` becomes the word at which they begin, 0 in a
/// refusal.
pub fn values(table: &[u64], index: usize, first: &mut u64) -> u64 {
    // SAFETY: the pointer and the length are those of a borrowed slice, which the call only reads;
    // `first` is borrowed for writing.
    unsafe { c::herd_values(table.as_ptr(), table.len(), index, first) }
}
