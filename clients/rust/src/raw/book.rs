//! The calls of the herd book over plain slices, as the library's: the answer is the page's number,
//! 0 for a call that was done.

/// Declares the three calls of each kind of record and wraps them, with the numbers that they answer.
macro_rules! calls {
    ($(
        $kind:literal:
        $enter:ident = $c_enter:ident($($value:ident),+), $entered:literal;
        $change:ident = $c_change:ident, $changed:literal;
        $strike:ident = $c_strike:ident, $struck:literal;
    )+) => {
        mod c {
            extern "C" {
                $(
                    pub fn $c_enter(
                        own: *mut u64,
                        own_words: usize,
                        delta: *mut u64,
                        delta_words: usize,
                        $($value: u64,)+
                        label: *mut u64,
                    ) -> u64;
                    pub fn $c_change(
                        own: *mut u64,
                        own_words: usize,
                        delta: *mut u64,
                        delta_words: usize,
                        index: usize,
                        field: usize,
                        value: u64,
                    ) -> u64;
                    pub fn $c_strike(
                        own: *mut u64,
                        own_words: usize,
                        delta: *mut u64,
                        delta_words: usize,
                        index: usize,
                    ) -> u64;
                )+
                pub fn book_find_milking(
                    table: *const u64,
                    table_words: usize,
                    label: u64,
                    index: *mut u64,
                ) -> u64;
            }
        }

        $(
            #[doc = concat!("Enters a ", $kind, ": ", $entered, ". `label` becomes its label, 0 in a refusal.")]
            #[allow(clippy::too_many_arguments)]
            pub fn $enter(
                own: &mut [u64],
                delta: &mut [u64],
                $($value: u64,)+
                label: &mut u64,
            ) -> u64 {
                // SAFETY: each pointer and length are those of a borrowed slice; `own`, `delta` and
                // `label` are borrowed for writing, so that they overlap nothing else.
                unsafe {
                    c::$c_enter(
                        own.as_mut_ptr(),
                        own.len(),
                        delta.as_mut_ptr(),
                        delta.len(),
                        $($value,)+
                        label,
                    )
                }
            }

            #[doc = concat!("Changes one field of a shown ", $kind, ": ", $changed, ".")]
            pub fn $change(
                own: &mut [u64],
                delta: &mut [u64],
                index: usize,
                field: usize,
                value: u64,
            ) -> u64 {
                // SAFETY: each pointer and length are those of a borrowed slice; `own` and `delta`
                // are borrowed for writing, so that they overlap nothing else.
                unsafe {
                    c::$c_change(
                        own.as_mut_ptr(),
                        own.len(),
                        delta.as_mut_ptr(),
                        delta.len(),
                        index,
                        field,
                        value,
                    )
                }
            }

            #[doc = concat!("Strikes off a shown ", $kind, ": ", $struck, ".")]
            pub fn $strike(own: &mut [u64], delta: &mut [u64], index: usize) -> u64 {
                // SAFETY: each pointer and length are those of a borrowed slice; `own` and `delta`
                // are borrowed for writing, so that they overlap nothing else.
                unsafe {
                    c::$c_strike(
                        own.as_mut_ptr(),
                        own.len(),
                        delta.as_mut_ptr(),
                        delta.len(),
                        index,
                    )
                }
            }
        )+
    };
}

calls! {
    "group":
    enter_group = book_enter_group(number), "0, 1, 3, 9, 11 or 12";
    change_group = book_change_group, "0, 1, 3, 6, 7, 9 or 12";
    strike_group = book_strike_group, "0, 1, 3, 6 or 10";
    "cow":
    enter_cow = book_enter_cow(ear_tag, transponder, group), "0, 1, 3, 7, 8, 9, 11, 12 or 13";
    change_cow = book_change_cow, "0, 1, 3, 6, 7, 8, 9, 12 or 13";
    strike_cow = book_strike_cow, "0, 1, 3, 6 or 13";
    "robot":
    enter_robot = book_enter_robot(number), "0, 1, 3, 9, 11 or 12";
    change_robot = book_change_robot, "0, 1, 3, 6, 7, 9 or 12";
    strike_robot = book_strike_robot, "0, 1, 3, 6 or 10";
    "milking":
    enter_milking = book_enter_milking(cow, robot, grams, tenths, minute), "0, 1, 3, 7, 8, 11, 12 or 13";
    change_milking = book_change_milking, "0, 1, 3, 6, 7, 8, 12 or 13";
    strike_milking = book_strike_milking, "0, 1, 3, 6 or 13";
    "cleaning":
    enter_cleaning = book_enter_cleaning(robot, start, end), "0, 1, 3, 7, 8, 11, 12 or 13";
    change_cleaning = book_change_cleaning, "0, 1, 3, 6, 7, 8, 12 or 13";
    strike_cleaning = book_strike_cleaning, "0, 1, 3, 6 or 13";
    "treatment":
    enter_treatment = book_enter_treatment(cow, first, last), "0, 1, 3, 7, 8, 11 or 12";
    change_treatment = book_change_treatment, "0, 1, 3, 6, 7, 8 or 12";
    strike_treatment = book_strike_treatment, "0, 1, 3 or 6";
}

/// Finds the shown milking with this label: 0, 1 or 3. `index` becomes its index, 0 where none is
/// shown and in a refusal.
pub fn find_milking(table: &[u64], label: u64, index: &mut u64) -> u64 {
    // SAFETY: the pointer and the length are those of a borrowed slice, which the call only reads;
    // `index` is borrowed for writing.
    unsafe { c::book_find_milking(table.as_ptr(), table.len(), label, index) }
}
