//! The benchmark: each call of the library against the second implementation and against a plain copy of the words that it
//! is lent, side by side in one run. It prints the machine and a table and, with a path as its argument, writes the picture of it.

mod machine;
mod picture;
mod tables;

use herd::layout::{
    record_word, CLOCK_WORD, DELTA_WORDS, FIELDS, FIRST_WORDS, FLAG_WORD, HEAD_WORDS, LABEL_WORD,
    MOST_KEY_FIELDS, MOST_RECORDS, NEXT_WORD, RELATION_WORD, REPLICA_WORD, USED_WORD,
};
use herd::{book, old, raw, Compared, Label};
use second::random::Random;
use second::Answer;
use std::hint::black_box;
use std::time::Instant;
use tables::Subject;

const SIZES: [usize; 4] = [MOST_RECORDS / 64, MOST_RECORDS / 16, MOST_RECORDS / 4, MOST_RECORDS];

/// One line: a call on a subject, with nanoseconds for each size.
pub struct Line {
    pub call: &'static str,
    pub subject: &'static str,
    /// What the plain figure is: the words copied once, or read once.
    pub plain: &'static str,
    pub library: Vec<f64>,
    pub second: Vec<f64>,
    pub base: Vec<f64>,
}

/// The least of several timings, in nanoseconds; of three, where these take long. `before` makes the input and is not timed.
fn timed<T>(times: usize, mut before: impl FnMut() -> T, mut call: impl FnMut(&mut T)) -> f64 {
    const FEW: usize = 3;
    const LONG: f64 = 2e9;
    let mut least = f64::MAX;
    let mut sum = 0.0;
    for at in 0..times {
        if at >= FEW && sum > LONG {
            break;
        }
        let mut input = before();
        let start = Instant::now();
        call(&mut input);
        let spent = start.elapsed().as_nanos() as f64;
        black_box(&mut input);
        least = least.min(spent);
        sum += spent;
    }
    least
}

/// Two calls in turn, the least of several timings of each: a stretch in which the machine is slower meets both.
fn in_turn<T>(
    times: usize,
    mut before: impl FnMut() -> T,
    mut one: impl FnMut(&mut T),
    mut other: impl FnMut(&mut T),
) -> (f64, f64) {
    let mut least = (f64::MAX, f64::MAX);
    for _ in 0..times {
        least.0 = least.0.min(timed(1, &mut before, &mut one));
        least.1 = least.1.min(timed(1, &mut before, &mut other));
    }
    least
}

/// Many calls in one timing, for calls of a few nanoseconds.
fn quick(mut call: impl FnMut()) -> f64 {
    const CALLS: usize = 1000;
    timed(20, || (), |_| (0..CALLS).for_each(|_| call())) / CALLS as f64
}

fn times(size: usize) -> usize {
    (40_000 / size).clamp(12, 200)
}

/// A table read once, word by word.
fn pass(table: &[u64]) -> f64 {
    timed(
        200,
        || (),
        |_| {
            black_box(black_box(table).iter().fold(0u64, |sum, word| sum.wrapping_add(*word)));
        },
    )
}

/// Tables copied once.
fn copy(tables: &[&[u64]]) -> f64 {
    let mut into: Vec<Vec<u64>> = tables.iter().map(|table| vec![0; table.len()]).collect();
    timed(
        200,
        || (),
        |_| {
            for (to, from) in into.iter_mut().zip(tables) {
                black_box(to).copy_from_slice(black_box(from));
            }
        },
    )
}

fn line(
    call: &'static str,
    plain: &'static str,
    subjects: &[Subject],
    mut measure: impl FnMut(&Subject, usize) -> (f64, f64, f64),
) -> Line {
    let mut made = Line {
        call,
        subject: subjects[0].name,
        plain,
        library: Vec::new(),
        second: Vec::new(),
        base: Vec::new(),
    };
    for (subject, size) in subjects.iter().zip(SIZES) {
        let (library, second, base) = measure(subject, size);
        made.library.push(library);
        made.second.push(second);
        made.base.push(base);
    }
    made
}

fn checks(subjects: &[Subject]) -> Line {
    line("table check", "pass", subjects, |x, size| {
        assert_eq!(raw::table_check(&x.schema, &x.full), 0);
        (
            timed(
                times(size),
                || (),
                |_| {
                    black_box(raw::table_check(&x.schema, black_box(&x.full)));
                },
            ),
            timed(
                12,
                || (),
                |_| {
                    let _ = black_box(second::table_check(&x.schema, &x.full));
                },
            ),
            pass(&x.full),
        )
    })
}

fn schemas(subjects: &[Subject]) -> Line {
    line("schema check", "pass", subjects, |x, _| {
        (
            quick(|| {
                black_box(raw::schema_check(black_box(&x.schema)));
            }),
            quick(|| {
                let _ = black_box(second::schema_check(black_box(&x.schema)));
            }),
            quick(|| {
                black_box(
                    black_box(&x.schema).iter().fold(0u64, |sum, word| sum.wrapping_add(*word)),
                );
            }),
        )
    })
}

fn starts(subjects: &[Subject]) -> Line {
    line("start", "copy", subjects, |x, size| {
        (
            timed(times(size), || x.full.clone(), |t| assert_eq!(raw::start(t, 3), 0)),
            timed(12, || x.full.clone(), |t| assert!(second::start(t, 3).is_ok())),
            copy(&[&x.full]),
        )
    })
}

fn merges(
    call: &'static str,
    subjects: &[Subject],
    tables: fn(&Subject) -> (Vec<u64>, Vec<u64>),
) -> Line {
    line(call, "copy of both", subjects, |x, size| {
        let (first, other) = tables(x);
        let own = || first.clone();
        let mut changed = 0;
        assert_eq!(raw::merge(&x.schema, &mut own(), &other, &mut changed), 0);
        let expected = second::merge(&x.schema, &mut own(), &other).ok();
        assert_eq!(expected, Some(changed as usize));
        (
            timed(times(size), own, |t| assert_eq!(raw::merge(&x.schema, t, &other, &mut 0), 0)),
            timed(12, own, |t| assert!(second::merge(&x.schema, t, &other).is_ok())),
            copy(&[&first, &other]),
        )
    })
}

/// Two tables compared; the plain figure is the merge of the same two, timed in turn with the comparison.
fn compares(
    call: &'static str,
    subjects: &[Subject],
    tables: fn(&Subject) -> (Vec<u64>, Vec<u64>),
    expected: Compared,
) -> Line {
    line(call, "merge", subjects, |x, size| {
        let (first, other) = tables(x);
        let own = || first.clone();
        let mut verdict = 0;
        assert_eq!(raw::compare(&x.schema, &first, &other, &mut verdict), 0);
        assert_eq!(Compared::from_number(verdict), Some(expected));
        let (library, merge) = in_turn(
            5 * times(size),
            own,
            |t| assert_eq!(raw::compare(&x.schema, t, &other, &mut 0), 0),
            |t| assert_eq!(raw::merge(&x.schema, t, &other, &mut 0), 0),
        );
        (library, timed(12, own, |t| assert!(second::compare(&x.schema, t, &other).is_ok())), merge)
    })
}

/// A full table and a copy of it with another replica number: every record is compared, both ways.
fn copies(x: &Subject) -> (Vec<u64>, Vec<u64>) {
    let mut copy = x.full.clone();
    copy[REPLICA_WORD] += 1;
    (x.full.clone(), copy)
}

/// A full table and a copy of it with another replica number: of each record one of the two, chosen at random, has the higher flag.
fn flags(x: &Subject) -> (Vec<u64>, Vec<u64>) {
    let (mut first, mut other) = copies(x);
    let mut random = Random::new(12);
    for at in 1..=x.full[USED_WORD] as usize {
        let raised = if random.chance(1, 2) { &mut first } else { &mut other };
        raised[record_word(at) + FLAG_WORD] += 1;
    }
    (first, other)
}

/// The two tables of a merge.
fn shared(x: &Subject) -> (Vec<u64>, Vec<u64>) {
    (x.own.clone(), x.other.clone())
}

/// The indices of the records of a relation, from the oldest on.
fn chain(table: &[u64], relation: usize) -> Vec<u64> {
    let some = |index: u64| Some(index).filter(|index| *index != 0);
    let next = |index: &u64| some(table[record_word(*index as usize) + NEXT_WORD]);
    std::iter::successors(some(table[FIRST_WORDS + relation - 1]), next).collect()
}

/// What is looked up in a chain: a label, and the index that it gives.
type Wanted = fn(&[u64], &[u64]) -> (u64, u64);

fn label_of(table: &[u64], index: u64) -> u64 {
    table[record_word(index as usize) + LABEL_WORD]
}

fn first_label(table: &[u64], chain: &[u64]) -> (u64, u64) {
    (label_of(table, chain[0]), chain[0])
}

fn last_label(table: &[u64], chain: &[u64]) -> (u64, u64) {
    let last = chain[chain.len() - 1];
    (label_of(table, last), last)
}

/// A label that no record has, after that of the middle record and before the next one's.
fn absent_label(table: &[u64], chain: &[u64]) -> (u64, u64) {
    let middle = label_of(table, chain[chain.len() / 2]);
    (middle / 256 * 256 + Label::LARGEST_REPLICA, 0)
}

/// A label looked up in a relation of a full table, several times in a timing; the plain figure is the check of the same table, timed in
/// turn with the lookup.
fn lookups(call: &'static str, subjects: &[Subject], relation: usize, wanted: Wanted) -> Line {
    const CALLS: usize = 20;
    fn many(mut call: impl FnMut()) -> impl FnMut(&mut ()) {
        move |_| (0..CALLS).for_each(|_| call())
    }
    line(call, "table check", subjects, |x, size| {
        let (label, expected) = wanted(&x.full, &chain(&x.full, relation));
        let mut index = 0;
        assert_eq!(raw::lookup(&x.schema, &x.full, relation, label, &mut index), 0);
        let second = |table: &[u64]| second::lookup(&x.schema, table, relation as u64, label);
        assert_eq!((index, second(&x.full)), (expected, Ok(expected)));
        let (library, check) = in_turn(
            5 * times(size),
            || (),
            many(|| {
                black_box(raw::lookup(&x.schema, black_box(&x.full), relation, label, &mut 0));
            }),
            many(|| {
                black_box(raw::table_check(&x.schema, black_box(&x.full)));
            }),
        );
        let second = timed(
            12,
            || (),
            many(|| {
                let _ = black_box(second(black_box(&x.full)));
            }),
        );
        (library / CALLS as f64, second / CALLS as f64, check / CALLS as f64)
    })
}

/// The cows of a barn, tables that are one chain, and a short chain beside a longer one.
fn all_lookups(
    barns: &[Subject],
    [keys, buckets, chains]: [&[Subject]; 3],
    shorts: &[Subject],
) -> Vec<Line> {
    const LAST: &str = "lookup, last label";
    let mut lines = Vec::new();
    for (subjects, relation) in [(barns, book::COW), (keys, tables::ONLY)] {
        lines.push(lookups("lookup, first label", subjects, relation, first_label));
        lines.push(lookups(LAST, subjects, relation, last_label));
        lines.push(lookups("lookup, no such label", subjects, relation, absent_label));
    }
    for subjects in [buckets, chains] {
        lines.push(lookups(LAST, subjects, tables::ONLY, last_label));
    }
    lines.push(lookups(LAST, shorts, tables::SHORT, last_label));
    lines
}

/// A call that turns a schema and a table into two others.
type Turning<T> = fn(&[u64], &[u64], &mut [u64], &mut [u64]) -> T;

/// The schema and the full table of a subject in the old form.
fn old_form(x: &Subject, size: usize) -> [Vec<u64>; 2] {
    let (mut schema, mut table) = (vec![0; old::SCHEMA_WORDS], vec![0; old::table_words(size)]);
    assert_eq!(raw::narrow(&x.schema, &x.full, &mut schema, &mut table), 0);
    [schema, table]
}

/// A full table turned from one form, by the place of old and new, into the other; the plain figure is the table check of the new table
/// and a copy of both, timed in turn with the turning.
fn turnings(
    call: &'static str,
    subjects: &[Subject],
    from: usize,
    library: Turning<u64>,
    second: Turning<Answer<()>>,
) -> Line {
    line(call, "check + copy of both", subjects, |x, size| {
        let forms = [old_form(x, size), [x.schema.clone(), x.full.clone()]];
        let ([schema, table], written) = (&forms[from], &forms[1 - from]);
        let stale = || written.each_ref().map(|words| vec![7u64; words.len()]);
        let [mut to_schema, mut to_table] = stale();
        assert_eq!(library(schema, table, &mut to_schema, &mut to_table), 0);
        assert_eq!([to_schema, to_table], *written);
        let (spent, plain) = in_turn(
            5 * times(size),
            || (stale(), forms.each_ref().map(|[_, table]| table.clone())),
            |([s, t], _)| assert_eq!(library(black_box(schema), black_box(table), s, t), 0),
            |(_, copies)| {
                assert_eq!(raw::table_check(&x.schema, black_box(&x.full)), 0);
                for (to, [_, from]) in copies.iter_mut().zip(&forms) {
                    black_box(to).copy_from_slice(black_box(from));
                }
            },
        );
        let seconds = timed(12, stale, |[s, t]| assert!(second(schema, table, s, t).is_ok()));
        (spent, seconds, plain)
    })
}

/// Tables of at most eight fields, turned both ways.
fn all_turnings(all: [&[Subject]; 3]) -> Vec<Line> {
    let widened = all.map(|of| turnings("widen", of, 0, raw::widen, second::widen));
    let narrowed = all.map(|of| turnings("narrow", of, 1, raw::narrow, second::narrow));
    widened.into_iter().chain(narrowed).collect()
}

fn marks(subjects: &[Subject]) -> Line {
    line("marks", "pass", subjects, |x, size| {
        let bytes = || vec![0u8; size];
        let mut count = 0;
        let answer = raw::marks(&x.schema, &x.full, &mut bytes(), &mut count);
        assert_eq!(answer, 0);
        assert_eq!(second::marks(&x.schema, &x.full, &mut bytes()).ok(), Some(count));
        (
            timed(times(size).min(40), bytes, |m| {
                black_box(raw::marks(&x.schema, &x.full, m, &mut 0));
            }),
            timed(3, bytes, |m| {
                let _ = black_box(second::marks(&x.schema, &x.full, m));
            }),
            pass(&x.full),
        )
    })
}

fn walks(subjects: &[Subject]) -> Line {
    line("walk, one step", "pass", subjects, |x, size| {
        let mut bytes = vec![0u8; size];
        raw::marks(&x.schema, &x.full, &mut bytes, &mut 0);
        (
            timed(
                times(size),
                || 0u64,
                |place| {
                    black_box(raw::walk(&x.schema, &x.full, &bytes, place, &mut 0));
                },
            ),
            timed(
                12,
                || 0u64,
                |place| {
                    let _ = black_box(second::walk(&x.schema, &x.full, &bytes, place));
                },
            ),
            pass(&x.full),
        )
    })
}

fn values(subjects: &[Subject]) -> Line {
    line("values", "pass of the values", subjects, |x, size| {
        let mut random = Random::new(3);
        let index = 1 + random.below(size as u64) as usize;
        (
            quick(|| {
                black_box(raw::values(black_box(&x.full), black_box(index), &mut 0));
            }),
            quick(|| {
                black_box(second::values(black_box(&x.full), black_box(index as u64)));
            }),
            quick(|| {
                let at = record_word(black_box(index)) + HEAD_WORDS;
                black_box(
                    x.full[at..at + FIELDS].iter().fold(0u64, |sum, word| sum.wrapping_add(*word)),
                );
            }),
        )
    })
}

/// What is edited in a table: an insertion's relation and values, and a field with its new value.
struct Change {
    relation: usize,
    values: Vec<u64>,
    field: usize,
    value: u64,
}

/// The index of the last shown record of a relation; 0 where there is none.
fn last_shown(x: &Subject, size: usize, relation: usize) -> usize {
    let mut bytes = vec![0u8; size];
    raw::marks(&x.schema, &x.edited, &mut bytes, &mut 0);
    let of = |at: &usize| {
        x.edited[record_word(*at) + RELATION_WORD] == relation as u64 && bytes[at - 1] == 1
    };
    (1..=x.edited[USED_WORD] as usize).rev().find(of).unwrap_or(0)
}

/// A milking of a barn, and its grams.
fn milking(x: &Subject, size: usize) -> Change {
    let label = |relation| x.edited[record_word(last_shown(x, size, relation)) + LABEL_WORD];
    let values = vec![label(book::COW), label(book::ROBOT), 9000, 385, 100];
    Change { relation: book::MILKING, values, field: book::MILKING_GRAMS, value: 9100 }
}

/// A record with keys of its own, and its first key.
fn keyed(_: &Subject, size: usize) -> Change {
    let free = 3 * size as u64 + 1;
    Change { relation: tables::ONLY, values: vec![free, 7 * free, 5], field: 1, value: free }
}

/// A record with a key of its own in the one bucket, and the last field of its key.
fn alike(_: &Subject, size: usize) -> Change {
    let values = tables::alike_values(size as u64 + 1);
    Change { relation: tables::ONLY, field: FIELDS, value: values[FIELDS - 1], values }
}

/// A record with an empty reference, beside a chain of which no record is shown.
fn beside(_: &Subject, _: usize) -> Change {
    Change { relation: tables::ONLY, values: vec![0, 5], field: 2, value: 6 }
}

/// The same, with a key of its own in the one bucket.
fn alike_beside(x: &Subject, size: usize) -> Change {
    let mut change = alike(x, size);
    change.values[..FIELDS - MOST_KEY_FIELDS].fill(0);
    change
}

/// The edits of a table; the plain figure is the time of marks and of the merge of a delta, by the library. Where no record is
/// shown there is only the insertion.
fn edits(subjects: &[Subject], change: fn(&Subject, usize) -> Change) -> Vec<Line> {
    const PLAIN: &str = "marks + merge";
    let sum = |x: &Subject, size: usize, delta: &[u64]| {
        timed(
            times(size).min(40),
            || vec![0u8; size],
            |m| {
                black_box(raw::marks(&x.schema, &x.edited, m, &mut 0));
            },
        ) + timed(
            times(size),
            || x.edited.clone(),
            |t| {
                assert_eq!(raw::merge(&x.schema, t, delta, &mut 0), 0);
            },
        )
    };
    let own = |x: &Subject| (x.edited.clone(), vec![0u64; DELTA_WORDS]);
    let mut lines = vec![line("insertion", PLAIN, subjects, |x, size| {
        let c = change(x, size);
        let (mut t, mut d) = own(x);
        assert_eq!(raw::insert(&x.schema, &mut t, &mut d, c.relation, &c.values, &mut 0), 0);
        (
            timed(
                times(size).min(40),
                || own(x),
                |(t, d)| {
                    black_box(raw::insert(&x.schema, t, d, c.relation, &c.values, &mut 0));
                },
            ),
            timed(
                3,
                || own(x),
                |(t, d)| {
                    assert!(
                        second::insertion(&x.schema, t, d, c.relation as u64, &c.values).is_ok()
                    );
                },
            ),
            sum(x, size, &d),
        )
    })];
    if subjects
        .iter()
        .zip(SIZES)
        .any(|(x, size)| last_shown(x, size, change(x, size).relation) == 0)
    {
        return lines;
    }
    lines.push(line("update", PLAIN, subjects, |x, size| {
        let c = change(x, size);
        let index = last_shown(x, size, c.relation);
        let (mut t, mut d) = own(x);
        assert_eq!(raw::update(&x.schema, &mut t, &mut d, index, c.field, c.value), 0);
        (
            timed(
                times(size).min(40),
                || own(x),
                |(t, d)| {
                    black_box(raw::update(&x.schema, t, d, index, c.field, c.value));
                },
            ),
            timed(
                3,
                || own(x),
                |(t, d)| {
                    let (index, field) = (index as u64, c.field as u64);
                    assert!(second::update(&x.schema, t, d, index, field, c.value).is_ok());
                },
            ),
            sum(x, size, &d),
        )
    }));
    lines.push(line("deletion", PLAIN, subjects, |x, size| {
        let index = last_shown(x, size, change(x, size).relation);
        let (mut t, mut d) = own(x);
        assert_eq!(raw::delete(&x.schema, &mut t, &mut d, index), 0);
        (
            timed(
                times(size).min(40),
                || own(x),
                |(t, d)| {
                    black_box(raw::delete(&x.schema, t, d, index));
                },
            ),
            timed(
                3,
                || own(x),
                |(t, d)| {
                    assert!(second::deletion(&x.schema, t, d, index as u64).is_ok());
                },
            ),
            sum(x, size, &d),
        )
    }));
    lines
}

/// An edit of the herd book, a milking entered, changed or struck off; the plain figure is the library's own edit.
fn book_edit(
    call: &'static str,
    plain: &'static str,
    subjects: &[Subject],
    edit: impl Fn(&Change, usize, &mut [u64], &mut [u64]) -> u64,
    library: impl Fn(&Subject, &Change, usize, &mut [u64], &mut [u64]) -> u64,
    second: impl Fn(&Change, u64, &mut [u64], &mut [u64]) -> bool,
) -> Line {
    line(call, plain, subjects, |x, size| {
        let c = milking(x, size);
        let index = last_shown(x, size, book::MILKING);
        let own = || (x.edited.clone(), vec![0u64; DELTA_WORDS]);
        let (mut ours, mut theirs) = (own(), own());
        assert_eq!(edit(&c, index, &mut ours.0, &mut ours.1), 0);
        assert_eq!(library(x, &c, index, &mut theirs.0, &mut theirs.1), 0);
        assert_eq!(ours, theirs);
        let times = times(size).min(40);
        (
            timed(times, own, |(t, d)| assert_eq!(edit(&c, index, t, d), 0)),
            timed(3, own, |(t, d)| assert!(second(&c, index as u64, t, d))),
            timed(times, own, |(t, d)| assert_eq!(library(x, &c, index, t, d), 0)),
        )
    })
}

fn book_edits(subjects: &[Subject]) -> [Line; 3] {
    [
        book_edit(
            "herd book, enter",
            "insertion",
            subjects,
            |c, _, t, d| {
                let v = &c.values;
                raw::book::enter_milking(t, d, v[0], v[1], v[2], v[3], v[4], &mut 0)
            },
            |x, c, _, t, d| raw::insert(&x.schema, t, d, c.relation, &c.values, &mut 0),
            |c, _, t, d| second::book::enter(t, d, c.relation as u64, &c.values).is_ok(),
        ),
        book_edit(
            "herd book, change",
            "update",
            subjects,
            |c, index, t, d| raw::book::change_milking(t, d, index, c.field, c.value),
            |x, c, index, t, d| raw::update(&x.schema, t, d, index, c.field, c.value),
            |c, index, t, d| {
                let (kind, field) = (c.relation as u64, c.field as u64);
                second::book::change(t, d, kind, index, field, c.value).is_ok()
            },
        ),
        book_edit(
            "herd book, strike",
            "deletion",
            subjects,
            |_, index, t, d| raw::book::strike_milking(t, d, index),
            |x, _, index, t, d| raw::delete(&x.schema, t, d, index),
            |c, index, t, d| second::book::strike(t, d, c.relation as u64, index).is_ok(),
        ),
    ]
}

/// The last shown milking struck off as a cow, which is refused.
fn other_kind(subjects: &[Subject]) -> Line {
    line("herd book, another kind", "table check", subjects, |x, size| {
        let index = last_shown(x, size, book::MILKING);
        let own = || (x.edited.clone(), vec![0u64; DELTA_WORDS]);
        let second = |t: &mut [u64], d: &mut [u64]| {
            second::book::strike(t, d, book::COW as u64, index as u64).is_err()
        };
        (
            timed(times(size), own, |(t, d)| assert_eq!(raw::book::strike_cow(t, d, index), 6)),
            timed(3, own, |(t, d)| assert!(second(t, d))),
            timed(
                times(size),
                || (),
                |_| {
                    black_box(raw::table_check(&x.schema, black_box(&x.edited)));
                },
            ),
        )
    })
}

/// The search for the last shown milking, or for a label that no record has.
fn finds(subjects: &[Subject], call: &'static str, there: bool) -> Line {
    line(call, if there { "marks" } else { "table check" }, subjects, |x, size| {
        let index = last_shown(x, size, book::MILKING);
        let absent = Label::of(x.edited[CLOCK_WORD], 9).map_or(0, Label::word);
        let label = if there { x.edited[record_word(index) + LABEL_WORD] } else { absent };
        let expected = if there { index as u64 } else { 0 };
        let mut found = 7;
        assert_eq!(raw::book::find_milking(&x.edited, label, &mut found), 0);
        assert_eq!(found, expected);
        let bytes = || vec![0u8; size];
        (
            timed(
                times(size),
                || (),
                |_| {
                    black_box(raw::book::find_milking(black_box(&x.edited), label, &mut 0));
                },
            ),
            timed(
                3,
                || (),
                |_| assert_eq!(second::book::find_milking(&x.edited, label), Ok(expected)),
            ),
            timed(times(size), bytes, |m| {
                let table = black_box(&x.edited);
                black_box(if there {
                    raw::marks(&x.schema, table, m, &mut 0)
                } else {
                    raw::table_check(&x.schema, table)
                });
            }),
        )
    })
}

/// A number with a comma before its last three digits.
fn grouped(number: usize) -> String {
    match number {
        0..=999 => number.to_string(),
        _ => format!("{},{:03}", number / 1000, number % 1000),
    }
}

/// A multiple, with the digits that tell something.
fn multiple(ratio: f64) -> String {
    if ratio < 0.1 {
        format!("{ratio:.3}")
    } else if ratio < 1.0 {
        format!("{ratio:.2}")
    } else if ratio < 100.0 {
        format!("{ratio:.1}")
    } else {
        grouped(ratio.round() as usize)
    }
}

fn time(nanoseconds: f64) -> String {
    if nanoseconds < 1000.0 {
        format!("{nanoseconds:.1} ns")
    } else if nanoseconds < 1_000_000.0 {
        format!("{:.1} µs", nanoseconds / 1000.0)
    } else if nanoseconds < 100_000_000.0 {
        format!("{:.1} ms", nanoseconds / 1_000_000.0)
    } else {
        format!("{:.0} ms", nanoseconds / 1_000_000.0)
    }
}

fn print(lines: &[Line]) {
    println!("Machine: {}.\n", machine::name());
    let [first, second, third, last] = SIZES.map(grouped);
    println!(
        "| Call | Table | N = {first} | {second} | {third} | {last} | {third} to {last} | times a plain | second / library |"
    );
    println!("|---|---|---|---|---|---|---|---|---|");
    for made in lines {
        let cells: Vec<String> = made.library.iter().map(|spent| time(*spent)).collect();
        println!(
            "| {} | {} | {} | {:.1} | {} {} | {} |",
            made.call,
            made.subject,
            cells.join(" | "),
            made.library[3] / made.library[2],
            multiple(made.library[3] / made.base[3]),
            made.plain,
            multiple(made.second[3] / made.library[3]),
        );
    }
}

fn main() {
    let barns: Vec<Subject> = SIZES.map(tables::barn_subject).into();
    let keys: Vec<Subject> = SIZES.map(tables::keys_subject).into();
    let buckets: Vec<Subject> = SIZES.map(tables::bucket_subject).into();
    let chains: Vec<Subject> = SIZES.map(tables::chain_subject).into();
    let boths: Vec<Subject> = SIZES.map(tables::both_subject).into();
    let shorts: Vec<Subject> = SIZES.map(tables::short_subject).into();
    let mut lines = vec![schemas(&barns)];
    lines.extend([&barns, &keys, &buckets, &chains].map(|subjects| checks(subjects)));
    lines.push(starts(&barns));
    lines.extend(
        [&barns, &keys, &buckets, &chains].map(|subjects| merges("merge", subjects, shared)),
    );
    lines.push(merges("merge, every flag", &barns, flags));
    lines.extend(
        [&barns, &keys, &buckets, &chains]
            .map(|subjects| compares("compare, alike", subjects, copies, Compared::Alike)),
    );
    lines.push(compares("compare, neither", &barns, shared, Compared::Neither));
    lines.extend(all_lookups(&barns, [&keys, &buckets, &chains], &shorts));
    lines.extend(all_turnings([&barns, &keys, &chains]));
    lines.extend([&barns, &keys, &buckets, &chains, &boths].map(|subjects| marks(subjects)));
    lines.extend([&barns, &keys, &buckets].map(|subjects| walks(subjects)));
    lines.push(values(&barns));
    lines.extend(edits(&barns, milking));
    lines.extend(edits(&keys, keyed));
    lines.extend(edits(&buckets, alike));
    lines.extend(edits(&chains, beside));
    lines.extend(edits(&boths, alike_beside));
    lines.extend(book_edits(&barns));
    lines.push(other_kind(&barns));
    lines.push(finds(&barns, "herd book, find a shown milking", true));
    lines.push(finds(&barns, "herd book, find no milking", false));
    print(&lines);
    if let Some(path) = std::env::args().nth(1) {
        std::fs::write(path, picture::svg(&lines, &SIZES)).expect("the picture is written");
    }
}
