//! Edits beside losers: answers 9 and 10 look at all standing records, and what step 3 keeps is
//! shown. The same as calls of the herd book, under its schema.

use super::items::Items;
use super::lines::{schemas, Line, HOLDER, LINE, ORDERS, TARGET};
use super::sources::{delta_words, edit_item};
use crate::book::{self, MILKING};
use crate::cases::record;
use crate::label::{is_deleted, label_of, LARGEST_FLAG};
use crate::layout::{self, RELATION};
use crate::random::{self, Random};
use crate::table::{self, Table};
use crate::vectors::edit::Edit;
use crate::vectors::item::{Item, BOOK_CHANGE, BOOK_ENTER, BOOK_FIND, BOOK_STRIKE};

const INSERTIONS: u8 = 81;
const UPDATES: u8 = 82;
const DELETIONS: u8 = 83;
const REDOING: u8 = 84;
const BOOK_EDITS: u8 = 85;
const BOOK_FINDS: u8 = 86;

/// How many tables each case has.
const ENOUGH: u64 = 24;
const FEW: u64 = 12;

/// Tries until so many items were pushed.
fn until(count: u64, mut pushed: impl FnMut() -> bool) {
    let mut made = 0;
    while made < count {
        made += pushed() as u64;
    }
}

fn is_book(line: &Line) -> bool {
    line.schema == book::schema()
}

/// A line of two to six records, of which some do not stand and some are deleted and stand.
fn some_line<'a>(random: &'a mut Random, schemas: &[Vec<u64>]) -> Line<'a> {
    let schema = random::pick_schema(random, schemas);
    let (length, order) = (2 + random.below(5) as usize, random.pick(&ORDERS));
    let mut line = Line::new(random, schema, length, order);
    for at in 0..length {
        match line.random.below(12) {
            0 => line.hide(at),
            1 if !is_book(&line) => line.hold(at),
            2 if at + 1 < length => line.unlink(at),
            _ => {}
        }
    }
    line
}

/// The position of some record in line.
fn some_place(line: &mut Line) -> usize {
    line.random.below(line.length as u64) as usize
}

/// A class of a key: of a record in line, or free.
fn some_class(line: &mut Line) -> usize {
    let free = line.free_class() as u64;
    line.random.below(free + 1) as usize
}

/// Whether step 3 drops a record in line.
fn is_dropped(line: &Line, at: usize) -> bool {
    line.stands[at] && !line.kept()[at]
}

/// The index of a record.
fn index(table: &Table, relation: u64, label: u64) -> u64 {
    table.positions().get(&(relation, label)).map_or(0, |at| *at as u64 + 1)
}

/// An edit as an item: under the herd book's schema a call of the herd book.
fn item(category: u8, line: &mut Line, own: Vec<u64>, edit: Edit) -> Item {
    let delta = delta_words(line.random);
    if !is_book(line) {
        return edit_item(category, &line.schema, &own, delta, edit);
    }
    let kind = |index: u64| own[layout::record(index as usize - 1) + RELATION];
    let (call, values, words) = match edit {
        Edit::Insertion { relation, values } => (BOOK_ENTER, Some(values), vec![relation]),
        Edit::Update { index, field, value } => {
            (BOOK_CHANGE, None, vec![kind(index), index, field, value])
        }
        Edit::Deletion { index } => (BOOK_STRIKE, None, vec![kind(index), index]),
    };
    let slices = [own, delta].into_iter().chain(values).collect();
    Item { category, call, slices, words }
}

/// Pushes an edit of the line's table, from which this answer must come back; gives the table after
/// it.
fn push(
    items: &mut Items,
    line: &mut Line,
    category: u8,
    answer: u64,
    edit: impl Fn(&Table) -> Edit,
) -> Vec<u64> {
    let table = line.table(1);
    let item = item(category, line, table.words(), edit(&table));
    let back = items.tried(&item);
    assert_eq!(back.answer, answer, "{:?}", item);
    items.push_item(item);
    back.exits[0].clone()
}

/// With which records in line a new one, or an updated one, conflicts.
#[derive(Clone, Copy, PartialEq)]
enum With {
    None,
    DroppedAlone,
    Kept,
}

/// How many items each has, and its answer.
const CONFLICTS: [(With, u64, u64); 3] =
    [(With::None, FEW, 0), (With::DroppedAlone, 2 * ENOUGH, 9), (With::Kept, FEW, 9)];

fn with(line: &Line, conflicting: &[usize]) -> With {
    match conflicting {
        [] => With::None,
        all if all.iter().all(|at| is_dropped(line, *at)) => With::DroppedAlone,
        _ => With::Kept,
    }
}

fn insertions(items: &mut Items, random: &mut Random, schemas: &[Vec<u64>], category: u8) {
    for (wanted, count, answer) in CONFLICTS {
        until(count, || {
            let mut line = some_line(random, schemas);
            let classes = [some_class(&mut line), some_class(&mut line)];
            let conflicting = [line.having(0, classes[0]), line.having(1, classes[1])].concat();
            let fits = with(&line, &conflicting) == wanted;
            if fits {
                let edit = Edit::Insertion { relation: LINE, values: line.values(classes) };
                push(items, &mut line, category, answer, |_| edit.clone());
            }
            fits
        });
    }
}

/// Insertions of a record that references one in line: a kept one that a dropped one does not block,
/// or a dropped one.
fn references(items: &mut Items, random: &mut Random) {
    for (of_dropped, answer) in [(false, 0), (true, 8)] {
        until(ENOUGH, || {
            let mut line = some_line(random, &schemas());
            let (at, by_abort) = (some_place(&mut line), line.random.chance(1, 2));
            let fits = if of_dropped { is_dropped(&line, at) } else { line.is_freed(at) };
            if fits {
                let edit = Edit::Insertion { relation: HOLDER, values: line.holder(at, by_abort) };
                push(items, &mut line, INSERTIONS, answer, |_| edit.clone());
            }
            fits
        });
    }
}

/// An update of the field of a record in line that tells the class of a key.
fn update(line: &Line, at: usize, key: usize, class: usize) -> impl Fn(&Table) -> Edit {
    let (field, label) = (line.telling(key), line.records[at].label);
    let value = line.value(field, class);
    move |table| Edit::Update { index: index(table, LINE, label), field: field as u64 + 1, value }
}

/// Updates of a kept record to any class, and to the one it has. An accepted one is of a record that
/// a dropped one does not block.
fn updates(items: &mut Items, random: &mut Random, schemas: &[Vec<u64>], category: u8) {
    let to_any = CONFLICTS.map(|(wanted, count, answer)| (false, wanted, count, answer));
    let to_own = (true, With::DroppedAlone, ENOUGH, 9);
    for (own, wanted, count, answer) in to_any.into_iter().chain([to_own]) {
        until(count, || {
            let mut line = some_line(random, schemas);
            let (at, key) = (some_place(&mut line), line.random.below(2) as usize);
            let any = some_class(&mut line);
            let Some(has) = line.classes[at][key] else {
                return false;
            };
            let class = if own { has } else { any };
            let mut others = line.having(key, class);
            others.retain(|other| *other != at);
            let is_kept = if answer == 0 { line.is_freed(at) } else { line.kept()[at] };
            let fits = is_kept && with(&line, &others) == wanted;
            if fits {
                let edit = update(&line, at, key, class);
                push(items, &mut line, category, answer, edit);
            }
            fits
        });
    }
}

/// Updates and deletions of a record that step 3 drops.
fn of_dropped(items: &mut Items, random: &mut Random, schemas: &[Vec<u64>], categories: [u8; 2]) {
    until(ENOUGH, || {
        let mut line = some_line(random, schemas);
        let (at, key) = (some_place(&mut line), line.random.below(2) as usize);
        let (fits, label) = (is_dropped(&line, at), line.records[at].label);
        if fits {
            let edit = update(&line, at, key, line.free_class());
            push(items, &mut line, categories[0], 6, edit);
            let edit = |table: &Table| Edit::Deletion { index: index(table, LINE, label) };
            push(items, &mut line, categories[1], 6, edit);
        }
        fits
    });
}

/// Deletions of a kept record that a dropped one does not block. One that is deleted and stands is
/// guarded by what references it.
fn deletions(items: &mut Items, random: &mut Random, schemas: &[Vec<u64>], category: u8) {
    until(ENOUGH, || {
        let mut line = some_line(random, schemas);
        let at = some_place(&mut line);
        let (fits, label) = (line.is_freed(at), line.records[at].label);
        if fits {
            let answer = if is_deleted(line.records[at].flag) { 10 } else { 0 };
            let edit = |table: &Table| Edit::Deletion { index: index(table, LINE, label) };
            push(items, &mut line, category, answer, edit);
        }
        fits
    });
}

/// Deletions of a target that one record in line references by abort: one that step 3 drops, a kept
/// one, or one that does not stand.
fn guarded(items: &mut Items, random: &mut Random, schemas: &[Vec<u64>], category: u8) {
    for (stands, kept, count, answer) in
        [(true, false, ENOUGH, 10), (true, true, FEW, 10), (false, false, FEW, 0)]
    {
        until(count, || {
            let mut line = some_line(random, schemas);
            let (at, target) = (some_place(&mut line), line.target(0));
            let fits = (line.stands[at], line.kept()[at]) == (stands, kept);
            let fits = fits && line.aim(at, target);
            if fits {
                let edit = |table: &Table| Edit::Deletion { index: index(table, TARGET, target) };
                push(items, &mut line, category, answer, edit);
            }
            fits
        });
    }
}

/// A deleted target that a kept record references by abort, and another one. The first is deleted,
/// or its reference becomes empty. The target is redone if step 3 drops the other, and not if the
/// other does not stand.
fn redoing(items: &mut Items, random: &mut Random, schemas: &[Vec<u64>], category: u8) {
    for (redone, by_update) in [(true, true), (true, false), (false, true), (false, false)] {
        until(FEW, || {
            let mut line = some_line(random, schemas);
            let (at, other) = (some_place(&mut line), some_place(&mut line));
            let label = line.records[at].label;
            let is_even = |at: usize| !is_deleted(line.records[at].flag);
            let kept = line.kept()[at] && is_even(at);
            let of_other = if redone {
                is_dropped(&line, other) && is_even(other)
            } else {
                !line.stands[other]
            };
            let flag = line.random.pick(&[1, 3, LARGEST_FLAG]);
            let target = line.target(flag);
            let field = line.free_reference().map_or(0, |field| field as u64 + 1);
            let fits = kept && of_other && line.aim(at, target) && line.aim(other, target);
            if fits {
                let answer = if redone && flag == LARGEST_FLAG { 13 } else { 0 };
                let after = push(items, &mut line, category, answer, |table| {
                    let index = index(table, LINE, label);
                    if by_update {
                        Edit::Update { index, field, value: 0 }
                    } else {
                        Edit::Deletion { index }
                    }
                });
                let table = table::read(&random::decoded(&line.schema), &after);
                let is_target = |record: &&table::Record| record.name() == (TARGET, target);
                let after = table.iter().flat_map(|of| &of.records).find(is_target);
                let flag = flag + (redone && answer == 0) as u64;
                assert_eq!(after.map(|record| record.flag), Some(flag));
            }
            fits
        });
    }
}

/// Searches for the milkings of cows in line, of which a dropped one does not block another.
fn finds(items: &mut Items, random: &mut Random) {
    until(FEW, || {
        let mut line = some_line(random, &[book::schema()]);
        if !(0..line.length).any(|at| line.is_freed(at)) {
            return false;
        }
        let mut milkings = Vec::new();
        for at in 0..line.length {
            let label = line.new_label();
            let values = [line.records[at].label, 0, 9_000, 385, at as u64];
            line.records.push(record(MILKING, label, 0, &values));
            milkings.push(label);
        }
        let (shown, table) = (line.shown(), line.table(0));
        for (label, is_shown) in milkings.into_iter().zip(shown) {
            let found = is_shown as u64 * index(&table, MILKING, label);
            let (slices, words) = (vec![table.words()], vec![label]);
            let item = Item { category: BOOK_FINDS, call: BOOK_FIND, slices, words };
            assert_eq!(items.tried(&item).results, [found], "{:?}", item);
            items.push_item(item);
        }
        true
    });
}

/// The cows of the request, under both orders of the keys: the third is entered beside the first
/// two, or is there.
fn request(items: &mut Items, random: &mut Random) {
    for schema in &schemas()[..2] {
        let values = [[40, 7, 0], [40, 8, 0], [41, 8, 0]];
        let cow = |at: usize| record(LINE, label_of(2, 1 + at as u64), 0, &values[at]);
        let mut push = |used: usize, category: u8, edit: Edit, answer: u64| {
            let records = (0..used).map(cow).collect();
            let own = Table { capacity: 4, replica: 1, clock: 2, records }.words();
            let item = edit_item(category, schema, &own, delta_words(random), edit);
            assert_eq!(items.push_item(item), answer);
        };
        for (entered, answer) in [([41, 8, 0], 9), ([41, 9, 0], 0)] {
            let edit = Edit::Insertion { relation: LINE, values: entered.to_vec() };
            push(2, INSERTIONS, edit, answer);
        }
        for (index, answers) in [(1, [9, 0, 0]), (2, [6, 6, 6]), (3, [0, 9, 0])] {
            for field in 1..=2 {
                let value = values[index as usize - 1][field - 1];
                let edit = Edit::Update { index, field: field as u64, value };
                push(3, UPDATES, edit, answers[field - 1]);
            }
            push(3, DELETIONS, Edit::Deletion { index }, answers[2]);
        }
    }
}

pub fn loser_edits(items: &mut Items, random: &mut Random) {
    let (all, book) = (schemas(), [book::schema()]);
    request(items, random);
    insertions(items, random, &all, INSERTIONS);
    references(items, random);
    updates(items, random, &all, UPDATES);
    of_dropped(items, random, &all, [UPDATES, DELETIONS]);
    deletions(items, random, &all, DELETIONS);
    guarded(items, random, &all[..2], DELETIONS);
    redoing(items, random, &all[..2], REDOING);
    insertions(items, random, &book, BOOK_EDITS);
    updates(items, random, &book, BOOK_EDITS);
    of_dropped(items, random, &book, [BOOK_EDITS; 2]);
    deletions(items, random, &book, BOOK_EDITS);
    guarded(items, random, &book, BOOK_EDITS);
    redoing(items, random, &book, BOOK_EDITS);
    finds(items, random);
}
