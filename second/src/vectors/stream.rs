//! Writing and reading the stream, and what the vector program prints.

use super::digest::digest;
use super::fleet::Fleet;
use super::item::{shape_of, Item, Outcome, Shape, SCHEMA, SHAPES, TABLE, THIRD, VALUES};
use super::run::run;
use std::collections::BTreeMap;

/// A number, most significant seven bits first; all bytes but the last have the top bit.
fn write_number(out: &mut Vec<u8>, number: u64) {
    let mut groups = 1;
    while groups < 10 && number >> (7 * groups) != 0 {
        groups += 1;
    }
    for group in (0..groups).rev() {
        let more = if group == 0 { 0 } else { 128 };
        out.push((number >> (7 * group) & 127) as u8 | more);
    }
}

/// The length, then the words; a 0 is followed by how many zeros stand there.
fn write_slice(out: &mut Vec<u8>, words: &[u64]) {
    write_number(out, words.len() as u64);
    let mut at = 0;
    while at < words.len() {
        write_number(out, words[at]);
        let mut run = 1;
        if words[at] == 0 {
            while at + run < words.len() && words[at + run] == 0 {
                run += 1;
            }
            write_number(out, run as u64);
        }
        at += run;
    }
}

/// An exit: 0 where the slice is as it was lent, otherwise 1 and the slice.
fn write_exit(out: &mut Vec<u8>, lent: &[u64], exit: &[u64]) {
    if lent == exit {
        write_number(out, 0);
    } else {
        write_number(out, 1);
        write_slice(out, exit);
    }
}

fn write_item(out: &mut Vec<u8>, item: &Item, back: &Outcome) {
    out.push(item.category);
    out.push(item.call);
    for slice in &item.slices {
        write_slice(out, slice);
    }
    for word in &item.words {
        write_number(out, *word);
    }
    write_number(out, back.answer);
    for word in &back.results {
        write_number(out, *word);
    }
    if let Some(shape) = shape_of(item.call) {
        for (slice, exit) in shape.exits.iter().zip(&back.exits) {
            write_exit(out, &item.slices[shape.position(*slice)], exit);
        }
    }
}

/// The words of a call's row in the stream's first slice: eight of its shape, sixteen of its name.
pub const ROW: usize = 24;

/// Whether the call is lent a schema, a table, a third slice and an insertion's values; how many
/// numbers it takes and gives; whether the table and the third slice come back; then its name.
fn row(shape: &Shape) -> Vec<u64> {
    let lent = [SCHEMA, TABLE, THIRD, VALUES].map(|slice| shape.slices.contains(&slice) as u64);
    let back = [TABLE, THIRD].map(|slice| shape.exits.contains(&slice) as u64);
    let mut words = lent.to_vec();
    words.extend([shape.words as u64, shape.results as u64]);
    words.extend(back);
    words.extend(shape.name.bytes().map(|byte| byte as u64));
    words.resize(ROW, 0);
    words
}

/// The first slice of a stream: a row for each call, from call 0, which there is not.
fn rows() -> Vec<u64> {
    let mut words = vec![0; ROW];
    words.extend(SHAPES.iter().flat_map(row));
    words
}

/// The stream of these items: the rows of the calls, the number of the items, then each.
pub fn write(items: &[Item]) -> Vec<u8> {
    let mut out = Vec::new();
    let mut fleet = Fleet::default();
    write_slice(&mut out, &rows());
    write_number(&mut out, items.len() as u64);
    for item in items {
        let back = run(&mut fleet, item);
        write_item(&mut out, item, &back);
    }
    out
}

struct Reader<'a> {
    bytes: &'a [u8],
    at: usize,
}

impl Reader<'_> {
    fn byte(&mut self) -> Option<u8> {
        self.at += 1;
        self.bytes.get(self.at - 1).copied()
    }

    fn number(&mut self) -> Option<u64> {
        let mut number = 0;
        for _ in 0..10 {
            let byte = self.byte()?;
            number = number << 7 | (byte & 127) as u64;
            if byte < 128 {
                return Some(number);
            }
        }
        None
    }

    fn numbers(&mut self, count: usize) -> Option<Vec<u64>> {
        (0..count).map(|_| self.number()).collect()
    }

    fn slice(&mut self) -> Option<Vec<u64>> {
        let length = self.number()? as usize;
        let mut words = Vec::new();
        while words.len() < length {
            let word = self.number()?;
            let run = if word == 0 { self.number()? as usize } else { 1 };
            if run == 0 || run > length - words.len() {
                return None;
            }
            words.resize(words.len() + run, word);
        }
        Some(words)
    }

    fn item(&mut self) -> Option<(Item, Outcome)> {
        let (category, call) = (self.byte()?, self.byte()?);
        let shape = shape_of(call)?;
        let slices: Vec<Vec<u64>> =
            shape.slices.iter().map(|_| self.slice()).collect::<Option<_>>()?;
        let words = self.numbers(shape.words)?;
        let answer = self.number()?;
        let results = self.numbers(shape.results)?;
        let mut exits = Vec::new();
        for slice in shape.exits {
            let changed = self.number()? != 0;
            let lent = &slices[shape.position(*slice)];
            exits.push(if changed { self.slice()? } else { lent.clone() });
        }
        Some((Item { category, call, slices, words }, Outcome { answer, results, exits }))
    }
}

/// The items of a stream, with what must come back.
pub fn read(bytes: &[u8]) -> Option<Vec<(Item, Outcome)>> {
    let mut reader = Reader { bytes, at: 0 };
    if reader.slice()? != rows() {
        return None;
    }
    let count = reader.number()?;
    let items = (0..count).map(|_| reader.item()).collect::<Option<Vec<_>>>()?;
    if reader.at == bytes.len() {
        Some(items)
    } else {
        None
    }
}

/// What the vector program must print for this stream.
pub fn expect(bytes: &[u8]) -> String {
    let Some(items) = read(bytes) else {
        return String::from("broken stream\n");
    };
    let mut text = String::new();
    let mut fleet = Fleet::default();
    let mut mismatches = 0;
    let mut categories = BTreeMap::new();
    let mut answers = BTreeMap::new();
    let (mut words, mut sum) = (0, 0);
    for (at, (item, told)) in items.iter().enumerate() {
        *categories.entry(item.category).or_insert(0) += 1;
        *answers.entry((item.call, told.answer)).or_insert(0) += 1;
        for word in item.slices.iter().flatten() {
            words += 1;
            sum = digest(sum, *word);
        }
        if run(&mut fleet, item) != *told {
            mismatches += 1;
            if mismatches <= 10 {
                text.push_str(&format!("mismatch {}\n", at + 1));
            }
        }
    }
    text.push_str(&format!("items {}\nwords {}\ndigest {}\n", items.len(), words, sum));
    for (category, count) in &categories {
        text.push_str(&format!("category {} {}\n", category, count));
    }
    for ((call, answer), count) in &answers {
        let name = shape_of(*call).map_or("", |shape| shape.name);
        text.push_str(&format!("answer {} {} {}\n", name, answer, count));
    }
    text.push_str(&format!("mismatches {}\n", mismatches));
    text
}
