//! The list program: bytes in, text out.

use crate::label::written;
use crate::layout::{self, LABEL, LIST_CAPACITY, RELATION, WORD};
use crate::schema::{self, Kind};
use crate::shown::{marks, walk, Step};
use crate::table;
use crate::{Answer, Refusal};

/// The words of the input; none if it does not end with a whole word.
fn words_of(input: &[u8]) -> Option<Vec<u64>> {
    if input.len() % WORD != 0 {
        return None;
    }
    let word = |bytes: &[u8]| bytes.iter().rev().fold(0, |sum, byte| sum << 8 | *byte as u64);
    Some(input.chunks(WORD).map(word).collect())
}

fn line(schema: &schema::Schema, table: &[u64], index: u64) -> String {
    let begin = layout::record(index as usize - 1);
    let relation = table[begin + RELATION];
    let mut text = format!("{} {}", relation, written(table[begin + LABEL]));
    let kinds = schema.relation(relation).map(|of| of.kinds.clone()).unwrap_or_default();
    for (kind, value) in kinds.iter().zip(table::values(table, index)) {
        text.push(' ');
        match kind {
            Kind::Plain => text.push_str(&value.to_string()),
            _ if *value == 0 => text.push('-'),
            _ => text.push_str(&written(*value)),
        }
    }
    text.push('\n');
    text
}

fn text_of(input: &[u8]) -> Answer<String> {
    let words = words_of(input).ok_or(Refusal::LengthOrIndex)?;
    if words.len() < layout::SCHEMA {
        return Err(Refusal::LengthOrIndex);
    }
    let (schema_words, table) = words.split_at(layout::SCHEMA);
    let capacity = table::capacity_of(table.len()).ok_or(Refusal::LengthOrIndex)?;
    if capacity > LIST_CAPACITY {
        return Err(Refusal::LengthOrIndex);
    }
    let mut shown = vec![0; capacity];
    let count = marks(schema_words, table, &mut shown)?;
    let schema = schema::read(schema_words).ok_or(Refusal::BrokenSchema)?;
    let mut text = format!("shown {}\n", count);
    let mut place = 0;
    while let Step::Record(index) = walk(schema_words, table, &shown, &mut place)? {
        text.push_str(&line(&schema, table, index));
    }
    Ok(text)
}

/// What the list program prints for this input.
pub fn list(input: &[u8]) -> String {
    match text_of(input) {
        Ok(text) => text,
        Err(refusal) => format!("refused {}\n", refusal as u64),
    }
}
