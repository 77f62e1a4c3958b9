//! Calls on damaged inputs. They work on copies, so that the fleet goes on with its own tables.

use crate::driver::Driver;
use crate::lookup::lookups;
use crate::old::narrow_damaged;
use herd::layout::{
    block_word, table_words, DELTA_WORDS, FIELDS, HEADER_WORDS, MOST_RECORDS, RECORD_WORDS,
    USED_WORD,
};
use second::random::Random;
use second::vectors::{random_edit, Edit};

/// The words of the first two relations of a schema.
const TWO_RELATIONS: usize = block_word(3);

/// Words that are wrong at most places, one field more than there can be among them.
pub const WRONG: [u64; 12] =
    [0, 1, 2, FIELDS as u64 + 1, 255, 256, 257, 65_536, 1 << 40, 1 << 48, u64::MAX - 1, u64::MAX];

pub struct Damage {
    schema: Vec<u64>,
    table: Vec<u64>,
    other: Vec<u64>,
    /// An edit that fits the inputs as they were.
    edit: Edit,
    delta_words: usize,
    /// The marks less the records of the table as it was.
    more_marks: i64,
}

/// Spoils a word.
pub fn spoil(random: &mut Random, words: &mut [u64]) {
    if words.is_empty() {
        return;
    }
    let at = random.below(words.len() as u64) as usize;
    words[at] = match random.below(4) {
        0 => words[at].wrapping_add(1),
        1 => words[at].wrapping_sub(1),
        _ => random.pick(&WRONG),
    };
}

/// Spoils a word of the header or of a used record.
pub fn spoil_table(random: &mut Random, words: &mut [u64]) {
    let used = words.get(USED_WORD).copied().unwrap_or(0).min(12) as usize;
    let end = table_words(used).min(words.len());
    let end = if random.chance(1, 4) { end.min(HEADER_WORDS) } else { end };
    spoil(random, &mut words[..end]);
}

pub fn resize(random: &mut Random, words: &mut Vec<u64>) {
    resize_by(random, words, RECORD_WORDS);
}

/// Another length: of a header, or one beside the own or a record of so many words above it.
pub fn resize_by(random: &mut Random, words: &mut Vec<u64>, record: usize) {
    let length = words.len();
    let lengths = [
        0,
        1,
        HEADER_WORDS - 1,
        HEADER_WORDS,
        HEADER_WORDS + 1,
        length.saturating_sub(1),
        length + 1,
        length + record - 1,
        length + record,
    ];
    words.resize(random.pick(&lengths), 0);
}

impl Damage {
    /// One or two damages to these inputs, or none.
    pub fn of(random: &mut Random, schema: &[u64], table: &[u64], other: Vec<u64>) -> Damage {
        let mut damage = Damage {
            schema: schema.to_vec(),
            table: table.to_vec(),
            other,
            edit: random_edit(random, schema, table),
            delta_words: DELTA_WORDS,
            more_marks: 0,
        };
        for _ in 0..1 + random.below(2) {
            match random.below(12) {
                0 => spoil(random, &mut damage.schema[..TWO_RELATIONS]),
                1 => spoil(random, &mut damage.schema),
                2 => resize(random, &mut damage.schema),
                3..=5 => spoil_table(random, &mut damage.table),
                6 => resize(random, &mut damage.table),
                7 => spoil_table(random, &mut damage.other),
                8 => resize(random, &mut damage.other),
                9 => {
                    let lengths = [
                        0,
                        1,
                        HEADER_WORDS,
                        DELTA_WORDS - 1,
                        DELTA_WORDS + 1,
                        DELTA_WORDS + RECORD_WORDS,
                    ];
                    damage.delta_words = random.pick(&lengths);
                }
                10 => damage.more_marks = random.pick(&[-1, 1, -1_000, 7]),
                _ => {}
            }
            if damage.schema.len() < TWO_RELATIONS {
                break;
            }
        }
        damage
    }

    pub fn run(self, driver: &mut Driver, random: &mut Random) {
        let schema = &self.schema;
        let mut table = self.table.clone();
        let records = table.len().saturating_sub(HEADER_WORDS) / RECORD_WORDS;
        let count = (records as i64 + self.more_marks).max(0) as usize;
        match random.below(14) {
            0 => {
                driver.schema_check(schema);
                driver.table_check(schema, &table);
            }
            1 => {
                driver.start(&mut table, random.pick(&[0, 1, 255, 256, u64::MAX]));
                driver.values(&self.table, random.pick(&[0, 1, 2, 7, usize::MAX]));
            }
            2 | 3 => {
                driver.compare(schema, &table, &self.other);
                driver.merge(schema, &mut table, &self.other);
            }
            4 => {
                let mut marks = driver.any_bytes(count);
                driver.marks(schema, &table, &mut marks);
            }
            5 | 6 => {
                let marks: Vec<u8> =
                    (0..count).map(|_| random.pick(&[0, 1, 1, 1, 2, 255])).collect();
                let mut place =
                    random.pick(&[0, 0, 1, 2, 5, 12, 13, MOST_RECORDS as u64 + 1, u64::MAX]);
                driver.walk(schema, &table, &marks, &mut place);
            }
            7 | 8 => lookups(driver, random, schema, &table),
            9 | 10 => narrow_damaged(driver, random, schema, &table),
            _ => self.edit(driver, random, &mut table),
        }
    }

    fn edit(&self, driver: &mut Driver, random: &mut Random, table: &mut [u64]) {
        let mut delta = vec![random.next(); self.delta_words];
        match &self.edit {
            Edit::Insertion { relation, values } => {
                let mut values = values.clone();
                if random.chance(1, 6) {
                    values.resize(random.below(FIELDS as u64 + 4) as usize, 0);
                }
                driver.insert(&self.schema, table, &mut delta, *relation as usize, &values);
            }
            Edit::Update { index, field, value } => {
                let value = if random.chance(1, 6) { random.pick(&WRONG) } else { *value };
                let (index, field) = (*index as usize, *field as usize);
                driver.update(&self.schema, table, &mut delta, index, field, value);
            }
            Edit::Deletion { index } => {
                driver.delete(&self.schema, table, &mut delta, *index as usize);
            }
        }
    }
}
