//! Random fleets driven through the library and through `second`, call by call.

use crate::damage::Damage;
use crate::driver::Driver;
use crate::lookup::{each_record, lookups};
use crate::old::turnings;
use herd::layout::{record_word, FLAG_WORD, RECORD_WORDS, USED_WORD};
use herd::Compared;
use second::cases::{herd, record, COW, GROUP};
use second::label::{label_of, LARGEST_COUNTER, LARGEST_FLAG};
use second::random::{self, Random, Shape};
use second::table::Table;
use second::vectors::{random_edit, Edit};

/// A fleet: tables under one schema, and the deltas and copies that were made on the way.
struct Fleet {
    schema: Vec<u64>,
    tables: Vec<Vec<u64>>,
    others: Vec<Vec<u64>>,
}

fn words(capacity: usize) -> usize {
    herd::table_words(capacity)
}

/// A well-formed table made directly; some have a clock or flags at the end.
fn direct(random: &mut Random, schema: &[u64]) -> Vec<u64> {
    let mut shape = Shape::small(random);
    shape.used = 2 + random.below(10) as usize;
    shape.capacity = shape.used + random.pick(&[0, 1, 2, 6]);
    let mut table = random::table(random, &random::decoded(schema), &shape);
    if random.chance(1, 8) {
        table.clock = table.clock.max(LARGEST_COUNTER - random.below(2));
    }
    if random.chance(1, 8) {
        for record in &mut table.records {
            record.flag = LARGEST_FLAG - 1 + record.flag % 2;
        }
    }
    table.words()
}

/// A table of groups and cows in which cows hold deleted groups; some of their flags are at the end.
fn held(random: &mut Random) -> Vec<u64> {
    let groups = [label_of(1, 1), label_of(2, 1), label_of(3, 1)];
    let mut records = Vec::new();
    for (at, group) in groups.iter().enumerate() {
        let flag = random.pick(&[0, 1, LARGEST_FLAG - 2, LARGEST_FLAG, LARGEST_FLAG]);
        records.push(record(GROUP, *group, flag, &[at as u64]));
    }
    for at in 0..3 + random.below(4) {
        let flag = random.pick(&[0, 0, 0, 2, 1, LARGEST_FLAG - 1]);
        let values = [40 + at, random.pick(&[groups[0], groups[0], groups[1], groups[2], 0])];
        records.push(record(COW, label_of(4 + at, 1 + at % 3), flag, &values));
    }
    random.shuffle(&mut records);
    let capacity = records.len() + random.below(4) as usize;
    Table { capacity, replica: 1 + random.below(3), clock: 12, records }.words()
}

impl Fleet {
    /// Three to five tables: started, or made directly.
    fn begin(driver: &mut Driver, random: &mut Random) -> Fleet {
        if random.chance(1, 8) {
            let tables = (0..3 + random.below(3)).map(|_| held(random)).collect();
            return Fleet { schema: herd(), tables, others: Vec::new() };
        }
        let schema = random::schema(random);
        let mut tables = Vec::new();
        let made = random.chance(1, 2);
        for replica in 1..=3 + random.below(3) {
            if made && random.chance(2, 3) {
                tables.push(direct(random, &schema));
                continue;
            }
            let capacity = random.pick(&[0, 3, 8, 12, 16, 24, 24, 24]);
            let old = random.next();
            let mut table = vec![old; words(capacity)];
            let replica = random.pick(&[replica, replica, replica, 1, 255]);
            assert_eq!(driver.start(&mut table, replica), 0);
            tables.push(table);
        }
        Fleet { schema, tables, others: Vec::new() }
    }

    /// A table of the fleet, a delta or an earlier copy.
    fn other(&self, random: &mut Random) -> Vec<u64> {
        let from =
            if self.others.is_empty() || random.chance(1, 3) { &self.tables } else { &self.others };
        from[random.below(from.len() as u64) as usize].clone()
    }

    fn keep(&mut self, random: &mut Random, words: Vec<u64>) {
        if self.others.len() < 12 {
            self.others.push(words);
        } else {
            let at = random.below(12) as usize;
            self.others[at] = words;
        }
    }

    fn edit(&mut self, driver: &mut Driver, random: &mut Random, at: usize) {
        let edit = random_edit(random, &self.schema, &self.tables[at]);
        let mut delta = driver.any_delta();
        let table = &mut self.tables[at];
        let before = table.clone();
        let answer = match edit {
            Edit::Insertion { relation, values } => {
                driver.insert(&self.schema, table, &mut delta, relation as usize, &values).0
            }
            Edit::Update { index, field, value } => {
                let (index, field) = (index as usize, field as usize);
                driver.update(&self.schema, table, &mut delta, index, field, value)
            }
            Edit::Deletion { index } => {
                driver.delete(&self.schema, table, &mut delta, index as usize)
            }
        };
        if answer == 0 {
            // The own table afterwards equals its merge with the delta, of which each record is
            // changed; a second merge with it changes none.
            let after = table.clone();
            let mut merged = before;
            if random.chance(1, 4) {
                let records = delta[USED_WORD];
                assert_eq!(driver.merge(&self.schema, &mut merged, &delta), (0, records));
                assert_eq!(merged, after);
                assert_eq!(driver.merge(&self.schema, &mut merged, &delta), (0, 0));
                assert_eq!(merged, after);
            }
            self.keep(random, delta);
        }
    }

    fn merge(&mut self, driver: &mut Driver, random: &mut Random, at: usize) {
        let other = self.other(random);
        if random.chance(1, 4) {
            let copy = self.tables[at].clone();
            self.keep(random, copy);
        }
        driver.compare(&self.schema, &self.tables[at], &other);
        let (answer, _) = driver.merge(&self.schema, &mut self.tables[at], &other);
        // The other one then is alike or behind.
        if answer == 0 {
            let (_, verdict) = driver.compare(&self.schema, &other, &self.tables[at]);
            assert!(matches!(verdict, Some(Compared::Alike | Compared::FirstBehind)));
        }
        // With a copy of itself it changes nothing.
        if answer == 0 && random.chance(1, 4) {
            let copy = self.tables[at].clone();
            assert_eq!(driver.merge(&self.schema, &mut self.tables[at], &copy), (0, 0));
            assert_eq!(self.tables[at], copy);
            driver.compare_itself(&self.schema, &copy);
        }
    }

    /// The marks, then the walk from the beginning to the end and a step more.
    fn list(&mut self, driver: &mut Driver, at: usize) {
        let table = &self.tables[at];
        let mut marks = driver.any_bytes((table.len() - words(0)) / RECORD_WORDS);
        let (answer, shown) = driver.marks(&self.schema, table, &mut marks);
        assert_eq!(answer, 0);
        let mut place = 0;
        let mut steps = 0;
        while driver.walk(&self.schema, table, &marks, &mut place).1 != 0 {
            steps += 1;
        }
        assert_eq!(steps, shown);
        driver.walk(&self.schema, table, &marks, &mut place);
    }

    fn step(&mut self, driver: &mut Driver, random: &mut Random) {
        let at = random.below(self.tables.len() as u64) as usize;
        match random.below(47) {
            0 => {
                let replica = random.pick(&[0, 1, 2, 3, 255, 256, u64::MAX]);
                driver.start(&mut self.tables[at], replica);
            }
            1 => {
                driver.schema_check(&self.schema);
                driver.table_check(&self.schema, &self.tables[at]);
            }
            2 | 3 => {
                let used = self.tables[at][USED_WORD];
                let index = random.pick(&[0, 1, used, used + 1, used / 2, u64::MAX]);
                driver.values(&self.tables[at], index as usize);
            }
            4..=6 => self.list(driver, at),
            7..=13 => self.merge(driver, random, at),
            14..=23 => {
                let other = self.other(random);
                Damage::of(random, &self.schema, &self.tables[at], other).run(driver, random);
            }
            24..=27 => lookups(driver, random, &self.schema, &self.tables[at]),
            28..=30 => turnings(driver, random, &self.schema, &self.tables[at]),
            _ => self.edit(driver, random, at),
        }
    }
}

/// A fleet of this seed, and so many steps on it.
pub fn fleet(driver: &mut Driver, seed: u64, steps: usize) {
    let mut random = Random::new(seed);
    let mut fleet = Fleet::begin(driver, &mut random);
    for _ in 0..steps {
        fleet.step(driver, &mut random);
    }
    for at in 0..fleet.tables.len() {
        fleet.list(driver, at);
        each_record(driver, &fleet.schema, &fleet.tables[at]);
    }
}

/// Large tables compared: an empty one, two of which neither has room for the other, two that are
/// alike, and one that is behind by its last flag alone.
fn compare_large(
    driver: &mut Driver,
    schema: &[u64],
    [full, nearly, empty, copy]: [&[u64]; 4],
    mut raised: Vec<u64>,
) {
    assert_eq!(driver.compare(schema, empty, full), (0, Some(Compared::FirstBehind)));
    assert_eq!(driver.merge(schema, &mut nearly.to_vec(), full).0, 11);
    assert_eq!(driver.compare(schema, nearly, full), (0, Some(Compared::Neither)));
    assert_eq!(driver.compare(schema, copy, &raised), (0, Some(Compared::Alike)));
    let last = raised[USED_WORD] as usize;
    raised[record_word(last) + FLAG_WORD] += 1;
    assert_eq!(driver.compare(schema, &raised, copy), (0, Some(Compared::SecondBehind)));
}

/// Tables of this capacity, filled and nearly filled: every call on them.
pub fn large(driver: &mut Driver, seed: u64, capacity: usize) {
    let mut random = Random::new(seed);
    for schema in [random::nodes(), herd()] {
        let mut shape = Shape::small(&mut random);
        (shape.used, shape.capacity) = (capacity, capacity);
        (shape.base, shape.spread, shape.high_flags) = (0, 2 * capacity as u64, 0);
        let full = random::table(&mut random, &random::decoded(&schema), &shape).words();
        shape.used = capacity - 1;
        let nearly = random::table(&mut random, &random::decoded(&schema), &shape).words();
        let empty = {
            let mut words = vec![7; words(capacity)];
            assert_eq!(driver.start(&mut words, 9), 0);
            words
        };
        // Every record is added; then every flag is raised.
        let mut copy = empty.clone();
        let mut raised = full.clone();
        (1..=capacity).for_each(|index| raised[record_word(index) + FLAG_WORD] += 1);
        assert_eq!(driver.merge(&schema, &mut copy, &full), (0, capacity as u64));
        assert_eq!(driver.merge(&schema, &mut copy, &raised), (0, capacity as u64));
        compare_large(driver, &schema, [&full, &nearly, &empty, &copy], raised);
        let mut fleet = Fleet { schema, tables: vec![full, nearly, empty], others: Vec::new() };
        for at in 0..3 {
            driver.table_check(&fleet.schema, &fleet.tables[at]);
            for _ in 0..12 {
                fleet.edit(driver, &mut random, at);
            }
        }
        for at in 0..3 {
            fleet.merge(driver, &mut random, at);
        }
        for at in 0..3 {
            let table = &fleet.tables[at];
            let mut marks = driver.any_bytes(capacity);
            assert_eq!(driver.marks(&fleet.schema, table, &mut marks).0, 0);
            let mut place = 0;
            for _ in 0..20 {
                driver.walk(&fleet.schema, table, &marks, &mut place);
            }
            for index in [1, capacity - 1, capacity, capacity + 1] {
                driver.values(table, index);
            }
            for _ in 0..10 {
                lookups(driver, &mut random, &fleet.schema, table);
            }
            turnings(driver, &mut random, &fleet.schema, table);
        }
    }
}
