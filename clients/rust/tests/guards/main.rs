//! The static library against the second implementation, and the herd book against the library, each
//! slice between guard words: the answer, what comes back, and every word of every slice after each
//! call.

mod book;
mod book_driver;
mod damage;
mod driver;
mod fleet;
mod lent;
mod lookup;
mod old;

use book::{barn, large_barn};
use driver::{Answers, Driver, ANSWERS, LOOKUPS};
use fleet::{fleet, large};
use lent::Lending;
use lookup::each_word_damaged;
use old::each_word_turned;

const FLEETS: u64 = 600;
const STEPS: usize = 100;
const DAMAGED: u64 = 12;
const BARNS: u64 = 1_500;
const BARN_STEPS: usize = 16;

/// Each function gave each of its answers, at least ten times, and no other.
fn gave_each(driver: &Driver, all: Answers) {
    for (function, answers) in all {
        for answer in *answers {
            let count = driver.given(function, *answer);
            assert!(count >= 10, "answer {answer} of {function}: {count}");
        }
    }
    assert!(driver.counts.keys().all(|(function, answer)| {
        all.iter().any(|(name, answers)| name == function && answers.contains(answer))
    }));
}

/// Records were known and not known, in well-formed tables and beside damage.
fn looked_up_each(driver: &Driver) {
    for told in LOOKUPS {
        let count = driver.lookups.get(told).copied().unwrap_or(0);
        assert!(count >= 10, "lookups that gave {told}: {count}");
    }
}

#[test]
fn fleets_between_guards() {
    let mut driver = Driver::new(Lending::Guarded, 0);
    for seed in 0..FLEETS {
        fleet(&mut driver, seed, STEPS);
    }
    print!("{}", driver.report(ANSWERS));
    assert!(driver.calls() >= 30_000);
    for error in herd::Error::ALL {
        assert!(driver.answered(error.number()) >= 10, "{error}");
    }
    gave_each(&driver, ANSWERS);
    for changed in 0..=6 {
        let count = driver.changed.get(&changed).copied().unwrap_or(0);
        assert!(count >= 10, "merges that changed {changed} records: {count}");
    }
    for verdict in herd::Compared::ALL {
        let count = driver.verdicts.get(&verdict.number()).copied().unwrap_or(0);
        assert!(count >= 10, "comparisons that gave {verdict:?}: {count}");
    }
    looked_up_each(&driver);
}

#[test]
fn lookups_in_damaged_tables_between_guards() {
    let mut driver = Driver::new(Lending::Guarded, 5);
    for seed in 0..DAMAGED {
        each_word_damaged(&mut driver, seed);
    }
    print!("{}", driver.report(ANSWERS));
    assert!(driver.given("lookup", 3) >= 1_000 && driver.given("lookup", 5) >= 1_000);
    looked_up_each(&driver);
}

#[test]
fn turnings_of_damaged_tables_between_guards() {
    let mut driver = Driver::new(Lending::Guarded, 6);
    for seed in 0..DAMAGED {
        each_word_turned(&mut driver, seed);
    }
    print!("{}", driver.report(ANSWERS));
    for function in ["widen", "narrow"] {
        assert!([0, 2, 3].iter().all(|answer| driver.given(function, *answer) >= 1_000));
    }
}

#[test]
fn largest_tables_between_guards() {
    let mut driver = Driver::new(Lending::Guarded, 1);
    large(&mut driver, 1, herd::MOST_RECORDS);
    print!("{}", driver.report(ANSWERS));
    // One record more than the largest table has.
    let mut words = vec![0; herd::table_words(herd::MOST_RECORDS + 1)];
    assert_eq!(driver.start(&mut words, 1), 1);
    assert_eq!(driver.table_check(&second::cases::herd(), &words), 1);
}

/// A short run with each slice in an allocation of exactly its size. tools/clients runs it under
/// valgrind too, which then sees any read or write outside of a slice.
#[test]
fn fleets_in_exact_allocations() {
    let mut driver = Driver::new(Lending::Exact, 2);
    for seed in FLEETS..FLEETS + 60 {
        fleet(&mut driver, seed, 60);
    }
    large(&mut driver, 2, 40);
    print!("{}", driver.report(ANSWERS));
    assert!(driver.calls() >= 5_000);
}

#[test]
fn herd_book_between_guards() {
    let mut driver = Driver::new(Lending::Guarded, 3);
    for seed in 0..BARNS {
        barn(&mut driver, seed, BARN_STEPS);
    }
    large_barn(&mut driver, 3, herd::MOST_RECORDS);
    print!("{}", driver.report(book_driver::ANSWERS));
    assert!(driver.calls() >= 30_000 && driver.found >= 1_000);
    gave_each(&driver, book_driver::ANSWERS);
}

/// The same in allocations of exactly their size, under valgrind too.
#[test]
fn herd_book_in_exact_allocations() {
    let mut driver = Driver::new(Lending::Exact, 4);
    for seed in BARNS..BARNS + 60 {
        barn(&mut driver, seed, BARN_STEPS);
    }
    print!("{}", driver.report(book_driver::ANSWERS));
    assert!(driver.calls() >= 2_000);
}
