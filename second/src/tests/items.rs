//! The vectors.

use super::stream;
use crate::layout::{self, CAPACITY};
use crate::vectors::{self, Slice};

/// The bytes of a stream that a vector program holds, and the words of each slice.
const LARGEST_STREAM: usize = 3_200_000;

fn largest(slice: Slice) -> usize {
    match slice {
        Slice::Schema => 256,
        Slice::Table | Slice::Third => layout::table(CAPACITY + 4),
        Slice::Values => 64,
    }
}

#[test]
fn vectors_are_enough() {
    let items: Vec<vectors::Item> =
        vectors::read(stream()).unwrap().into_iter().map(|(item, _)| item).collect();
    assert_eq!(vectors::write(&items), stream());
    let text = vectors::expect(stream());
    assert!(text.ends_with("\nmismatches 0\n"));
    for line in
        text.lines().filter(|line| line.starts_with("category") || line.starts_with("answer"))
    {
        let count: u64 = line.rsplit(' ').next().unwrap().parse().unwrap();
        assert!(count >= 20, "{}", line);
    }
    for call in [vectors::TABLE_CHECK, vectors::MERGE, vectors::MARKS] {
        assert!(items.iter().filter(|item| item.call == call).count() >= 2_000);
    }
    assert_eq!(
        text.lines().filter(|line| line.starts_with("category")).count(),
        vectors::CATEGORIES.len()
    );
}

#[test]
fn limits_are_accepted() {
    for (item, told) in vectors::read(stream()).unwrap() {
        if item.category == 2 || item.category == 7 {
            assert_eq!(told.answer, 0, "{:?}", item);
        }
        if item.category == 3 {
            assert_eq!(told.answer, 2, "{:?}", item);
        }
    }
}

#[test]
fn each_program_has_its_items() {
    let items = vectors::vectors(1);
    let of = |program: &str| vectors::of_program(program, &items);
    assert_eq!(
        vectors::PROGRAMS.map(|program| of(program).len()).iter().sum::<usize>(),
        items.len()
    );
    for program in vectors::PROGRAMS {
        let stream = vectors::write(&of(program));
        assert!(stream.len() <= LARGEST_STREAM, "{}", program);
        assert!(vectors::expect(&stream).ends_with("\nmismatches 0\n"), "{}", program);
    }
}

#[test]
fn slices_have_room() {
    for item in vectors::vectors(1) {
        let shape = vectors::shape_of(item.call).unwrap();
        for (slice, words) in shape.slices.iter().zip(&item.slices) {
            assert!(words.len() <= largest(*slice), "{:?} {}", slice, words.len());
        }
    }
}
