//! The list program.

use crate::cases::{bytes_of, herd, table as case_table};
use crate::inputs::{barn, lists, runs, CATEGORIES};
use crate::layout::{self, HEADER, LIST_CAPACITY};
use crate::list::list;
use crate::start;

fn listed(schema: &[u64], table: &[u64]) -> String {
    list(&[bytes_of(schema), bytes_of(table)].concat())
}

#[test]
fn list_example() {
    assert_eq!(listed(&herd(), &case_table(5).words()), "shown 2\n1 1.1 12\n2 2.1 40 1.1\n");
    assert_eq!(listed(&herd(), &case_table(10).words()), "shown 1\n2 2.1 40 -\n");
}

#[test]
fn list_refusals() {
    let mut empty = vec![0; layout::table(0)];
    start(&mut empty, 1).unwrap();
    let broken = vec![0; layout::SCHEMA];
    assert_eq!(listed(&herd(), &empty), "shown 0\n");
    assert_eq!(list(&[]), "refused 1\n");
    for schema in [herd(), broken.clone()] {
        assert_eq!(listed(&schema, &[]), "refused 1\n");
        assert_eq!(listed(&schema, &empty[..HEADER - 1]), "refused 1\n");
        assert_eq!(listed(&schema, &vec![0; layout::table(LIST_CAPACITY + 1)]), "refused 1\n");
        let mut bytes = [bytes_of(&schema), bytes_of(&empty)].concat();
        bytes.push(0);
        assert_eq!(list(&bytes), "refused 1\n");
        bytes.truncate(bytes.len() - 2);
        assert_eq!(list(&bytes), "refused 1\n");
    }
    assert_eq!(listed(&broken, &empty), "refused 2\n");
    assert_eq!(listed(&herd(), &vec![0; layout::table(0)]), "refused 3\n");
    let mut full = vec![0; layout::table(LIST_CAPACITY)];
    start(&mut full, 1).unwrap();
    assert_eq!(listed(&herd(), &full), "shown 0\n");
}

#[test]
fn list_barn() {
    let text = "shown 7\n1 1.1 1\n1 2.1 2\n2 3.1 4711 1.1\n2 4.1 4712 -\n2 4.2 4713 2.1\n\
                3 5.1 3.1 12400\n3 7.2 4.2 11250\n";
    assert_eq!(list(&barn()), text);
}

#[test]
fn list_runs() {
    let answers: Vec<(String, String)> =
        runs().into_iter().map(|(name, bytes)| (name, list(&bytes))).collect();
    for (name, text) in &answers {
        let first = text.lines().next().unwrap_or("");
        let wanted = match name.as_str() {
            "c5" | "losers" => "shown 2",
            "field-12" => "shown 3",
            "empty-reference" => "shown 1",
            "n-0" => "shown 0",
            "n-200" | "n-200-longest" => "shown 200",
            "schema-broken" | "old-form-n-3" => "refused 2",
            "table-damaged" => "refused 3",
            _ => "refused 1",
        };
        assert_eq!(first, wanted, "{}", name);
    }
    assert!(answers.iter().filter(|(_, text)| text == "refused 1\n").count() >= 6);
}

#[test]
fn list_inputs() {
    let inputs = lists(1);
    assert!(inputs.len() >= 200);
    for category in CATEGORIES {
        let of = |name: &str| name.rsplit_once('-').map_or("", |parts| parts.0) == category;
        assert!(inputs.iter().filter(|(name, _)| of(name)).count() >= 20, "{}", category);
    }
    let texts: Vec<String> = inputs.iter().map(|(_, bytes)| list(bytes)).collect();
    for begin in ["shown ", "refused 1\n", "refused 2\n", "refused 3\n"] {
        assert!(texts.iter().filter(|text| text.starts_with(begin)).count() >= 20, "{}", begin);
    }
    assert!(texts.iter().filter(|text| text.contains(" -")).count() >= 20);
}
