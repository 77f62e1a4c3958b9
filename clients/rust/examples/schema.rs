//! The words of the herd book's schema, a line each.

fn main() {
    for word in herd::book::SCHEMA.words() {
        println!("{word}");
    }
}
