//! `second cases`, `second list`, `second barn`, `second runs DIR`, `second lists SEED DIR`,
//! `second vectors SEED DIR`, `second expect`.
//!
//! A test's second implementation; in no shipped artifact.

use second::vectors;
use std::io::{self, Read, Write};

fn input() -> io::Result<Vec<u8>> {
    let mut bytes = Vec::new();
    io::stdin().lock().read_to_end(&mut bytes)?;
    Ok(bytes)
}

/// Each input as NAME.in, and what the list program must print as NAME.out.
fn write_inputs(to: &str, inputs: &[(String, Vec<u8>)]) -> io::Result<()> {
    for (name, bytes) in inputs {
        std::fs::write(format!("{}/{}.in", to, name), bytes)?;
        std::fs::write(format!("{}/{}.out", to, name), second::list::list(bytes))?;
    }
    Ok(())
}

/// The stream of each vector program as DIR/PROGRAM/stdin, and what it must print as stdout.
fn write_vectors(seed: u64, to: &str) -> io::Result<()> {
    let items = vectors::vectors(seed);
    for program in vectors::PROGRAMS {
        let stream = vectors::write(&vectors::of_program(program, &items));
        std::fs::create_dir_all(format!("{}/{}", to, program))?;
        std::fs::write(format!("{}/{}/stdin", to, program), &stream)?;
        std::fs::write(format!("{}/{}/stdout", to, program), vectors::expect(&stream))?;
    }
    Ok(())
}

fn main() -> io::Result<()> {
    let words: Vec<String> = std::env::args().skip(1).collect();
    let words: Vec<&str> = words.iter().map(String::as_str).collect();
    let mut out = io::stdout().lock();
    match words.as_slice() {
        ["cases"] => out.write_all(second::cases::text().as_bytes()),
        ["list"] => out.write_all(second::list::list(&input()?).as_bytes()),
        ["barn"] => out.write_all(&second::inputs::barn()),
        ["runs", to] => write_inputs(to, &second::inputs::runs()),
        ["lists", seed, to] => write_inputs(to, &second::inputs::lists(seed.parse().unwrap_or(1))),
        ["vectors", seed, to] => write_vectors(seed.parse().unwrap_or(1), to),
        ["expect"] => out.write_all(vectors::expect(&input()?).as_bytes()),
        _ => {
            eprintln!(
                "second cases | list | barn | runs DIR | lists SEED DIR | vectors SEED DIR | expect"
            );
            std::process::exit(2);
        }
    }
}
