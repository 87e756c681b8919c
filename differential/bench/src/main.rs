//! `./bench`: the port, the Rust and a plain C on the same inputs, in turns.
#![deny(unsafe_code)]

mod chart;
mod clock;
mod growth;
mod lines;
mod machine;
mod measure;
mod pages;
mod plain;
mod readers;
mod sides;
mod table;
mod work;

use std::process::exit;
use table::Table;

const USAGE: &str = "usage: bench [ROUNDS [WORDS OF A LINE]]
       bench --growth [FILE.svg [ROUNDS]]";

fn main() {
    let words: Vec<String> = std::env::args().skip(1).collect();
    let words: Vec<&str> = words.iter().map(String::as_str).collect();
    match words[..] {
        ["--growth"] => growth::show(growth::ROUNDS, None),
        ["--growth", file] => growth::show(growth::ROUNDS, Some(file)),
        ["--growth", file, rounds] => growth::show(number(rounds), Some(file)),
        [] => lines::all(Table::begin(table::ROUNDS, None)),
        [rounds] => lines::all(Table::begin(number(rounds), None)),
        [rounds, only] => lines::all(Table::begin(number(rounds), Some(only.into()))),
        _ => usage(),
    }
}

/// A number of rounds.
fn number(word: &str) -> usize {
    word.parse().ok().filter(|rounds| *rounds > 0).unwrap_or_else(|| usage())
}

fn usage() -> ! {
    eprintln!("{USAGE}");
    exit(2)
}
