//! `./compare --cells`: how many hash cells lookups look at, on the index that a call script leaves.

use crate::{fault, read, written};
use calls::script::Line;
use calls::session::{Reply, Session, Sides};
use std::process::ExitCode;

/// FILE. Answers are not printed, but a line that has none is named.
pub fn print(sides: Sides, words: &[&str]) -> ExitCode {
    let text = match read(words[1]) {
        Ok(text) => text,
        Err(status) => return status,
    };
    let mut session = Session::new(sides);
    for (number, text) in text.lines().enumerate() {
        match session.step(&Line::parse(text)) {
            Ok(Reply::Unknown) => eprintln!("line {}: ?", number + 1),
            Ok(_) => {}
            Err(difference) => {
                print!("line {}: {difference}", number + 1);
                return ExitCode::from(1);
            }
        }
    }
    let Some(given) = session.given() else { return fault("the script has no line `new`") };
    let told = port::probe_lengths(given).map_or_else(|refusal| refusal.to_string(), |lengths| lengths.to_string());
    written(format!("{told}\n").as_bytes())
}
