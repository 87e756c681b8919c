//! The table: a line for each measurement, and at its end those in which the port is slower than the Rust.

use crate::machine::{load, processor};
use crate::measure::{self, Measured};
use crate::readers;
use crate::work::{Header, Search, Work};

pub const ROUNDS: usize = 21;

pub struct Table {
    rounds: usize,
    only: Option<String>,
    /// How many lines there are so far.
    lines: usize,
    /// The ratios of port to Rust, of the lines that have one.
    ratios: Vec<(String, f64)>,
}

impl Table {
    pub fn begin(rounds: usize, only: Option<String>) -> Self {
        println!("{}; load before: {}; {rounds} rounds; nanoseconds of processor time, medians", processor(), load());
        println!("{:<66} {:>11} {:>11} {:>6} {:>8} {:>8}", "", "port", "Rust", "ratio", "of least", "of C");
        Self { rounds, only, lines: 0, ratios: Vec::new() }
    }

    /// A line of calls on the index.
    pub fn line(&mut self, name: &str, work: impl Work) {
        if self.wants(name) {
            self.print(name, measure::index(name, self.rounds, &work));
        }
    }

    /// A line of searches over the entries, which the Rust does not have.
    pub fn search_line(&mut self, name: &str, work: Search) {
        if self.wants(name) {
            self.print(name, measure::searches(name, self.rounds, &work));
        }
    }

    /// A line of calls on the header.
    pub fn header_line(&mut self, name: &str, work: Header) {
        if self.wants(name) {
            self.print(name, measure::header(name, self.rounds, work));
        }
    }

    /// A line of calls on readers.
    pub fn readers_line(&mut self, name: &str, table: readers::Table, work: readers::Work) {
        if self.wants(name) {
            self.print(name, measure::readers(name, self.rounds, &table, work));
        }
    }

    fn wants(&self, name: &str) -> bool {
        self.only.as_ref().is_none_or(|only| name.contains(only.as_str()))
    }

    fn print(&mut self, name: &str, measured: Measured) {
        let Measured { port, rust, plain } = measured;
        let mut line = format!("{name:<66} {:>11.1}", port.median());
        match rust {
            Some(rust) => {
                let ratio = port.median() / rust.median();
                let least = port.least() / rust.least();
                line += &format!(" {:>11.1} {ratio:>6.2} {least:>8.2}", rust.median());
                self.ratios.push((name.into(), ratio));
            }
            None => line += &format!(" {:>11} {:>6} {:>8}", "", "", ""),
        }
        if let Some(plain) = plain {
            line += &format!(" {:>8.2}", port.median() / plain.median());
        }
        println!("{line}");
        self.lines += 1;
    }

    /// What the lines come to. There is nothing to say if none was measured.
    pub fn end(self) {
        if self.lines == 0 {
            eprintln!("no line was measured: none has these words in its name");
            std::process::exit(2);
        }
        let Some(worst) = self.ratios.iter().map(|(_, ratio)| *ratio).reduce(f64::max) else {
            println!("load after: {}; the Rust has none of these calls", load());
            return;
        };
        println!("load after: {}; worst ratio {worst:.2}", load());
        // As they are printed: 1.00 is not above 1.00.
        let above: Vec<_> = self.ratios.iter().filter(|(_, ratio)| (ratio * 100.0).round() > 100.0).collect();
        println!(
            "{} of {} lines with a ratio have one above 1.00{}",
            above.len(),
            self.ratios.len(),
            if above.is_empty() { "" } else { ":" }
        );
        for (name, ratio) in above {
            println!("{ratio:>8.2}  {name}");
        }
    }
}
