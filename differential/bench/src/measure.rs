//! Lines measured: the sides in turns, round by round, on the same work.

use crate::plain::Plain;
use crate::sides::{Port, Rust, RustWithFastHasher};
use crate::work::{Header, Search, Work};
use crate::{clock, readers};
use std::hint::black_box;

/// Nanoseconds of each round.
#[derive(Clone, Default)]
pub struct Times(Vec<f64>);

impl Times {
    pub fn median(&self) -> f64 {
        let mut sorted = self.0.clone();
        sorted.sort_by(f64::total_cmp);
        sorted[sorted.len() / 2]
    }

    pub fn least(&self) -> f64 {
        self.0.iter().copied().fold(f64::INFINITY, f64::min)
    }

    /// Runs the line once, which does its unit so many times; the sum of the answers.
    fn of(&mut self, units: u64, run: impl FnOnce() -> u64) -> u64 {
        let (sum, taken) = clock::time(|| black_box(run()));
        self.0.push(taken / units as f64);
        sum
    }
}

/// What the sides took, those that have the calls. Of the Rust's two hashers the faster one counts.
pub struct Measured {
    pub port: Times,
    pub rust: Option<Times>,
    pub plain: Option<Times>,
}

impl Measured {
    /// Takes further rounds of the same line in.
    pub fn add(&mut self, more: Self) {
        self.port.0.extend(more.port.0);
        for (side, more) in [(&mut self.rust, more.rust), (&mut self.plain, more.plain)] {
            if let (Some(side), Some(more)) = (side, more) {
                side.0.extend(more.0);
            }
        }
    }
}

/// A side's turn: the line, once.
type Turn<'a> = &'a mut dyn FnMut(&mut Times) -> u64;

/// Runs the sides in turns. Who comes first changes from round to round. The sums of their answers must agree.
fn rounds<const N: usize>(name: &str, rounds: usize, sides: [Turn; N]) -> [Times; N] {
    let mut times = [const { Times(Vec::new()) }; N];
    for round in 0..=rounds {
        let mut sums = [0; N];
        for turn in 0..N {
            let side = (round + turn) % N;
            sums[side] = sides[side](&mut times[side]);
        }
        assert!(sums.iter().all(|sum| *sum == sums[0]), "{name}: the answers differ, {sums:?}");
        if round == 0 {
            // The first round warms up.
            times.iter_mut().for_each(|t| t.0.clear());
        }
    }
    times
}

/// The Rust with the faster of its two hashers.
fn faster(rust: Times, fast: Times) -> Option<Times> {
    Some(if rust.median() <= fast.median() { rust } else { fast })
}

/// Calls on the index, on all sides. The port and the plain C must leave the same cells.
pub fn index(name: &str, count: usize, work: &impl Work) -> Measured {
    let (mut port, mut rust, mut fast) = (Port::new(), Rust::new(), RustWithFastHasher::new());
    let mut plain = Plain::new();
    work.prepare(&mut port);
    work.prepare(&mut rust);
    work.prepare(&mut fast);
    work.prepare(&mut plain);
    macro_rules! turn {
        ($side:ident) => {
            &mut |times| {
                work.restore(&mut $side);
                times.of(work.times(), || work.run(&mut $side))
            }
        };
    }
    let [of_port, of_rust, of_fast, of_plain] =
        rounds(name, count, [turn!(port), turn!(rust), turn!(fast), turn!(plain)]);
    assert!(port.lent == *plain.lent(), "{name}: the port and the plain C leave different cells");
    Measured { port: of_port, rust: faster(of_rust, of_fast), plain: Some(of_plain) }
}

/// Searches over the entries, on the port and on the plain C, which must leave the same cells.
pub fn searches(name: &str, count: usize, work: &Search) -> Measured {
    let (mut port, mut plain) = (Port::new(), Plain::new());
    work.prepare(&mut port);
    work.prepare(&mut plain);
    macro_rules! turn {
        ($side:ident) => {
            &mut |times| times.of(work.times(), || work.run(&mut $side))
        };
    }
    let [of_port, of_plain] = rounds(name, count, [turn!(port), turn!(plain)]);
    assert!(port.lent == *plain.lent(), "{name}: the port and the plain C leave different cells");
    Measured { port: of_port, rust: None, plain: Some(of_plain) }
}

/// Calls on the header.
pub fn header(name: &str, count: usize, work: Header) -> Measured {
    let (mut port, mut rust, mut fast) = (Port::new(), Rust::new(), RustWithFastHasher::new());
    macro_rules! turn {
        ($side:ident) => {
            &mut |times| times.of(Header::TIMES, || work.run(&mut $side))
        };
    }
    let [port, rust, fast] = rounds(name, count, [turn!(port), turn!(rust), turn!(fast)]);
    Measured { port, rust: faster(rust, fast), plain: None }
}

/// Calls on readers.
pub fn readers(name: &str, count: usize, table: &readers::Table, work: readers::Work) -> Measured {
    use readers::Side;
    let mut port = readers::Port::new(table);
    let mut rust = readers::Rust::new(table);
    let mut fast = readers::RustWithFastHasher::new(table);
    work.prepare(&mut port);
    work.prepare(&mut rust);
    work.prepare(&mut fast);
    macro_rules! turn {
        ($side:ident) => {
            &mut |times| times.of(readers::Work::TIMES, || work.run(&mut $side))
        };
    }
    let [port, rust, fast] = rounds(name, count, [turn!(port), turn!(rust), turn!(fast)]);
    Measured { port, rust: faster(rust, fast), plain: None }
}
