//! How the cost of a call grows with the index and with the number of slots: a table, and a picture of it.

use crate::chart::{self, Panel, Point};
use crate::machine::{load, processor};
use crate::measure::{self, Measured};
use crate::pages::{of_hot, Dice};
use crate::readers::{Table as Slots, Work as ReaderWork};
use crate::work::{Fill, Find, List, Rollbacks, Search, Searched, ALL};

pub const ROUNDS: usize = 21;

/// Entries of the index, each row twice the one before.
const ENTRIES: [u64; 8] = [512, 1024, 2048, 4096, 8192, 16_384, 32_768, ALL];
/// Reader slots, each row four times the one before.
const SLOTS: [u32; 5] = [1, 4, 16, 64, 256];

/// Passes over all sizes of a panel, among which the rounds are divided.
const PASSES: usize = 3;

/// Prints the table, and writes the picture to the file.
pub fn show(rounds: usize, file: Option<&str>) {
    let rounds = rounds.next_multiple_of(PASSES);
    println!("{}; load before: {}; {rounds} rounds; nanoseconds of processor time, medians", processor(), load());
    println!("x: the factor to the row before. Entries double from row to row, slots grow fourfold.");
    println!("The time of a record is the mean over all entries of the index.");
    let index = |call: Call| Pages::ALL.map(|pages| shown(index_panel(call, pages, rounds))).into();
    let mut panels: Vec<Vec<Panel>> = Call::ALL.map(index).into();
    panels.push(READERS.map(|(name, live, work)| shown(readers_panel(name, live, work, rounds))).into());
    println!("load after: {}", load());
    if let Some(file) = file {
        let note = format!("{}, medians of {rounds} rounds", processor());
        if let Err(error) = std::fs::write(file, chart::svg(&note, &panels)) {
            eprintln!("{file}: {error}");
            std::process::exit(2);
        }
        println!("picture: {file}");
    }
}

/// Which pages the entries have.
#[derive(Clone, Copy)]
enum Pages {
    Distinct,
    Hot(u64),
}

impl Pages {
    const ALL: [Self; 3] = [Self::Distinct, Self::Hot(1), Self::Hot(10)];

    fn words(self) -> &'static str {
        match self {
            Self::Distinct => "distinct pages",
            Self::Hot(1) => "1 hot page",
            Self::Hot(_) => "10 hot pages",
        }
    }

    fn entries(self, count: u64) -> Vec<u64> {
        let mut dice = Dice(5);
        match self {
            Self::Distinct => dice.shuffled(1, count),
            Self::Hot(hot) => of_hot(&mut dice, hot, count),
        }
    }

    /// How many lookups are timed together, and how many rollbacks: those of hot pages take long.
    fn lookups(self) -> usize {
        match self {
            Self::Distinct => 5000,
            Self::Hot(_) => 200,
        }
    }

    fn rollbacks(self) -> u64 {
        match self {
            Self::Distinct => 16,
            Self::Hot(_) => 4,
        }
    }
}

#[derive(Clone, Copy)]
enum Call {
    Record,
    Lookup,
    List,
    Rollback,
    Between,
    Nearest,
}

impl Call {
    const ALL: [Self; 6] = [Self::Record, Self::Lookup, Self::List, Self::Rollback, Self::Between, Self::Nearest];

    fn words(self) -> &'static str {
        match self {
            Self::Record => "record",
            Self::Lookup => "lookup of a present page",
            Self::List => "list",
            Self::Rollback => "rollback by 1 entry",
            Self::Between => "frame between 1 and 1",
            Self::Nearest => "nearest frame",
        }
    }

    fn measured(self, name: &str, rounds: usize, pages: Pages, count: u64) -> Measured {
        let entries = pages.entries(count);
        match self {
            // The whole index, entry by entry; several times where it is short.
            Self::Record => measure::index(name, rounds, &Fill { pages: entries, times: (16_384 / count).max(1) }),
            Self::Lookup => {
                let wanted = Dice(6).some_of(&entries, pages.lookups());
                measure::index(name, rounds, &Find { entries, wanted, max: u64::MAX, watermark: None })
            }
            Self::List => measure::index(name, rounds, &List { entries, min: 1, times: (ALL / count).min(32) }),
            Self::Rollback => measure::index(name, rounds, &Rollbacks::by_one(entries, pages.rollbacks())),
            // From the last entry down to the first.
            Self::Between => search(name, rounds, entries, Searched::Between { min: 1, max: 1 }),
            Self::Nearest => search(name, rounds, entries, Searched::Nearest { to: count / 2 }),
        }
    }
}

/// Searches for present pages, which look at as many entries in all whatever the size.
fn search(name: &str, rounds: usize, entries: Vec<u64>, kind: Searched) -> Measured {
    let wanted = Dice(6).some_of(&entries, 4_000_000 / entries.len());
    measure::searches(name, rounds, &Search { entries, wanted, kind })
}

/// A call on readers: its words, how many of so many slots are live, and the work.
type ReaderCall = (&'static str, fn(u32) -> usize, ReaderWork);

const READERS: [ReaderCall; 3] = [
    ("register and release, first slot free", |_| 0, ReaderWork::RegisterAndRelease),
    ("shared register and release, second holder", |_| 0, ReaderWork::Join),
    ("floor, all slots live", |n| n as usize, ReaderWork::Floor),
];

fn index_panel(call: Call, pages: Pages, rounds: usize) -> Panel {
    let title = format!("{}, {}", call.words(), pages.words());
    let points = points(&ENTRIES, rounds, |count, rounds| call.measured(&title, rounds, pages, count));
    Panel { title, unit: "entries", named: vec![512, 4096, ALL], points }
}

fn readers_panel(name: &str, live: fn(u32) -> usize, work: ReaderWork, rounds: usize) -> Panel {
    let measured = |n, rounds| measure::readers(name, rounds, &Slots::new(n, live(n)), work);
    let points = points(&SLOTS, rounds, measured);
    Panel { title: name.into(), unit: "slots", named: SLOTS.map(u64::from).into(), points }
}

/// Measures all sizes, pass by pass: rows are held against each other, and what slows the machine for a while so slows
/// some rounds of several rows, and not all rounds of one.
fn points<T: Copy + Into<u64>>(sizes: &[T], rounds: usize, measured: impl Fn(T, usize) -> Measured) -> Vec<Point> {
    let pass = || sizes.iter().map(|size| measured(*size, rounds / PASSES));
    let mut rows: Vec<Measured> = pass().collect();
    for _ in 1..PASSES {
        rows.iter_mut().zip(pass()).for_each(|(row, more)| row.add(more));
    }
    sizes.iter().zip(rows).map(|(size, row)| point((*size).into(), row)).collect()
}

fn point(size: u64, measured: Measured) -> Point {
    let Measured { port, rust, plain } = measured;
    Point { size, sides: [Some(port), rust, plain].map(|times| times.map(|times| times.median())) }
}

/// Prints a panel's rows.
fn shown(panel: Panel) -> Panel {
    println!("\n{}", panel.title);
    let mut line = format!("{:>9}", panel.unit);
    for (side, time) in chart::SIDES.iter().zip(panel.points[0].sides) {
        line += &time.map_or(String::new(), |_| format!(" {side:>13} {:>7}", "x"));
    }
    println!("{line}");
    let mut before: Option<&Point> = None;
    for point in &panel.points {
        let mut line = format!("{:>9}", chart::grouped(point.size));
        for (side, time) in point.sides.iter().enumerate() {
            let Some(time) = time else { continue };
            let factor = before.and_then(|before| before.sides[side]).map(|before| format!("{:.2}", time / before));
            line += &format!(" {time:>13.1} {:>7}", factor.unwrap_or_default());
        }
        println!("{}", line.trim_end());
        before = Some(point);
    }
    panel
}
