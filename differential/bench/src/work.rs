//! What is measured.

use crate::sides::{self, Index};

/// Entries of one block and of all 16.
pub const BLOCK: u64 = 4096;
pub const ALL: u64 = 16 * BLOCK;

/// Calls on the index to measure: how it is made ready, and what is then timed.
pub trait Work {
    fn prepare<S: Index>(&self, side: &mut S);
    /// What is done before each run, outside the clock.
    fn restore<S: Index>(&self, _: &mut S) {}
    /// What is timed; the sum of the answers.
    fn run<S: Index>(&self, side: &mut S) -> u64;
    /// How many times the line's unit is done in a run.
    fn times(&self) -> u64;
}

/// Frame 1 with nothing published begins the index anew.
fn fill<S: Index>(side: &mut S, pages: &[u64]) {
    fill_from(side, pages, 0);
}

/// The entries above the first ones, which are there.
fn fill_from<S: Index>(side: &mut S, pages: &[u64], first: usize) {
    for (page, frame) in pages[first..].iter().zip(first as u64 + 1..) {
        side.record(*page, frame);
    }
}

/// The whole index, from its first entry, so many times. The unit is an entry.
pub struct Fill {
    pub pages: Vec<u64>,
    pub times: u64,
}

impl Work for Fill {
    fn prepare<S: Index>(&self, side: &mut S) {
        fill(side, &self.pages);
    }

    fn run<S: Index>(&self, side: &mut S) -> u64 {
        (0..self.times).for_each(|_| fill(side, &self.pages));
        self.times()
    }

    fn times(&self) -> u64 {
        self.times * self.pages.len() as u64
    }
}

/// A rollback to a bound, and the entries above it again.
pub struct RollbackAndRecord {
    pub pages: Vec<u64>,
    pub bound: u64,
    pub times: u64,
}

impl Work for RollbackAndRecord {
    fn prepare<S: Index>(&self, side: &mut S) {
        fill(side, &self.pages);
    }

    fn run<S: Index>(&self, side: &mut S) -> u64 {
        for _ in 0..self.times {
            side.rollback(self.bound);
            fill_from(side, &self.pages, self.bound as usize);
        }
        self.times
    }

    fn times(&self) -> u64 {
        self.times
    }
}

/// Rollbacks alone, one after the other, to bounds that fall. The entries that they drop are recorded again outside the
/// clock.
pub struct Rollbacks {
    pub pages: Vec<u64>,
    pub bounds: Vec<u64>,
}

impl Rollbacks {
    /// By one entry, so many times.
    pub fn by_one(pages: Vec<u64>, times: u64) -> Self {
        let end = pages.len() as u64;
        Self { pages, bounds: (1..=times).map(|dropped| end - dropped).collect() }
    }

    /// How many entries the last rollback leaves.
    fn left(&self) -> usize {
        self.bounds.last().copied().expect("there is a bound") as usize
    }
}

impl Work for Rollbacks {
    fn prepare<S: Index>(&self, side: &mut S) {
        fill(side, &self.pages[..self.left()]);
    }

    fn restore<S: Index>(&self, side: &mut S) {
        fill_from(side, &self.pages, self.left());
    }

    fn run<S: Index>(&self, side: &mut S) -> u64 {
        self.bounds.iter().for_each(|bound| side.rollback(*bound));
        self.times()
    }

    fn times(&self) -> u64 {
        self.bounds.len() as u64
    }
}

/// Lookups within bounds.
pub struct Find {
    pub entries: Vec<u64>,
    pub wanted: Vec<u64>,
    pub max: u64,
    pub watermark: Option<u64>,
}

impl Work for Find {
    fn prepare<S: Index>(&self, side: &mut S) {
        fill(side, &self.entries);
    }

    fn run<S: Index>(&self, side: &mut S) -> u64 {
        self.wanted.iter().map(|&page| side.find(page, 1, self.max, self.watermark).unwrap_or(0)).sum()
    }

    fn times(&self) -> u64 {
        self.wanted.len() as u64
    }
}

/// Lists of the frames from a least one on.
pub struct List {
    pub entries: Vec<u64>,
    pub min: u64,
    pub times: u64,
}

impl Work for List {
    fn prepare<S: Index>(&self, side: &mut S) {
        fill(side, &self.entries);
    }

    fn run<S: Index>(&self, side: &mut S) -> u64 {
        let sum = |(count, frames): (u64, u64)| count + frames;
        (0..self.times).map(|_| sum(side.list(self.min, u64::MAX))).sum()
    }

    fn times(&self) -> u64 {
        self.times
    }
}

/// Searches over the entries for one page after the other.
pub struct Search {
    pub entries: Vec<u64>,
    pub wanted: Vec<u64>,
    pub kind: Searched,
}

#[derive(Clone, Copy)]
pub enum Searched {
    Between { min: u64, max: u64 },
    Nearest { to: u64 },
}

impl Search {
    pub fn prepare(&self, side: &mut impl Index) {
        fill(side, &self.entries);
    }

    /// What is timed; the sum of the answers. Which frame between the bounds is given is not decided: such answers are
    /// counted, and each must be one.
    pub fn run(&self, side: &mut impl sides::Search) -> u64 {
        let wanted = self.wanted.iter();
        match self.kind {
            Searched::Between { min, max } => {
                let counted = |frame: u64| u64::from(min <= frame && frame <= max);
                wanted.map(|&page| side.between(page, min, max).map_or(0, counted)).sum()
            }
            Searched::Nearest { to } => wanted.map(|&page| side.nearest(page, to).unwrap_or(0)).sum(),
        }
    }

    pub fn times(&self) -> u64 {
        self.wanted.len() as u64
    }
}

/// Calls on the header alone.
#[derive(Clone, Copy)]
pub enum Header {
    Commit,
    AcquireAndRelease,
    Bump,
}

impl Header {
    pub const TIMES: u64 = 100_000;

    /// What is timed; the sum of the answers.
    pub fn run(self, side: &mut impl sides::Header) -> u64 {
        let calls = 1..=Self::TIMES;
        match self {
            Self::Commit => calls.map(|frame| side.commit(frame, frame)).count() as u64,
            Self::AcquireAndRelease => calls.filter(|&owner| side.acquire_and_release(owner)).count() as u64,
            Self::Bump => calls.filter(|_| side.bump() > 0).count() as u64,
        }
    }
}
