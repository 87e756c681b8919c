//! How many hash cells the lookups of an index look at.

use crate::locks::ByteLocks;
use crate::memory::Memory;
use crate::process::Process;
use crate::refusal::Refusal;
use std::collections::BTreeMap;
use std::fmt;

/// For each page of an index, how many hash cells the lookup of its latest frame looks at: what
/// [`Process::probe_lengths`] answers. It is written as a histogram.
#[derive(Clone, Debug, Default, PartialEq, Eq)]
pub struct ProbeLengths {
    /// By a number of cells, how many pages need so many.
    pages: BTreeMap<u32, usize>,
    /// The page that needs most, and how many.
    longest: Option<(u64, u32)>,
}

impl ProbeLengths {
    /// A page, above those that were added, and the cells of its lookup.
    fn add(&mut self, page: u64, cells: u32) {
        *self.pages.entry(cells).or_default() += 1;
        if self.longest.is_none_or(|(_, longest)| longest < cells) {
            self.longest = Some((page, cells));
        }
    }

    /// How many pages there are.
    pub fn pages(&self) -> usize {
        self.pages.values().sum()
    }

    /// How many cells the lookups of all pages look at together.
    pub fn cells(&self) -> u64 {
        self.pages.iter().map(|(&cells, &pages)| u64::from(cells) * pages as u64).sum()
    }

    /// The page whose lookup looks at most cells, the lowest of several, and how many they are. `None` where there is
    /// no page.
    pub fn longest(&self) -> Option<(u64, u32)> {
        self.longest
    }

    /// Numbers of cells, rising, each with how many pages need so many.
    pub fn iter(&self) -> impl Iterator<Item = (u32, usize)> + '_ {
        self.pages.iter().map(|(&cells, &pages)| (cells, pages))
    }

    /// The rows of the histogram: the numbers of cells of a row, and its pages. A row ends at a power of two; the first
    /// and the last one have a page.
    fn rows(&self) -> Vec<(String, usize)> {
        let row = |(&cells, _): (&u32, _)| cells.next_power_of_two().ilog2();
        let (first, last) = (self.pages.first_key_value().map(row), self.pages.last_key_value().map(row));
        let of_row = |row: u32| {
            let most = 1 << row;
            let least = most / 2 + 1;
            let cells = if least == most { most.to_string() } else { format!("{least}-{most}") };
            (cells, self.pages.range(least..=most).map(|(_, pages)| pages).sum())
        };
        first.zip(last).map_or(vec![], |(first, last)| (first..=last).map(of_row).collect())
    }
}

/// The marks of the row with most pages.
const LONGEST_BAR: usize = 50;

/// A histogram, by powers of two, and a line on the whole. A row with a page has a mark at least.
impl fmt::Display for ProbeLengths {
    fn fmt(&self, f: &mut fmt::Formatter<'_>) -> fmt::Result {
        let Some((page, longest)) = self.longest else { return f.write_str("the index has no page") };
        let rows = self.rows();
        let greatest = rows.iter().map(|(_, pages)| *pages).max().unwrap_or(0);
        writeln!(f, "{:>12}  {:>5}", "cells", "pages")?;
        for (cells, pages) in rows {
            let bar = "#".repeat((pages * LONGEST_BAR).div_ceil(greatest));
            writeln!(f, "{}", format!("{cells:>12}  {pages:>5}  {bar}").trim_end())?;
        }
        // The mean in tenths, rounded.
        let pages = self.pages() as u64;
        let tenths = (self.cells() * 10 + pages / 2) / pages;
        write!(f, "pages {pages}, mean {}.{} cells, longest {longest} (page {page})", tenths / 10, tenths % 10)
    }
}

impl<L: ByteLocks> Process<L> {
    /// How many hash cells lookups look at: each page of the index is looked up once, over all frames. To see why an
    /// index is slow; `docs/LIFE-OF-A-FRAME.md` of the repository says what the numbers tell ("When lookups are slow").
    ///
    /// ```
    /// # use wal_coordination::{SharedWalOwnershipMode::*, *};
    /// # let settings = Settings::new(64, 1, 1, LinuxOfd);
    /// # let mut owned = OwnedMemory::fresh(&settings, 1)?;
    /// # let mut memory = owned.lend();
    /// # let process = Process::new(settings, OneProcess)?;
    /// // Page 7 is written six times, pages 20 to 23 once.
    /// for (page, frame) in [7, 7, 7, 7, 7, 7, 20, 21, 22, 23].into_iter().zip(1..) {
    ///     process.record_frame(&mut memory, page, frame, false)?;
    /// }
    /// let lengths = process.probe_lengths(&memory)?;
    /// assert_eq!((lengths.pages(), lengths.cells(), lengths.longest()), (5, 15, Some((7, 7))));
    /// let drawn = [
    ///     "       cells  pages",
    ///     "           2      4  ##################################################",
    ///     "         3-4      0",
    ///     "         5-8      1  #############",
    ///     "pages 5, mean 3.0 cells, longest 7 (page 7)",
    /// ];
    /// assert_eq!(lengths.to_string(), drawn.join("\n"));
    /// # Ok::<(), Refusal>(())
    /// ```
    ///
    /// # Errors
    ///
    /// As [`find_frame`](Self::find_frame).
    pub fn probe_lengths(&self, memory: &Memory<'_>) -> Result<ProbeLengths, Refusal> {
        let mut lengths = ProbeLengths::default();
        for (page, _) in self.iter_latest_frames(memory, 0, u64::MAX)? {
            lengths.add(page, self.find_frame_counted(memory, page, 0, u64::MAX, None)?.cells);
        }
        Ok(lengths)
    }
}
