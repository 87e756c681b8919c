//! All short sequences of calls on the index, from openings at its edges, and searches over the entries on the way.

use crate::memory::{Memory, Settings, SharedCell, BLOCK_ENTRIES, BLOCK_HASH_CELLS, LINUX_OFD};
use crate::random::{shortest, Found};
use crate::script::{Call, Line, New};
use crate::session::{Cells, Session, Sides};

/// Two pages with home 2,681, and one with the last home.
const PAGE: u64 = 7;
const SAME_HOME: u64 = 7 + 8192;
const LAST_HOME: u64 = 385;

/// An index as the sequences find it.
struct Opening {
    name: &'static str,
    lines: Vec<Line>,
    /// Its last frame.
    frame: u64,
    /// By how many calls its sequences are shorter.
    shorter: usize,
}

/// What the sequences of one opening came to.
pub struct Tally {
    pub opening: &'static str,
    pub sequences: u64,
    /// Those that both sides have, after the opening's, the searches too.
    pub calls: u64,
    pub searches: u64,
}

/// Makes every sequence of up to `length` calls from every opening, and compares every cell after each call.
pub fn run(sides: Sides, length: usize, mut told: impl FnMut(&Tally)) -> Result<(), Found> {
    for opening in openings() {
        let mut session = Session::new(sides);
        open(&mut session, &opening, sides)?;
        let opened = session.calls;
        let length = length.saturating_sub(opening.shorter);
        let (calls, searches) = (calls(opening.frame), searches(opening.frame));
        let mut tree = Tree { sides, session, opening: &opening, calls, searches, sequences: 0, searched: 0 };
        let mut kept = vec![Memory::default(); length];
        tree.grow(&mut kept, &mut Vec::new())?;
        let Tree { session, sequences, searched: searches, .. } = tree;
        told(&Tally { opening: opening.name, sequences, calls: session.calls - opened, searches });
    }
    Ok(())
}

/// Makes the opening's lines. All cells are compared at the end.
fn open(session: &mut Session, opening: &Opening, sides: Sides) -> Result<(), Found> {
    session.cells = Cells::None;
    let lines: Vec<Line> = opening.lines.iter().cloned().chain([Line::Dump { process: 0 }]).collect();
    for (made, line) in lines.iter().enumerate() {
        session.step(line).map_err(|_| shortest(sides, lines[..=made].to_vec()))?;
    }
    session.cells = Cells::All;
    Ok(())
}

struct Tree<'a> {
    sides: Sides<'a>,
    session: Session<'a>,
    opening: &'a Opening,
    calls: Vec<Line>,
    searches: Vec<Line>,
    sequences: u64,
    searched: u64,
}

impl Tree<'_> {
    /// Each call after those of the path, and all that come after it. `kept` has room for one memory a call.
    fn grow(&mut self, kept: &mut [Memory], path: &mut Vec<usize>) -> Result<(), Found> {
        let Some((here, further)) = kept.split_first_mut() else { return Ok(()) };
        self.session.keep(here);
        if path.last().is_none_or(|&call| !only_reads(&self.calls[call])) {
            self.search(path)?;
        }
        for call in 0..self.calls.len() {
            path.push(call);
            self.sequences += 1;
            if self.session.step(&self.calls[call]).is_err() {
                return Err(self.found(path, &[]));
            }
            self.grow(further, path)?;
            self.session.put_back(here);
            path.pop();
        }
        Ok(())
    }

    /// Every search, on the index that the path leaves. None of them changes a cell, so that they need no sequences of
    /// their own, and the cells are compared after the last one.
    fn search(&mut self, path: &[usize]) -> Result<(), Found> {
        let last = self.searches.len() - 1;
        for search in 0..=last {
            self.session.cells = if search == last { Cells::All } else { Cells::None };
            if self.session.step(&self.searches[search]).is_err() {
                return Err(self.found(path, &self.searches[..=search]));
            }
            self.searched += 1;
        }
        Ok(())
    }

    /// The calls of the path after the opening, and these lines after them, show a difference.
    fn found(&self, path: &[usize], after: &[Line]) -> Found {
        let calls = path.iter().map(|&call| &self.calls[call]);
        shortest(self.sides, self.opening.lines.iter().chain(calls).chain(after).cloned().collect())
    }
}

fn only_reads(line: &Line) -> bool {
    matches!(line, Line::Call { call, .. } if call.only_reads())
}

fn line(call: Call) -> Line {
    Line::Call { process: 0, call }
}

fn record(page: u64, frame: u64, grow: bool) -> Line {
    line(Call::RecordFrame { page, frame, grow })
}

/// The calls that sequences are made of, around the last frame of the opening.
fn calls(last: u64) -> Vec<Line> {
    let find = |page, min, max, watermark| line(Call::FindFrame { page, min, max, watermark, cells: false });
    let rollback = |bound| line(Call::RollbackFrames { bound });
    let list = |min, max| line(Call::IterLatestFrames { min, max, room: 70_000 });
    vec![
        record(PAGE, last + 1, true),
        record(PAGE, last + 1, false),
        record(SAME_HOME, last + 2, true),
        record(PAGE, last + 3, true),
        record(LAST_HOME, 1, true),
        rollback(last.saturating_sub(1)),
        rollback(last + 1),
        rollback(last + 2),
        find(PAGE, 0, u64::MAX, None),
        find(PAGE, last + 2, last + 3, None),
        find(SAME_HOME, 1, last + 2, None),
        find(PAGE, last + 3, 0, Some(last + 2)),
        find(PAGE, last + 2, 0, Some(last + 3)),
        line(Call::PublishCommit { max_frame: 1, checksum_1: 1, checksum_2: 2, transaction_count: 3 }),
        list(0, u64::MAX),
        list(last + 2, last + 3),
    ]
}

/// The searches over the entries for each page of the calls, with all bounds from the last frame of the opening on.
fn searches(last: u64) -> Vec<Line> {
    let frames = last..=last + 3;
    let bounds = frames.clone().flat_map(|min| frames.clone().map(move |max| (min, max)));
    let of_page = |page| {
        let between = bounds.clone().map(move |(min, max)| Call::FrameBetween { page, min, max });
        between.chain((last..=last + 4).map(move |to| Call::NearestFrame { page, to }))
    };
    [PAGE, SAME_HOME, LAST_HOME].into_iter().flat_map(of_page).map(line).collect()
}

fn openings() -> Vec<Opening> {
    let filled = |name, capacity, max_blocks, start_blocks, entries| {
        let settings = Settings { capacity, max_blocks, slots: 1, mode: LINUX_OFD };
        let mut lines = vec![Line::New(New { settings, start_blocks, processes: 1 })];
        lines.extend((1..=entries).map(|frame| record(frame * 5 % 3001, frame, true)));
        Opening { name, lines, frame: entries, shorter: 0 }
    };
    let entries = BLOCK_ENTRIES as u64;
    vec![
        filled("capacity 1", 1, 1, 1, 0),
        filled("capacity 2, no block yet", 2, 1, 0, 0),
        filled("capacity 65,536, no block yet", 65_536, 2, 0, 0),
        filled("before the end of a block", 65_536, 2, 1, entries - 2),
        filled("before the end of a block, capacity 4,095", 4095, 2, 1, entries - 2),
        filled("before the end of the only block", 65_536, 1, 1, entries - 2),
        filled("before the end of the second of two blocks", 8193, 2, 0, 2 * entries - 2),
        crowded(),
        Opening { shorter: 2, ..filled("before the end of the last of 16 blocks", 65_536, 16, 0, 65_534) },
        Opening { shorter: 2, ..filled("65,536 entries in 16 blocks", 65_536, 16, 0, 65_536) },
        no_empty_cell(Opening { shorter: 2, ..filled("16 blocks without an empty hash cell", 65_536, 16, 0, 65_535) }),
    ]
}

/// Every hash cell of 16 blocks names its block's first entry: a lookup looks at each of 131,072 cells.
fn no_empty_cell(mut opening: Opening) -> Opening {
    let cells = 0..16 * BLOCK_HASH_CELLS as u64;
    opening.lines.extend(cells.map(|index| Line::Poke { cell: SharedCell::Hash, index, value: 1 }));
    opening
}

/// One entry, and a hash without empty cells but for two at the table's end.
fn crowded() -> Opening {
    let settings = Settings { capacity: 4096, max_blocks: 1, slots: 1, mode: LINUX_OFD };
    let mut lines = vec![Line::New(New { settings, start_blocks: 1, processes: 1 }), record(PAGE, 2, true)];
    let cells = 0..BLOCK_HASH_CELLS as u64 - 2;
    lines.extend(cells.map(|index| Line::Poke { cell: SharedCell::Hash, index, value: 1 }));
    Opening { name: "a hash with two empty cells", lines, frame: 2, shorter: 0 }
}

#[cfg(test)]
mod tests {
    use super::*;

    #[test]
    fn pages_have_the_homes_that_are_meant() {
        let home = |page: u64| page * 383 % 8192;
        assert_eq!([home(PAGE), home(SAME_HOME), home(LAST_HOME)], [2681, 2681, 8191]);
    }

    #[test]
    fn an_opening_leaves_its_last_frame() {
        for opening in openings() {
            let last = opening.lines.iter().filter_map(|line| match line {
                Line::Call { call: Call::RecordFrame { frame, .. }, .. } => Some(*frame),
                _ => None,
            });
            assert_eq!(last.max().unwrap_or(0), opening.frame, "{}", opening.name);
        }
    }
}
