//! A second reading of a lookup, which counts the hash cells that it looks at: document 02's words over the walk of the
//! Rust's find_frame and find_frame_in_block, which do not count. The port is not asked.

use crate::memory::{View, BLOCK_ENTRIES, BLOCK_HASH_CELLS};
use crate::script::Answer;

/// The lookup's frame, and the cells summed over the blocks that it probes: from the last with a visible entry down to
/// the one that answers, or to the first block. For a call that is not refused, on any contents.
pub fn looked(view: &dyn View, page: u64, min: u64, max: u64, watermark: Option<u64>) -> Answer {
    let upper = watermark.unwrap_or(max);
    let mut cells = 0;
    if upper < min {
        return Answer::Looked { frame: None, cells };
    }
    let range = watermark.map_or(min..=max, |watermark| 0..=watermark);
    let visible = visible_entries(view, upper);
    for block in (0..visible.div_ceil(BLOCK_ENTRIES)).rev() {
        let probe = Probe::new(view, block, page, visible);
        cells += probe.cells;
        let frame = probe.latest.map(|entry| view.frame(entry)).filter(|frame| range.contains(frame));
        if frame.is_some() {
            return Answer::Looked { frame, cells };
        }
    }
    Answer::Looked { frame: None, cells }
}

/// How many entries are visible: by halves, which tells on damaged frames, whose order is not a rising one.
fn visible_entries(view: &dyn View, upper: u64) -> usize {
    let mut entries = 0..view.header().frame_index_len as usize;
    while !entries.is_empty() {
        let middle = entries.start + entries.len() / 2;
        if view.frame(middle) <= upper {
            entries.start = middle + 1;
        } else {
            entries.end = middle;
        }
    }
    entries.start
}

/// The probe of one block.
#[derive(Debug, PartialEq, Eq)]
struct Probe {
    /// The page's entry that was met last, counted from the index's first.
    latest: Option<usize>,
    cells: u32,
}

impl Probe {
    /// From the page's home, at most once round the block.
    fn new(view: &dyn View, block: usize, page: u64, visible: usize) -> Self {
        let home = (page.wrapping_mul(383) % BLOCK_HASH_CELLS as u64) as usize;
        let (hash, first) = (view.block_hash(block), BLOCK_ENTRIES * block);
        let visible_here = (visible - first).min(BLOCK_ENTRIES);
        let mut probe = Self { latest: None, cells: 0 };
        for cell in (home..BLOCK_HASH_CELLS).chain(0..home) {
            let local_plus_one = usize::from(hash[cell]);
            probe.cells += 1;
            // The empty cell that ends the probe was counted. So was one with an entry that is not yet visible: the Rust
            // stays at that cell until its turns are over.
            if local_plus_one == 0 || local_plus_one > visible_here {
                break;
            }
            let entry = first + local_plus_one - 1;
            if view.page(entry) == page {
                probe.latest = Some(entry);
            }
        }
        probe
    }
}

#[cfg(test)]
mod tests {
    use super::*;
    use crate::memory::{Memory, Settings, LINUX_OFD};

    /// An index of two blocks with these pages and frames from an entry on, each named by a hash cell.
    fn index(first: usize, entries: &[(u64, u64, usize)]) -> Memory {
        let settings = Settings { capacity: 8192, max_blocks: 2, slots: 1, mode: LINUX_OFD };
        let mut memory = Memory::fresh(&settings, 2, 1);
        memory.header.frame_index_len = (first + entries.len()) as u32;
        for (entry, (page, frame, cell)) in (first..).zip(entries) {
            (memory.pages[entry], memory.frames[entry]) = (*page, *frame);
            memory.hash[BLOCK_HASH_CELLS * (entry / BLOCK_ENTRIES) + cell] = (entry % BLOCK_ENTRIES) as u16 + 1;
        }
        memory
    }

    fn up_to(memory: &Memory, page: u64, max: u64) -> (Option<u64>, u32) {
        within(memory, page, 0, max, None)
    }

    fn within(memory: &Memory, page: u64, min: u64, max: u64, watermark: Option<u64>) -> (Option<u64>, u32) {
        match looked(memory, page, min, max, watermark) {
            Answer::Looked { frame, cells } => (frame, cells),
            answer => panic!("{answer}"),
        }
    }

    /// Pages 7 and 8,199 have home 2,681.
    fn three_entries() -> Memory {
        index(0, &[(7, 1, 2681), (8199, 2, 2682), (7, 3, 2683)])
    }

    #[test]
    fn the_empty_cell_counts() {
        assert_eq!(up_to(&index(0, &[]), 7, 9), (None, 0));
        let one = index(0, &[(7, 1, 2681)]);
        assert_eq!(up_to(&one, 7, 9), (Some(1), 2));
        assert_eq!(up_to(&one, 8199, 9), (None, 2));
        assert_eq!(up_to(&one, 8, 9), (None, 1));
        assert_eq!(up_to(&three_entries(), 7, 9), (Some(3), 4));
    }

    #[test]
    fn a_hidden_cell_counts_one_and_ends_the_probe() {
        let memory = three_entries();
        assert_eq!(up_to(&memory, 7, 2), (Some(1), 3));
        assert_eq!(up_to(&memory, 8199, 1), (None, 2));
        // No entry is visible, and no cell is looked at.
        assert_eq!(up_to(&memory, 7, 0), (None, 0));
        // The home names a hidden entry; behind it lies a visible one.
        let damaged = index(0, &[(7, 1, 2682), (7, 3, 2681)]);
        assert_eq!(up_to(&damaged, 7, 2), (None, 1));
        assert_eq!(up_to(&damaged, 7, 3), (Some(1), 3));
    }

    #[test]
    fn bounds_and_watermark() {
        let memory = three_entries();
        assert_eq!(within(&memory, 7, 3, 2, None), (None, 0));
        assert_eq!(within(&memory, 7, 3, 9, Some(2)), (None, 0));
        assert_eq!(within(&memory, 7, 2, 2, None), (None, 3));
        assert_eq!(within(&memory, 7, 2, 0, Some(2)), (Some(1), 3));
    }

    #[test]
    fn a_probe_goes_round_once() {
        // Home 8,191.
        let over_the_end = index(0, &[(385, 1, 8191), (8577, 2, 0)]);
        assert_eq!(up_to(&over_the_end, 385, 9), (Some(1), 3));
        assert_eq!(up_to(&over_the_end, 385, 1), (Some(1), 2));
        let mut full = index(0, &[(7, 1, 0)]);
        full.hash[..BLOCK_HASH_CELLS].fill(1);
        assert_eq!(up_to(&full, 7, 9), (Some(1), 8192));
        assert_eq!(up_to(&full, 8, 9), (None, 8192));
        // The cell before the home is empty, and then one further back.
        full.hash[2680] = 0;
        assert_eq!(up_to(&full, 7, 9), (Some(1), 8192));
        full.hash[2679] = 0;
        assert_eq!(up_to(&full, 7, 9), (Some(1), 8191));
    }

    #[test]
    fn blocks_are_summed_down_to_the_one_that_answers() {
        let memory = index(BLOCK_ENTRIES - 1, &[(7, 5, 2681), (8, 6, 3064), (7, 7, 2681)]);
        assert_eq!(up_to(&memory, 7, 9), (Some(7), 2));
        // The match of the last block is hidden.
        assert_eq!(up_to(&memory, 7, 6), (Some(5), 1 + 2));
        // One entry is visible, and its block alone.
        assert_eq!(up_to(&memory, 7, 5), (Some(5), 2));
        // Both matches are below the lower bound.
        assert_eq!(within(&memory, 7, 8, 9, None), (None, 2 + 2));
        assert_eq!(up_to(&memory, 8, 9), (Some(6), 2));
        assert_eq!(up_to(&memory, 9, 9), (None, 1 + 1));
        // The last block's match is out of bounds, by a damaged frame, and the block before it answers.
        let mut damaged = memory;
        damaged.frames[BLOCK_ENTRIES + 1] = 2;
        assert_eq!(within(&damaged, 7, 3, 9, None), (Some(5), 2 + 2));
    }
}
