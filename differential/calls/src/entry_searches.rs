//! A second reading of the searches over the entries, which the Rust does not have: document 02's words over the pairs of
//! page and frame. The port is not asked.
//!
//! Each looks at all entries below the length, published or not, in any order of frames. The hash is not looked at.

use crate::memory::View;
use crate::script::Answer;

/// A frame of the page from `min` to `max`, both included. Where there are several the answer names them all, since which
/// one is undecided. For a call that is not refused, on any contents.
pub fn between(view: &dyn View, page: u64, min: u64, max: u64) -> Answer {
    Answer::one_of(frames(view, page).filter(|frame| min <= *frame && *frame <= max))
}

/// The frame of the page that is the fewest frames away, up or down, from 0 to 2^64-1; of two that are as near the lower.
/// For a call that is not refused, on any contents.
pub fn nearest(view: &dyn View, page: u64, to: u64) -> Answer {
    frames(view, page).min_by_key(|frame| (frame.abs_diff(to), *frame)).map_or(Answer::Nothing, Answer::Frame)
}

/// The frames that the entries have for a page.
fn frames(view: &dyn View, page: u64) -> impl Iterator<Item = u64> + '_ {
    let entries = 0..view.header().frame_index_len as usize;
    entries.filter(move |entry| view.page(*entry) == page).map(|entry| view.frame(entry))
}

#[cfg(test)]
mod tests {
    use super::*;
    use crate::memory::{Memory, Settings, BLOCK_ENTRIES, LINUX_OFD};

    const LAST: u64 = u64::MAX;

    /// An index of two blocks with these pages and frames from an entry on; the entries before are of page 0, frame 0.
    fn index(first: usize, entries: &[(u64, u64)]) -> Memory {
        let settings = Settings { capacity: 8192, max_blocks: 2, slots: 1, mode: LINUX_OFD };
        let mut memory = Memory::fresh(&settings, 2, 1);
        memory.header.frame_index_len = (first + entries.len()) as u32;
        for (entry, (page, frame)) in (first..).zip(entries) {
            (memory.pages[entry], memory.frames[entry]) = (*page, *frame);
        }
        memory
    }

    #[test]
    fn both_bounds_are_included() {
        let memory = index(0, &[(7, 3), (8, 4), (7, 9)]);
        let between = |min, max| between(&memory, 7, min, max);
        assert_eq!([between(3, 3), between(3, 8), between(2, 3)], [const { Answer::Frame(3) }; 3]);
        assert_eq!([between(4, 9), between(9, LAST)], [Answer::Frame(9), Answer::Frame(9)]);
        assert_eq!([between(4, 8), between(0, 2), between(10, LAST)], [const { Answer::Nothing }; 3]);
        assert_eq!(between(3, 9), Answer::OneOf(vec![3, 9]));
        assert_eq!(between(9, 3), Answer::Nothing); // in the wrong order
    }

    #[test]
    fn all_entries_below_the_length_count_and_no_others() {
        // Nothing is published, no hash cell names an entry, and frames do not rise.
        let mut memory = index(BLOCK_ENTRIES - 1, &[(7, 9), (7, 2), (7, 9), (8, 5)]);
        assert_eq!(between(&memory, 7, 0, LAST), Answer::OneOf(vec![2, 9]));
        assert_eq!(between(&memory, 7, 3, 8), Answer::Nothing);
        assert_eq!(between(&memory, 7, 9, 9), Answer::Frame(9)); // two entries of one frame
        assert_eq!([between(&memory, 8, 0, LAST), between(&memory, 9, 0, LAST)], [Answer::Frame(5), Answer::Nothing]);
        assert_eq!(nearest(&memory, 7, 5), Answer::Frame(2));
        memory.header.frame_index_len -= 1;
        assert_eq!([between(&memory, 8, 0, LAST), nearest(&memory, 8, 5)], [Answer::Nothing, Answer::Nothing]);
        memory.header.frame_index_len = 0;
        assert_eq!([between(&memory, 0, 0, LAST), nearest(&memory, 0, 0)], [Answer::Nothing, Answer::Nothing]);
    }

    #[test]
    fn the_nearest_is_up_or_down_and_the_lower_on_a_tie() {
        let memory = index(0, &[(7, 3), (8, 6), (7, 9), (7, 14)]);
        let cases = [(0, 3), (3, 3), (5, 3), (6, 3), (7, 9), (9, 9), (11, 9), (12, 14), (14, 14), (LAST, 14)];
        for (to, expected) in cases {
            assert_eq!(nearest(&memory, 7, to), Answer::Frame(expected), "{to}");
        }
        assert_eq!(nearest(&memory, 9, 6), Answer::Nothing);
        // In whichever order the two stand.
        assert_eq!(nearest(&index(0, &[(7, 9), (7, 3)]), 7, 6), Answer::Frame(3));
    }

    #[test]
    fn distances_go_over_the_whole_range() {
        let ends = index(0, &[(7, LAST), (7, 0)]);
        let half = 1 << 63;
        for (to, expected) in [(0, 0), (half - 1, 0), (half, LAST), (LAST, LAST)] {
            assert_eq!(nearest(&ends, 7, to), Answer::Frame(expected), "{to}");
        }
        // 2^64-1 is farther from 0 than from 2^63.
        let upper = index(0, &[(7, 0), (7, half)]);
        assert_eq!([nearest(&upper, 7, LAST), nearest(&upper, 7, half / 2)], [Answer::Frame(half), Answer::Frame(0)]);
        assert_eq!(nearest(&index(0, &[(7, LAST)]), 7, 0), Answer::Frame(LAST));
        assert_eq!(between(&ends, 7, 0, LAST), Answer::OneOf(vec![0, LAST]));
    }
}
