//! The pages that the index is filled with and those that are looked up, the same in every run.

/// SplitMix64.
pub struct Dice(pub u64);

impl Dice {
    fn below(&mut self, end: u64) -> u64 {
        self.0 = self.0.wrapping_add(0x9e37_79b9_7f4a_7c15);
        let mut z = self.0;
        z = (z ^ (z >> 30)).wrapping_mul(0xbf58_476d_1ce4_e5b9);
        z = (z ^ (z >> 27)).wrapping_mul(0x94d0_49bb_1331_11eb);
        (z ^ (z >> 31)) % end
    }

    /// The numbers from `first` on, in any order.
    pub fn shuffled(&mut self, first: u64, count: u64) -> Vec<u64> {
        let mut numbers: Vec<u64> = (first..first + count).collect();
        for end in (1..numbers.len()).rev() {
            numbers.swap(end, self.below(end as u64 + 1) as usize);
        }
        numbers
    }

    /// Some of the numbers, with repeats.
    pub fn some_of(&mut self, numbers: &[u64], count: usize) -> Vec<u64> {
        (0..count).map(|_| numbers[self.below(numbers.len() as u64) as usize]).collect()
    }

    /// `count` numbers below `end`.
    pub fn any(&mut self, count: u64, end: u64) -> Vec<u64> {
        (0..count).map(|_| self.below(end)).collect()
    }
}

/// Hash cells of a block.
const CELLS: u64 = 8192;

/// The cell where the search for a page starts.
fn home(page: u64) -> usize {
    (page.wrapping_mul(383) % CELLS) as usize
}

/// So many entries of a few hot pages, which are 1, 2, 3 ..
pub fn of_hot(dice: &mut Dice, hot: u64, entries: u64) -> Vec<u64> {
    dice.any(entries, hot).into_iter().map(|page| page + 1).collect()
}

/// Absent pages, each with the home of one of the hot pages.
pub fn absent_at_hot_homes(hot: u64) -> Vec<u64> {
    (1..=8).flat_map(|k| (1..=hot).map(move |page| page + CELLS * k)).collect()
}

/// Absent pages whose home is an empty cell in every block of these entries, which are all of lower pages.
pub fn absent_at_empty_homes(entries: &[u64]) -> Vec<u64> {
    let mut used = [false; CELLS as usize];
    for block in entries.chunks(4096) {
        let mut at_home = [0; CELLS as usize];
        block.iter().for_each(|page| at_home[home(*page)] += 1);
        // Which cells are used does not depend on the order of the entries: each goes to the first empty one from its
        // home on. In the second turn those that went past the last cell are there.
        let mut waiting = 0_u32;
        for cell in (0..at_home.len()).chain(0..at_home.len()) {
            waiting += at_home[cell];
            used[cell] |= waiting > 0;
            waiting = waiting.saturating_sub(1);
        }
    }
    let pages: Vec<u64> = (CELLS + 1..=2 * CELLS).filter(|page| !used[home(*page)]).collect();
    assert!(!pages.is_empty() && entries.iter().all(|page| *page <= CELLS), "some cell is empty in every block");
    pages
}

/// Pages of which `group` at a time have one home.
pub fn sharing_homes(count: u64, group: u64) -> Vec<u64> {
    (0..count).map(|i| i / group + CELLS * (i % group)).collect()
}
