//! Record, rollback, lookup, search and list, with an index filled beforehand and damaged on the way.

use super::Maker;
use crate::memory::{HeaderCell, Settings, SharedCell, View, BLOCK_ENTRIES, BLOCK_HASH_CELLS};
use crate::script::{Call, Line};

/// 383 times this is 1 modulo 8,192: the page whose home is a given cell.
const HOME_INVERSE: u64 = 7807;

impl Maker<'_> {
    /// An index with a length around a multiple of 4,096: by records, or cheaply by poked cells.
    pub(super) fn filling(&mut self, settings: &Settings, lines: &mut Vec<Line>) {
        let header = |cell, value| Line::Poke { cell: SharedCell::Header(cell), index: 0, value };
        let most = settings.capacity.min(settings.max_blocks * BLOCK_ENTRIES as u32);
        let around = BLOCK_ENTRIES as u32 * self.dice.between(1, settings.max_blocks.into()) as u32;
        let len = (around - 3 + self.dice.below(6) as u32).min(most);
        if len <= 2 * BLOCK_ENTRIES as u32 && self.dice.one_in(12) {
            let few = self.dice.of(&[3, 40, u64::MAX]);
            for frame in 1..=u64::from(len) {
                let page = if few == u64::MAX { frame * 8192 } else { self.dice.below(few) };
                lines.push(Line::Call { process: 0, call: Call::RecordFrame { page, frame, grow: true } });
            }
            return;
        }
        let blocks = len.div_ceil(BLOCK_ENTRIES as u32).max(self.dice.below(2) as u32);
        lines.push(header(HeaderCell::Blocks, blocks.into()));
        lines.push(header(HeaderCell::Len, len.into()));
        self.few_entries(len.into(), settings.max_blocks.into(), lines);
    }

    /// A block of few pages: long runs of used cells, which may go on at the block's first cell. One in three has the
    /// homes side by side, so that the pages' entries mix.
    pub(super) fn hot_pages(&mut self, settings: &Settings, lines: &mut Vec<Line>) {
        let (entries, cells) = (BLOCK_ENTRIES as u64, BLOCK_HASH_CELLS as u64);
        let most = u64::from(settings.capacity.min(settings.max_blocks * BLOCK_ENTRIES as u32));
        let first = entries * self.dice.below(most.div_ceil(entries));
        let count = self.dice.of(&[30, 90, 170, 170, 330, 600, 4096]).min(most - first);
        let any = self.dice.below(cells);
        let start = self.dice.of(&[0, 60, 4000, 4090, 8000, 8100, 8190, any]);
        let apart = self.dice.of(&[1, 17, 383]);
        let few = self.dice.of(&[1, 1, 2, 5, 30]);
        let pages: Vec<u64> =
            (0..few).map(|i| HOME_INVERSE * (start + i * apart) % cells + cells * self.dice.below(3)).collect();
        let poke = |cell, index, value| Line::Poke { cell, index, value };
        lines.push(poke(SharedCell::Header(HeaderCell::Blocks), 0, (first + count).div_ceil(entries)));
        lines.push(poke(SharedCell::Header(HeaderCell::Len), 0, first + count));
        let mut used = vec![false; BLOCK_HASH_CELLS];
        for place in 0..count {
            let page = self.dice.of(&pages);
            let mut cell = page * 383 % cells;
            while used[cell as usize] {
                cell = (cell + 1) % cells;
            }
            used[cell as usize] = true;
            lines.push(poke(SharedCell::Page, first + place, page));
            lines.push(poke(SharedCell::Frame, first + place, first + place + 1));
            lines.push(poke(SharedCell::Hash, first / entries * cells + cell, place + 1));
        }
    }

    /// A first block without an empty hash cell, or with very few: an insertion or a lookup goes all the way round.
    pub(super) fn crowding(&mut self, lines: &mut Vec<Line>) {
        let cells = BLOCK_HASH_CELLS as u64;
        let named = self.dice.between(1, 3);
        let damaged = self.dice.one_in(2);
        let empty: Vec<u64> = (0..self.dice.below(3)).map(|_| self.dice.below(cells)).collect();
        for frame in 2..=named + 1 {
            let page = self.page();
            lines.push(Line::Call { process: 0, call: Call::RecordFrame { page, frame, grow: true } });
        }
        for index in (0..cells).filter(|cell| !empty.contains(cell)) {
            let other = damaged && self.dice.one_in(2000);
            let value = if other { self.dice.below(9) } else { self.dice.between(1, named) };
            lines.push(Line::Poke { cell: SharedCell::Hash, index, value });
        }
    }

    /// Entries here and there of a few pages, which so have frames in several blocks, in order or not.
    fn few_entries(&mut self, len: u64, room: u64, lines: &mut Vec<Line>) {
        let (entries, cells) = (BLOCK_ENTRIES as u64, BLOCK_HASH_CELLS as u64);
        let poke = |cell, index, value| Line::Poke { cell, index, value };
        let pages = [self.page(), self.page(), self.page(), self.page()];
        let mut used = Vec::new();
        let mut put = |entry: u64, page: u64, frame: u64| {
            let mut place = page.wrapping_mul(383) % cells;
            while used.contains(&(entry / entries, place)) {
                place = (place + 1) % cells;
            }
            used.push((entry / entries, place));
            lines.push(poke(SharedCell::Page, entry, page));
            lines.push(poke(SharedCell::Hash, entry / entries * cells + place, entry % entries + 1));
            lines.push(poke(SharedCell::Frame, entry, frame));
        };
        let in_order = self.dice.one_in(2);
        for _ in 0..self.dice.below(30).min(len) {
            let entry = match self.dice.below(3) {
                0 => self.dice.below(len),
                1 => len - 1 - self.dice.below(len.min(30)),
                _ => self.dice.below(len.div_ceil(entries)) * entries + self.dice.below(3),
            };
            let frame = if in_order { entry } else { self.dice.below(9) };
            put(entry, self.dice.of(&pages), frame);
        }
        let last = len.saturating_sub(1) / entries;
        if last > 0 && self.dice.one_in(2) {
            // A page whose frame in the last block is below one in an earlier block.
            put(self.dice.below(last) * entries, pages[0], 7);
            put(last * entries, pages[0], self.dice.below(7));
        }
        // The last entries' frames, and cells of any block, begun or not.
        for back in 0..self.dice.below(40).min(len) {
            lines.push(poke(SharedCell::Frame, len - 1 - back, len - 1 - back));
        }
        for _ in 0..self.dice.below(6) {
            let cell = self.dice.below(room) * cells + self.dice.of(&pages).wrapping_mul(383) % cells;
            lines.push(poke(SharedCell::Hash, cell, self.dice.below(5)));
        }
    }

    /// Pages with equal homes, homes at the table's end, and the ends of the type.
    fn page(&mut self) -> u64 {
        match self.dice.below(6) {
            0 | 1 => 7 + 8192 * self.dice.below(4),
            2 => HOME_INVERSE * (8190 + self.dice.below(3)) % 8192 + 8192 * self.dice.below(2),
            3 => self.dice.of(&[0, u64::MAX, u64::MAX - 8192]),
            4 => self.dice.below(12),
            _ => self.dice.roll() >> self.dice.below(64),
        }
    }

    /// A page that the index has, or one with the same home, or any.
    fn likely_page(&mut self, view: &dyn View) -> u64 {
        let len = self.visible_len(view);
        if len == 0 || self.dice.one_in(4) {
            return self.page();
        }
        let page = view.page(self.entry(len));
        if self.dice.one_in(8) {
            return page.wrapping_add(BLOCK_HASH_CELLS as u64);
        }
        page
    }

    pub(super) fn visible_len(&self, view: &dyn View) -> usize {
        (view.header().frame_index_len as usize).min(view.room_blocks() * BLOCK_ENTRIES)
    }

    /// An entry, more often one of the last, or of the first of a block.
    fn entry(&mut self, len: usize) -> usize {
        match self.dice.below(5) {
            0 => self.dice.index(len),
            1 => self.dice.index(len.div_ceil(BLOCK_ENTRIES)) * BLOCK_ENTRIES,
            2 => (self.dice.index(len.div_ceil(BLOCK_ENTRIES)) * BLOCK_ENTRIES + self.dice.index(3)).min(len - 1),
            _ => len - 1 - self.dice.index(len.min(20)),
        }
    }

    /// A frame near one that the index has.
    pub(super) fn likely_frame(&mut self, view: &dyn View) -> u64 {
        let len = self.visible_len(view);
        if len == 0 || self.dice.one_in(6) {
            return self.number_near(view.header().max_frame);
        }
        let frame = view.frame(self.entry(len));
        frame.wrapping_add(self.dice.of(&[0, 0, 0, 1, u64::MAX]))
    }

    pub(super) fn index_line(&mut self, view: &dyn View, settings: &Settings) -> Line {
        let process = self.process(view);
        let header = view.header();
        let bad = header.frame_index_blocks > settings.max_blocks
            || u64::from(header.frame_index_len) > BLOCK_ENTRIES as u64 * u64::from(header.frame_index_blocks)
            || header.frame_index_len > settings.capacity;
        if bad && self.dice.one_in(2) {
            return self.mend(view, settings);
        }
        let call = match self.dice.below(23) {
            0..=6 => {
                let len = self.visible_len(view);
                let last = if len == 0 { 0 } else { view.frame(len - 1) };
                let frame = match self.dice.below(12) {
                    0 => 1,
                    1 => self.number_near(last),
                    2 => last,
                    _ => last.wrapping_add(self.dice.between(1, 3)),
                };
                let page = if self.dice.one_in(3) { self.likely_page(view) } else { self.page() };
                Call::RecordFrame { page, frame, grow: !self.dice.one_in(4) }
            }
            7 | 8 => Call::RollbackFrames { bound: self.likely_frame(view) },
            9 | 10 if self.visible_len(view) > 0 => {
                // Bounds that just let an entry in.
                let entry = self.entry(self.visible_len(view));
                let (page, min) = (view.page(entry), view.frame(entry));
                Call::FindFrame {
                    page,
                    min,
                    max: self.dice.of(&[min, min.wrapping_add(1), u64::MAX, u64::MAX]),
                    watermark: None,
                    cells: false,
                }
            }
            9..=12 => {
                let watermark = self.dice.one_in(3).then(|| self.likely_frame(view));
                let min = if self.dice.one_in(2) { self.dice.below(3) } else { self.likely_frame(view) };
                let max = if self.dice.one_in(4) { u64::MAX } else { self.likely_frame(view) };
                Call::FindFrame { page: self.likely_page(view), min, max, watermark, cells: false }
            }
            13 if self.visible_len(view) > 0 => {
                let entry = self.entry(self.visible_len(view));
                Call::IterLatestFrames { min: view.frame(entry), max: u64::MAX, room: 70_000 }
            }
            13 | 14 => {
                let min = if self.dice.one_in(2) { self.dice.below(3) } else { self.likely_frame(view) };
                let max = if self.dice.one_in(4) { u64::MAX } else { self.likely_frame(view) };
                // As many pairs as there can be for the bounds 0 and 2^64-1, or one fewer; or any.
                let len = self.visible_len(view);
                let mut pages: Vec<u64> = (0..len.min(80)).map(|entry| view.page(entry)).collect();
                pages.sort_unstable();
                pages.dedup();
                let exact = (pages.len() as u64).saturating_sub(self.dice.below(2));
                let (min, max) = if self.dice.one_in(3) { (0, u64::MAX) } else { (min, max) };
                Call::IterLatestFrames { min, max, room: self.dice.of(&[exact, exact, 0, 1, 2, 5, 70_000, u64::MAX]) }
            }
            15 => Call::PublishCommit {
                max_frame: self.dice.of(&[0, 0, 1, 9]),
                checksum_1: 1,
                checksum_2: 2,
                transaction_count: 3,
            },
            16..=18 => self.entry_search(view),
            _ => return self.damage_index(view),
        };
        Line::Call { process, call }
    }

    /// A search for a page, more often one that the index has, around two of its frames that lie side by side.
    fn entry_search(&mut self, view: &dyn View) -> Call {
        let (len, page) = (self.visible_len(view), self.likely_page(view));
        let entries = (0..len).filter(|entry| view.page(*entry) == page);
        let mut frames: Vec<u64> = entries.map(|entry| view.frame(entry)).collect();
        frames.sort_unstable();
        frames.dedup();
        let (low, high) = if frames.is_empty() {
            (self.likely_frame(view), self.likely_frame(view))
        } else {
            let at = self.dice.index(frames.len());
            (frames[at], frames.get(at + 1).copied().unwrap_or(frames[at]))
        };
        if self.dice.one_in(2) {
            return Call::NearestFrame { page, to: self.frame_to_search_from(low, high) };
        }
        let (min, max) = self.bounds_around(low, high);
        Call::FrameBetween { page, min, max }
    }

    /// Bounds that take both frames in, or one of them, or neither, or stand in the wrong order.
    fn bounds_around(&mut self, low: u64, high: u64) -> (u64, u64) {
        let [low_or_beside, high_or_beside] =
            [low, high].map(|frame| frame.wrapping_add(self.dice.of(&[0, 1, u64::MAX])));
        match self.dice.below(9) {
            0 => (low, low),
            1 => (low.wrapping_add(1), high.wrapping_sub(1)),
            2 => (low.wrapping_add(1), high),
            3 => (low, high.wrapping_sub(1)),
            4 => (0, low_or_beside),
            5 => (high_or_beside, u64::MAX),
            6 => (0, u64::MAX),
            7 => (high_or_beside, low_or_beside),
            _ => (low_or_beside, high_or_beside),
        }
    }

    /// The middle of two frames, where there may be a tie, or beside it; the frames themselves; the ends and the middle of
    /// the whole range.
    fn frame_to_search_from(&mut self, low: u64, high: u64) -> u64 {
        let middle = low.min(high) + low.abs_diff(high) / 2;
        let from = self.dice.of(&[middle, middle, middle, low, high, 0, u64::MAX, 1 << 63]);
        from.wrapping_add(self.dice.of(&[0, 0, 0, 1, u64::MAX]))
    }

    /// Block count or length, brought nearer to what is accepted.
    fn mend(&mut self, view: &dyn View, settings: &Settings) -> Line {
        let room = view.room_blocks() as u32;
        let (cell, value) = if view.header().frame_index_blocks > settings.max_blocks.min(room) {
            (HeaderCell::Blocks, settings.max_blocks.min(room))
        } else {
            let most = settings.capacity.min(BLOCK_ENTRIES as u32 * view.header().frame_index_blocks);
            (HeaderCell::Len, self.dice.of(&[most, most.saturating_sub(1), most / 2, 0]))
        };
        Line::Poke { cell: SharedCell::Header(cell), index: 0, value: value.into() }
    }

    fn damage_index(&mut self, view: &dyn View) -> Line {
        let entries = view.room_blocks() * BLOCK_ENTRIES;
        let len = self.visible_len(view);
        let entry = if len == 0 { self.dice.index(entries) } else { self.entry(len) };
        let poke = |cell, index: usize, value| Line::Poke { cell, index: index as u64, value };
        match self.dice.below(11) {
            0 | 1 => {
                let end = self.dice.of(&[0, 1, 1 << 63, u64::MAX]);
                let frame = if self.dice.one_in(4) { end } else { self.likely_frame(view) };
                poke(SharedCell::Frame, entry, frame)
            }
            2 | 3 => poke(SharedCell::Page, entry, self.likely_page(view)),
            4..=6 => {
                let block = entry / BLOCK_ENTRIES;
                let home = self.likely_page(view).wrapping_mul(383) as usize;
                let near = self.dice.of(&[3, 3, 40, 400]);
                let cell = block * BLOCK_HASH_CELLS + (home + self.dice.index(near)) % BLOCK_HASH_CELLS;
                let place = (entry % BLOCK_ENTRIES) as u64;
                let value = match self.dice.below(5) {
                    0 => 0,
                    1 => place + 1,
                    2 => place + 2,
                    3 => self.dice.of(&[1, 4095, 4096, 4097, 65_535]),
                    _ => self.dice.below(6),
                };
                poke(SharedCell::Hash, cell, value)
            }
            7 => {
                let value = self.dice.of(&[0, 1, 0, 2, 16, 17, u32::MAX]);
                poke(SharedCell::Header(HeaderCell::Blocks), 0, value.into())
            }
            8 => {
                let near = self.dice.of(&[0, 1, 4095, 4096, 4097, 8192, 65_536, u32::MAX]);
                poke(SharedCell::Header(HeaderCell::Len), 0, near.into())
            }
            9 => poke(SharedCell::Header(HeaderCell::Flag), 0, self.dice.of(&[0, 1, 1, 2, u32::MAX]).into()),
            _ => poke(SharedCell::Header(HeaderCell::MaxFrame), 0, self.dice.of(&[0, 0, 1, u64::MAX])),
        }
    }
}

#[cfg(test)]
mod tests {
    use super::*;

    #[test]
    fn the_inverse_gives_pages_by_home() {
        assert_eq!(HOME_INVERSE * 383 % 8192, 1);
    }
}
