//! Document 01's table of refusals, with document 02's calls, read for this tool alone: neither the port nor the Rust is
//! asked. And what the Rust must do with a refused call.

use crate::memory::{Settings, View, BLOCK_ENTRIES, BLOCK_HASH_CELLS, LINUX_OFD, PROCESS_SCOPED_FCNTL, UNUSED};
use crate::script::{Call, Part};
use crate::sides::Lent;

/// The most holders that a shared mark can have.
const MOST_HOLDERS: u32 = 65_535;

/// A call as it is about to be made.
pub struct Asked<'a> {
    pub call: &'a Call,
    pub process: usize,
    pub settings: &'a Settings,
    pub lent: &'a Lent,
    pub memory: &'a dyn View,
}

/// The lowest number that applies, if any. `pairs` gives the length of a list.
pub fn refusal(asked: &Asked, pairs: impl FnOnce(u64, u64) -> u64) -> Option<u32> {
    match *asked.call {
        Call::RecordFrame { frame, grow, .. } => asked.index(&ENTRIES_AND_HASH).or_else(|| asked.record(frame, grow)),
        Call::RollbackFrames { .. } | Call::FindFrame { .. } => asked.index(&ENTRIES_AND_HASH),
        // Document 02: they are not lent the hash.
        Call::FrameBetween { .. } | Call::NearestFrame { .. } => asked.index(&ENTRIES),
        Call::IterLatestFrames { min, max, room } => {
            asked.index(&ENTRIES_AND_HASH).or_else(|| (pairs(min, max) > room).then_some(5))
        }
        Call::RegisterReader { owner, mark, ref card } => {
            asked.readers(&SLOTS_AND_OWN).or_else(|| asked.offer(owner, mark)).or_else(|| asked.card(card))
        }
        Call::RegisterReaderForSnapshot { owner, mark, ref card } => asked.shared_register(owner, mark, card),
        Call::RegisterDbFileReader { owner, ref card } => asked.shared_register(owner, 0, card),
        Call::UpdateReader { slot, owner, mark } => asked
            .slots_given(&[Part::SlotFrames, Part::SlotOwners, Part::Registry])
            .or_else(|| asked.slot_number(slot))
            .or_else(|| (asked.memory.slots().owners[slot as usize] != owner).then_some(8))
            .or_else(|| asked.offer(owner, mark))
            .or_else(|| asked.shared_slot(slot)),
        Call::UnregisterReader { slot, owner } => asked
            .readers(&SLOTS_OWN_AND_REGISTRY)
            .or_else(|| asked.slot_number(slot))
            .or_else(|| asked.slot_release(slot, owner))
            .or_else(|| no_owner(owner))
            .or_else(|| asked.shared_slot(slot)),
        Call::UnregisterReaderForSnapshot { mark, slot, owner } => asked
            .readers(&SLOTS_OWN_AND_REGISTRY)
            .or_else(|| asked.slot_number(slot))
            .or_else(|| asked.shared_release(mark, slot, owner)),
        Call::MinActiveReaderFrame { ref card } | Call::CopyBackLimit { ref card } => {
            asked.readers(&SLOTS_AND_OWN).or_else(|| asked.card(card)).or_else(|| asked.probe(card))
        }
        Call::HasActiveDbFileReader { ref card } => {
            asked.readers(&SLOTS_AND_OWN).or_else(|| asked.card(card)).or_else(|| asked.probe_for_mark_0(card))
        }
        Call::TryAcquireWriter { owner, byte } | Call::TryAcquireCheckpoint { owner, byte } => {
            no_owner(owner).or_else(|| (byte > 2).then_some(14))
        }
        Call::ReleaseWriter { owner } => asked.lock_release(asked.own().local_writer, owner),
        Call::ReleaseCheckpoint { owner } => asked.lock_release(asked.own().local_checkpoint, owner),
        Call::PublishCommit { .. }
        | Call::PublishBackfill { .. }
        | Call::BumpCheckpointSeq
        | Call::BumpCheckpointEpoch
        | Call::OwnerNew { .. }
        | Call::OwnerParts { .. } => None,
    }
}

/// What the Rust must do with a refused call.
#[derive(Clone, Copy, Debug, PartialEq, Eq)]
pub enum RustOnRefusal {
    Panics,
    Accepts,
    /// It panics or accepts, by what else is wrong with the call.
    Either,
    /// The Rust has no such input, or would leave its memory; why.
    NotAsked(&'static str),
}

/// Read from the Rust for this tool; the Rust is not asked.
pub fn rust_on_refusal(asked: &Asked, number: u32) -> RustOnRefusal {
    let shared_release = matches!(asked.call, Call::UnregisterReaderForSnapshot { .. });
    match number {
        _ if asked.call.is_entry_search() => RustOnRefusal::NotAsked("it has no such call"),
        1 => asked.rust_on_bad_settings(),
        2 => RustOnRefusal::NotAsked("it maps its own memory"),
        5 => RustOnRefusal::NotAsked("it returns a vector"),
        14 => RustOnRefusal::NotAsked("it asks the file for each lock"),
        // A damaged record that names a slot of n or above loses a holder, and 12 may apply besides.
        6 | 9 | 10 if shared_release => RustOnRefusal::Either,
        9 | 10 | 11 | 13 => RustOnRefusal::Accepts,
        _ => RustOnRefusal::Panics,
    }
}

const ENTRIES: [Part; 2] = [Part::Pages, Part::Frames];
const ENTRIES_AND_HASH: [Part; 3] = [Part::Pages, Part::Frames, Part::Hash];
const SLOTS_AND_OWN: [Part; 4] = [Part::Bitmap, Part::SlotFrames, Part::SlotOwners, Part::LocalOwners];
const SLOTS_OWN_AND_REGISTRY: [Part; 5] =
    [Part::Bitmap, Part::SlotFrames, Part::SlotOwners, Part::LocalOwners, Part::Registry];

fn no_owner(owner: u64) -> Option<u32> {
    (owner == 0).then_some(9)
}

impl Asked<'_> {
    fn own(&self) -> &crate::memory::Own {
        &self.memory.processes()[self.process]
    }

    fn slots(&self) -> usize {
        self.settings.slots as usize
    }

    /// How many cells of a part are lent.
    fn lent(&self, part: Part) -> usize {
        let slots = self.memory.slots();
        let cells = match part {
            Part::Pages | Part::Frames => BLOCK_ENTRIES * self.memory.room_blocks(),
            Part::Hash => BLOCK_HASH_CELLS * self.memory.room_blocks(),
            Part::Bitmap => slots.bitmap.len(),
            Part::SlotFrames => slots.frames.len(),
            Part::SlotOwners => slots.owners.len(),
            Part::LocalOwners => self.own().local_owners.len(),
            Part::Registry => self.own().registry.len(),
        };
        self.lent.of(part, cells)
    }

    /// 1 and 2 of a call on the index that uses these parts.
    fn index(&self, parts: &[Part]) -> Option<u32> {
        let header = self.memory.header();
        let (len, blocks) = (header.frame_index_len, header.frame_index_blocks);
        if !self.settings.good_capacity()
            || !self.settings.good_max_blocks()
            || len > self.settings.capacity
            || u64::from(len) > BLOCK_ENTRIES as u64 * u64::from(blocks)
            || blocks > self.settings.max_blocks
        {
            return Some(1);
        }
        let of_block = |part: &Part| if *part == Part::Hash { BLOCK_HASH_CELLS } else { BLOCK_ENTRIES };
        let needed = |part: &Part| of_block(part) * self.settings.max_blocks as usize;
        parts.iter().any(|part| self.lent(*part) < needed(part)).then_some(2)
    }

    /// 3 and 4: only a record that is not dropped can meet them.
    fn record(&self, frame: u64, grow: bool) -> Option<u32> {
        let header = self.memory.header();
        let resets = frame == 1 && header.max_frame == 0;
        let len = if resets { 0 } else { header.frame_index_len as usize };
        let full = len >= BLOCK_ENTRIES * header.frame_index_blocks as usize;
        let grows = grow && header.frame_index_blocks < self.settings.max_blocks;
        if len >= self.settings.capacity as usize || full && !grows {
            return None;
        }
        self.order_and_hash(len, frame)
    }

    /// 3 and 4 of an entry that has its place.
    fn order_and_hash(&self, len: usize, frame: u64) -> Option<u32> {
        if len > 0 && frame <= self.memory.frame(len - 1) {
            return Some(3);
        }
        let first_of_block = len % BLOCK_ENTRIES == 0;
        let hash_full = !first_of_block && !self.memory.block_hash(len / BLOCK_ENTRIES).contains(&0);
        hash_full.then_some(4)
    }

    /// 1: the Rust takes the lesser of length and capacity and does not look at the blocks in use.
    fn rust_on_bad_settings(&self) -> RustOnRefusal {
        use RustOnRefusal::{Accepts, NotAsked, Panics};
        let len = self.memory.header().frame_index_len.min(self.settings.capacity) as usize;
        let block_missing = len > BLOCK_ENTRIES * self.memory.room_blocks();
        let takes_mode = !matches!(self.call, Call::UpdateReader { .. });
        match *self.call {
            Call::RecordFrame { frame, grow, .. } => self.rust_records(frame, grow),
            Call::FindFrame { min, max, watermark, .. } if watermark.unwrap_or(max) < min => Accepts,
            Call::FindFrame { .. } | Call::IterLatestFrames { .. } | Call::RollbackFrames { .. } => {
                if block_missing {
                    Panics
                } else {
                    Accepts
                }
            }
            _ if takes_mode && !self.settings.good_mode() => NotAsked("it has two modes"),
            _ if self.settings.slots > 0 => NotAsked("it would read past its memory"),
            // No slots.
            Call::UpdateReader { .. } | Call::UnregisterReader { .. } | Call::UnregisterReaderForSnapshot { .. } => {
                Panics
            }
            _ => Accepts,
        }
    }

    /// A record with any length, capacity and number of blocks.
    fn rust_records(&self, frame: u64, grow: bool) -> RustOnRefusal {
        let header = self.memory.header();
        let resets = frame == 1 && header.max_frame == 0;
        let len = if resets { 0 } else { header.frame_index_len };
        let mut blocks = header.frame_index_blocks;
        if len >= self.settings.capacity {
            return RustOnRefusal::Accepts;
        }
        // As many blocks as it takes, or dropped.
        loop {
            let Some(entries) = blocks.checked_mul(BLOCK_ENTRIES as u32) else { return RustOnRefusal::Panics };
            if len < entries {
                let len = len as usize;
                let stored =
                    len / BLOCK_ENTRIES < self.memory.room_blocks() && self.order_and_hash(len, frame).is_none();
                return if stored { RustOnRefusal::Accepts } else { RustOnRefusal::Panics };
            }
            if !grow || blocks >= self.settings.max_blocks || blocks as usize >= self.memory.room_blocks() {
                return RustOnRefusal::Accepts;
            }
            blocks += 1;
        }
    }

    /// 1 and 2 of a call on the readers that takes the mode and uses these parts.
    fn readers(&self, parts: &[Part]) -> Option<u32> {
        if !self.settings.good_mode() {
            return Some(1);
        }
        self.slots_given(parts)
    }

    /// 1 and 2 of a call on the readers that does not take the mode.
    fn slots_given(&self, parts: &[Part]) -> Option<u32> {
        if !self.settings.good_slots() {
            return Some(1);
        }
        let needed = |part: &Part| match part {
            Part::Bitmap => self.slots().div_ceil(64),
            _ => self.slots(),
        };
        parts.iter().any(|part| self.lent(*part) < needed(part)).then_some(2)
    }

    fn shared_register(&self, owner: u64, mark: u64, card: &[u8]) -> Option<u32> {
        self.readers(&SLOTS_OWN_AND_REGISTRY)
            .or_else(|| self.offer(owner, mark))
            .or_else(|| self.new_holder(mark, card))
            .or_else(|| self.card(card))
    }

    fn slot_number(&self, slot: u32) -> Option<u32> {
        (slot >= self.settings.slots).then_some(6)
    }

    /// 9 and 10.
    fn offer(&self, owner: u64, mark: u64) -> Option<u32> {
        no_owner(owner).or_else(|| (mark == UNUSED).then_some(10))
    }

    /// 7 and 8 of a slot.
    fn slot_release(&self, slot: u32, owner: u64) -> Option<u32> {
        let local = self.own().local_owners[slot as usize];
        if local == 0 {
            return Some(7);
        }
        let shared = self.memory.slots().owners[slot as usize];
        let other = shared != owner || self.settings.mode == PROCESS_SCOPED_FCNTL && local != owner;
        other.then_some(8)
    }

    /// 11.
    fn shared_slot(&self, slot: u32) -> Option<u32> {
        let records = &self.own().registry[..self.slots()];
        records.iter().any(|r| r.holders > 0 && r.slot == slot).then_some(11)
    }

    /// 7, 8, 9, 10 and 12 of a shared release.
    fn shared_release(&self, mark: u64, slot: u32, owner: u64) -> Option<u32> {
        let own = self.own();
        let record = own.shared(self.slots(), mark).map(|i| own.registry[i]);
        let record = record.filter(|r| r.slot == slot && r.owner == owner);
        let last = record.is_some_and(|r| r.holders == 1);
        let release = if last { self.slot_release(slot, owner) } else { None };
        release.or_else(|| self.offer(owner, mark)).or_else(|| record.is_none().then_some(12))
    }

    /// 13. A bad card grants no slot.
    fn new_holder(&self, mark: u64, card: &[u8]) -> Option<u32> {
        let own = self.own();
        let refused = match own.shared(self.slots(), mark) {
            Some(i) => own.registry[i].holders >= MOST_HOLDERS,
            None => own.empty_record(self.slots()).is_none() && self.card(card).is_none() && self.could_take(card),
        };
        refused.then_some(13)
    }

    /// Whether some slot is free, or could be reclaimed and then taken.
    fn could_take(&self, card: &[u8]) -> bool {
        let slots = self.memory.slots();
        let reclaims = |i: usize| self.settings.mode == LINUX_OFD || slots.owners[i] != 0;
        (0..self.slots()).any(|i| self.own().local_owners[i] == 0 && card[i] == 1 && (slots.is_free(i) || reclaims(i)))
    }

    /// 14.
    fn card(&self, card: &[u8]) -> Option<u32> {
        (card.len() != self.slots() || card.iter().any(|&byte| byte > 2)).then_some(14)
    }

    /// 15.
    fn probe(&self, card: &[u8]) -> Option<u32> {
        (0..self.slots()).any(|i| self.unknown(card, i)).then_some(15)
    }

    /// 15 of a search that ends at the first live slot with mark 0.
    fn probe_for_mark_0(&self, card: &[u8]) -> Option<u32> {
        let live = |i: usize| self.own().local_owners[i] != 0 || card[i] != 1;
        let ends = |i: &usize| self.unknown(card, *i) || self.memory.slots().frames[*i] == 0 && live(*i);
        (0..self.slots()).find(ends).and_then(|i| self.unknown(card, i).then_some(15))
    }

    /// In LinuxOfd an error at a slot neither held nor skipped.
    fn unknown(&self, card: &[u8], i: usize) -> bool {
        let used = self.memory.slots().frames[i] != UNUSED && self.own().local_owners[i] == 0;
        self.settings.mode == LINUX_OFD && used && card[i] == 2
    }

    /// 1, 7, 8 and 9 of a lock.
    fn lock_release(&self, local: u64, owner: u64) -> Option<u32> {
        if !self.settings.good_mode() {
            Some(1)
        } else if local == 0 {
            Some(7)
        } else if self.settings.mode == PROCESS_SCOPED_FCNTL && local != owner {
            Some(8)
        } else {
            no_owner(owner)
        }
    }
}

#[cfg(test)]
mod tests {
    use super::*;
    use crate::memory::{HeaderCell, Memory, Record};
    use crate::script::Line;

    /// Memory of two slots, both held by process 0 for owner 7, slot 1 shared at mark 5.
    fn memory(mode: u32) -> (Settings, Memory) {
        let settings = Settings { capacity: 9, max_blocks: 1, slots: 2, mode };
        let mut memory = Memory::fresh(&settings, 1, 2);
        memory.slots.bitmap[0] = 0;
        memory.slots.frames.copy_from_slice(&[4, 5]);
        memory.slots.owners.copy_from_slice(&[7, 7]);
        memory.processes[0].local_owners.copy_from_slice(&[7, 7]);
        memory.processes[0].registry[0] = Record::new(5, 1, 7, 1);
        (settings, memory)
    }

    fn number(line: &str, (settings, memory): &(Settings, Memory)) -> Option<u32> {
        let Line::Call { process, call } = Line::parse(line) else { panic!("{line}") };
        let asked = Asked { call: &call, process, settings, lent: &Lent::default(), memory };
        refusal(&asked, |_, _| 3)
    }

    #[test]
    fn the_lowest_number_counts() {
        let ofd = memory(LINUX_OFD);
        for (line, expected) in [
            ("reg 1 0 18446744073709551615 9", Some(9)),
            ("reg 1 1 18446744073709551615 9", Some(10)),
            ("reg 1 1 1 9", Some(14)),
            ("reg 1 1 1 00", None),
            ("rel 0 2 0", Some(6)),
            ("rel 1 0 0", Some(7)),
            ("rel 0 1 8", Some(8)),
            ("rel 0 1 7", Some(11)),
            ("rel 0 0 7", None),
            ("upd 1 0 7 1", None),
            ("upd 1 0 0 1", Some(8)),
            ("upd 0 1 7 18446744073709551615", Some(10)),
            ("upd 0 1 7 1", Some(11)),
            ("rels 0 5 2 0", Some(6)),
            ("rels 0 5 1 0", Some(9)),
            ("rels 0 18446744073709551615 1 7", Some(10)),
            ("rels 0 4 1 7", Some(12)),
            ("rels 0 5 1 7", None),
            ("floor 1 2", Some(14)),
            ("floor 1 02", Some(15)),
            ("floor 0 22", None),
            ("dbreader 1 02", Some(15)),
            ("dbreader 0 22", None),
            ("regdb 1 0 9", Some(9)),
            ("regdb 1 1 9", Some(14)),
            ("acqw 0 0 3", Some(9)),
            ("relc 0 0", Some(7)),
            ("list 0 1 1 2", Some(5)),
            ("list 0 1 1 3", None),
        ] {
            assert_eq!(number(line, &ofd), expected, "{line}");
        }
    }

    #[test]
    fn the_last_holder_meets_seven_and_eight_before_the_rest() {
        let mut damaged = memory(PROCESS_SCOPED_FCNTL);
        damaged.1.processes[0].local_owners[1] = 8;
        assert_eq!(number("rels 0 5 1 7", &damaged), Some(8));
        assert_eq!(number("floor 1 22", &damaged), None);
        damaged.1.processes[0].local_owners[1] = 0;
        assert_eq!(number("rels 0 5 1 7", &damaged), Some(7));
        damaged.1.processes[0].registry[0].holders = 2;
        assert_eq!(number("rels 0 5 1 7", &damaged), None);
    }

    #[test]
    fn the_index_is_tested_as_it_stands() {
        let mut index = memory(LINUX_OFD);
        index.1.header.frame_index_len = 9;
        index.1.frames[8] = 3;
        assert_eq!(number("record 0 1 3 0", &index), None); // dropped
        index.0.capacity = 10;
        assert_eq!(number("record 0 1 3 0", &index), Some(3));
        assert_eq!(number("record 0 1 1 0", &index), None); // resets
        index.1.hash.fill(1);
        assert_eq!(number("record 0 1 4 0", &index), Some(4));
        HeaderCell::Len.set(&mut index.1.header, 11);
        assert_eq!(number("record 0 1 1 0", &index), Some(1));
        index.0.max_blocks = 2;
        HeaderCell::Len.set(&mut index.1.header, 10);
        assert_eq!(number("find 0 1 1 1 -", &index), Some(2));
    }

    #[test]
    fn a_search_needs_settings_pages_and_frames_but_no_hash() {
        let (mut settings, mut memory) = memory(LINUX_OFD);
        settings.mode = 2;
        settings.slots = 0;
        let number = |settings: &Settings, memory: &Memory, part: Part, count| {
            let numbers = ["between 1 7 2 1", "nearest 1 7 0"].map(|line| {
                let Line::Call { process, call } = Line::parse(line) else { panic!("{line}") };
                let mut lent = Lent::default();
                lent.set(part, Some(count));
                let asked = Asked { call: &call, process, settings, lent: &lent, memory };
                let number = refusal(&asked, |_, _| 3);
                let expected = RustOnRefusal::NotAsked("it has no such call");
                assert!(number.is_none_or(|number| rust_on_refusal(&asked, number) == expected), "{line}");
                number
            });
            assert_eq!(numbers[0], numbers[1]);
            numbers[0]
        };
        assert_eq!(number(&settings, &memory, Part::Pages, 4096), None);
        assert_eq!(number(&settings, &memory, Part::Pages, 4095), Some(2));
        assert_eq!(number(&settings, &memory, Part::Frames, 4095), Some(2));
        assert_eq!(number(&settings, &memory, Part::Hash, 0), None);
        HeaderCell::Len.set(&mut memory.header, 10);
        assert_eq!(number(&settings, &memory, Part::Frames, 0), Some(1)); // 1 before 2
        settings.capacity = 10;
        assert_eq!(number(&settings, &memory, Part::Hash, 0), None);
        HeaderCell::Blocks.set(&mut memory.header, 2);
        assert_eq!(number(&settings, &memory, Part::Hash, 0), Some(1));
        settings.max_blocks = 2;
        assert_eq!(number(&settings, &memory, Part::Hash, 0), Some(2)); // one block is lent
        settings.max_blocks = 17;
        assert_eq!(number(&settings, &memory, Part::Hash, 0), Some(1));
    }

    #[test]
    fn a_new_holder_needs_a_record() {
        let mut full = memory(LINUX_OFD);
        full.1.processes[1].registry.fill(Record::new(1, 0, 1, 65_535));
        assert_eq!(number("regs 1 1 1 9", &full), Some(13));
        assert_eq!(number("regs 1 1 2 10", &full), Some(13));
        assert_eq!(number("regs 1 1 2 00", &full), None);
        assert_eq!(number("regs 1 1 2 1", &full), Some(14));
    }
}
