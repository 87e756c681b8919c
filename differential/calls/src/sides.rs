//! What the port and the Rust each have to offer to a session.

use crate::memory::{Header, Memory, Own, OwnCell, Record, Settings, SharedCell, Slots, View};
use crate::script::{Answer, Call, Card, New, Part, PARTS};

/// How much of each part calls are lent; `None`: all of it.
#[derive(Clone, Copy, Debug, Default, PartialEq, Eq)]
pub struct Lent([Option<u64>; PARTS.len()]);

impl Lent {
    pub fn set(&mut self, part: Part, count: Option<u64>) {
        self.0[part as usize] = count;
    }

    /// How many of a part's cells are lent.
    pub fn of(&self, part: Part, cells: usize) -> usize {
        self.0[part as usize].map_or(cells, |count| count.min(cells as u64) as usize)
    }
}

/// What a call on the port is given besides its arguments.
pub struct Given<'a> {
    pub memory: &'a mut Memory,
    pub process: usize,
    pub settings: Settings,
    pub lent: Lent,
}

/// The lent parts of the memory that a call is given.
pub struct Parts<'a> {
    pub header: &'a mut Header,
    pub pages: &'a mut [u64],
    pub frames: &'a mut [u64],
    pub hash: &'a mut [u16],
    pub bitmap: &'a mut [u64],
    pub slot_frames: &'a mut [u64],
    pub slot_owners: &'a mut [u64],
    pub local_owners: &'a mut [u64],
    pub registry: &'a mut [Record],
}

impl<'a> Given<'a> {
    pub fn parts(self) -> Parts<'a> {
        fn lent<'a, T>(cells: &'a mut [T], lent: &Lent, part: Part) -> &'a mut [T] {
            let count = lent.of(part, cells.len());
            &mut cells[..count]
        }
        let Memory { header, pages, frames, hash, slots, processes } = self.memory;
        let own = &mut processes[self.process];
        Parts {
            header,
            pages: lent(pages, &self.lent, Part::Pages),
            frames: lent(frames, &self.lent, Part::Frames),
            hash: lent(hash, &self.lent, Part::Hash),
            bitmap: lent(&mut slots.bitmap, &self.lent, Part::Bitmap),
            slot_frames: lent(&mut slots.frames, &self.lent, Part::SlotFrames),
            slot_owners: lent(&mut slots.owners, &self.lent, Part::SlotOwners),
            local_owners: lent(&mut own.local_owners, &self.lent, Part::LocalOwners),
            registry: lent(&mut own.registry, &self.lent, Part::Registry),
        }
    }
}

/// The calls of the port. `None`: the port does not have the call.
#[allow(unused_variables)]
pub trait Port {
    fn record_frame(&self, g: Given, page: u64, frame: u64, grow: bool) -> Option<Answer> {
        None
    }
    fn rollback_frames(&self, g: Given, bound: u64) -> Option<Answer> {
        None
    }
    fn find_frame(&self, g: Given, page: u64, min: u64, max: u64, watermark: Option<u64>) -> Option<Answer> {
        None
    }
    fn frame_between(&self, g: Given, page: u64, min: u64, max: u64) -> Option<Answer> {
        None
    }
    fn nearest_frame(&self, g: Given, page: u64, to: u64) -> Option<Answer> {
        None
    }
    fn iter_latest_frames(&self, g: Given, min: u64, max: u64, room: u64) -> Option<Answer> {
        None
    }
    fn register_reader(&self, g: Given, owner: u64, mark: u64, card: &Card) -> Option<Answer> {
        None
    }
    fn register_reader_for_snapshot(&self, g: Given, owner: u64, mark: u64, card: &Card) -> Option<Answer> {
        None
    }
    fn register_db_file_reader(&self, g: Given, owner: u64, card: &Card) -> Option<Answer> {
        None
    }
    fn update_reader(&self, g: Given, slot: u32, owner: u64, mark: u64) -> Option<Answer> {
        None
    }
    fn unregister_reader(&self, g: Given, slot: u32, owner: u64) -> Option<Answer> {
        None
    }
    fn unregister_reader_for_snapshot(&self, g: Given, mark: u64, slot: u32, owner: u64) -> Option<Answer> {
        None
    }
    fn min_active_reader_frame(&self, g: Given, card: &Card) -> Option<Answer> {
        None
    }
    fn has_active_db_file_reader(&self, g: Given, card: &Card) -> Option<Answer> {
        None
    }
    fn copy_back_limit(&self, g: Given, card: &Card) -> Option<Answer> {
        None
    }
    fn try_acquire_writer(&self, g: Given, owner: u64, byte: u8) -> Option<Answer> {
        None
    }
    fn try_acquire_checkpoint(&self, g: Given, owner: u64, byte: u8) -> Option<Answer> {
        None
    }
    fn release_writer(&self, g: Given, owner: u64) -> Option<Answer> {
        None
    }
    fn release_checkpoint(&self, g: Given, owner: u64) -> Option<Answer> {
        None
    }
    fn publish_commit(
        &self,
        g: Given,
        max_frame: u64,
        checksum_1: u32,
        checksum_2: u32,
        transaction_count: u64,
    ) -> Option<Answer> {
        None
    }
    fn publish_backfill(&self, g: Given, nbackfills: u64) -> Option<Answer> {
        None
    }
    fn bump_checkpoint_seq(&self, g: Given) -> Option<Answer> {
        None
    }
    fn bump_checkpoint_epoch(&self, g: Given) -> Option<Answer> {
        None
    }
    fn owner_new(&self, pid: u32, instance_id: u32) -> Option<Answer> {
        None
    }
    fn owner_parts(&self, owner: u64) -> Option<Answer> {
        None
    }

    fn call(&self, g: Given, call: &Call) -> Option<Answer> {
        match *call {
            Call::RecordFrame { page, frame, grow } => self.record_frame(g, page, frame, grow),
            Call::RollbackFrames { bound } => self.rollback_frames(g, bound),
            Call::FindFrame { page, min, max, watermark, .. } => self.find_frame(g, page, min, max, watermark),
            Call::FrameBetween { page, min, max } => self.frame_between(g, page, min, max),
            Call::NearestFrame { page, to } => self.nearest_frame(g, page, to),
            Call::IterLatestFrames { min, max, room } => self.iter_latest_frames(g, min, max, room),
            Call::RegisterReader { owner, mark, ref card } => self.register_reader(g, owner, mark, card),
            Call::RegisterReaderForSnapshot { owner, mark, ref card } => {
                self.register_reader_for_snapshot(g, owner, mark, card)
            }
            Call::RegisterDbFileReader { owner, ref card } => self.register_db_file_reader(g, owner, card),
            Call::UpdateReader { slot, owner, mark } => self.update_reader(g, slot, owner, mark),
            Call::UnregisterReader { slot, owner } => self.unregister_reader(g, slot, owner),
            Call::UnregisterReaderForSnapshot { mark, slot, owner } => {
                self.unregister_reader_for_snapshot(g, mark, slot, owner)
            }
            Call::MinActiveReaderFrame { ref card } => self.min_active_reader_frame(g, card),
            Call::HasActiveDbFileReader { ref card } => self.has_active_db_file_reader(g, card),
            Call::CopyBackLimit { ref card } => self.copy_back_limit(g, card),
            Call::TryAcquireWriter { owner, byte } => self.try_acquire_writer(g, owner, byte),
            Call::TryAcquireCheckpoint { owner, byte } => self.try_acquire_checkpoint(g, owner, byte),
            Call::ReleaseWriter { owner } => self.release_writer(g, owner),
            Call::ReleaseCheckpoint { owner } => self.release_checkpoint(g, owner),
            Call::PublishCommit { max_frame, checksum_1, checksum_2, transaction_count } => {
                self.publish_commit(g, max_frame, checksum_1, checksum_2, transaction_count)
            }
            Call::PublishBackfill { nbackfills } => self.publish_backfill(g, nbackfills),
            Call::BumpCheckpointSeq => self.bump_checkpoint_seq(g),
            Call::BumpCheckpointEpoch => self.bump_checkpoint_epoch(g),
            Call::OwnerNew { pid, instance_id } => self.owner_new(pid, instance_id),
            Call::OwnerParts { owner } => self.owner_parts(owner),
        }
    }
}

/// Why the Rust stopped.
pub struct Panicked(pub String);

/// The Rust, with its own memory.
pub trait Rust: View {
    /// Takes those settings that are good. A call that takes a bad one is refused; only `attempt` makes it.
    fn set_settings(&mut self, settings: &Settings);

    /// Makes a call that document 01 does not refuse.
    fn call(&mut self, process: usize, call: &Call) -> Result<Answer, Panicked>;

    /// Makes a call with these settings, whose slots fit the memory or are 0, sees what comes of it, and puts all memory
    /// back as it was. `after` becomes the memory as the call left it.
    fn attempt(
        &mut self,
        process: usize,
        call: &Call,
        settings: &Settings,
        after: Option<&mut Memory>,
    ) -> Result<Answer, Panicked>;

    /// How many pairs the list has.
    fn pairs(&self, process: usize, min: u64, max: u64) -> u64;

    /// Pokes a cell that there is.
    fn poke(&mut self, cell: SharedCell, index: usize, value: u64);
    fn poke_own(&mut self, process: usize, cell: OwnCell, index: usize, value: u64);
    fn poke_registry(&mut self, process: usize, index: usize, record: Record);

    /// Takes every cell from a memory of the same settings.
    fn set_memory(&mut self, memory: &Memory);

    /// Takes the slots, and the own cells of each process.
    fn set_readers(&mut self, slots: &Slots, own: &[Own]);

    /// Whether every cell of the index is the same: pages, frames and hash.
    fn same_index(&self, memory: &Memory) -> bool;

    /// Whether every other cell is.
    fn same_readers(&self, memory: &Memory) -> bool;
}

/// Makes fresh memory for the Rust.
pub type MakeRust = fn(&New) -> Box<dyn Rust>;
