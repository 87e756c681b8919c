//! Several processes over one memory, each with its own mapping.

use crate::io::MappedFile;
use crate::shared_wal_coordination::peek::Process;
use crate::sync::Arc;
use calls::entry_searches;
use calls::memory::{copy, Header, Memory, Own, OwnCell, Record, Settings, SharedCell, Slots, View, BLOCK_ENTRIES};
use calls::script::{Answer, Call, New};
use calls::sides::{Panicked, Rust};
use std::cell::Cell;
use std::panic::{catch_unwind, AssertUnwindSafe};
use std::sync::atomic::{AtomicU64, Ordering};
use std::sync::Once;

/// The header and the blocks stand in the mapped file. The slots and own cells of the Rust are read after
/// each call; those past its n stay as they are.
struct World {
    processes: Vec<Process>,
    file: Arc<MappedFile>,
    slots: Slots,
    own: Vec<Own>,
    /// The settings that the Rust has now, all good.
    applied: Settings,
    kept: Vec<u8>,
}

/// Paths differ, since the Rust allows one mapping of a path in a process.
static WORLDS: AtomicU64 = AtomicU64::new(0);

/// Fresh memory for the Rust.
pub fn fresh(new: &New) -> Box<dyn Rust> {
    silence_caught_panics();
    let settings = new.settings;
    // The Rust takes an Arc; one thread has it.
    #[allow(clippy::arc_with_non_send_sync)]
    let file = Arc::new(MappedFile::new(settings.max_blocks as usize));
    let world = WORLDS.fetch_add(1, Ordering::Relaxed);
    let processes: Vec<Process> = (0..new.processes)
        .map(|process| Process::open(file.clone(), &format!("memory-{world}-process-{process}"), &settings))
        .collect();
    let slots = settings.slots as usize;
    let mut world = World {
        processes,
        file,
        slots: Slots::fresh(slots),
        own: vec![Own::fresh(slots); new.processes],
        applied: settings,
        kept: Vec::new(),
    };
    world.processes.iter().for_each(Process::unmap_blocks);
    world.processes[0].set_header(&Header::fresh(new.start_blocks));
    world.processes[0].set_index_settings(settings.capacity, settings.max_blocks);
    world.place_slots();
    Box::new(world)
}

thread_local! {
    static CAUGHT: Cell<bool> = const { Cell::new(false) };
}

/// A panic of the Rust is an answer, and is not printed.
fn silence_caught_panics() {
    static HOOK: Once = Once::new();
    HOOK.call_once(|| {
        let print = std::panic::take_hook();
        std::panic::set_hook(Box::new(move |info| {
            if !CAUGHT.get() {
                print(info);
            }
        }));
    });
}

fn caught<T>(call: impl FnOnce() -> T) -> Result<T, Panicked> {
    CAUGHT.set(true);
    let result = catch_unwind(AssertUnwindSafe(call));
    CAUGHT.set(false);
    result.map_err(|payload| {
        let words = payload.downcast_ref::<String>().cloned();
        let words = words.or_else(|| payload.downcast_ref::<&str>().map(|words| words.to_string()));
        Panicked(words.unwrap_or_default())
    })
}

fn frame_or_nothing(frame: Option<u64>) -> Answer {
    frame.map_or(Answer::Nothing, Answer::Frame)
}

/// The Rust panics rather than make owner 0. The port gives the number, which no call takes (refusal 9).
fn owner_new(pid: u32, instance_id: u32) -> Answer {
    if (pid, instance_id) == (0, 0) {
        assert!(catch_unwind(|| Process::owner_new(0, 0)).is_err(), "the Rust makes owner 0");
        return Answer::Owner(0);
    }
    Answer::Owner(Process::owner_new(pid, instance_id))
}

fn slot((slot, owner, mark): (u32, u64, u64)) -> Answer {
    Answer::Slot { slot, owner, mark }
}

/// Reads the slots, and the process's own cells.
fn read_back(rust: &Process, slots: &mut Slots, own: &mut Own) {
    rust.read_slots(slots);
    rust.read_own_locks(own);
    rust.read_own_readers(own);
}

impl World {
    /// Lays the slot arrays out for the n that holds now, and fills them and the own cells.
    fn place_slots(&mut self) {
        self.processes[0].set_slot_count(self.applied.slots);
        self.processes[0].set_slots(&self.slots);
        for (process, own) in self.processes.iter_mut().zip(&self.own) {
            process.set_mode(self.applied.mode);
            process.set_own(own);
        }
    }

    /// Makes the call, and leaves the slots and own cells to be read.
    fn make(&mut self, process: usize, call: &Call) -> Result<Answer, Panicked> {
        match call {
            Call::RegisterReader { card, .. }
            | Call::RegisterReaderForSnapshot { card, .. }
            | Call::RegisterDbFileReader { card, .. }
            | Call::MinActiveReaderFrame { card }
            | Call::HasActiveDbFileReader { card }
            | Call::CopyBackLimit { card } => self.file.set_card(card),
            Call::TryAcquireWriter { byte, .. } | Call::TryAcquireCheckpoint { byte, .. } => self.file.set_lock(*byte),
            Call::RecordFrame { grow, .. } => self.file.set_grow(*grow),
            _ => {}
        }
        let world = &*self;
        let rust = &world.processes[process];
        let before = rust.header();
        caught(|| match *call {
            Call::RecordFrame { page, frame, .. } => {
                rust.record_frame(page, frame);
                // The Rust does not say; a stored entry makes the index one longer.
                let len = if frame == 1 && before.max_frame == 0 { 0 } else { before.frame_index_len };
                if rust.header().frame_index_len == len.wrapping_add(1) {
                    Answer::Stored
                } else {
                    Answer::Dropped
                }
            }
            Call::RollbackFrames { bound } => {
                rust.rollback_frames(bound);
                Answer::Kept(rust.header().frame_index_len)
            }
            Call::FindFrame { page, min, max, watermark, .. } => {
                frame_or_nothing(rust.find_frame(page, min, max, watermark))
            }
            // The port's own calls: the second reading answers for the Rust, from the Rust's memory.
            Call::FrameBetween { page, min, max } => entry_searches::between(world, page, min, max),
            Call::NearestFrame { page, to } => entry_searches::nearest(world, page, to),
            Call::IterLatestFrames { min, max, .. } => Answer::List(rust.iter_latest_frames(min, max)),
            Call::RegisterReader { owner, mark, .. } => rust.register_reader(owner, mark).map_or(Answer::Nothing, slot),
            Call::RegisterReaderForSnapshot { owner, mark, .. } => {
                rust.register_reader_for_snapshot(owner, mark).map_or(Answer::Nothing, slot)
            }
            Call::RegisterDbFileReader { owner, .. } => {
                rust.register_db_file_reader(owner).map_or(Answer::Nothing, slot)
            }
            Call::UpdateReader { slot: index, owner, mark } => slot(rust.update_reader(index, owner, mark)),
            Call::UnregisterReader { slot, owner } => {
                rust.unregister_reader(slot, owner);
                Answer::Done
            }
            Call::UnregisterReaderForSnapshot { mark, slot, owner } => {
                rust.unregister_reader_for_snapshot(mark, slot, owner);
                Answer::Done
            }
            Call::MinActiveReaderFrame { .. } => frame_or_nothing(rust.min_active_reader_frame()),
            Call::HasActiveDbFileReader { .. } => Answer::Active(rust.has_active_db_file_reader()),
            // The port's own call: documents 01 and 02 give it from the floor, and from the copied count while a slot
            // with mark 0 is live. Which are live the Rust says: its floor has reclaimed the dead ones.
            Call::CopyBackLimit { .. } => {
                let floor = rust.min_active_reader_frame();
                let copied = rust.has_active_db_file_reader().then_some(before.nbackfills);
                let held_back = [floor, copied].into_iter().flatten();
                Answer::Limit(held_back.fold(before.max_frame, u64::min))
            }
            Call::TryAcquireWriter { owner, .. } => Answer::Acquired(rust.try_acquire_writer(owner)),
            Call::TryAcquireCheckpoint { owner, .. } => Answer::Acquired(rust.try_acquire_checkpoint(owner)),
            Call::ReleaseWriter { owner } => {
                rust.release_writer(owner);
                Answer::Done
            }
            Call::ReleaseCheckpoint { owner } => {
                rust.release_checkpoint(owner);
                Answer::Done
            }
            Call::PublishCommit { max_frame, checksum_1, checksum_2, transaction_count } => {
                rust.publish_commit(max_frame, checksum_1, checksum_2, transaction_count);
                Answer::Done
            }
            Call::PublishBackfill { nbackfills } => {
                rust.publish_backfill(nbackfills);
                Answer::Done
            }
            Call::BumpCheckpointSeq => Answer::Seq(rust.bump_checkpoint_seq()),
            Call::BumpCheckpointEpoch => Answer::Epoch(rust.bump_checkpoint_epoch()),
            Call::OwnerNew { pid, instance_id } => owner_new(pid, instance_id),
            Call::OwnerParts { owner } => {
                let (pid, instance_id) = Process::owner_parts(owner);
                Answer::Parts { pid, instance_id }
            }
        })
    }
}

impl View for World {
    fn header(&self) -> Header {
        self.processes[0].header()
    }

    fn room_blocks(&self) -> usize {
        self.file.room_blocks()
    }

    fn page(&self, entry: usize) -> u64 {
        self.file.entries(entry / BLOCK_ENTRIES)[entry % BLOCK_ENTRIES][0]
    }

    fn frame(&self, entry: usize) -> u64 {
        self.file.entries(entry / BLOCK_ENTRIES)[entry % BLOCK_ENTRIES][1]
    }

    fn block_hash(&self, block: usize) -> &[u16] {
        self.file.hash(block)
    }

    fn slots(&self) -> &Slots {
        &self.slots
    }

    fn processes(&self) -> &[Own] {
        &self.own
    }
}

impl Rust for World {
    fn set_settings(&mut self, settings: &Settings) {
        let mut wanted = self.applied;
        if settings.good_capacity() {
            wanted.capacity = settings.capacity;
        }
        if settings.good_max_blocks() {
            wanted.max_blocks = settings.max_blocks;
        }
        if settings.good_slots() && settings.slots as usize <= self.slots.frames.len() {
            wanted.slots = settings.slots;
        }
        if settings.good_mode() {
            wanted.mode = settings.mode;
        }
        if wanted == self.applied {
            return;
        }
        self.applied = wanted;
        self.processes[0].set_index_settings(wanted.capacity, wanted.max_blocks);
        self.place_slots();
    }

    fn call(&mut self, process: usize, call: &Call) -> Result<Answer, Panicked> {
        let answer = self.make(process, call)?;
        let (rust, own) = (&self.processes[process], &mut self.own[process]);
        read_back(rust, &mut self.slots, own);
        if matches!(call, Call::UnregisterReaderForSnapshot { .. }) {
            // In a damaged registry another record with the mark may count from now on.
            rust.set_own(own);
        }
        Ok(answer)
    }

    fn attempt(
        &mut self,
        process: usize,
        call: &Call,
        settings: &Settings,
        after: Option<&mut Memory>,
    ) -> Result<Answer, Panicked> {
        let mut kept = std::mem::take(&mut self.kept);
        // A call on readers that wrote to the index would be seen in the next comparison of it.
        self.file.keep(&mut kept, !call.is_on_readers());
        // The settings stand in the mapped memory too, and are put back with it.
        let rust = &self.processes[process];
        rust.set_index_settings(settings.capacity, settings.max_blocks);
        if call.is_on_readers() && settings.slots == 0 {
            rust.set_slot_count(0);
            rust.set_own(&self.own[process]);
        }
        let answer = self.make(process, call);
        if let Some(after) = after {
            *after = copy(self);
            read_back(&self.processes[process], &mut after.slots, &mut after.processes[process]);
        }
        self.file.put_back(&kept);
        self.kept = kept;
        self.processes[process].set_own(&self.own[process]);
        answer
    }

    fn pairs(&self, process: usize, min: u64, max: u64) -> u64 {
        caught(|| self.processes[process].iter_latest_frames(min, max).len() as u64).unwrap_or(0)
    }

    fn poke(&mut self, cell: SharedCell, index: usize, value: u64) {
        match cell {
            SharedCell::Page => self.file.set_page(index, value),
            SharedCell::Frame => self.file.set_frame(index, value),
            SharedCell::Hash => self.file.set_hash(index, value as u16),
            SharedCell::Bitmap => self.slots.bitmap[index] = value,
            SharedCell::SlotFrame => self.slots.frames[index] = value,
            SharedCell::SlotOwner => self.slots.owners[index] = value,
            SharedCell::Header(cell) => {
                let mut header = self.header();
                cell.set(&mut header, value);
                self.processes[0].set_header(&header);
            }
        }
        self.processes[0].set_slots(&self.slots);
    }

    fn poke_own(&mut self, process: usize, cell: OwnCell, index: usize, value: u64) {
        self.own[process].poke(cell, index, value);
        self.processes[process].set_own(&self.own[process]);
    }

    fn poke_registry(&mut self, process: usize, index: usize, record: Record) {
        self.own[process].registry[index] = record;
        self.processes[process].set_own(&self.own[process]);
    }

    fn set_memory(&mut self, memory: &Memory) {
        self.processes.iter().for_each(Process::unmap_blocks);
        self.processes[0].set_header(&memory.header);
        for block in 0..self.file.room_blocks() {
            let entries = block * BLOCK_ENTRIES..(block + 1) * BLOCK_ENTRIES;
            self.file.set_block(
                block,
                &memory.pages[entries.clone()],
                &memory.frames[entries],
                memory.block_hash(block),
            );
        }
        self.set_readers(&memory.slots, &memory.processes);
    }

    fn set_readers(&mut self, slots: &Slots, own: &[Own]) {
        self.slots.clone_from(slots);
        self.own.clone_from_slice(own);
        self.place_slots();
    }

    fn same_index(&self, memory: &Memory) -> bool {
        let blocks = memory.pages.chunks(BLOCK_ENTRIES).zip(memory.frames.chunks(BLOCK_ENTRIES));
        blocks.enumerate().all(|(block, (pages, frames))| {
            same_entries(self.file.entries(block), pages, frames) && self.file.hash(block) == memory.block_hash(block)
        })
    }

    fn same_readers(&self, memory: &Memory) -> bool {
        self.header() == memory.header
            && self.slots == memory.slots
            && self.own.iter().zip(&memory.processes).all(|(a, b)| a.same(b))
    }
}

/// Compares without leaving early, so that the loop is a fast one.
fn same_entries(entries: &[[u64; 2]], pages: &[u64], frames: &[u64]) -> bool {
    let differing = entries.iter().zip(pages.iter().zip(frames));
    differing.fold(0, |d, (entry, (page, frame))| d | (entry[0] ^ page) | (entry[1] ^ frame)) == 0
}
