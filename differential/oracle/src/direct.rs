//! One process's calls on the Rust with nothing around them, to measure. The file double only answers.

use crate::io::MappedFile;
use crate::shared_wal_coordination::peek::Process;
use crate::sync::Arc;
use calls::memory::{Header, Settings, Slots};
use std::sync::atomic::{AtomicU64, Ordering};

pub struct Direct(Process, Arc<MappedFile>);

/// Paths differ, since the Rust allows one mapping of a path in a process.
static OPENED: AtomicU64 = AtomicU64::new(0);

impl Direct {
    /// Fresh memory with all blocks in use. Locks and growth are granted.
    pub fn new(settings: &Settings) -> Self {
        // The Rust takes an Arc; one thread has it.
        #[allow(clippy::arc_with_non_send_sync)]
        let file = Arc::new(MappedFile::new(settings.max_blocks as usize));
        file.set_lock(1);
        let opened = OPENED.fetch_add(1, Ordering::Relaxed);
        let process = Process::open(file.clone(), &format!("direct-{opened}"), settings);
        process.set_index_settings(settings.capacity, settings.max_blocks);
        process.set_header(&Header::fresh(settings.max_blocks));
        // The Rust opens with a multiple of 64 slots; the arrays of fewer have other places.
        process.set_slot_count(settings.slots);
        process.set_slots(&Slots::fresh(settings.slots as usize));
        Self(process, file)
    }

    /// Sets the shared cells of the slots, and the lock answers of all calls from now on.
    pub fn set_slots(&self, slots: &Slots, card: &[u8]) {
        self.0.set_slots(slots);
        self.1.set_card(card);
    }

    #[inline]
    pub fn record_frame(&self, page: u64, frame: u64) {
        self.0.record_frame(page, frame);
    }

    #[inline]
    pub fn rollback_frames(&self, bound: u64) {
        self.0.rollback_frames(bound);
    }

    #[inline]
    pub fn find_frame(&self, page: u64, min: u64, max: u64, watermark: Option<u64>) -> Option<u64> {
        self.0.find_frame(page, min, max, watermark)
    }

    #[inline]
    pub fn iter_latest_frames(&self, min: u64, max: u64) -> Vec<(u64, u64)> {
        self.0.iter_latest_frames(min, max)
    }

    #[inline]
    pub fn publish_commit(&self, max_frame: u64, checksum_1: u32, checksum_2: u32, transaction_count: u64) {
        self.0.publish_commit(max_frame, checksum_1, checksum_2, transaction_count);
    }

    #[inline]
    pub fn try_acquire_writer(&self, owner: u64) -> bool {
        self.0.try_acquire_writer(owner)
    }

    #[inline]
    pub fn release_writer(&self, owner: u64) {
        self.0.release_writer(owner);
    }

    #[inline]
    pub fn bump_checkpoint_seq(&self) -> u32 {
        self.0.bump_checkpoint_seq()
    }

    #[inline]
    pub fn max_frame(&self) -> u64 {
        self.0.max_frame()
    }

    #[inline]
    pub fn nbackfills(&self) -> u64 {
        self.0.nbackfills()
    }

    #[inline]
    pub fn register_reader(&self, owner: u64, mark: u64) -> Option<u32> {
        self.0.register_reader(owner, mark).map(|(slot, ..)| slot)
    }

    #[inline]
    pub fn unregister_reader(&self, slot: u32, owner: u64) {
        self.0.unregister_reader(slot, owner);
    }

    /// The slot is no longer held here; its shared cells stay.
    #[inline]
    pub fn forget_reader(&self, slot: u32) {
        self.0.forget_reader(slot);
    }

    #[inline]
    pub fn register_reader_for_snapshot(&self, owner: u64, mark: u64) -> Option<u32> {
        self.0.register_reader_for_snapshot(owner, mark).map(|(slot, ..)| slot)
    }

    #[inline]
    pub fn unregister_reader_for_snapshot(&self, mark: u64, slot: u32, owner: u64) {
        self.0.unregister_reader_for_snapshot(mark, slot, owner);
    }

    #[inline]
    pub fn min_active_reader_frame(&self) -> Option<u64> {
        self.0.min_active_reader_frame()
    }

    #[inline]
    pub fn has_active_db_file_reader(&self) -> bool {
        self.0.has_active_db_file_reader()
    }
}
