//! A child module of the Rust file: its private parts, in the words of document 01.

use super::*;
use crate::io::OneFile;
use calls::memory::{Header, Own, Record, Settings, Slots, PROCESS_SCOPED_FCNTL};

/// One process's mapping.
pub(crate) struct Process(MappedSharedWalCoordination);

fn mode_of(mode: u32) -> SharedWalOwnershipMode {
    match mode {
        PROCESS_SCOPED_FCNTL => SharedWalOwnershipMode::ProcessScopedFcntl,
        _ => SharedWalOwnershipMode::LinuxOfd,
    }
}

fn local(owner: u64) -> Option<SharedOwnerRecord> {
    SharedOwnerRecord::from_raw(owner)
}

fn number(owner: Option<SharedOwnerRecord>) -> u64 {
    owner.map_or(0, SharedOwnerRecord::raw)
}

fn given(slot_index: u32, owner: u64, mark: u64) -> SharedReaderSlot {
    SharedReaderSlot { slot_index, max_frame: mark, owner: SharedOwnerRecord(owner) }
}

fn answered(slot: SharedReaderSlot) -> (u32, u64, u64) {
    (slot.slot_index, slot.owner.raw(), slot.max_frame)
}

/// Opening, settings, and the cells.
impl Process {
    /// Opens with the slots rounded up to 64, as the Rust asks.
    pub(crate) fn open(file: Arc<crate::io::MappedFile>, path: &str, settings: &Settings) -> Self {
        let io: Arc<dyn IO> = Arc::new(OneFile(file));
        let slots = settings.slots.next_multiple_of(64);
        let mapping = MappedSharedWalCoordination::create_or_open_with_mode(
            &io,
            Path::new(path),
            slots,
            mode_of(settings.mode),
        );
        Self(mapping.unwrap_or_else(|error| panic!("the Rust opens its memory: {error}")))
    }

    fn raw(&self) -> *mut SharedWalCoordinationMapHeader {
        self.0.base_ptr.as_ptr().cast()
    }

    /// Lets go of the blocks that are mapped; each call maps what it needs.
    pub(crate) fn unmap_blocks(&self) {
        self.0.frame_index_blocks.write().clear();
    }

    pub(crate) fn set_index_settings(&self, capacity: u32, max_blocks: u32) {
        unsafe {
            (&raw mut (*self.raw()).frame_index_capacity).write(capacity);
            (&raw mut (*self.raw()).frame_index_max_blocks).write(max_blocks);
        }
    }

    /// The slot arrays move: `set_slots` and `set_own` come after this.
    pub(crate) fn set_slot_count(&self, slots: u32) {
        unsafe {
            (&raw mut (*self.raw()).reader_slot_count).write(slots);
            (&raw mut (*self.raw()).reader_bitmap_word_count).write(slots.div_ceil(64));
        }
    }

    pub(crate) fn set_mode(&mut self, mode: u32) {
        self.0.ownership_mode = mode_of(mode);
    }

    pub(crate) fn header(&self) -> Header {
        let h = self.0.header();
        let (word, long) = (|c: &AtomicU32| c.load(Ordering::Relaxed), |c: &AtomicU64| c.load(Ordering::Relaxed));
        let mut cells = Header::default();
        cells.frame_index_blocks = word(&h.frame_index_blocks);
        cells.frame_index_len = word(&h.frame_index_len);
        cells.frame_index_overflowed = word(&h.frame_index_overflowed);
        cells.max_frame = long(&h.max_frame);
        cells.nbackfills = long(&h.nbackfills);
        cells.transaction_count = long(&h.transaction_count);
        cells.visibility_generation = long(&h.visibility_generation);
        cells.checkpoint_seq = word(&h.checkpoint_seq);
        cells.checkpoint_epoch = word(&h.checkpoint_epoch);
        cells.checksum_1 = word(&h.checksum_1);
        cells.checksum_2 = word(&h.checksum_2);
        cells.writer_owner = long(&h.writer_owner);
        cells.checkpoint_owner = long(&h.checkpoint_owner);
        cells
    }

    pub(crate) fn set_header(&self, cells: &Header) {
        let h = self.0.header();
        let word = |c: &AtomicU32, value| c.store(value, Ordering::Relaxed);
        let long = |c: &AtomicU64, value| c.store(value, Ordering::Relaxed);
        word(&h.frame_index_blocks, cells.frame_index_blocks);
        word(&h.frame_index_len, cells.frame_index_len);
        word(&h.frame_index_overflowed, cells.frame_index_overflowed);
        long(&h.max_frame, cells.max_frame);
        long(&h.nbackfills, cells.nbackfills);
        long(&h.transaction_count, cells.transaction_count);
        long(&h.visibility_generation, cells.visibility_generation);
        word(&h.checkpoint_seq, cells.checkpoint_seq);
        word(&h.checkpoint_epoch, cells.checkpoint_epoch);
        word(&h.checksum_1, cells.checksum_1);
        word(&h.checksum_2, cells.checksum_2);
        long(&h.writer_owner, cells.writer_owner);
        long(&h.checkpoint_owner, cells.checkpoint_owner);
    }

    /// The Rust's arrays, in the order of `Slots::parts`.
    fn slot_arrays(&self) -> [&[AtomicU64]; 3] {
        [self.0.reader_bitmap_words(), self.0.reader_frames(), self.0.reader_owners()]
    }

    pub(crate) fn set_slots(&self, slots: &Slots) {
        for (array, part) in self.slot_arrays().into_iter().zip(slots.parts()) {
            array.iter().zip(part).for_each(|(cell, value)| cell.store(*value, Ordering::Relaxed));
        }
    }

    pub(crate) fn read_slots(&self, slots: &mut Slots) {
        for (array, part) in self.slot_arrays().into_iter().zip(slots.parts_mut()) {
            array.iter().zip(part).for_each(|(cell, value)| *value = cell.load(Ordering::Relaxed));
        }
    }

    /// Gives the process its own cells, for the slots that it has now.
    pub(crate) fn set_own(&self, own: &Own) {
        let slots = self.0.header().reader_slot_count as usize;
        let fcntl = !self.0.uses_linux_ofd_locking();
        self.0.with_local_lock_state(|locks| {
            locks.writer_lock_held = own.local_writer != 0;
            locks.checkpoint_lock_held = own.local_checkpoint != 0;
            locks.reader_locks.clear();
            locks.reader_locks.extend(own.local_owners[..slots].iter().map(|&owner| usize::from(owner != 0)));
        });
        self.0.with_process_local_ownership(|owners| {
            // In LinuxOfd the Rust keeps no local owner, only that something is held.
            let kept = |owner: u64| if fcntl { local(owner) } else { None };
            owners.writer_owner = kept(own.local_writer);
            owners.checkpoint_owner = kept(own.local_checkpoint);
            owners.reader_owners.clear();
            owners.reader_owners.extend(own.local_owners[..slots].iter().map(|&owner| kept(owner)));
            owners.shared_snapshot_readers.clear();
            // Of records with one mark the first counts.
            for record in own.registry[..slots].iter().filter(|record| record.holders > 0) {
                owners.shared_snapshot_readers.entry(record.mark).or_insert(SharedReadMarkRegistration {
                    slot: given(record.slot, record.owner, record.mark),
                    ref_count: record.holders as usize,
                });
            }
        });
    }

    /// Reads the locks' own cells back. In LinuxOfd the owner of what is newly held is the one just stored.
    pub(crate) fn read_own_locks(&self, own: &mut Own) {
        let fcntl = !self.0.uses_linux_ofd_locking();
        let (writer, checkpoint) =
            self.0.with_local_lock_state(|locks| (locks.writer_lock_held, locks.checkpoint_lock_held));
        let header = self.header();
        self.0.with_process_local_ownership(|owners| {
            read_own_cell(&mut own.local_writer, writer, fcntl, owners.writer_owner, header.writer_owner);
            read_own_cell(&mut own.local_checkpoint, checkpoint, fcntl, owners.checkpoint_owner, header.checkpoint_owner);
        });
    }

    /// Reads the readers' own cells and the registry back.
    pub(crate) fn read_own_readers(&self, own: &mut Own) {
        let fcntl = !self.0.uses_linux_ofd_locking();
        self.0.with_process_local_ownership(|owners| {
            self.0.with_local_lock_state(|locks| {
                for (slot, held) in locks.reader_locks.iter().enumerate() {
                    let stored = self.0.reader_owners()[slot].load(Ordering::Relaxed);
                    let cell = &mut own.local_owners[slot];
                    read_own_cell(cell, *held > 0, fcntl, owners.reader_owners[slot], stored);
                }
            });
            read_registry(own, self.0.header().reader_slot_count as usize, &owners.shared_snapshot_readers);
        });
    }
}

fn read_own_cell(cell: &mut u64, held: bool, fcntl: bool, kept: Option<SharedOwnerRecord>, stored: u64) {
    if fcntl {
        assert_eq!(held, kept.is_some(), "the Rust's count and local owner agree");
        *cell = number(kept);
    } else if !held {
        *cell = 0;
    } else if *cell == 0 {
        *cell = stored;
    }
}

/// The map has no order: a record keeps its place, and a new mark goes to the first empty one.
fn read_registry(own: &mut Own, records: usize, map: &HashMap<u64, SharedReadMarkRegistration>) {
    let counting = |i: &usize| own.registry[*i].holders > 0 && own.shared(records, own.registry[*i].mark) == Some(*i);
    for i in (0..records).filter(counting).collect::<Vec<_>>() {
        own.registry[i].holders = map.get(&own.registry[i].mark).map_or(0, |r| r.ref_count as u32);
    }
    for (&mark, registration) in map {
        if own.shared(records, mark).is_none() {
            let (slot, owner, _) = answered(registration.slot);
            let record = Record::new(mark, slot, owner, registration.ref_count as u32);
            match own.empty_record(records) {
                Some(empty) => own.registry[empty] = record,
                // The map has no limit; document 01 refuses the call.
                None => own.registry.push(record),
            }
        }
    }
}

/// For measurements, with nothing around a call.
impl Process {
    pub(crate) fn max_frame(&self) -> u64 {
        self.0.header().max_frame.load(Ordering::Acquire)
    }

    pub(crate) fn nbackfills(&self) -> u64 {
        self.0.header().nbackfills.load(Ordering::Acquire)
    }

    /// In LinuxOfd, where only a count says that a slot is held.
    pub(crate) fn forget_reader(&self, slot: u32) {
        self.0.with_local_lock_state(|locks| locks.reader_locks[slot as usize] = 0);
    }
}

/// The calls.
impl Process {
    pub(crate) fn record_frame(&self, page: u64, frame: u64) {
        self.0.record_frame(page, frame);
    }

    pub(crate) fn rollback_frames(&self, bound: u64) {
        self.0.rollback_frames(bound);
    }

    pub(crate) fn find_frame(&self, page: u64, min: u64, max: u64, watermark: Option<u64>) -> Option<u64> {
        self.0.find_frame(page, min, max, watermark)
    }

    pub(crate) fn iter_latest_frames(&self, min: u64, max: u64) -> Vec<(u64, u64)> {
        self.0.iter_latest_frames(min, max)
    }

    pub(crate) fn register_reader(&self, owner: u64, mark: u64) -> Option<(u32, u64, u64)> {
        self.0.register_reader(SharedOwnerRecord(owner), mark).map(answered)
    }

    pub(crate) fn register_reader_for_snapshot(&self, owner: u64, mark: u64) -> Option<(u32, u64, u64)> {
        self.0.register_reader_for_snapshot(SharedOwnerRecord(owner), mark).map(answered)
    }

    pub(crate) fn register_db_file_reader(&self, owner: u64) -> Option<(u32, u64, u64)> {
        self.0.register_db_file_reader(SharedOwnerRecord(owner)).map(answered)
    }

    pub(crate) fn update_reader(&self, slot: u32, owner: u64, mark: u64) -> (u32, u64, u64) {
        // The mark that the caller had is not looked at.
        answered(self.0.update_reader(given(slot, owner, 0), mark))
    }

    pub(crate) fn unregister_reader(&self, slot: u32, owner: u64) {
        self.0.unregister_reader(given(slot, owner, 0));
    }

    pub(crate) fn unregister_reader_for_snapshot(&self, mark: u64, slot: u32, owner: u64) {
        self.0.unregister_reader_for_snapshot(given(slot, owner, mark));
    }

    pub(crate) fn min_active_reader_frame(&self) -> Option<u64> {
        self.0.min_active_reader_frame()
    }

    pub(crate) fn has_active_db_file_reader(&self) -> bool {
        self.0.has_active_db_file_reader()
    }

    pub(crate) fn try_acquire_writer(&self, owner: u64) -> bool {
        self.0.try_acquire_writer(SharedOwnerRecord(owner))
    }

    pub(crate) fn try_acquire_checkpoint(&self, owner: u64) -> bool {
        self.0.try_acquire_checkpoint(SharedOwnerRecord(owner))
    }

    pub(crate) fn release_writer(&self, owner: u64) {
        self.0.release_writer(SharedOwnerRecord(owner));
    }

    pub(crate) fn release_checkpoint(&self, owner: u64) {
        self.0.release_checkpoint(SharedOwnerRecord(owner));
    }

    pub(crate) fn publish_commit(&self, max_frame: u64, checksum_1: u32, checksum_2: u32, transaction_count: u64) {
        self.0.publish_commit(max_frame, checksum_1, checksum_2, transaction_count);
    }

    pub(crate) fn publish_backfill(&self, nbackfills: u64) {
        self.0.publish_backfill(nbackfills);
    }

    pub(crate) fn bump_checkpoint_seq(&self) -> u32 {
        self.0.bump_checkpoint_seq()
    }

    pub(crate) fn bump_checkpoint_epoch(&self) -> u32 {
        self.0.bump_checkpoint_epoch()
    }

    pub(crate) fn owner_new(pid: u32, instance_id: u32) -> u64 {
        SharedOwnerRecord::new(pid, instance_id).raw()
    }

    pub(crate) fn owner_parts(owner: u64) -> (u32, u32) {
        (SharedOwnerRecord(owner).pid(), SharedOwnerRecord(owner).instance_id())
    }
}
