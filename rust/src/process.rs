//! The calls.

use crate::locks::{ByteLocks, LockAnswer, LockByte};
use crate::memory::{
    Memory, Settings, SharedOwnerRecord, SharedReadMark, SharedReaderSlot, SharedWalOwnershipMode, Slot,
    UNUSED_READER_FRAME,
};
use crate::refusal::Refusal;
use crate::sys;
use std::fmt;

/// What became of a recorded frame: one of these two.
#[derive(Clone, Copy, Debug, PartialEq, Eq, Hash)]
pub enum Recorded {
    /// It is in the index.
    Stored,
    /// The index is full: the frame is not in it, and the overflow flag is set. It must not be published, since no
    /// lookup would find it: see [`Process::record_frame`].
    Dropped,
}

/// What a lookup found, and how many hash cells it looked at. Later versions may have more.
#[derive(Clone, Copy, Debug, PartialEq, Eq, Hash)]
#[non_exhaustive]
pub struct Lookup {
    /// The frame, if there is one.
    pub frame: Option<u64>,
    /// The hash cells, summed over the blocks that were probed; 0 where none was.
    pub cells: u32,
}

/// A process that shares the memory: its own cells, its registry of shared marks, and its locks. All calls of a
/// process on a memory go through one of these; threads of a process share it behind a mutex.
pub struct Process<L> {
    settings: Settings,
    own: OwnCells,
    locks: L,
}

/// What a process keeps for itself. With the feature `own-cells` it can be looked at and changed, for tests.
#[derive(Clone, Debug, PartialEq, Eq)]
pub struct OwnCells {
    /// The owner in each reader slot that it holds, else 0.
    pub local_readers: Vec<u64>,
    /// The owner for which it holds the writer lock, else 0.
    pub local_writer: u64,
    /// The owner for which it holds the checkpoint lock, else 0.
    pub local_checkpoint: u64,
    /// Its registry of shared marks.
    pub registry: Vec<SharedReadMark>,
}

/// Which of the two locks.
#[derive(Clone, Copy)]
enum Lock {
    Writer,
    Checkpoint,
}

/// Nothing, or the refusal of a number.
fn accepted(refusal: u32) -> Result<(), Refusal> {
    match refusal {
        0 => Ok(()),
        number => Err(Refusal::from_number(number).expect("the library refuses with one of the refusals")),
    }
}

fn frame(reply: sys::FrameReply) -> Result<Option<u64>, Refusal> {
    accepted(reply.refusal)?;
    Ok((reply.found == 1).then_some(reply.frame))
}

fn reader_slot(reply: sys::ReaderReply) -> Result<Option<SharedReaderSlot>, Refusal> {
    accepted(reply.refusal)?;
    let reader = SharedReaderSlot::new(Slot(reply.slot as usize), SharedOwnerRecord(reply.owner), reply.mark);
    Ok((reply.taken == 1).then_some(reader))
}

impl<L: ByteLocks> Process<L> {
    /// A process that holds nothing. The settings are those of all processes on the memory.
    ///
    /// ```
    /// # use wal_coordination::{SharedWalOwnershipMode::*, *};
    /// let settings = Settings::new(64, 17, 1, LinuxOfd); // at most 16 blocks
    /// assert_eq!(Process::new(settings, OneProcess).err(), Some(Refusal::Settings));
    /// ```
    ///
    /// # Errors
    ///
    /// [`Refusal::Settings`] where a setting is out of its limits.
    pub fn new(settings: Settings, locks: L) -> Result<Self, Refusal> {
        settings.check()?;
        let own = OwnCells {
            local_readers: vec![0; settings.reader_slots],
            local_writer: 0,
            local_checkpoint: 0,
            registry: vec![SharedReadMark::default(); settings.reader_slots],
        };
        Ok(Process { settings, own, locks })
    }

    /// Its settings.
    pub fn settings(&self) -> &Settings {
        &self.settings
    }

    /// Its registry: one record for each mark that connections of this process share, those with 0 holders empty.
    pub fn registry(&self) -> &[SharedReadMark] {
        &self.own.registry
    }

    /// What it keeps for itself. A host has no use for this: what it changes here, calls take as it stands.
    #[cfg(feature = "own-cells")]
    pub fn own_cells(&mut self) -> &mut OwnCells {
        &mut self.own
    }

    /// Appends a frame of a page to the index. `grow` is the file's answer to a growth by one block, if one is needed.
    ///
    /// Frame 1 with nothing published empties the index first. Other frames must be above the last one.
    ///
    /// Once a frame is published no call empties the index, and a full one drops every further record. The host then
    /// gives the transaction up ([`rollback_frames`](Self::rollback_frames) to the published frame), copies all frames
    /// back, and, in a turn in which nobody holds a slot or a lock, makes the memory fresh ([`Memory::make_fresh`]).
    ///
    /// ```
    /// # use wal_coordination::{SharedWalOwnershipMode::*, *};
    /// # let settings = Settings::new(1, 1, 1, LinuxOfd);
    /// # let mut owned = OwnedMemory::fresh(&settings, 1)?;
    /// # let mut memory = owned.lend();
    /// let process = Process::new(settings, OneProcess)?; // a capacity of 1
    /// assert_eq!(process.record_frame(&mut memory, 7, 1, true), Ok(Recorded::Stored));
    /// assert_eq!(process.record_frame(&mut memory, 8, 2, true), Ok(Recorded::Dropped));
    /// assert_eq!(memory.header.frame_index_overflowed, 1);
    /// # Ok::<(), Refusal>(())
    /// ```
    ///
    /// # Errors
    ///
    /// [`Refusal::FrameOrder`] where the frame is not above the last one. In damaged memory or memory of other settings,
    /// [`Refusal::Settings`], [`Refusal::ShortMemory`] and [`Refusal::HashFull`].
    pub fn record_frame(
        &self,
        memory: &mut Memory<'_>,
        page_id: u64,
        frame_id: u64,
        grow: bool,
    ) -> Result<Recorded, Refusal> {
        let reply = sys::record_frame(memory.index(&self.settings), page_id, frame_id, grow.into());
        accepted(reply.refusal)?;
        Ok(if reply.answer == 1 { Recorded::Stored } else { Recorded::Dropped })
    }

    /// Drops the entries from the end whose frame is above `max_frame`. Answers how many are kept.
    ///
    /// # Errors
    ///
    /// In damaged memory or memory of other settings, [`Refusal::Settings`] and [`Refusal::ShortMemory`].
    pub fn rollback_frames(&self, memory: &mut Memory<'_>, max_frame: u64) -> Result<u32, Refusal> {
        let reply = sys::rollback_frames(memory.index(&self.settings), max_frame);
        accepted(reply.refusal)?;
        Ok(reply.answer)
    }

    /// The latest frame of a page from `min_frame` to `max_frame`. With a watermark that is the upper bound instead,
    /// and a frame below `min_frame` may be the answer.
    ///
    /// ```
    /// # use wal_coordination::{SharedWalOwnershipMode::*, *};
    /// # let settings = Settings::new(64, 1, 1, LinuxOfd);
    /// # let mut owned = OwnedMemory::fresh(&settings, 1)?;
    /// # let mut memory = owned.lend();
    /// # let process = Process::new(settings, OneProcess)?;
    /// for (page, frame) in [(7, 1), (8199, 2), (7, 3)] {
    ///     process.record_frame(&mut memory, page, frame, false)?;
    /// }
    /// assert_eq!(process.find_frame(&memory, 7, 1, 3, None), Ok(Some(3)));
    /// assert_eq!(process.find_frame(&memory, 7, 2, 2, None), Ok(None));
    /// assert_eq!(process.find_frame(&memory, 7, 2, 3, Some(2)), Ok(Some(1)));
    /// # Ok::<(), Refusal>(())
    /// ```
    ///
    /// # Errors
    ///
    /// In damaged memory or memory of other settings, [`Refusal::Settings`] and [`Refusal::ShortMemory`].
    pub fn find_frame(
        &self,
        memory: &Memory<'_>,
        page_id: u64,
        min_frame: u64,
        max_frame: u64,
        frame_watermark: Option<u64>,
    ) -> Result<Option<u64>, Refusal> {
        Ok(self.find_frame_counted(memory, page_id, min_frame, max_frame, frame_watermark)?.frame)
    }

    /// The same, and how many hash cells the lookup looked at.
    ///
    /// It probes blocks from the last visible one down to the one that answers. A probe looks at the cells from the
    /// page's home on, up to the first that is empty or names an entry that is not visible, and that cell counts too.
    /// On an index that grew from fresh by records and rollbacks it looks at 4,097 cells of a block at most.
    /// [`probe_lengths`](Self::probe_lengths) looks at all pages of an index.
    ///
    /// ```
    /// # use wal_coordination::{SharedWalOwnershipMode::*, *};
    /// # let settings = Settings::new(64, 1, 1, LinuxOfd);
    /// # let mut owned = OwnedMemory::fresh(&settings, 1)?;
    /// # let mut memory = owned.lend();
    /// # let process = Process::new(settings, OneProcess)?;
    /// // Each record of a page adds a cell to those from the page's home on.
    /// for frame in 1..=5 {
    ///     process.record_frame(&mut memory, 7, frame, false)?;
    /// }
    /// let lookup = process.find_frame_counted(&memory, 7, 1, 5, None)?;
    /// assert_eq!((lookup.frame, lookup.cells), (Some(5), 6)); // five, and the empty one that ends the probe
    ///
    /// // Another page: the first cell that is looked at is empty.
    /// let lookup = process.find_frame_counted(&memory, 8, 1, 5, None)?;
    /// assert_eq!((lookup.frame, lookup.cells), (None, 1));
    /// # Ok::<(), Refusal>(())
    /// ```
    ///
    /// # Errors
    ///
    /// As [`find_frame`](Self::find_frame).
    pub fn find_frame_counted(
        &self,
        memory: &Memory<'_>,
        page_id: u64,
        min_frame: u64,
        max_frame: u64,
        frame_watermark: Option<u64>,
    ) -> Result<Lookup, Refusal> {
        let index = memory.index_to_read(&self.settings);
        let reply = sys::find_frame(index, page_id, min_frame, max_frame, frame_watermark);
        accepted(reply.refusal)?;
        Ok(Lookup { frame: (reply.found == 1).then_some(reply.frame), cells: reply.cells })
    }

    /// Whether a page was written from `min_frame` to `max_frame`, both included: a frame of the page between them, or
    /// none exactly when there is none. Bounds in the wrong order give none.
    ///
    /// **Which of several frames is given is not decided**, and no host may count on it: not on the lowest or the
    /// latest one, and not on the same one at the next call or in the next version.
    ///
    /// It goes by the entries, all that the index has, published or not; the hash is not looked at. It looks at one
    /// entry after the other, and at every one where none fits: for the latest frame up to a mark
    /// [`find_frame`](Self::find_frame) is faster.
    ///
    /// ```
    /// # use wal_coordination::{SharedWalOwnershipMode::*, *};
    /// # let settings = Settings::new(64, 1, 1, LinuxOfd);
    /// # let mut owned = OwnedMemory::fresh(&settings, 1)?;
    /// # let mut memory = owned.lend();
    /// # let process = Process::new(settings, OneProcess)?;
    /// for (page, frame) in [(7, 1), (8199, 2), (7, 3), (7, 4)] {
    ///     process.record_frame(&mut memory, page, frame, false)?;
    /// }
    /// // Was page 8,199 written from frame 2 to frame 4? And from frame 3 on?
    /// assert_eq!(process.frame_between(&memory, 8199, 2, 4), Ok(Some(2)));
    /// assert_eq!(process.frame_between(&memory, 8199, 3, 4), Ok(None));
    ///
    /// // Page 7 was written twice there: the answer is one of the two frames.
    /// let frame = process.frame_between(&memory, 7, 2, 4)?;
    /// assert!(frame == Some(3) || frame == Some(4));
    /// # Ok::<(), Refusal>(())
    /// ```
    ///
    /// # Errors
    ///
    /// In damaged memory or memory of other settings, [`Refusal::Settings`], and [`Refusal::ShortMemory`] for too few
    /// cells of pages or frames.
    pub fn frame_between(
        &self,
        memory: &Memory<'_>,
        page_id: u64,
        min_frame: u64,
        max_frame: u64,
    ) -> Result<Option<u64>, Refusal> {
        frame(sys::frame_between(memory.index_to_read(&self.settings), page_id, min_frame, max_frame))
    }

    /// The frame of a page that is nearest to `to_frame`: before it, after it, or `to_frame` itself. Of two that are as
    /// near it is the lower one. `None` if the page has no frame.
    ///
    /// It goes by the entries as [`frame_between`](Self::frame_between) does, and looks at every one.
    ///
    /// ```
    /// # use wal_coordination::{SharedWalOwnershipMode::*, *};
    /// # let settings = Settings::new(64, 1, 1, LinuxOfd);
    /// # let mut owned = OwnedMemory::fresh(&settings, 1)?;
    /// # let mut memory = owned.lend();
    /// # let process = Process::new(settings, OneProcess)?;
    /// for (page, frame) in [(7, 10), (8199, 14), (7, 20)] {
    ///     process.record_frame(&mut memory, page, frame, false)?;
    /// }
    /// assert_eq!(process.nearest_frame(&memory, 7, 14), Ok(Some(10)));
    /// assert_eq!(process.nearest_frame(&memory, 7, 16), Ok(Some(20)));
    /// assert_eq!(process.nearest_frame(&memory, 7, 15), Ok(Some(10))); // 20 is as near
    /// assert_eq!(process.nearest_frame(&memory, 8, 14), Ok(None));
    /// # Ok::<(), Refusal>(())
    /// ```
    ///
    /// # Errors
    ///
    /// As [`frame_between`](Self::frame_between).
    pub fn nearest_frame(&self, memory: &Memory<'_>, page_id: u64, to_frame: u64) -> Result<Option<u64>, Refusal> {
        frame(sys::nearest_frame(memory.index_to_read(&self.settings), page_id, to_frame))
    }

    /// Each page's latest frame up to `max_frame`, if it is at least `min_frame`: pairs of page and frame, by rising
    /// page.
    ///
    /// ```
    /// # use wal_coordination::{SharedWalOwnershipMode::*, *};
    /// # let settings = Settings::new(64, 1, 1, LinuxOfd);
    /// # let mut owned = OwnedMemory::fresh(&settings, 1)?;
    /// # let mut memory = owned.lend();
    /// # let process = Process::new(settings, OneProcess)?;
    /// for (page, frame) in [(8199, 1), (7, 2), (8199, 3)] {
    ///     process.record_frame(&mut memory, page, frame, false)?;
    /// }
    /// assert_eq!(process.iter_latest_frames(&memory, 1, 3), Ok(vec![(7, 2), (8199, 3)]));
    /// # Ok::<(), Refusal>(())
    /// ```
    ///
    /// # Errors
    ///
    /// In damaged memory or memory of other settings, [`Refusal::Settings`] and [`Refusal::ShortMemory`].
    pub fn iter_latest_frames(
        &self,
        memory: &Memory<'_>,
        min_frame: u64,
        max_frame: u64,
    ) -> Result<Vec<(u64, u64)>, Refusal> {
        // There are no more pairs than entries, and no more entries than cells.
        let room = (memory.header.frame_index_len as usize).min(memory.frames.len());
        let (mut pages, mut frames) = (vec![0; room], vec![0; room]);
        let count = self.iter_latest_frames_into(memory, min_frame, max_frame, &mut pages, &mut frames)?;
        Ok(pages.into_iter().zip(frames).take(count).collect())
    }

    /// The same into cells of the caller's, without allocation. Answers how many pairs; the cells after them are as
    /// they were.
    ///
    /// # Errors
    ///
    /// [`Refusal::ShortList`] where there are more pairs than cells of one of the two; and as
    /// [`iter_latest_frames`](Self::iter_latest_frames).
    pub fn iter_latest_frames_into(
        &self,
        memory: &Memory<'_>,
        min_frame: u64,
        max_frame: u64,
        pages: &mut [u64],
        frames: &mut [u64],
    ) -> Result<usize, Refusal> {
        let index = memory.index_to_read(&self.settings);
        let reply = sys::iter_latest_frames(index, min_frame, max_frame, pages, frames);
        accepted(reply.refusal)?;
        Ok(reply.count as usize)
    }

    /// Publishes a committed transaction. The published frame and the transaction count are never lowered.
    pub fn publish_commit(
        &self,
        memory: &mut Memory<'_>,
        max_frame: u64,
        checksums: (u32, u32),
        transaction_count: u64,
    ) {
        sys::publish_commit(memory.header, max_frame, checksums.0, checksums.1, transaction_count);
    }

    /// Publishes how many frames are copied to the database file: after they are, under the checkpoint lock.
    pub fn publish_backfill(&self, memory: &mut Memory<'_>, nbackfills: u64) {
        sys::publish_backfill(memory.header, nbackfills);
    }

    /// Raises the checkpoint number and answers the new one.
    pub fn bump_checkpoint_seq(&self, memory: &mut Memory<'_>) -> u32 {
        sys::bump_checkpoint_seq(memory.header)
    }

    /// Raises the checkpoint epoch and answers the old one.
    pub fn bump_checkpoint_epoch(&self, memory: &mut Memory<'_>) -> u32 {
        sys::bump_checkpoint_epoch(memory.header)
    }

    /// Takes the writer lock. `false` if it is held, here or by another process, or could not be asked.
    ///
    /// # Errors
    ///
    /// [`Refusal::NoOwner`] for owner 0.
    pub fn try_acquire_writer(&mut self, memory: &mut Memory<'_>, owner: SharedOwnerRecord) -> Result<bool, Refusal> {
        self.try_acquire(Lock::Writer, memory, owner)
    }

    /// Releases the writer lock.
    ///
    /// # Errors
    ///
    /// [`Refusal::NotHeld`] where this process does not hold it, [`Refusal::OtherOwner`] where it holds it for another
    /// owner (in [`ProcessScopedFcntl`](SharedWalOwnershipMode::ProcessScopedFcntl)), [`Refusal::NoOwner`] for owner 0.
    pub fn release_writer(&mut self, memory: &mut Memory<'_>, owner: SharedOwnerRecord) -> Result<(), Refusal> {
        self.release(Lock::Writer, memory, owner)
    }

    /// Takes the checkpoint lock. `false` if it is held, here or by another process, or could not be asked.
    ///
    /// # Errors
    ///
    /// [`Refusal::NoOwner`] for owner 0.
    pub fn try_acquire_checkpoint(
        &mut self,
        memory: &mut Memory<'_>,
        owner: SharedOwnerRecord,
    ) -> Result<bool, Refusal> {
        self.try_acquire(Lock::Checkpoint, memory, owner)
    }

    /// Releases the checkpoint lock.
    ///
    /// # Errors
    ///
    /// As [`release_writer`](Self::release_writer).
    pub fn release_checkpoint(&mut self, memory: &mut Memory<'_>, owner: SharedOwnerRecord) -> Result<(), Refusal> {
        self.release(Lock::Checkpoint, memory, owner)
    }

    fn cell(&mut self, lock: Lock) -> (&mut u64, LockByte) {
        match lock {
            Lock::Writer => (&mut self.own.local_writer, LockByte::Writer),
            Lock::Checkpoint => (&mut self.own.local_checkpoint, LockByte::Checkpoint),
        }
    }

    fn try_acquire(&mut self, lock: Lock, memory: &mut Memory<'_>, owner: SharedOwnerRecord) -> Result<bool, Refusal> {
        let (&mut held, byte) = self.cell(lock);
        let card = if held == 0 { self.locks.try_lock(byte) } else { LockAnswer::Busy };
        let reply = match lock {
            Lock::Writer => sys::try_acquire_writer(memory.header, held, owner.0, card as u8),
            Lock::Checkpoint => sys::try_acquire_checkpoint(memory.header, held, owner.0, card as u8),
        };
        *self.cell(lock).0 = reply.local_owner;
        if card == LockAnswer::Granted && reply.answer == 0 {
            self.locks.unlock(byte);
        }
        accepted(reply.refusal)?;
        Ok(reply.answer == 1)
    }

    fn release(&mut self, lock: Lock, memory: &mut Memory<'_>, owner: SharedOwnerRecord) -> Result<(), Refusal> {
        let mode = self.settings.mode as u32;
        let (&mut held, byte) = self.cell(lock);
        let reply = match lock {
            Lock::Writer => sys::release_writer(mode, memory.header, held, owner.0),
            Lock::Checkpoint => sys::release_checkpoint(mode, memory.header, held, owner.0),
        };
        *self.cell(lock).0 = reply.local_owner;
        accepted(reply.refusal)?;
        self.locks.unlock(byte);
        Ok(())
    }

    /// Takes a reader slot of its own at a mark. `None` if no slot could be locked.
    ///
    /// ```
    /// # use wal_coordination::{SharedWalOwnershipMode::*, *};
    /// # let settings = Settings::new(64, 1, 1, LinuxOfd);
    /// # let mut owned = OwnedMemory::fresh(&settings, 1)?;
    /// # let mut memory = owned.lend();
    /// # let mut process = Process::new(settings, OneProcess)?;
    /// let owner = SharedOwnerRecord::new(7, 1);
    /// let reader = process.register_reader(&mut memory, owner, 5)?.expect("the one slot is free");
    /// assert_eq!(process.register_reader(&mut memory, owner, 6), Ok(None));
    /// assert_eq!(process.min_active_reader_frame(&mut memory), Ok(Some(5)));
    /// process.unregister_reader(&mut memory, reader)?;
    /// assert_eq!(process.unregister_reader(&mut memory, reader), Err(Refusal::NotHeld));
    /// # Ok::<(), Refusal>(())
    /// ```
    ///
    /// # Errors
    ///
    /// [`Refusal::NoOwner`] for owner 0, [`Refusal::UnusedMark`] for the mark of an unused slot; in memory of other
    /// settings, [`Refusal::ShortMemory`].
    pub fn register_reader(
        &mut self,
        memory: &mut Memory<'_>,
        owner: SharedOwnerRecord,
        max_frame: u64,
    ) -> Result<Option<SharedReaderSlot>, Refusal> {
        let card = self.registration_card(memory);
        let slots = memory.slots(&self.settings);
        let reply = sys::register_reader(slots, &mut self.own.local_readers, &card, owner.0, max_frame);
        let reply = reader_slot(reply);
        self.unlock_all_but(&card, reply.ok().flatten());
        reply
    }

    /// Moves a reader to another mark.
    ///
    /// # Errors
    ///
    /// [`Refusal::SlotNumber`], [`Refusal::OtherOwner`] and [`Refusal::NoOwner`] where the slot has no such reader,
    /// [`Refusal::UnusedMark`] for the mark of an unused slot, [`Refusal::SharedSlot`] for a shared one; in memory of
    /// other settings, [`Refusal::ShortMemory`].
    pub fn update_reader(
        &mut self,
        memory: &mut Memory<'_>,
        reader: SharedReaderSlot,
        max_frame: u64,
    ) -> Result<SharedReaderSlot, Refusal> {
        let SharedReaderSlot { slot, owner, .. } = reader;
        let slots = memory.slots(&self.settings);
        let reply = sys::update_reader(slots, &self.own.registry, slot.0, owner.0, max_frame);
        Ok(reader_slot(reply)?.expect("an accepted move answers its slot"))
    }

    /// Releases a reader's slot.
    ///
    /// # Errors
    ///
    /// [`Refusal::SlotNumber`], [`Refusal::NotHeld`], [`Refusal::OtherOwner`] and [`Refusal::NoOwner`] where this process
    /// has no such reader there, [`Refusal::SharedSlot`] for a shared one; in memory of other settings,
    /// [`Refusal::ShortMemory`].
    pub fn unregister_reader(&mut self, memory: &mut Memory<'_>, reader: SharedReaderSlot) -> Result<(), Refusal> {
        let SharedReaderSlot { slot, owner, .. } = reader;
        let OwnCells { local_readers, registry, .. } = &mut self.own;
        let slots = memory.slots(&self.settings);
        accepted(sys::unregister_reader(slots, local_readers, registry, slot.0, owner.0))?;
        self.locks.unlock(LockByte::Reader(slot.0));
        Ok(())
    }

    /// Takes a reader slot at a mark, or joins the connections of this process that share the mark already: then the
    /// answer has the first holder's slot and owner.
    ///
    /// # Errors
    ///
    /// [`Refusal::NoOwner`] for owner 0, [`Refusal::UnusedMark`] for the mark of an unused slot, [`Refusal::Registry`]
    /// where the mark has 65,535 holders; in memory of other settings, [`Refusal::ShortMemory`].
    pub fn register_reader_for_snapshot(
        &mut self,
        memory: &mut Memory<'_>,
        owner: SharedOwnerRecord,
        max_frame: u64,
    ) -> Result<Option<SharedReaderSlot>, Refusal> {
        let card = self.shared_card(memory, max_frame);
        let OwnCells { local_readers, registry, .. } = &mut self.own;
        let slots = memory.slots(&self.settings);
        let reply = sys::register_reader_for_snapshot(slots, local_readers, registry, &card, owner.0, max_frame);
        let reply = reader_slot(reply);
        self.unlock_all_but(&card, reply.ok().flatten());
        reply
    }

    /// Registers a reader of the database file alone, at mark 0. All of them in this process share one slot.
    ///
    /// Such a reader needs all published frames to be copied: it is registered in a turn in which `nbackfills` of the
    /// header equals `max_frame`. While one is live, [`copy_back_limit`](Self::copy_back_limit) allows no further frame
    /// to be copied.
    ///
    /// # Errors
    ///
    /// As [`register_reader_for_snapshot`](Self::register_reader_for_snapshot), but for the mark.
    pub fn register_db_file_reader(
        &mut self,
        memory: &mut Memory<'_>,
        owner: SharedOwnerRecord,
    ) -> Result<Option<SharedReaderSlot>, Refusal> {
        let card = self.shared_card(memory, 0);
        let OwnCells { local_readers, registry, .. } = &mut self.own;
        let slots = memory.slots(&self.settings);
        let reply = reader_slot(sys::register_db_file_reader(slots, local_readers, registry, &card, owner.0));
        self.unlock_all_but(&card, reply.ok().flatten());
        reply
    }

    /// Releases a shared mark. The last holder's release empties the slot.
    ///
    /// # Errors
    ///
    /// [`Refusal::NoSuchMark`] where the mark is not registered with this slot and owner; [`Refusal::SlotNumber`],
    /// [`Refusal::NotHeld`], [`Refusal::OtherOwner`], [`Refusal::NoOwner`] and [`Refusal::UnusedMark`] where there can be
    /// no such mark; in memory of other settings, [`Refusal::ShortMemory`].
    pub fn unregister_reader_for_snapshot(
        &mut self,
        memory: &mut Memory<'_>,
        reader: SharedReaderSlot,
    ) -> Result<(), Refusal> {
        let SharedReaderSlot { slot, owner, max_frame } = reader;
        let held = self.holds(slot.0);
        let OwnCells { local_readers, registry, .. } = &mut self.own;
        let slots = memory.slots(&self.settings);
        let reply = sys::unregister_reader_for_snapshot(slots, local_readers, registry, max_frame, slot.0, owner.0);
        accepted(reply)?;
        if held && !self.holds(slot.0) {
            self.locks.unlock(LockByte::Reader(slot.0));
        }
        Ok(())
    }

    /// The floor: the least mark above 0 that is still held, in any process. Slots of dead readers are reclaimed.
    /// Readers of the database file, at mark 0, are left out.
    ///
    /// # Errors
    ///
    /// [`Refusal::Probe`] where a reader's lock could not be asked (in
    /// [`LinuxOfd`](SharedWalOwnershipMode::LinuxOfd)); in memory of other settings, [`Refusal::ShortMemory`].
    pub fn min_active_reader_frame(&mut self, memory: &mut Memory<'_>) -> Result<Option<u64>, Refusal> {
        let card = self.probe_card(memory);
        let reply = sys::min_active_reader_frame(memory.slots(&self.settings), &self.own.local_readers, &card);
        self.unlock_all_but(&card, None);
        accepted(reply.refusal)?;
        Ok((reply.found == 1).then_some(reply.mark))
    }

    /// The copy-back limit: no frame above it may be copied to the database file. It is the lesser of the published
    /// frame and the floor. While a live reader, in any process, reads only the database file (mark 0), it is the
    /// lesser of that and `nbackfills` of the header, the number of frames already copied: such a reader must not see a
    /// page change. The call reclaims as the floor does.
    ///
    /// So frames are copied if the limit is above `nbackfills`, and nothing is if it is not, or if the call is refused.
    /// The call, the copying and [`publish_backfill`](Self::publish_backfill) stand in one turn, under the checkpoint
    /// lock, so that no reader of the database file registers in between:
    ///
    /// ```
    /// # use wal_coordination::{SharedWalOwnershipMode::*, *};
    /// # let settings = Settings::new(64, 1, 2, LinuxOfd);
    /// # let mut owned = OwnedMemory::fresh(&settings, 1)?;
    /// # let mut memory = owned.lend();
    /// # let mut process = Process::new(settings, OneProcess)?;
    /// # let owner = SharedOwnerRecord::new(7, 1);
    /// /// Copies frames back in this turn, as far as readers allow. Answers how many are copied.
    /// fn copy_back<L: ByteLocks>(process: &mut Process<L>, memory: &mut Memory<'_>) -> Result<u64, Refusal> {
    ///     let limit = process.copy_back_limit(memory)?;
    ///     if limit > memory.header.nbackfills {
    ///         // Here the frames nbackfills + 1 to limit are copied, and the database file is synced.
    ///         process.publish_backfill(memory, limit);
    ///     }
    ///     Ok(memory.header.nbackfills)
    /// }
    ///
    /// process.record_frame(&mut memory, 7, 1, false)?;
    /// process.publish_commit(&mut memory, 1, (0, 0), 1);
    /// assert!(process.try_acquire_checkpoint(&mut memory, owner)?);
    /// assert_eq!(copy_back(&mut process, &mut memory), Ok(1));
    ///
    /// // All is copied: a reader needs the database file alone. Frame 2 is not copied while it reads.
    /// let reader = process.register_db_file_reader(&mut memory, owner)?.expect("a slot is free");
    /// process.record_frame(&mut memory, 7, 2, false)?;
    /// process.publish_commit(&mut memory, 2, (0, 0), 2);
    /// assert_eq!(process.copy_back_limit(&mut memory), Ok(1));
    /// assert_eq!(copy_back(&mut process, &mut memory), Ok(1));
    /// process.unregister_reader_for_snapshot(&mut memory, reader)?;
    /// assert_eq!(copy_back(&mut process, &mut memory), Ok(2));
    /// process.release_checkpoint(&mut memory, owner)?;
    /// # Ok::<(), Refusal>(())
    /// ```
    ///
    /// # Errors
    ///
    /// As [`min_active_reader_frame`](Self::min_active_reader_frame).
    pub fn copy_back_limit(&mut self, memory: &mut Memory<'_>) -> Result<u64, Refusal> {
        let card = self.probe_card(memory);
        let header = *memory.header;
        let slots = memory.slots(&self.settings);
        let reply = sys::copy_back_limit(slots, &header, &self.own.local_readers, &card);
        self.unlock_all_but(&card, None);
        accepted(reply.refusal)?;
        Ok(reply.limit)
    }

    /// Whether some live reader, in any process, reads only the database file. It stops at the first one; slots of dead
    /// readers that it meets before are reclaimed. A host asks this before it begins the log anew. Before it copies
    /// frames back it asks [`copy_back_limit`](Self::copy_back_limit) alone.
    ///
    /// # Errors
    ///
    /// As [`min_active_reader_frame`](Self::min_active_reader_frame).
    pub fn has_active_db_file_reader(&mut self, memory: &mut Memory<'_>) -> Result<bool, Refusal> {
        let card = self.probe_card(memory);
        let reply = sys::has_active_db_file_reader(memory.slots(&self.settings), &self.own.local_readers, &card);
        self.unlock_all_but(&card, None);
        accepted(reply.refusal)?;
        Ok(reply.active == 1)
    }

    fn holds(&self, slot: usize) -> bool {
        self.own.local_readers.get(slot).is_some_and(|&owner| owner != 0)
    }

    /// The lock answers of a registration. Free slots are asked in order until one is granted, which is the one that
    /// the call takes; only if none is, those that could be reclaimed. A slot that is not asked stands as busy.
    fn registration_card(&mut self, memory: &Memory<'_>) -> Vec<u8> {
        let mut card = vec![LockAnswer::Busy as u8; self.settings.reader_slots];
        for free in [true, false] {
            for slot in 0..card.len() {
                if memory.slot_is_free(slot) == free && !self.holds(slot) {
                    let answer = self.locks.try_lock(LockByte::Reader(slot));
                    card[slot] = answer as u8;
                    if free && answer == LockAnswer::Granted {
                        return card;
                    }
                }
            }
        }
        card
    }

    /// The same for a shared registration, which asks no lock where the mark is shared already.
    fn shared_card(&mut self, memory: &Memory<'_>, mark: u64) -> Vec<u8> {
        if self.own.registry.iter().any(|record| record.holders != 0 && record.mark == mark) {
            return vec![LockAnswer::Busy as u8; self.settings.reader_slots];
        }
        self.registration_card(memory)
    }

    /// The lock answers of a floor: the slots with a reader that is not of this process are asked.
    fn probe_card(&mut self, memory: &Memory<'_>) -> Vec<u8> {
        let fcntl = self.settings.mode == SharedWalOwnershipMode::ProcessScopedFcntl;
        let mut card = vec![LockAnswer::Busy as u8; self.settings.reader_slots];
        for (slot, byte) in card.iter_mut().enumerate() {
            let unused = memory.reader_frames.get(slot).is_none_or(|&frame| frame == UNUSED_READER_FRAME);
            let ownerless = memory.reader_owners.get(slot).is_none_or(|&owner| owner == 0);
            let skipped = unused || fcntl && ownerless;
            if !skipped && self.own.local_readers[slot] == 0 {
                *byte = self.locks.try_lock(LockByte::Reader(slot)) as u8;
            }
        }
        card
    }

    /// Gives back the locks of a card that were granted and that the answer does not name.
    fn unlock_all_but(&mut self, card: &[u8], reader: Option<SharedReaderSlot>) {
        for (slot, &byte) in card.iter().enumerate() {
            if byte == LockAnswer::Granted as u8 && reader.is_none_or(|reader| reader.slot.0 != slot) {
                self.locks.unlock(LockByte::Reader(slot));
            }
        }
    }
}

/// Its settings and its own cells.
impl<L> fmt::Debug for Process<L> {
    fn fmt(&self, f: &mut fmt::Formatter<'_>) -> fmt::Result {
        let Process { settings, own, .. } = self;
        f.debug_struct("Process").field("settings", settings).field("own", own).finish_non_exhaustive()
    }
}
