//! Settings, the shared memory, and what a process keeps for itself.

use crate::refusal::Refusal;
use crate::sys::{self, Index, IndexToRead, Slots};
use std::fmt;

pub use crate::sys::{Header, SharedReadMark};

/// Entries of one block of the index.
pub const BLOCK_ENTRIES: usize = 4096;

/// Hash cells of one block of the index.
pub const BLOCK_HASH_CELLS: usize = 8192;

/// The frame of a reader slot without a reader.
pub const UNUSED_READER_FRAME: u64 = u64::MAX;

/// The locking primitive behind the slots and the two locks. There are these two.
#[derive(Clone, Copy, Debug, PartialEq, Eq, Hash)]
#[repr(u32)]
pub enum SharedWalOwnershipMode {
    /// Locks of an open file description, which the kernel frees when their process dies.
    LinuxOfd = 0,
    /// Locks of a process, as POSIX has them.
    ProcessScopedFcntl = 1,
}

/// The settings, the same for every call of every process on one memory. [`Settings::new`] makes them; later versions
/// may have more.
#[derive(Clone, Copy, Debug, PartialEq, Eq, Hash)]
#[non_exhaustive]
pub struct Settings {
    /// Entries that the index may have: 1 to 65,536.
    pub capacity: u32,
    /// Blocks that the index may have: 1 to 16.
    pub max_blocks: u32,
    /// Reader slots: 1 to 256.
    pub reader_slots: usize,
    /// The locking primitive.
    pub mode: SharedWalOwnershipMode,
}

impl Settings {
    /// These settings, within their limits or not: [`check`](Self::check) tells.
    pub const fn new(capacity: u32, max_blocks: u32, reader_slots: usize, mode: SharedWalOwnershipMode) -> Self {
        Settings { capacity, max_blocks, reader_slots, mode }
    }

    /// Whether each setting is within its limits.
    ///
    /// ```
    /// # use wal_coordination::{SharedWalOwnershipMode::*, *};
    /// let mut settings = Settings::new(64, 1, 256, LinuxOfd);
    /// assert_eq!(settings.check(), Ok(()));
    /// settings.reader_slots = 257;
    /// assert_eq!(settings.check(), Err(Refusal::Settings));
    /// ```
    ///
    /// # Errors
    ///
    /// [`Refusal::Settings`] where one is not.
    pub fn check(&self) -> Result<(), Refusal> {
        self.check_with(0)
    }

    /// The same, also for more starting blocks than the maximum. The limits are the library's: a call that is lent
    /// nothing is refused for its settings, and for its memory if they are good.
    fn check_with(&self, starting_blocks: u32) -> Result<(), Refusal> {
        let mut nothing = Memory {
            header: &mut Header::fresh(starting_blocks),
            pages: &mut [],
            frames: &mut [],
            hash: &mut [],
            bitmap: &mut [],
            reader_frames: &mut [],
            reader_owners: &mut [],
        };
        let of_index = sys::find_frame(nothing.index_to_read(self), 0, 0, 0, None).refusal;
        let of_readers = sys::has_active_db_file_reader(nothing.slots(self), &[], &[]).refusal;
        match [of_index, of_readers].contains(&Refusal::Settings.number()) {
            true => Err(Refusal::Settings),
            false => Ok(()),
        }
    }

    /// Cells of pages, and of frames, that the calls ask for.
    pub fn entry_cells(&self) -> usize {
        BLOCK_ENTRIES * self.max_blocks as usize
    }

    /// Cells of hash that the calls ask for.
    pub fn hash_cells(&self) -> usize {
        BLOCK_HASH_CELLS * self.max_blocks as usize
    }

    /// Words of the reader bitmap that the calls ask for.
    pub fn bitmap_words(&self) -> usize {
        self.reader_slots.div_ceil(64)
    }
}

/// A connection, as it stands in owner cells: its process id and an instance id.
#[derive(Clone, Copy, Debug, PartialEq, Eq, Hash)]
#[repr(transparent)]
pub struct SharedOwnerRecord(pub(crate) u64);

impl SharedOwnerRecord {
    /// The owner of these numbers. `new(0, 0)` is no owner: calls refuse it.
    ///
    /// ```
    /// use wal_coordination::SharedOwnerRecord;
    /// let owner = SharedOwnerRecord::new(7, 1);
    /// assert_eq!((owner.pid(), owner.instance_id(), owner.raw()), (7, 1, 7 * 4_294_967_296 + 1));
    /// ```
    pub fn new(pid: u32, instance_id: u32) -> Self {
        SharedOwnerRecord(sys::owner_new(pid, instance_id))
    }

    /// The owner with this number.
    pub const fn from_raw(number: u64) -> Self {
        SharedOwnerRecord(number)
    }

    /// Its number.
    pub const fn raw(self) -> u64 {
        self.0
    }

    /// Its process id.
    pub fn pid(self) -> u32 {
        sys::owner_pid(self.0)
    }

    /// Its instance id.
    pub fn instance_id(self) -> u32 {
        sys::owner_instance_id(self.0)
    }
}

/// The number of a reader slot.
#[derive(Clone, Copy, Debug, PartialEq, Eq, PartialOrd, Ord, Hash)]
pub struct Slot(pub(crate) usize);

impl Slot {
    /// The slot with this number; calls refuse one that is not there.
    pub const fn new(number: usize) -> Self {
        Slot(number)
    }

    /// Its number.
    pub const fn number(self) -> usize {
        self.0
    }
}

/// A registered reader: its slot, the owner in it, and the mark up to which it looks. Registrations answer it;
/// [`SharedReaderSlot::new`] makes one that is known from elsewhere. Later versions may have more.
#[derive(Clone, Copy, Debug, PartialEq, Eq, Hash)]
#[non_exhaustive]
pub struct SharedReaderSlot {
    /// Its slot.
    pub slot: Slot,
    /// The owner: for a shared mark, the first holder.
    pub owner: SharedOwnerRecord,
    /// The mark: the frame up to which it looks.
    pub max_frame: u64,
}

impl SharedReaderSlot {
    /// A reader of these; calls refuse one that is not registered so.
    pub const fn new(slot: Slot, owner: SharedOwnerRecord, max_frame: u64) -> Self {
        SharedReaderSlot { slot, owner, max_frame }
    }
}

/// The shared memory, lent part by part. Each part is at least as long as the settings ask, or calls are refused.
/// While it is lent nothing else reads or writes it: processes, and threads of one process, make one call at a time.
///
/// A host names every part. A part that a later version adds is the host's to lend, so code that does not is to fail to
/// compile.
pub struct Memory<'a> {
    /// The header.
    pub header: &'a mut Header,
    /// The page of each entry of the index.
    pub pages: &'a mut [u64],
    /// The frame of each entry of the index.
    pub frames: &'a mut [u64],
    /// The hash of each block of the index.
    pub hash: &'a mut [u16],
    /// A bit for each reader slot, 1 where it is free.
    pub bitmap: &'a mut [u64],
    /// The mark in each reader slot.
    pub reader_frames: &'a mut [u64],
    /// The owner in each reader slot.
    pub reader_owners: &'a mut [u64],
}

impl Memory<'_> {
    /// Makes it fresh, with so many starting blocks in use. Cells of pages and frames stay as they are, and so do
    /// cells beyond those that the settings ask for.
    ///
    /// # Errors
    ///
    /// With nothing changed: [`Refusal::Settings`] where a setting is out of its limits or there are more starting
    /// blocks than the maximum, [`Refusal::ShortMemory`] where a part is too short.
    pub fn make_fresh(&mut self, settings: &Settings, starting_blocks: u32) -> Result<(), Refusal> {
        settings.check_with(starting_blocks)?;
        let (entries, hash_cells) = (settings.entry_cells(), settings.hash_cells());
        let (words, slots) = (settings.bitmap_words(), settings.reader_slots);
        let short = self.pages.len() < entries
            || self.frames.len() < entries
            || self.hash.len() < hash_cells
            || self.bitmap.len() < words
            || self.reader_frames.len() < slots
            || self.reader_owners.len() < slots;
        if short {
            return Err(Refusal::ShortMemory);
        }
        *self.header = Header::fresh(starting_blocks);
        self.hash[..hash_cells].fill(0);
        self.reader_frames[..slots].fill(UNUSED_READER_FRAME);
        self.reader_owners[..slots].fill(0);
        self.bitmap[..words].fill(0);
        for slot in 0..slots {
            self.bitmap[slot / 64] |= 1 << (slot % 64);
        }
        Ok(())
    }

    /// What calls on the index are given.
    pub(crate) fn index(&mut self, settings: &Settings) -> Index<'_> {
        let Settings { capacity, max_blocks, .. } = *settings;
        let Memory { header, pages, frames, hash, .. } = self;
        Index { capacity, max_blocks, header, pages, frames, hash }
    }

    /// The same, to read.
    pub(crate) fn index_to_read(&self, settings: &Settings) -> IndexToRead<'_> {
        let Settings { capacity, max_blocks, .. } = *settings;
        let Memory { header, pages, frames, hash, .. } = self;
        IndexToRead { capacity, max_blocks, header, pages, frames, hash }
    }

    /// What calls on reader slots are given.
    pub(crate) fn slots(&mut self, settings: &Settings) -> Slots<'_> {
        let Settings { reader_slots: n, mode, .. } = *settings;
        let Memory { bitmap, reader_frames, reader_owners, .. } = self;
        Slots { n, mode: mode as u32, bitmap, reader_frames, reader_owners }
    }

    pub(crate) fn slot_is_free(&self, slot: usize) -> bool {
        self.bitmap.get(slot / 64).is_some_and(|word| word >> (slot % 64) & 1 == 1)
    }
}

/// The header, and how many cells there are of each part.
impl fmt::Debug for Memory<'_> {
    fn fmt(&self, f: &mut fmt::Formatter<'_>) -> fmt::Result {
        let Memory { header, pages, frames, hash, bitmap, reader_frames, reader_owners } = self;
        let cells = [pages.len(), frames.len(), hash.len(), bitmap.len(), reader_frames.len(), reader_owners.len()];
        counted(f, "Memory", header, cells)
    }
}

/// A memory's header, and how many cells its parts have: a part itself is too long to read.
fn counted(f: &mut fmt::Formatter<'_>, name: &str, header: &Header, cells: [usize; 6]) -> fmt::Result {
    let mut told = f.debug_struct(name);
    told.field("header", header);
    for (part, cells) in ["pages", "frames", "hash", "bitmap", "reader_frames", "reader_owners"].iter().zip(&cells) {
        told.field(part, cells);
    }
    told.finish()
}

/// Memory on the heap, for one process alone, for tests and examples.
#[derive(Clone)]
pub struct OwnedMemory {
    header: Header,
    pages: Vec<u64>,
    frames: Vec<u64>,
    hash: Vec<u16>,
    bitmap: Vec<u64>,
    reader_frames: Vec<u64>,
    reader_owners: Vec<u64>,
}

impl OwnedMemory {
    /// Fresh memory, as long as the settings ask.
    ///
    /// ```
    /// # use wal_coordination::{SharedWalOwnershipMode::*, *};
    /// let settings = Settings::new(64, 1, 1, LinuxOfd);
    /// assert!(OwnedMemory::fresh(&settings, 1).is_ok());
    /// assert_eq!(OwnedMemory::fresh(&settings, 2).err(), Some(Refusal::Settings));
    /// ```
    ///
    /// # Errors
    ///
    /// [`Refusal::Settings`] where a setting is out of its limits or there are more starting blocks than the maximum.
    pub fn fresh(settings: &Settings, starting_blocks: u32) -> Result<Self, Refusal> {
        // Before so many cells are asked for; the starting blocks are looked at when the memory is made fresh.
        settings.check()?;
        let mut memory = OwnedMemory {
            header: Header::default(),
            pages: vec![0; settings.entry_cells()],
            frames: vec![0; settings.entry_cells()],
            hash: vec![0; settings.hash_cells()],
            bitmap: vec![0; settings.bitmap_words()],
            reader_frames: vec![0; settings.reader_slots],
            reader_owners: vec![0; settings.reader_slots],
        };
        memory.lend().make_fresh(settings, starting_blocks)?;
        Ok(memory)
    }

    /// Lends it to calls.
    pub fn lend(&mut self) -> Memory<'_> {
        Memory {
            header: &mut self.header,
            pages: &mut self.pages,
            frames: &mut self.frames,
            hash: &mut self.hash,
            bitmap: &mut self.bitmap,
            reader_frames: &mut self.reader_frames,
            reader_owners: &mut self.reader_owners,
        }
    }
}

/// The header, and how many cells there are of each part.
impl fmt::Debug for OwnedMemory {
    fn fmt(&self, f: &mut fmt::Formatter<'_>) -> fmt::Result {
        let OwnedMemory { header, pages, frames, hash, bitmap, reader_frames, reader_owners } = self;
        let cells = [pages.len(), frames.len(), hash.len(), bitmap.len(), reader_frames.len(), reader_owners.len()];
        counted(f, "OwnedMemory", header, cells)
    }
}
