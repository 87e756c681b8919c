//! Stand-ins for the file interface, and the file double.

use crate::sync::Arc;
use crate::{CompletionError, LimboError, Result};
use calls::memory::{BLOCK_ENTRIES, BLOCK_HASH_CELLS};
use std::alloc::{alloc_zeroed, dealloc, handle_alloc_error, Layout};
use std::cell::{Cell, RefCell};
use std::ptr::NonNull;

pub(crate) struct Completion;

impl Completion {
    pub(crate) fn new_sync(_done: impl Fn(Result<i32>)) -> Self {
        Self
    }
}

pub(crate) struct FileSyncType;

pub(crate) enum OpenFlags {
    NoLock,
}

#[derive(Clone, Copy)]
pub(crate) enum SharedWalLockKind {
    LinuxOfd,
    ProcessScopedFcntl,
}

pub(crate) trait SharedWalMappedRegion {
    fn ptr(&self) -> NonNull<u8>;
}

pub(crate) trait File {
    fn size(&self) -> Result<u64>;
    fn sync(&self, completion: Completion, kind: FileSyncType) -> Result<Completion>;
    fn shared_wal_set_len(&self, len: u64) -> Result<()>;
    fn shared_wal_map(&self, offset: u64, len: usize) -> Result<Box<dyn SharedWalMappedRegion>>;
    fn shared_wal_lock_byte(&self, offset: u64, exclusive: bool, kind: SharedWalLockKind) -> Result<()>;
    fn shared_wal_try_lock_byte(&self, offset: u64, exclusive: bool, kind: SharedWalLockKind) -> Result<bool>;
    fn shared_wal_unlock_byte(&self, offset: u64, kind: SharedWalLockKind) -> Result<()>;
    fn shared_wal_probe_exclusive_byte(&self, offset: u64, kind: SharedWalLockKind) -> Result<bool>;
    fn shared_wal_probe_exclusive_while_shared_byte(&self, offset: u64, kind: SharedWalLockKind) -> Result<bool>;
}

pub(crate) trait IO {
    fn open_shared_wal_file(&self, path: &str) -> Result<Arc<dyn File>>;
    fn open_file(&self, path: &str, flags: OpenFlags, direct: bool) -> Result<Arc<dyn File>>;
}

/// The lock bytes of the readers come after those of lifetime, writer and checkpoint.
const FIRST_READER_BYTE: u64 = 3;
/// Room for the Rust's header and 256 slots.
const BASE_BYTES: usize = 8192;
const BLOCK_BYTES: usize = BLOCK_ENTRIES * 16 + BLOCK_HASH_CELLS * 2;

/// The answers that a call gets from the file.
#[derive(Default)]
struct Answers {
    /// 0 busy, 1 granted, 2 error; a byte that isn't there counts as busy.
    card: RefCell<Vec<u8>>,
    /// The writer's or checkpoint's byte.
    lock: Cell<u8>,
    grow: Cell<bool>,
}

/// The file double: it owns the memory that all processes map.
pub(crate) struct MappedFile {
    base: Zeroed,
    blocks: Vec<Zeroed>,
    len: Cell<u64>,
    answers: Answers,
}

impl MappedFile {
    pub(crate) fn new(blocks: usize) -> Self {
        Self {
            base: Zeroed::new(BASE_BYTES),
            blocks: (0..blocks).map(|_| Zeroed::new(BLOCK_BYTES)).collect(),
            len: Cell::new(0),
            answers: Answers { grow: Cell::new(true), ..Answers::default() },
        }
    }

    pub(crate) fn set_card(&self, card: &[u8]) {
        let mut own = self.answers.card.borrow_mut();
        own.clear();
        own.extend_from_slice(card);
    }

    pub(crate) fn set_lock(&self, byte: u8) {
        self.answers.lock.set(byte);
    }

    pub(crate) fn set_grow(&self, grow: bool) {
        self.answers.grow.set(grow);
    }

    pub(crate) fn room_blocks(&self) -> usize {
        self.blocks.len()
    }

    /// The entries of a block, each page and frame.
    pub(crate) fn entries(&self, block: usize) -> &[[u64; 2]] {
        unsafe { std::slice::from_raw_parts(self.blocks[block].0.as_ptr().cast(), BLOCK_ENTRIES) }
    }

    pub(crate) fn hash(&self, block: usize) -> &[u16] {
        unsafe { std::slice::from_raw_parts(self.hash_start(block), BLOCK_HASH_CELLS) }
    }

    pub(crate) fn set_page(&self, entry: usize, page: u64) {
        self.set_entry(entry, 0, page);
    }

    pub(crate) fn set_frame(&self, entry: usize, frame: u64) {
        self.set_entry(entry, 1, frame);
    }

    fn set_entry(&self, entry: usize, word: usize, value: u64) {
        let block = &self.blocks[entry / BLOCK_ENTRIES];
        unsafe { block.0.as_ptr().cast::<u64>().add(entry % BLOCK_ENTRIES * 2 + word).write(value) }
    }

    pub(crate) fn set_hash(&self, cell: usize, value: u16) {
        unsafe { self.hash_start(cell / BLOCK_HASH_CELLS).add(cell % BLOCK_HASH_CELLS).write(value) }
    }

    /// Sets all cells of a block; the slices are as long as a block's.
    pub(crate) fn set_block(&self, block: usize, pages: &[u64], frames: &[u64], hash: &[u16]) {
        let entries: *mut [u64; 2] = self.blocks[block].0.as_ptr().cast();
        for (entry, (page, frame)) in pages.iter().zip(frames).take(BLOCK_ENTRIES).enumerate() {
            unsafe { entries.add(entry).write([*page, *frame]) }
        }
        assert_eq!(hash.len(), BLOCK_HASH_CELLS);
        unsafe { std::ptr::copy_nonoverlapping(hash.as_ptr(), self.hash_start(block), hash.len()) }
    }

    fn hash_start(&self, block: usize) -> *mut u16 {
        unsafe { self.blocks[block].0.as_ptr().add(BLOCK_ENTRIES * 16).cast() }
    }

    /// Copies the mapped memory into `kept`, the blocks only if wanted.
    pub(crate) fn keep(&self, kept: &mut Vec<u8>, blocks: bool) {
        kept.clear();
        for part in self.parts().take(if blocks { usize::MAX } else { 1 }) {
            kept.extend_from_slice(unsafe { std::slice::from_raw_parts(part.0.as_ptr(), part.1.size()) });
        }
    }

    /// Puts back what `keep` copied.
    pub(crate) fn put_back(&self, mut kept: &[u8]) {
        for part in self.parts() {
            let Some((bytes, further)) = kept.split_at_checked(part.1.size()) else { break };
            unsafe { std::ptr::copy_nonoverlapping(bytes.as_ptr(), part.0.as_ptr(), bytes.len()) };
            kept = further;
        }
    }

    fn parts(&self) -> impl Iterator<Item = &Zeroed> {
        std::iter::once(&self.base).chain(&self.blocks)
    }
}

fn busy_or_granted(byte: u8) -> Result<bool> {
    match byte {
        0 => Ok(false),
        1 => Ok(true),
        _ => Err(error("lock answer")),
    }
}

fn error(words: &'static str) -> LimboError {
    LimboError::CompletionError(CompletionError::IOError(std::io::ErrorKind::Other, words))
}

impl File for MappedFile {
    fn size(&self) -> Result<u64> {
        Ok(self.len.get())
    }

    fn sync(&self, completion: Completion, _: FileSyncType) -> Result<Completion> {
        Ok(completion)
    }

    fn shared_wal_set_len(&self, len: u64) -> Result<()> {
        if !self.answers.grow.get() {
            return Err(error("growth answer"));
        }
        self.len.set(len);
        Ok(())
    }

    /// The base at offset 0. Any other offset is some base length, less than a block, plus whole blocks.
    fn shared_wal_map(&self, offset: u64, len: usize) -> Result<Box<dyn SharedWalMappedRegion>> {
        let part = match offset {
            0 => &self.base,
            _ => self.blocks.get(offset as usize / BLOCK_BYTES).ok_or_else(|| error("no such block"))?,
        };
        if len > part.1.size() {
            return Err(error("a mapping longer than its part"));
        }
        Ok(Box::new(Region(part.0)))
    }

    fn shared_wal_lock_byte(&self, _: u64, _: bool, _: SharedWalLockKind) -> Result<()> {
        Ok(())
    }

    fn shared_wal_try_lock_byte(&self, offset: u64, _: bool, _: SharedWalLockKind) -> Result<bool> {
        busy_or_granted(match offset.checked_sub(FIRST_READER_BYTE) {
            Some(slot) => self.answers.card.borrow().get(slot as usize).copied().unwrap_or(0),
            None => self.answers.lock.get(),
        })
    }

    fn shared_wal_unlock_byte(&self, _: u64, _: SharedWalLockKind) -> Result<()> {
        Ok(())
    }

    fn shared_wal_probe_exclusive_byte(&self, _: u64, _: SharedWalLockKind) -> Result<bool> {
        Ok(true)
    }

    fn shared_wal_probe_exclusive_while_shared_byte(&self, _: u64, _: SharedWalLockKind) -> Result<bool> {
        Ok(true)
    }
}

/// Every path leads to the one file.
pub(crate) struct OneFile(pub(crate) Arc<MappedFile>);

impl IO for OneFile {
    fn open_shared_wal_file(&self, _: &str) -> Result<Arc<dyn File>> {
        Ok(self.0.clone())
    }

    fn open_file(&self, _: &str, _: OpenFlags, _: bool) -> Result<Arc<dyn File>> {
        Ok(self.0.clone())
    }
}

/// A part of the file, alive as long as the file is.
struct Region(NonNull<u8>);

impl SharedWalMappedRegion for Region {
    fn ptr(&self) -> NonNull<u8> {
        self.0
    }
}

/// Memory of zeros at a page's start.
struct Zeroed(NonNull<u8>, Layout);

impl Zeroed {
    fn new(bytes: usize) -> Self {
        let layout = Layout::from_size_align(bytes, 4096).expect("a whole number of pages");
        let start = unsafe { alloc_zeroed(layout) };
        Self(NonNull::new(start).unwrap_or_else(|| handle_alloc_error(layout)), layout)
    }
}

impl Drop for Zeroed {
    fn drop(&mut self) {
        unsafe { dealloc(self.0.as_ptr(), self.1) }
    }
}
