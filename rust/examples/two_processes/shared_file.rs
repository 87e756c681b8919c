//! A mapped file with the shared memory in it, and the byte locks of its open file description (Linux). The layout is
//! this example's own: the header, the reader slots, the index, and after them bytes that are only locked.

use std::ffi::{c_int, c_void};
use std::fs::{File, OpenOptions};
use std::io;
use std::os::fd::AsRawFd;
use std::path::Path;
use std::sync::Arc;
use wal_coordination::{ByteLocks, Header, LockAnswer, LockByte, Memory, Settings};

#[repr(C)]
struct Flock {
    kind: i16,
    whence: i16,
    start: i64,
    len: i64,
    pid: i32,
}

extern "C" {
    fn mmap(
        address: *mut c_void,
        length: usize,
        protection: c_int,
        flags: c_int,
        file: c_int,
        offset: i64,
    ) -> *mut c_void;
    fn munmap(address: *mut c_void, length: usize) -> c_int;
    fn fcntl(file: c_int, command: c_int, ...) -> c_int;
}

// Linux's numbers, on x86-64.
const READ_AND_WRITE: c_int = 3;
const MAP_SHARED: c_int = 1;
const F_OFD_SETLK: c_int = 37;
const F_OFD_SETLKW: c_int = 38;
const F_WRLCK: i16 = 1;
const F_UNLCK: i16 = 2;
const EACCES: i32 = 13;
const EAGAIN: i32 = 11;

/// Where each part begins, in bytes. Every part begins at a multiple of 8.
struct Layout {
    bitmap: usize,
    reader_frames: usize,
    reader_owners: usize,
    pages: usize,
    frames: usize,
    hash: usize,
    end: usize,
}

impl Layout {
    fn of(settings: &Settings) -> Layout {
        let mut end = 0;
        let mut part = |bytes: usize| {
            let begin = end;
            end += bytes.next_multiple_of(8);
            begin
        };
        part(size_of::<Header>());
        let bitmap = part(8 * settings.bitmap_words());
        let reader_frames = part(8 * settings.reader_slots);
        let reader_owners = part(8 * settings.reader_slots);
        let pages = part(8 * settings.entry_cells());
        let frames = part(8 * settings.entry_cells());
        let hash = part(2 * settings.hash_cells());
        Layout { bitmap, reader_frames, reader_owners, pages, frames, hash, end }
    }
}

/// The mapping of a file that this process opened.
pub struct SharedFile {
    file: Arc<File>,
    begin: *mut c_void,
    layout: Layout,
    settings: Settings,
}

impl SharedFile {
    /// Makes a file with fresh memory.
    pub fn create(path: &Path, settings: &Settings) -> io::Result<()> {
        settings.check().map_err(io::Error::other)?;
        let file = OpenOptions::new().read(true).write(true).create_new(true).open(path)?;
        file.set_len(Layout::of(settings).end as u64)?;
        let mut shared = SharedFile::map(file, settings)?;
        shared.take_turn().memory().make_fresh(settings, 1).map_err(io::Error::other)?;
        Ok(())
    }

    /// Opens a file that `create` has made, with an open file description of its own.
    pub fn open(path: &Path, settings: &Settings) -> io::Result<SharedFile> {
        SharedFile::map(OpenOptions::new().read(true).write(true).open(path)?, settings)
    }

    fn map(file: File, settings: &Settings) -> io::Result<SharedFile> {
        let layout = Layout::of(settings);
        if file.metadata()?.len() < layout.end as u64 {
            return Err(io::Error::other("the file is too short"));
        }
        // SAFETY: The system chooses the place; the file is as long as the mapping.
        let begin = unsafe { mmap(std::ptr::null_mut(), layout.end, READ_AND_WRITE, MAP_SHARED, file.as_raw_fd(), 0) };
        if begin as isize == -1 {
            return Err(io::Error::last_os_error());
        }
        Ok(SharedFile { file: Arc::new(file), begin, layout, settings: *settings })
    }

    /// The locks of this open file description.
    pub fn locks(&self) -> OfdLocks {
        OfdLocks { file: self.file.clone(), first: self.layout.end as i64 }
    }

    /// Waits until no other process makes a call. Threads of this process would all be granted the turn's lock, at
    /// once: the file is lent to one of them at a time.
    pub fn take_turn(&mut self) -> Turn<'_> {
        let locks = self.locks();
        locks.set(TURN, F_WRLCK, F_OFD_SETLKW).expect("the turn's lock can be waited for");
        Turn { file: self, locks }
    }
}

impl Drop for SharedFile {
    fn drop(&mut self) {
        // SAFETY: It is mapped there, and nobody is lent a part of it any more.
        unsafe { munmap(self.begin, self.layout.end) };
    }
}

/// `count` numbers that begin so many bytes after `begin`.
///
/// # Safety
///
/// They are there, aligned, of a type of which all bytes are a number, and lent to nobody else.
unsafe fn part<'a, T>(begin: *mut c_void, at: usize, count: usize) -> &'a mut [T] {
    // SAFETY: As the caller keeps to.
    unsafe { std::slice::from_raw_parts_mut(begin.byte_add(at).cast(), count) }
}

/// This process alone has the memory, until it is dropped.
pub struct Turn<'a> {
    file: &'a mut SharedFile,
    locks: OfdLocks,
}

impl Turn<'_> {
    /// The memory.
    pub fn memory(&mut self) -> Memory<'_> {
        let SharedFile { begin, ref layout, ref settings, .. } = *self.file;
        // SAFETY: The parts lie one after the other in the mapping, aligned to 8 bytes, and other processes wait for
        // their turn.
        unsafe {
            Memory {
                header: &mut *begin.cast(),
                bitmap: part(begin, layout.bitmap, settings.bitmap_words()),
                reader_frames: part(begin, layout.reader_frames, settings.reader_slots),
                reader_owners: part(begin, layout.reader_owners, settings.reader_slots),
                pages: part(begin, layout.pages, settings.entry_cells()),
                frames: part(begin, layout.frames, settings.entry_cells()),
                hash: part(begin, layout.hash, settings.hash_cells()),
            }
        }
    }
}

impl Drop for Turn<'_> {
    fn drop(&mut self) {
        self.locks.set(TURN, F_UNLCK, F_OFD_SETLK).expect("a lock can be given back");
    }
}

/// The byte of the turn; after it come those of the library.
const TURN: i64 = 0;

fn place(byte: LockByte) -> i64 {
    match byte {
        LockByte::Writer => 1,
        LockByte::Checkpoint => 2,
        LockByte::Reader(slot) => 3 + slot as i64,
    }
}

/// Byte locks of an open file description, after the end of the memory. The kernel frees them when it is closed, as
/// when its process is killed.
pub struct OfdLocks {
    file: Arc<File>,
    first: i64,
}

impl OfdLocks {
    fn set(&self, place: i64, kind: i16, command: c_int) -> io::Result<()> {
        let lock = Flock { kind, whence: 0, start: self.first + place, len: 1, pid: 0 };
        // SAFETY: The command takes a lock's description, and this is one.
        match unsafe { fcntl(self.file.as_raw_fd(), command, &lock) } {
            -1 => Err(io::Error::last_os_error()),
            _ => Ok(()),
        }
    }
}

impl ByteLocks for OfdLocks {
    fn try_lock(&mut self, byte: LockByte) -> LockAnswer {
        match self.set(place(byte), F_WRLCK, F_OFD_SETLK) {
            Ok(()) => LockAnswer::Granted,
            Err(error) if matches!(error.raw_os_error(), Some(EACCES | EAGAIN)) => LockAnswer::Busy,
            Err(_) => LockAnswer::Error,
        }
    }

    fn unlock(&mut self, byte: LockByte) {
        // A lock that cannot be given back stays ours, and ends with the process.
        let _ = self.set(place(byte), F_UNLCK, F_OFD_SETLK);
    }
}
