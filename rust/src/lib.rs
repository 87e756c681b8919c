//! The shared frame index of a write-ahead log, its reader slots, locks and counters.
//!
//! Several processes share a [`Memory`]. Each has a [`Process`]: its own cells, its registry of shared marks, and the
//! [`ByteLocks`] that the processes lock each other out with. The calls are those of turso_core's
//! `shared_wal_coordination`, by its names, with [`Process::copy_back_limit`], [`Process::frame_between`] and
//! [`Process::nearest_frame`], which it does not have; behind each stands a C function of the proved static library.
//!
//! ```
//! use wal_coordination::{OneProcess, OwnedMemory, Process, Recorded};
//! use wal_coordination::{Settings, SharedOwnerRecord, SharedWalOwnershipMode};
//!
//! // 4,096 entries in one block, and four reader slots.
//! let settings = Settings::new(4096, 1, 4, SharedWalOwnershipMode::LinuxOfd);
//! let mut owned = OwnedMemory::fresh(&settings, 1)?;
//! let mut memory = owned.lend();
//! let mut process = Process::new(settings, OneProcess)?;
//! let owner = SharedOwnerRecord::new(std::process::id(), 1);
//!
//! // A writer records frame 1 of page 7 and publishes it.
//! assert_eq!(process.record_frame(&mut memory, 7, 1, false), Ok(Recorded::Stored));
//! process.publish_commit(&mut memory, 1, (0, 0), 1);
//!
//! // A reader takes a mark there. Frame 2 of the page comes later: up to its mark the reader sees frame 1.
//! let reader = process.register_reader_for_snapshot(&mut memory, owner, 1)?.expect("a slot is free");
//! assert_eq!(process.record_frame(&mut memory, 7, 2, false), Ok(Recorded::Stored));
//! assert_eq!(process.find_frame(&memory, 7, 1, reader.max_frame, None), Ok(Some(1)));
//!
//! // Frames above the reader's mark are not copied back before it is released.
//! process.publish_commit(&mut memory, 2, (0, 0), 2);
//! assert_eq!(process.copy_back_limit(&mut memory), Ok(1));
//! process.unregister_reader_for_snapshot(&mut memory, reader)?;
//! assert_eq!(process.copy_back_limit(&mut memory), Ok(2));
//! # Ok::<(), wal_coordination::Refusal>(())
//! ```
//!
//! # What a host keeps to
//!
//! - **One call at a time.** A [`Memory`] is lent to a call as nobody else's. Processes take turns by a lock of their
//!   own, for example one byte of the file, which `examples/two_processes` waits for. Byte locks do not exclude
//!   threads of one process: threads share one [`Process`] and one mapping behind a mutex, and take the turn under it.
//! - **Readers register in the turn in which they look.** In one turn a reader looks at `max_frame` and `nbackfills`
//!   of the [`Header`] and registers: if they are equal by [`Process::register_db_file_reader`], and else at
//!   `max_frame`.
//! - **Readers hold copying back**, those of the log and those of the database file: before it copies, a host asks
//!   [`Process::copy_back_limit`].
//! - **A full index stays full.** What a host does then is said at [`Process::record_frame`].
//! - **Few pages written often make lookups slow.** [`Process::probe_lengths`] shows it.
//! - **Which frame [`Process::frame_between`] gives is not decided** where a page has several between the bounds.
//!
//! `docs/LIFE-OF-A-FRAME.md` of the repository has the whole course.
//!
//! # The library
//!
//! The crate is safe. `wal_coordination-sys` declares the C functions and links the proved static library.
//! `WAL_COORDINATION_LIB` is the absolute path of its file at build time, under any file name; without it, the file that
//! `./build` writes in the repository is linked. A file that is missing, or is no library, ends the build.
#![forbid(unsafe_code)]

mod locks;
mod memory;
mod probe_lengths;
mod process;
mod refusal;

use wal_coordination_sys as sys;

pub use locks::{ByteLocks, LockAnswer, LockByte, OneProcess};
pub use memory::{
    Header, Memory, OwnedMemory, Settings, SharedOwnerRecord, SharedReadMark, SharedReaderSlot, SharedWalOwnershipMode,
    Slot, BLOCK_ENTRIES, BLOCK_HASH_CELLS, UNUSED_READER_FRAME,
};
pub use probe_lengths::ProbeLengths;
#[cfg(feature = "own-cells")]
pub use process::OwnCells;
pub use process::{Lookup, Process, Recorded};
pub use refusal::Refusal;
