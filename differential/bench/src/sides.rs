//! The calls that are measured, on the port and on the Rust.

use calls::memory::{Memory, Settings, LINUX_OFD};
use wal_coordination_sys::{self as sys, ListReply};

/// The settings of all measurements: 16 blocks, all in use.
pub const SETTINGS: Settings = Settings { capacity: 65_536, max_blocks: 16, slots: 64, mode: LINUX_OFD };

/// An index of 16 blocks.
pub trait Index {
    fn record(&mut self, page: u64, frame: u64);
    fn rollback(&mut self, bound: u64);
    fn find(&mut self, page: u64, min: u64, max: u64, watermark: Option<u64>) -> Option<u64>;
    /// The pairs and the sum of their frames.
    fn list(&mut self, min: u64, max: u64) -> (u64, u64);
}

/// Searches over the entries, which the Rust does not have.
pub trait Search {
    fn between(&mut self, page: u64, min: u64, max: u64) -> Option<u64>;
    fn nearest(&mut self, page: u64, to: u64) -> Option<u64>;
}

/// The header.
pub trait Header {
    fn commit(&mut self, max_frame: u64, transaction_count: u64);
    fn acquire_and_release(&mut self, owner: u64) -> bool;
    fn bump(&mut self) -> u32;
}

/// The memory that the port and the plain C are lent.
pub struct Lent {
    pub memory: Memory,
    pub out_pages: Vec<u64>,
    pub out_frames: Vec<u64>,
}

impl Lent {
    pub fn new() -> Self {
        let room = SETTINGS.capacity as usize;
        Self {
            memory: Memory::fresh(&SETTINGS, SETTINGS.max_blocks, 1),
            out_pages: vec![0; room],
            out_frames: vec![0; room],
        }
    }
}

/// All cells that calls on the index write to.
impl PartialEq for Lent {
    fn eq(&self, other: &Self) -> bool {
        let (a, b) = (&self.memory, &other.memory);
        a.header == b.header
            && a.pages == b.pages
            && a.frames == b.frames
            && a.hash == b.hash
            && self.out_pages == other.out_pages
            && self.out_frames == other.out_frames
    }
}

/// The port, with the memory that it is lent.
pub struct Port {
    pub lent: Lent,
    local_writer: u64,
}

impl Port {
    pub fn new() -> Self {
        Self { lent: Lent::new(), local_writer: 0 }
    }
}

#[inline]
fn index(memory: &mut Memory) -> sys::Index<'_> {
    let Settings { capacity, max_blocks, .. } = SETTINGS;
    let Memory { header, pages, frames, hash, .. } = memory;
    sys::Index { capacity, max_blocks, header, pages, frames, hash }
}

impl Index for Port {
    #[inline]
    fn record(&mut self, page: u64, frame: u64) {
        let reply = sys::record_frame(index(&mut self.lent.memory), page, frame, 1);
        assert_eq!(reply.refusal, 0);
    }

    #[inline]
    fn rollback(&mut self, bound: u64) {
        let reply = sys::rollback_frames(index(&mut self.lent.memory), bound);
        assert_eq!(reply.refusal, 0);
    }

    #[inline]
    fn find(&mut self, page: u64, min: u64, max: u64, watermark: Option<u64>) -> Option<u64> {
        let reply = sys::find_frame(index(&mut self.lent.memory).to_read(), page, min, max, watermark);
        assert_eq!(reply.refusal, 0);
        (reply.found == 1).then_some(reply.frame)
    }

    #[inline]
    fn list(&mut self, min: u64, max: u64) -> (u64, u64) {
        let Lent { memory, out_pages, out_frames } = &mut self.lent;
        let ListReply { refusal, count } =
            sys::iter_latest_frames(index(memory).to_read(), min, max, out_pages, out_frames);
        assert_eq!(refusal, 0);
        (count, out_frames[..count as usize].iter().sum())
    }
}

impl Search for Port {
    #[inline]
    fn between(&mut self, page: u64, min: u64, max: u64) -> Option<u64> {
        let reply = sys::frame_between(index(&mut self.lent.memory).to_read(), page, min, max);
        assert_eq!(reply.refusal, 0);
        (reply.found == 1).then_some(reply.frame)
    }

    #[inline]
    fn nearest(&mut self, page: u64, to: u64) -> Option<u64> {
        let reply = sys::nearest_frame(index(&mut self.lent.memory).to_read(), page, to);
        assert_eq!(reply.refusal, 0);
        (reply.found == 1).then_some(reply.frame)
    }
}

impl Header for Port {
    #[inline]
    fn commit(&mut self, max_frame: u64, transaction_count: u64) {
        sys::publish_commit(&mut self.lent.memory.header, max_frame, 1, 2, transaction_count);
    }

    #[inline]
    fn acquire_and_release(&mut self, owner: u64) -> bool {
        let header = &mut self.lent.memory.header;
        let reply = sys::try_acquire_writer(header, self.local_writer, owner, 1);
        self.local_writer = reply.local_owner;
        let got = reply.answer == 1;
        let reply = sys::release_writer(SETTINGS.mode, header, self.local_writer, owner);
        self.local_writer = reply.local_owner;
        got
    }

    #[inline]
    fn bump(&mut self) -> u32 {
        sys::bump_checkpoint_seq(&mut self.lent.memory.header)
    }
}

macro_rules! rust_side {
    ($name:ident, $direct:ty) => {
        pub struct $name($direct);

        impl $name {
            pub fn new() -> Self {
                Self(<$direct>::new(&SETTINGS))
            }
        }

        impl Index for $name {
            #[inline]
            fn record(&mut self, page: u64, frame: u64) {
                self.0.record_frame(page, frame);
            }

            #[inline]
            fn rollback(&mut self, bound: u64) {
                self.0.rollback_frames(bound);
            }

            #[inline]
            fn find(&mut self, page: u64, min: u64, max: u64, watermark: Option<u64>) -> Option<u64> {
                self.0.find_frame(page, min, max, watermark)
            }

            #[inline]
            fn list(&mut self, min: u64, max: u64) -> (u64, u64) {
                let pairs = self.0.iter_latest_frames(min, max);
                (pairs.len() as u64, pairs.iter().map(|(_, frame)| frame).sum())
            }
        }

        impl Header for $name {
            #[inline]
            fn commit(&mut self, max_frame: u64, transaction_count: u64) {
                self.0.publish_commit(max_frame, 1, 2, transaction_count);
            }

            #[inline]
            fn acquire_and_release(&mut self, owner: u64) -> bool {
                let got = self.0.try_acquire_writer(owner);
                self.0.release_writer(owner);
                got
            }

            #[inline]
            fn bump(&mut self) -> u32 {
                self.0.bump_checkpoint_seq()
            }
        }
    };
}

rust_side!(Rust, oracle::Direct);
rust_side!(RustWithFastHasher, oracle_fast::Direct);
