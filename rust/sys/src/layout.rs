//! The structs of the memory, laid out as C has them.

/// The header of the shared memory.
#[derive(Clone, Copy, Debug, Default, PartialEq, Eq)]
#[repr(C)]
#[non_exhaustive]
#[allow(missing_docs)]
pub struct Header {
    pub frame_index_blocks: u32,
    pub frame_index_len: u32,
    pub frame_index_overflowed: u32,
    /// The published frame.
    pub max_frame: u64,
    pub nbackfills: u64,
    pub transaction_count: u64,
    pub visibility_generation: u64,
    pub checkpoint_seq: u32,
    pub checkpoint_epoch: u32,
    pub checksum_1: u32,
    pub checksum_2: u32,
    pub writer_owner: u64,
    pub checkpoint_owner: u64,
}

impl Header {
    /// That of fresh memory with so many blocks of the index in use: all other cells are 0.
    pub fn fresh(starting_blocks: u32) -> Self {
        Header { frame_index_blocks: starting_blocks, ..Header::default() }
    }
}

/// One record of a process's registry of shared marks. With 0 holders it is empty.
#[derive(Clone, Copy, Debug, Default, PartialEq, Eq)]
#[repr(C)]
#[non_exhaustive]
#[allow(missing_docs)]
pub struct SharedReadMark {
    pub mark: u64,
    pub slot: u32,
    pub owner: u64,
    pub holders: u32,
}

impl SharedReadMark {
    /// A record with these numbers.
    pub fn new(mark: u64, slot: u32, owner: u64, holders: u32) -> Self {
        SharedReadMark { mark, slot, owner, holders }
    }
}

/// Asserts a struct's size, its alignment, and the place of each of its fields: those of C on x86-64 Linux.
macro_rules! layout {
    ($name:ident has $size:literal bytes aligned to $align:literal: $($field:ident at $at:literal),+) => {
        const _: () = {
            assert!(size_of::<$name>() == $size && align_of::<$name>() == $align);
            $(assert!(core::mem::offset_of!($name, $field) == $at);)+
            // A field that is not named here does not compile.
            let _ = |$name { $($field: _),+ }: $name| ();
        };
    };
}

layout! { Header has 80 bytes aligned to 8:
    frame_index_blocks at 0, frame_index_len at 4, frame_index_overflowed at 8, max_frame at 16, nbackfills at 24,
    transaction_count at 32, visibility_generation at 40, checkpoint_seq at 48, checkpoint_epoch at 52, checksum_1 at 56,
    checksum_2 at 60, writer_owner at 64, checkpoint_owner at 72
}
layout! { SharedReadMark has 32 bytes aligned to 8: mark at 0, slot at 8, owner at 16, holders at 24 }
