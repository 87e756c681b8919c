//! Reader slots, shared marks, the floor and the copy-back limit.

use crate::{Header, SharedReadMark};

/// What a call on reader slots is given: its settings, and the slots.
#[derive(Debug)]
pub struct Slots<'a> {
    /// The number of slots.
    pub n: usize,
    /// The lock mode.
    pub mode: u32,
    /// A bit for each slot, 1 where it is free.
    pub bitmap: &'a mut [u64],
    /// The mark in each slot.
    pub reader_frames: &'a mut [u64],
    /// The owner in each slot.
    pub reader_owners: &'a mut [u64],
}

/// The answer of a registration or a move.
#[derive(Clone, Copy, Debug, PartialEq, Eq)]
#[repr(C)]
pub struct ReaderReply {
    /// 0, or the refusal's number.
    pub refusal: u32,
    /// 1 if the reader has a slot; else the numbers after it are 0.
    pub taken: u32,
    /// Its slot.
    pub slot: u64,
    /// Its owner.
    pub owner: u64,
    /// Its mark.
    pub mark: u64,
}

/// The floor.
#[derive(Clone, Copy, Debug, PartialEq, Eq)]
#[repr(C)]
pub struct FloorReply {
    /// 0, or the refusal's number.
    pub refusal: u32,
    /// 1 if there is one.
    pub found: u32,
    /// The floor, else 0.
    pub mark: u64,
}

/// Whether a live reader reads only the database file.
#[derive(Clone, Copy, Debug, PartialEq, Eq)]
#[repr(C)]
pub struct DbFileReply {
    /// 0, or the refusal's number.
    pub refusal: u32,
    /// 1 if one does.
    pub active: u32,
}

/// The copy-back limit.
#[derive(Clone, Copy, Debug, PartialEq, Eq)]
#[repr(C)]
pub struct LimitReply {
    /// 0, or the refusal's number.
    pub refusal: u32,
    /// The limit.
    pub limit: u64,
}

layout! { ReaderReply has 32 bytes aligned to 8: refusal at 0, taken at 4, slot at 8, owner at 16, mark at 24 }
layout! { FloorReply has 16 bytes aligned to 8: refusal at 0, found at 4, mark at 8 }
layout! { DbFileReply has 8 bytes aligned to 4: refusal at 0, active at 4 }
layout! { LimitReply has 16 bytes aligned to 8: refusal at 0, limit at 8 }

extern "C" {
    fn wal_register_reader(
        n: usize,
        mode: u32,
        bitmap: *mut u64,
        bitmap_len: usize,
        reader_frames: *mut u64,
        reader_frames_len: usize,
        reader_owners: *mut u64,
        reader_owners_len: usize,
        local_readers: *mut u64,
        local_readers_len: usize,
        card: *const u8,
        card_len: usize,
        owner: u64,
        mark: u64,
    ) -> ReaderReply;
    fn wal_update_reader(
        n: usize,
        reader_frames: *mut u64,
        reader_frames_len: usize,
        reader_owners: *const u64,
        reader_owners_len: usize,
        registry: *const SharedReadMark,
        registry_len: usize,
        slot: usize,
        owner: u64,
        mark: u64,
    ) -> ReaderReply;
    fn wal_unregister_reader(
        n: usize,
        mode: u32,
        bitmap: *mut u64,
        bitmap_len: usize,
        reader_frames: *mut u64,
        reader_frames_len: usize,
        reader_owners: *mut u64,
        reader_owners_len: usize,
        local_readers: *mut u64,
        local_readers_len: usize,
        registry: *const SharedReadMark,
        registry_len: usize,
        slot: usize,
        owner: u64,
    ) -> u32;
    fn wal_register_reader_for_snapshot(
        n: usize,
        mode: u32,
        bitmap: *mut u64,
        bitmap_len: usize,
        reader_frames: *mut u64,
        reader_frames_len: usize,
        reader_owners: *mut u64,
        reader_owners_len: usize,
        local_readers: *mut u64,
        local_readers_len: usize,
        registry: *mut SharedReadMark,
        registry_len: usize,
        card: *const u8,
        card_len: usize,
        owner: u64,
        mark: u64,
    ) -> ReaderReply;
    fn wal_register_db_file_reader(
        n: usize,
        mode: u32,
        bitmap: *mut u64,
        bitmap_len: usize,
        reader_frames: *mut u64,
        reader_frames_len: usize,
        reader_owners: *mut u64,
        reader_owners_len: usize,
        local_readers: *mut u64,
        local_readers_len: usize,
        registry: *mut SharedReadMark,
        registry_len: usize,
        card: *const u8,
        card_len: usize,
        owner: u64,
    ) -> ReaderReply;
    fn wal_unregister_reader_for_snapshot(
        n: usize,
        mode: u32,
        bitmap: *mut u64,
        bitmap_len: usize,
        reader_frames: *mut u64,
        reader_frames_len: usize,
        reader_owners: *mut u64,
        reader_owners_len: usize,
        local_readers: *mut u64,
        local_readers_len: usize,
        registry: *mut SharedReadMark,
        registry_len: usize,
        mark: u64,
        slot: usize,
        owner: u64,
    ) -> u32;
    fn wal_min_active_reader_frame(
        n: usize,
        mode: u32,
        bitmap: *mut u64,
        bitmap_len: usize,
        reader_frames: *mut u64,
        reader_frames_len: usize,
        reader_owners: *mut u64,
        reader_owners_len: usize,
        local_readers: *const u64,
        local_readers_len: usize,
        card: *const u8,
        card_len: usize,
    ) -> FloorReply;
    fn wal_has_active_db_file_reader(
        n: usize,
        mode: u32,
        bitmap: *mut u64,
        bitmap_len: usize,
        reader_frames: *mut u64,
        reader_frames_len: usize,
        reader_owners: *mut u64,
        reader_owners_len: usize,
        local_readers: *const u64,
        local_readers_len: usize,
        card: *const u8,
        card_len: usize,
    ) -> DbFileReply;
    fn wal_copy_back_limit(
        n: usize,
        mode: u32,
        max_frame: u64,
        nbackfills: u64,
        bitmap: *mut u64,
        bitmap_len: usize,
        reader_frames: *mut u64,
        reader_frames_len: usize,
        reader_owners: *mut u64,
        reader_owners_len: usize,
        local_readers: *const u64,
        local_readers_len: usize,
        card: *const u8,
        card_len: usize,
    ) -> LimitReply;
}

/// `wal_register_reader`.
#[inline]
pub fn register_reader(slots: Slots<'_>, local_readers: &mut [u64], card: &[u8], owner: u64, mark: u64) -> ReaderReply {
    let Slots { n, mode, bitmap, reader_frames: frames, reader_owners: owners } = slots;
    wal!(wal_register_reader, [n, mode], [bitmap, frames, owners, local_readers], [card], [owner, mark])
}

/// `wal_update_reader`, which is lent no bitmap and takes no mode.
#[inline]
pub fn update_reader(slots: Slots<'_>, registry: &[SharedReadMark], slot: usize, owner: u64, mark: u64) -> ReaderReply {
    let Slots { n, reader_frames: frames, reader_owners: owners, .. } = slots;
    wal!(wal_update_reader, [n], [frames, owners], [registry], [slot, owner, mark])
}

/// `wal_unregister_reader`.
#[inline]
pub fn unregister_reader(
    slots: Slots<'_>,
    local_readers: &mut [u64],
    registry: &[SharedReadMark],
    slot: usize,
    owner: u64,
) -> u32 {
    let Slots { n, mode, bitmap, reader_frames: frames, reader_owners: owners } = slots;
    wal!(wal_unregister_reader, [n, mode], [bitmap, frames, owners, local_readers], [registry], [slot, owner])
}

/// `wal_register_reader_for_snapshot`.
#[inline]
pub fn register_reader_for_snapshot(
    slots: Slots<'_>,
    local_readers: &mut [u64],
    registry: &mut [SharedReadMark],
    card: &[u8],
    owner: u64,
    mark: u64,
) -> ReaderReply {
    let Slots { n, mode, bitmap, reader_frames: frames, reader_owners: owners } = slots;
    wal!(
        wal_register_reader_for_snapshot,
        [n, mode],
        [bitmap, frames, owners, local_readers, registry],
        [card],
        [owner, mark]
    )
}

/// `wal_register_db_file_reader`.
#[inline]
pub fn register_db_file_reader(
    slots: Slots<'_>,
    local_readers: &mut [u64],
    registry: &mut [SharedReadMark],
    card: &[u8],
    owner: u64,
) -> ReaderReply {
    let Slots { n, mode, bitmap, reader_frames: frames, reader_owners: owners } = slots;
    wal!(wal_register_db_file_reader, [n, mode], [bitmap, frames, owners, local_readers, registry], [card], [owner])
}

/// `wal_unregister_reader_for_snapshot`.
#[inline]
pub fn unregister_reader_for_snapshot(
    slots: Slots<'_>,
    local_readers: &mut [u64],
    registry: &mut [SharedReadMark],
    mark: u64,
    slot: usize,
    owner: u64,
) -> u32 {
    let Slots { n, mode, bitmap, reader_frames: frames, reader_owners: owners } = slots;
    wal!(
        wal_unregister_reader_for_snapshot,
        [n, mode],
        [bitmap, frames, owners, local_readers, registry],
        [],
        [mark, slot, owner]
    )
}

/// `wal_min_active_reader_frame`.
#[inline]
pub fn min_active_reader_frame(slots: Slots<'_>, local_readers: &[u64], card: &[u8]) -> FloorReply {
    let Slots { n, mode, bitmap, reader_frames: frames, reader_owners: owners } = slots;
    wal!(wal_min_active_reader_frame, [n, mode], [bitmap, frames, owners], [local_readers, card], [])
}

/// `wal_has_active_db_file_reader`.
#[inline]
pub fn has_active_db_file_reader(slots: Slots<'_>, local_readers: &[u64], card: &[u8]) -> DbFileReply {
    let Slots { n, mode, bitmap, reader_frames: frames, reader_owners: owners } = slots;
    wal!(wal_has_active_db_file_reader, [n, mode], [bitmap, frames, owners], [local_readers, card], [])
}

/// `wal_copy_back_limit`. Of the header it is given `max_frame` and `nbackfills`.
#[inline]
pub fn copy_back_limit(slots: Slots<'_>, header: &Header, local_readers: &[u64], card: &[u8]) -> LimitReply {
    let Slots { n, mode, bitmap, reader_frames: frames, reader_owners: owners } = slots;
    let Header { max_frame, nbackfills, .. } = *header;
    wal!(wal_copy_back_limit, [n, mode, max_frame, nbackfills], [bitmap, frames, owners], [local_readers, card], [])
}
