//! The frame index.

use crate::Header;

/// What a call that changes the index is given: its settings, the header, and the index.
#[derive(Debug)]
pub struct Index<'a> {
    /// Entries that it may have.
    pub capacity: u32,
    /// Blocks that it may have.
    pub max_blocks: u32,
    /// The header.
    pub header: &'a mut Header,
    /// The page of each entry.
    pub pages: &'a mut [u64],
    /// The frame of each entry.
    pub frames: &'a mut [u64],
    /// The hash of each block.
    pub hash: &'a mut [u16],
}

impl Index<'_> {
    /// The same, for a call that only reads it.
    #[inline]
    pub fn to_read(&self) -> IndexToRead<'_> {
        let Index { capacity, max_blocks, header, pages, frames, hash } = self;
        IndexToRead { capacity: *capacity, max_blocks: *max_blocks, header, pages, frames, hash }
    }
}

/// What a call that only reads the index is given.
#[derive(Clone, Copy, Debug)]
pub struct IndexToRead<'a> {
    /// Entries that it may have.
    pub capacity: u32,
    /// Blocks that it may have.
    pub max_blocks: u32,
    /// The header, which goes over by value.
    pub header: &'a Header,
    /// The page of each entry.
    pub pages: &'a [u64],
    /// The frame of each entry.
    pub frames: &'a [u64],
    /// The hash of each block.
    pub hash: &'a [u16],
}

/// The answer of a record or a rollback.
#[derive(Clone, Copy, Debug, PartialEq, Eq)]
#[repr(C)]
pub struct IndexReply {
    /// 0, or the refusal's number.
    pub refusal: u32,
    /// Of a record: 1 if it was stored, 0 if it was dropped. Of a rollback: the length kept.
    pub answer: u32,
}

/// The answer of a lookup.
#[derive(Clone, Copy, Debug, PartialEq, Eq)]
#[repr(C)]
pub struct FindReply {
    /// 0, or the refusal's number.
    pub refusal: u32,
    /// 1 if there is a frame.
    pub found: u32,
    /// The frame, else 0.
    pub frame: u64,
    /// How many hash cells were looked at, 0 if it was refused.
    pub cells: u32,
}

/// The answer of a search over the entries.
#[derive(Clone, Copy, Debug, PartialEq, Eq)]
#[repr(C)]
pub struct FrameReply {
    /// 0, or the refusal's number.
    pub refusal: u32,
    /// 1 if there is a frame.
    pub found: u32,
    /// The frame, else 0.
    pub frame: u64,
}

/// The answer of a list.
#[derive(Clone, Copy, Debug, PartialEq, Eq)]
#[repr(C)]
pub struct ListReply {
    /// 0, or the refusal's number.
    pub refusal: u32,
    /// How many pairs were written.
    pub count: u64,
}

layout! { IndexReply has 8 bytes aligned to 4: refusal at 0, answer at 4 }
layout! { FindReply has 24 bytes aligned to 8: refusal at 0, found at 4, frame at 8, cells at 16 }
layout! { FrameReply has 16 bytes aligned to 8: refusal at 0, found at 4, frame at 8 }
layout! { ListReply has 16 bytes aligned to 8: refusal at 0, count at 8 }

extern "C" {
    fn wal_record_frame(
        capacity: u32,
        max_blocks: u32,
        header: *mut Header,
        pages: *mut u64,
        pages_len: usize,
        frames: *mut u64,
        frames_len: usize,
        hash: *mut u16,
        hash_len: usize,
        page_id: u64,
        frame_id: u64,
        grow: u32,
    ) -> IndexReply;
    fn wal_rollback_frames(
        capacity: u32,
        max_blocks: u32,
        header: *mut Header,
        pages: *const u64,
        pages_len: usize,
        frames: *const u64,
        frames_len: usize,
        hash: *mut u16,
        hash_len: usize,
        max_frame: u64,
    ) -> IndexReply;
    fn wal_find_frame(
        capacity: u32,
        max_blocks: u32,
        header: Header,
        pages: *const u64,
        pages_len: usize,
        frames: *const u64,
        frames_len: usize,
        hash: *const u16,
        hash_len: usize,
        page_id: u64,
        min_frame: u64,
        max_frame: u64,
        has_watermark: u32,
        watermark: u64,
    ) -> FindReply;
    fn wal_frame_between(
        capacity: u32,
        max_blocks: u32,
        header: Header,
        pages: *const u64,
        pages_len: usize,
        frames: *const u64,
        frames_len: usize,
        page_id: u64,
        min_frame: u64,
        max_frame: u64,
    ) -> FrameReply;
    fn wal_nearest_frame(
        capacity: u32,
        max_blocks: u32,
        header: Header,
        pages: *const u64,
        pages_len: usize,
        frames: *const u64,
        frames_len: usize,
        page_id: u64,
        to_frame: u64,
    ) -> FrameReply;
    fn wal_iter_latest_frames(
        capacity: u32,
        max_blocks: u32,
        header: Header,
        pages: *const u64,
        pages_len: usize,
        frames: *const u64,
        frames_len: usize,
        hash: *const u16,
        hash_len: usize,
        min_frame: u64,
        max_frame: u64,
        out_pages: *mut u64,
        out_pages_len: usize,
        out_frames: *mut u64,
        out_frames_len: usize,
    ) -> ListReply;
}

/// `wal_record_frame`.
#[inline]
pub fn record_frame(index: Index<'_>, page_id: u64, frame_id: u64, grow: u32) -> IndexReply {
    let Index { capacity, max_blocks, header, pages, frames, hash } = index;
    wal!(wal_record_frame, [capacity, max_blocks, header], [pages, frames, hash], [], [page_id, frame_id, grow])
}

/// `wal_rollback_frames`.
#[inline]
pub fn rollback_frames(index: Index<'_>, max_frame: u64) -> IndexReply {
    let Index { capacity, max_blocks, header, pages, frames, hash } = index;
    wal!(wal_rollback_frames, [capacity, max_blocks, header], [pages, frames, hash], [], [max_frame])
}

/// `wal_find_frame`; with a watermark, `has_watermark` is 1.
#[inline]
pub fn find_frame(
    index: IndexToRead<'_>,
    page_id: u64,
    min_frame: u64,
    max_frame: u64,
    watermark: Option<u64>,
) -> FindReply {
    let IndexToRead { capacity, max_blocks, header, pages, frames, hash } = index;
    let (has_watermark, watermark) = (watermark.is_some().into(), watermark.unwrap_or(0));
    wal!(
        wal_find_frame,
        [capacity, max_blocks, *header],
        [],
        [pages, frames, hash],
        [page_id, min_frame, max_frame, has_watermark, watermark]
    )
}

/// `wal_frame_between`, which is not lent the hash.
#[inline]
pub fn frame_between(index: IndexToRead<'_>, page_id: u64, min_frame: u64, max_frame: u64) -> FrameReply {
    let IndexToRead { capacity, max_blocks, header, pages, frames, hash: _ } = index;
    wal!(wal_frame_between, [capacity, max_blocks, *header], [], [pages, frames], [page_id, min_frame, max_frame])
}

/// `wal_nearest_frame`, which is not lent the hash.
#[inline]
pub fn nearest_frame(index: IndexToRead<'_>, page_id: u64, to_frame: u64) -> FrameReply {
    let IndexToRead { capacity, max_blocks, header, pages, frames, hash: _ } = index;
    wal!(wal_nearest_frame, [capacity, max_blocks, *header], [], [pages, frames], [page_id, to_frame])
}

/// `wal_iter_latest_frames`.
#[inline]
pub fn iter_latest_frames(
    index: IndexToRead<'_>,
    min_frame: u64,
    max_frame: u64,
    out_pages: &mut [u64],
    out_frames: &mut [u64],
) -> ListReply {
    let IndexToRead { capacity, max_blocks, header, pages, frames, hash } = index;
    wal!(
        wal_iter_latest_frames,
        [capacity, max_blocks, *header],
        [],
        [pages, frames, hash],
        [min_frame, max_frame],
        [out_pages, out_frames]
    )
}
