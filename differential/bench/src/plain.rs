//! The plain C beside which the port is measured (plain.c and plain_searches.c).
#![allow(unsafe_code)]

use crate::sides::{Index, Lent, Search, SETTINGS};
use wal_coordination_sys::Header;

#[repr(C)]
struct Found {
    found: u64,
    frame: u64,
}

impl Found {
    #[inline]
    fn frame(self) -> Option<u64> {
        (self.found == 1).then_some(self.frame)
    }
}

// The header's layout is C's: rust/sys asserts it.
#[allow(improper_ctypes)]
extern "C" {
    fn plain_record(header: *mut Header, pages: *mut u64, frames: *mut u64, hash: *mut u16, page: u64, frame: u64);
    fn plain_rollback(header: *mut Header, pages: *const u64, frames: *const u64, hash: *mut u16, max_frame: u64);
    fn plain_find(
        header: *const Header,
        pages: *const u64,
        frames: *const u64,
        hash: *const u16,
        page: u64,
        min_frame: u64,
        max_frame: u64,
        has_watermark: u32,
        watermark: u64,
    ) -> Found;
    fn plain_between(
        header: *const Header,
        pages: *const u64,
        frames: *const u64,
        page: u64,
        min_frame: u64,
        max_frame: u64,
    ) -> Found;
    fn plain_nearest(header: *const Header, pages: *const u64, frames: *const u64, page: u64, to_frame: u64) -> Found;
    fn plain_list(
        header: *const Header,
        pages: *const u64,
        frames: *const u64,
        min_frame: u64,
        max_frame: u64,
        out_pages: *mut u64,
        out_frames: *mut u64,
    ) -> u64;
}

/// The memory is as long as the settings ask, and these functions alone write to it: so its length and its hash cells
/// are in their limits, and its frames rise if the recorded ones do.
pub struct Plain {
    lent: Lent,
}

impl Plain {
    pub fn new() -> Self {
        Self { lent: Lent::new() }
    }

    pub fn lent(&self) -> &Lent {
        &self.lent
    }
}

impl Index for Plain {
    #[inline]
    fn record(&mut self, page: u64, frame: u64) {
        let memory = &mut self.lent.memory;
        let header = &mut memory.header;
        assert!(header.frame_index_len < SETTINGS.capacity || frame == 1 && header.max_frame == 0);
        // SAFETY: There is room for the entry, and so an empty cell in its block.
        unsafe {
            plain_record(
                header,
                memory.pages.as_mut_ptr(),
                memory.frames.as_mut_ptr(),
                memory.hash.as_mut_ptr(),
                page,
                frame,
            );
        }
    }

    #[inline]
    fn rollback(&mut self, bound: u64) {
        let memory = &mut self.lent.memory;
        let (pages, frames) = (memory.pages.as_ptr(), memory.frames.as_ptr());
        // SAFETY: The entries and cells are those of `record`, so each entry is named by a cell.
        unsafe { plain_rollback(&mut memory.header, pages, frames, memory.hash.as_mut_ptr(), bound) }
    }

    #[inline]
    fn find(&mut self, page: u64, min: u64, max: u64, watermark: Option<u64>) -> Option<u64> {
        let memory = &self.lent.memory;
        let (header, has_watermark) = (&memory.header, watermark.is_some().into());
        let (pages, frames, hash) = (memory.pages.as_ptr(), memory.frames.as_ptr(), memory.hash.as_ptr());
        // SAFETY: It only reads, and the cells are those of `record`.
        unsafe { plain_find(header, pages, frames, hash, page, min, max, has_watermark, watermark.unwrap_or(0)) }
            .frame()
    }

    #[inline]
    fn list(&mut self, min: u64, max: u64) -> (u64, u64) {
        let Lent { memory, out_pages, out_frames } = &mut self.lent;
        let (pages, frames) = (memory.pages.as_ptr(), memory.frames.as_ptr());
        // SAFETY: There are as many output cells as the index can have entries, and one thread lists at a time: a side
        // is not shared, and the benchmark has one thread.
        let count = unsafe {
            plain_list(&memory.header, pages, frames, min, max, out_pages.as_mut_ptr(), out_frames.as_mut_ptr())
        };
        (count, out_frames[..count as usize].iter().sum())
    }
}

impl Search for Plain {
    #[inline]
    fn between(&mut self, page: u64, min: u64, max: u64) -> Option<u64> {
        let memory = &self.lent.memory;
        let (pages, frames) = (memory.pages.as_ptr(), memory.frames.as_ptr());
        // SAFETY: It only reads, and the length is that of `record`.
        unsafe { plain_between(&memory.header, pages, frames, page, min, max) }.frame()
    }

    #[inline]
    fn nearest(&mut self, page: u64, to: u64) -> Option<u64> {
        let memory = &self.lent.memory;
        let (pages, frames) = (memory.pages.as_ptr(), memory.frames.as_ptr());
        // SAFETY: It only reads, and the length is that of `record`.
        unsafe { plain_nearest(&memory.header, pages, frames, page, to) }.frame()
    }
}
