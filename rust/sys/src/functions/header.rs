//! Owners and the header: publishes, counters and the two locks.

use crate::Header;

/// A lock call's answer.
#[derive(Clone, Copy, Debug, PartialEq, Eq)]
#[repr(C)]
pub struct LockReply {
    /// 0, or the refusal's number.
    pub refusal: u32,
    /// 1 if the lock was taken or released.
    pub answer: u32,
    /// This process's own cell for the lock, as the call leaves it.
    pub local_owner: u64,
}

layout! { LockReply has 16 bytes aligned to 8: refusal at 0, answer at 4, local_owner at 8 }

extern "C" {
    fn wal_owner_new(pid: u32, instance_id: u32) -> u64;
    fn wal_owner_pid(owner: u64) -> u32;
    fn wal_owner_instance_id(owner: u64) -> u32;
    fn wal_publish_commit(
        header: *mut Header,
        max_frame: u64,
        checksum_1: u32,
        checksum_2: u32,
        transaction_count: u64,
    );
    fn wal_publish_backfill(header: *mut Header, nbackfills: u64);
    fn wal_bump_checkpoint_seq(header: *mut Header) -> u32;
    fn wal_bump_checkpoint_epoch(header: *mut Header) -> u32;
    fn wal_try_acquire_writer(header: *mut Header, local_owner: u64, owner: u64, card: u8) -> LockReply;
    fn wal_try_acquire_checkpoint(header: *mut Header, local_owner: u64, owner: u64, card: u8) -> LockReply;
    fn wal_release_writer(mode: u32, header: *mut Header, local_owner: u64, owner: u64) -> LockReply;
    fn wal_release_checkpoint(mode: u32, header: *mut Header, local_owner: u64, owner: u64) -> LockReply;
}

/// `wal_owner_new`.
#[inline]
pub fn owner_new(pid: u32, instance_id: u32) -> u64 {
    wal!(wal_owner_new, [pid, instance_id], [], [], [])
}

/// `wal_owner_pid`.
#[inline]
pub fn owner_pid(owner: u64) -> u32 {
    wal!(wal_owner_pid, [owner], [], [], [])
}

/// `wal_owner_instance_id`.
#[inline]
pub fn owner_instance_id(owner: u64) -> u32 {
    wal!(wal_owner_instance_id, [owner], [], [], [])
}

/// `wal_publish_commit`.
#[inline]
pub fn publish_commit(header: &mut Header, max_frame: u64, checksum_1: u32, checksum_2: u32, transaction_count: u64) {
    wal!(wal_publish_commit, [header, max_frame, checksum_1, checksum_2, transaction_count], [], [], [])
}

/// `wal_publish_backfill`.
#[inline]
pub fn publish_backfill(header: &mut Header, nbackfills: u64) {
    wal!(wal_publish_backfill, [header, nbackfills], [], [], [])
}

/// `wal_bump_checkpoint_seq`.
#[inline]
pub fn bump_checkpoint_seq(header: &mut Header) -> u32 {
    wal!(wal_bump_checkpoint_seq, [header], [], [], [])
}

/// `wal_bump_checkpoint_epoch`.
#[inline]
pub fn bump_checkpoint_epoch(header: &mut Header) -> u32 {
    wal!(wal_bump_checkpoint_epoch, [header], [], [], [])
}

/// `wal_try_acquire_writer`.
#[inline]
pub fn try_acquire_writer(header: &mut Header, local_owner: u64, owner: u64, card: u8) -> LockReply {
    wal!(wal_try_acquire_writer, [header, local_owner, owner, card], [], [], [])
}

/// `wal_try_acquire_checkpoint`.
#[inline]
pub fn try_acquire_checkpoint(header: &mut Header, local_owner: u64, owner: u64, card: u8) -> LockReply {
    wal!(wal_try_acquire_checkpoint, [header, local_owner, owner, card], [], [], [])
}

/// `wal_release_writer`.
#[inline]
pub fn release_writer(mode: u32, header: &mut Header, local_owner: u64, owner: u64) -> LockReply {
    wal!(wal_release_writer, [mode, header, local_owner, owner], [], [], [])
}

/// `wal_release_checkpoint`.
#[inline]
pub fn release_checkpoint(mode: u32, header: &mut Header, local_owner: u64, owner: u64) -> LockReply {
    wal!(wal_release_checkpoint, [mode, header, local_owner, owner], [], [], [])
}
