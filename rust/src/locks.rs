//! The byte locks, which the user of this crate brings.

/// A byte that processes lock. A host has a place for each: one that a later version adds is to fail to compile there.
#[derive(Clone, Copy, Debug, PartialEq, Eq, Hash)]
pub enum LockByte {
    /// The writer's.
    Writer,
    /// The checkpointer's.
    Checkpoint,
    /// A reader slot's.
    Reader(usize),
}

/// What a byte lock answers: one of these three.
#[derive(Clone, Copy, Debug, PartialEq, Eq, Hash)]
#[repr(u8)]
pub enum LockAnswer {
    /// Another process holds it.
    Busy = 0,
    /// It is ours until it is unlocked.
    Granted = 1,
    /// It could not be asked.
    Error = 2,
}

/// Exclusive locks over bytes of a file, without waiting.
///
/// A [`Process`](crate::Process) never asks for a byte that it holds, which an open file description or a process
/// would be granted again, and unlocks every byte that was granted and that it does not keep. When a process dies its
/// locks must become free by themselves: that is how the slots of dead readers are known.
pub trait ByteLocks {
    /// Takes the lock if it is free.
    fn try_lock(&mut self, byte: LockByte) -> LockAnswer;

    /// Gives it back.
    fn unlock(&mut self, byte: LockByte);
}

/// Lent locks: they are the host's again when the process is gone.
impl<L: ByteLocks + ?Sized> ByteLocks for &mut L {
    fn try_lock(&mut self, byte: LockByte) -> LockAnswer {
        (**self).try_lock(byte)
    }

    fn unlock(&mut self, byte: LockByte) {
        (**self).unlock(byte);
    }
}

/// Locks for memory that only one process uses: each is granted.
#[derive(Clone, Copy, Debug, Default)]
pub struct OneProcess;

impl ByteLocks for OneProcess {
    fn try_lock(&mut self, _: LockByte) -> LockAnswer {
        LockAnswer::Granted
    }

    fn unlock(&mut self, _: LockByte) {}
}
