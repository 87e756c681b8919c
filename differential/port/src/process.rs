//! The calls through the Rust crate's `Process`, with locks that answer from the card of a call.

use crate::list::MOST_PAIRS;
use calls::memory::{Own, Settings, LINUX_OFD, PROCESS_SCOPED_FCNTL};
use calls::script::{Answer, Call, Part};
use calls::sides::{Given, Parts, Port};
use wal_coordination::{
    ByteLocks, LockAnswer, LockByte, Lookup, Memory, OneProcess, OwnCells, ProbeLengths, Process, Recorded, Refusal,
    SharedOwnerRecord, SharedReaderSlot, SharedWalOwnershipMode, Slot,
};

/// Each call by a `Process` that is given the own cells as they stand. `None`: its types do not allow the call.
pub struct ThroughProcess;

impl Port for ThroughProcess {
    fn call(&self, g: Given, call: &Call) -> Option<Answer> {
        let settings = settings(&g.settings)?;
        let n = settings.reader_slots;
        let mut locks = CardLocks::new(call, n, &g.memory.processes[g.process])?;
        let mut process = match (Process::new(settings, &mut locks), is_good(&g.settings)) {
            (Ok(process), true) => process,
            (Err(Refusal::Settings), false) => return None,
            (made, good) => {
                let made = made.map(drop);
                return Some(Answer::Odd(format!("Process::new: {made:?}, where settings are good: {good}")));
            }
        };
        // It has n own cells and n records, whatever is lent.
        let own = &g.memory.processes[g.process];
        let lent =
            g.lent.of(Part::LocalOwners, own.local_owners.len()).min(g.lent.of(Part::Registry, own.registry.len()));
        if call.is_on_readers() && lent < n {
            return None;
        }
        let owned = n.min(own.local_owners.len());
        put_in(process.own_cells(), own, owned);
        let Given { memory, process: number, .. } = g;
        let answer = made(&mut process, Given { memory: &mut *memory, ..g }, call);
        take_out(process.own_cells(), &mut memory.processes[number], owned);
        drop(process);
        Some(match locks.fault(&memory.processes[number]) {
            Some(words) => Answer::Odd(format!("{answer}, but {words}")),
            None => answer,
        })
    }
}

/// How many hash cells lookups look at, on the index as it stands.
pub fn probe_lengths(g: Given) -> Result<ProbeLengths, Refusal> {
    let settings = settings(&g.settings).ok_or(Refusal::Settings)?;
    Process::new(settings, OneProcess)?.probe_lengths(&memory(g))
}

/// The settings, if they have a mode.
fn settings(given: &Settings) -> Option<wal_coordination::Settings> {
    let mode = match given.mode {
        LINUX_OFD => SharedWalOwnershipMode::LinuxOfd,
        PROCESS_SCOPED_FCNTL => SharedWalOwnershipMode::ProcessScopedFcntl,
        _ => return None,
    };
    Some(wal_coordination::Settings::new(given.capacity, given.max_blocks, given.slots as usize, mode))
}

fn is_good(given: &Settings) -> bool {
    given.good_capacity() && given.good_max_blocks() && given.good_slots()
}

fn put_in(cells: &mut OwnCells, own: &Own, slots: usize) {
    let OwnCells { local_readers, local_writer, local_checkpoint, registry } = cells;
    local_readers[..slots].copy_from_slice(&own.local_owners[..slots]);
    registry[..slots].copy_from_slice(&own.registry[..slots]);
    (*local_writer, *local_checkpoint) = (own.local_writer, own.local_checkpoint);
}

fn take_out(cells: &OwnCells, own: &mut Own, slots: usize) {
    let OwnCells { local_readers, local_writer, local_checkpoint, registry } = cells;
    own.local_owners[..slots].copy_from_slice(&local_readers[..slots]);
    own.registry[..slots].copy_from_slice(&registry[..slots]);
    (own.local_writer, own.local_checkpoint) = (*local_writer, *local_checkpoint);
}

/// The shared memory, lent as the script has it.
fn memory(g: Given) -> Memory {
    let Parts { header, pages, frames, hash, bitmap, slot_frames, slot_owners, .. } = g.parts();
    Memory { header, pages, frames, hash, bitmap, reader_frames: slot_frames, reader_owners: slot_owners }
}

/// Makes the call.
fn made(p: &mut Process<&mut CardLocks>, g: Given, call: &Call) -> Answer {
    let m = &mut memory(g);
    let owned = SharedOwnerRecord::from_raw;
    let reader = |slot: u32, owner, mark| SharedReaderSlot::new(Slot::new(slot as usize), owned(owner), mark);
    match *call {
        Call::RecordFrame { page, frame, grow } => {
            told(p.record_frame(m, page, frame, grow), |recorded| match recorded {
                Recorded::Stored => Answer::Stored,
                Recorded::Dropped => Answer::Dropped,
            })
        }
        Call::RollbackFrames { bound } => told(p.rollback_frames(m, bound), Answer::Kept),
        Call::FindFrame { page, min, max, watermark, .. } => lookup(p, m, page, (min, max), watermark),
        Call::FrameBetween { page, min, max } => told(p.frame_between(m, page, min, max), frame),
        Call::NearestFrame { page, to } => told(p.nearest_frame(m, page, to), frame),
        Call::IterLatestFrames { min, max, room } => list(p, m, (min, max), room),
        Call::RegisterReader { owner, mark, .. } => told(p.register_reader(m, owned(owner), mark), slot),
        Call::RegisterReaderForSnapshot { owner, mark, .. } => {
            told(p.register_reader_for_snapshot(m, owned(owner), mark), slot)
        }
        Call::RegisterDbFileReader { owner, .. } => told(p.register_db_file_reader(m, owned(owner)), slot),
        // The mark that the caller had is not looked at.
        Call::UpdateReader { slot: at, owner, mark } => {
            told(p.update_reader(m, reader(at, owner, 0), mark), |reader| slot(Some(reader)))
        }
        Call::UnregisterReader { slot, owner } => told(p.unregister_reader(m, reader(slot, owner, 0)), done),
        Call::UnregisterReaderForSnapshot { mark, slot, owner } => {
            told(p.unregister_reader_for_snapshot(m, reader(slot, owner, mark)), done)
        }
        Call::MinActiveReaderFrame { .. } => told(p.min_active_reader_frame(m), frame),
        Call::HasActiveDbFileReader { .. } => told(p.has_active_db_file_reader(m), Answer::Active),
        Call::CopyBackLimit { .. } => told(p.copy_back_limit(m), Answer::Limit),
        Call::TryAcquireWriter { owner, .. } => told(p.try_acquire_writer(m, owned(owner)), Answer::Acquired),
        Call::TryAcquireCheckpoint { owner, .. } => told(p.try_acquire_checkpoint(m, owned(owner)), Answer::Acquired),
        Call::ReleaseWriter { owner } => told(p.release_writer(m, owned(owner)), done),
        Call::ReleaseCheckpoint { owner } => told(p.release_checkpoint(m, owned(owner)), done),
        Call::PublishCommit { max_frame, checksum_1, checksum_2, transaction_count } => {
            p.publish_commit(m, max_frame, (checksum_1, checksum_2), transaction_count);
            Answer::Done
        }
        Call::PublishBackfill { nbackfills } => {
            p.publish_backfill(m, nbackfills);
            Answer::Done
        }
        Call::BumpCheckpointSeq => Answer::Seq(p.bump_checkpoint_seq(m)),
        Call::BumpCheckpointEpoch => Answer::Epoch(p.bump_checkpoint_epoch(m)),
        Call::OwnerNew { pid, instance_id } => Answer::Owner(SharedOwnerRecord::new(pid, instance_id).raw()),
        Call::OwnerParts { owner } => {
            Answer::Parts { pid: owned(owner).pid(), instance_id: owned(owner).instance_id() }
        }
    }
}

fn told<T>(answer: Result<T, Refusal>, accepted: impl FnOnce(T) -> Answer) -> Answer {
    answer.map_or_else(|refusal| Answer::Refused(refusal.number()), accepted)
}

fn done((): ()) -> Answer {
    Answer::Done
}

fn frame(found: Option<u64>) -> Answer {
    found.map_or(Answer::Nothing, Answer::Frame)
}

fn slot(reader: Option<SharedReaderSlot>) -> Answer {
    reader.map_or(Answer::Nothing, |reader| Answer::Slot {
        slot: reader.slot.number() as u32,
        owner: reader.owner.raw(),
        mark: reader.max_frame,
    })
}

/// With the cells looked at, and without: the two agree on the frame.
fn lookup(
    p: &Process<&mut CardLocks>,
    m: &Memory,
    page: u64,
    (min, max): (u64, u64),
    watermark: Option<u64>,
) -> Answer {
    let counted = p.find_frame_counted(m, page, min, max, watermark);
    let alone = p.find_frame(m, page, min, max, watermark);
    if counted.map(|lookup| lookup.frame) != alone {
        return Answer::Odd(format!("{counted:?} with the cells looked at, {alone:?} without"));
    }
    told(counted, |Lookup { frame, cells, .. }| Answer::Looked { frame, cells })
}

/// Into cells, and as a vector: the two agree, but that the cells can be too few.
fn list(p: &Process<&mut CardLocks>, m: &Memory, (min, max): (u64, u64), room: u64) -> Answer {
    let room = room.min(MOST_PAIRS) as usize;
    let (mut pages, mut frames) = (vec![0; room], vec![0; room]);
    let into = p.iter_latest_frames_into(m, min, max, &mut pages, &mut frames);
    let into = into.map(|count| pages.into_iter().zip(frames).take(count).collect::<Vec<_>>());
    let whole = p.iter_latest_frames(m, min, max);
    match (&into, &whole) {
        (Err(Refusal::ShortList), Ok(pairs)) if pairs.len() > room => {}
        _ if into == whole => {}
        _ => return Answer::Odd(format!("{into:?} into {room} cells, {whole:?} as a vector")),
    }
    told(into, Answer::List)
}

/// The byte locks of one call: each answers from the card. A lock is held where the process's own cell is not 0, before
/// the call and after it.
struct CardLocks {
    card: Vec<u8>,
    byte: u8,
    /// By `place`.
    held: Vec<bool>,
    /// What a host's locks would not stand.
    faults: Vec<String>,
}

/// The writer's, the checkpointer's, and those of the slots.
fn place(byte: LockByte) -> usize {
    match byte {
        LockByte::Writer => 0,
        LockByte::Checkpoint => 1,
        LockByte::Reader(slot) => 2 + slot,
    }
}

/// Which locks are held, by the own cells.
fn held(own: &Own) -> Vec<bool> {
    [own.local_writer, own.local_checkpoint].iter().chain(&own.local_owners).map(|&owner| owner != 0).collect()
}

impl CardLocks {
    /// `None` if the call has a card that locks cannot give.
    fn new(call: &Call, n: usize, own: &Own) -> Option<Self> {
        let (card, byte) = match call {
            Call::RegisterReader { card, .. }
            | Call::RegisterReaderForSnapshot { card, .. }
            | Call::RegisterDbFileReader { card, .. }
            | Call::MinActiveReaderFrame { card }
            | Call::HasActiveDbFileReader { card }
            | Call::CopyBackLimit { card } => (Some(card.clone()).filter(|card| card.len() == n)?, 0),
            Call::TryAcquireWriter { byte, .. } | Call::TryAcquireCheckpoint { byte, .. } => (vec![], *byte),
            _ => (vec![], 0),
        };
        let answers = card.iter().chain([&byte]).all(|&answer| answer <= LockAnswer::Error as u8);
        answers.then(|| Self { card, byte, held: held(own), faults: Vec::new() })
    }

    /// What is wrong with the locks after the call, if anything is.
    fn fault(&self, own: &Own) -> Option<String> {
        let kept = self.held != held(own);
        let kept = kept.then(|| format!("the locks held are {:?}, by the own cells {:?}", self.held, held(own)));
        self.faults.first().cloned().or(kept)
    }
}

impl ByteLocks for CardLocks {
    fn try_lock(&mut self, byte: LockByte) -> LockAnswer {
        let answer = match byte {
            LockByte::Reader(slot) => self.card.get(slot).copied(),
            _ => Some(self.byte),
        };
        let Some(held) = self.held.get_mut(place(byte)) else {
            self.faults.push(format!("{byte:?} is asked, which is no lock"));
            return LockAnswer::Error;
        };
        if *held || answer.is_none() {
            self.faults.push(format!("{byte:?} is asked, which is held, or no lock of the call"));
        }
        match answer {
            Some(0) => LockAnswer::Busy,
            Some(1) => {
                *held = true;
                LockAnswer::Granted
            }
            _ => LockAnswer::Error,
        }
    }

    fn unlock(&mut self, byte: LockByte) {
        match self.held.get_mut(place(byte)) {
            Some(held) if *held => *held = false,
            _ => self.faults.push(format!("{byte:?} is unlocked, which is not held")),
        }
    }
}
