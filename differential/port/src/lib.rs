//! The port as two sides of the comparison: the C functions of its library, and `Process` of the Rust crate over them.
#![forbid(unsafe_code)]

mod list;
mod process;
mod readers;

use calls::script::{Answer, Card};
use calls::sides::{Given, Parts, Port};
use readers::Lent;
use wal_coordination_sys as sys;

pub use process::{probe_lengths, ThroughProcess};

/// The answer that a reply gives, if the interface allows it.
fn answer(refusal: u32, answer: u32, accepted: impl FnOnce(u32) -> Option<Answer>) -> Answer {
    let known = match (refusal, answer) {
        (0, _) => accepted(answer),
        (_, 0) => Some(Answer::Refused(refusal)),
        _ => None,
    };
    known.unwrap_or_else(|| Answer::Odd(format!("refusal {refusal} and answer {answer}")))
}

fn acquired(reply: u32) -> Option<Answer> {
    match reply {
        0 => Some(Answer::Acquired(false)),
        1 => Some(Answer::Acquired(true)),
        _ => None,
    }
}

fn released(reply: u32) -> Option<Answer> {
    (reply == 1).then_some(Answer::Done)
}

fn recorded(reply: u32) -> Option<Answer> {
    match reply {
        0 => Some(Answer::Dropped),
        1 => Some(Answer::Stored),
        _ => None,
    }
}

fn searched(reply: sys::FrameReply) -> Answer {
    let sys::FrameReply { refusal, found, frame } = reply;
    readers::answer(refusal, &[found.into(), frame], || match (found, frame) {
        (0, 0) => Some(Answer::Nothing),
        (1, _) => Some(Answer::Frame(frame)),
        _ => None,
    })
}

/// What a call on the index is given.
fn index(g: Given<'_>) -> sys::Index<'_> {
    let (capacity, max_blocks) = (g.settings.capacity, g.settings.max_blocks);
    let Parts { header, pages, frames, hash, .. } = g.parts();
    sys::Index { capacity, max_blocks, header, pages, frames, hash }
}

/// The C functions.
pub struct Library;

impl Port for Library {
    fn record_frame(&self, g: Given, page: u64, frame: u64, grow: bool) -> Option<Answer> {
        let reply = sys::record_frame(index(g), page, frame, grow.into());
        Some(answer(reply.refusal, reply.answer, recorded))
    }

    fn rollback_frames(&self, g: Given, bound: u64) -> Option<Answer> {
        let reply = sys::rollback_frames(index(g), bound);
        Some(answer(reply.refusal, reply.answer, |kept| Some(Answer::Kept(kept))))
    }

    fn find_frame(&self, g: Given, page: u64, min: u64, max: u64, watermark: Option<u64>) -> Option<Answer> {
        let reply = sys::find_frame(index(g).to_read(), page, min, max, watermark);
        let sys::FindReply { refusal, found, cells, frame } = reply;
        Some(readers::answer(refusal, &[found.into(), cells.into(), frame], || match (found, frame) {
            (0, 0) => Some(Answer::Looked { frame: None, cells }),
            (1, _) => Some(Answer::Looked { frame: Some(frame), cells }),
            _ => None,
        }))
    }

    fn frame_between(&self, g: Given, page: u64, min: u64, max: u64) -> Option<Answer> {
        Some(searched(sys::frame_between(index(g).to_read(), page, min, max)))
    }

    fn nearest_frame(&self, g: Given, page: u64, to: u64) -> Option<Answer> {
        Some(searched(sys::nearest_frame(index(g).to_read(), page, to)))
    }

    fn owner_new(&self, pid: u32, instance_id: u32) -> Option<Answer> {
        Some(Answer::Owner(sys::owner_new(pid, instance_id)))
    }

    fn owner_parts(&self, owner: u64) -> Option<Answer> {
        Some(Answer::Parts { pid: sys::owner_pid(owner), instance_id: sys::owner_instance_id(owner) })
    }

    fn iter_latest_frames(&self, g: Given, min: u64, max: u64, room: u64) -> Option<Answer> {
        Some(list::iter_latest_frames(g, min, max, room))
    }

    fn publish_commit(
        &self,
        g: Given,
        max_frame: u64,
        checksum_1: u32,
        checksum_2: u32,
        transaction_count: u64,
    ) -> Option<Answer> {
        sys::publish_commit(&mut g.memory.header, max_frame, checksum_1, checksum_2, transaction_count);
        Some(Answer::Done)
    }

    fn publish_backfill(&self, g: Given, nbackfills: u64) -> Option<Answer> {
        sys::publish_backfill(&mut g.memory.header, nbackfills);
        Some(Answer::Done)
    }

    fn bump_checkpoint_seq(&self, g: Given) -> Option<Answer> {
        Some(Answer::Seq(sys::bump_checkpoint_seq(&mut g.memory.header)))
    }

    fn bump_checkpoint_epoch(&self, g: Given) -> Option<Answer> {
        Some(Answer::Epoch(sys::bump_checkpoint_epoch(&mut g.memory.header)))
    }

    fn try_acquire_writer(&self, g: Given, owner: u64, byte: u8) -> Option<Answer> {
        let cell = &mut g.memory.processes[g.process].local_writer;
        let reply = sys::try_acquire_writer(&mut g.memory.header, *cell, owner, byte);
        *cell = reply.local_owner;
        Some(answer(reply.refusal, reply.answer, acquired))
    }

    fn try_acquire_checkpoint(&self, g: Given, owner: u64, byte: u8) -> Option<Answer> {
        let cell = &mut g.memory.processes[g.process].local_checkpoint;
        let reply = sys::try_acquire_checkpoint(&mut g.memory.header, *cell, owner, byte);
        *cell = reply.local_owner;
        Some(answer(reply.refusal, reply.answer, acquired))
    }

    fn release_writer(&self, g: Given, owner: u64) -> Option<Answer> {
        let cell = &mut g.memory.processes[g.process].local_writer;
        let reply = sys::release_writer(g.settings.mode, &mut g.memory.header, *cell, owner);
        *cell = reply.local_owner;
        Some(answer(reply.refusal, reply.answer, released))
    }

    fn release_checkpoint(&self, g: Given, owner: u64) -> Option<Answer> {
        let cell = &mut g.memory.processes[g.process].local_checkpoint;
        let reply = sys::release_checkpoint(g.settings.mode, &mut g.memory.header, *cell, owner);
        *cell = reply.local_owner;
        Some(answer(reply.refusal, reply.answer, released))
    }

    fn register_reader(&self, g: Given, owner: u64, mark: u64, card: &Card) -> Option<Answer> {
        Some(Lent::new(g).register(owner, mark, card))
    }

    fn register_reader_for_snapshot(&self, g: Given, owner: u64, mark: u64, card: &Card) -> Option<Answer> {
        Some(Lent::new(g).register_shared(owner, mark, card))
    }

    fn register_db_file_reader(&self, g: Given, owner: u64, card: &Card) -> Option<Answer> {
        Some(Lent::new(g).register_db_file(owner, card))
    }

    fn update_reader(&self, g: Given, slot: u32, owner: u64, mark: u64) -> Option<Answer> {
        Some(Lent::new(g).update(slot, owner, mark))
    }

    fn unregister_reader(&self, g: Given, slot: u32, owner: u64) -> Option<Answer> {
        Some(Lent::new(g).unregister(slot, owner))
    }

    fn unregister_reader_for_snapshot(&self, g: Given, mark: u64, slot: u32, owner: u64) -> Option<Answer> {
        Some(Lent::new(g).unregister_shared(mark, slot, owner))
    }

    fn min_active_reader_frame(&self, g: Given, card: &Card) -> Option<Answer> {
        Some(Lent::new(g).floor(card))
    }

    fn has_active_db_file_reader(&self, g: Given, card: &Card) -> Option<Answer> {
        Some(Lent::new(g).has_db_file_reader(card))
    }

    fn copy_back_limit(&self, g: Given, card: &Card) -> Option<Answer> {
        Some(Lent::new(g).limit(card))
    }
}
