//! The calls on reader slots and shared marks.

use calls::memory::Record;
use calls::script::Answer;
use calls::sides::{Given, Parts};
use wal_coordination_sys::{self as sys, DbFileReply, FloorReply, Header, LimitReply, ReaderReply, Slots};

/// What a call on readers is given.
pub(crate) struct Lent<'a> {
    slots: Slots<'a>,
    header: &'a Header,
    locals: &'a mut [u64],
    registry: &'a mut [Record],
}

impl<'a> Lent<'a> {
    pub(crate) fn new(g: Given<'a>) -> Self {
        let (n, mode) = (g.settings.slots as usize, g.settings.mode);
        let Parts { header, bitmap, slot_frames, slot_owners, local_owners: locals, registry, .. } = g.parts();
        let slots = Slots { n, mode, bitmap, reader_frames: slot_frames, reader_owners: slot_owners };
        Self { slots, header, locals, registry }
    }

    pub(crate) fn register(self, owner: u64, mark: u64, card: &[u8]) -> Answer {
        reader(sys::register_reader(self.slots, self.locals, card, owner, mark))
    }

    pub(crate) fn register_shared(self, owner: u64, mark: u64, card: &[u8]) -> Answer {
        reader(sys::register_reader_for_snapshot(self.slots, self.locals, self.registry, card, owner, mark))
    }

    pub(crate) fn register_db_file(self, owner: u64, card: &[u8]) -> Answer {
        reader(sys::register_db_file_reader(self.slots, self.locals, self.registry, card, owner))
    }

    pub(crate) fn update(self, slot: u32, owner: u64, mark: u64) -> Answer {
        reader(sys::update_reader(self.slots, self.registry, slot as usize, owner, mark))
    }

    pub(crate) fn unregister(self, slot: u32, owner: u64) -> Answer {
        released(sys::unregister_reader(self.slots, self.locals, self.registry, slot as usize, owner))
    }

    pub(crate) fn unregister_shared(self, mark: u64, slot: u32, owner: u64) -> Answer {
        let Self { slots, locals, registry, .. } = self;
        released(sys::unregister_reader_for_snapshot(slots, locals, registry, mark, slot as usize, owner))
    }

    pub(crate) fn floor(self, card: &[u8]) -> Answer {
        let FloorReply { refusal, found, mark } = sys::min_active_reader_frame(self.slots, self.locals, card);
        answer(refusal, &[found.into(), mark], || match (found, mark) {
            (0, 0) => Some(Answer::Nothing),
            (1, _) => Some(Answer::Frame(mark)),
            _ => None,
        })
    }

    pub(crate) fn has_db_file_reader(self, card: &[u8]) -> Answer {
        let DbFileReply { refusal, active } = sys::has_active_db_file_reader(self.slots, self.locals, card);
        answer(refusal, &[active.into()], || (active <= 1).then_some(Answer::Active(active == 1)))
    }

    pub(crate) fn limit(self, card: &[u8]) -> Answer {
        let LimitReply { refusal, limit } = sys::copy_back_limit(self.slots, self.header, self.locals, card);
        answer(refusal, &[limit], || Some(Answer::Limit(limit)))
    }
}

/// The answer of a reply: refused, which tells nothing else; else what is told, if the interface allows it.
pub(crate) fn answer(refusal: u32, told: &[u64], accepted: impl FnOnce() -> Option<Answer>) -> Answer {
    let known = match refusal {
        0 => accepted(),
        _ => told.iter().all(|&number| number == 0).then_some(Answer::Refused(refusal)),
    };
    known.unwrap_or_else(|| Answer::Odd(format!("refusal {refusal} and {told:?}")))
}

fn reader(reply: ReaderReply) -> Answer {
    let ReaderReply { refusal, taken, slot, owner, mark } = reply;
    answer(refusal, &[taken.into(), slot, owner, mark], || match (taken, slot, owner, mark) {
        (0, 0, 0, 0) => Some(Answer::Nothing),
        (1, ..) => Some(Answer::Slot { slot: slot.try_into().ok()?, owner, mark }),
        _ => None,
    })
}

fn released(refusal: u32) -> Answer {
    answer(refusal, &[], || Some(Answer::Done))
}
