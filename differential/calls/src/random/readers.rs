//! Slots, floor, copy-back limit and shared marks, with all kinds of lock answers and damaged cells.

use super::Maker;
use crate::memory::{Own, OwnCell, Record, Settings, SharedCell, View, UNUSED};
use crate::script::{Call, Card, Line};

/// Whether another process holds a slot.
pub(super) fn held_elsewhere(view: &dyn View, process: usize, slot: usize) -> bool {
    let held = |own: &Own| own.local_owners.get(slot).is_some_and(|owner| *owner != 0);
    view.processes().iter().enumerate().any(|(p, own)| p != process && held(own))
}

impl Maker<'_> {
    /// Slots that are mostly taken, here or by a process that may be gone.
    pub(super) fn occupying(&mut self, settings: &Settings, processes: usize, lines: &mut Vec<Line>) {
        let slots = u64::from(settings.slots);
        for index in 0..slots.div_ceil(64) {
            let value = match self.dice.below(4) {
                0 => self.dice.roll() & self.dice.roll(),
                1 => 1 << self.dice.below(64),
                _ => 0,
            };
            lines.push(Line::Poke { cell: SharedCell::Bitmap, index, value });
        }
        for index in 0..slots {
            if self.dice.one_in(8) {
                continue;
            }
            let (mark, owner) = (self.mark(), self.owner());
            lines.push(Line::Poke { cell: SharedCell::SlotFrame, index, value: mark });
            lines.push(Line::Poke { cell: SharedCell::SlotOwner, index, value: owner });
            if self.dice.one_in(4) {
                let process = self.dice.index(processes);
                lines.push(Line::Own { process, cell: OwnCell::LocalOwner, index, value: owner });
            }
        }
    }

    /// Lock answers: true to who holds what, all granted, mixed, or bad.
    pub(super) fn card(&mut self, view: &dyn View, settings: &Settings, process: usize) -> Card {
        let slots = settings.slots.min(300) as usize;
        let mut card: Card = match self.dice.below(6) {
            0 | 1 => (0..slots).map(|i| u8::from(!held_elsewhere(view, process, i))).collect(),
            2 => vec![1; slots],
            3 => (0..slots).map(|_| self.dice.of(&[0, 0, 0, 1])).collect(),
            4 => (0..slots).map(|_| self.dice.of(&[0, 1])).collect(),
            _ => (0..slots).map(|_| self.dice.of(&[0, 1, 2])).collect(),
        };
        if self.dice.one_in(30) {
            card.truncate(self.dice.index(slots + 1));
        }
        if self.dice.one_in(30) {
            card.push(1);
        }
        if self.dice.one_in(30) && !card.is_empty() {
            let i = self.dice.index(card.len());
            card[i] = self.dice.of(&[2, 3, 9]);
        }
        card
    }

    pub(super) fn mark(&mut self) -> u64 {
        match self.dice.below(12) {
            0 => self.dice.of(&[0, 0, UNUSED, UNUSED - 1]),
            1 => self.dice.roll() >> self.dice.below(64),
            _ => self.dice.below(6),
        }
    }

    /// A slot, more often one that is held here.
    pub(super) fn slot(&mut self, view: &dyn View, process: usize) -> u32 {
        let slots = view.slots().frames.len();
        let held: Vec<usize> = (0..slots).filter(|&i| view.processes()[process].local_owners[i] != 0).collect();
        match self.dice.below(8) {
            0 => self.dice.of(&[slots as u32, 256, u32::MAX, 0]),
            1 | 2 => self.dice.index(slots) as u32,
            _ if held.is_empty() => self.dice.index(slots) as u32,
            _ => self.dice.of(&held) as u32,
        }
    }

    /// The owner that the slot's shared or own cell names, or any.
    pub(super) fn slot_owner(&mut self, view: &dyn View, process: usize, slot: u32) -> u64 {
        let cell = |cells: &[u64]| cells.get(slot as usize).copied();
        let named = match self.dice.below(6) {
            0..=3 => cell(&view.slots().owners),
            4 => cell(&view.processes()[process].local_owners),
            _ => None,
        };
        named.unwrap_or_else(|| self.owner())
    }

    pub(super) fn reader_line(&mut self, view: &dyn View, settings: &Settings) -> Line {
        let process = self.process(view);
        let call = match self.dice.below(24) {
            0..=5 => {
                let (owner, mark) = (self.owner(), self.mark());
                Call::RegisterReader { owner, mark, card: self.card(view, settings, process) }
            }
            6..=8 => {
                let slot = self.slot(view, process);
                Call::UnregisterReader { slot, owner: self.slot_owner(view, process, slot) }
            }
            9..=11 => {
                let slot = self.slot(view, process);
                let owner = self.slot_owner(view, process, slot);
                Call::UpdateReader { slot, owner, mark: self.mark() }
            }
            12 | 13 => Call::MinActiveReaderFrame { card: self.card(view, settings, process) },
            14 | 15 => Call::CopyBackLimit { card: self.card(view, settings, process) },
            16 | 17 => Call::HasActiveDbFileReader { card: self.card(view, settings, process) },
            18 => Call::PublishCommit { max_frame: self.mark(), checksum_1: 1, checksum_2: 2, transaction_count: 3 },
            19 => Call::PublishBackfill { nbackfills: self.mark() },
            _ => return self.damage_slots(view, process),
        };
        Line::Call { process, call }
    }

    fn damage_slots(&mut self, view: &dyn View, process: usize) -> Line {
        let slot = self.dice.index(view.slots().frames.len()) as u64;
        match self.dice.below(6) {
            0 => {
                let index = slot / 64;
                let old = view.slots().bitmap[index as usize];
                let value = match self.dice.below(4) {
                    0 => 0,
                    1 => u64::MAX,
                    _ => old ^ (1 << (slot % 64)),
                };
                Line::Poke { cell: SharedCell::Bitmap, index, value }
            }
            1 | 2 => Line::Poke { cell: SharedCell::SlotFrame, index: slot, value: self.mark() },
            3 | 4 => Line::Poke { cell: SharedCell::SlotOwner, index: slot, value: self.owner() },
            _ => Line::Own { process, cell: OwnCell::LocalOwner, index: slot, value: self.owner() },
        }
    }

    pub(super) fn shared_line(&mut self, view: &dyn View, settings: &Settings) -> Line {
        let process = self.process(view);
        let own = &view.processes()[process];
        let call = match self.dice.below(20) {
            0 => Call::RegisterDbFileReader { owner: self.owner(), card: self.card(view, settings, process) },
            1..=7 => {
                let (owner, mark) = (self.owner(), self.mark());
                Call::RegisterReaderForSnapshot { owner, mark, card: self.card(view, settings, process) }
            }
            8..=12 => {
                let records: Vec<&Record> = own.registry.iter().filter(|record| record.holders > 0).collect();
                if records.is_empty() || self.dice.one_in(8) {
                    let slot = self.slot(view, process);
                    let owner = self.slot_owner(view, process, slot);
                    Call::UnregisterReaderForSnapshot { mark: self.mark(), slot, owner }
                } else {
                    let Record { mut mark, mut slot, mut owner, .. } = *self.dice.of(&records);
                    match self.dice.below(12) {
                        0 => mark = self.mark(),
                        1 => slot = self.slot(view, process),
                        2 => owner = self.owner(),
                        _ => {}
                    }
                    Call::UnregisterReaderForSnapshot { mark, slot, owner }
                }
            }
            13 | 14 => {
                let index = self.dice.index(own.registry.len()) as u64;
                let slots = own.registry.len() as u64;
                let (mark, slot, owner) = (self.mark(), self.dice.below(slots + 1) as u32, self.owner());
                let holders = self.dice.of(&[0, 1, 1, 2, 65_534, 65_535, 65_536]);
                return Line::Registry { process, index, record: Record::new(mark, slot, owner, holders) };
            }
            _ => return self.reader_line(view, settings),
        };
        Line::Call { process, call }
    }
}
