//! Holds, with writes by other processes around them: calls alone, on fresh memory.

use super::readers::held_elsewhere;
use super::Maker;
use crate::memory::{Record, Settings, View, BLOCK_ENTRIES, PROCESS_SCOPED_FCNTL, UNUSED};
use crate::script::{Call, Card, Line};

impl Maker<'_> {
    /// Some frames, published. In a large index sometimes up to the second block.
    pub(super) fn before_holds(&mut self, settings: &Settings, processes: usize, lines: &mut Vec<Line>) {
        let entries = BLOCK_ENTRIES as u64;
        let large = settings.capacity > BLOCK_ENTRIES as u32 && settings.max_blocks > 1;
        let frames = match large && self.dice.one_in(4) {
            true => self.dice.between(entries - 6, entries + 4),
            false => self.dice.between(1, 12),
        };
        for frame in 1..=frames {
            let call = Call::RecordFrame { page: self.held_page(), frame, grow: true };
            lines.push(Line::Call { process: self.dice.index(processes), call });
        }
        lines.push(Line::Call { process: 0, call: publish(frames) });
    }

    /// Few pages, most of them with one home.
    fn held_page(&mut self) -> u64 {
        self.dice.of(&[7, 7, 7 + 8192, 7 + 2 * 8192, 385, 385 + 8192, 0, u64::MAX])
    }

    pub(super) fn hold_line(&mut self, view: &dyn View, settings: &Settings) -> Line {
        let process = self.process(view);
        let marks: Vec<u64> = view.slots().frames.iter().copied().filter(|&mark| mark != 0 && mark != UNUSED).collect();
        let greatest = marks.iter().copied().max().unwrap_or(0);
        let len = self.visible_len(view);
        let last = if len == 0 { 0 } else { view.frame(len - 1) };
        let call = match self.dice.below(44) {
            0..=7 => {
                let frame = match self.dice.below(16) {
                    0 => 1,
                    1 => last,
                    _ => last.wrapping_add(self.dice.between(1, 2)),
                };
                Call::RecordFrame { page: self.held_page(), frame, grow: !self.dice.one_in(8) }
            }
            8 | 9 => publish(match self.dice.below(6) {
                0 => 0,
                1 => self.dice.below(last.max(1)),
                _ => last,
            }),
            10 => Call::RollbackFrames {
                bound: match self.dice.below(10) {
                    0 => self.likely_frame(view),
                    1..=4 => greatest,
                    _ => last.saturating_sub(self.dice.below(3)).max(greatest),
                },
            },
            11..=13 => {
                let (owner, mark) = (self.holder(process), self.held_mark(view));
                Call::RegisterReader { owner, mark, card: self.true_card(view, settings, process) }
            }
            14..=16 => {
                let (owner, mark) = (self.holder(process), self.held_mark(view));
                Call::RegisterReaderForSnapshot { owner, mark, card: self.true_card(view, settings, process) }
            }
            17 => {
                let slot = self.slot(view, process);
                Call::UnregisterReader { slot, owner: self.slot_owner(view, process, slot) }
            }
            18 => {
                let records = view.processes()[process].registry.iter().filter(|record| record.holders > 0);
                let records: Vec<&Record> = records.collect();
                if records.is_empty() {
                    Call::BumpCheckpointSeq
                } else {
                    let Record { mark, slot, owner, .. } = *self.dice.of(&records);
                    Call::UnregisterReaderForSnapshot { mark, slot, owner }
                }
            }
            19 => {
                let slot = self.slot(view, process);
                let owner = self.slot_owner(view, process, slot);
                Call::UpdateReader { slot, owner, mark: self.held_mark(view) }
            }
            20 => match self.dice.below(5) {
                0 => Call::TryAcquireWriter { owner: self.holder(process), byte: 1 },
                1 => Call::ReleaseWriter { owner: self.holder(process) },
                2 => Call::PublishBackfill { nbackfills: self.dice.below(last.max(1)) },
                3 => Call::HasActiveDbFileReader { card: self.true_card(view, settings, process) },
                _ => Call::RegisterDbFileReader {
                    owner: self.holder(process),
                    card: self.true_card(view, settings, process),
                },
            },
            21..=31 => {
                let (min, max) = self.held_bounds(&marks, last);
                Call::FindFrame { page: self.held_page(), min, max, watermark: None, cells: false }
            }
            32..=34 => {
                let (min, max) = self.held_bounds(&marks, last);
                Call::FrameBetween { page: self.held_page(), min, max }
            }
            35 => Call::NearestFrame { page: self.held_page(), to: self.held_bounds(&marks, last).1 },
            36..=38 => {
                let (min, max) = self.held_bounds(&marks, last);
                Call::IterLatestFrames { min, max, room: self.dice.of(&[9, 9, 9, 1]) }
            }
            39..=42 => Call::MinActiveReaderFrame { card: self.true_card(view, settings, process) },
            _ => Call::CopyBackLimit { card: self.true_card(view, settings, process) },
        };
        Line::Call { process, call }
    }

    fn holder(&mut self, process: usize) -> u64 {
        ((process as u64 + 1) << 32) + self.dice.below(2)
    }

    /// The published frame, another one that the index has, or any mark.
    fn held_mark(&mut self, view: &dyn View) -> u64 {
        match self.dice.below(8) {
            0 => self.mark(),
            1..=4 => view.header().max_frame,
            _ => self.likely_frame(view).min(view.header().max_frame),
        }
    }

    /// Bounds up to a mark that some reader has.
    fn held_bounds(&mut self, marks: &[u64], last: u64) -> (u64, u64) {
        let mark = if marks.is_empty() { last } else { self.dice.of(marks) };
        let max = match self.dice.below(6) {
            0 => self.dice.below(mark.saturating_add(2)),
            _ => mark,
        };
        let min = match self.dice.below(4) {
            0 => self.dice.below(max.saturating_add(1).max(1)),
            1 => max,
            _ => 0,
        };
        (min, max)
    }

    /// Lock answers that are mostly true to who holds what: a slot held elsewhere is busy, or in Fcntl an error.
    fn true_card(&mut self, view: &dyn View, settings: &Settings, process: usize) -> Card {
        if self.dice.one_in(40) {
            return self.card(view, settings, process);
        }
        let busy = if settings.mode == PROCESS_SCOPED_FCNTL { self.dice.of(&[0, 2]) } else { 0 };
        let slots = settings.slots.min(300) as usize;
        (0..slots).map(|i| if held_elsewhere(view, process, i) { busy } else { 1 }).collect()
    }
}

fn publish(max_frame: u64) -> Call {
    Call::PublishCommit { max_frame, checksum_1: 1, checksum_2: 2, transaction_count: 3 }
}
