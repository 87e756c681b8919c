//! Publishes, bumps and the two locks, with poked counters and owners.

use super::Maker;
use crate::memory::{Header, HeaderCell, OwnCell, SharedCell, View, HEADER_CELLS};
use crate::script::{Call, Line};

impl Maker<'_> {
    pub(super) fn header_line(&mut self, view: &dyn View) -> Line {
        let process = self.process(view);
        let header = view.header();
        let own = &view.processes()[process];
        let call = match self.dice.below(15) {
            0 | 1 => Call::PublishCommit {
                max_frame: self.number_near(header.max_frame),
                checksum_1: self.word(),
                checksum_2: self.word(),
                transaction_count: self.number_near(header.transaction_count),
            },
            2 => Call::PublishBackfill { nbackfills: self.number_near(header.nbackfills) },
            3 => Call::BumpCheckpointSeq,
            4 => Call::BumpCheckpointEpoch,
            5 | 6 => Call::TryAcquireWriter { owner: self.owner(), byte: self.lock_byte() },
            7 | 8 => Call::TryAcquireCheckpoint { owner: self.owner(), byte: self.lock_byte() },
            9 | 10 => Call::ReleaseWriter { owner: self.release_owner(own.local_writer, header.writer_owner) },
            11 => Call::ReleaseCheckpoint { owner: self.release_owner(own.local_checkpoint, header.checkpoint_owner) },
            12 => return self.poke_header(&header),
            13 if self.dice.one_in(2) => Call::OwnerNew { pid: self.word(), instance_id: self.word() },
            13 => Call::OwnerParts { owner: self.number_near(header.writer_owner) },
            _ => return self.poke_own_lock(process),
        };
        Line::Call { process, call }
    }

    fn lock_byte(&mut self) -> u8 {
        self.dice.of(&[0, 1, 1, 1, 2, 3, 255])
    }

    /// The owner that holds here, the one that the shared cell names, or any.
    fn release_owner(&mut self, local: u64, shared: u64) -> u64 {
        match self.dice.below(4) {
            0 | 1 => local,
            2 => shared,
            _ => self.owner(),
        }
    }

    fn poke_header(&mut self, header: &Header) -> Line {
        let cells = [
            HeaderCell::MaxFrame,
            HeaderCell::Nback,
            HeaderCell::Tx,
            HeaderCell::Gen,
            HeaderCell::Seq,
            HeaderCell::Epoch,
            HeaderCell::Ck1,
            HeaderCell::Ck2,
            HeaderCell::Wowner,
            HeaderCell::Cowner,
        ];
        let cell = if self.dice.one_in(20) { self.dice.of(&HEADER_CELLS).1 } else { self.dice.of(&cells) };
        let near = self.number_near(cell.of(header));
        let value = match self.dice.below(3) {
            0 => cell.greatest(),
            _ => near & cell.greatest(),
        };
        Line::Poke { cell: SharedCell::Header(cell), index: 0, value }
    }

    fn poke_own_lock(&mut self, process: usize) -> Line {
        let cell = self.dice.of(&[OwnCell::LocalWriter, OwnCell::LocalCheckpoint]);
        Line::Own { process, cell, index: 0, value: self.owner() }
    }
}
