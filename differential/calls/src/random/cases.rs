//! Cases: a call with all that it is given, cells and arguments, as a row of numbers, and the Rust's answer with every
//! cell that the call could have changed. crates/program_recorded/src/calls.rt describes the rows.

use super::dice::Dice;
use crate::memory::{Header, HeaderCell, OwnCell, Settings, SharedCell, View, LINUX_OFD, PROCESS_SCOPED_FCNTL, UNUSED};
use crate::script::{Answer, Call, Card, Line, New};
use crate::session::{Difference, Reply, Session, Sides};

/// In the order of the port's `Header`.
const HEADER: [HeaderCell; 13] = [
    HeaderCell::Blocks,
    HeaderCell::Len,
    HeaderCell::Flag,
    HeaderCell::MaxFrame,
    HeaderCell::Nback,
    HeaderCell::Tx,
    HeaderCell::Gen,
    HeaderCell::Seq,
    HeaderCell::Epoch,
    HeaderCell::Ck1,
    HeaderCell::Ck2,
    HeaderCell::Wowner,
    HeaderCell::Cowner,
];

/// Slots that the memory has. A call may be told of fewer or more.
const SLOTS: usize = 2;

/// The calls' numbers, in the order in which cases come round; those on readers have more to meet.
const ROUND: [u64; 20] = [1, 9, 2, 10, 3, 11, 4, 9, 12, 5, 10, 6, 11, 7, 9, 10, 8, 11, 7, 12];

/// Lines that are no case: each answers `?`. The last is longer than the program's buffer.
pub fn other_forms() -> Vec<String> {
    let mut lines: Vec<String> = [
        "",
        " ",
        "x",
        "0",
        "13 0 0 0 0 0 0 0 0 0 0 0 0 0",
        "3 0 0 0 0 0 0 0 0 0 0 0 0",
        "3 0 0 0 0 0 0 0 0 0 0 0 0 0 0",
        "3  0 0 0 0 0 0 0 0 0 0 0 0",
        "3 0 0 0 0 0 0 0 0 0 0 0 0 0 ",
        " 3 0 0 0 0 0 0 0 0 0 0 0 0 0",
        "3 +0 0 0 0 0 0 0 0 0 0 0 0 0",
        "3 -1 0 0 0 0 0 0 0 0 0 0 0 0",
        "3 4294967296 0 0 0 0 0 0 0 0 0 0 0 0",
        "3 0 0 0 18446744073709551616 0 0 0 0 0 0 0 0 0",
        "3 0 0 0 0 0 0 0 0 0 0 0 0 000000000000000000000",
        "1 0 0 0 0 0 0 0 0 0 0 0 0 0 1 4294967296 0 1",
        "5 0 0 0 0 0 0 0 0 0 0 0 0 0 0 1 256",
        "7 0 0 0 0 0 0 0 0 0 0 0 0 0 1 2 1",
        "10 2 2 3 0 0 0 0 0 0 2 1 1",
        "10 2 0 3 0 0 0 0 0 0 3 1 1",
        "10 2 0 3 0 0 0 0 0 0 2 1 256",
        "9 2 0 3 0 0 0 0 0 0 2 1 1 1",
        "1 1 1 1 1 1 1 1 1 1 1 1 1 1 1 1 1 1 1",
        "3 0 0 0 0 0 0 0 0 0 0 0 0 0\r",
    ]
    .map(String::from)
    .into();
    lines.push(format!("3{}", " 0".repeat(600)));
    lines
}

/// What a call is given besides its arguments.
pub struct Case {
    pub call: Call,
    pub mode: u32,
    header: Header,
    /// This process's own cell of the lock.
    own_lock: u64,
    n: u32,
    bitmap: u64,
    frames: [u64; SLOTS],
    owners: [u64; SLOTS],
    local_owners: [u64; SLOTS],
}

/// So many cases, the same for the same seed.
pub fn cases(seed: u64, count: u64) -> impl Iterator<Item = Case> {
    (0..count).map(move |i| Case::new(ROUND[(i % ROUND.len() as u64) as usize], Dice::new(seed, i)))
}

impl Case {
    fn new(number: u64, mut dice: Dice) -> Self {
        let mut header = Header::default();
        for cell in HEADER {
            cell.set(&mut header, number_of(&mut dice) & cell.greatest());
        }
        for cell in [HeaderCell::Gen, HeaderCell::Seq, HeaderCell::Epoch] {
            if dice.one_in(4) {
                cell.set(&mut header, cell.greatest());
            }
        }
        // A lock is mostly released where it is held, and mostly acquired where it is not.
        let holds = dice.one_in(4) != matches!(number, 7 | 8);
        let own_lock = if holds { owner(&mut dice) } else { 0 };
        let n = match dice.below(12) {
            0 => dice.of(&[0, 257]),
            1 => 3,
            2..=4 => 1,
            _ => SLOTS as u32,
        };
        let bitmap = match dice.below(8) {
            0 => dice.roll(),
            1 => u64::MAX,
            _ => dice.below(6),
        };
        let mut case = Self {
            call: Call::BumpCheckpointSeq,
            mode: dice.of(&[LINUX_OFD, PROCESS_SCOPED_FCNTL]),
            header,
            own_lock,
            n,
            bitmap,
            frames: [mark(&mut dice), mark(&mut dice)],
            owners: [owner(&mut dice), owner(&mut dice)],
            local_owners: [0; SLOTS],
        };
        for slot in 0..SLOTS {
            case.local_owners[slot] = match dice.below(8) {
                0 => case.owners[slot],
                1 => owner(&mut dice),
                _ => 0,
            };
        }
        case.call = case.call_of(number, &mut dice);
        case
    }

    fn call_of(&self, number: u64, dice: &mut Dice) -> Call {
        match number {
            1 => Call::PublishCommit {
                max_frame: near(dice, self.header.max_frame),
                checksum_1: number_of(dice) as u32,
                checksum_2: number_of(dice) as u32,
                transaction_count: near(dice, self.header.transaction_count),
            },
            2 => Call::PublishBackfill { nbackfills: near(dice, self.header.nbackfills) },
            3 => Call::BumpCheckpointSeq,
            4 => Call::BumpCheckpointEpoch,
            5 => Call::TryAcquireWriter { owner: owner_given(dice), byte: byte(dice) },
            6 => Call::TryAcquireCheckpoint { owner: owner_given(dice), byte: byte(dice) },
            7 => Call::ReleaseWriter { owner: self.releasing(dice) },
            8 => Call::ReleaseCheckpoint { owner: self.releasing(dice) },
            9 => Call::RegisterReader { owner: owner_given(dice), mark: mark_given(dice), card: self.card(dice) },
            10 => Call::MinActiveReaderFrame { card: self.card(dice) },
            11 => Call::HasActiveDbFileReader { card: self.card(dice) },
            12 => Call::CopyBackLimit { card: self.card(dice) },
            _ => unreachable!("a call of the round"),
        }
    }

    fn releasing(&self, dice: &mut Dice) -> u64 {
        match dice.below(5) {
            0 => owner_given(dice),
            1 => 0,
            _ => self.own_lock,
        }
    }

    /// As long as n says, seldom another length or with a byte that is no answer.
    fn card(&self, dice: &mut Dice) -> Card {
        let len = if dice.one_in(12) { dice.index(SLOTS + 1) } else { SLOTS.min(self.n as usize) };
        let mut card: Card = (0..len).map(|_| dice.of(&[0, 0, 1, 1, 1, 2])).collect();
        if len > 0 && dice.one_in(12) {
            card[dice.index(len)] = dice.of(&[3, 9, 255]);
        }
        card
    }

    /// The number of a call, as in crates/program_recorded/src/calls.rt.
    pub fn number(&self) -> u64 {
        match self.call {
            Call::PublishCommit { .. } => 1,
            Call::PublishBackfill { .. } => 2,
            Call::BumpCheckpointSeq => 3,
            Call::BumpCheckpointEpoch => 4,
            Call::TryAcquireWriter { .. } => 5,
            Call::TryAcquireCheckpoint { .. } => 6,
            Call::ReleaseWriter { .. } => 7,
            Call::ReleaseCheckpoint { .. } => 8,
            Call::RegisterReader { .. } => 9,
            Call::MinActiveReaderFrame { .. } => 10,
            Call::HasActiveDbFileReader { .. } => 11,
            Call::CopyBackLimit { .. } => 12,
            _ => unreachable!("a call of the round"),
        }
    }

    /// The case's row.
    pub fn row(&self) -> Vec<u64> {
        let mut row = vec![self.number()];
        if self.call.is_on_readers() {
            row.extend([self.n.into(), self.mode.into(), self.bitmap]);
            row.extend([self.frames, self.owners, self.local_owners].concat());
        } else {
            row.extend(HEADER.map(|cell| cell.of(&self.header)));
        }
        row.extend(self.own_cell().map(|_| self.own_lock));
        row.extend(match self.call {
            Call::PublishCommit { max_frame, checksum_1, checksum_2, transaction_count } => {
                vec![max_frame, checksum_1.into(), checksum_2.into(), transaction_count]
            }
            Call::PublishBackfill { nbackfills } => vec![nbackfills],
            Call::TryAcquireWriter { owner, byte } | Call::TryAcquireCheckpoint { owner, byte } => {
                vec![owner, byte.into()]
            }
            Call::ReleaseWriter { owner } | Call::ReleaseCheckpoint { owner } => vec![self.mode.into(), owner],
            Call::RegisterReader { owner, mark, ref card } => [numbers_of(card).as_slice(), &[owner, mark]].concat(),
            Call::MinActiveReaderFrame { ref card } | Call::HasActiveDbFileReader { ref card } => {
                numbers_of(card).into()
            }
            Call::CopyBackLimit { ref card } => {
                [numbers_of(card).as_slice(), &[self.header.max_frame, self.header.nbackfills]].concat()
            }
            _ => vec![],
        });
        row
    }

    /// The own cell that a lock has.
    fn own_cell(&self) -> Option<OwnCell> {
        match self.call {
            Call::TryAcquireWriter { .. } | Call::ReleaseWriter { .. } => Some(OwnCell::LocalWriter),
            Call::TryAcquireCheckpoint { .. } | Call::ReleaseCheckpoint { .. } => Some(OwnCell::LocalCheckpoint),
            _ => None,
        }
    }

    /// A script that makes the memory and then the call.
    fn script(&self) -> Vec<Line> {
        let poke = |cell, index: usize, value| Line::Poke { cell, index: index as u64, value };
        let settings = Settings { capacity: 1, max_blocks: 1, slots: SLOTS as u32, mode: self.mode };
        let mut lines = vec![Line::New(New { settings, start_blocks: 1, processes: 1 })];
        if self.call.is_on_readers() {
            lines.push(Line::Settings(Settings { slots: self.n, ..settings }));
            lines.push(poke(SharedCell::Bitmap, 0, self.bitmap));
            for slot in 0..SLOTS {
                lines.push(poke(SharedCell::SlotFrame, slot, self.frames[slot]));
                lines.push(poke(SharedCell::SlotOwner, slot, self.owners[slot]));
                let (cell, value) = (OwnCell::LocalOwner, self.local_owners[slot]);
                lines.push(Line::Own { process: 0, cell, index: slot as u64, value });
            }
            for cell in [HeaderCell::MaxFrame, HeaderCell::Nback] {
                lines.push(poke(SharedCell::Header(cell), 0, cell.of(&self.header)));
            }
        } else {
            lines.extend(HEADER.map(|cell| poke(SharedCell::Header(cell), 0, cell.of(&self.header))));
        }
        lines.extend(self.own_cell().map(|cell| Line::Own { process: 0, cell, index: 0, value: self.own_lock }));
        lines.push(Line::Call { process: 0, call: self.call.clone() });
        lines
    }

    /// The answer's row: the refusal or 0, the answer's numbers, and the cells.
    pub fn answer(&self, sides: Sides) -> Result<Vec<u64>, Box<Difference>> {
        let mut session = Session::new(sides);
        let mut reply = Reply::Silent;
        for line in self.script() {
            reply = session.step(&line)?;
            assert_ne!(reply, Reply::Unknown, "{line}");
        }
        let Reply::Answer(answer) = reply else { unreachable!("a case ends with its call") };
        let view = session.view().expect("a case begins with new");
        let mut row = self.told(&answer);
        if self.call.is_on_readers() {
            row.extend(view.slots().parts().concat());
            row.extend(&view.processes()[0].local_owners);
        } else {
            row.extend(HEADER.map(|cell| cell.of(&view.header())));
        }
        row.extend(self.own_cell().map(|cell| own_cell(view, cell)));
        Ok(row)
    }

    fn told(&self, answer: &Answer) -> Vec<u64> {
        match *answer {
            Answer::Refused(number) if self.call.is_on_readers() => vec![number.into(), 0, 0],
            Answer::Refused(number) => vec![number.into(), 0],
            Answer::Done => vec![0, 0],
            Answer::Seq(number) | Answer::Epoch(number) => vec![0, number.into()],
            Answer::Acquired(taken) => vec![0, taken.into()],
            Answer::Slot { slot, owner, mark } => {
                let Call::RegisterReader { owner: given, mark: at, .. } = self.call else { unreachable!("a slot") };
                assert_eq!((owner, mark), (given, at), "the slot is the caller's");
                vec![0, 1, slot.into()]
            }
            Answer::Frame(frame) | Answer::Limit(frame) => vec![0, 1, frame],
            Answer::Active(active) => vec![0, active.into(), 0],
            Answer::Nothing => vec![0, 0, 0],
            _ => unreachable!("{answer}"),
        }
    }
}

fn own_cell(view: &dyn View, cell: OwnCell) -> u64 {
    let own = &view.processes()[0];
    match cell {
        OwnCell::LocalWriter => own.local_writer,
        OwnCell::LocalCheckpoint => own.local_checkpoint,
        OwnCell::LocalOwner => unreachable!("a lock's cell"),
    }
}

/// A card's length, and two bytes, 0 where it has none.
fn numbers_of(card: &Card) -> [u64; 1 + SLOTS] {
    let byte = |i: usize| card.get(i).copied().unwrap_or(0).into();
    [card.len() as u64, byte(0), byte(1)]
}

fn number_of(dice: &mut Dice) -> u64 {
    match dice.below(6) {
        0 => u64::MAX - dice.below(2),
        1 => u64::from(u32::MAX) + dice.below(2),
        2 => dice.roll() >> dice.below(64),
        _ => dice.below(10),
    }
}

fn near(dice: &mut Dice, value: u64) -> u64 {
    match dice.below(5) {
        0 => number_of(dice),
        1 => value.wrapping_add(1),
        2 => value.wrapping_sub(1),
        _ => value,
    }
}

/// The owner in a cell.
fn owner(dice: &mut Dice) -> u64 {
    dice.of(&[1, 1, 2, 2, (7 << 32) + 2, u64::MAX, 0])
}

fn owner_given(dice: &mut Dice) -> u64 {
    dice.of(&[1, 1, 1, 2, 2, 2, (7 << 32) + 2, u64::MAX, 0])
}

fn byte(dice: &mut Dice) -> u8 {
    dice.of(&[0, 1, 1, 1, 2, 3, 255])
}

/// The frame of a slot: none, the database file alone, or a mark.
fn mark(dice: &mut Dice) -> u64 {
    match dice.below(6) {
        0 => UNUSED,
        1 | 2 => 0,
        3 => number_of(dice),
        _ => dice.between(1, 5),
    }
}

fn mark_given(dice: &mut Dice) -> u64 {
    dice.of(&[0, 0, 1, 2, 3, 4, 5, 1 << 40, UNUSED - 1, UNUSED])
}

#[cfg(test)]
mod tests {
    use super::*;
    use std::collections::BTreeSet;

    const RECORDED: &str = include_str!("../../../../crates/program_recorded/stdin");
    const ANSWERS: &str = include_str!("../../../../crates/program_recorded/stdout");

    /// The seed and count that the recorded cases name.
    fn recorded() -> (u64, u64) {
        let made =
            RECORDED.lines().find_map(|line| line.split_once("--cases-rust ")).expect("a line on how it was made");
        let (seed, count) = made.1.split_once(' ').expect("seed and count");
        (seed.parse().unwrap(), count.parse().unwrap())
    }

    fn row(line: &str) -> Vec<u64> {
        line.split(' ').map(|number| number.parse().unwrap()).collect()
    }

    #[test]
    fn the_recorded_cases_are_made_so() {
        let (seed, count) = recorded();
        let mut lines = RECORDED.split_terminator('\n').filter(|line| !line.starts_with('#'));
        for case in cases(seed, count) {
            assert_eq!(row(lines.next().unwrap()), case.row());
        }
        assert!(lines.eq(other_forms()));
    }

    #[test]
    fn every_refusal_is_recorded_in_each_mode_that_has_it() {
        let (seed, count) = recorded();
        let refusals = cases(seed, count).zip(ANSWERS.lines()).map(|(case, line)| (case, row(line)[0]));
        let met: BTreeSet<_> = refusals
            .filter(|(_, refusal)| *refusal != 0)
            .map(|(case, refusal)| match case.call {
                // An acquire does not take the mode.
                Call::TryAcquireWriter { .. } | Call::TryAcquireCheckpoint { .. } => {
                    (case.number(), LINUX_OFD, refusal)
                }
                _ => (case.number(), case.mode, refusal),
            })
            .collect();
        let mut expected = BTreeSet::new();
        let mut add =
            |call: u64, mode: u32, refusals: &[u64]| expected.extend(refusals.iter().map(|n| (call, mode, *n)));
        for call in [5, 6] {
            add(call, LINUX_OFD, &[9, 14]);
        }
        for call in [7, 8] {
            add(call, LINUX_OFD, &[7, 9]);
            add(call, PROCESS_SCOPED_FCNTL, &[7, 8]);
        }
        for mode in [LINUX_OFD, PROCESS_SCOPED_FCNTL] {
            add(9, mode, &[1, 2, 9, 10, 14]);
        }
        for call in [10, 11, 12] {
            add(call, LINUX_OFD, &[1, 2, 14, 15]);
            add(call, PROCESS_SCOPED_FCNTL, &[1, 2, 14]);
        }
        assert_eq!(met, expected);
    }
}
