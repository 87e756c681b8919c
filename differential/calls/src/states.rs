//! Every state of two reader slots and of some registries, with every card and each call on readers.

use crate::memory::{Own, OwnCell, Record, Settings, SharedCell, Slots, LINUX_OFD, PROCESS_SCOPED_FCNTL, UNUSED};
use crate::random::{shortest, Found};
use crate::script::{Call, Line, New};
use crate::session::{Cells, Session, Sides};

const SLOTS: usize = 2;
/// Two owners.
const A: u64 = 7;
const B: u64 = 8;
const FRAMES: [u64; 4] = [UNUSED, 0, 5, 7];
const OWNERS: [u64; 3] = [0, A, B];
/// The published frame, between the marks.
const PUBLISHED: u64 = 6;
/// The copied count: below the marks above 0, and above the published frame, where the limit alone is asked.
const COPIED: [u64; 2] = [4, 9];
/// Bit, frame, owner and local owner of a slot.
const SLOT_STATES: usize = 2 * FRAMES.len() * OWNERS.len() * OWNERS.len();

#[derive(Default)]
pub struct Tally {
    pub states: u64,
    pub calls: u64,
}

/// Makes each call in each state, and compares the answers and every cell.
pub fn run(sides: Sides) -> Result<Tally, Found> {
    let mut tally = Tally::default();
    let [below, above] = COPIED;
    for mode in [LINUX_OFD, PROCESS_SCOPED_FCNTL] {
        let all = Round { copied: below, registries: &registries(), own: calls_on_slots(), calls: calls_on_registry() };
        let limits = Round { copied: above, registries: &registries()[..1], own: limits().collect(), calls: vec![] };
        for round in [all, limits] {
            round.run(sides, mode, &mut tally)?;
        }
    }
    Ok(tally)
}

/// A copied count, registries, and calls: those that do not look into the registry, and those that do.
struct Round<'a> {
    copied: u64,
    registries: &'a [[Record; SLOTS]],
    own: Vec<Line>,
    calls: Vec<Line>,
}

impl Round<'_> {
    fn run(&self, sides: Sides, mode: u32, tally: &mut Tally) -> Result<(), Found> {
        let opening = opening(mode, self.copied);
        let mut session = Session::new(sides);
        opening
            .iter()
            .try_for_each(|line| session.step(line).map(drop))
            .map_err(|_| shortest(sides, opening.clone()))?;
        session.cells = Cells::AllButIndex;
        for (number, registry) in self.registries.iter().enumerate() {
            for slots in (0..SLOT_STATES * SLOT_STATES).map(|i| [i / SLOT_STATES, i % SLOT_STATES]) {
                let state = State::new(slots, registry);
                tally.states += 1;
                // The registry counts for some calls only.
                for line in self.own.iter().filter(|_| number == 0).chain(&self.calls) {
                    session.set_readers(&state.slots, std::slice::from_ref(&state.own));
                    if session.step(line).is_err() {
                        let script = opening.iter().cloned().chain(state.lines()).chain([line.clone()]);
                        return Err(shortest(sides, script.collect()));
                    }
                }
            }
        }
        // No call wrote to the index.
        session.step(&Line::Dump { process: 0 }).map_err(|difference| Found { script: opening, difference })?;
        tally.calls += session.calls;
        Ok(())
    }
}

fn opening(mode: u32, nbackfills: u64) -> Vec<Line> {
    let settings = Settings { capacity: 1, max_blocks: 1, slots: SLOTS as u32, mode };
    let commit = Call::PublishCommit { max_frame: PUBLISHED, checksum_1: 1, checksum_2: 2, transaction_count: 3 };
    let new = Line::New(New { settings, start_blocks: 1, processes: 1 });
    vec![new, line(commit), line(Call::PublishBackfill { nbackfills })]
}

struct State {
    slots: Slots,
    own: Own,
}

impl State {
    fn new(numbers: [usize; SLOTS], registry: &[Record; SLOTS]) -> Self {
        let (mut slots, mut own) = (Slots::fresh(SLOTS), Own::fresh(SLOTS));
        own.registry.copy_from_slice(registry);
        for (slot, number) in numbers.into_iter().enumerate() {
            let (bit, number) = (number as u64 % 2, number / 2);
            slots.bitmap[0] ^= bit << slot;
            slots.frames[slot] = FRAMES[number % FRAMES.len()];
            let number = number / FRAMES.len();
            slots.owners[slot] = OWNERS[number % OWNERS.len()];
            own.local_owners[slot] = OWNERS[number / OWNERS.len()];
        }
        Self { slots, own }
    }

    /// The lines that poke it.
    fn lines(&self) -> Vec<Line> {
        let Self { slots, own } = self;
        let cells = [
            (SharedCell::Bitmap, &slots.bitmap),
            (SharedCell::SlotFrame, &slots.frames),
            (SharedCell::SlotOwner, &slots.owners),
        ];
        let poke = |cell, (index, value): (u64, &u64)| Line::Poke { cell, index, value: *value };
        let shared = cells.into_iter().flat_map(|(cell, part)| (0..).zip(part).map(move |at| poke(cell, at)));
        let local = (0..).zip(&own.local_owners).map(|(index, value)| Line::Own {
            process: 0,
            cell: OwnCell::LocalOwner,
            index,
            value: *value,
        });
        let records =
            (0..).zip(&own.registry).map(|(index, record)| Line::Registry { process: 0, index, record: *record });
        shared.chain(local).chain(records).collect()
    }
}

/// Empty, with one record, with two, and damaged: a mark twice, a slot twice or beyond n, too many holders.
fn registries() -> [[Record; SLOTS]; 7] {
    let record = Record::new;
    let empty = Record::default();
    [
        [empty, empty],
        [record(5, 0, A, 1), empty],
        [empty, record(5, 1, A, 2)],
        [record(5, 0, A, 1), record(7, 1, B, 1)],
        [record(5, 0, A, 1), record(5, 1, B, 1)],
        [record(5, 0, A, 65_535), record(0, 2, B, 1)],
        [record(0, 1, A, 1), record(7, 1, A, 2)],
    ]
}

fn line(call: Call) -> Line {
    Line::Call { process: 0, call }
}

fn cards() -> impl Iterator<Item = Vec<u8>> {
    (0..9).map(|i| vec![i / 3, i % 3])
}

/// Calls that do not look into the registry.
fn calls_on_slots() -> Vec<Line> {
    let with_card = cards().flat_map(|card| {
        [
            Call::RegisterReader { owner: A, mark: 5, card: card.clone() },
            Call::RegisterReader { owner: B, mark: 0, card: card.clone() },
            Call::MinActiveReaderFrame { card: card.clone() },
            Call::HasActiveDbFileReader { card },
        ]
    });
    let refused = [(0, 5, vec![1, 1]), (A, UNUSED, vec![1, 1]), (A, 5, vec![1]), (A, 5, vec![1, 3])]
        .map(|(owner, mark, card)| Call::RegisterReader { owner, mark, card });
    with_card.chain(refused).map(line).chain(limits()).collect()
}

/// The copy-back limit with every card.
fn limits() -> impl Iterator<Item = Line> {
    cards().map(|card| line(Call::CopyBackLimit { card }))
}

/// Calls that do.
fn calls_on_registry() -> Vec<Line> {
    let with_card = cards().flat_map(|card| {
        [
            Call::RegisterReaderForSnapshot { owner: B, mark: 5, card: card.clone() },
            Call::RegisterReaderForSnapshot { owner: A, mark: 7, card: card.clone() },
            Call::RegisterDbFileReader { owner: A, card },
        ]
    });
    let releases = (0..=SLOTS as u32).flat_map(|slot| {
        OWNERS.into_iter().flat_map(move |owner| {
            let shared = FRAMES.map(|mark| Call::UnregisterReaderForSnapshot { mark, slot, owner });
            let moves = [5, UNUSED].map(|mark| Call::UpdateReader { slot, owner, mark });
            shared.into_iter().chain(moves).chain([Call::UnregisterReader { slot, owner }])
        })
    });
    with_card.chain(releases).map(line).collect()
}

#[cfg(test)]
mod tests {
    use super::*;
    use std::collections::HashSet;

    #[test]
    fn states_differ_and_their_lines_make_them() {
        let numbers = (0..SLOT_STATES * SLOT_STATES).map(|i| [i / SLOT_STATES, i % SLOT_STATES]);
        let shown = |state: &State| state.lines().iter().map(Line::to_string).collect::<Vec<_>>().join("\n");
        let states: HashSet<String> = numbers.map(|slots| shown(&State::new(slots, &registries()[0]))).collect();
        assert_eq!(states.len(), 5184);
        assert_eq!(
            shown(&State::new([0, SLOT_STATES - 1], &registries()[3])),
            "poke bitmap 0 18446744073709551613\npoke sframe 0 18446744073709551615\npoke sframe 1 7\n\
             poke sowner 0 0\npoke sowner 1 8\nown 0 lowner 0 0\nown 0 lowner 1 8\n\
             registry 0 0 5 0 7 1\nregistry 0 1 7 1 8 1"
        );
    }
}
