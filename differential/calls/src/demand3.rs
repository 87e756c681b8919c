//! Demand 3 at run time: while a hold lasts, each lookup, list, floor and copy-back limit must answer as the demand
//! says, and so must a search for a frame between two frames up to the mark. It is fed calls and answers, and sees of the
//! memory only the slots of holds.
//!
//! That another process changes a hold's slot ends what is owed only where document 01 lets the call do so. A port that
//! does it elsewhere has broken the premise itself, and still owes.

use crate::memory::Slots;
use crate::script::{Answer, Call};
use std::collections::{BTreeMap, HashMap, HashSet};

/// How many answers under a hold were held against what is owed.
#[derive(Clone, Copy, Debug, Default, PartialEq, Eq)]
pub struct Checked {
    pub lookups: u64,
    pub searches: u64,
    pub lists: u64,
    pub floors: u64,
    pub limits: u64,
}

impl Checked {
    pub fn add(&mut self, other: &Self) {
        self.lookups += other.lookups;
        self.searches += other.searches;
        self.lists += other.lists;
        self.floors += other.floors;
        self.limits += other.limits;
    }
}

/// Page and frame.
type Pair = (u64, u64);

/// Document 01's book.
#[derive(Default)]
struct Book {
    pairs: Vec<Pair>,
    published: u64,
}

impl Book {
    fn enter(&mut self, call: &Call, answer: &Answer) {
        match (call, answer) {
            (Call::RecordFrame { page, frame, .. }, Answer::Stored | Answer::Dropped) => {
                if *frame == 1 && self.published == 0 {
                    self.pairs.clear();
                }
                if *answer == Answer::Stored {
                    self.pairs.push((*page, *frame));
                }
            }
            (Call::RollbackFrames { bound }, Answer::Kept(_)) => {
                while self.pairs.last().is_some_and(|(_, frame)| frame > bound) {
                    self.pairs.pop();
                }
            }
            (Call::PublishCommit { max_frame, .. }, Answer::Done) => self.published = self.published.max(*max_frame),
            _ => {}
        }
    }

    /// Whether a mark is at least 1, in the index and published.
    fn has(&self, mark: u64) -> bool {
        mark >= 1 && mark <= self.published && self.pairs.iter().any(|(_, frame)| *frame == mark)
    }
}

#[derive(Clone, Copy, Debug, PartialEq, Eq)]
enum Kind {
    Direct,
    Shared,
}

/// A hold whose premises are kept so far.
struct Hold {
    process: usize,
    kind: Kind,
    slot: u32,
    mark: u64,
    /// The book's pairs when it began.
    pairs: Vec<Pair>,
    /// The slot after the last call.
    cells: SlotCells,
}

/// A slot's frame, owner and bit, if there is such a slot.
type SlotCells = Option<(u64, u64, bool)>;

fn slot_cells(slots: &Slots, slot: u32) -> SlotCells {
    let slot = slot as usize;
    (slot < slots.frames.len()).then(|| (slots.frames[slot], slots.owners[slot], slots.is_free(slot)))
}

impl Hold {
    /// The greatest frame of each page within the bounds.
    fn latest(&self, min: u64, max: u64) -> BTreeMap<u64, u64> {
        let mut latest = BTreeMap::new();
        for &(page, frame) in self.pairs.iter().filter(|(_, frame)| (min..=max).contains(frame)) {
            let greatest = latest.entry(page).or_insert(frame);
            *greatest = frame.max(*greatest);
        }
        latest
    }

    /// The page's frames within the bounds.
    fn between(&self, page: u64, min: u64, max: u64) -> impl Iterator<Item = u64> + '_ {
        let fitting = move |pair: &&Pair| pair.0 == page && (min..=max).contains(&pair.1);
        self.pairs.iter().filter(fitting).map(|(_, frame)| *frame)
    }

    /// Whether the answer is what the hold is owed, else what that is. `None`: it is owed nothing.
    fn owed(&self, call: &Call, answer: &Answer) -> Option<Result<(), String>> {
        let exactly = |owed: Answer| if owed.allows(answer) { Ok(()) } else { Err(owed.to_string()) };
        let at_most = |good| if good { Ok(()) } else { Err(format!("at most {}", self.mark)) };
        match *call {
            Call::FindFrame { page, min, max, watermark: None, .. } if max <= self.mark => {
                Some(exactly(self.between(page, min, max).max().map_or(Answer::Nothing, Answer::Frame)))
            }
            // Any of them; none exactly if there is none.
            Call::FrameBetween { page, min, max } if max <= self.mark => {
                Some(exactly(Answer::one_of(self.between(page, min, max))))
            }
            Call::IterLatestFrames { min, max, .. } if max <= self.mark => {
                Some(exactly(Answer::List(self.latest(min, max).into_iter().collect())))
            }
            Call::MinActiveReaderFrame { .. } => {
                Some(at_most(matches!(answer, Answer::Frame(floor) if *floor <= self.mark)))
            }
            Call::CopyBackLimit { .. } => Some(at_most(matches!(answer, Answer::Limit(limit) if *limit <= self.mark))),
            _ => None,
        }
    }

    /// Whether an accepted call ends it. A shared one ends by its count.
    fn is_ended_by(&self, process: usize, call: &Call) -> bool {
        let ends = match *call {
            Call::UnregisterReader { slot, .. } => slot == self.slot,
            Call::UpdateReader { slot, mark, .. } => slot == self.slot && mark != self.mark,
            _ => false,
        };
        self.kind == Kind::Direct && process == self.process && ends
    }
}

/// Whether document 01 lets a call change a slot that another process holds: a move of it, a call that is granted its
/// lock and may reclaim it, or a release by who was given it too.
fn may_change(process: usize, call: &Call, held: u32, taken: &HashSet<(usize, u32)>) -> bool {
    match call {
        Call::UpdateReader { slot, .. } => *slot == held,
        Call::UnregisterReader { slot, .. } | Call::UnregisterReaderForSnapshot { slot, .. } => {
            *slot == held && taken.contains(&(process, held))
        }
        Call::RegisterReader { card, .. }
        | Call::RegisterReaderForSnapshot { card, .. }
        | Call::RegisterDbFileReader { card, .. }
        | Call::MinActiveReaderFrame { card }
        | Call::HasActiveDbFileReader { card }
        | Call::CopyBackLimit { card } => card.get(held as usize) == Some(&1),
        _ => false,
    }
}

/// The book and the holds of one sequence.
#[derive(Default)]
pub struct Demand3 {
    /// Whether nothing but calls wrote to the memory, or to what they are given, since it was fresh.
    calls_alone: bool,
    book: Book,
    holds: Vec<Hold>,
    /// By process and mark, the shared registrations that are not yet released.
    shared: HashMap<(usize, u64), u64>,
    /// The slots that each process was given and has not released.
    taken: HashSet<(usize, u32)>,
    pub checked: Checked,
}

impl Demand3 {
    /// A sequence begins on fresh memory.
    pub fn begin(&mut self) {
        *self = Self { calls_alone: true, checked: self.checked, ..Self::default() };
    }

    /// Something other than a call wrote to the memory: nothing is owed any more.
    pub fn stop(&mut self) {
        *self = Self { checked: self.checked, ..Self::default() };
    }

    /// A call, with its answer and the slots after it. An error says what was owed.
    pub fn see(&mut self, process: usize, call: &Call, answer: &Answer, slots: &Slots) -> Result<(), String> {
        if !self.calls_alone {
            return Ok(());
        }
        let taken = &self.taken;
        self.holds.retain_mut(|hold| {
            let before = std::mem::replace(&mut hold.cells, slot_cells(slots, hold.slot));
            hold.process == process || hold.cells == before || !may_change(process, call, hold.slot, taken)
        });
        if matches!(answer, Answer::Refused(_)) {
            return Ok(());
        }
        self.check(call, answer)?;
        if let Call::RollbackFrames { bound } = *call {
            self.holds.retain(|hold| hold.mark <= bound);
        }
        self.holds.retain(|hold| !hold.is_ended_by(process, call));
        match (call, answer) {
            (Call::RegisterReader { mark, .. }, Answer::Slot { slot, .. }) => {
                self.taken.insert((process, *slot));
                self.hold(process, Kind::Direct, *slot, *mark, slots);
            }
            (Call::RegisterReaderForSnapshot { mark, .. }, Answer::Slot { slot, .. }) => {
                self.taken.insert((process, *slot));
                let holders = self.shared.entry((process, *mark)).or_default();
                *holders += 1;
                if *holders == 1 {
                    self.hold(process, Kind::Shared, *slot, *mark, slots);
                }
            }
            (Call::UnregisterReader { slot, .. }, Answer::Done) => {
                self.taken.remove(&(process, *slot));
            }
            (Call::UnregisterReaderForSnapshot { mark, slot, .. }, Answer::Done) => {
                let holders = self.shared.entry((process, *mark)).or_default();
                *holders = holders.saturating_sub(1);
                if *holders == 0 {
                    self.taken.remove(&(process, *slot));
                    self.holds.retain(|hold| (hold.kind, hold.process, hold.mark) != (Kind::Shared, process, *mark));
                }
            }
            _ => {}
        }
        self.book.enter(call, answer);
        Ok(())
    }

    fn hold(&mut self, process: usize, kind: Kind, slot: u32, mark: u64, slots: &Slots) {
        if self.book.has(mark) {
            let (pairs, cells) = (self.book.pairs.clone(), slot_cells(slots, slot));
            self.holds.push(Hold { process, kind, slot, mark, pairs, cells });
        }
    }

    fn check(&mut self, call: &Call, answer: &Answer) -> Result<(), String> {
        let mut owed = false;
        for hold in &self.holds {
            let Some(got) = hold.owed(call, answer) else { continue };
            owed = true;
            let Hold { process, kind, slot, mark, .. } = hold;
            got.map_err(|what| {
                format!("{what}, by the {kind:?} hold of process {process} at mark {mark} in slot {slot}")
            })?;
        }
        let count = match call {
            Call::FindFrame { .. } => &mut self.checked.lookups,
            Call::FrameBetween { .. } => &mut self.checked.searches,
            Call::IterLatestFrames { .. } => &mut self.checked.lists,
            Call::CopyBackLimit { .. } => &mut self.checked.limits,
            _ => &mut self.checked.floors,
        };
        *count += u64::from(owed);
        Ok(())
    }
}

#[cfg(test)]
mod tests {
    use super::*;
    use crate::script::Line;

    /// Sees each line with an answer and the frames of two slots after it. What the last one was owed.
    fn seen(calls: &[(&str, Answer, [u64; 2])]) -> (Result<(), String>, Checked) {
        let mut watched = Demand3::default();
        watched.begin();
        let mut result = Ok(());
        for (text, answer, frames) in calls {
            let Line::Call { process, call } = Line::parse(text) else { panic!("{text}") };
            let slots = Slots { frames: frames.to_vec(), ..Slots::fresh(2) };
            assert_eq!(result, Ok(()), "before {text}");
            result = watched.see(process, &call, answer, &slots);
        }
        (result, watched.checked)
    }

    const EMPTY: [u64; 2] = [u64::MAX; 2];
    const SLOT: fn(u64) -> Answer = |mark| Answer::Slot { slot: 0, owner: 7, mark };

    /// Page 7 in the frames 1 and 2, published, and process 0 holds mark 2 in slot 0.
    fn held<'a>(register: &'a str, rest: &[(&'a str, Answer, [u64; 2])]) -> (Result<(), String>, Checked) {
        let begin = [
            ("record 0 7 1 0", Answer::Stored, EMPTY),
            ("record 0 7 2 0", Answer::Stored, EMPTY),
            ("commit 1 2 0 0 0", Answer::Done, EMPTY),
            (register, SLOT(2), [2, u64::MAX]),
        ];
        seen(&[&begin, rest].concat())
    }

    const HELD: [u64; 2] = [2, u64::MAX];

    #[test]
    fn answers_under_a_hold_are_those_of_the_book_when_it_began() {
        let (result, checked) = held(
            "reg 0 7 2 11",
            &[
                ("record 1 7 3 0", Answer::Stored, HELD),
                ("find 1 7 0 2 -", Answer::Frame(2), HELD),
                ("find 1 7 0 3 -", Answer::Frame(3), HELD), // above the mark
                ("find 1 7 0 2 3", Answer::Frame(3), HELD), // a watermark
                ("find 0 8 0 2 -", Answer::Nothing, HELD),
                ("list 0 0 1 9", Answer::List(vec![(7, 1)]), HELD),
                ("floor 1 00", Answer::Frame(2), HELD),
                ("floor 1 02", Answer::Refused(15), HELD),
                ("limit 1 00", Answer::Limit(2), HELD),
                ("rollback 1 2", Answer::Kept(2), HELD),
                ("find 1 7 2 2 -", Answer::Frame(2), HELD),
                ("between 1 7 0 2", Answer::Frame(1), HELD),
                ("between 1 7 1 2", Answer::Frame(2), HELD), // which one is undecided
                ("between 0 7 2 2", Answer::Frame(2), HELD),
                ("between 0 7 2 1", Answer::Nothing, HELD),
                ("between 1 8 0 2", Answer::Nothing, HELD),
                ("between 1 7 0 2", Answer::Refused(1), HELD),
                ("record 1 7 3 0", Answer::Stored, HELD),
                ("between 1 7 0 3", Answer::Frame(3), HELD), // above the mark
                ("nearest 1 7 2", Answer::Frame(9), HELD),   // nothing is owed of it
            ],
        );
        assert_eq!((result, checked), (Ok(()), Checked { lookups: 3, searches: 5, lists: 1, floors: 1, limits: 1 }));
    }

    #[test]
    fn what_is_not_owed_is_found() {
        for (call, answer) in [
            ("find 1 7 0 2 -", Answer::Frame(1)),
            ("find 1 7 0 2 -", Answer::Nothing),
            ("find 1 8 0 2 -", Answer::Frame(2)),
            ("between 1 7 0 2", Answer::Nothing),
            ("between 1 7 0 2", Answer::Frame(3)),
            ("between 1 7 1 1", Answer::Frame(2)),
            ("between 1 7 2 2", Answer::Nothing),
            ("between 1 8 0 2", Answer::Frame(2)),
            ("between 1 7 2 1", Answer::Frame(2)),
            ("list 1 0 2 9", Answer::List(vec![])),
            ("list 1 0 2 9", Answer::List(vec![(7, 2), (7, 2)])),
            ("floor 1 00", Answer::Nothing),
            ("floor 1 00", Answer::Frame(3)),
            ("limit 1 00", Answer::Limit(3)),
        ] {
            assert!(held("reg 0 7 2 11", &[(call, answer.clone(), HELD)]).0.is_err(), "{call} {answer}");
        }
    }

    #[test]
    fn a_direct_hold_ends_by_its_release_or_a_move() {
        let after = ("floor 1 00", Answer::Nothing, EMPTY);
        let ends = |call, answer| held("reg 0 7 2 11", &[(call, answer, EMPTY), after.clone()]).0.is_ok();
        assert!(ends("rel 0 0 7", Answer::Done));
        assert!(ends("upd 0 0 7 1", SLOT(1)));
        assert!(!ends("upd 0 0 7 2", SLOT(2)));
        assert!(!ends("rel 0 0 7", Answer::Refused(7)));
        assert!(!ends("rel 0 1 7", Answer::Done));
    }

    #[test]
    fn a_shared_hold_ends_by_as_many_releases() {
        let (join, release) = (("regs 0 8 2 11", SLOT(2), HELD), ("rels 0 2 0 7", Answer::Done, HELD));
        let after = ("floor 1 00", Answer::Nothing, EMPTY);
        let owed = |rest: &[_]| held("regs 0 7 2 11", &[rest, std::slice::from_ref(&after)].concat()).0.is_err();
        assert!(owed(&[]));
        assert!(!owed(std::slice::from_ref(&release)));
        assert!(owed(&[join.clone(), release.clone()]));
        assert!(!owed(&[join, release.clone(), release]));
    }

    #[test]
    fn nothing_is_owed_where_a_premise_fails() {
        let wrong = ("find 1 7 0 1 -", Answer::Nothing, HELD);
        let kept = |call, answer, frames| held("reg 0 7 2 11", &[(call, answer, frames), wrong.clone()]).0.is_err();
        assert!(kept("rollback 1 2", Answer::Kept(2), HELD));
        assert!(kept("rollback 1 0", Answer::Refused(1), HELD));
        assert!(!kept("rollback 1 1", Answer::Kept(1), HELD));
        // Another process changes the slot: by a call that may, and by one that may not.
        assert!(!kept("upd 1 0 7 1", SLOT(1), [1, u64::MAX]));
        assert!(!kept("floor 1 10", Answer::Nothing, EMPTY));
        assert!(kept("rel 1 0 7", Answer::Done, EMPTY));
        assert!(kept("record 1 7 3 0", Answer::Stored, EMPTY));
        // Marks that are 0, not in the index, or not published.
        let begins = |mark: u64, published: u64| {
            let (commit, register) = (format!("commit 0 {published} 0 0 0"), format!("reg 0 7 {mark} 11"));
            let calls = [
                ("record 0 7 1 0", Answer::Stored, EMPTY),
                ("record 0 7 3 0", Answer::Stored, EMPTY),
                (commit.as_str(), Answer::Done, EMPTY),
                (register.as_str(), SLOT(mark), HELD),
                ("floor 1 00", Answer::Nothing, HELD),
            ];
            seen(&calls).0.is_err()
        };
        assert!(begins(3, 3) && begins(1, 1));
        assert!(!begins(0, 3) && !begins(2, 3) && !begins(3, 2));
    }

    #[test]
    fn the_book_begins_anew_with_frame_1_before_anything_is_published() {
        let find = ("find 0 7 0 1 -", Answer::Nothing, HELD);
        let calls = |published| {
            [
                ("record 0 7 1 0", Answer::Stored, EMPTY),
                ("commit 0 0 0 0 0", Answer::Done, EMPTY),
                ("record 0 8 1 0", Answer::Stored, EMPTY),
                (published, Answer::Done, EMPTY),
                ("reg 0 7 1 11", SLOT(1), HELD),
                find.clone(),
            ]
        };
        assert_eq!(seen(&calls("commit 0 1 0 0 0")), (Ok(()), Checked { lookups: 1, ..Checked::default() }));
        assert_eq!(seen(&calls("commit 0 0 0 0 0")), (Ok(()), Checked::default()));
    }
}
