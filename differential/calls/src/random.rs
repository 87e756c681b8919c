//! Scripts of the tool's own making, aimed at the corners of document 01.

pub mod cases;
mod dice;
mod header;
mod holds;
mod index;
pub mod inputs;
mod readers;

use crate::demand3::Checked;
use crate::memory::{Memory, Settings, View, BLOCK_ENTRIES, BLOCK_HASH_CELLS, LINUX_OFD, PROCESS_SCOPED_FCNTL};
use crate::script::{Call, Line, New, Part, PARTS};
use crate::session::{Difference, Session, Sides};
use crate::sides::{Given, Lent};
use dice::Dice;
use std::time::{Duration, Instant};

/// What a run of random scripts came to.
#[derive(Default)]
pub struct Tally {
    pub calls: u64,
    pub on_index: u64,
    pub on_readers: u64,
    pub refused: u64,
    pub through_process: u64,
    /// Under a hold.
    pub checked: Checked,
}

/// A difference, with the shortest script found that shows it.
pub struct Found {
    pub script: Vec<Line>,
    pub difference: Box<Difference>,
}

/// Which scripts are made.
pub struct Wanted {
    pub seed: u64,
    pub sequences: u64,
    /// The families that scripts are made of, as far as the port has their calls; none: all.
    pub families: Vec<Family>,
}

impl Wanted {
    /// Scripts of all families.
    pub fn all(seed: u64, sequences: u64) -> Self {
        Self { seed, sequences, families: Vec::new() }
    }
}

/// Runs scripts made from the seed until they are through or one shows a difference. `each` gets every script.
pub fn run(sides: Sides, wanted: &Wanted, mut each: impl FnMut(&[Line])) -> Result<Tally, Found> {
    let Wanted { seed, sequences, .. } = *wanted;
    let mut families = Family::offered(&sides);
    families.retain(|family| wanted.families.is_empty() || wanted.families.contains(family));
    let mut tally = Tally::default();
    if families.is_empty() {
        return Ok(tally);
    }
    for sequence in 0..sequences {
        let mut maker = Maker::new(Dice::new(seed, sequence), &families);
        let mut session = Session::new(sides);
        let mut script = Vec::new();
        for line in maker.opening() {
            step(line, &mut session, &mut script, sides)?;
        }
        for _ in 0..maker.length() {
            let line = maker.line(&session);
            step(line, &mut session, &mut script, sides)?;
        }
        each(&script);
        tally.calls += session.calls;
        tally.on_index += session.on_index;
        tally.on_readers += session.on_readers;
        tally.refused += session.refused;
        tally.through_process += session.through_process;
        tally.checked.add(&session.demand3.checked);
    }
    Ok(tally)
}

/// Adds a line to the script and makes it.
fn step(line: Line, session: &mut Session, script: &mut Vec<Line>, sides: Sides) -> Result<(), Found> {
    let made = session.step(&line);
    script.push(line);
    made.map(|_| ()).map_err(|_| shortest(sides, std::mem::take(script)))
}

/// How long a failing script is shortened.
fn shortening() -> Duration {
    let seconds = std::env::var("WAL_COMPARE_SHORTENING").ok().and_then(|word| word.parse().ok());
    Duration::from_secs(seconds.unwrap_or(20))
}

/// Drops lines, many at once and then fewer, as long as a difference is left.
pub(crate) fn shortest(sides: Sides, mut script: Vec<Line>) -> Found {
    let end = Instant::now() + shortening();
    let mut difference = fails(sides, &script).expect("the script shows a difference");
    let mut drop = script.len() / 2;
    while drop > 0 {
        let mut at = 0;
        let before = script.len();
        while at < script.len() && Instant::now() < end {
            let shorter: Vec<Line> = script
                .iter()
                .enumerate()
                .filter(|(i, _)| !(at..at + drop).contains(i))
                .map(|(_, l)| l.clone())
                .collect();
            match fails(sides, &shorter) {
                Some(found) => (script, difference) = (shorter, found),
                None => at += drop,
            }
        }
        if drop > 1 || script.len() == before {
            drop /= 2;
        }
    }
    Found { script, difference }
}

fn fails(sides: Sides, script: &[Line]) -> Option<Box<Difference>> {
    let mut session = Session::new(sides);
    script.iter().find_map(|line| session.step(line).err())
}

#[derive(Clone, Copy, Debug, PartialEq, Eq)]
pub enum Family {
    /// Publishes, bumps and the two locks.
    Header,
    /// Record, rollback, lookup, search and list.
    Index,
    /// Slots, floor and copy-back limit.
    Readers,
    /// The shared marks.
    Shared,
    /// Readers' holds with all calls around them, and nothing else: what demand 3 is about.
    Holds,
}

impl Family {
    pub fn named(word: &str) -> Option<Self> {
        Some(match word {
            "header" => Self::Header,
            "index" => Self::Index,
            "readers" => Self::Readers,
            "shared" => Self::Shared,
            "holds" => Self::Holds,
            _ => return None,
        })
    }

    /// The families that a script can be made of: those whose calls the port has.
    fn offered(sides: &Sides) -> Vec<Self> {
        let examples = [
            (Self::Header, Call::BumpCheckpointSeq),
            (Self::Index, Call::RecordFrame { page: 1, frame: 1, grow: false }),
            (Self::Readers, Call::RegisterReader { owner: 1, mark: 1, card: vec![1] }),
            (Self::Shared, Call::RegisterReaderForSnapshot { owner: 1, mark: 1, card: vec![1] }),
            (Self::Holds, Call::MinActiveReaderFrame { card: vec![1] }),
        ];
        let has = |call: &Call| {
            let settings = Settings { capacity: 1, max_blocks: 1, slots: 1, mode: LINUX_OFD };
            let mut memory = Memory::fresh(&settings, 1, 1);
            let given = Given { memory: &mut memory, process: 0, settings, lent: Lent::default() };
            sides.port.is_none_or(|port| port.call(given, call).is_some())
        };
        examples.into_iter().filter(|(_, call)| has(call)).map(|(family, _)| family).collect()
    }
}

/// Makes one script.
struct Maker<'a> {
    dice: Dice,
    families: &'a [Family],
    /// The family that the opening is of, and most lines.
    family: Family,
    /// Whether each line is of any family.
    mixed: bool,
}

impl<'a> Maker<'a> {
    fn new(mut dice: Dice, families: &'a [Family]) -> Self {
        let (family, mixed) = (dice.of(families), dice.one_in(3));
        Self { dice, families, family, mixed }
    }

    /// How many lines follow the opening.
    fn length(&mut self) -> u64 {
        match self.family {
            Family::Holds => self.dice.between(40, 200),
            _ => self.dice.between(5, 70),
        }
    }

    /// `new`, and often an index that is filled already, or slots that are taken.
    fn opening(&mut self) -> Vec<Line> {
        let mode = self.dice.of(&[LINUX_OFD, PROCESS_SCOPED_FCNTL]);
        let processes = self.dice.of(&[1, 2, 2, 3, 4]);
        let on_readers = matches!(self.family, Family::Readers | Family::Shared | Family::Holds);
        let slots = if on_readers || self.dice.one_in(2) { self.slot_count() } else { self.dice.between(1, 4) as u32 };
        let (mut capacity, mut max_blocks) = (self.dice.of(&[1, 8, 4096, 65_536]), 1);
        if self.family == Family::Index {
            max_blocks = self.dice.of(&[1, 1, 1, 1, 2, 2, 2, 3, 3, 4, 4]);
            if self.dice.one_in(8) {
                max_blocks = self.dice.between(1, 16) as u32;
            }
            capacity = match max_blocks {
                2.. if !self.dice.one_in(3) => self.dice.of(&[65_536, 65_535, max_blocks * 4096]),
                _ => self.dice.of(&[1, 2, 3, 17, 4095, 4096, 4097, 8191, 8192, 8193, 12_289, 65_535, 65_536]),
            };
        }
        if self.family == Family::Holds {
            (capacity, max_blocks) = (self.dice.of(&[5, 20, 60, 4096, 65_536]), self.dice.of(&[1, 1, 1, 2]));
        }
        let start_blocks = self.dice.between(0, max_blocks.into()) as u32;
        let settings = Settings { capacity, max_blocks, slots, mode };
        let mut lines = vec![Line::New(New { settings, start_blocks, processes })];
        if self.family == Family::Index {
            match self.dice.below(40) {
                0 => self.crowding(&mut lines),
                1..=18 => self.filling(&settings, &mut lines),
                19..=22 => self.hot_pages(&settings, &mut lines),
                _ => {}
            }
        }
        if self.family == Family::Holds {
            self.before_holds(&settings, processes, &mut lines);
        } else if on_readers && self.dice.one_in(4) {
            self.occupying(&settings, processes, &mut lines);
        }
        lines
    }

    /// Slots around each number of bitmap words; from 129 to 161 the Rust's blocks are moved.
    fn slot_count(&mut self) -> u32 {
        self.dice.of(&[1, 2, 2, 3, 3, 4, 5, 8, 63, 64, 65, 127, 128, 129, 150, 161, 162, 192, 255, 256])
    }

    fn line(&mut self, session: &Session) -> Line {
        let view = session.view().expect("a script opens with new");
        let settings = session.settings().expect("a script opens with new");
        if self.family == Family::Holds {
            return self.hold_line(view, settings);
        }
        let fitting = Settings {
            capacity: settings.capacity.clamp(1, 65_536),
            max_blocks: view.room_blocks() as u32,
            slots: view.slots().frames.len() as u32,
            mode: settings.mode.min(PROCESS_SCOPED_FCNTL),
        };
        if *settings != fitting && self.dice.one_in(10) {
            return Line::Settings(fitting);
        }
        if self.dice.one_in(40) {
            return self.settings_or_loan(fitting);
        }
        let any = self.mixed || self.dice.one_in(8);
        let family = if any { self.dice.of(self.families) } else { self.family };
        match family {
            Family::Header => self.header_line(view),
            Family::Index => self.index_line(view, settings),
            Family::Readers => self.reader_line(view, settings),
            Family::Shared => self.shared_line(view, settings),
            Family::Holds => self.hold_line(view, settings),
        }
    }

    /// Settings and loans, bad ones too, by those that fit the memory.
    fn settings_or_loan(&mut self, fitting: Settings) -> Line {
        match self.dice.below(8) {
            0 => {
                let capacity = self.dice.of(&[0, 1, 5, 4096, 65_536, 65_537, u32::MAX]);
                Line::Settings(Settings { capacity, ..fitting })
            }
            1 => Line::Settings(Settings { max_blocks: self.dice.of(&[0, 1, 2, 16, 17, u32::MAX]), ..fitting }),
            2 => Line::Settings(Settings { slots: self.dice.of(&[0, 1, 2, 64, 65, 256, 257, u32::MAX]), ..fitting }),
            3 => Line::Settings(Settings { mode: self.dice.of(&[0, 1, 2, 3, u32::MAX]), ..fitting }),
            4 => {
                let part = self.dice.of(&PARTS).1;
                let most = if self.dice.one_in(2) { 9 } else { 9000 };
                Line::Lend { part, count: Some(self.dice.below(most)) }
            }
            5 => {
                // As many cells as the index needs, or one fewer.
                let blocks = self.dice.between(1, fitting.max_blocks.into());
                let part = self.dice.of(&[Part::Pages, Part::Frames, Part::Hash]);
                let cells = if part == Part::Hash { BLOCK_HASH_CELLS } else { BLOCK_ENTRIES } as u64;
                Line::Lend { part, count: Some(cells * blocks - self.dice.below(2)) }
            }
            _ => Line::Lend { part: self.dice.of(&PARTS).1, count: None },
        }
    }

    fn process(&mut self, view: &dyn View) -> usize {
        self.dice.index(view.processes().len())
    }

    /// Numbers near the cells' values and at the ends of the types.
    fn number_near(&mut self, value: u64) -> u64 {
        match self.dice.below(8) {
            0 => value,
            1 => value.wrapping_add(1),
            2 => value.wrapping_sub(1),
            3 => self.dice.below(4),
            4 => u64::MAX - self.dice.below(2),
            5 => (1 << 32) - 1 + self.dice.below(2),
            6 => self.dice.roll() >> self.dice.below(64),
            _ => self.dice.below(20),
        }
    }

    fn word(&mut self) -> u32 {
        let near = self.number_near(u32::MAX.into());
        near as u32
    }

    /// Owners are few, so that processes offer the same.
    fn owner(&mut self) -> u64 {
        self.dice.of(&[1, 1, 2, 2, 3, (1 << 32) + 1, (7 << 32) + 2, u64::MAX, 0])
    }
}
