//! One script on the port, on the Rust, or on both with every cell compared after each call.

use crate::demand3::Demand3;
use crate::entry_searches::between;
use crate::looked::looked;
use crate::memory::{
    copy, differing_cells, Differing, Memory, Own, OwnCell, Record, Settings, SharedCell, Slots, View, BLOCK_ENTRIES,
    BLOCK_HASH_CELLS,
};
use crate::refusals::{refusal, rust_on_refusal, Asked, RustOnRefusal};
use crate::rust_did::RustDid;
use crate::script::{Answer, Call, Line, New};
use crate::sides::{Given, Lent, MakeRust, Panicked, Port, Rust};
use std::fmt;

/// The sides that a script runs on: the port, the Rust, or both.
#[derive(Clone, Copy, Default)]
pub struct Sides<'a> {
    pub port: Option<&'a dyn Port>,
    /// The port by another way, which must answer and leave every cell as the port does.
    pub process: Option<&'a dyn Port>,
    pub rust: Option<MakeRust>,
}

/// What a line comes to.
#[derive(Clone, Debug, PartialEq, Eq)]
pub enum Reply {
    /// A comment.
    Silent,
    New,
    /// A poke, a loan or settings.
    Set,
    Answer(Answer),
    Dump(String),
    /// A line of no known form, a cell or process that there isn't, or a call that the port does not have.
    Unknown,
}

impl fmt::Display for Reply {
    fn fmt(&self, f: &mut fmt::Formatter) -> fmt::Result {
        match self {
            Self::Silent => Ok(()),
            Self::New => f.write_str("new"),
            Self::Set => f.write_str("ok"),
            Self::Answer(answer) => answer.fmt(f),
            Self::Dump(line) => f.write_str(line),
            Self::Unknown => f.write_str("?"),
        }
    }
}

/// Where the sides part, or an answer is not the one that a hold is owed.
#[derive(Debug)]
pub struct Difference {
    pub line: Line,
    /// By whom, and what.
    pub answers: [(&'static str, String); 2],
    pub cells: Vec<String>,
}

impl Difference {
    fn new(line: &Line, sides: [&'static str; 2], answers: [String; 2], cells: &[Differing]) -> Box<Self> {
        let ([this, that], [one, other]) = (sides, answers);
        let cells = cells.iter().map(|cell| cell.between(sides)).collect();
        Box::new(Self { line: line.clone(), answers: [(this, one), (that, other)], cells })
    }
}

/// The sides' names in a difference.
const RUST: [&str; 2] = ["port", "Rust"];
const PROCESS: [&str; 2] = ["port", "Process"];

/// How many of the differing cells are shown.
const SHOWN_CELLS: usize = 40;

impl fmt::Display for Difference {
    fn fmt(&self, f: &mut fmt::Formatter) -> fmt::Result {
        writeln!(f, "difference at: {}", self.line)?;
        for (whose, answer) in &self.answers {
            writeln!(f, "  {whose}: {answer}")?;
        }
        for cell in self.cells.iter().take(SHOWN_CELLS) {
            writeln!(f, "  {cell}")?;
        }
        if self.cells.len() > SHOWN_CELLS {
            writeln!(f, "  and {} cells more", self.cells.len() - SHOWN_CELLS)?;
        }
        Ok(())
    }
}

/// The memory of each side, and what calls are given.
struct World {
    port: Option<Memory>,
    process: Option<Memory>,
    rust: Option<Box<dyn Rust>>,
    settings: Settings,
    lent: Lent,
}

/// The cells that are compared after each call, besides the answers.
#[derive(Clone, Copy, Debug, PartialEq, Eq)]
pub enum Cells {
    None,
    AllButIndex,
    All,
}

pub struct Session<'a> {
    sides: Sides<'a>,
    world: Option<World>,
    pub cells: Cells,
    pub calls: u64,
    /// Of these, the ones on the index.
    pub on_index: u64,
    /// And those on readers.
    pub on_readers: u64,
    pub refused: u64,
    /// Calls that went through the `process` side too.
    pub through_process: u64,
    pub demand3: Demand3,
}

impl<'a> Session<'a> {
    pub fn new(sides: Sides<'a>) -> Self {
        Self {
            sides,
            world: None,
            cells: Cells::All,
            calls: 0,
            on_index: 0,
            on_readers: 0,
            refused: 0,
            through_process: 0,
            demand3: Demand3::default(),
        }
    }

    /// The memory as it stands, of the port if it takes part; `None` before the first `new`.
    pub fn view(&self) -> Option<&dyn View> {
        self.world.as_ref().map(World::view)
    }

    pub fn settings(&self) -> Option<&Settings> {
        self.world.as_ref().map(|w| &w.settings)
    }

    /// What a call of process 0 on the port would be given; `None` before the first `new`.
    pub fn given(&mut self) -> Option<Given<'_>> {
        let World { port, settings, lent, .. } = self.world.as_mut()?;
        Some(Given { memory: port.as_mut()?, process: 0, settings: *settings, lent: *lent })
    }

    /// Copies the port's memory, which the Rust's is like after each call.
    pub fn keep(&self, kept: &mut Memory) {
        let port = self.world.as_ref().and_then(|world| world.port.as_ref());
        kept.copy_of(port.expect("memory of the port is kept"));
    }

    /// Gives both sides the memory that was kept.
    pub fn put_back(&mut self, kept: &Memory) {
        self.demand3.stop();
        let world = self.world.as_mut().expect("memory was kept");
        world.memories().for_each(|memory| memory.copy_of(kept));
        if let Some(rust) = &mut world.rust {
            rust.set_memory(kept);
        }
    }

    /// Gives both sides these slots and own cells.
    pub fn set_readers(&mut self, slots: &Slots, own: &[Own]) {
        self.demand3.stop();
        let world = self.world.as_mut().expect("a script opens with new");
        for memory in world.memories() {
            memory.slots.clone_from(slots);
            memory.processes.clone_from_slice(own);
        }
        if let Some(rust) = &mut world.rust {
            rust.set_readers(slots, own);
        }
    }

    /// What the Rust does with a call that is refused; `None` if the line is no such call. Nothing is changed.
    pub fn rust_on_refused(&mut self, line: &Line) -> Option<RustDid> {
        let world = self.world.as_mut()?;
        match line {
            Line::Call { process, call } if *process < world.processes() => world.rust_on_refused(*process, call),
            _ => None,
        }
    }

    pub fn step(&mut self, line: &Line) -> Result<Reply, Box<Difference>> {
        match line {
            Line::Comment(_) => return Ok(Reply::Silent),
            Line::Unknown(_) => return Ok(Reply::Unknown),
            Line::New(new) => {
                self.world = Some(World::new(&self.sides, new));
                self.demand3.begin();
                return Ok(Reply::New);
            }
            _ => {}
        }
        let Some(world) = &mut self.world else { return Ok(Reply::Unknown) };
        let reply = match line {
            Line::Call { process, call } if *process < world.processes() => {
                let reply = world.call(self.sides.port, *process, call, line, self.cells)?;
                let Reply::Answer(answer) = reply else { return Ok(reply) };
                let went = world.through_process(self.sides.process, *process, call, &answer, line, self.cells)?;
                self.through_process += u64::from(went);
                self.calls += 1;
                self.on_index += u64::from(call.is_on_index());
                self.on_readers += u64::from(call.is_on_readers());
                self.refused += u64::from(matches!(answer, Answer::Refused(_)));
                let frame_alone = answer.frame_alone();
                let seen = self.demand3.see(*process, call, &frame_alone, world.view().slots());
                seen.map_err(|owed| {
                    let answers = [("answer", answer.to_string()), ("demand 3", owed)];
                    Box::new(Difference { line: line.clone(), answers, cells: vec![] })
                })?;
                return Ok(Reply::Answer(if call.tells_cells() { answer } else { frame_alone }));
            }
            Line::Dump { process } if *process < world.processes() => return world.dump(*process, line),
            Line::Settings(settings) => {
                world.settings = *settings;
                if let Some(rust) = &mut world.rust {
                    rust.set_settings(settings);
                }
                true
            }
            Line::Lend { part, count } => {
                world.lent.set(*part, *count);
                true
            }
            Line::Poke { cell, index, value } => world.poke(*cell, *index, *value),
            Line::Own { process, cell, index, value } => world.poke_own(*process, *cell, *index, *value),
            Line::Registry { process, index, record } => world.poke_registry(*process, *index, *record),
            _ => false,
        };
        if !reply {
            return Ok(Reply::Unknown);
        }
        self.demand3.stop();
        Ok(Reply::Set)
    }
}

impl World {
    fn new(sides: &Sides, new: &New) -> Self {
        let fresh = |_| Memory::fresh(&new.settings, new.start_blocks, new.processes);
        Self {
            port: sides.port.map(fresh),
            process: sides.port.and(sides.process).map(fresh),
            rust: sides.rust.map(|make| make(new)),
            settings: new.settings,
            lent: Lent::default(),
        }
    }

    fn view(&self) -> &dyn View {
        match (&self.port, &self.rust) {
            (Some(memory), _) => memory,
            (None, Some(rust)) => &**rust,
            (None, None) => unreachable!("a session has a side"),
        }
    }

    /// That of the port, and that of the port by another way.
    fn memories(&mut self) -> impl Iterator<Item = &mut Memory> {
        [&mut self.port, &mut self.process].into_iter().flatten()
    }

    fn processes(&self) -> usize {
        self.view().processes().len()
    }

    fn call(
        &mut self,
        port: Option<&dyn Port>,
        process: usize,
        call: &Call,
        line: &Line,
        cells: Cells,
    ) -> Result<Reply, Box<Difference>> {
        let refused = self.refusal(process, call);
        let port_answer = match (port, &mut self.port) {
            (Some(port), Some(memory)) => {
                let given = Given { memory, process, settings: self.settings, lent: self.lent };
                match port.call(given, call) {
                    Some(answer) => Some(answer),
                    None => return Ok(Reply::Unknown),
                }
            }
            _ => None,
        };
        let Some(rust) = &mut self.rust else {
            return Ok(Reply::Answer(port_answer.expect("a session has a side")));
        };
        let rust_answer = match refused {
            Some(refused) => refused_by_rust(&mut **rust, process, call, &self.settings, refused),
            None => {
                let answer = rust.call(process, call).map_err(|Panicked(why)| format!("panicked: {why}"));
                answer.and_then(|answer| counted(&**rust, call, answer))
            }
        };
        let agree = match (&self.port, &port_answer) {
            (Some(memory), Some(answer)) => {
                rust_answer.as_ref().is_ok_and(|rust_answer| rust_answer.allows(answer))
                    && (cells == Cells::None || rust.same_readers(memory))
                    && (cells != Cells::All || rust.same_index(memory))
            }
            // The Rust alone: what it does must still agree with the table of refusals.
            _ => rust_answer.is_ok(),
        };
        match rust_answer {
            // The port's, which is one of those that an undecided answer names.
            Ok(answer) if agree => Ok(Reply::Answer(port_answer.unwrap_or(answer))),
            _ => {
                let answers = [
                    port_answer.map_or("not asked".into(), |answer| answer.to_string()),
                    rust_answer.map_or_else(|words| words, |answer| answer.to_string()),
                ];
                let cells = self.port.as_ref().map_or(Vec::new(), |memory| differing_cells(memory, &copy(&**rust)));
                Err(Difference::new(line, RUST, answers, &cells))
            }
        }
    }

    /// Makes a call that the port has answered by the other way too, and tells whether it could be made so.
    fn through_process(
        &mut self,
        side: Option<&dyn Port>,
        process: usize,
        call: &Call,
        answer: &Answer,
        line: &Line,
        cells: Cells,
    ) -> Result<bool, Box<Difference>> {
        let (Some(side), Some(port), Some(memory)) = (side, &self.port, &mut self.process) else { return Ok(false) };
        let given = Given { memory, process, settings: self.settings, lent: self.lent };
        let Some(other) = side.call(given, call) else {
            memory.copy_of(port);
            return Ok(false);
        };
        // A call that only reads is lent memory that Rust's types let nobody change.
        let cells = if call.only_reads() { Cells::None } else { cells };
        // Which of several frames a search gives is undecided, by either way.
        let allowed = match (call, answer) {
            (Call::FrameBetween { page, min, max }, Answer::Frame(_)) => between(memory, *page, *min, *max),
            _ => answer.clone(),
        };
        let agree = allowed.allows(&other)
            && (cells == Cells::None || memory.same_but_index(port))
            && (cells != Cells::All || memory.same_index(port));
        if agree {
            return Ok(true);
        }
        let answers = [answer.to_string(), other.to_string()];
        Err(Difference::new(line, PROCESS, answers, &differing_cells(port, memory)))
    }

    /// The number by the table of refusals, and what the Rust must do then. A list's length is the Rust's.
    fn refusal(&self, process: usize, call: &Call) -> Option<(u32, RustOnRefusal)> {
        let rust = self.rust.as_ref()?;
        let asked = Asked { call, process, settings: &self.settings, lent: &self.lent, memory: self.view() };
        let number = refusal(&asked, |min, max| rust.pairs(process, min, max))?;
        Some((number, rust_on_refusal(&asked, number)))
    }

    fn rust_on_refused(&mut self, process: usize, call: &Call) -> Option<RustDid> {
        if let (_, RustOnRefusal::NotAsked(why)) = self.refusal(process, call)? {
            return Some(RustDid::NotAsked(why));
        }
        let rust = self.rust.as_mut()?;
        let before = copy(&**rust);
        let mut after = Memory::default();
        let answer = rust.attempt(process, call, &self.settings, Some(&mut after));
        Some(RustDid::new(answer, &before, &after))
    }

    fn dump(&mut self, process: usize, line: &Line) -> Result<Reply, Box<Difference>> {
        let port = self.port.as_ref().map(|memory| memory.dump(process));
        let rust = self.rust.as_ref().map(|rust| copy(&**rust).dump(process));
        match (port, rust) {
            (Some(port), Some(rust)) if port != rust => Err(Difference::new(line, RUST, [port, rust], &[])),
            (Some(dump), _) | (None, Some(dump)) => Ok(Reply::Dump(dump)),
            (None, None) => unreachable!("a session has a side"),
        }
    }

    fn poke(&mut self, cell: SharedCell, index: u64, value: u64) -> bool {
        let view = self.view();
        let cells = match cell {
            SharedCell::Page | SharedCell::Frame => view.room_blocks() * BLOCK_ENTRIES,
            SharedCell::Hash => view.room_blocks() * BLOCK_HASH_CELLS,
            SharedCell::Bitmap => view.slots().bitmap.len(),
            SharedCell::SlotFrame | SharedCell::SlotOwner => view.slots().frames.len(),
            SharedCell::Header(_) => 1,
        };
        if index >= cells as u64 {
            return false;
        }
        self.memories().for_each(|memory| memory.poke(cell, index as usize, value));
        if let Some(rust) = &mut self.rust {
            rust.poke(cell, index as usize, value);
        }
        true
    }

    fn poke_own(&mut self, process: usize, cell: OwnCell, index: u64, value: u64) -> bool {
        let exists = |own: &Own| cell != OwnCell::LocalOwner || index < own.local_owners.len() as u64;
        if !self.view().processes().get(process).is_some_and(exists) {
            return false;
        }
        self.memories().for_each(|memory| memory.processes[process].poke(cell, index as usize, value));
        if let Some(rust) = &mut self.rust {
            rust.poke_own(process, cell, index as usize, value);
        }
        true
    }

    fn poke_registry(&mut self, process: usize, index: u64, record: Record) -> bool {
        let exists = |own: &Own| index < own.registry.len() as u64;
        if !self.view().processes().get(process).is_some_and(exists) {
            return false;
        }
        self.memories().for_each(|memory| memory.processes[process].registry[index as usize] = record);
        if let Some(rust) = &mut self.rust {
            rust.poke_registry(process, index as usize, record);
        }
        true
    }
}

/// The Rust's answer, of a lookup with the cells that the second reading counts. That one must find the Rust's frame.
fn counted(rust: &dyn Rust, call: &Call, answer: Answer) -> Result<Answer, String> {
    let Call::FindFrame { page, min, max, watermark, .. } = *call else { return Ok(answer) };
    let read = looked(rust, page, min, max, watermark);
    if read.frame_alone() == answer {
        Ok(read)
    } else {
        Err(format!("{answer}; by the second reading {read}"))
    }
}

/// A refused call on the Rust: it must panic or accept as the table of refusals says, and is then undone.
fn refused_by_rust(
    rust: &mut dyn Rust,
    process: usize,
    call: &Call,
    settings: &Settings,
    (number, expected): (u32, RustOnRefusal),
) -> Result<Answer, String> {
    if !matches!(expected, RustOnRefusal::NotAsked(_)) {
        match (rust.attempt(process, call, settings, None), expected) {
            (Ok(answer), RustOnRefusal::Panics) => return Err(format!("{answer}, where {number} is due")),
            (Err(Panicked(why)), RustOnRefusal::Accepts) => {
                return Err(format!("panicked where {number} is due and acceptance expected: {why}"));
            }
            _ => {}
        }
    }
    Ok(Answer::Refused(number))
}
