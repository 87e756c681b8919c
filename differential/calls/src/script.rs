//! The lines of a call script, read and written.

use crate::memory::{HeaderCell, OwnCell, Record, Settings, SharedCell, HEADER_CELLS, LINUX_OFD, PROCESS_SCOPED_FCNTL};
use std::collections::BTreeSet;
use std::fmt;
use std::str::FromStr;

/// The lock answers of a call, one byte a slot.
pub type Card = Vec<u8>;

/// One call with its arguments, by its name in the Rust, or in the port where the Rust does not have it. With `cells` a
/// lookup's answer tells the hash cells that it looked at.
#[derive(Clone, Debug, PartialEq, Eq)]
pub enum Call {
    RecordFrame { page: u64, frame: u64, grow: bool },
    RollbackFrames { bound: u64 },
    FindFrame { page: u64, min: u64, max: u64, watermark: Option<u64>, cells: bool },
    FrameBetween { page: u64, min: u64, max: u64 },
    NearestFrame { page: u64, to: u64 },
    IterLatestFrames { min: u64, max: u64, room: u64 },
    RegisterReader { owner: u64, mark: u64, card: Card },
    RegisterReaderForSnapshot { owner: u64, mark: u64, card: Card },
    RegisterDbFileReader { owner: u64, card: Card },
    UpdateReader { slot: u32, owner: u64, mark: u64 },
    UnregisterReader { slot: u32, owner: u64 },
    UnregisterReaderForSnapshot { mark: u64, slot: u32, owner: u64 },
    MinActiveReaderFrame { card: Card },
    HasActiveDbFileReader { card: Card },
    CopyBackLimit { card: Card },
    TryAcquireWriter { owner: u64, byte: u8 },
    TryAcquireCheckpoint { owner: u64, byte: u8 },
    ReleaseWriter { owner: u64 },
    ReleaseCheckpoint { owner: u64 },
    PublishCommit { max_frame: u64, checksum_1: u32, checksum_2: u32, transaction_count: u64 },
    PublishBackfill { nbackfills: u64 },
    BumpCheckpointSeq,
    BumpCheckpointEpoch,
    OwnerNew { pid: u32, instance_id: u32 },
    OwnerParts { owner: u64 },
}

/// What a call answers.
#[derive(Clone, Debug, PartialEq, Eq)]
pub enum Answer {
    Stored,
    Dropped,
    Kept(u32),
    Frame(u64),
    Nothing,
    /// One of these frames, two at least, by rising number; which one is undecided. The port never answers so.
    OneOf(Vec<u64>),
    /// The frame of a lookup, and how many hash cells it looked at.
    Looked {
        frame: Option<u64>,
        cells: u32,
    },
    List(Vec<(u64, u64)>),
    Slot {
        slot: u32,
        owner: u64,
        mark: u64,
    },
    Limit(u64),
    /// Whether a reader reads only the database file.
    Active(bool),
    Acquired(bool),
    Done,
    Seq(u32),
    Epoch(u32),
    Owner(u64),
    Parts {
        pid: u32,
        instance_id: u32,
    },
    Refused(u32),
    /// A reply that the C interface rules out, told in words.
    Odd(String),
}

/// A lent part.
#[derive(Clone, Copy, Debug, PartialEq, Eq)]
pub enum Part {
    Pages,
    Frames,
    Hash,
    Bitmap,
    SlotFrames,
    SlotOwners,
    LocalOwners,
    Registry,
}

pub const PARTS: [(&str, Part); 8] = [
    ("pages", Part::Pages),
    ("frames", Part::Frames),
    ("hash", Part::Hash),
    ("bitmap", Part::Bitmap),
    ("sframes", Part::SlotFrames),
    ("sowners", Part::SlotOwners),
    ("lowners", Part::LocalOwners),
    ("registry", Part::Registry),
];

/// `new`: fresh memory. The settings are within document 01's limits.
#[derive(Clone, Copy, Debug, PartialEq, Eq)]
pub struct New {
    pub settings: Settings,
    pub start_blocks: u32,
    pub processes: usize,
}

/// The most processes that a script may have.
pub const MOST_PROCESSES: usize = 64;

#[derive(Clone, Debug, PartialEq, Eq)]
pub enum Line {
    New(New),
    Call {
        process: usize,
        call: Call,
    },
    Poke {
        cell: SharedCell,
        index: u64,
        value: u64,
    },
    Own {
        process: usize,
        cell: OwnCell,
        index: u64,
        value: u64,
    },
    Registry {
        process: usize,
        index: u64,
        record: Record,
    },
    Lend {
        part: Part,
        count: Option<u64>,
    },
    Settings(Settings),
    Dump {
        process: usize,
    },
    Comment(String),
    /// A line of no known form.
    Unknown(String),
}

/// The words and numbers of a line, taken from the left.
struct Words<'a>(std::str::Split<'a, char>);

impl<'a> Words<'a> {
    fn word(&mut self) -> Option<&'a str> {
        self.0.next()
    }

    /// A number in plain digits that fits its type.
    fn number<T: FromStr>(&mut self) -> Option<T> {
        number(self.word()?)
    }

    /// A number, or `-` for none.
    fn number_or_dash(&mut self) -> Option<Option<u64>> {
        match self.word()? {
            "-" => Some(None),
            word => number(word).map(Some),
        }
    }

    fn zero_or_one(&mut self) -> Option<bool> {
        match self.number::<u64>()? {
            0 => Some(false),
            1 => Some(true),
            _ => None,
        }
    }

    fn card(&mut self) -> Option<Card> {
        match self.word()? {
            "-" => Some(Vec::new()),
            "" => None,
            row => row.bytes().map(|b| b.is_ascii_digit().then(|| b - b'0')).collect(),
        }
    }

    /// `O` or `F`.
    fn mode(&mut self) -> Option<u32> {
        mode(self.word()?)
    }

    /// `O`, `F`, or the number of a mode that is neither.
    fn any_mode(&mut self) -> Option<u32> {
        let word = self.word()?;
        mode(word).or_else(|| number(word).filter(|&m| m > PROCESS_SCOPED_FCNTL))
    }
}

/// 1 to 20 digits.
fn number<T: FromStr>(word: &str) -> Option<T> {
    (word.len() <= 20 && word.bytes().all(|b| b.is_ascii_digit())).then(|| word.parse().ok())?
}

fn mode(word: &str) -> Option<u32> {
    match word {
        "O" => Some(LINUX_OFD),
        "F" => Some(PROCESS_SCOPED_FCNTL),
        _ => None,
    }
}

impl Line {
    pub fn parse(text: &str) -> Self {
        if text.starts_with('#') {
            return Self::Comment(text.into());
        }
        let mut words = Words(text.split(' '));
        let line = Self::known(&mut words).filter(|_| words.word().is_none());
        line.unwrap_or_else(|| Self::Unknown(text.into()))
    }

    fn known(w: &mut Words) -> Option<Self> {
        Some(match w.word()? {
            "new" => {
                let (capacity, max_blocks, start_blocks, slots) = (w.number()?, w.number()?, w.number()?, w.number()?);
                let settings = Settings { capacity, max_blocks, slots, mode: w.mode()? };
                let processes = w.number()?;
                let good = settings.good_capacity()
                    && settings.good_max_blocks()
                    && start_blocks <= max_blocks
                    && settings.good_slots()
                    && (1..=MOST_PROCESSES).contains(&processes);
                good.then_some(Self::New(New { settings, start_blocks, processes }))?
            }
            "poke" => {
                let word = w.word()?;
                let cell = shared_cell(word)?;
                let (index, value) = (w.number()?, w.number()?);
                let greatest = match cell {
                    SharedCell::Header(_) if index != 0 => return None,
                    SharedCell::Header(cell) => cell.greatest(),
                    SharedCell::Hash => u16::MAX as u64,
                    _ => u64::MAX,
                };
                (value <= greatest).then_some(Self::Poke { cell, index, value })?
            }
            "own" => {
                let process = w.number()?;
                let cell = own_cell(w.word()?)?;
                let (index, value) = (w.number()?, w.number()?);
                (index == 0 || cell == OwnCell::LocalOwner).then_some(Self::Own { process, cell, index, value })?
            }
            "registry" => {
                let (process, index) = (w.number()?, w.number()?);
                let record = Record::new(w.number()?, w.number()?, w.number()?, w.number()?);
                Self::Registry { process, index, record }
            }
            "lend" => {
                let word = w.word()?;
                let part = PARTS.iter().find(|(name, _)| *name == word)?.1;
                Self::Lend { part, count: w.number_or_dash()? }
            }
            "settings" => Self::Settings(Settings {
                capacity: w.number()?,
                max_blocks: w.number()?,
                slots: w.number()?,
                mode: w.any_mode()?,
            }),
            "dump" => Self::Dump { process: w.number()? },
            word => {
                let process = w.number()?;
                Self::Call { process, call: Call::known(word, w)? }
            }
        })
    }
}

fn shared_cell(word: &str) -> Option<SharedCell> {
    Some(match word {
        "page" => SharedCell::Page,
        "frame" => SharedCell::Frame,
        "hash" => SharedCell::Hash,
        "bitmap" => SharedCell::Bitmap,
        "sframe" => SharedCell::SlotFrame,
        "sowner" => SharedCell::SlotOwner,
        _ => SharedCell::Header(HEADER_CELLS.iter().find(|(name, _)| *name == word)?.1),
    })
}

fn shared_cell_word(cell: SharedCell) -> &'static str {
    match cell {
        SharedCell::Page => "page",
        SharedCell::Frame => "frame",
        SharedCell::Hash => "hash",
        SharedCell::Bitmap => "bitmap",
        SharedCell::SlotFrame => "sframe",
        SharedCell::SlotOwner => "sowner",
        SharedCell::Header(cell) => header_cell_word(cell),
    }
}

fn header_cell_word(cell: HeaderCell) -> &'static str {
    HEADER_CELLS.iter().find(|(_, c)| *c == cell).expect("every header cell has a word").0
}

fn own_cell(word: &str) -> Option<OwnCell> {
    Some(match word {
        "lowner" => OwnCell::LocalOwner,
        "lwriter" => OwnCell::LocalWriter,
        "lckpt" => OwnCell::LocalCheckpoint,
        _ => return None,
    })
}

impl Call {
    /// Record, rollback, lookup, search over the entries and list.
    pub fn is_on_index(&self) -> bool {
        matches!(
            self,
            Self::RecordFrame { .. }
                | Self::RollbackFrames { .. }
                | Self::FindFrame { .. }
                | Self::FrameBetween { .. }
                | Self::NearestFrame { .. }
                | Self::IterLatestFrames { .. }
        )
    }

    /// The searches over the entries, which the Rust does not have.
    pub fn is_entry_search(&self) -> bool {
        matches!(self, Self::FrameBetween { .. } | Self::NearestFrame { .. })
    }

    /// Lookup, search, list, and an owner's numbers: calls that can change no cell.
    pub fn only_reads(&self) -> bool {
        self.is_entry_search()
            || matches!(
                self,
                Self::FindFrame { .. }
                    | Self::IterLatestFrames { .. }
                    | Self::OwnerNew { .. }
                    | Self::OwnerParts { .. }
            )
    }

    /// Whether the answer tells the hash cells that were looked at.
    pub fn tells_cells(&self) -> bool {
        matches!(self, Self::FindFrame { cells: true, .. })
    }

    /// Slots, shared marks, floor and copy-back limit.
    pub fn is_on_readers(&self) -> bool {
        matches!(
            self,
            Self::RegisterReader { .. }
                | Self::RegisterReaderForSnapshot { .. }
                | Self::RegisterDbFileReader { .. }
                | Self::UpdateReader { .. }
                | Self::UnregisterReader { .. }
                | Self::UnregisterReaderForSnapshot { .. }
                | Self::MinActiveReaderFrame { .. }
                | Self::HasActiveDbFileReader { .. }
                | Self::CopyBackLimit { .. }
        )
    }

    fn known(word: &str, w: &mut Words) -> Option<Self> {
        Some(match word {
            "record" => Self::RecordFrame { page: w.number()?, frame: w.number()?, grow: w.zero_or_one()? },
            "rollback" => Self::RollbackFrames { bound: w.number()? },
            "find" | "looked" => Self::FindFrame {
                page: w.number()?,
                min: w.number()?,
                max: w.number()?,
                watermark: w.number_or_dash()?,
                cells: word == "looked",
            },
            "between" => Self::FrameBetween { page: w.number()?, min: w.number()?, max: w.number()? },
            "nearest" => Self::NearestFrame { page: w.number()?, to: w.number()? },
            "list" => Self::IterLatestFrames { min: w.number()?, max: w.number()?, room: w.number()? },
            "reg" => Self::RegisterReader { owner: w.number()?, mark: w.number()?, card: w.card()? },
            "regs" => Self::RegisterReaderForSnapshot { owner: w.number()?, mark: w.number()?, card: w.card()? },
            "regdb" => Self::RegisterDbFileReader { owner: w.number()?, card: w.card()? },
            "upd" => Self::UpdateReader { slot: w.number()?, owner: w.number()?, mark: w.number()? },
            "rel" => Self::UnregisterReader { slot: w.number()?, owner: w.number()? },
            "rels" => Self::UnregisterReaderForSnapshot { mark: w.number()?, slot: w.number()?, owner: w.number()? },
            "floor" => Self::MinActiveReaderFrame { card: w.card()? },
            "dbreader" => Self::HasActiveDbFileReader { card: w.card()? },
            "limit" => Self::CopyBackLimit { card: w.card()? },
            "acqw" => Self::TryAcquireWriter { owner: w.number()?, byte: w.number()? },
            "acqc" => Self::TryAcquireCheckpoint { owner: w.number()?, byte: w.number()? },
            "relw" => Self::ReleaseWriter { owner: w.number()? },
            "relc" => Self::ReleaseCheckpoint { owner: w.number()? },
            "commit" => Self::PublishCommit {
                max_frame: w.number()?,
                checksum_1: w.number()?,
                checksum_2: w.number()?,
                transaction_count: w.number()?,
            },
            "backfill" => Self::PublishBackfill { nbackfills: w.number()? },
            "seq" => Self::BumpCheckpointSeq,
            "epoch" => Self::BumpCheckpointEpoch,
            "owner" => Self::OwnerNew { pid: w.number()?, instance_id: w.number()? },
            "parts" => Self::OwnerParts { owner: w.number()? },
            _ => return None,
        })
    }

    fn write(&self, process: usize, f: &mut fmt::Formatter) -> fmt::Result {
        let p = process;
        match self {
            Self::RecordFrame { page, frame, grow } => write!(f, "record {p} {page} {frame} {}", u8::from(*grow)),
            Self::RollbackFrames { bound } => write!(f, "rollback {p} {bound}"),
            Self::FindFrame { page, min, max, watermark, cells } => {
                let word = if *cells { "looked" } else { "find" };
                write!(f, "{word} {p} {page} {min} {max} {}", dash_or(watermark))
            }
            Self::FrameBetween { page, min, max } => write!(f, "between {p} {page} {min} {max}"),
            Self::NearestFrame { page, to } => write!(f, "nearest {p} {page} {to}"),
            Self::IterLatestFrames { min, max, room } => write!(f, "list {p} {min} {max} {room}"),
            Self::RegisterReader { owner, mark, card } => write!(f, "reg {p} {owner} {mark} {}", row(card)),
            Self::RegisterReaderForSnapshot { owner, mark, card } => {
                write!(f, "regs {p} {owner} {mark} {}", row(card))
            }
            Self::RegisterDbFileReader { owner, card } => write!(f, "regdb {p} {owner} {}", row(card)),
            Self::UpdateReader { slot, owner, mark } => write!(f, "upd {p} {slot} {owner} {mark}"),
            Self::UnregisterReader { slot, owner } => write!(f, "rel {p} {slot} {owner}"),
            Self::UnregisterReaderForSnapshot { mark, slot, owner } => write!(f, "rels {p} {mark} {slot} {owner}"),
            Self::MinActiveReaderFrame { card } => write!(f, "floor {p} {}", row(card)),
            Self::HasActiveDbFileReader { card } => write!(f, "dbreader {p} {}", row(card)),
            Self::CopyBackLimit { card } => write!(f, "limit {p} {}", row(card)),
            Self::TryAcquireWriter { owner, byte } => write!(f, "acqw {p} {owner} {byte}"),
            Self::TryAcquireCheckpoint { owner, byte } => write!(f, "acqc {p} {owner} {byte}"),
            Self::ReleaseWriter { owner } => write!(f, "relw {p} {owner}"),
            Self::ReleaseCheckpoint { owner } => write!(f, "relc {p} {owner}"),
            Self::PublishCommit { max_frame, checksum_1, checksum_2, transaction_count } => {
                write!(f, "commit {p} {max_frame} {checksum_1} {checksum_2} {transaction_count}")
            }
            Self::PublishBackfill { nbackfills } => write!(f, "backfill {p} {nbackfills}"),
            Self::BumpCheckpointSeq => write!(f, "seq {p}"),
            Self::BumpCheckpointEpoch => write!(f, "epoch {p}"),
            Self::OwnerNew { pid, instance_id } => write!(f, "owner {p} {pid} {instance_id}"),
            Self::OwnerParts { owner } => write!(f, "parts {p} {owner}"),
        }
    }
}

fn dash_or(number: &Option<u64>) -> String {
    number.map_or("-".into(), |n| n.to_string())
}

fn row(card: &Card) -> String {
    match card.as_slice() {
        [] => "-".into(),
        bytes => bytes.iter().map(|b| char::from(b'0' + b)).collect(),
    }
}

fn mode_word(mode: u32) -> String {
    match mode {
        LINUX_OFD => "O".into(),
        PROCESS_SCOPED_FCNTL => "F".into(),
        other => other.to_string(),
    }
}

impl fmt::Display for Line {
    fn fmt(&self, f: &mut fmt::Formatter) -> fmt::Result {
        match self {
            Self::New(New { settings: s, start_blocks, processes }) => {
                let mode = mode_word(s.mode);
                write!(f, "new {} {} {start_blocks} {} {mode} {processes}", s.capacity, s.max_blocks, s.slots)
            }
            Self::Call { process, call } => call.write(*process, f),
            Self::Poke { cell, index, value } => write!(f, "poke {} {index} {value}", shared_cell_word(*cell)),
            Self::Own { process, cell, index, value } => {
                let word = match cell {
                    OwnCell::LocalOwner => "lowner",
                    OwnCell::LocalWriter => "lwriter",
                    OwnCell::LocalCheckpoint => "lckpt",
                };
                write!(f, "own {process} {word} {index} {value}")
            }
            Self::Registry { process, index, record: r } => {
                write!(f, "registry {process} {index} {} {} {} {}", r.mark, r.slot, r.owner, r.holders)
            }
            Self::Lend { part, count } => {
                let word = PARTS.iter().find(|(_, p)| p == part).expect("every part has a word").0;
                write!(f, "lend {word} {}", dash_or(count))
            }
            Self::Settings(s) => {
                write!(f, "settings {} {} {} {}", s.capacity, s.max_blocks, s.slots, mode_word(s.mode))
            }
            Self::Dump { process } => write!(f, "dump {process}"),
            Self::Comment(text) | Self::Unknown(text) => f.write_str(text),
        }
    }
}

/// How many frames of an undecided answer are shown.
const SHOWN_FRAMES: usize = 5;

impl Answer {
    /// Any of these frames; none if there is none.
    pub fn one_of(frames: impl Iterator<Item = u64>) -> Self {
        let frames: Vec<u64> = frames.collect::<BTreeSet<_>>().into_iter().collect();
        match frames[..] {
            [] => Self::Nothing,
            [frame] => Self::Frame(frame),
            _ => Self::OneOf(frames),
        }
    }

    /// Whether an answer is this one, or where this one is undecided any of its frames.
    pub fn allows(&self, answer: &Self) -> bool {
        match (self, answer) {
            (Self::OneOf(frames), Self::Frame(frame)) => frames.binary_search(frame).is_ok(),
            _ => self == answer,
        }
    }

    /// Of a lookup the frame without the cells; any other answer as it is.
    pub fn frame_alone(&self) -> Self {
        match self {
            Self::Looked { frame, .. } => frame.map_or(Self::Nothing, Self::Frame),
            other => other.clone(),
        }
    }
}

impl fmt::Display for Answer {
    fn fmt(&self, f: &mut fmt::Formatter) -> fmt::Result {
        match self {
            Self::Stored => f.write_str("stored"),
            Self::Dropped => f.write_str("dropped"),
            Self::Kept(len) => write!(f, "kept {len}"),
            Self::Frame(frame) => write!(f, "frame {frame}"),
            Self::Nothing => f.write_str("none"),
            Self::OneOf(frames) => {
                f.write_str("one of")?;
                frames.iter().take(SHOWN_FRAMES).try_for_each(|frame| write!(f, " {frame}"))?;
                f.write_str(if frames.len() > SHOWN_FRAMES { " .." } else { "" })
            }
            Self::Looked { cells, .. } => write!(f, "{} cells {cells}", self.frame_alone()),
            Self::List(pairs) => {
                write!(f, "list {}", pairs.len())?;
                pairs.iter().try_for_each(|(page, frame)| write!(f, " {page}:{frame}"))
            }
            Self::Slot { slot, owner, mark } => write!(f, "slot {slot} {owner} {mark}"),
            Self::Limit(limit) => write!(f, "limit {limit}"),
            Self::Active(yes) | Self::Acquired(yes) => write!(f, "{}", u8::from(*yes)),
            Self::Done => f.write_str("ok"),
            Self::Seq(number) => write!(f, "seq {number}"),
            Self::Epoch(number) => write!(f, "epoch {number}"),
            Self::Owner(owner) => write!(f, "owner {owner}"),
            Self::Parts { pid, instance_id } => write!(f, "parts {pid} {instance_id}"),
            Self::Refused(number) => write!(f, "refused {number}"),
            Self::Odd(words) => write!(f, "odd reply: {words}"),
        }
    }
}

#[cfg(test)]
mod tests {
    use super::*;

    #[test]
    fn known_lines_are_written_as_read() {
        let script = "new 4096 1 1 65 F 2\nrecord 0 7 1 0\nrollback 1 18446744073709551615\nfind 0 7 1 2 -\nfind 0 7 1 2 9\n\
                      looked 0 7 1 2 -\nlooked 1 7 1 2 18446744073709551615\n\
                      between 1 7 2 1\nbetween 0 0 0 18446744073709551615\nnearest 0 7 18446744073709551615\n\
                      list 0 1 9 10\nreg 0 5 3 0129\nregs 0 5 3 -\nregdb 0 5 01\nupd 0 4294967295 5 3\nrel 0 1 5\nrels 0 3 1 5\nfloor 0 1\ndbreader 1 2\n\
                      limit 0 -\nacqw 0 5 255\nacqc 1 5 0\nrelw 0 5\nrelc 0 5\ncommit 0 9 4294967295 0 1\nbackfill 0 3\n\
                      seq 0\nepoch 1\nowner 0 1 2\nparts 0 4294967298\npoke hash 8191 65535\npoke maxframe 0 5\npoke cowner 0 1\nown 0 lowner 3 4\n\
                      own 1 lwriter 0 4\nown 1 lckpt 0 4\nregistry 0 1 2 3 4 5\nlend sframes 3\nlend registry -\n\
                      settings 0 99 4294967295 O\nsettings 1 1 1 2\ndump 1\n# any words";
        for text in script.lines() {
            let text = text.trim_start();
            let line = Line::parse(text);
            assert!(!matches!(line, Line::Unknown(_)), "{text}");
            assert_eq!(line.to_string(), text);
        }
    }

    #[test]
    fn other_lines_are_unknown() {
        let lines = [
            "",
            " ",
            "seq",
            "seq ",
            "seq  0",
            " seq 0",
            "seq 0 ",
            "seq 0 1",
            "seq +0",
            "seq -1",
            "seq 0x1",
            "Seq 0",
            "commit 0 1 4294967296 0 0",
            "commit 0 18446744073709551616 0 0 0",
            "acqw 0 5 256",
            "upd 0 4294967296 1 1",
            "record 0 1 1 2",
            "find 0 1 1 1",
            "looked 0 1 1 1",
            "looked 0 1 1 1 - 1",
            "between 0 1 1",
            "between 0 1 1 1 -",
            "nearest 0 1",
            "nearest 0 1 -",
            "nearest 0 1 1 1",
            "nearest 0 1 18446744073709551616",
            "floor 0 1a",
            "floor 0 ",
            "poke len 1 0",
            "poke len 0 4294967296",
            "poke hash 0 65536",
            "poke what 0 0",
            "own 0 lwriter 1 5",
            "own 0 lowner 0 18446744073709551616",
            "lend what 1",
            "settings 1 1 1 X",
            "settings 1 1 1 1",
            "new 0 1 1 1 O 1",
            "new 65537 1 1 1 O 1",
            "new 1 17 1 1 O 1",
            "new 1 1 2 1 O 1",
            "new 1 1 1 257 O 1",
            "new 1 1 1 0 O 1",
            "new 1 1 1 1 G 1",
            "new 1 1 1 1 O 0",
            "seq 0\r",
        ];
        for text in lines {
            assert_eq!(Line::parse(text), Line::Unknown(text.into()), "{text}");
        }
    }

    #[test]
    fn an_undecided_answer_allows_its_frames_and_nothing_else() {
        let of = |frames: &[u64]| Answer::one_of(frames.iter().copied());
        assert_eq!([of(&[]), of(&[7]), of(&[7, 7])], [Answer::Nothing, Answer::Frame(7), Answer::Frame(7)]);
        let undecided = of(&[9, 0, 9, u64::MAX]);
        assert_eq!(undecided, Answer::OneOf(vec![0, 9, u64::MAX]));
        assert!([0, 9, u64::MAX].iter().all(|frame| undecided.allows(&Answer::Frame(*frame))));
        assert!(!undecided.allows(&Answer::Frame(8)) && !undecided.allows(&Answer::Nothing));
        assert!(undecided.allows(&undecided) && !undecided.allows(&of(&[0, 9])) && !of(&[9]).allows(&undecided));
        assert!(of(&[9]).allows(&Answer::Frame(9)) && !of(&[9]).allows(&Answer::Frame(8)));
        assert!(of(&[]).allows(&Answer::Nothing) && !of(&[]).allows(&Answer::Frame(0)));
        assert_eq!(undecided.to_string(), "one of 0 9 18446744073709551615");
        assert_eq!(of(&[6, 5, 4, 3, 2, 1]).to_string(), "one of 1 2 3 4 5 ..");
    }

    #[test]
    fn leading_zeros_are_digits() {
        assert_eq!(Line::parse("seq 00000000000000000000"), Line::parse("seq 0"));
        assert!(matches!(Line::parse("seq 000000000000000000000"), Line::Unknown(_)));
    }
}
