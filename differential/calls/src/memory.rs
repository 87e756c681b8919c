//! The cells that a call may read or write: shared memory, and each process's own.

use std::fmt::{Display, Write};

/// The header cells of document 01, and one record of a registry of shared marks, as the C interface has both. With 0
/// holders a record is empty.
pub use wal_coordination_sys::{Header, SharedReadMark as Record};

/// Entries of one block of the index.
pub const BLOCK_ENTRIES: usize = 4096;
/// Hash cells of one block of the index.
pub const BLOCK_HASH_CELLS: usize = 8192;
/// The frame of a slot that no reader has.
pub const UNUSED: u64 = u64::MAX;

pub const LINUX_OFD: u32 = 0;
pub const PROCESS_SCOPED_FCNTL: u32 = 1;

/// What a call is told of the memory's limits, good or bad.
#[derive(Clone, Copy, Debug, PartialEq, Eq)]
pub struct Settings {
    pub capacity: u32,
    pub max_blocks: u32,
    pub slots: u32,
    pub mode: u32,
}

impl Settings {
    pub fn good_capacity(&self) -> bool {
        (1..=65_536).contains(&self.capacity)
    }

    pub fn good_max_blocks(&self) -> bool {
        (1..=16).contains(&self.max_blocks)
    }

    pub fn good_slots(&self) -> bool {
        (1..=256).contains(&self.slots)
    }

    pub fn good_mode(&self) -> bool {
        self.mode <= PROCESS_SCOPED_FCNTL
    }
}

/// A header cell, by the word that scripts and dumps have for it.
#[derive(Clone, Copy, Debug, PartialEq, Eq)]
pub enum HeaderCell {
    Len,
    Flag,
    Blocks,
    MaxFrame,
    Nback,
    Tx,
    Gen,
    Seq,
    Epoch,
    Ck1,
    Ck2,
    Wowner,
    Cowner,
}

/// In the order of the dump.
pub const HEADER_CELLS: [(&str, HeaderCell); 13] = [
    ("len", HeaderCell::Len),
    ("flag", HeaderCell::Flag),
    ("blocks", HeaderCell::Blocks),
    ("maxframe", HeaderCell::MaxFrame),
    ("nback", HeaderCell::Nback),
    ("tx", HeaderCell::Tx),
    ("gen", HeaderCell::Gen),
    ("seq", HeaderCell::Seq),
    ("epoch", HeaderCell::Epoch),
    ("ck1", HeaderCell::Ck1),
    ("ck2", HeaderCell::Ck2),
    ("wowner", HeaderCell::Wowner),
    ("cowner", HeaderCell::Cowner),
];

impl HeaderCell {
    /// The greatest number that the cell can have.
    pub fn greatest(self) -> u64 {
        use HeaderCell::*;
        match self {
            Len | Flag | Blocks | Seq | Epoch | Ck1 | Ck2 => u32::MAX as u64,
            MaxFrame | Nback | Tx | Gen | Wowner | Cowner => u64::MAX,
        }
    }

    /// Its value.
    pub fn of(self, header: &Header) -> u64 {
        match self {
            Self::Len => header.frame_index_len.into(),
            Self::Flag => header.frame_index_overflowed.into(),
            Self::Blocks => header.frame_index_blocks.into(),
            Self::MaxFrame => header.max_frame,
            Self::Nback => header.nbackfills,
            Self::Tx => header.transaction_count,
            Self::Gen => header.visibility_generation,
            Self::Seq => header.checkpoint_seq.into(),
            Self::Epoch => header.checkpoint_epoch.into(),
            Self::Ck1 => header.checksum_1.into(),
            Self::Ck2 => header.checksum_2.into(),
            Self::Wowner => header.writer_owner,
            Self::Cowner => header.checkpoint_owner,
        }
    }

    /// Becomes a value that is at most its greatest.
    pub fn set(self, header: &mut Header, value: u64) {
        match self {
            Self::Len => header.frame_index_len = value as u32,
            Self::Flag => header.frame_index_overflowed = value as u32,
            Self::Blocks => header.frame_index_blocks = value as u32,
            Self::MaxFrame => header.max_frame = value,
            Self::Nback => header.nbackfills = value,
            Self::Tx => header.transaction_count = value,
            Self::Gen => header.visibility_generation = value,
            Self::Seq => header.checkpoint_seq = value as u32,
            Self::Epoch => header.checkpoint_epoch = value as u32,
            Self::Ck1 => header.checksum_1 = value as u32,
            Self::Ck2 => header.checksum_2 = value as u32,
            Self::Wowner => header.writer_owner = value,
            Self::Cowner => header.checkpoint_owner = value,
        }
    }
}

/// The shared cells of the reader slots.
#[derive(Clone, Debug, Default, PartialEq, Eq)]
pub struct Slots {
    pub bitmap: Vec<u64>,
    pub frames: Vec<u64>,
    pub owners: Vec<u64>,
}

impl Slots {
    /// As the Rust's `initialize` leaves them: every bit of the bitmap's words is 1.
    pub fn fresh(slots: usize) -> Self {
        Self { bitmap: vec![u64::MAX; slots.div_ceil(64)], frames: vec![UNUSED; slots], owners: vec![0; slots] }
    }

    pub fn parts(&self) -> [&[u64]; 3] {
        [&self.bitmap, &self.frames, &self.owners]
    }

    pub fn parts_mut(&mut self) -> [&mut [u64]; 3] {
        [&mut self.bitmap, &mut self.frames, &mut self.owners]
    }

    pub fn is_free(&self, slot: usize) -> bool {
        self.bitmap[slot / 64] >> (slot % 64) & 1 == 1
    }
}

/// What one process keeps for itself.
#[derive(Clone, Debug, PartialEq, Eq)]
pub struct Own {
    pub local_owners: Vec<u64>,
    pub local_writer: u64,
    pub local_checkpoint: u64,
    pub registry: Vec<Record>,
}

impl Own {
    pub fn fresh(slots: usize) -> Self {
        Self {
            local_owners: vec![0; slots],
            local_writer: 0,
            local_checkpoint: 0,
            registry: vec![Record::default(); slots],
        }
    }

    pub fn poke(&mut self, cell: OwnCell, index: usize, value: u64) {
        match cell {
            OwnCell::LocalOwner => self.local_owners[index] = value,
            OwnCell::LocalWriter => self.local_writer = value,
            OwnCell::LocalCheckpoint => self.local_checkpoint = value,
        }
    }

    /// The record that counts for a mark: the first of `records` that has the mark and holders.
    pub fn shared(&self, records: usize, mark: u64) -> Option<usize> {
        (0..records.min(self.registry.len())).find(|&i| self.registry[i].holders > 0 && self.registry[i].mark == mark)
    }

    /// Where a new mark goes: the first of `records` without holders.
    pub fn empty_record(&self, records: usize) -> Option<usize> {
        (0..records.min(self.registry.len())).find(|&i| self.registry[i].holders == 0)
    }

    /// Equal but for the contents of empty records.
    pub fn same(&self, other: &Self) -> bool {
        self.local_writer == other.local_writer
            && self.local_checkpoint == other.local_checkpoint
            && self.local_owners == other.local_owners
            && self.registry.len() == other.registry.len()
            && self.registry.iter().zip(&other.registry).all(|(a, b)| same_record(a, b))
    }
}

fn same_record(a: &Record, b: &Record) -> bool {
    a == b || a.holders == 0 && b.holders == 0
}

/// A cell that a script may poke.
#[derive(Clone, Copy, Debug, PartialEq, Eq)]
pub enum SharedCell {
    Page,
    Frame,
    Hash,
    Bitmap,
    SlotFrame,
    SlotOwner,
    Header(HeaderCell),
}

/// A cell of a process's own that a script may poke.
#[derive(Clone, Copy, Debug, PartialEq, Eq)]
pub enum OwnCell {
    LocalOwner,
    LocalWriter,
    LocalCheckpoint,
}

/// The memory of the port, and a copy of the Rust's for dumps.
#[derive(Clone, Debug, Default)]
pub struct Memory {
    pub header: Header,
    pub pages: Vec<u64>,
    pub frames: Vec<u64>,
    pub hash: Vec<u16>,
    pub slots: Slots,
    pub processes: Vec<Own>,
}

impl Memory {
    /// Fresh memory, each part exactly as long as document 01 asks.
    pub fn fresh(settings: &Settings, start_blocks: u32, processes: usize) -> Self {
        let blocks = settings.max_blocks as usize;
        let slots = settings.slots as usize;
        Self {
            header: Header::fresh(start_blocks),
            pages: vec![0; BLOCK_ENTRIES * blocks],
            frames: vec![0; BLOCK_ENTRIES * blocks],
            hash: vec![0; BLOCK_HASH_CELLS * blocks],
            slots: Slots::fresh(slots),
            processes: vec![Own::fresh(slots); processes],
        }
    }

    /// Becomes a copy, in the room that there is.
    pub fn copy_of(&mut self, other: &Self) {
        self.header = other.header;
        self.pages.clone_from(&other.pages);
        self.frames.clone_from(&other.frames);
        self.hash.clone_from(&other.hash);
        self.slots.clone_from(&other.slots);
        self.processes.clone_from(&other.processes);
    }

    /// Whether every cell but the index is the same, in empty records too.
    pub fn same_but_index(&self, other: &Self) -> bool {
        self.header == other.header && self.slots == other.slots && self.processes == other.processes
    }

    /// Whether every cell of the index is the same.
    pub fn same_index(&self, other: &Self) -> bool {
        self.pages == other.pages && self.frames == other.frames && self.hash == other.hash
    }

    /// Pokes a cell that there is.
    pub fn poke(&mut self, cell: SharedCell, index: usize, value: u64) {
        match cell {
            SharedCell::Page => self.pages[index] = value,
            SharedCell::Frame => self.frames[index] = value,
            SharedCell::Hash => self.hash[index] = value as u16,
            SharedCell::Bitmap => self.slots.bitmap[index] = value,
            SharedCell::SlotFrame => self.slots.frames[index] = value,
            SharedCell::SlotOwner => self.slots.owners[index] = value,
            SharedCell::Header(cell) => cell.set(&mut self.header, value),
        }
    }

    /// `dump P`.
    pub fn dump(&self, process: usize) -> String {
        let own = &self.processes[process];
        let mut line = String::from("dump");
        for (word, cell) in HEADER_CELLS {
            let _ = write!(line, " {word}={}", cell.of(&self.header));
        }
        let parts: [(&str, &[u64]); 2] = [("pages", &self.pages), ("frames", &self.frames)];
        for (word, cells) in parts {
            let _ = write!(line, " {word}={:016x}", fnv_cells(cells));
        }
        let _ = write!(line, " hash={:016x}", fnv(self.hash.iter().flat_map(|c| c.to_le_bytes())));
        let parts: [(&str, &[u64]); 4] = [
            ("bitmap", &self.slots.bitmap),
            ("sframes", &self.slots.frames),
            ("sowners", &self.slots.owners),
            ("lowners", &own.local_owners),
        ];
        for (word, cells) in parts {
            let _ = write!(line, " {word}={:016x}", fnv_cells(cells));
        }
        let _ = write!(line, " lwriter={} lckpt={} registry=", own.local_writer, own.local_checkpoint);
        let records: Vec<String> = own.registry.iter().filter(|record| record.holders > 0).map(shown_record).collect();
        line + &records.join(",")
    }
}

fn fnv_cells(cells: &[u64]) -> u64 {
    fnv(cells.iter().flat_map(|c| c.to_le_bytes()))
}

/// FNV-1a of 64 bits.
pub fn fnv(bytes: impl Iterator<Item = u8>) -> u64 {
    bytes.fold(0xcbf2_9ce4_8422_2325, |hash, byte| (hash ^ u64::from(byte)).wrapping_mul(0x0100_0000_01b3))
}

/// A side's memory as it stands, to look at.
pub trait View {
    fn header(&self) -> Header;
    /// Blocks that the memory has room for.
    fn room_blocks(&self) -> usize;
    fn page(&self, entry: usize) -> u64;
    fn frame(&self, entry: usize) -> u64;
    /// The 8,192 hash cells of a block.
    fn block_hash(&self, block: usize) -> &[u16];
    fn slots(&self) -> &Slots;
    fn processes(&self) -> &[Own];
}

impl View for Memory {
    fn header(&self) -> Header {
        self.header
    }

    fn room_blocks(&self) -> usize {
        self.pages.len() / BLOCK_ENTRIES
    }

    fn page(&self, entry: usize) -> u64 {
        self.pages[entry]
    }

    fn frame(&self, entry: usize) -> u64 {
        self.frames[entry]
    }

    fn block_hash(&self, block: usize) -> &[u16] {
        &self.hash[block * BLOCK_HASH_CELLS..][..BLOCK_HASH_CELLS]
    }

    fn slots(&self) -> &Slots {
        &self.slots
    }

    fn processes(&self) -> &[Own] {
        &self.processes
    }
}

/// A copy of a side's memory.
pub fn copy(view: &dyn View) -> Memory {
    let entries = view.room_blocks() * BLOCK_ENTRIES;
    Memory {
        header: view.header(),
        pages: (0..entries).map(|i| view.page(i)).collect(),
        frames: (0..entries).map(|i| view.frame(i)).collect(),
        hash: (0..view.room_blocks()).flat_map(|b| view.block_hash(b)).copied().collect(),
        slots: view.slots().clone(),
        processes: view.processes().to_vec(),
    }
}

/// A cell in which two memories of one shape differ.
#[derive(Debug, PartialEq, Eq)]
pub struct Differing {
    /// Whose, if the cell is a process's own.
    process: Option<usize>,
    name: &'static str,
    index: Option<usize>,
    /// Its value in the one memory and in the other.
    values: [String; 2],
}

impl Differing {
    /// As a difference between two sides.
    pub fn between(&self, sides: [&str; 2]) -> String {
        let process = self.process.map_or(String::new(), |process| format!("process {process} "));
        let index = self.index.map_or(String::new(), |index| format!(" {index}"));
        let ([one, other], [this, that]) = (&self.values, sides);
        format!("{process}{}{index}: {this} {one}, {that} {other}", self.name)
    }

    /// As a change from the one to the other.
    pub fn as_change(&self) -> String {
        let index = self.index.map_or(String::new(), |index| format!("[{index}]"));
        let [old, new] = &self.values;
        format!("{}{index} {old} -> {new}", self.name)
    }
}

/// The cells in which two memories of one shape differ.
pub fn differing_cells(one: &Memory, other: &Memory) -> Vec<Differing> {
    let mut found = Search { process: None, found: Vec::new() };
    for (name, cell) in HEADER_CELLS {
        found.cell(name, &cell.of(&one.header), &cell.of(&other.header));
    }
    found.cells("page", &one.pages, &other.pages);
    found.cells("frame", &one.frames, &other.frames);
    found.cells("hash", &one.hash, &other.hash);
    found.cells("bitmap", &one.slots.bitmap, &other.slots.bitmap);
    found.cells("sframe", &one.slots.frames, &other.slots.frames);
    found.cells("sowner", &one.slots.owners, &other.slots.owners);
    for (process, (one, other)) in one.processes.iter().zip(&other.processes).enumerate() {
        found.process = Some(process);
        found.cell("lwriter", &one.local_writer, &other.local_writer);
        found.cell("lckpt", &one.local_checkpoint, &other.local_checkpoint);
        found.cells("lowner", &one.local_owners, &other.local_owners);
        // The Rust's registry may have more records.
        let records = one.registry.len().max(other.registry.len());
        let shown = |own: &Own| {
            let record = |i| shown_record(own.registry.get(i).unwrap_or(&Record::default()));
            (0..records).map(record).collect::<Vec<_>>()
        };
        found.cells("registry", &shown(one), &shown(other));
    }
    found.found
}

struct Search {
    process: Option<usize>,
    found: Vec<Differing>,
}

impl Search {
    fn cell<T: PartialEq + Display>(&mut self, name: &'static str, one: &T, other: &T) {
        self.compare(name, None, one, other);
    }

    fn cells<T: PartialEq + Display>(&mut self, name: &'static str, one: &[T], other: &[T]) {
        for (index, (one, other)) in one.iter().zip(other).enumerate() {
            self.compare(name, Some(index), one, other);
        }
    }

    fn compare<T: PartialEq + Display>(&mut self, name: &'static str, index: Option<usize>, one: &T, other: &T) {
        if one != other {
            let values = [one.to_string(), other.to_string()];
            self.found.push(Differing { process: self.process, name, index, values });
        }
    }
}

fn shown_record(record: &Record) -> String {
    match record.holders {
        0 => "empty".into(),
        _ => format!("{}:{}:{}:{}", record.mark, record.slot, record.owner, record.holders),
    }
}

#[cfg(test)]
mod tests {
    use super::*;

    #[test]
    fn fnv_of_known_texts() {
        assert_eq!(fnv("".bytes()), 0xcbf2_9ce4_8422_2325);
        assert_eq!(fnv("a".bytes()), 0xaf63_dc4c_8601_ec8c);
        assert_eq!(fnv("foobar".bytes()), 0x8594_4171_f739_67e8);
    }

    #[test]
    fn dump_of_fresh_memory() {
        let settings = Settings { capacity: 8, max_blocks: 1, slots: 2, mode: LINUX_OFD };
        let mut memory = Memory::fresh(&settings, 1, 1);
        memory.header.max_frame = 9;
        memory.processes[0].registry[1] = Record::new(4, 1, 7, 2);
        let line = memory.dump(0);
        assert!(line.starts_with("dump len=0 flag=0 blocks=1 maxframe=9 nback=0 tx=0 gen=0 seq=0 epoch=0 ck1=0 ck2=0 wowner=0 cowner=0 pages="));
        assert!(line.ends_with(" lwriter=0 lckpt=0 registry=4:1:7:2"));
        assert!(line.contains(&format!(" sowners={:016x} ", fnv([0u8; 16].into_iter()))));
        assert!(line.contains(&format!(" bitmap={:016x} ", fnv([255u8; 8].into_iter()))));
    }

    #[test]
    fn differences_name_their_cells() {
        let settings = Settings { capacity: 8, max_blocks: 1, slots: 2, mode: LINUX_OFD };
        let port = Memory::fresh(&settings, 1, 1);
        let mut rust = port.clone();
        assert!(differing_cells(&port, &rust).is_empty());
        rust.poke(SharedCell::Hash, 8191, 3);
        rust.processes[0].registry[0].mark = 5; // an empty record: not compared
        rust.header.max_frame = 9;
        rust.processes[0].local_owners[1] = 7;
        let cells = differing_cells(&port, &rust);
        assert_eq!(
            cells.iter().map(|cell| cell.between(["port", "Rust"])).collect::<Vec<_>>(),
            ["maxframe: port 0, Rust 9", "hash 8191: port 0, Rust 3", "process 0 lowner 1: port 0, Rust 7"]
        );
        assert_eq!(
            cells.iter().map(Differing::as_change).collect::<Vec<_>>(),
            ["maxframe 0 -> 9", "hash[8191] 0 -> 3", "lowner[1] 0 -> 7"]
        );
    }
}
