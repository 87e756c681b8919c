//! The calls on readers: the sides, and what is measured.

use calls::memory::{Header, Memory, Settings, Slots, LINUX_OFD};
use wal_coordination_sys::{self as sys, SharedReadMark, Slots as Lent};

const OWNER: u64 = (7 << 32) + 1;
const MARK: u64 = 1_000_000;
const PUBLISHED: u64 = 2_000_000;

/// Slots of which the first are live elsewhere, with marks that fall, and the rest free and granted.
pub struct Table {
    settings: Settings,
    slots: Slots,
    card: Vec<u8>,
}

impl Table {
    pub fn new(n: u32, live: usize) -> Self {
        let settings = Settings { capacity: 1, max_blocks: 1, slots: n, mode: LINUX_OFD };
        let (mut slots, mut card) = (Slots::fresh(n as usize), vec![1; n as usize]);
        (0..live).for_each(|slot| take(&mut slots, slot));
        card[..live].fill(0);
        Self { settings, slots, card }
    }

    /// Its first slot's reader reads the database file alone.
    pub fn with_db_file_reader(mut self) -> Self {
        self.slots.frames[0] = 0;
        self
    }

    /// Its last slot belongs to a process that is gone.
    pub fn with_stale_last(mut self) -> Self {
        take(&mut self.slots, self.settings.slots as usize - 1);
        self
    }
}

fn take(slots: &mut Slots, slot: usize) {
    slots.bitmap[slot / 64] &= !(1 << (slot % 64));
    slots.frames[slot] = MARK + 1000 - slot as u64;
    slots.owners[slot] = OWNER + 1;
}

pub trait Side {
    fn new(table: &Table) -> Self;
    /// The slot that is taken.
    fn register(&mut self) -> u32;
    fn release(&mut self, slot: u32);
    /// The process is gone, and so is what it held.
    fn forget(&mut self, slot: u32);
    fn register_shared(&mut self) -> u32;
    fn release_shared(&mut self, slot: u32);
    fn floor(&mut self) -> u64;
    fn limit(&mut self) -> u64;
    fn has_db_file_reader(&mut self) -> bool;
}

pub struct Port {
    memory: Memory,
    settings: Settings,
    card: Vec<u8>,
}

impl Port {
    /// The slots, the header, the own cells and the card.
    #[inline]
    fn lent(&mut self) -> (Lent<'_>, &Header, &mut [u64], &mut [SharedReadMark], &[u8]) {
        let Memory { header, slots, processes, .. } = &mut self.memory;
        let own = &mut processes[0];
        let lent = Lent {
            n: self.settings.slots as usize,
            mode: self.settings.mode,
            bitmap: &mut slots.bitmap,
            reader_frames: &mut slots.frames,
            reader_owners: &mut slots.owners,
        };
        (lent, header, &mut own.local_owners, &mut own.registry, &self.card)
    }
}

impl Side for Port {
    fn new(table: &Table) -> Self {
        let Table { settings, slots, card } = table;
        let mut memory = Memory::fresh(settings, 1, 1);
        memory.slots.clone_from(slots);
        memory.header.max_frame = PUBLISHED;
        Self { memory, settings: *settings, card: card.clone() }
    }

    #[inline]
    fn register(&mut self) -> u32 {
        let (slots, _, local_readers, _, card) = self.lent();
        let reply = sys::register_reader(slots, local_readers, card, OWNER, MARK);
        assert_eq!(reply.taken, 1);
        reply.slot as u32
    }

    #[inline]
    fn release(&mut self, slot: u32) {
        let (slots, _, local_readers, registry, _) = self.lent();
        assert_eq!(sys::unregister_reader(slots, local_readers, registry, slot as usize, OWNER), 0);
    }

    #[inline]
    fn forget(&mut self, slot: u32) {
        self.memory.processes[0].local_owners[slot as usize] = 0;
    }

    #[inline]
    fn register_shared(&mut self) -> u32 {
        let (slots, _, local_readers, registry, card) = self.lent();
        let reply = sys::register_reader_for_snapshot(slots, local_readers, registry, card, OWNER, MARK);
        assert_eq!(reply.taken, 1);
        reply.slot as u32
    }

    #[inline]
    fn release_shared(&mut self, slot: u32) {
        let (slots, _, local_readers, registry, _) = self.lent();
        let slot = slot as usize;
        assert_eq!(sys::unregister_reader_for_snapshot(slots, local_readers, registry, MARK, slot, OWNER), 0);
    }

    #[inline]
    fn floor(&mut self) -> u64 {
        let (slots, _, local_readers, _, card) = self.lent();
        let reply = sys::min_active_reader_frame(slots, local_readers, card);
        assert_eq!(reply.refusal, 0);
        reply.mark
    }

    #[inline]
    fn limit(&mut self) -> u64 {
        let (slots, header, local_readers, _, card) = self.lent();
        let reply = sys::copy_back_limit(slots, header, local_readers, card);
        assert_eq!(reply.refusal, 0);
        reply.limit
    }

    #[inline]
    fn has_db_file_reader(&mut self) -> bool {
        let (slots, _, local_readers, _, card) = self.lent();
        let reply = sys::has_active_db_file_reader(slots, local_readers, card);
        assert_eq!(reply.refusal, 0);
        reply.active == 1
    }
}

macro_rules! rust_side {
    ($name:ident, $direct:ty) => {
        pub struct $name($direct);

        impl Side for $name {
            fn new(table: &Table) -> Self {
                let direct = <$direct>::new(&table.settings);
                direct.publish_commit(PUBLISHED, 1, 2, 3);
                direct.set_slots(&table.slots, &table.card);
                Self(direct)
            }

            #[inline]
            fn register(&mut self) -> u32 {
                self.0.register_reader(OWNER, MARK).expect("a slot is free")
            }

            #[inline]
            fn release(&mut self, slot: u32) {
                self.0.unregister_reader(slot, OWNER);
            }

            #[inline]
            fn forget(&mut self, slot: u32) {
                self.0.forget_reader(slot);
            }

            #[inline]
            fn register_shared(&mut self) -> u32 {
                self.0.register_reader_for_snapshot(OWNER, MARK).expect("a slot is free")
            }

            #[inline]
            fn release_shared(&mut self, slot: u32) {
                self.0.unregister_reader_for_snapshot(MARK, slot, OWNER);
            }

            #[inline]
            fn floor(&mut self) -> u64 {
                self.0.min_active_reader_frame().unwrap_or(0)
            }

            #[inline]
            fn limit(&mut self) -> u64 {
                let published = self.0.max_frame();
                let limit = self.0.min_active_reader_frame().map_or(published, |floor| floor.min(published));
                // A host of the Rust asks a second time: its floor leaves mark 0 out.
                match self.0.has_active_db_file_reader() {
                    true => limit.min(self.0.nbackfills()),
                    false => limit,
                }
            }

            #[inline]
            fn has_db_file_reader(&mut self) -> bool {
                self.0.has_active_db_file_reader()
            }
        }
    };
}

rust_side!(Rust, oracle::Direct);
rust_side!(RustWithFastHasher, oracle_fast::Direct);

#[derive(Clone, Copy)]
pub enum Work {
    RegisterAndRelease,
    /// A registration for which a slot must be reclaimed.
    RegisterAnew,
    Share,
    /// With a holder already.
    Join,
    Floor,
    Limit,
    DbFileReader,
}

const CALLS: u64 = 5000;

impl Work {
    pub const TIMES: u64 = CALLS;

    pub fn prepare(self, side: &mut impl Side) {
        if matches!(self, Self::Join) {
            side.register_shared();
        }
    }

    /// What is timed; the sum of the answers.
    pub fn run(self, side: &mut impl Side) -> u64 {
        (0..CALLS).map(|_| self.once(side)).sum()
    }

    #[inline]
    fn once(self, side: &mut impl Side) -> u64 {
        match self {
            Self::RegisterAndRelease => {
                let slot = side.register();
                side.release(slot);
                slot.into()
            }
            Self::RegisterAnew => {
                let slot = side.register();
                side.forget(slot);
                slot.into()
            }
            Self::Share | Self::Join => {
                let slot = side.register_shared();
                side.release_shared(slot);
                slot.into()
            }
            Self::Floor => side.floor(),
            Self::Limit => side.limit(),
            Self::DbFileReader => side.has_db_file_reader().into(),
        }
    }
}
