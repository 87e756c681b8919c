//! Processes on one memory, in both lock modes, with a table of locks in place of a file's.

use std::cell::RefCell;
use std::collections::{HashMap, HashSet};
use std::rc::Rc;
use wal_coordination::{
    ByteLocks, LockAnswer, LockByte, Memory, OneProcess, OwnedMemory, Process, Recorded, Refusal, Settings,
    SharedOwnerRecord, SharedWalOwnershipMode, UNUSED_READER_FRAME,
};

fn settings(mode: SharedWalOwnershipMode) -> Settings {
    Settings::new(4096, 1, 3, mode)
}

/// Tests that hold in each lock mode.
macro_rules! in_both_modes {
    ($($name:ident)*) => {
        mod linux_ofd {
            $(#[test]
            fn $name() -> Result<(), wal_coordination::Refusal> {
                super::$name(wal_coordination::SharedWalOwnershipMode::LinuxOfd)
            })*
        }
        mod process_scoped_fcntl {
            $(#[test]
            fn $name() -> Result<(), wal_coordination::Refusal> {
                super::$name(wal_coordination::SharedWalOwnershipMode::ProcessScopedFcntl)
            })*
        }
    };
}

in_both_modes! {
    a_hold_keeps_its_answers
    a_dead_reader_is_reclaimed
    a_full_table_is_reclaimed_by_a_registration
    locks_that_the_answer_does_not_name_are_given_back
    a_shared_mark_has_one_slot
    a_reader_of_the_database_file_is_no_floor
    a_reader_of_the_database_file_holds_copying_back
    one_process_is_the_writer
    counters_and_publishes
    a_refused_call_changes_nothing
}

/// Which process holds which byte.
type Table = Rc<RefCell<HashMap<LockByte, u32>>>;

struct Locks {
    table: Table,
    process: u32,
    asked: Rc<RefCell<Vec<LockByte>>>,
    failing: Rc<RefCell<HashSet<LockByte>>>,
}

impl ByteLocks for Locks {
    fn try_lock(&mut self, byte: LockByte) -> LockAnswer {
        self.asked.borrow_mut().push(byte);
        if self.failing.borrow().contains(&byte) {
            return LockAnswer::Error;
        }
        match *self.table.borrow_mut().entry(byte).or_insert(self.process) {
            holder if holder == self.process => LockAnswer::Granted,
            _ => LockAnswer::Busy,
        }
    }

    fn unlock(&mut self, byte: LockByte) {
        assert_eq!(self.table.borrow_mut().remove(&byte), Some(self.process), "only what is held is given back");
    }
}

/// The locks of all processes, which bytes were asked for, and which cannot be asked.
struct Kernel {
    mode: SharedWalOwnershipMode,
    table: Table,
    asked: Rc<RefCell<Vec<LockByte>>>,
    failing: Rc<RefCell<HashSet<LockByte>>>,
}

impl Kernel {
    fn process(&self, number: u32) -> Process<Locks> {
        let (table, asked, failing) = (self.table.clone(), self.asked.clone(), self.failing.clone());
        let locks = Locks { table, process: number, asked, failing };
        Process::new(settings(self.mode), locks).expect("the settings are good")
    }

    /// What the kernel does when a process dies.
    fn dies(&self, number: u32) {
        self.table.borrow_mut().retain(|_, holder| *holder != number);
    }

    fn held(&self) -> Vec<(LockByte, u32)> {
        let mut held: Vec<_> = self.table.borrow().iter().map(|(&byte, &holder)| (byte, holder)).collect();
        held.sort_by_key(|(byte, _)| format!("{byte:?}"));
        held
    }
}

fn fresh(mode: SharedWalOwnershipMode) -> (Kernel, OwnedMemory) {
    let kernel = Kernel { mode, table: Table::default(), asked: Rc::default(), failing: Rc::default() };
    (kernel, OwnedMemory::fresh(&settings(mode), 1).expect("the settings are good"))
}

fn owner(process: u32) -> SharedOwnerRecord {
    SharedOwnerRecord::new(process, 1)
}

fn record(process: &Process<Locks>, memory: &mut Memory<'_>, entries: &[(u64, u64)]) {
    for &(page, frame) in entries {
        assert_eq!(process.record_frame(memory, page, frame, false), Ok(Recorded::Stored));
    }
}

fn a_hold_keeps_its_answers(mode: SharedWalOwnershipMode) -> Result<(), Refusal> {
    let (kernel, mut owned) = fresh(mode);
    let (mut writer, mut reader) = (kernel.process(1), kernel.process(2));
    let memory = &mut owned.lend();
    record(&writer, memory, &[(7, 1), (8, 2), (7, 3)]);
    writer.publish_commit(memory, 3, (1, 2), 1);

    let held = reader.register_reader(memory, owner(2), 3)?.expect("a slot is free");
    record(&writer, memory, &[(7, 4), (9, 5)]);
    writer.publish_commit(memory, 4, (3, 4), 2);
    assert_eq!(writer.rollback_frames(memory, 4), Ok(4));

    assert_eq!(reader.find_frame(memory, 7, 1, 3, None), Ok(Some(3)));
    assert_eq!(reader.find_frame(memory, 9, 1, 3, None), Ok(None));
    assert_eq!(reader.iter_latest_frames(memory, 1, 3), Ok(vec![(7, 3), (8, 2)]));
    assert_eq!(reader.frame_between(memory, 7, 2, 3), Ok(Some(3)));
    assert_eq!(reader.frame_between(memory, 9, 1, 3), Ok(None));
    assert_eq!(writer.min_active_reader_frame(memory), Ok(Some(3)));
    assert_eq!(writer.copy_back_limit(memory), Ok(3));

    let moved = reader.update_reader(memory, held, 4)?;
    assert_eq!((moved.slot, moved.owner, moved.max_frame), (held.slot, held.owner, 4));
    assert_eq!(writer.copy_back_limit(memory), Ok(4));
    reader.unregister_reader(memory, moved)?;
    assert_eq!(writer.min_active_reader_frame(memory), Ok(None));
    Ok(())
}

fn a_dead_reader_is_reclaimed(mode: SharedWalOwnershipMode) -> Result<(), Refusal> {
    let (kernel, mut owned) = fresh(mode);
    let mut survivor = kernel.process(1);
    let memory = &mut owned.lend();
    let dead = kernel.process(2).register_reader(memory, owner(2), 5)?.expect("a slot is free");
    assert_eq!(survivor.min_active_reader_frame(memory), Ok(Some(5)));

    kernel.dies(2);
    assert_eq!(survivor.min_active_reader_frame(memory), Ok(None));
    assert_eq!(memory.reader_frames[dead.slot.number()], UNUSED_READER_FRAME);
    assert_eq!(survivor.register_reader(memory, owner(1), 6)?.map(|reader| reader.slot), Some(dead.slot));
    Ok(())
}

fn a_full_table_is_reclaimed_by_a_registration(mode: SharedWalOwnershipMode) -> Result<(), Refusal> {
    let (kernel, mut owned) = fresh(mode);
    let (mut process, mut dying) = (kernel.process(1), kernel.process(2));
    let mut memory = owned.lend();
    for _ in 0..2 {
        assert!(process.register_reader(&mut memory, owner(1), 5)?.is_some());
    }
    assert!(dying.register_reader(&mut memory, owner(2), 5)?.is_some());
    assert_eq!(process.register_reader(&mut memory, owner(1), 6), Ok(None));
    // Its own slots were not asked: their locks would have been granted again, and given back.
    let held = |last| [(LockByte::Reader(0), 1), (LockByte::Reader(1), 1), (LockByte::Reader(2), last)];
    assert_eq!(kernel.held(), held(2));

    kernel.dies(2);
    let slot = process.register_reader(&mut memory, owner(1), 6)?.expect("the dead reader's slot").slot;
    assert_eq!(slot.number(), 2);
    assert_eq!(kernel.held(), held(1));
    Ok(())
}

fn locks_that_the_answer_does_not_name_are_given_back(mode: SharedWalOwnershipMode) -> Result<(), Refusal> {
    let (kernel, mut owned) = fresh(mode);
    let (mut first, mut second) = (kernel.process(1), kernel.process(2));
    let mut memory = owned.lend();
    let reader = first.register_reader(&mut memory, owner(1), 5)?.expect("a slot is free");
    assert_eq!(*kernel.asked.borrow(), [LockByte::Reader(0)]);

    // Its bit is taken: it is not asked.
    assert!(second.register_reader(&mut memory, owner(2), 6)?.is_some());
    assert_eq!(kernel.asked.borrow().last(), Some(&LockByte::Reader(1)));
    second.min_active_reader_frame(&mut memory)?;
    second.has_active_db_file_reader(&mut memory)?;
    second.copy_back_limit(&mut memory)?;
    assert_eq!(first.register_reader(&mut memory, SharedOwnerRecord::new(0, 0), 5), Err(Refusal::NoOwner));
    assert_eq!(first.try_acquire_writer(&mut memory, SharedOwnerRecord::new(0, 0)), Err(Refusal::NoOwner));
    assert_eq!(kernel.held(), [(LockByte::Reader(0), 1), (LockByte::Reader(1), 2)]);

    first.unregister_reader(&mut memory, reader)?;
    assert_eq!(kernel.held(), [(LockByte::Reader(1), 2)]);
    Ok(())
}

fn a_shared_mark_has_one_slot(mode: SharedWalOwnershipMode) -> Result<(), Refusal> {
    let (kernel, mut owned) = fresh(mode);
    let mut process = kernel.process(1);
    let (a, b) = (SharedOwnerRecord::new(1, 1), SharedOwnerRecord::new(1, 2));
    let mut memory = owned.lend();
    let first = process.register_reader_for_snapshot(&mut memory, a, 5)?.expect("a slot is free");
    let second = process.register_reader_for_snapshot(&mut memory, b, 5)?.expect("it joins");
    assert_eq!((first, second.owner), (second, a));
    assert_eq!(process.registry()[0].holders, 2);
    assert_eq!(process.unregister_reader(&mut memory, first), Err(Refusal::SharedSlot));
    assert_eq!(process.update_reader(&mut memory, first, 6), Err(Refusal::SharedSlot));

    process.unregister_reader_for_snapshot(&mut memory, second)?;
    assert_eq!(kernel.held(), [(LockByte::Reader(0), 1)]);
    process.unregister_reader_for_snapshot(&mut memory, first)?;
    assert_eq!(kernel.held(), []);
    assert_eq!(process.unregister_reader_for_snapshot(&mut memory, first), Err(Refusal::NoSuchMark));
    Ok(())
}

fn a_reader_of_the_database_file_is_no_floor(mode: SharedWalOwnershipMode) -> Result<(), Refusal> {
    let (kernel, mut owned) = fresh(mode);
    let (mut reader, mut other) = (kernel.process(1), kernel.process(2));
    let mut memory = owned.lend();
    let held = reader.register_db_file_reader(&mut memory, owner(1))?.expect("a slot is free");
    assert_eq!(other.has_active_db_file_reader(&mut memory), Ok(true));
    assert_eq!(other.min_active_reader_frame(&mut memory), Ok(None));
    reader.unregister_reader_for_snapshot(&mut memory, held)?;
    assert_eq!(other.has_active_db_file_reader(&mut memory), Ok(false));
    Ok(())
}

fn a_reader_of_the_database_file_holds_copying_back(mode: SharedWalOwnershipMode) -> Result<(), Refusal> {
    let (kernel, mut owned) = fresh(mode);
    let (mut writer, mut reader) = (kernel.process(1), kernel.process(2));
    let memory = &mut owned.lend();
    writer.publish_commit(memory, 9, (0, 0), 1);
    writer.publish_backfill(memory, 4);
    assert_eq!(writer.copy_back_limit(memory), Ok(9));

    // Whichever process asks, and with another mark beside it.
    let held = reader.register_db_file_reader(memory, owner(2))?.expect("a slot is free");
    assert_eq!((writer.copy_back_limit(memory), reader.copy_back_limit(memory)), (Ok(4), Ok(4)));
    let marked = writer.register_reader(memory, owner(1), 3)?.expect("a slot is free");
    assert_eq!(writer.copy_back_limit(memory), Ok(3));
    writer.unregister_reader(memory, marked)?;

    reader.unregister_reader_for_snapshot(memory, held)?;
    assert_eq!(writer.copy_back_limit(memory), Ok(9));

    // A dead one holds nothing back.
    assert!(reader.register_db_file_reader(memory, owner(2))?.is_some());
    assert_eq!(writer.copy_back_limit(memory), Ok(4));
    kernel.dies(2);
    assert_eq!(writer.copy_back_limit(memory), Ok(9));
    Ok(())
}

fn one_process_is_the_writer(mode: SharedWalOwnershipMode) -> Result<(), Refusal> {
    let (kernel, mut owned) = fresh(mode);
    let (mut first, mut second) = (kernel.process(1), kernel.process(2));
    let mut memory = owned.lend();
    assert_eq!(first.try_acquire_writer(&mut memory, owner(1)), Ok(true));
    assert_eq!(first.try_acquire_writer(&mut memory, owner(1)), Ok(false));
    assert_eq!(second.try_acquire_writer(&mut memory, owner(2)), Ok(false));
    assert_eq!(second.release_writer(&mut memory, owner(2)), Err(Refusal::NotHeld));
    assert_eq!(memory.header.writer_owner, owner(1).raw());
    first.release_writer(&mut memory, owner(1))?;
    assert_eq!(second.try_acquire_writer(&mut memory, owner(2)), Ok(true));
    assert_eq!(second.try_acquire_checkpoint(&mut memory, owner(2)), Ok(true));
    second.release_checkpoint(&mut memory, owner(2))?;
    assert_eq!(kernel.held(), [(LockByte::Writer, 2)]);
    Ok(())
}

fn counters_and_publishes(mode: SharedWalOwnershipMode) -> Result<(), Refusal> {
    let (kernel, mut owned) = fresh(mode);
    let process = kernel.process(1);
    let mut memory = owned.lend();
    assert_eq!((process.bump_checkpoint_seq(&mut memory), process.bump_checkpoint_epoch(&mut memory)), (1, 0));
    assert_eq!(process.bump_checkpoint_seq(&mut memory), 2);
    process.publish_commit(&mut memory, 9, (1, 2), 4);
    process.publish_commit(&mut memory, 8, (3, 4), 5);
    process.publish_backfill(&mut memory, 6);
    let header = *memory.header;
    assert_eq!((header.max_frame, header.transaction_count, header.nbackfills), (9, 5, 6));
    assert_eq!((header.checksum_1, header.checksum_2, header.visibility_generation), (1, 2, 2));
    assert_eq!((header.checkpoint_seq, header.checkpoint_epoch), (2, 1));
    Ok(())
}

fn a_refused_call_changes_nothing(mode: SharedWalOwnershipMode) -> Result<(), Refusal> {
    let (kernel, mut owned) = fresh(mode);
    let process = kernel.process(1);
    let mut memory = owned.lend();
    record(&process, &mut memory, &[(7, 5)]);
    let (header, frames) = (*memory.header, memory.frames.to_vec());
    assert_eq!(process.record_frame(&mut memory, 8, 5, false), Err(Refusal::FrameOrder));
    let mut short = [0; 1];
    let mut lists = [0; 0];
    assert_eq!(process.iter_latest_frames_into(&memory, 1, 9, &mut short, &mut lists), Err(Refusal::ShortList),);
    assert_eq!((*memory.header, memory.frames.to_vec()), (header, frames));

    memory.hash = &mut [];
    assert_eq!(process.find_frame(&memory, 7, 1, 9, None), Err(Refusal::ShortMemory));
    memory.header.frame_index_blocks = 2;
    assert_eq!(process.find_frame(&memory, 7, 1, 9, None), Err(Refusal::Settings));
    Ok(())
}

/// What a call answers in LinuxOfd and in ProcessScopedFcntl.
fn in_each_mode<T>(call: impl Fn(&Kernel, &mut Memory<'_>) -> T) -> [T; 2] {
    [SharedWalOwnershipMode::LinuxOfd, SharedWalOwnershipMode::ProcessScopedFcntl].map(|mode| {
        let (kernel, mut owned) = fresh(mode);
        call(&kernel, &mut owned.lend())
    })
}

type Acquires = fn(&mut Process<Locks>, &mut Memory<'_>, SharedOwnerRecord) -> Result<bool, Refusal>;
type Releases = fn(&mut Process<Locks>, &mut Memory<'_>, SharedOwnerRecord) -> Result<(), Refusal>;

#[test]
fn only_process_scoped_locks_compare_their_owner() {
    let both: [(LockByte, Acquires, Releases); 2] = [
        (LockByte::Writer, Process::try_acquire_writer, Process::release_writer),
        (LockByte::Checkpoint, Process::try_acquire_checkpoint, Process::release_checkpoint),
    ];
    for (byte, acquire, release) in both {
        let released = in_each_mode(|kernel, memory| {
            let mut process = kernel.process(1);
            assert_eq!(acquire(&mut process, memory, owner(1)), Ok(true));
            let answer = release(&mut process, memory, owner(2));
            (answer, memory.header.writer_owner, memory.header.checkpoint_owner, kernel.held())
        });
        let [writer, checkpoint] = [LockByte::Writer, LockByte::Checkpoint].map(|lock| match lock == byte {
            true => owner(1).raw(),
            false => 0,
        });
        let refused = (Err(Refusal::OtherOwner), writer, checkpoint, vec![(byte, 1)]);
        assert_eq!(released, [(Ok(()), 0, 0, vec![]), refused]);
    }
}

/// A process that meets three slots with their bit clear, of which the last has no owner and a free lock.
fn an_ownerless_slot(kernel: &Kernel, memory: &mut Memory<'_>) -> Process<Locks> {
    let mut other = kernel.process(2);
    for _ in 0..3 {
        assert!(other.register_reader(memory, owner(2), 5).is_ok_and(|reader| reader.is_some()));
    }
    memory.reader_owners[2] = 0;
    kernel.table.borrow_mut().remove(&LockByte::Reader(2));
    kernel.process(1)
}

#[test]
fn only_linux_ofd_reclaims_a_slot_without_an_owner() {
    type Registers = fn(&mut Process<Locks>, &mut Memory<'_>) -> Result<Option<usize>, Refusal>;
    let registers: [Registers; 3] = [
        |process, memory| Ok(process.register_reader(memory, owner(1), 6)?.map(|reader| reader.slot.number())),
        |process, memory| {
            Ok(process.register_reader_for_snapshot(memory, owner(1), 6)?.map(|reader| reader.slot.number()))
        },
        |process, memory| Ok(process.register_db_file_reader(memory, owner(1))?.map(|reader| reader.slot.number())),
    ];
    for register in registers {
        let slots = in_each_mode(|kernel, memory| register(&mut an_ownerless_slot(kernel, memory), memory));
        assert_eq!(slots, [Ok(Some(2)), Ok(None)]);
    }
}

#[test]
fn only_linux_ofd_refuses_where_a_lock_could_not_be_asked() {
    let answers = in_each_mode(|kernel, memory| {
        let (mut process, mut other) = (kernel.process(1), kernel.process(2));
        assert!(other.register_reader(memory, owner(2), 5).is_ok_and(|reader| reader.is_some()));
        assert!(other.register_db_file_reader(memory, owner(2)).is_ok_and(|reader| reader.is_some()));
        process.publish_commit(memory, 9, (0, 0), 1);
        process.publish_backfill(memory, 4);
        kernel.failing.borrow_mut().extend([LockByte::Reader(0), LockByte::Reader(1)]);
        (
            process.min_active_reader_frame(memory),
            process.copy_back_limit(memory),
            process.has_active_db_file_reader(memory),
        )
    });
    assert_eq!(
        answers,
        [(Err(Refusal::Probe), Err(Refusal::Probe), Err(Refusal::Probe)), (Ok(Some(5)), Ok(4), Ok(true)),]
    );
}

#[test]
fn only_process_scoped_slots_compare_their_local_owner() {
    // Another process has put its owner into the slot, and the release names that one.
    let direct = in_each_mode(|kernel, memory| {
        let mut process = kernel.process(1);
        let mut reader = process.register_reader(memory, owner(1), 5).unwrap().unwrap();
        reader.owner = owner(2);
        memory.reader_owners[0] = owner(2).raw();
        process.unregister_reader(memory, reader)
    });
    assert_eq!(direct, [Ok(()), Err(Refusal::OtherOwner)]);
}

#[test]
fn settings_out_of_their_limits_are_refused() {
    let mode = SharedWalOwnershipMode::LinuxOfd;
    let of = |given: Settings| {
        let refusal = Process::new(given, OneProcess).err();
        assert_eq!(OwnedMemory::fresh(&given, 1).err(), refusal);
        assert_eq!(given.check().err(), refusal);
        refusal
    };
    for (capacity, refused) in [(0, true), (1, false), (65_536, false), (65_537, true), (u32::MAX, true)] {
        assert_eq!(of(Settings::new(capacity, 1, 3, mode)).is_some(), refused, "capacity {capacity}");
    }
    for (max_blocks, refused) in [(0, true), (1, false), (16, false), (17, true), (u32::MAX, true)] {
        assert_eq!(of(Settings::new(1, max_blocks, 3, mode)).is_some(), refused, "blocks {max_blocks}");
    }
    for (reader_slots, refused) in
        [(0, true), (1, false), (256, false), (257, true), (1 << 60, true), (usize::MAX, true)]
    {
        assert_eq!(of(Settings::new(1, 1, reader_slots, mode)).is_some(), refused, "slots {reader_slots}");
    }
    let mode = SharedWalOwnershipMode::ProcessScopedFcntl;
    assert_eq!(of(Settings::new(1, 1, 257, mode)), Some(Refusal::Settings));
    assert_eq!(of(Settings::new(1, 1, 256, mode)), None);

    let good = Settings::new(1, 2, 3, mode);
    for (starting_blocks, refused) in [(0, false), (2, false), (3, true), (u32::MAX, true)] {
        let refusal = OwnedMemory::fresh(&good, starting_blocks).err();
        assert_eq!(refusal, refused.then_some(Refusal::Settings), "starting blocks {starting_blocks}");
    }
}

#[test]
fn memory_that_is_too_short_is_not_made_fresh() {
    let good = settings(SharedWalOwnershipMode::LinuxOfd);
    let mut owned = OwnedMemory::fresh(&good, 1).expect("the settings are good");
    let shorten: [fn(&mut Memory<'_>); 6] = [
        |memory| memory.pages = &mut [],
        |memory| memory.frames = &mut [],
        |memory| memory.hash = &mut [],
        |memory| memory.bitmap = &mut [],
        |memory| memory.reader_frames = &mut [],
        |memory| memory.reader_owners = &mut [],
    ];
    for shorten in shorten {
        let mut memory = owned.lend();
        memory.header.max_frame = 9;
        shorten(&mut memory);
        assert_eq!(memory.make_fresh(&good, 1), Err(Refusal::ShortMemory));
        assert_eq!(memory.header.max_frame, 9);
    }
    assert_eq!(owned.lend().make_fresh(&good, 2), Err(Refusal::Settings));
    assert_eq!(owned.lend().header.max_frame, 9);
    assert_eq!(owned.lend().make_fresh(&good, 1), Ok(()));
    assert_eq!(owned.lend().header.max_frame, 0);
}

#[test]
fn refusals_have_a_number_a_word_and_a_message() {
    for (place, &refusal) in Refusal::ALL.iter().enumerate() {
        assert_eq!(refusal.number() as usize, place + 1);
        assert_eq!(Refusal::from_number(refusal.number()), Some(refusal));
    }
    assert_eq!(Refusal::from_number(0), None);
    assert_eq!(Refusal::from_number(Refusal::ALL.len() as u32 + 1), None);
    let message = Refusal::FrameOrder.to_string();
    assert_eq!(message, "refused 3 (frame order): the frame is not above the last one recorded");
}

#[test]
fn long_parts_are_told_by_their_length() {
    let settings = settings(SharedWalOwnershipMode::LinuxOfd);
    let mut owned = OwnedMemory::fresh(&settings, 1).expect("the settings are good");
    let told = ", pages: 4096, frames: 4096, hash: 8192, bitmap: 1, reader_frames: 3, reader_owners: 3 }";
    assert!(format!("{owned:?}").ends_with(told));
    assert!(format!("{:?}", owned.lend()).ends_with(told));
    let process = Process::new(settings, OneProcess).expect("the settings are good");
    assert!(format!("{process:?}").contains("local_readers: [0, 0, 0]"));
}

#[test]
fn lent_locks_are_the_same_locks() -> Result<(), Refusal> {
    let kernel = fresh(SharedWalOwnershipMode::LinuxOfd).0;
    let (table, asked, failing) = (kernel.table.clone(), kernel.asked.clone(), kernel.failing.clone());
    let mut locks = Locks { table, process: 1, asked, failing };
    let mut owned = OwnedMemory::fresh(&settings(kernel.mode), 1)?;
    let mut process = Process::new(settings(kernel.mode), &mut locks)?;
    assert_eq!(process.try_acquire_writer(&mut owned.lend(), owner(1)), Ok(true));
    assert_eq!(kernel.held(), [(LockByte::Writer, 1)]);
    process.release_writer(&mut owned.lend(), owner(1))?;
    assert_eq!(kernel.held(), []);
    Ok(())
}
