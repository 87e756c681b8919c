//! Processes that share one mapped file, with real byte locks. The first process makes the file, starts a writer and
//! two readers, tells them what to do by lines on their standard input, and prints what they answer. One reader is
//! killed while it holds a slot; the next floor finds its lock free and reclaims the slot. At the end a reader needs
//! the database file alone, and nothing new is copied into that file while it reads.

mod shared_file;

use shared_file::{OfdLocks, SharedFile};
use std::io::{BufRead, BufReader, Write};
use std::path::Path;
use std::process::{Child, ChildStdout, Command, Stdio};
use wal_coordination::{
    Memory, Process, Recorded, Refusal, Settings, SharedOwnerRecord, SharedReaderSlot, SharedWalOwnershipMode,
};

/// 8,192 entries in two blocks, and four reader slots.
const SETTINGS: Settings = Settings::new(8192, 2, 4, SharedWalOwnershipMode::LinuxOfd);

fn main() -> std::io::Result<()> {
    match &std::env::args().collect::<Vec<_>>()[1..] {
        [] => conduct(),
        [path] => serve(Path::new(path)),
        _ => Err(std::io::Error::other("usage: two_processes")),
    }
}

/// A started process and the pipes to it.
struct Other {
    name: &'static str,
    child: Child,
    answers: BufReader<ChildStdout>,
}

impl Other {
    fn start(name: &'static str, path: &Path) -> std::io::Result<Other> {
        let program = std::env::current_exe()?;
        let mut child = Command::new(program).arg(path).stdin(Stdio::piped()).stdout(Stdio::piped()).spawn()?;
        let answers = BufReader::new(child.stdout.take().expect("it is piped"));
        Ok(Other { name, child, answers })
    }

    /// Has it make a call, and prints call and answer.
    fn call(&mut self, words: &str) -> std::io::Result<()> {
        writeln!(self.child.stdin.as_mut().expect("it is piped"), "{words}")?;
        let mut answer = String::new();
        self.answers.read_line(&mut answer)?;
        println!("{:<8} {words:<18} {}", self.name, answer.trim_end());
        Ok(())
    }

    fn kill(mut self) -> std::io::Result<()> {
        self.child.kill()?;
        self.child.wait()?;
        println!("{:<8} is killed", self.name);
        Ok(())
    }

    /// Closes its standard input, which ends it.
    fn end(mut self) -> std::io::Result<()> {
        drop(self.child.stdin.take());
        self.child.wait()?;
        Ok(())
    }
}

fn conduct() -> std::io::Result<()> {
    let path = std::env::temp_dir().join(format!("wal_coordination-{}", std::process::id()));
    SharedFile::create(&path, &SETTINGS)?;
    let told = story(&path);
    std::fs::remove_file(&path)?;
    told
}

fn story(path: &Path) -> std::io::Result<()> {
    let mut writer = Other::start("writer", path)?;
    let mut first = Other::start("reader 1", path)?;
    let mut second = Other::start("reader 2", path)?;

    writer.call("acquire")?;
    for record in ["record 7 1", "record 8199 2", "record 7 3"] {
        writer.call(record)?;
    }
    writer.call("commit 3")?;

    // Its own floors do not ask for the lock that it holds: the hold stays.
    first.call("register")?;
    first.call("find 7 3")?;
    first.call("floor")?;

    // The writer goes on; lookups and lists up to the first reader's mark do not change.
    writer.call("record 7 4")?;
    writer.call("record 9 5")?;
    writer.call("commit 4")?;
    writer.call("rollback 4")?;
    first.call("find 7 3")?;
    first.call("list 3")?;

    // The second reader sees what is new, and dies with its slot held.
    second.call("register")?;
    second.call("find 7 4")?;
    writer.call("floor")?;
    writer.call("limit")?;
    first.call("release")?;
    writer.call("floor")?;
    writer.call("limit")?;
    second.kill()?;
    writer.call("slots")?;
    writer.call("floor")?;
    writer.call("slots")?;
    writer.call("limit")?;

    // All frames are copied. A reader now needs the database file alone, and holds back what is published later.
    writer.call("copy")?;
    first.call("register")?;
    writer.call("record 9 5")?;
    writer.call("commit 5")?;
    writer.call("limit")?;
    writer.call("copy")?;
    first.call("release")?;
    writer.call("copy")?;

    first.call("acquire")?;
    writer.call("unlock")?;
    first.call("acquire")?;
    writer.end()?;
    first.end()
}

/// Makes the calls that the lines of standard input name.
fn serve(path: &Path) -> std::io::Result<()> {
    let mut file = SharedFile::open(path, &SETTINGS)?;
    let mut process = Process::new(SETTINGS, file.locks()).map_err(std::io::Error::other)?;
    let owner = SharedOwnerRecord::new(std::process::id(), 1);
    let mut reader = None;
    for line in std::io::stdin().lines() {
        let line = line?;
        let mut words = line.split(' ');
        let name = words.next().unwrap_or("");
        let numbers: Vec<u64> = words.filter_map(|word| word.parse().ok()).collect();
        let answer = call(&mut file, &mut process, owner, &mut reader, name, &numbers);
        println!("{}", answer.unwrap_or_else(|refusal| refusal.to_string()));
    }
    Ok(())
}

/// Copies frames back, as far as readers allow, and publishes how many are copied: all in one turn, under the
/// checkpoint lock. While a reader reads the database file alone, the limit is not above what is copied already; nothing
/// new is copied then, or if the limit is refused.
fn copy_back(process: &mut Process<OfdLocks>, memory: &mut Memory<'_>) -> Result<String, Refusal> {
    let limit = process.copy_back_limit(memory)?;
    if limit > memory.header.nbackfills {
        // Here a host copies the frames nbackfills + 1 to limit into the database file, and syncs it.
        process.publish_backfill(memory, limit);
    }
    Ok(format!("{} copied", memory.header.nbackfills))
}

/// One call, while this process alone has the memory.
fn call(
    file: &mut SharedFile,
    process: &mut Process<OfdLocks>,
    owner: SharedOwnerRecord,
    reader: &mut Option<SharedReaderSlot>,
    name: &str,
    numbers: &[u64],
) -> Result<String, Refusal> {
    let mut turn = file.take_turn();
    let memory = &mut turn.memory();
    Ok(match (name, numbers) {
        ("acquire", []) => match process.try_acquire_writer(memory, owner)? {
            true => "is the writer".into(),
            false => "another process is the writer".into(),
        },
        ("unlock", []) => {
            process.release_writer(memory, owner)?;
            "released".into()
        }
        ("record", &[page, frame]) => match process.record_frame(memory, page, frame, true)? {
            Recorded::Stored => "stored".into(),
            Recorded::Dropped => "dropped".into(),
        },
        ("commit", &[frame]) => {
            process.publish_commit(memory, frame, (0, 0), frame);
            "published".into()
        }
        ("rollback", &[frame]) => format!("{} entries kept", process.rollback_frames(memory, frame)?),
        // What is published and what is copied is looked at in the turn in which the reader is registered.
        ("register", []) => {
            let published = memory.header.max_frame;
            *reader = match memory.header.nbackfills == published {
                true => process.register_db_file_reader(memory, owner)?,
                false => process.register_reader_for_snapshot(memory, owner, published)?,
            };
            match reader {
                Some(held) if held.max_frame == 0 => format!("slot {}, the database file alone", held.slot.number()),
                Some(held) => format!("slot {}, frames up to {}", held.slot.number(), held.max_frame),
                None => "no slot".into(),
            }
        }
        ("release", []) => match reader.take() {
            Some(held) => {
                process.unregister_reader_for_snapshot(memory, held)?;
                "released".into()
            }
            None => "nothing is held".into(),
        },
        ("find", &[page, mark]) => match process.find_frame(memory, page, 1, mark, None)? {
            Some(frame) => format!("frame {frame}"),
            None => "none".into(),
        },
        ("list", &[mark]) => {
            let pairs = process.iter_latest_frames(memory, 1, mark)?;
            pairs.iter().map(|(page, frame)| format!("{page}:{frame}")).collect::<Vec<_>>().join(" ")
        }
        ("floor", []) => process.min_active_reader_frame(memory)?.map_or("none".into(), |mark| mark.to_string()),
        ("limit", []) => process.copy_back_limit(memory)?.to_string(),
        ("copy", []) => match process.try_acquire_checkpoint(memory, owner)? {
            true => {
                let copied = copy_back(process, memory);
                process.release_checkpoint(memory, owner)?;
                copied?
            }
            false => "no checkpoint lock".into(),
        },
        ("slots", []) => {
            let used = memory.reader_frames.iter().filter(|&&frame| frame != wal_coordination::UNUSED_READER_FRAME);
            format!("{} in use", used.count())
        }
        _ => "?".into(),
    })
}
