//! Why lookups can be slow: the probe lengths of two indexes with as many records, one of different pages and one of ten
//! pages that are written again and again.

use wal_coordination::{OneProcess, OwnedMemory, Process, Refusal, Settings, SharedWalOwnershipMode};

/// 4,096 entries in one block.
const SETTINGS: Settings = Settings::new(4096, 1, 1, SharedWalOwnershipMode::LinuxOfd);

fn main() -> Result<(), Refusal> {
    show("4,096 records of 4,096 pages:", 1..=4096)?;
    println!();
    show("4,096 records of ten pages in turn:", (1..=10).cycle().take(4096))
}

/// Records frames 1, 2 and so on of these pages, and prints how many hash cells lookups look at then.
fn show(title: &str, pages: impl Iterator<Item = u64>) -> Result<(), Refusal> {
    let process = Process::new(SETTINGS, OneProcess)?;
    let mut owned = OwnedMemory::fresh(&SETTINGS, 1)?;
    let mut memory = owned.lend();
    for (page, frame) in pages.zip(1..) {
        process.record_frame(&mut memory, page, frame, false)?;
    }
    println!("{title}\n{}", process.probe_lengths(&memory)?);
    Ok(())
}
