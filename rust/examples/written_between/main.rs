//! Was this page written in this transaction? A transaction's frames are those after the frame that was published when
//! it began, up to its last one. It has written a page if the page has a frame among them: which one, where there are
//! several, is not decided, and the question does not ask. And which copy of a page is nearest to a given moment, which
//! is told as a frame?

use wal_coordination::{Memory, OneProcess, OwnedMemory, Process, Refusal, Settings, SharedWalOwnershipMode};

/// 4,096 entries in one block.
const SETTINGS: Settings = Settings::new(4096, 1, 1, SharedWalOwnershipMode::LinuxOfd);

/// The pages that are asked for. The last one is never written.
const PAGES: [u64; 4] = [7, 9, 8199, 12];

fn main() -> Result<(), Refusal> {
    let process = Process::new(SETTINGS, OneProcess)?;
    let mut owned = OwnedMemory::fresh(&SETTINGS, 1)?;
    let mut memory = owned.lend();

    row("transaction", "frames", |page| Ok(format!("page {page}")))?;
    for (name, pages) in [("first", vec![7, 8199, 7]), ("second", vec![9, 8199]), ("third", vec![7, 9, 7, 7])] {
        let (first, last) = record(&process, &mut memory, &pages)?;
        let transaction_count = memory.header.transaction_count + 1;
        process.publish_commit(&mut memory, last, (0, 0), transaction_count);
        show_written(&process, &memory, name, first, last)?;
    }

    // Frames count before they are published, and no longer when they are rolled back.
    let (first, last) = record(&process, &mut memory, &[8199])?;
    show_written(&process, &memory, "fourth", first, last)?;
    process.rollback_frames(&mut memory, first - 1)?;
    show_written(&process, &memory, "rolled back", first, last)?;

    println!();
    row("nearest", "to frame", |page| Ok(format!("page {page}")))?;
    for moment in [0, 5, 7, 100] {
        row("", &moment.to_string(), |page| {
            Ok(match process.nearest_frame(&memory, page, moment)? {
                Some(frame) => format!("frame {frame}"),
                None => "none".into(),
            })
        })?;
    }
    Ok(())
}

/// Records a frame of each of these pages, after the published one. Answers the first and the last of them.
fn record(process: &Process<OneProcess>, memory: &mut Memory<'_>, pages: &[u64]) -> Result<(u64, u64), Refusal> {
    let published = memory.header.max_frame;
    for (&page, frame) in pages.iter().zip(published + 1..) {
        process.record_frame(memory, page, frame, false)?;
    }
    Ok((published + 1, published + pages.len() as u64))
}

/// Prints which pages have a frame from the first to the last one.
fn show_written(
    process: &Process<OneProcess>,
    memory: &Memory<'_>,
    name: &str,
    first: u64,
    last: u64,
) -> Result<(), Refusal> {
    row(name, &format!("{first} to {last}"), |page| {
        let written = process.frame_between(memory, page, first, last)?.is_some();
        Ok(if written { "yes" } else { "no" }.into())
    })
}

/// Prints two words and what is said of each page.
fn row(name: &str, frames: &str, said: impl Fn(u64) -> Result<String, Refusal>) -> Result<(), Refusal> {
    let mut line = format!("{name:<13}{frames:<10}");
    for page in PAGES {
        line += &format!("{:<11}", said(page)?);
    }
    println!("{}", line.trim_end());
    Ok(())
}
