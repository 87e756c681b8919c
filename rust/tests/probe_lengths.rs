//! How many hash cells lookups look at, on indexes whose numbers are worked out by hand. A page's home is 383 times the
//! page, mod 8,192.

use wal_coordination::{
    Lookup, Memory, OneProcess, OwnedMemory, ProbeLengths, Process, Recorded, Refusal, Settings, SharedWalOwnershipMode,
};

const SETTINGS: Settings = Settings::new(8192, 2, 1, SharedWalOwnershipMode::LinuxOfd);

fn process() -> Process<OneProcess> {
    Process::new(SETTINGS, OneProcess).expect("the settings are good")
}

/// An index in which frame 1, 2 and so on are of these pages.
fn index(pages: impl IntoIterator<Item = u64>) -> OwnedMemory {
    let mut owned = OwnedMemory::fresh(&SETTINGS, 1).expect("the settings are good");
    for (page, frame) in pages.into_iter().zip(1..) {
        assert_eq!(process().record_frame(&mut owned.lend(), page, frame, true), Ok(Recorded::Stored));
    }
    owned
}

fn lengths(mut owned: OwnedMemory) -> ProbeLengths {
    process().probe_lengths(&owned.lend()).expect("the memory is good")
}

fn counted(memory: &Memory<'_>, page: u64, bounds: (u64, u64), watermark: Option<u64>) -> (Option<u64>, u32) {
    let (min, max) = bounds;
    let Lookup { frame, cells, .. } =
        process().find_frame_counted(memory, page, min, max, watermark).expect("the memory is good");
    assert_eq!(process().find_frame(memory, page, min, max, watermark), Ok(frame));
    (frame, cells)
}

/// The lines of a histogram.
fn drawn(lengths: &ProbeLengths) -> Vec<String> {
    lengths.to_string().lines().map(String::from).collect()
}

#[test]
fn a_lookup_counts_the_cells_of_each_block_that_it_probes() {
    let mut fresh = index([]);
    assert_eq!(counted(&fresh.lend(), 7, (1, 9), None), (None, 0));

    // Pages 7 and 8,199 have one home.
    let mut owned = index([7, 8199, 7]);
    let memory = owned.lend();
    assert_eq!(counted(&memory, 7, (1, 3), None), (Some(3), 4));
    assert_eq!(counted(&memory, 8199, (1, 3), None), (Some(2), 4));
    assert_eq!(counted(&memory, 8, (1, 3), None), (None, 1));
    assert_eq!(counted(&memory, 7, (2, 3), Some(2)), (Some(1), 3));
    assert_eq!(counted(&memory, 7, (2, 2), None), (None, 3));
    assert_eq!(counted(&memory, 7, (2, 3), Some(1)), (None, 0));

    // The second block is probed first.
    let mut owned = index([7; 4096].into_iter().chain([8199]));
    let memory = owned.lend();
    assert_eq!(counted(&memory, 8199, (1, 9999), None), (Some(4097), 2));
    assert_eq!(counted(&memory, 7, (1, 9999), None), (Some(4096), 2 + 4097));
    assert_eq!(counted(&memory, 7, (1, 4096), None), (Some(4096), 4097));
}

#[test]
fn a_refused_lookup_counts_nothing() {
    let mut owned = index([7]);
    let mut memory = owned.lend();
    memory.hash = &mut [];
    assert_eq!(process().find_frame_counted(&memory, 7, 1, 9, None), Err(Refusal::ShortMemory));
    assert_eq!(process().probe_lengths(&memory), Err(Refusal::ShortMemory));
}

#[test]
fn an_index_without_pages_has_no_rows() {
    let lengths = lengths(index([]));
    assert_eq!((lengths.pages(), lengths.cells(), lengths.longest()), (0, 0, None));
    assert_eq!(lengths.iter().next(), None);
    assert_eq!(drawn(&lengths), ["the index has no page"]);
}

/// No two homes are neighbours.
#[test]
fn different_pages_need_two_cells() {
    let lengths = lengths(index(1..=100));
    assert_eq!(lengths.iter().collect::<Vec<_>>(), [(2, 100)]);
    let bar = "#".repeat(50);
    let whole = "pages 100, mean 2.0 cells, longest 2 (page 1)";
    assert_eq!(drawn(&lengths), ["       cells  pages", &format!("           2    100  {bar}"), whole]);
}

/// Ten pages in turn, whose homes are 766 cells apart or further: each has its own run, of 410 cells for the first six
/// pages and of 409 for the others.
#[test]
fn few_pages_written_often_make_long_probes() {
    let lengths = lengths(index((0..4096).map(|frame| 2 + frame % 10 * 2)));
    assert_eq!(lengths.iter().collect::<Vec<_>>(), [(410, 4), (411, 6)]);
    assert_eq!((lengths.pages(), lengths.cells(), lengths.longest()), (10, 4106, Some((2, 411))));
    let bar = "#".repeat(50);
    let whole = "pages 10, mean 410.6 cells, longest 411 (page 2)";
    assert_eq!(drawn(&lengths), ["       cells  pages", &format!("     257-512     10  {bar}"), whole]);
}

/// The rows are those from the first to the last with a page; a bar is rounded up.
#[test]
fn rows_end_at_powers_of_two() {
    let one_page = |page: u64, times: usize| std::iter::repeat_n(page, times);
    // 51 pages of two cells; one each of 3, 4, 5, 8, 9 and 17. Their homes are at least 60 cells apart.
    let repeated = [(1001, 2), (1002, 3), (1003, 4), (1004, 7), (1005, 8), (1006, 16)];
    let pages = (1..=51).chain(repeated.into_iter().flat_map(|(page, times)| one_page(page, times)));
    let lengths = lengths(index(pages));
    let expected = [(2, 51), (3, 1), (4, 1), (5, 1), (8, 1), (9, 1), (17, 1)];
    assert_eq!(lengths.iter().collect::<Vec<_>>(), expected);
    assert_eq!((lengths.pages(), lengths.cells(), lengths.longest()), (57, 148, Some((1006, 17))));
    let bars = ["#".repeat(50), "##".into(), "##".into(), "#".into(), "#".into()];
    let rows = [
        "           2     51",
        "         3-4      2",
        "         5-8      2",
        "        9-16      1",
        "       17-32      1",
    ];
    let rows = rows.iter().zip(bars).map(|(row, bar)| format!("{row}  {bar}"));
    let lines = ["       cells  pages".to_string()].into_iter().chain(rows);
    let whole = "pages 57, mean 2.6 cells, longest 17 (page 1006)".to_string();
    assert_eq!(drawn(&lengths), lines.chain([whole]).collect::<Vec<_>>());
}

/// Damage: the longest probes that there are, of a memory whose hash cells all name the first entry of their block.
#[test]
fn tables_without_an_empty_cell_are_looked_at_whole() {
    let mut owned = index([7; 4096].into_iter().chain([8199]));
    let memory = owned.lend();
    memory.hash.fill(1);
    let lengths = process().probe_lengths(&memory).expect("the memory is good");
    assert_eq!(lengths.iter().collect::<Vec<_>>(), [(8192, 1), (16384, 1)]);
    assert_eq!(lengths.longest(), Some((7, 16384)));
}
