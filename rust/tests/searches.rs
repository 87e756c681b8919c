//! Searches over the entries: a frame between two frames, and the nearest one. They are held against the entries,
//! looked at one by one. Which of several frames between the bounds is given is not decided: any of them passes.

use wal_coordination::{Memory, OneProcess, OwnedMemory, Process, Recorded, Refusal, Settings, SharedWalOwnershipMode};

const SETTINGS: Settings = Settings::new(8192, 2, 1, SharedWalOwnershipMode::LinuxOfd);

fn process() -> Process<OneProcess> {
    Process::new(SETTINGS, OneProcess).expect("the settings are good")
}

/// An index of these pairs of page and frame.
fn index(entries: impl IntoIterator<Item = (u64, u64)>) -> OwnedMemory {
    let mut owned = OwnedMemory::fresh(&SETTINGS, 1).expect("the settings are good");
    for (page, frame) in entries {
        assert_eq!(process().record_frame(&mut owned.lend(), page, frame, true), Ok(Recorded::Stored));
    }
    owned
}

/// All frames that the page has in the index.
fn frames_of(memory: &Memory<'_>, page: u64) -> Vec<u64> {
    let entries = memory.pages.iter().zip(memory.frames.iter()).take(memory.header.frame_index_len as usize);
    entries.filter(|(of, _)| **of == page).map(|(_, frame)| *frame).collect()
}

/// The answer of a search between two frames, which must be one of the page's frames there, and `None` only where it
/// has none.
fn between(memory: &Memory<'_>, page: u64, min: u64, max: u64) -> Option<u64> {
    let found = process().frame_between(memory, page, min, max).expect("the memory is good");
    let there: Vec<u64> = frames_of(memory, page).into_iter().filter(|&frame| min <= frame && frame <= max).collect();
    match found {
        Some(frame) => assert!(there.contains(&frame), "page {page} from {min} to {max}: {frame} of {there:?}"),
        None => assert_eq!(there, [], "page {page} from {min} to {max}"),
    }
    found
}

/// The answer of a search for the nearest frame, which must be the one that the entries give.
fn nearest(memory: &Memory<'_>, page: u64, to: u64) -> Option<u64> {
    let found = process().nearest_frame(memory, page, to).expect("the memory is good");
    let expected = frames_of(memory, page).into_iter().min_by_key(|&frame| (frame.abs_diff(to), frame));
    assert_eq!(found, expected, "page {page} to {to}");
    found
}

#[test]
fn both_ends_are_included() {
    let mut owned = index([(7, 3), (8199, 4), (7, 6)]);
    let memory = owned.lend();
    assert_eq!(between(&memory, 7, 3, 3), Some(3));
    assert_eq!(between(&memory, 7, 0, 3), Some(3));
    assert_eq!(between(&memory, 7, 4, 6), Some(6));
    assert_eq!(between(&memory, 7, 6, u64::MAX), Some(6));
    assert_eq!(between(&memory, 7, 4, 5), None);
    assert_eq!(between(&memory, 7, 7, u64::MAX), None);
    assert_eq!(between(&memory, 7, 0, 2), None);
    assert_eq!(between(&memory, 8199, 0, u64::MAX), Some(4));
    assert_eq!(between(&memory, 8, 0, u64::MAX), None);
}

#[test]
fn bounds_in_the_wrong_order_give_none() {
    let mut owned = index([(7, 3), (7, 4), (7, 6)]);
    let memory = owned.lend();
    assert_eq!(between(&memory, 7, 6, 3), None);
    assert_eq!(between(&memory, 7, 4, 3), None);
    assert_eq!(between(&memory, 7, u64::MAX, 0), None);
}

/// The page has five frames between the bounds, and the other one none.
#[test]
fn of_several_frames_one_is_given() {
    let mut owned = index((1..=9).map(|frame| (if frame % 2 == 1 { 7 } else { 8 }, frame)));
    let memory = owned.lend();
    assert!(between(&memory, 7, 1, 9).is_some());
    assert!(between(&memory, 7, 3, 7).is_some());
    assert_eq!(between(&memory, 8, 9, 9), None);
}

#[test]
fn of_two_as_near_the_lower_is_given() {
    let mut owned = index([(7, 10), (8, 14), (7, 20)]);
    let memory = owned.lend();
    let found = |to| nearest(&memory, 7, to);
    assert_eq!([found(0), found(10), found(14), found(15)], [Some(10); 4]);
    assert_eq!([found(16), found(20), found(u64::MAX)], [Some(20); 3]);
    assert_eq!(nearest(&memory, 8, 20), Some(14));
    assert_eq!(nearest(&memory, 9, 14), None);
}

#[test]
fn frames_and_pages_are_any_numbers_of_64_bits() {
    let wide_page = 7 + (1 << 32);
    let mut owned = index([(7, 0), (wide_page, 2), (7, u64::MAX)]);
    let memory = owned.lend();
    assert_eq!(between(&memory, 7, 0, 0), Some(0));
    assert_eq!(between(&memory, 7, 1, u64::MAX), Some(u64::MAX));
    assert_eq!(between(&memory, 7, 1, u64::MAX - 1), None);
    assert!(between(&memory, 7, 0, u64::MAX).is_some());
    let middle = u64::MAX / 2;
    assert_eq!([nearest(&memory, 7, middle), nearest(&memory, 7, middle + 1)], [Some(0), Some(u64::MAX)]);
    assert_eq!((between(&memory, wide_page, 0, u64::MAX), nearest(&memory, wide_page, u64::MAX)), (Some(2), Some(2)));
}

/// A reader's mark does not bound them: a search between frames up to the mark does, by its own upper bound.
#[test]
fn entries_count_published_or_not_until_they_are_rolled_back() {
    let mut owned = index([(7, 1), (8, 2), (7, 3)]);
    let mut memory = owned.lend();
    process().publish_commit(&mut memory, 2, (0, 0), 1);
    assert_eq!(between(&memory, 7, 2, 9), Some(3));
    assert_eq!(between(&memory, 7, 2, 2), None);
    assert_eq!(nearest(&memory, 7, 2), Some(1));
    assert_eq!(nearest(&memory, 7, 9), Some(3));

    assert_eq!(process().rollback_frames(&mut memory, 2), Ok(2));
    assert_eq!(between(&memory, 7, 2, 9), None);
    assert_eq!(nearest(&memory, 7, 9), Some(1));
    assert_eq!(process().rollback_frames(&mut memory, 0), Ok(0));
    assert_eq!((between(&memory, 7, 0, u64::MAX), nearest(&memory, 7, 1)), (None, None));
}

/// Two blocks, few pages; every bound that lies at or beside a frame of the page or an end of a block.
#[test]
fn entries_of_all_blocks_are_searched() {
    let frame_of = |entry: u64| 10 + 3 * entry;
    let mut owned = index((0..5000).map(|entry| (entry * entry % 1009 % 7, frame_of(entry))));
    let memory = owned.lend();
    let near = |frame: u64| [frame - 1, frame, frame + 1];
    let moments: Vec<u64> = [0, 1, 2047, 4095, 4096, 4097, 4999].into_iter().flat_map(|n| near(frame_of(n))).collect();
    for page in 0..8 {
        for &min in &moments {
            nearest(&memory, page, min);
            for &max in &moments {
                between(&memory, page, min, max);
            }
        }
    }
    assert_eq!(nearest(&memory, 7, 10), None);
    assert_eq!(nearest(&memory, 0, 0), Some(10));
}

/// Damage: frames that do not rise, and a hash that names nothing, or is not there.
#[test]
fn damaged_frames_and_a_damaged_hash_do_not_matter() {
    let mut owned = index([(7, 1), (8, 2), (7, 3), (7, 4)]);
    let mut memory = owned.lend();
    memory.frames[..4].copy_from_slice(&[9, 5, 9, 2]);
    memory.hash.fill(0);
    assert_eq!(between(&memory, 7, 0, 8), Some(2));
    assert_eq!(between(&memory, 7, 3, 9), Some(9));
    assert_eq!([nearest(&memory, 7, 5), nearest(&memory, 7, 6)], [Some(2), Some(9)]);
    memory.hash = &mut [];
    assert_eq!(between(&memory, 7, 0, 8), Some(2));
    assert_eq!(nearest(&memory, 7, 6), Some(9));
    assert_eq!(process().find_frame(&memory, 7, 0, 9, None), Err(Refusal::ShortMemory));
}

#[test]
fn short_entries_and_wrong_settings_are_refused() {
    let mut owned = index([(7, 1)]);
    let refused = |memory: &Memory<'_>| {
        let refusal = process().frame_between(memory, 7, 0, 9).err();
        assert_eq!(process().nearest_frame(memory, 7, 0).err(), refusal);
        refusal
    };
    assert_eq!(refused(&owned.lend()), None);
    let mut short = [0; 8191];
    let mut memory = owned.lend();
    memory.pages = &mut short;
    assert_eq!(refused(&memory), Some(Refusal::ShortMemory));
    memory.header.frame_index_len = 4097;
    assert_eq!(refused(&memory), Some(Refusal::Settings));
    let mut memory = owned.lend();
    memory.header.frame_index_len = 1;
    memory.frames = &mut short;
    assert_eq!(refused(&memory), Some(Refusal::ShortMemory));
    memory.header.frame_index_blocks = 3;
    assert_eq!(refused(&memory), Some(Refusal::Settings));
}
