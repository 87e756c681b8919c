//! The list and its output cells: what it must not write it must leave.

use crate::index;
use calls::script::Answer;
use calls::sides::Given;
use wal_coordination_sys::{self as sys, IndexToRead, ListReply};

/// More pairs than an index can have.
pub(crate) const MOST_PAIRS: u64 = 70_000;
/// Cells past the lent ones.
const GUARDS: usize = 4;
/// Output below this many pairs is also lent with more cells for pages or for frames alone.
const SHORT: usize = 1000;
const MORE: usize = 9;

/// What an output cell holds before the call: no two cells the same.
fn untouched(cell: usize) -> u64 {
    0xa5a5_a5a5_0000_0000 + cell as u64
}

fn output(room: usize) -> Vec<u64> {
    (0..room + GUARDS).map(untouched).collect()
}

fn is_touched(cells: &[u64], from: usize) -> bool {
    cells.iter().enumerate().skip(from).any(|(cell, &value)| value != untouched(cell))
}

/// A list into so many lent cells for pages and for frames.
fn list_into(index: IndexToRead, (min, max): (u64, u64), rooms: [usize; 2]) -> Answer {
    let mut out = rooms.map(output);
    let [out_pages, out_frames] = &mut out;
    let (lent_pages, lent_frames) = (&mut out_pages[..rooms[0]], &mut out_frames[..rooms[1]]);
    let ListReply { refusal, count } = sys::iter_latest_frames(index, min, max, lent_pages, lent_frames);
    let odd = |words| Answer::Odd(format!("refusal {refusal} and count {count}{words}"));
    if refusal != 0 && count != 0 || rooms.iter().any(|&room| count > room as u64) {
        return odd("");
    }
    let pairs = count as usize;
    if out.iter().any(|cells| is_touched(cells, pairs)) {
        return odd(", an output cell past the pairs is written");
    }
    let [out_pages, out_frames] = out;
    match refusal {
        0 => Answer::List(out_pages.into_iter().zip(out_frames).take(pairs).collect()),
        _ => Answer::Refused(refusal),
    }
}

/// Nothing but the output changes, so a short list is made three times: with as many cells for pages as for frames, and
/// with more for either. The answers must be the same.
pub(crate) fn iter_latest_frames(g: Given, min: u64, max: u64, room: u64) -> Answer {
    let index = index(g);
    let index = index.to_read();
    let room = room.min(MOST_PAIRS) as usize;
    let answer = list_into(index, (min, max), [room, room]);
    if room < SHORT {
        for rooms in [[room, room + MORE], [room + MORE, room]] {
            let other = list_into(index, (min, max), rooms);
            if other != answer {
                return Answer::Odd(format!("{answer}; with {rooms:?} cells {other}"));
            }
        }
    }
    answer
}
