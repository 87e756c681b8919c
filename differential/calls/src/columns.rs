//! The program of document 01 ("Program and its columns"), read from that paper alone: what a line asks, and the Rust's
//! answers in columns.

use crate::memory::{Settings, LINUX_OFD};
use crate::script::{Answer, Call, Line, New};
use crate::session::{Cells, Difference, Reply, Session, Sides};

/// The columns of a number.
const COLUMNS: usize = 12;

/// Capacity 4,096, B 1, one block, published 0. Slots and mode play no part.
const FRESH: New = New {
    settings: Settings { capacity: 4096, max_blocks: 1, slots: 1, mode: LINUX_OFD },
    start_blocks: 1,
    processes: 1,
};

/// As many pairs as the settings allow.
const ROOM: u64 = 4096;

/// The lines of an input, each without its newline. The last may lack it; nothing behind the last newline is no line.
pub fn lines(input: &[u8]) -> impl Iterator<Item = &[u8]> {
    input.split_inclusive(|b| *b == b'\n').map(|line| line.strip_suffix(b"\n").unwrap_or(line))
}

/// A letter and as many numbers as it takes, written as the program's lines are.
pub fn line(letter: char, numbers: &[u64]) -> String {
    let columns: String = numbers.iter().map(|&number| right_justified(number)).collect();
    format!("{letter}{columns}")
}

fn right_justified(number: u64) -> String {
    format!("{number:>COLUMNS$}")
}

/// A number without leading zeros, right-justified in its columns: written again it is the same.
fn number(columns: &[u8]) -> Option<u64> {
    let digits = std::str::from_utf8(columns).ok()?.trim_start_matches(' ');
    let number = digits.parse().ok()?;
    (right_justified(number).as_bytes() == columns).then_some(number)
}

/// The call that a line asks for; `None`: a line of any other form.
pub fn call(line: &[u8]) -> Option<Call> {
    let (letter, columns) = line.split_first()?;
    let numbers: Vec<u64> = columns.chunks(COLUMNS).map(number).collect::<Option<_>>()?;
    Some(match (letter, &numbers[..]) {
        (b'R', &[page, frame]) => Call::RecordFrame { page, frame, grow: false },
        (b'B', &[bound]) => Call::RollbackFrames { bound },
        (b'F', &[page, min, max]) => Call::FindFrame { page, min, max, watermark: None, cells: false },
        (b'L', &[min, max]) => Call::IterLatestFrames { min, max, room: ROOM },
        _ => return None,
    })
}

/// An answer, and the pairs of a list after it.
fn answered(letter: char, answer: &Answer) -> String {
    let (refusal, value, pairs): (u32, Option<u64>, &[(u64, u64)]) = match answer {
        Answer::Stored => (0, Some(1), &[]),
        Answer::Dropped => (0, Some(0), &[]),
        Answer::Kept(len) => (0, Some((*len).into()), &[]),
        Answer::Frame(frame) => (0, Some(*frame), &[]),
        Answer::Nothing => (0, None, &[]),
        Answer::List(pairs) => (0, Some(pairs.len() as u64), pairs),
        Answer::Refused(number) => (*number, None, &[]),
        _ => unreachable!("not an answer of the index"),
    };
    let value = value.map_or(" ".repeat(COLUMNS), right_justified);
    let mut text = format!("{letter}{refusal:>3}{value}\n");
    for (page, frame) in pairs {
        text += &line('-', &[*page, *frame]);
        text.push('\n');
    }
    text
}

/// What an input comes to: the answers, and of how many lines and calls.
#[derive(Default)]
pub struct Answers {
    pub text: Vec<u8>,
    pub lines: u64,
    pub calls: u64,
}

/// The answers of the sides, the Rust as a rule, to the program's input.
pub fn answers(sides: Sides, input: &[u8]) -> Result<Answers, Box<Difference>> {
    let mut session = Session::new(sides);
    session.cells = Cells::None;
    session.step(&Line::New(FRESH))?;
    let mut answers = Answers::default();
    for line in lines(input) {
        answers.lines += 1;
        let Some(call) = call(line) else {
            answers.text.extend(b"?\n");
            continue;
        };
        answers.calls += 1;
        match session.step(&Line::Call { process: 0, call })? {
            Reply::Answer(answer) => answers.text.extend(answered(line[0].into(), &answer).bytes()),
            reply => unreachable!("a call on the index is answered by {reply}"),
        }
    }
    Ok(answers)
}

#[cfg(test)]
mod tests {
    use super::*;

    fn is_call(line: &str) -> bool {
        call(line.as_bytes()).is_some()
    }

    #[test]
    fn lines_end_at_newlines_and_at_the_end() {
        let split = |input: &'static str| lines(input.as_bytes()).collect::<Vec<_>>();
        assert_eq!(split(""), [b""; 0]);
        assert_eq!(split("\n"), [b""]);
        assert_eq!(split("a\n\nb\n"), [&b"a"[..], b"", b"b"]);
        assert_eq!(split("a\nb"), [b"a", b"b"]);
    }

    #[test]
    fn calls_are_read() {
        assert_eq!(
            call(b"R999999999999           2"),
            Some(Call::RecordFrame { page: 999_999_999_999, frame: 2, grow: false })
        );
        assert_eq!(call(b"B           0"), Some(Call::RollbackFrames { bound: 0 }));
        let find = Call::FindFrame { page: 7, min: 1, max: 2, watermark: None, cells: false };
        assert_eq!(call(b"F           7           1           2"), Some(find));
        assert_eq!(call(b"L           1           9"), Some(Call::IterLatestFrames { min: 1, max: 9, room: 4096 }));
        assert_eq!(call(line('L', &[1, 9]).as_bytes()), call(b"L           1           9"));
    }

    #[test]
    fn other_forms_are_no_calls() {
        for other in ["", "B", "B          7", "B            7", "B           7 ", "B           7\r", "b           7"] {
            assert!(!is_call(other), "{other}");
        }
        for columns in ["           ", "          07", "          +7", "          -7", "7           ", "1234567890123"]
        {
            assert!(!is_call(&format!("B{columns}")), "{columns}");
        }
        assert!(!is_call("X           7") && !is_call("R           7") && !is_call("B           7           7"));
    }
}
