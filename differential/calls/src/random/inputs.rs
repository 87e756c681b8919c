//! Inputs of the program: sessions of calls in columns, lines of every other form, and how the input is delivered.

use super::dice::Dice;
use crate::columns::line;

/// The greatest number that 12 columns hold.
const GREATEST: u64 = 999_999_999_999;
/// As many entries as the program's index has.
const CAPACITY: u64 = 4096;
const MEGABYTE: usize = 1 << 20;

/// The letters, each with how many numbers it takes.
const LETTERS: [(char, usize); 4] = [('R', 2), ('B', 1), ('F', 3), ('L', 2)];

/// What the program is given on standard input.
pub struct Input {
    pub name: String,
    pub bytes: Vec<u8>,
    /// The lengths of the pieces that it comes in, one to a read; none: it comes as the system delivers it.
    pub pieces: Vec<usize>,
}

impl Input {
    fn whole(name: &str, bytes: Vec<u8>) -> Self {
        Self { name: name.into(), bytes, pieces: Vec::new() }
    }
}

/// All inputs, the short ones first.
pub fn inputs(seed: u64) -> Vec<Input> {
    let mut dice = Dice::new(seed, 0);
    let mut inputs = vec![
        Input::whole("no input", Vec::new()),
        Input::whole("one newline", b"\n".to_vec()),
        Input::whole("forms", forms()),
        Input::whole("numbers", numbers()),
    ];
    inputs.extend(endings());
    inputs.push(bytewise(&mut dice));
    inputs.push(in_pieces(&mut dice));
    inputs.push(Input::whole("long lines", long_lines()));
    inputs.push(Input::whole("full index", full_index()));
    inputs.push(Input::whole("empty lines", vec![b'\n'; 200_000]));
    inputs.push(Input::whole("many calls", many_calls(&mut dice, 120_000)));
    inputs
}

fn put(bytes: &mut Vec<u8>, line: impl AsRef<[u8]>) {
    bytes.extend(line.as_ref());
    bytes.push(b'\n');
}

/// Every other form, each between calls that show whether the index was changed.
fn forms() -> Vec<u8> {
    let mut bytes = Vec::new();
    for frame in 1..=4 {
        put(&mut bytes, line('R', &[7 + frame % 2, frame]));
    }
    for form in other_forms() {
        put(&mut bytes, form);
        put(&mut bytes, line('L', &[0, GREATEST]));
    }
    bytes
}

/// A good line of each letter, whose call changes or shows the index of `forms`.
fn good(letter: char, fields: usize) -> String {
    line(letter, &[7, 9, 9][..fields])
}

/// Lines that are no calls, by what is wrong with them.
fn other_forms() -> Vec<Vec<u8>> {
    let mut forms: Vec<Vec<u8>> = Vec::new();
    let mut add = |form: &[u8]| forms.push(form.to_vec());
    for text in ["", "?", "-", "\r", "\t", "\0", "#", "RBFL", "R", "B", "F", "L", "7", "7777777777777"] {
        add(text.as_bytes());
    }
    for blanks in [1, 11, 12, 13, 14, 24, 25, 26, 36, 37, 38, 39, 49] {
        add(" ".repeat(blanks).as_bytes());
    }
    for (letter, fields) in LETTERS {
        let good = good(letter, fields);
        // Another letter, no letter, and the letter elsewhere.
        for other in (0..=255u8).filter(|b| *b != b'\n' && !b"RBFL".contains(b)) {
            add(&[&[other][..], &good.as_bytes()[1..]].concat());
        }
        add(&good.as_bytes()[1..]);
        add(format!(" {good}").as_bytes());
        add(format!("{}{letter}", &good[1..]).as_bytes());
        // Each length but the right one, cut or with more behind it.
        for len in 1..good.len() {
            add(&good.as_bytes()[..len]);
        }
        for more in [" ", "7", "x", "\0", "\r", "\t", "\u{b}", "?", "            ", "           7", good.as_str()] {
            add(format!("{good}{more}").as_bytes());
        }
        for len in [38, 39, 40, 63, 64, 65, 76, 128, 255, 256, 257, 300] {
            for fill in [" ", "7", "x"] {
                add(format!("{good}{}", fill.repeat(len - good.len())).as_bytes());
            }
        }
        // A good line behind as many bytes as a line's buffer may have.
        for len in 1..80 {
            add(format!("{}{good}", "x".repeat(len)).as_bytes());
        }
        // A column too many or too few before a number.
        for field in 0..fields {
            let at = 1 + 12 * field;
            add(format!("{} {}", &good[..at], &good[at..]).as_bytes());
            add(format!("{}{}", &good[..at], &good[at + 1..]).as_bytes());
        }
    }
    // No number in one field, and good ones in the others.
    for (letter, fields) in LETTERS {
        let good = good(letter, fields);
        for field in 0..fields {
            let at = 1 + 12 * field;
            for columns in no_numbers() {
                add(&[&good.as_bytes()[..at], &columns, &good.as_bytes()[at + 12..]].concat());
            }
        }
    }
    // The right length, and as many numbers as another letter takes.
    for (letter, fields) in LETTERS {
        for count in (0..=5).filter(|count| *count != fields) {
            add(line(letter, &[9; 5][..count]).as_bytes());
        }
    }
    forms
}

/// Twelve columns each, with no number that is right-justified and without leading zeros.
fn no_numbers() -> Vec<Vec<u8>> {
    let mut columns: Vec<Vec<u8>> = Vec::new();
    let mut right = |text: &str| columns.push([" ".repeat(12 - text.len()), text.into()].concat().into_bytes());
    for text in ["", "00", "07", "007", "-7", "+7", "-0", "7-", "7 ", "7 7", "0 7", "1a", "a1", "0x7", "7.0", "1e3"] {
        right(text);
    }
    for text in ["1,000", "7_0", "7/", "/7", "7:", ":7", "\u{661}", "\u{ff17}", "000000000000", "099999999999"] {
        right(text);
    }
    for digits in 1..12 {
        columns.push(format!("{:<12}", "7".repeat(digits)).into_bytes());
        columns.push(format!("{:0>12}", "7".repeat(digits)).into_bytes());
    }
    // Any other byte as a blank, as a digit, or behind the number.
    for other in (0..=255u8).filter(|b| *b != b'\n' && *b != b' ' && !b.is_ascii_digit()) {
        columns.push([&[other; 11][..], b"7"].concat());
        columns.push([b"          ", &[other][..], b"7"].concat());
        columns.push([b"         7", &[other][..], b"7"].concat());
        columns.push([b"          7", &[other][..]].concat());
    }
    columns
}

/// Numbers of each length in each field, as they are and one above or below.
fn numbers() -> Vec<u8> {
    let mut bytes = Vec::new();
    let lengths = (0..12).map(|digits| 10u64.pow(digits));
    let all: Vec<u64> = lengths.flat_map(|n| [n - 1, n, 2 * n + 1]).chain([GREATEST - 1, GREATEST]).collect();
    for &page in &all {
        // Frames go up to 12 digits and start again by frame 1.
        for frame in [0, 1, 2, 99_999_999_999, 100_000_000_000, GREATEST - 1, GREATEST, GREATEST] {
            put(&mut bytes, line('R', &[page, frame]));
        }
        put(&mut bytes, line('F', &[page, 0, GREATEST]));
        put(&mut bytes, line('F', &[page, GREATEST, GREATEST]));
        put(&mut bytes, line('F', &[page, 0, GREATEST - 1]));
        put(&mut bytes, line('F', &[page, GREATEST, 0]));
        put(&mut bytes, line('L', &[0, GREATEST]));
        put(&mut bytes, line('L', &[GREATEST, GREATEST]));
        put(&mut bytes, line('L', &[100_000_000_000, GREATEST - 1]));
        put(&mut bytes, line('B', &[GREATEST]));
        put(&mut bytes, line('B', &[page]));
        put(&mut bytes, line('L', &[0, GREATEST]));
    }
    for frame in all {
        put(&mut bytes, line('R', &[GREATEST, 1]));
        put(&mut bytes, line('R', &[frame, frame]));
        put(&mut bytes, line('L', &[frame, frame]));
        put(&mut bytes, line('F', &[frame, frame, GREATEST]));
        put(&mut bytes, line('F', &[frame, 0, frame]));
    }
    bytes
}

/// Inputs that end without a newline, by their last line; and one that ends in several.
fn endings() -> Vec<Input> {
    let mut before = Vec::new();
    for (page, frame) in [(7, 1), (8199, 2), (7, 3)] {
        put(&mut before, line('R', &[page, frame]));
    }
    let mut lasts: Vec<(String, Vec<u8>)> = Vec::new();
    for (letter, fields) in LETTERS {
        let good = good(letter, fields);
        lasts.push((format!("a last {letter}"), good.clone().into_bytes()));
        lasts.push((format!("a last {letter} cut"), good.as_bytes()[..good.len() - 1].to_vec()));
        lasts.push((format!("a last {letter} and a blank"), format!("{good} ").into_bytes()));
        lasts.push((format!("a last {letter} and a CR"), format!("{good}\r").into_bytes()));
    }
    lasts.push(("a last R of 12 digits".into(), line('R', &[GREATEST, GREATEST]).into_bytes()));
    lasts.push(("a last blank".into(), b" ".to_vec()));
    lasts.push(("a last NUL".into(), b"\0".to_vec()));
    lasts.push(("a last letter".into(), b"B".to_vec()));
    lasts.push(("a last long line".into(), [good('F', 3).into_bytes(), vec![b' '; 65_536]].concat()));
    lasts.push(("two newlines at the end".into(), b"\n\n".to_vec()));
    let mut endings: Vec<Input> =
        lasts.into_iter().map(|(name, last)| Input::whole(&name, [&before[..], &last].concat())).collect();
    endings.push(Input::whole("one line without its newline", line('L', &[0, 9]).into_bytes()));
    endings
}

/// Calls and other forms, one byte to a read: a line is split at every place.
fn bytewise(dice: &mut Dice) -> Input {
    let mut bytes = calls_and_forms(dice, 400);
    bytes.extend(line('L', &[0, GREATEST]).into_bytes());
    let pieces = vec![1; bytes.len()];
    Input { name: "one byte at a time".into(), bytes, pieces }
}

/// The same in pieces of a few bytes, of about a line, and of several.
fn in_pieces(dice: &mut Dice) -> Input {
    let bytes = calls_and_forms(dice, 4000);
    let mut pieces = Vec::new();
    let mut left = bytes.len();
    while left > 0 {
        let most = dice.of(&[3, 14, 26, 27, 38, 39, 80, 400]);
        let piece = (dice.between(1, most) as usize).min(left);
        pieces.push(piece);
        left -= piece;
    }
    Input { name: "odd pieces".into(), bytes, pieces }
}

/// Random calls, with another form now and then.
fn calls_and_forms(dice: &mut Dice, lines: usize) -> Vec<u8> {
    let mut bytes = Vec::new();
    let forms = other_forms();
    let mut calls = Calls::default();
    for _ in 0..lines {
        if dice.one_in(6) {
            put(&mut bytes, &forms[dice.index(forms.len())]);
        } else {
            put(&mut bytes, calls.line(dice, 40));
        }
    }
    bytes
}

/// Lines longer than any buffer, of a good start, with a good line at their end, and of blanks.
fn long_lines() -> Vec<u8> {
    let mut bytes = Vec::new();
    for frame in 1..=3 {
        put(&mut bytes, line('R', &[frame, frame]));
    }
    for len in [4095, 4096, 65_535, 65_536, 65_537, 131_072, MEGABYTE + 1] {
        for (letter, fields) in LETTERS {
            let good = good(letter, fields);
            for fill in [b' ', b'7', b'x'] {
                let more = vec![fill; len - good.len()];
                put(&mut bytes, [good.as_bytes(), &more].concat());
                put(&mut bytes, [&more, good.as_bytes()].concat());
            }
            put(&mut bytes, good.repeat(len / good.len()));
            put(&mut bytes, line('L', &[0, GREATEST]));
        }
        put(&mut bytes, vec![b' '; len]);
        put(&mut bytes, vec![0; len]);
        put(&mut bytes, line('L', &[0, GREATEST]));
    }
    bytes
}

/// 4,096 entries of as many pages, with lists of every size near the edges, drops, lookups and rollbacks.
fn full_index() -> Vec<u8> {
    let mut bytes = Vec::new();
    // 4,099 is prime: the pages differ, are out of order, and have up to 12 digits.
    let page = |frame: u64| frame * 1009 % 4099 * 243_902_439;
    for frame in 1..=CAPACITY {
        put(&mut bytes, line('R', &[page(frame), frame]));
    }
    put(&mut bytes, line('L', &[0, GREATEST]));
    put(&mut bytes, line('L', &[1, CAPACITY]));
    put(&mut bytes, line('R', &[GREATEST, CAPACITY + 1]));
    put(&mut bytes, line('R', &[page(1), CAPACITY]));
    put(&mut bytes, line('L', &[0, GREATEST]));
    // Lists of 4,090 to 4,096 pairs, and of about as many as 65,536 bytes hold.
    for max in (CAPACITY - 6..=CAPACITY).chain(2510..=2530) {
        put(&mut bytes, line('L', &[1, max]));
        put(&mut bytes, line('L', &[CAPACITY + 1 - max, CAPACITY]));
    }
    for frame in 1..=CAPACITY {
        put(&mut bytes, line('F', &[page(frame), frame, frame]));
    }
    for kept in [CAPACITY, CAPACITY - 1, CAPACITY - 2, 1, 0] {
        put(&mut bytes, line('B', &[kept]));
        put(&mut bytes, line('L', &[0, GREATEST]));
        put(&mut bytes, line('R', &[page(kept + 1), kept + 1]));
        put(&mut bytes, line('L', &[0, GREATEST]));
    }
    // The same pages again and again: a list is short though the index is full.
    for frame in 3..=CAPACITY + 3 {
        put(&mut bytes, line('R', &[frame % 3, frame]));
    }
    put(&mut bytes, line('L', &[0, GREATEST]));
    put(&mut bytes, line('R', &[5, 1]));
    put(&mut bytes, line('L', &[0, GREATEST]));
    bytes
}

/// More lines than a 16-bit number counts.
fn many_calls(dice: &mut Dice, lines: usize) -> Vec<u8> {
    let mut bytes = Vec::new();
    let mut calls = Calls::default();
    for _ in 0..lines {
        if dice.one_in(50) {
            put(&mut bytes, good(dice.of(&['r', 'X', '-', ' ']), 2));
        } else {
            put(&mut bytes, calls.line(dice, 600));
        }
    }
    put(&mut bytes, line('L', &[0, GREATEST]));
    bytes
}

/// Random calls near the last frame that was recorded.
#[derive(Default)]
struct Calls {
    last: u64,
}

impl Calls {
    /// A call; one in so many is a list.
    fn line(&mut self, dice: &mut Dice, lists: u64) -> String {
        if dice.one_in(lists) {
            let min = if dice.one_in(8) { 0 } else { self.last.saturating_sub(dice.below(30)) };
            return line('L', &[min, dice.of(&[self.last, GREATEST, min])]);
        }
        match dice.below(20) {
            0 => {
                // To any frame, rarely: the index is full by then, more often than not.
                let back = if dice.one_in(400) { self.last + 1 } else { 4 };
                self.last = self.last.saturating_sub(dice.below(back));
                line('B', &[self.last])
            }
            1..=6 => {
                let min = self.last.saturating_sub(dice.below(20));
                line('F', &[Self::page(dice), dice.of(&[0, 1, min]), dice.of(&[self.last, min, GREATEST])])
            }
            // Not above the last one.
            7 if self.last > 0 => line('R', &[Self::page(dice), dice.of(&[self.last, self.last - 1, 0])]),
            _ => {
                self.last = if dice.one_in(8000) { 1 } else { self.last + dice.between(1, 3) };
                line('R', &[Self::page(dice), self.last])
            }
        }
    }

    /// Few pages and many, some with the same home.
    fn page(dice: &mut Dice) -> u64 {
        match dice.below(4) {
            0 => dice.below(9),
            1 => 7 + 8192 * dice.below(5),
            2 => dice.below(3000),
            _ => GREATEST - dice.below(4),
        }
    }
}

#[cfg(test)]
mod tests {
    use super::*;
    use crate::columns::{call, lines};

    #[test]
    fn other_forms_are_no_calls_and_good_lines_are() {
        for form in other_forms() {
            assert_eq!(call(&form), None, "{}", String::from_utf8_lossy(&form));
        }
        for (letter, fields) in LETTERS {
            assert!(call(good(letter, fields).as_bytes()).is_some());
        }
        assert!(no_numbers().iter().all(|columns| columns.len() == 12));
    }

    #[test]
    fn inputs_are_as_long_as_they_are_meant_to_be() {
        let inputs = inputs(1);
        let named = |name: &str| inputs.iter().find(|input| input.name == name).expect("an input of this name");
        assert!(lines(&named("many calls").bytes).count() > 100_000);
        assert!(lines(&named("long lines").bytes).any(|line| line.len() > MEGABYTE));
        assert!(lines(&named("full index").bytes).filter(|line| line[0] == b'R').count() > 8000);
        for input in inputs.iter().filter(|input| !input.pieces.is_empty()) {
            assert_eq!(input.pieces.iter().sum::<usize>(), input.bytes.len());
        }
        assert!(inputs.iter().filter(|input| input.bytes.last().is_some_and(|b| *b != b'\n')).count() > 20);
    }
}
