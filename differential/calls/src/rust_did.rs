//! What the Rust did with a call that document 01 refuses, in words.

use crate::memory::{differing_cells, Differing, Memory};
use crate::script::Answer;
use crate::sides::Panicked;
use std::fmt;

pub enum RustDid {
    /// After these changes.
    Panics(Vec<Differing>),
    /// With these changes.
    Accepts(Answer, Vec<Differing>),
    /// Why not.
    NotAsked(&'static str),
}

/// How many changed cells, and pairs of a list, are shown. A stored entry or a shared registration changes as many.
const SHOWN: usize = 5;

impl RustDid {
    pub fn new(answer: Result<Answer, Panicked>, before: &Memory, after: &Memory) -> Self {
        let changes = differing_cells(before, after);
        match answer {
            Ok(answer) => Self::Accepts(answer, changes),
            Err(_) => Self::Panics(changes),
        }
    }
}

impl fmt::Display for RustDid {
    fn fmt(&self, f: &mut fmt::Formatter) -> fmt::Result {
        match self {
            Self::NotAsked(why) => write!(f, "the Rust is not asked: {why}"),
            Self::Panics(changes) => write!(f, "the Rust panics{}", shown(" after ", changes)),
            Self::Accepts(answer, changes) => write!(f, "the Rust accepts: {}{}", few(answer), shown(", ", changes)),
        }
    }
}

fn shown(before: &str, changes: &[Differing]) -> String {
    let first = changes.iter().take(SHOWN).map(Differing::as_change);
    let further = (changes.len() > SHOWN).then(|| "..".to_string());
    let words: Vec<String> = first.chain(further).collect();
    if words.is_empty() {
        return String::new();
    }
    format!("{before}{}", words.join(", "))
}

/// An answer, of a long list its beginning.
fn few(answer: &Answer) -> String {
    match answer {
        Answer::List(pairs) if pairs.len() > SHOWN => {
            let first = Answer::List(pairs[..SHOWN].to_vec()).to_string();
            first.replacen(&SHOWN.to_string(), &pairs.len().to_string(), 1) + " .."
        }
        _ => answer.to_string(),
    }
}

#[cfg(test)]
mod tests {
    use super::*;
    use crate::memory::{Settings, SharedCell, LINUX_OFD};

    #[test]
    fn changes_and_pairs_are_few() {
        let settings = Settings { capacity: 8, max_blocks: 1, slots: 1, mode: LINUX_OFD };
        let before = Memory::fresh(&settings, 1, 1);
        let mut after = before.clone();
        let panicked = || Err(Panicked(String::new()));
        let list = |pairs: u64| Answer::List((4..4 + pairs).map(|i| (i, i + 1)).collect());
        assert_eq!(RustDid::new(panicked(), &before, &after).to_string(), "the Rust panics");
        assert_eq!(
            RustDid::new(Ok(list(5)), &before, &after).to_string(),
            "the Rust accepts: list 5 4:5 5:6 6:7 7:8 8:9"
        );
        (0..5).for_each(|index| after.poke(SharedCell::Page, index, 7));
        let five = "page[0] 0 -> 7, page[1] 0 -> 7, page[2] 0 -> 7, page[3] 0 -> 7, page[4] 0 -> 7";
        assert_eq!(RustDid::new(panicked(), &before, &after).to_string(), format!("the Rust panics after {five}"));
        after.poke(SharedCell::Page, 5, 7);
        assert_eq!(
            RustDid::new(Ok(list(6)), &before, &after).to_string(),
            format!("the Rust accepts: list 6 4:5 5:6 6:7 7:8 8:9 .., {five}, ..")
        );
    }
}
