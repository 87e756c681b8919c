//! The comparison finds what is wrong with a port, and shows it shortly.

use calls::exhaustive;
use calls::random::{self, Wanted};
use calls::script::{Answer, Card, Line};
use calls::session::{Session, Sides};
use calls::sides::{Given, Port};
use calls::states;
use std::cell::Cell;

/// A port of one call, which may be wrong where the number wraps, in its answer or in a cell beside it.
#[derive(Default)]
struct Bump {
    stays_at_end: bool,
    answers_old: bool,
    writes_beside: bool,
}

impl Port for Bump {
    fn bump_checkpoint_seq(&self, g: Given) -> Option<Answer> {
        let old = g.memory.header.checkpoint_seq;
        let new = if self.stays_at_end { old.saturating_add(1) } else { old.wrapping_add(1) };
        g.memory.header.checkpoint_seq = new;
        if self.writes_beside {
            g.memory.hash[8191] = 1;
        }
        Some(Answer::Seq(if self.answers_old { old } else { new }))
    }
}

/// A port of records that never begins the index anew.
struct NeverResets;

impl Port for NeverResets {
    fn record_frame(&self, g: Given, page: u64, frame: u64, _: bool) -> Option<Answer> {
        let header = &mut g.memory.header;
        if header.frame_index_len >= g.settings.capacity {
            header.frame_index_overflowed = 1;
            return Some(Answer::Dropped);
        }
        let entry = header.frame_index_len as usize;
        (g.memory.pages[entry], g.memory.frames[entry]) = (page, frame);
        g.memory.hash[(page * 383 % 8192) as usize] = entry as u16 + 1;
        header.frame_index_len += 1;
        Some(Answer::Stored)
    }
}

/// A port of one call on readers, which always says no.
struct NoDbFileReader;

impl Port for NoDbFileReader {
    fn has_active_db_file_reader(&self, _: Given, _: &Card) -> Option<Answer> {
        Some(Answer::Active(false))
    }
}

fn with(port: &dyn Port) -> Sides<'_> {
    Sides { port: Some(port), process: None, rust: Some(oracle::fresh) }
}

#[test]
fn a_right_port_shows_no_difference() {
    let tally = random::run(with(&Bump::default()), &Wanted::all(1, 500), |_| ())
        .unwrap_or_else(|found| panic!("{}", found.difference));
    assert!(tally.calls > 500);
}

#[test]
fn a_wrong_wrap_is_found_and_the_script_is_short() {
    let port = Bump { stays_at_end: true, ..Bump::default() };
    let Err(found) = random::run(with(&port), &Wanted::all(1, 500), |_| ()) else { panic!("no difference") };
    let script: Vec<String> = found.script.iter().map(Line::to_string).collect();
    assert_eq!(script[1..], ["poke seq 0 4294967295".to_string(), format!("seq {}", last_process(&script))]);
    assert_eq!(found.difference.cells, ["seq: port 4294967295, Rust 0"]);
}

fn last_process(script: &[String]) -> char {
    script.last().and_then(|line| line.chars().last()).expect("a process")
}

#[test]
fn a_wrong_sequence_is_found_among_all() {
    let Err(found) = exhaustive::run(with(&NeverResets), 2, |_| ()) else { panic!("no difference") };
    let script: Vec<String> = found.script.iter().map(Line::to_string).collect();
    assert_eq!(script, ["new 1 1 1 1 O 1", "record 0 7 1 1", "record 0 7 1 1"]);
}

#[test]
fn a_wrong_call_is_found_among_all_states() {
    let Err(found) = states::run(with(&NoDbFileReader)) else { panic!("no difference") };
    let script: Vec<String> = found.script.iter().map(Line::to_string).collect();
    assert_eq!(script, ["new 1 1 1 2 O 1", "poke sframe 1 0", "dbreader 0 00"]);
}

#[test]
fn a_wrong_answer_and_a_wrong_cell_are_told() {
    for (port, told) in [
        (Bump { answers_old: true, ..Bump::default() }, "  port: seq 0\n  Rust: seq 1\n"),
        (
            Bump { writes_beside: true, ..Bump::default() },
            "  port: seq 1\n  Rust: seq 1\n  hash 8191: port 1, Rust 0\n",
        ),
    ] {
        let mut session = Session::new(with(&port));
        session.step(&Line::parse("new 1 1 1 1 O 1")).expect("fresh memory");
        session.step(&Line::parse("relw 0 1")).expect("a call that the port does not have");
        let difference = session.step(&Line::parse("seq 0")).expect_err("a difference");
        assert_eq!(difference.to_string(), format!("difference at: seq 0\n{told}"));
    }
}

#[test]
fn the_port_by_another_way_is_held_against_the_port() {
    for (process, told) in [
        (Bump { answers_old: true, ..Bump::default() }, "  port: seq 1\n  Process: seq 0\n"),
        (
            Bump { writes_beside: true, ..Bump::default() },
            "  port: seq 1\n  Process: seq 1\n  hash 8191: port 0, Process 1\n",
        ),
    ] {
        let port = Bump::default();
        let mut session = Session::new(Sides { process: Some(&process), ..with(&port) });
        session.step(&Line::parse("new 1 1 1 1 O 1")).expect("fresh memory");
        let difference = session.step(&Line::parse("seq 0")).expect_err("a difference");
        assert_eq!(difference.to_string(), format!("difference at: seq 0\n{told}"));
    }
}

/// A port of the searches, which gives an answer and may write to a cell.
#[derive(Clone)]
struct Gives {
    answer: Answer,
    writes: bool,
}

impl Port for Gives {
    fn frame_between(&self, g: Given, _: u64, _: u64, _: u64) -> Option<Answer> {
        if self.writes {
            g.memory.frames[4095] = 1;
        }
        Some(self.answer.clone())
    }
    fn nearest_frame(&self, g: Given, _: u64, _: u64) -> Option<Answer> {
        self.frame_between(g, 0, 0, 0)
    }
}

/// What becomes of a search by the C functions and by another way; page 7 has the frames 9 and 3, in this order.
fn searched(line: &str, port: &Gives, process: &Gives) -> Result<String, String> {
    let mut session = Session::new(Sides { process: Some(process), ..with(port) });
    let pokes = ["poke page 0 7", "poke frame 0 9", "poke page 1 7", "poke frame 1 3", "poke len 0 2"];
    for line in ["new 4096 1 1 1 O 1"].iter().chain(&pokes) {
        session.step(&Line::parse(line)).unwrap_or_else(|difference| panic!("{difference}"));
    }
    session.step(&Line::parse(line)).map(|reply| reply.to_string()).map_err(|difference| difference.to_string())
}

#[test]
fn which_of_several_frames_is_between_is_not_asked() {
    let gives = |answer| Gives { answer, writes: false };
    let [low, high, other, none] = [Answer::Frame(3), Answer::Frame(9), Answer::Frame(5), Answer::Nothing].map(gives);
    let between = "between 0 7 3 9";
    for port in [&low, &high] {
        let given = Ok(port.answer.to_string());
        assert_eq!([searched(between, port, &low), searched(between, port, &high)], [given.clone(), given]);
        let told = format!("difference at: {between}\n  port: {}\n  Process: ", port.answer);
        assert_eq!(searched(between, port, &other), Err(format!("{told}frame 5\n")));
        assert_eq!(searched(between, port, &none), Err(format!("{told}none\n")));
    }
    let told = format!("difference at: {between}\n  port: frame 5\n  Rust: one of 3 9\n");
    assert_eq!(searched(between, &other, &other), Err(told));
    assert!(searched(between, &none, &none).is_err());
    // One frame, and none.
    assert!(searched("between 0 7 4 9", &high, &high).is_ok() && searched("between 0 7 4 9", &low, &low).is_err());
    assert!(searched("between 0 7 4 8", &none, &none).is_ok() && searched("between 0 7 4 8", &low, &low).is_err());
    assert!(searched("between 0 7 4 8", &none, &low).is_err());
    // The nearest is decided.
    assert!(searched("nearest 0 7 6", &low, &low).is_ok() && searched("nearest 0 7 6", &high, &high).is_err());
    assert!(searched("nearest 0 7 6", &low, &high).is_err());
}

#[test]
fn a_search_that_stores_is_found() {
    let good = Gives { answer: Answer::Frame(3), writes: false };
    let stores = Gives { writes: true, ..good.clone() };
    for line in ["between 0 7 3 9", "nearest 0 7 3"] {
        let told = format!("difference at: {line}\n  port: frame 3\n  Rust: ");
        let words = searched(line, &stores, &good).expect_err("a difference");
        assert!(words.starts_with(&told) && words.ends_with("\n  frame 4095: port 1, Rust 0\n"), "{words}");
    }
}

/// Another way that has no first call.
struct FromTheSecond(Cell<bool>);

impl Port for FromTheSecond {
    fn bump_checkpoint_seq(&self, g: Given) -> Option<Answer> {
        self.0.replace(true).then(|| Bump::default().bump_checkpoint_seq(g))?
    }
}

#[test]
fn what_the_other_way_does_not_have_is_left_to_the_port() {
    let (port, process) = (Bump::default(), FromTheSecond(Cell::new(false)));
    let mut session = Session::new(Sides { process: Some(&process), ..with(&port) });
    for line in ["new 1 1 1 1 O 1", "poke seq 0 7", "seq 0", "seq 0"] {
        session.step(&Line::parse(line)).unwrap_or_else(|difference| panic!("{difference}"));
    }
    assert_eq!((session.calls, session.through_process), (2, 1));
}
