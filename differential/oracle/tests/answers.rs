//! The Rust's answers on scripts worked out by hand from document 01.

use calls::columns;
use calls::random::{self, Wanted};
use calls::script::Line;
use calls::session::{Session, Sides};

const RUST: Sides = Sides { port: None, process: None, rust: Some(oracle::fresh) };

/// Each line of the script with its answer after ` => `.
fn check(script: &str) {
    let mut session = Session::new(RUST);
    for line in script.lines().map(str::trim).filter(|line| !line.is_empty()) {
        let (asked, expected) = line.split_once(" => ").unwrap_or((line, ""));
        let reply = session.step(&Line::parse(asked)).unwrap_or_else(|difference| panic!("{difference}"));
        if !expected.is_empty() {
            assert_eq!(reply.to_string(), expected, "{asked}");
        }
    }
}

#[test]
fn the_sample_and_the_table_of_cases() {
    check(
        "new 4096 1 1 1 O 1 => new
         record 0 7 1 0 => stored
         record 0 8199 2 0 => stored
         record 0 7 3 0 => stored
         find 0 7 1 2 - => frame 1
         find 0 7 2 2 - => none
         find 0 7 1 3 - => frame 3
         find 0 7 2 9 2 => frame 1
         find 0 7 2 9 1 => none
         list 0 2 2 9 => list 1 8199:2
         list 0 1 3 2 => list 2 7:3 8199:2
         list 0 1 3 1 => refused 5
         list 0 3 2 0 => list 0
         rollback 0 2 => kept 2
         list 0 1 9 9 => list 2 7:1 8199:2",
    );
}

/// The sample of document 01, a last line without its newline, a line of another form, a refusal and blanks for none.
#[test]
fn the_sample_in_columns() {
    let sample = "R           7           1\nR        8199           2\nR           7           3\n\
        F           7           1           2\nB           2\nL           1           9";
    let answers = "R  0           1\nR  0           1\nR  0           1\nF  0           1\nB  0           2\n\
        L  0           2\n-           7           1\n-        8199           2\n";
    let answered = |input: &str| {
        let answers = columns::answers(RUST, input.as_bytes()).unwrap_or_else(|difference| panic!("{difference}"));
        String::from_utf8(answers.text).expect("answers are ASCII")
    };
    assert_eq!(answered(sample), answers);
    assert_eq!(
        answered(&format!("{sample}\n\nR           7           2\nF           9           0           9\n")),
        format!("{answers}?\nR  3            \nF  0            \n")
    );
}

#[test]
fn searches_are_answered_by_the_second_reading() {
    check(
        "new 4096 1 1 1 O 1 => new
         record 0 7 1 0 => stored
         record 0 8199 2 0 => stored
         record 0 7 5 0 => stored
         between 0 7 2 5 => frame 5
         between 0 7 1 5 => one of 1 5
         between 0 7 2 4 => none
         between 0 7 5 1 => none
         nearest 0 7 3 => frame 1
         nearest 0 7 4 => frame 5
         nearest 0 8 4 => none
         lend hash 0
         nearest 0 8199 9 => frame 2
         lend pages 4095
         nearest 0 8199 9 => refused 2
         between 0 7 5 1 => refused 2
         poke len 0 4097
         between 0 7 2 5 => refused 1",
    );
}

#[test]
fn record_drops_resets_and_refuses() {
    check(
        "new 1 1 1 1 O 1
         record 0 5 0 0 => stored
         record 0 5 9 0 => dropped
         dump 0
         record 0 6 1 0 => stored
         commit 0 1 0 0 0 => ok
         record 0 6 1 0 => dropped
         new 9 2 0 1 F 2
         record 0 1 1 0 => dropped
         record 1 1 1 1 => stored
         record 1 1 2 0 => stored
         record 0 1 2 0 => refused 3
         poke len 0 10 => ok
         find 0 1 1 2 - => refused 1
         poke len 0 2
         lend hash 16383 => ok
         find 0 1 1 2 - => refused 2
         lend hash - => ok
         find 0 1 1 2 - => frame 2
         settings 9 3 1 O
         find 0 1 1 2 - => refused 2
         settings 9 1 1 O
         find 1 1 1 2 - => frame 2
         settings 65537 1 1 O
         find 0 1 1 2 - => refused 1
         seq 0 => seq 1",
    );
}

#[test]
fn a_block_begins_at_entry_4096_and_rollback_keeps_a_whole_block() {
    let mut script = String::from("new 65536 2 1 1 O 1\n");
    (1..=4096).for_each(|frame| script += &format!("record 0 {} {frame} 0 => stored\n", frame % 9));
    script += "record 0 3 4097 0 => dropped
               dump 0
               record 0 3 4097 1 => stored
               find 0 3 1 4096 - => frame 4089
               rollback 0 4096 => kept 4096
               find 0 3 1 9999 - => frame 4089
               rollback 0 4095 => kept 4095
               find 0 1 1 9999 - => frame 4087";
    check(&script);
}

#[test]
fn a_full_hash_is_refused() {
    let mut script = String::from("new 9 1 1 1 O 1\nrecord 0 1 1 0 => stored\n");
    (0..8192).for_each(|cell| script += &format!("poke hash {cell} 9\n"));
    script += "record 0 1 2 0 => refused 4
               dump 0
               find 0 1 0 9 - => none
               rollback 0 0 => kept 0
               record 0 1 2 0 => stored
               find 0 1 0 9 - => frame 2";
    check(&script);
}

#[test]
fn readers_of_linux_ofd() {
    check(
        "new 1 1 1 3 O 2
         reg 0 7 5 011 => slot 1 7 5
         reg 1 7 4 102 => slot 0 7 4
         reg 1 8 9 020 => none
         floor 0 000 => frame 4
         floor 0 020 => frame 4
         floor 0 200 => refused 15
         limit 0 000 => limit 0
         commit 0 9 0 0 0
         limit 0 000 => limit 4
         backfill 0 3
         limit 0 000 => limit 4
         floor 0 100 => frame 5
         rel 1 0 7 => refused 8
         rel 0 0 7 => refused 7
         rel 0 3 7 => refused 6
         rel 0 1 6 => refused 8
         upd 1 1 7 2 => slot 1 7 2
         upd 1 1 7 18446744073709551615 => refused 10
         upd 1 1 0 2 => refused 8
         rel 0 1 7 => ok
         floor 0 000 => none
         reg 0 0 1 111 => refused 9
         reg 0 1 1 11 => refused 14
         reg 0 1 1 113 => refused 14
         reg 0 1 18446744073709551615 113 => refused 10",
    );
}

#[test]
fn fcntl_does_not_reclaim_a_slot_without_owner() {
    check(
        "new 1 1 1 1 F 1
         poke bitmap 0 0
         reg 0 1 1 1 => none
         poke sowner 0 9
         reg 0 1 1 1 => slot 0 1 1
         own 0 lowner 0 2
         rel 0 0 1 => refused 8
         own 0 lowner 0 1
         rel 0 0 1 => ok
         new 1 1 1 1 O 1
         poke bitmap 0 0
         reg 0 1 1 1 => slot 0 1 1",
    );
}

#[test]
fn shared_marks() {
    check(
        "new 1 1 1 2 F 2
         regs 0 7 5 11 => slot 0 7 5
         regs 0 8 5 00 => slot 0 7 5
         regs 1 8 5 01 => slot 1 8 5
         rel 0 0 7 => refused 11
         upd 0 0 7 6 => refused 11
         upd 1 0 7 6 => slot 0 7 6
         rels 0 5 0 8 => refused 12
         rels 0 6 0 7 => refused 12
         rels 0 18446744073709551615 0 7 => refused 10
         rels 0 5 0 0 => refused 9
         rels 0 5 0 7 => ok
         rels 0 5 0 7 => ok
         rels 0 5 0 7 => refused 12
         registry 0 0 3 5 7 2
         rels 0 3 5 7 => refused 6
         registry 0 0 3 0 7 65535
         regs 0 1 3 11 => refused 13
         registry 0 1 4 0 7 1
         regs 0 1 9 11 => refused 13
         regs 0 1 9 00 => none
         rels 0 4 0 7 => refused 7",
    );
}

#[test]
fn database_file_readers() {
    check(
        "new 1 1 1 3 O 2
         dbreader 0 000 => 0
         regdb 0 7 111 => slot 0 7 0
         regdb 0 8 000 => slot 0 7 0
         dbreader 0 111 => 1
         dbreader 1 000 => 1
         floor 1 000 => none
         regs 1 8 5 010 => slot 1 8 5
         dbreader 0 121 => 1
         dbreader 1 211 => refused 15
         dbreader 1 111 => 0
         rels 0 0 0 7 => ok
         rels 0 0 0 7 => refused 8
         regdb 1 0 111 => refused 9
         regdb 1 1 11 => refused 14
         settings 1 1 3 2
         regdb 1 1 111 => refused 1
         dbreader 1 111 => refused 1
         upd 1 1 8 6 => refused 11
         upd 0 1 8 6 => slot 1 8 6
         new 1 1 1 1 F 1
         poke sframe 0 0
         dbreader 0 0 => 0
         poke sowner 0 7
         dbreader 0 2 => 1
         dbreader 0 1 => 0",
    );
}

#[test]
fn locks_and_counters() {
    check(
        "new 1 1 1 1 O 2
         acqw 0 0 3 => refused 9
         acqw 0 5 3 => refused 14
         acqw 0 5 2 => 0
         acqw 0 5 1 => 1
         acqw 0 6 1 => 0
         acqw 1 6 1 => 1
         relw 0 9 => ok
         relw 0 9 => refused 7
         relw 1 0 => refused 9
         settings 1 1 1 F
         relw 1 9 => refused 8
         relw 1 0 => refused 8
         settings 1 1 1 2
         relw 1 6 => refused 1
         settings 0 0 0 F
         relw 1 6 => ok
         acqc 0 5 1 => 1
         relc 1 5 => refused 7
         relc 0 5 => ok
         poke seq 0 4294967295
         poke epoch 0 4294967295
         poke gen 0 18446744073709551615
         seq 0 => seq 0
         epoch 1 => epoch 4294967295
         epoch 1 => epoch 0
         commit 0 5 1 2 9 => ok
         commit 1 4 3 4 8 => ok
         backfill 0 3 => ok
         dump 0 => dump len=0 flag=0 blocks=1 maxframe=5 nback=3 tx=9 gen=1 seq=0 epoch=1 ck1=1 ck2=2 wowner=0 cowner=0 \
pages=8f6955bf94ec2325 frames=8f6955bf94ec2325 hash=9c1bda7f8c872325 bitmap=8cf51a8bfca3883d sframes=8cf51a8bfca3883d \
sowners=a8c7f832281a39c5 lowners=a8c7f832281a39c5 lwriter=0 lckpt=0 registry=
         owner 0 1 2 => owner 4294967298
         owner 0 0 0 => owner 0
         parts 0 4294967298 => parts 1 2",
    );
}

#[test]
fn what_the_rust_does_with_a_refused_call_is_told_and_undone() {
    let mut session = Session::new(RUST);
    let step = |session: &mut Session, line: &str| {
        session.step(&Line::parse(line)).unwrap_or_else(|difference| panic!("{difference}")).to_string()
    };
    for line in ["new 1 1 1 2 F 1", "record 0 5 1 0", "regs 0 7 3 11", "poke sowner 0 8", "poke len 0 2"] {
        step(&mut session, line);
    }
    let before = step(&mut session, "dump 0");
    for (settings, line, told) in [
        ("1 1 2 F", "rels 0 3 0 7", "the Rust panics after registry[0] 3:0:7:1 -> empty"),
        ("1 1 2 F", "upd 0 0 8 5", "the Rust accepts: slot 0 8 5, sframe[0] 3 -> 5"),
        ("1 1 2 F", "rollback 0 0", "the Rust accepts: kept 0, len 2 -> 0"),
        ("65537 1 2 F", "list 0 0 9 9", "the Rust accepts: list 1 5:1"),
        ("1 1 0 F", "floor 0 -", "the Rust accepts: none"),
        ("1 1 0 F", "rel 0 0 7", "the Rust panics"),
        ("1 1 2 2", "floor 0 00", "the Rust is not asked: it has two modes"),
        ("1 1 257 F", "upd 0 0 8 5", "the Rust is not asked: it would read past its memory"),
        ("1 1 2 F", "floor 0 00", ""),
        ("1 1 2 F", "floor 1 00", ""),
        ("1 1 2 F", "dump 0", ""),
    ] {
        step(&mut session, &format!("settings {settings}"));
        let did = session.rust_on_refused(&Line::parse(line));
        assert_eq!(did.map_or(String::new(), |did| did.to_string()), told, "{line}");
        assert_eq!(step(&mut session, "dump 0"), before, "{line}");
    }
}

#[test]
fn unknown_lines_and_cells() {
    check(
        "seq 0 => ?
         new 1 1 1 1 O 1
         seq 1 => ?
         dump 1 => ?
         poke page 4096 1 => ?
         poke page 4095 1 => ok
         poke bitmap 1 1 => ?
         own 0 lowner 1 1 => ?
         own 1 lwriter 0 1 => ?
         registry 0 1 1 1 1 1 => ?
         seq 0 => seq 1",
    );
}

#[test]
fn the_table_of_refusals_agrees_with_random_calls() {
    let tally = random::run(RUST, &Wanted::all(3, 300), |_| ()).unwrap_or_else(|found| panic!("{}", found.difference));
    assert!(tally.refused > 1000 && tally.calls > 2 * tally.refused);
}
