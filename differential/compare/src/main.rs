//! `./compare`: call scripts on the port and on the Rust.
#![forbid(unsafe_code)]

#[cfg(feature = "port")]
mod cells;
mod program;

use calls::columns;
use calls::demand3::Checked;
use calls::exhaustive;
use calls::random::cases::{cases, other_forms};
use calls::random::inputs::inputs;
use calls::random::{self, Family, Found, Tally, Wanted};
use calls::script::{Call, Line};
use calls::session::{Reply, Session, Sides};
use calls::sides::{MakeRust, Port};
use calls::states;
use std::io::{BufWriter, Write};
use std::process::ExitCode;

const USAGE: &str = "usage: compare FILE                      each call on both sides, every cell compared
       compare --port FILE               the port's answers
       compare --rust FILE               the Rust's answers
       compare --cells FILE              the script on the port: how many hash cells lookups look at, on the index that
                                         it leaves
       compare --random SEED SEQUENCES [FAMILY..]   scripts of the tool's own making, on both sides
                                         FAMILY: header, index, readers, shared or holds; none: all that the port has
       compare --process SEED SEQUENCES [FAMILY..]   the same on the port alone: do the Rust crate's Process and the C
                                         functions answer alike?
       compare --demand3 SEED SEQUENCES  scripts of holds on the port alone: is demand 3 met?
       compare --random-rust SEED SEQUENCES   the same on the Rust alone, against the table of refusals
       compare --exhaustive LENGTH       every state of two slots with each call on readers, and all sequences of up
                                         to LENGTH calls on the index, on both sides
       compare --scripts SEED SEQUENCES [FAMILY..]   prints the short scripts of --random, with dumps
       compare --cases SEED COUNT        prints cases for crates/program_recorded; needs no side
       compare --cases-rust SEED COUNT   the Rust's answers to them
       compare --columns FILE            the Rust's answers to lines of the program, in columns
       compare --program SEED            the program WAL_PROGRAM on inputs of the tool's own making
       compare --input SEED NAME         prints one of these inputs";

#[cfg(feature = "port")]
const PORT: [Option<&dyn Port>; 2] = [Some(&port::Library), Some(&port::ThroughProcess)];
#[cfg(not(feature = "port"))]
const PORT: [Option<&dyn Port>; 2] = [None, None];

#[cfg(feature = "oracle")]
const RUST: Option<MakeRust> = Some(oracle::fresh);
#[cfg(not(feature = "oracle"))]
const RUST: Option<MakeRust> = None;

const DEMAND3: &str = "--demand3";
const PROCESS: &str = "--process";
const CELLS: &str = "--cells";
/// What works without the Rust source.
const WITHOUT_RUST: [&str; 6] = ["--port", CELLS, PROCESS, DEMAND3, "--cases", "--input"];

type Run = fn(Sides, &[&str]) -> ExitCode;

fn main() -> ExitCode {
    let words: Vec<String> = std::env::args().skip(1).collect();
    let words: Vec<&str> = words.iter().map(String::as_str).collect();
    let [port, process] = PORT;
    let all = Sides { port, process, rust: RUST };
    let both = Sides { process: None, ..all };
    let (run, sides): (Run, Sides) = match words[..] {
        ["--port", _] => (script, Sides { rust: None, ..all }),
        ["--rust", _] => (script, Sides { port: None, ..both }),
        #[cfg(feature = "port")]
        [CELLS, _] => (cells::print, Sides { rust: None, ..both }),
        ["--random", _, _, ..] => (random_scripts, all),
        [PROCESS, _, _, ..] => (random_scripts, Sides { rust: None, ..all }),
        [DEMAND3, _, _] => (holds, Sides { rust: None, ..both }),
        ["--exhaustive", _] => (all_sequences, both),
        ["--scripts", _, _, ..] => (print_scripts, both),
        ["--cases", _, _] => (print_cases, both),
        ["--cases-rust", _, _] => (print_case_answers, Sides { port: None, ..both }),
        ["--columns", _] => (print_columns, Sides { port: None, ..both }),
        ["--program", _] => (run_program, Sides { port: None, ..both }),
        ["--input", _, _] => (print_input, both),
        ["--random-rust", _, _, ..] => (random_scripts, Sides { port: None, ..both }),
        [file] if !file.starts_with("--") => (script, all),
        _ => return fault(USAGE),
    };
    if RUST.is_none() && !WITHOUT_RUST.contains(&words[0]) {
        return fault(&format!("the Rust source is missing: only {} work", WITHOUT_RUST.join(", ")));
    }
    run(sides, &words)
}

fn fault(words: &str) -> ExitCode {
    eprintln!("{words}");
    ExitCode::from(2)
}

/// A run that compares nothing has not succeeded.
fn nothing(what: &str) -> ExitCode {
    fault(&format!("nothing was compared: {what}"))
}

/// The text of a call script.
fn read(file: &str) -> Result<String, ExitCode> {
    std::fs::read_to_string(file).map_err(|error| fault(&format!("{file}: {error}")))
}

fn script(sides: Sides, words: &[&str]) -> ExitCode {
    let text = match read(words[words.len() - 1]) {
        Ok(text) => text,
        Err(status) => return status,
    };
    let mut out = BufWriter::new(std::io::stdout());
    let mut session = Session::new(sides);
    let both = sides.port.is_some() && sides.rust.is_some();
    let mut answers = 0;
    for (number, text) in text.lines().enumerate() {
        let line = Line::parse(text);
        let rust_did = if both { session.rust_on_refused(&line) } else { None };
        let written = match (session.step(&line), rust_did) {
            (Ok(Reply::Silent), _) => Ok(()),
            (Ok(reply @ Reply::Answer(_)), Some(did)) => writeln!(out, "{reply} · {did}"),
            (Ok(reply), _) => writeln!(out, "{reply}"),
            (Err(difference), _) => {
                let _ = write!(out, "line {}: {difference}", number + 1);
                let _ = out.flush();
                return ExitCode::from(1);
            }
        };
        if written.is_err() {
            return ExitCode::from(2);
        }
        answers += u64::from(!matches!(line, Line::Comment(_)));
    }
    match out.flush() {
        Err(_) => ExitCode::from(2),
        Ok(()) if answers == 0 => nothing("the script has no line"),
        Ok(()) if both && session.calls == 0 => nothing("the script has no call"),
        Ok(()) => ExitCode::SUCCESS,
    }
}

/// SEED SEQUENCES [FAMILY..].
fn wanted(words: &[&str]) -> Option<Wanted> {
    let families = words[2..].iter().map(|word| Family::named(word)).collect::<Option<_>>()?;
    Some(Wanted { seed: words[0].parse().ok()?, sequences: words[1].parse().ok()?, families })
}

fn random_scripts(sides: Sides, words: &[&str]) -> ExitCode {
    let Some(wanted) = wanted(&words[1..]) else { return fault(USAGE) };
    match random::run(sides, &wanted, |_| ()) {
        Ok(Tally { calls: 0, .. }) => nothing("no script has a call"),
        Ok(Tally { checked, .. }) if words[0] == DEMAND3 && checked == Checked::default() => {
            nothing("no answer was owed to a hold")
        }
        Ok(Tally { through_process: 0, .. }) if sides.process.is_some() => nothing("no call went through Process"),
        Ok(Tally { calls, on_index, on_readers, refused, through_process, checked }) => {
            let Wanted { seed, sequences, .. } = wanted;
            let calls = format!("{calls} calls ({on_index} on the index, {on_readers} on readers)");
            let Checked { lookups, searches, lists, floors, limits } = checked;
            let read = format!("{lookups} lookups, {searches} searches, {lists} lists");
            let held = format!("{read}, {floors} floors and {limits} limits under a hold");
            let through = match sides.process {
                Some(_) => format!("{through_process} through Process too, "),
                None => String::new(),
            };
            println!(
                "random: {seed}, {sequences} sequences, {calls}, {through}{refused} refused, {held}, no difference"
            );
            ExitCode::SUCCESS
        }
        Err(found) => told(&found),
    }
}

/// SEED SEQUENCES, and only what a hold is owed can fail.
fn holds(sides: Sides, words: &[&str]) -> ExitCode {
    random_scripts(sides, &[words, &["holds"]].concat())
}

fn all_sequences(sides: Sides, words: &[&str]) -> ExitCode {
    let Ok(length) = words[1].parse() else { return fault(USAGE) };
    match states::run(sides) {
        Ok(states::Tally { calls: 0, .. }) => return nothing("the port has no call on readers"),
        Ok(states::Tally { states, calls }) => {
            println!("exhaustive: {states} states of two slots, {calls} calls, no difference");
        }
        Err(found) => return told(&found),
    }
    let (mut total, mut calls, mut searches) = (0, 0, 0);
    let run = exhaustive::run(sides, length, |tally| {
        println!("exhaustive: {}, {} sequences, {} searches", tally.opening, tally.sequences, tally.searches);
        total += tally.sequences;
        calls += tally.calls;
        searches += tally.searches;
    });
    match run {
        Ok(()) if calls == 0 => nothing("no sequence has a call"),
        Ok(()) => {
            println!("exhaustive: {total} sequences of up to {length} calls, {searches} searches, no difference");
            ExitCode::SUCCESS
        }
        Err(found) => told(&found),
    }
}

/// The most lines of a script that is printed, and after how many a dump comes.
const SHORT: usize = 160;
const BETWEEN_DUMPS: usize = 10;

/// Whether the port may answer in more than one way, so that no answer can be recorded.
fn is_undecided(line: &Line) -> bool {
    matches!(line, Line::Call { call: Call::FrameBetween { .. }, .. })
}

fn print_scripts(sides: Sides, words: &[&str]) -> ExitCode {
    let Some(wanted) = wanted(&words[1..]) else { return fault(USAGE) };
    let mut printed = 0;
    let print = |script: &[Line]| {
        if script.len() <= SHORT {
            printed += 1;
            for lines in script.chunks(BETWEEN_DUMPS) {
                lines.iter().filter(|line| !is_undecided(line)).for_each(|line| println!("{line}"));
                println!("{}", Line::Dump { process: 0 });
            }
        }
    };
    match random::run(sides, &wanted, print) {
        Ok(_) if printed == 0 => fault("no script was made"),
        Ok(_) => ExitCode::SUCCESS,
        Err(found) => told(&found),
    }
}

/// SEED COUNT, of one case or more.
fn case_count(words: &[&str]) -> Option<(u64, u64)> {
    Some((words[1].parse().ok()?, words[2].parse().ok()?)).filter(|(_, count)| *count > 0)
}

fn row(numbers: &[u64]) -> String {
    numbers.iter().map(u64::to_string).collect::<Vec<_>>().join(" ")
}

fn print_cases(_: Sides, words: &[&str]) -> ExitCode {
    let Some((seed, count)) = case_count(words) else { return fault(USAGE) };
    println!(
        "# Calls with all that they are given, in the rows of crates/program_recorded/src/calls.rt, and then lines of"
    );
    println!("# another form. Made by: ./compare --cases {seed} {count}");
    println!("# The answers are the Rust's: ./compare --cases-rust {seed} {count}");
    cases(seed, count).for_each(|case| println!("{}", row(&case.row())));
    other_forms().iter().for_each(|line| println!("{line}"));
    ExitCode::SUCCESS
}

fn print_case_answers(sides: Sides, words: &[&str]) -> ExitCode {
    let Some((seed, count)) = case_count(words) else { return fault(USAGE) };
    for case in cases(seed, count) {
        match case.answer(sides) {
            Ok(answer) => println!("{}", row(&answer)),
            Err(difference) => {
                print!("{difference}");
                return ExitCode::from(1);
            }
        }
    }
    other_forms().iter().for_each(|_| println!("?"));
    ExitCode::SUCCESS
}

/// FILE.
fn print_columns(sides: Sides, words: &[&str]) -> ExitCode {
    let input = match std::fs::read(words[1]) {
        Ok(input) => input,
        Err(error) => return fault(&format!("{}: {error}", words[1])),
    };
    match columns::answers(sides, &input) {
        Ok(answers) => written(&answers.text),
        Err(difference) => {
            print!("{difference}");
            ExitCode::from(1)
        }
    }
}

/// SEED. A run without a call, or without a line of another form, compares nothing and fails.
fn run_program(sides: Sides, words: &[&str]) -> ExitCode {
    let Ok(seed) = words[1].parse() else { return fault(USAGE) };
    let Ok(program) = std::env::var("WAL_PROGRAM") else { return fault("WAL_PROGRAM names no program") };
    let (mut runs, mut lines, mut calls) = (0, 0, 0);
    for input in inputs(seed) {
        let answers = match columns::answers(sides, &input.bytes) {
            Ok(answers) => answers,
            Err(difference) => {
                print!("{difference}");
                return ExitCode::from(1);
            }
        };
        if let Err(wrong) = program::check(&program, &input, &answers.text) {
            println!("difference at: {}, {wrong}", input.name);
            return ExitCode::from(1);
        }
        runs += 1;
        lines += answers.lines;
        calls += answers.calls;
    }
    if calls == 0 || lines == calls {
        return fault("no call or no other form was compared");
    }
    println!("program: {seed}, {runs} inputs, {lines} lines, {calls} calls, no difference");
    ExitCode::SUCCESS
}

/// SEED NAME.
fn print_input(_: Sides, words: &[&str]) -> ExitCode {
    let Ok(seed) = words[1].parse() else { return fault(USAGE) };
    let inputs = inputs(seed);
    match inputs.iter().find(|input| input.name == words[2]) {
        Some(input) => written(&input.bytes),
        None => {
            let names: Vec<&str> = inputs.iter().map(|input| &input.name[..]).collect();
            fault(&format!("no such input; there are: {}", names.join(", ")))
        }
    }
}

fn written(bytes: &[u8]) -> ExitCode {
    match std::io::stdout().write_all(bytes) {
        Ok(()) => ExitCode::SUCCESS,
        Err(error) => fault(&error.to_string()),
    }
}

fn told(found: &Found) -> ExitCode {
    found.script.iter().for_each(|line| println!("{line}"));
    print!("{}", found.difference);
    ExitCode::from(1)
}
