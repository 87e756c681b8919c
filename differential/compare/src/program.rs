//! The program of document 01, run on an input.

use calls::random::inputs::Input;
use std::fmt;
use std::io::{Read, Write};
use std::os::fd::OwnedFd;
use std::os::unix::net::UnixDatagram;
use std::process::{Child, Command, ExitStatus, Stdio};
use std::sync::mpsc::{channel, RecvTimeoutError};
use std::thread;
use std::time::Duration;

/// How long a run may take. The longest takes a second.
const LIMIT: Duration = Duration::from_secs(60);

/// What is wrong with a run.
pub enum Fault {
    /// The answers part in this line, the first being 1.
    Line {
        number: usize,
        program: String,
        rust: String,
    },
    Status(ExitStatus),
    NoEnd,
    System(std::io::Error),
}

impl From<std::io::Error> for Fault {
    fn from(error: std::io::Error) -> Self {
        Self::System(error)
    }
}

impl fmt::Display for Fault {
    fn fmt(&self, f: &mut fmt::Formatter) -> fmt::Result {
        match self {
            Self::Line { number, program, rust } => {
                write!(f, "line {number} of the answers\n  program: {program}\n  Rust: {rust}")
            }
            Self::Status(status) => write!(f, "{status}"),
            Self::NoEnd => write!(f, "no end after {} s", LIMIT.as_secs()),
            Self::System(error) => write!(f, "{error}"),
        }
    }
}

/// Runs the program on the input. Its answers must be these, byte by byte.
pub fn check(program: &str, input: &Input, answers: &[u8]) -> Result<(), Fault> {
    let (status, given) = run(program, input)?;
    if given != answers {
        let lines = |text: &'_ [u8]| -> Vec<Vec<u8>> { text.split_inclusive(|b| *b == b'\n').map(Vec::from).collect() };
        let (given, answers) = (lines(&given), lines(answers));
        let same = given.iter().zip(&answers).take_while(|(a, b)| a == b).count();
        let shown = |lines: &[Vec<u8>]| match lines.get(same) {
            Some(line) => format!("\"{}\"", line.escape_ascii()),
            None => "nothing".into(),
        };
        return Err(Fault::Line { number: same + 1, program: shown(&given), rust: shown(&answers) });
    }
    if !status.success() {
        return Err(Fault::Status(status));
    }
    Ok(())
}

/// How the program ends, and its answers.
fn run(program: &str, input: &Input) -> Result<(ExitStatus, Vec<u8>), Fault> {
    if input.pieces.is_empty() {
        let mut child = Command::new(program).stdin(Stdio::piped()).stdout(Stdio::piped()).spawn()?;
        let mut to = child.stdin.take().expect("it is piped");
        // A program that ends before its input does is told by its answers.
        return ended(child, move |bytes, _| drop(to.write_all(bytes)), input);
    }
    // A datagram is a piece: one read gives one, and an empty one is the end of the input.
    let (to, from) = UnixDatagram::pair()?;
    let child = Command::new(program).stdin(OwnedFd::from(from)).stdout(Stdio::piped()).spawn()?;
    let feed = move |bytes: &[u8], pieces: &[usize]| {
        let mut at = 0;
        for piece in pieces {
            if to.send(&bytes[at..at + piece]).is_err() {
                return;
            }
            at += piece;
        }
        let _ = to.send(&[]);
    };
    ended(child, feed, input)
}

/// Feeds the program while its answers are read, and ends it where it does not end.
fn ended(
    mut child: Child,
    feed: impl FnOnce(&[u8], &[usize]) + Send,
    input: &Input,
) -> Result<(ExitStatus, Vec<u8>), Fault> {
    let mut out = child.stdout.take().expect("it is piped");
    let (told, heard) = channel();
    thread::scope(|scope| {
        scope.spawn(|| feed(&input.bytes, &input.pieces));
        scope.spawn(move || {
            let mut answers = Vec::new();
            let read = out.read_to_end(&mut answers).map(|_| answers);
            let _ = told.send(read);
        });
        match heard.recv_timeout(LIMIT) {
            Ok(read) => Ok((child.wait()?, read?)),
            Err(RecvTimeoutError::Timeout | RecvTimeoutError::Disconnected) => {
                child.kill()?;
                child.wait()?;
                Err(Fault::NoEnd)
            }
        }
    })
}
