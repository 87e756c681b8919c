//! The Rust, compiled unchanged behind stand-ins for what it imports, and driven call by call.
//!
//! - `io`, `sync`, the macro and the errors below: the stand-ins. The file double owns the mapped memory and
//!   gives the lock and growth answers that a call is to get.
//! - `peek`: a child module of the Rust file, which reaches what is private there.
//! - `world`: several processes over one memory, each with its own mapping.
//! - `direct`: one process's calls with nothing around them, to measure.
//! - `hasher`: a fast hasher for the Rust's maps, in place of the standard one.

#[macro_export]
macro_rules! turso_assert {
    ($condition:expr, $words:expr $(, { $($more:tt)* })?) => {
        assert!($condition, $words)
    };
}

mod direct;
#[cfg(feature = "fast-hash")]
mod hasher;
mod io;
mod sync;
mod world;

pub use direct::Direct;
pub use world::fresh;

#[cfg(not(feature = "fast-hash"))]
use std::collections::HashMap;

#[cfg(feature = "fast-hash")]
type HashMap<K, V> = std::collections::HashMap<K, V, std::hash::BuildHasherDefault<hasher::Multiplicative>>;

type Result<T, E = LimboError> = std::result::Result<T, E>;

#[derive(Debug)]
pub(crate) enum LimboError {
    InternalError(String),
    Corrupt(String),
    CompletionError(CompletionError),
}

impl std::fmt::Display for LimboError {
    fn fmt(&self, f: &mut std::fmt::Formatter) -> std::fmt::Result {
        match self {
            Self::InternalError(words) | Self::Corrupt(words) => f.write_str(words),
            Self::CompletionError(CompletionError::IOError(kind, words)) => write!(f, "{words}: {kind}"),
        }
    }
}

#[derive(Debug)]
pub(crate) enum CompletionError {
    IOError(std::io::ErrorKind, &'static str),
}

include!(concat!(env!("OUT_DIR"), "/source.rs"));
