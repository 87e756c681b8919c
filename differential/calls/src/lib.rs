//! Sequences of calls on the port and on the Rust, and their comparison.
//!
//! - `columns`: the program of document 01: what its lines ask, and the Rust's answers in columns.
//! - `memory`: the cells that a call may read or write, and their dump.
//! - `script`: the lines of a call script.
//! - `sides`: what the port and the Rust each have to offer.
//! - `refusals`: document 01's table of refusals, and what the Rust must do with a refused call.
//! - `rust_did`: what the Rust did with one, in words.
//! - `looked`: a second reading of a lookup, which counts the hash cells that it looks at.
//! - `entry_searches`: a second reading of the searches over the entries, which the Rust does not have.
//! - `demand3`: what a hold is owed, checked at run time.
//! - `session`: one script on one side or on both, with every cell compared after each call.
//! - `random`: scripts of its own making, and the shortest one that shows a difference; cases of one call each; inputs of
//!   the program.
//! - `exhaustive`: all short sequences of calls on the index.
//! - `states`: every state of two reader slots, and each call on readers in it.
#![forbid(unsafe_code)]

pub mod columns;
pub mod demand3;
pub mod entry_searches;
pub mod exhaustive;
mod looked;
pub mod memory;
pub mod random;
pub mod refusals;
pub mod rust_did;
pub mod script;
pub mod session;
pub mod sides;
pub mod states;
