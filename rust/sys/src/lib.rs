//! The C functions of the proved library, over slices.
//!
//! There is a function for each one of `c/wal_coordination.h`, with its parameters in their order. A slice goes over as
//! its pointer and its length; what the calls on the index and on reader slots are all given stands in [`Index`],
//! [`IndexToRead`] and [`Slots`]. The header says what each function does and what a caller must keep to; the crate
//! `wal_coordination` keeps to it.
//!
//! The functions are safe: they do nothing undefined for any numbers and any memory, and every pointer comes from a
//! reference or a slice. No other code of the repository hands the library a pointer.
//!
//! # The library
//!
//! `WAL_COORDINATION_LIB` is the absolute path of its file at build time, under any file name: a static library or a
//! shared one. Without it, the file that `./build` writes in the repository is linked. Any other file, or none, ends
//! the build. Without the feature `functions` nothing is linked, and the crate has the two structs of the memory alone.

#[macro_use]
mod layout;
#[cfg(feature = "functions")]
#[macro_use]
mod functions;

#[cfg(feature = "functions")]
pub use functions::*;
pub use layout::{Header, SharedReadMark};
