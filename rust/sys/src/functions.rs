//! The C functions, a module for each part of the C header.

/// Calls a C function: numbers, slices that it may change, slices that it only reads, numbers, and slices for output.
macro_rules! wal {
    ($function:ident, [$($first:expr),*], [$($changed:expr),*], [$($read:expr),*], [$($last:expr),*]
        $(, [$($out:expr),*])?) => {
        // SAFETY: Each pointer comes from a reference or a slice: it is aligned, not null, as long as its length says,
        // and overlaps no other that the call may change. c/declarations holds the declaration against the sources.
        unsafe {
            $function(
                $($first,)*
                $($changed.as_mut_ptr(), $changed.len(),)*
                $($read.as_ptr(), $read.len(),)*
                $($last,)*
                $($($out.as_mut_ptr(), $out.len(),)*)?
            )
        }
    };
}

mod header;
mod index;
mod readers;

pub use header::*;
pub use index::*;
pub use readers::*;
