//! Traces of the replay program (document 01, Replay program), written to be
//! read, and inputs made by chance.
//!
//! [`trace::Trace`] reads a file of `traces/` and gives the octets that the
//! program reads and the text that it must print; the answers in the files were
//! derived from document 01 by hand. [`random`] and [`changed`] make inputs
//! whose output nobody wrote down: there the peer's output is what counts.
//! [`edges`] has inputs that are very long, or cut anywhere.
//! [`run`] feeds all of them to a program.

#![forbid(unsafe_code)]
#![warn(missing_docs)]

pub mod changed;
pub mod edges;
pub mod packet;
pub mod program;
pub mod random;
pub mod record;
pub mod run;
pub mod trace;
pub mod words;
