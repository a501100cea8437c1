//! Two nodes of the proved library over a bad link, and a bystander who keeps
//! the account of every unit: what the tests of this crate are made of. The
//! bystander sees what the applications see, the answers and the units, and makes
//! the three claims of [`link::Units`].
//!
//! The link keeps the premise of lateness, which alone is read from a record's
//! window start: no Data or Data Ack is delivered once the window of the end that
//! gets it has started more than 256 - k past its segment. And no packet outlives
//! its opening.

#![forbid(unsafe_code)]
#![warn(missing_docs)]

pub mod account;
pub mod node;
pub mod world;
