//! SpaceWire-R in plain Rust, written from the documents alone.
//!
//! It shares nothing with the proved library, so that the two can be compared
//! call by call: what both get wrong, both must have misread.
//!
//! [`node::Node`] has all the calls; [`replay::replay`] is the program over it.
//!
//! The documents are cited by number: 01 is the scope, 02 the change requests,
//! 000 the SpaceWire-R protocol specification, 001 the older JRDDP
//! specification.

#![forbid(unsafe_code)]
#![warn(missing_docs)]

pub mod answer;
mod channel;
mod course;
pub mod crc;
mod flow_control;
mod heartbeat;
pub mod lines;
pub mod node;
mod offer;
pub mod packet;
pub mod prefix;
mod receiving;
pub mod replay;
mod segment;
mod sending;
pub mod settings;
pub mod sight;
mod slots;
pub mod state;
#[cfg(test)]
mod support;
