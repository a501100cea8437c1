//! The proved library beside the peer, call by call: what the tests of this
//! crate are made of.

#![forbid(unsafe_code)]
#![warn(missing_docs)]

pub mod bounds;
pub mod call;
pub mod check;
pub mod condition;
pub mod counts;
pub mod damage;
pub mod faults;
pub mod flows;
pub mod found;
pub mod lines;
pub mod order;
pub mod overwriting;
pub mod packets;
pub mod pulses;
pub mod records;
pub mod sizes;
pub mod strays;
pub mod tables;
pub mod tally;
pub mod trouble;
pub mod twin;
pub mod world;
