//! What tests share that run two nodes over a bad link: the link, chance that is
//! the same in every run, and the account of every unit.

#![forbid(unsafe_code)]
#![warn(missing_docs)]

mod link;
mod noise;
mod units;

pub use link::{one_bit, Damage, Flight, Link, Weather, FAIR};
pub use noise::Noise;
pub use units::{Opening, Place, Units};
