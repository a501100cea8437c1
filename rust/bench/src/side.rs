//! The two sides that are measured, with the same calls.

use peer::settings::Settings;

mod ours;
mod plain;

pub use ours::Ours;
pub use plain::Plain;

/// What a call gave.
#[derive(Clone, Copy, Debug)]
pub struct Given {
    /// The answer number.
    pub number: u32,
    /// The octets written, or with 11 wanted.
    pub length: usize,
}

/// A node with its storage. A copy goes on from the same state.
pub trait Side: Clone {
    /// A node with these settings given.
    fn new(address: u8, settings: &[Settings]) -> Self;
    /// The settings of the whole table, given again.
    fn settings(&mut self) -> Given;
    /// An Open directive.
    fn open(&mut self, index: usize) -> Given;
    /// A Close directive.
    fn close(&mut self, index: usize) -> Given;
    /// A unit to be sent.
    fn transfer(&mut self, index: usize, unit: &[u8]) -> Given;
    /// The oldest complete unit.
    fn take(&mut self, index: usize, out: &mut [u8]) -> Given;
    /// The oldest unit held.
    fn reclaim(&mut self, index: usize, out: &mut [u8]) -> Given;
    /// The next packet.
    fn next_packet(&mut self, out: &mut [u8]) -> Given;
    /// A packet arrives.
    fn arrival(&mut self, packet: &[u8], reply: &mut [u8]) -> Given;
    /// A tick.
    fn tick(&mut self) -> Given;
}
