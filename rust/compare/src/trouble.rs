//! How bad a run is.

use link::Weather;

/// What happens on the links, and beside them, in percent.
#[derive(Clone, Copy, Debug)]
pub struct Trouble {
    /// What happens to packets on their way.
    pub weather: Weather,
    /// Calls that bring a packet nobody sent.
    pub stray: usize,
    /// Of those, such as break the exchange.
    pub breaking: usize,
    /// Closes among what a sending application does, in a thousand.
    pub closing: usize,
}
