//! The prefix of a source address, for nodes in another region (document 02,
//! A7; 000, 4.2.3.9.2).

#[cfg(test)]
mod tests;

/// The most octets of a prefix: its length has 4 bits (000, 4.2.3.8.3).
pub const MOST_PREFIX: usize = 15;

/// A prefix as a channel's settings say it. The length is wider than its
/// range, so that a caller can ask for what must be refused.
#[derive(Clone, Copy, Debug, Default, PartialEq, Eq)]
pub struct Prefix {
    /// How many octets it has, 0 to 15.
    pub length: u8,
    /// The prefix, and then 0 in every octet: equal prefixes are equal parts.
    pub octets: [u8; MOST_PREFIX],
}

impl Prefix {
    /// No prefix: only logical addressing is used (000, 4.2.3.9.1).
    pub const NONE: Prefix = Prefix {
        length: 0,
        octets: [0; MOST_PREFIX],
    };

    /// The prefix of these octets, if there are not too many.
    pub fn new(said: &[u8]) -> Option<Prefix> {
        let mut octets = [0; MOST_PREFIX];
        octets.get_mut(..said.len())?.copy_from_slice(said);
        let length = said.len() as u8;
        Some(Prefix { length, octets })
    }

    /// The octets that the prefix has. Of a length out of its range, which
    /// settings refuse, all that there are.
    pub fn said(&self) -> &[u8] {
        &self.octets[..MOST_PREFIX.min(self.length.into())]
    }

    /// Whether the length lies in its range and every octet past it is 0.
    pub(crate) fn in_range(&self) -> bool {
        Prefix::new(self.said()) == Some(*self)
    }
}
