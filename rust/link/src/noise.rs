//! Numbers that look random and are the same in every run.

/// A stream of numbers from a seed (SplitMix64).
pub struct Noise {
    state: u64,
}

impl Noise {
    /// The stream that belongs to this seed.
    pub fn new(seed: u64) -> Self {
        Noise { state: seed }
    }

    /// The next number.
    pub fn number(&mut self) -> u64 {
        self.state = self.state.wrapping_add(0x9E37_79B9_7F4A_7C15);
        let mixed = (self.state ^ self.state >> 30).wrapping_mul(0xBF58_476D_1CE4_E5B9);
        let mixed = (mixed ^ mixed >> 27).wrapping_mul(0x94D0_49BB_1331_11EB);
        mixed ^ mixed >> 31
    }

    /// A number under `bound`, which is not 0.
    pub fn below(&mut self, bound: usize) -> usize {
        (self.number() % bound as u64) as usize
    }

    /// True once in so many times.
    pub fn one_in(&mut self, times: usize) -> bool {
        self.below(times) == 0
    }

    /// True so many times in a hundred.
    pub fn percent(&mut self, times: usize) -> bool {
        self.below(100) < times
    }

    /// One of these.
    pub fn one_of<T: Copy>(&mut self, choices: &[T]) -> T {
        choices[self.below(choices.len())]
    }

    /// An octet.
    pub fn octet(&mut self) -> u8 {
        self.number() as u8
    }

    /// So many octets.
    pub fn octets(&mut self, count: usize) -> Vec<u8> {
        let mut octets = Vec::with_capacity(count + 8);
        while octets.len() < count {
            octets.extend(self.number().to_le_bytes());
        }
        octets.truncate(count);
        octets
    }

    /// The octets of a prefix (document 02, A7): 0 to 15, often none.
    pub fn prefix(&mut self) -> Vec<u8> {
        let any = self.below(16);
        let count = self.one_of(&[0, 0, 0, 1, 15, any, any]);
        self.octets(count)
    }
}
