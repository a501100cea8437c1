//! What the lent storage must contain, as a bystander computes it.

use peer::node::Node;
use peer::settings::Settings;

/// The storage of one node.
pub struct Shadow {
    table: Vec<Settings>,
    memory: Vec<u8>,
    lengths: Vec<u16>,
}

impl Shadow {
    pub fn new(node: &Node, table: &[Settings]) -> Shadow {
        Shadow {
            table: table.to_vec(),
            memory: node.memory().to_vec(),
            lengths: node.lengths().to_vec(),
        }
    }

    /// Files a segment: octets and length, and nothing else.
    pub fn file(&mut self, index: usize, segment: u64, octets: &[u8]) {
        let (from, slot) = self.slot(index, segment);
        self.memory[from..from + octets.len()].copy_from_slice(octets);
        self.lengths[slot] = octets.len() as u16;
    }

    /// The octets that lie in a segment's slot, as its length says.
    pub fn read(&self, index: usize, segment: u64) -> &[u8] {
        let (from, slot) = self.slot(index, segment);
        &self.memory[from..from + usize::from(self.lengths[slot])]
    }

    /// Where a segment's slot begins in the memory, and its place among the
    /// lengths.
    fn slot(&self, index: usize, segment: u64) -> (usize, usize) {
        let mut memory_from = 0;
        let mut lengths_from = 0;
        for settings in &self.table[..index] {
            memory_from += (settings.slots * settings.most_payload) as usize;
            lengths_from += settings.slots as usize;
        }
        let settings = &self.table[index];
        let slot = ((segment - 1) % u64::from(settings.slots)) as usize;
        let from = memory_from + slot * settings.most_payload as usize;
        (from, lengths_from + slot)
    }

    /// The storage is as computed.
    pub fn check(&self, node: &Node) {
        assert!(self.memory == node.memory() && self.lengths == node.lengths());
    }
}
