//! The caller writes into the lines that it lends (document 02, A4).

use super::*;
use crate::condition::are_lines;
use crate::lines::other_lines;

/// Every case of lines that the caller wrote.
pub const WRITTEN: [&str; 2] = [SOUND, SPOILT];

const SOUND: &str = "written lines: sound ones, and both go on from there";
const SPOILT: &str = "written lines: others, and both answer 13";

impl World {
    /// Lines of another order, or with others in them; or one octet of them is
    /// another, or one too many, or one too few.
    pub(super) fn write_lines(&mut self, node: usize) {
        let twin = &mut self.twins[node];
        let mut lines = other_lines(&twin.lines, twin.table.len(), &mut self.noise);
        let place = self.noise.below(lines.len());
        let small = self.noise.below(18) as u8;
        match self.noise.below(12) {
            0..=2 => lines[place] = small,
            3 => lines[place] = 255,
            4 => lines.push(0),
            5 => lines.truncate(place),
            _ => {}
        }
        if !are_lines(&lines, twin.table.len()) {
            return self.refuse_lines(node, lines);
        }
        twin.write_lines(lines);
        self.idle[node] = false;
        self.tally.case(SOUND);
    }

    /// Lines that are not sound are refused; then the old ones are lent again.
    fn refuse_lines(&mut self, node: usize, lines: Vec<u8>) {
        let packet = self.stray_packet(node);
        let index = self.noise.below(self.twins[node].table.len());
        let call = match self.noise.below(9) {
            0 => Call::Open(index),
            1 => Call::Close(index),
            2 => Call::Transfer(index, &packet),
            3 => Call::WouldTransfer(index, 3),
            4 => Call::Take(index),
            5 => Call::Reclaim(index),
            6 => Call::NextPacket,
            7 => Call::Arrival(&packet),
            _ => Call::Tick,
        };
        let twin = &mut self.twins[node];
        let kept = (twin.lines.clone(), twin.written);
        twin.write_lines(lines);
        let said = twin.call(call, 64, &mut self.tally).said;
        assert_eq!(said, unlawful(twin.table.len()), "{call:?}");
        twin.write_lines(kept.0);
        twin.written = kept.1;
        if matches!(call, Call::Arrival(_)) {
            self.tally.answer("not read", 13);
        }
        self.tally.case(SPOILT);
    }
}
