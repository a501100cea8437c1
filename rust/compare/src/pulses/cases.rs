//! Which cases of Heartbeats a call was, for the table that is printed.

use super::*;

/// Every case of Heartbeats that a run must have had.
pub const HEARTBEATS: [&str; 24] = [
    MADE[0],
    MADE[1],
    OUT[0],
    OUT[1],
    RESENT[0],
    RESENT[1],
    ANSWERED[0],
    ANSWERED[1],
    ACKED[0],
    ACKED[1],
    DEAD[0],
    DEAD[1],
    LATE,
    NUMBERED,
    STILL,
    HELD,
    UNTAKEN,
    FIRST,
    GONE[0],
    GONE[1],
    BY_DATA,
    BY_ACK,
    BY_REPEAT,
    BY_HEARTBEAT,
];

/// Of a sender, and of a receiver.
type Ends = [&'static str; 2];

const MADE: Ends = [
    "heartbeat: made by a sender",
    "heartbeat: made by a receiver",
];
const OUT: Ends = [
    "heartbeat: handed out by a sender",
    "heartbeat: handed out by a receiver",
];
const RESENT: Ends = [
    "heartbeat: resent by a sender",
    "heartbeat: resent by a receiver",
];
const ANSWERED: Ends = [
    "heartbeat: answered by a sender",
    "heartbeat: answered by a receiver",
];
const ACKED: Ends = [
    "heartbeat: acknowledged, of a sender",
    "heartbeat: acknowledged, of a receiver",
];
const DEAD: Ends = [
    "heartbeat: unanswered, and a sender is inactive",
    "heartbeat: unanswered, and a receiver is inactive",
];
const GONE: Ends = [
    "heartbeat: gone by a Close directive",
    "heartbeat: gone by a Close that arrives",
];
const LATE: &str = "heartbeat: acknowledged while it waits to be resent";
const NUMBERED: &str = "heartbeat: answered with another number than 0";
const STILL: &str = "heartbeat: the interval ends, and one is not acknowledged";
const HELD: &str = "heartbeat: unanswered, and units are held";
const UNTAKEN: &str = "heartbeat: unanswered, and complete units are untaken";
const FIRST: &str = "heartbeat: Data's retries are used up first";
const BY_DATA: &str = "interval: restarted by Data";
const BY_ACK: &str = "interval: restarted by a Data Ack or Control Ack with 0";
const BY_REPEAT: &str = "interval: restarted by an Ack with 15";
const BY_HEARTBEAT: &str = "interval: restarted by a Heartbeat Ack";

impl Twin {
    /// After a call that both answered alike: what it was for each Heartbeat.
    pub(crate) fn note_pulses(&self, call: &Call, said: Said, tally: &mut Tally) {
        if said.number == 13 {
            return;
        }
        let records = self.before.iter().zip(&self.table).enumerate();
        for (index, (old, new)) in records {
            let end = usize::from(new.addresses.direction == direction::RECEIVES);
            match call {
                Call::Tick => note_tick(old, new, end, tally),
                _ if said.index != index => {}
                Call::NextPacket => note_next(old, new, end, tally),
                Call::Close(_) if is_gone(old, new) => tally.case(GONE[0]),
                Call::Arrival(packet) => note_arrival(packet, said, old, new, tally),
                _ => {}
            }
        }
    }
}

/// Whether a Heartbeat is gone with OPEN.
fn is_gone(old: &Channel, new: &Channel) -> bool {
    old.pulse.beat.state != lone::NONE && new.phase.state == state::CLOSING
}

fn note_tick(old: &Channel, new: &Channel, end: usize, tally: &mut Tally) {
    let (before, after) = (old.pulse.beat, new.pulse.beat);
    let inactive = old.phase.state == state::OPEN && new.phase.state == state::CLOSED;
    let dead = inactive && new.phase.reason == reason::UNANSWERED;
    let held = new.window.ahead > 0;
    let untaken = end == 1 && new.window.behind > 0;
    let spent = before.state == lone::OUT && (before.timer, before.tries) == (1, 0);
    let cases = [
        (
            before.state == lone::NONE && after.state == lone::READY,
            MADE[end],
        ),
        (
            old.pulse.left == 1 && before.state != lone::NONE && !inactive,
            STILL,
        ),
        (dead, DEAD[end]),
        (dead && held, HELD),
        (dead && untaken, UNTAKEN),
        (inactive && spent && !dead && end == 0, FIRST),
    ];
    note_all(&cases, tally);
}

fn note_next(old: &Channel, new: &Channel, end: usize, tally: &mut Tally) {
    let goes = new.pulse.beat.state == lone::OUT;
    let cases = [
        (goes && old.pulse.beat.state == lone::READY, OUT[end]),
        (goes && old.pulse.beat.state == lone::AGAIN, RESENT[end]),
        (end == 0 && new.pulse.left > old.pulse.left, BY_DATA),
    ];
    note_all(&cases, tally);
}

fn note_arrival(packet: &[u8], said: Said, old: &Channel, new: &Channel, tally: &mut Tally) {
    let end = usize::from(new.addresses.direction == direction::RECEIVES);
    let kind = packet.get(2).map(|control| control & 0b111);
    let answered = kind == Some(kind::HEARTBEAT) && said.number == 0;
    let acked = kind == Some(kind::HEARTBEAT_ACK) && said.number == 0;
    let restarted = old.phase.state == state::OPEN && new.pulse.left > old.pulse.left;
    let cases = [
        (answered, ANSWERED[end]),
        (answered && packet[7] != 0, NUMBERED),
        (acked, ACKED[end]),
        (acked && old.pulse.beat.state == lone::AGAIN, LATE),
        (is_gone(old, new), GONE[1]),
        (restarted && answered, BY_HEARTBEAT),
        (
            restarted && !answered && said.number == 0 && end == 1,
            BY_ACK,
        ),
        (restarted && said.number == 15, BY_REPEAT),
    ];
    note_all(&cases, tally);
}

fn note_all(cases: &[(bool, &'static str)], tally: &mut Tally) {
    for (_, case) in cases.iter().filter(|(is_so, _)| *is_so) {
        tally.case(case);
    }
}
