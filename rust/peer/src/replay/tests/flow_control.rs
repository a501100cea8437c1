//! Type 6, and Acks with payload, where Flow Control is off (document 02, A5).

use super::*;
use crate::packet::kind::FLOW_CONTROL;
use crate::packet::Fields;
use crate::support::{written, HERE, THERE};

/// The octets that these hexadecimal digits say.
fn octets(digits: &str) -> Vec<u8> {
    let octet = |place| u8::from_str_radix(&digits[place..place + 2], 16).unwrap();
    (0..digits.len()).step_by(2).map(octet).collect()
}

/// A packet for this channel number, from the other end.
fn packet(channel: u16, kind: u8, number: u8, payload: &[u8]) -> Vec<u8> {
    let fields = Fields {
        kind,
        number,
        ..THERE.header(HERE.own, channel)
    };
    written(&fields, payload)
}

/// The trace of A5's bar: type 6 and Acks with an octet find their record (14 if
/// there is none) and are 3 there; two octets are 3 before that.
const BAR: &str = "0100030000000007000c00010040ee5f000000010000419b3401000300010c00010040ee5a\
                   0000000200004148560d00010040ee5e000100010000410415140c00010040ee5e00000002\
                   000041473b0d00010040ee5e0001000200004104fbc60e00010040ee5e0002000100004161\
                   6226da0d00010040ee590001000101004104d20b0d00010040ee590001000901004104d026\
                   0e00010040ee590002000101004161629071";

#[test]
fn the_trace_of_the_bar() {
    let numbers = [0, 0, 0, 0, 0, 3, 3, 14, 3, 3, 14, 3];
    let mut expected = String::from("rec answer\n");
    for (count, number) in (1..).zip(numbers) {
        expected += &format!("{count} {number}\n");
    }
    expected += "end ok\n";
    assert_eq!(replay(&octets(BAR)), expected);
}

/// In every state: 3 comes before 5.
#[test]
fn off_in_every_state() {
    let cases = || {
        [
            (arrival(packet(1, FLOW_CONTROL, 0, &[4])), 3),
            (arrival(packet(2, FLOW_CONTROL, 0, &[])), 3),
            (arrival(packet(1, FLOW_CONTROL, 0, &[])), 14),
            (arrival(packet(2, FLOW_CONTROL, 0, &[4])), 14),
            (arrival(packet(1, CONTROL_ACK, 0, &[4])), 3),
            (arrival(packet(1, DATA_ACK, 0, &[4])), 3),
            (arrival(packet(2, DATA_ACK, 0, &[4])), 14),
        ]
    };
    let mut trace = Vec::from(cases());
    trace.extend([(open(0), 0), (open(1), 0), (next(), 0)]);
    trace.extend(cases());
    trace.extend([(control_ack(), 0), (arrival(alone(OPEN, 0)), 0)]);
    trace.extend(cases());
    trace.extend([(close(0), 0), (arrival(alone(CLOSE, 0)), 0)]);
    trace.extend(cases());
    check(&trace);
}
