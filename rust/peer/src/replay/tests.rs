mod flow_control;
mod input;
mod receiving;
mod sending;

use super::*;
use crate::packet::flags::{CONTINUATION, FIRST, LAST, WHOLE};
use crate::packet::kind::{CLOSE, CONTROL_ACK, DATA_ACK, OPEN};
use crate::support::{alone, data, packet_for, whole};

/// The octets of one input record.
fn record(kind: u16, body: &[u8]) -> Vec<u8> {
    let length = body.len() as u16;
    [&length.to_le_bytes(), &kind.to_le_bytes(), body].concat()
}

fn arrival(packet: Vec<u8>) -> Vec<u8> {
    record(1, &packet)
}

fn tick() -> Vec<u8> {
    record(2, &[])
}

fn open(index: u8) -> Vec<u8> {
    record(3, &[index])
}

fn close(index: u8) -> Vec<u8> {
    record(4, &[index])
}

/// A transfer on channel 0.
fn transfer(unit: &[u8]) -> Vec<u8> {
    record(5, &[&[0], unit].concat())
}

fn take(index: u8) -> Vec<u8> {
    record(6, &[index])
}

fn next() -> Vec<u8> {
    record(7, &[])
}

fn reclaim(index: u8) -> Vec<u8> {
    record(8, &[index])
}

fn control_ack() -> Vec<u8> {
    arrival(alone(CONTROL_ACK, 0))
}

fn data_ack(number: u8) -> Vec<u8> {
    arrival(alone(DATA_ACK, number))
}

/// A whole unit of one octet for channel 1.
fn unit(number: u8) -> Vec<u8> {
    arrival(whole(number, b"u"))
}

/// A segment of one octet for channel 1.
fn segment(number: u8, flags: u8) -> Vec<u8> {
    arrival(data(number, flags, b"s"))
}

/// What leads channel 0 to OPEN, with the answers to it.
fn opened_sender() -> Vec<(Vec<u8>, u8)> {
    vec![(open(0), 0), (next(), 0), (control_ack(), 0)]
}

/// What leads channel 1 to OPEN, with the answers to it.
fn opened_receiver() -> Vec<(Vec<u8>, u8)> {
    vec![(open(1), 0), (arrival(alone(OPEN, 0)), 0)]
}

/// Replays the records and compares with the answers beside them.
fn check(trace: &[(Vec<u8>, u8)]) {
    let input: Vec<u8> = trace
        .iter()
        .flat_map(|(octets, _)| octets.clone())
        .collect();
    let mut expected = String::from("rec answer\n");
    for (count, (_, number)) in (1..).zip(trace) {
        expected += &format!("{count} {number}\n");
    }
    expected += "end ok\n";
    assert_eq!(replay(&input), expected);
}
