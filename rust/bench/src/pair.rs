//! A host and a subscriber with open channels, and the stages of their exchange,
//! each timed.

use std::time::Instant;

use peer::prefix::Prefix;
use peer::settings::{Direction, Settings};

use crate::side::Side;

/// Window, and the units of a batch: each unit is one segment.
pub const WINDOW: usize = 64;

/// Slots of a channel.
pub const SLOTS: usize = 128;

/// A host and a subscriber.
#[derive(Clone)]
pub struct Pair<S> {
    /// The host: all its channels send.
    pub host: S,
    /// The subscriber: all its channels receive.
    pub subscriber: S,
    channels: usize,
    unit: Vec<u8>,
    packets: Vec<Vec<u8>>,
    acks: Vec<[u8; 12]>,
    out: Vec<u8>,
}

/// The settings of so many channels in one direction.
pub fn table(direction: Direction, remote: u8, channels: usize, payload: usize) -> Vec<Settings> {
    let settings = |channel| Settings {
        direction,
        channel,
        remote,
        remote_prefix: Prefix::NONE,
        own_prefix: Prefix::NONE,
        window: WINDOW as u32,
        slots: SLOTS as u32,
        most_payload: payload as u32,
        most_segments: 4,
        timeout: 65_535,
        close_timeout: 65_535,
        retries: 255,
        interval: 0,
        flow: 0,
        spare: 0,
        lead: 0,
    };
    (0..channels as u16).map(settings).collect()
}

/// The nanoseconds that each of so many calls takes.
pub fn each(count: usize, calls: impl FnOnce()) -> f64 {
    let start = Instant::now();
    calls();
    start.elapsed().as_nanos() as f64 / count as f64
}

impl<S: Side> Pair<S> {
    /// So many channels with this P, open at both ends.
    pub fn new(channels: usize, payload: usize) -> Pair<S> {
        let mut pair = Pair {
            host: S::new(64, &table(Direction::Sending, 65, channels, payload)),
            subscriber: S::new(65, &table(Direction::Receiving, 64, channels, payload)),
            channels,
            unit: (0..payload).map(|place| place as u8).collect(),
            packets: vec![vec![0; payload + 12]; WINDOW],
            acks: vec![[0; 12]; WINDOW],
            out: vec![0; payload + 12],
        };
        for index in 0..channels {
            assert_eq!(pair.subscriber.open(index).number, 0);
            assert_eq!(pair.host.open(index).number, 0);
            pair.exchange();
        }
        pair
    }

    /// Every packet that is ready goes over, and its ack comes back.
    pub fn exchange(&mut self) {
        let (packet, reply) = (&mut self.out, &mut self.acks[0]);
        loop {
            let given = self.host.next_packet(packet);
            if given.number == 12 {
                return;
            }
            let given = self.subscriber.arrival(&packet[..given.length], reply);
            assert_eq!(given.number, 0);
            assert_eq!(self.host.arrival(reply, &mut [0; 12]).number, 0);
        }
    }

    /// A batch of units over every channel, from the transfer to the take; the
    /// nanoseconds for each unit.
    pub fn flow(&mut self) -> f64 {
        let start = Instant::now();
        self.queue();
        self.exchange();
        for index in 0..self.channels {
            for _ in 0..WINDOW {
                let given = self.subscriber.take(index, &mut self.out);
                assert_eq!((given.number, given.length), (0, self.unit.len()));
            }
        }
        start.elapsed().as_nanos() as f64 / (WINDOW * self.channels) as f64
    }

    /// A batch of units is accepted in every channel.
    pub fn queue(&mut self) {
        for index in 0..self.channels {
            for _ in 0..WINDOW {
                assert_eq!(self.host.transfer(index, &self.unit).number, 0);
            }
        }
    }

    /// Every packet that is ready is handed out, and stays in flight.
    pub fn drain(&mut self) {
        while self.host.next_packet(&mut self.out).number == 0 {}
    }

    /// A batch of units is accepted in channel 0.
    pub fn transfers(&mut self) -> f64 {
        each(WINDOW, || {
            for _ in 0..WINDOW {
                assert_eq!(self.host.transfer(0, &self.unit).number, 0);
            }
        })
    }

    /// Their packets are handed out.
    pub fn packets(&mut self) -> f64 {
        each(WINDOW, || {
            for packet in &mut self.packets {
                assert_eq!(self.host.next_packet(packet).number, 0);
            }
        })
    }

    /// They arrive.
    pub fn data(&mut self) -> f64 {
        each(WINDOW, || {
            for (packet, ack) in self.packets.iter().zip(&mut self.acks) {
                assert_eq!(self.subscriber.arrival(packet, ack).number, 0);
            }
        })
    }

    /// Their acks arrive.
    pub fn acks(&mut self) -> f64 {
        let reply = &mut [0; 12];
        each(WINDOW, || {
            for ack in &self.acks {
                assert_eq!(self.host.arrival(ack, reply).number, 0);
            }
        })
    }

    /// The units are taken.
    pub fn takes(&mut self) -> f64 {
        each(WINDOW, || {
            for _ in 0..WINDOW {
                assert_eq!(self.subscriber.take(0, &mut self.out).number, 0);
            }
        })
    }

    /// Units that are held in CLOSED are reclaimed.
    pub fn reclaims(&mut self) -> f64 {
        self.transfers();
        assert_eq!(self.host.close(0).number, 0);
        self.exchange();
        each(WINDOW, || {
            for _ in 0..WINDOW {
                assert_eq!(self.host.reclaim(0, &mut self.out).number, 0);
            }
        })
    }
}
