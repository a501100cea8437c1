//! Flow Control in a record (document 02, A5): what the library writes there and what
//! it reads, at the places that this crate says. As in `written` and `read`, each field
//! is seen by its effects, and those that could be taken for one another have different
//! values.

mod beats;
mod ends;

use beats::{packet_for, ticks, FLOW_CONTROL};
use ends::{both_open, done, refused, unserved, End, LIMITS};
use proved::record::{lone, reason};
use proved::{Flow, Limits, Lone, Pulse, Said};

const STATING: Limits = Limits {
    segments: 1,
    timeout: 0x0105,
    retries: 2,
    flow: 1,
    ..LIMITS
};

const INACTIVE: Said = Said {
    number: 9,
    reason: reason::RETRIES as u32,
    length: 0,
    confirmed: 0,
    index: 0,
};

/// The next unit of one segment goes over, and its Ack comes back.
fn one_unit(host: &mut End, station: &mut End) {
    assert_eq!(host.transfer(b"a"), done(0, 0));
    let (said, ack) = station.arrival(&host.packet());
    assert_eq!(said, done(13, 0));
    assert_eq!(host.arrival(&ack).0, done(0, 1));
}

/// Five units went over, and one was taken: the number stated goes from 8, the last
/// that there was room for, to 9, and a Flow Control packet is made.
fn taken() -> (End, End) {
    let (mut host, mut station) = both_open(STATING);
    for _ in 0..5 {
        one_unit(&mut host, &mut station);
    }
    assert_eq!(station.take().0, done(1, 0));
    (host, station)
}

/// The same, and the packet was handed out.
fn handed_out() -> (End, End) {
    let (host, mut station) = taken();
    let packet = station.packet();
    assert_eq!((packet[2], packet[7], packet[10]), (0x5E, 5, 9));
    (host, station)
}

fn flow(end: &mut End) -> Flow {
    end.record().pulse.flow
}

#[test]
fn a_receiver_makes_a_flow_control_packet() {
    let (mut host, mut station) = taken();
    let mut expected = Flow {
        last: 5,
        ..Flow::default()
    };
    expected.packet.state = lone::READY;
    // The resends left are said by the hand-out alone.
    expected.packet.tries = flow(&mut station).packet.tries;
    assert_eq!(flow(&mut station), expected);
    station.packet();
    expected.packet = Lone {
        state: lone::OUT,
        timer: 0x0105,
        tries: 2,
    };
    (expected.number, expected.stated) = (5, 9);
    assert_eq!(flow(&mut station), expected);
    one_unit(&mut host, &mut station);
    expected.last = 6;
    assert_eq!(flow(&mut station), expected);
    ticks(&mut station, 0x0104);
    expected.packet.timer = 1;
    assert_eq!(flow(&mut station), expected);
    ticks(&mut station, 1);
    (expected.packet.state, expected.packet.timer) = (lone::AGAIN, 0);
    assert_eq!(flow(&mut station), expected);
    // Resent with its own number, which is then the last one.
    assert_eq!(station.packet()[7], 5);
    expected.packet = Lone {
        state: lone::OUT,
        timer: 0x0105,
        tries: 1,
    };
    expected.last = 5;
    assert_eq!(flow(&mut station), expected);
}

#[test]
fn a_sender_records_a_number() {
    let (mut host, mut station) = both_open(STATING);
    assert_eq!(flow(&mut host).recorded, 4);
    assert_eq!(flow(&mut station), Flow::default());
    for recorded in [5, 6, 7, 8, 8] {
        one_unit(&mut host, &mut station);
        assert_eq!(flow(&mut host).recorded, recorded);
    }
    station.take();
    let (said, ack) = host.arrival(&station.packet());
    assert_eq!((said, ack[2], ack[7]), (done(12, 0), 0x5E, 5));
    assert_eq!(flow(&mut host).recorded, 9);
    assert_eq!(station.arrival(&ack).0, done(0, 0));
    let last = 5;
    let expected = Flow {
        last,
        ..Flow::default()
    };
    assert_eq!(flow(&mut station), expected);
    assert_eq!(host.close(), done(0, 0));
    assert_eq!(host.record().pulse, Pulse::default());
}

/// The window allows 6 to 9.
#[test]
fn the_number_recorded_is_read() {
    for (recorded, allowed) in [(5, 0), (6, 1), (8, 3), (9, 4), (133, 4), (134, 0)] {
        let (mut host, _) = taken();
        for _ in 0..5 {
            assert_eq!(host.transfer(b"a"), done(0, 0));
        }
        host.record().pulse.flow.recorded = recorded;
        // The lines are put right by a tick alone.
        ticks(&mut host, 1);
        let out = std::iter::from_fn(|| (host.next().0.number == 0).then_some(()));
        assert_eq!(out.count(), allowed, "{recorded}");
    }
}

#[test]
fn the_last_number_is_read() {
    let (_, mut station) = taken();
    station.record().pulse.flow.last = 0x77;
    assert_eq!(station.packet()[7], 0x77);
    assert_eq!(flow(&mut station).number, 0x77);
}

#[test]
fn the_packets_own_number_is_read() {
    let (_, mut station) = handed_out();
    station.record().pulse.flow.number = 0x76;
    let [old, new] = [5, 0x76].map(|number| packet_for(&mut station, FLOW_CONTROL, number));
    assert_eq!(station.arrival(&old).0, refused(16));
    assert_eq!(station.arrival(&new).0, done(0, 0));
    let (_, mut station) = handed_out();
    station.record().pulse.flow.number = 0x76;
    station.record().pulse.flow.packet.state = lone::AGAIN;
    ticks(&mut station, 1);
    assert_eq!(station.packet()[7], 0x76);
}

/// One more is made on its Ack if it did not state the number of now.
#[test]
fn the_number_stated_is_read() {
    for (stated, state) in [(9, lone::NONE), (8, lone::READY), (0x99, lone::READY)] {
        let (_, mut station) = handed_out();
        station.record().pulse.flow.stated = stated;
        let ack = packet_for(&mut station, FLOW_CONTROL, 5);
        assert_eq!(station.arrival(&ack).0, done(0, 0));
        assert_eq!(flow(&mut station).packet.state, state);
    }
}

#[test]
fn timer_and_tries_are_read() {
    let (_, mut station) = handed_out();
    station.record().pulse.flow.packet.timer = 1;
    assert_eq!(station.tick(), unserved(0));
    assert_eq!(flow(&mut station).packet.state, lone::AGAIN);
    station.record().pulse.flow.packet = Lone {
        state: lone::OUT,
        timer: 1,
        tries: 0,
    };
    assert_eq!(station.tick(), INACTIVE);
    assert_eq!(station.record().pulse, Pulse::default());
}
