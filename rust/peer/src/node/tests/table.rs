//! Settings of a whole table, and the test for 13.

use super::*;

/// The answer numbers of all other calls.
pub(super) fn all_calls(node: &mut Node) -> [u8; 10] {
    let out = &mut [0; 64];
    [
        node.open(0),
        node.close(0),
        node.transfer(0, b"a"),
        node.would_transfer(0, 1),
        node.take(0, out),
        node.reclaim(0, out),
        node.tick(),
        node.arrival(&alone(OPEN, 0), out),
        node.arrival(&[], &mut []),
        node.next_packet(out),
    ]
    .map(|answer| {
        assert_eq!(answer.index, None);
        answer.number
    })
}

/// "gives 13 before any other test"
#[test]
fn without_settings_every_call_gives_13() {
    let mut node = unset_node(&[SENDING]);
    let before = node.clone();
    assert_eq!(all_calls(&mut node), [13; 10]);
    assert_eq!(node.open(7).number, 13);
    assert_eq!(node.state(0), None);
    assert_eq!(node, before);
}

/// "A table of 0 or over 16 records, lent memory of another size [..] gives
/// 13"
#[test]
fn a_table_or_storage_of_another_size() {
    let table = [sending(0), receiving(1)];
    let (octets, lengths) = storage(&table);
    let cases = [
        (2, octets, lengths, 0),
        (1, octets, lengths, 13),
        (3, octets, lengths, 13),
        (2, octets - 1, lengths, 13),
        (2, octets + 1, lengths, 13),
        (2, octets, lengths - 1, 13),
        (2, octets, lengths + 1, 13),
    ];
    for (records, octets, lengths, number) in cases {
        let (memory, lengths) = (vec![NOISE; octets], vec![0; lengths]);
        let mut node = Node::new(HERE, records, memory, lengths, vec![NOISE; LINE_OCTETS]);
        assert_eq!(node.settings(&table).number, number);
        assert_eq!(node.tick().number, number);
    }
    let mut none = Node::new(HERE, 0, vec![], vec![], vec![0; LINE_OCTETS]);
    assert_eq!(none.settings(&[]).number, 13);
    assert_eq!(all_calls(&mut none), [13; 10]);
    let many: Vec<Settings> = (0..17).map(sending).collect();
    let mut node = unset_node(&many);
    assert_eq!(node.settings(&many).number, 13);
    assert_eq!(unset_node(&many[1..]).settings(&many[1..]).number, 0);
}

/// A refused settings call changes no record: the old ones go on.
#[test]
fn refused_settings_leave_everything() {
    let mut rig = Rig::sending(SENDING);
    rig.transfer(0, b"a");
    let before = rig.node.clone();
    let bad = Settings {
        window: 3,
        ..SENDING
    };
    let answer = rig.node.settings(&[bad]);
    assert_eq!((answer.number, answer.length), (13, 0));
    assert_eq!(rig.node, before);
    assert_eq!(rig.next(), Ok((DATA, 1)));
}

/// "that call reads no old record, makes every channel CLOSED and empty, and
/// alone may drop held units"; no lent octet or length is written.
#[test]
fn settings_close_and_empty_every_channel() {
    let mut rig = Rig::new(&[SENDING, RECEIVING]);
    rig.open(0);
    rig.next().unwrap();
    rig.arrive(&alone(CONTROL_ACK, 0));
    rig.transfer(0, b"held");
    rig.open(1);
    rig.arrive(&alone(OPEN, 0));
    rig.arrive(&whole(1, b"untaken"));
    let (memory, lengths) = (rig.node.memory().to_vec(), rig.node.lengths().to_vec());
    assert_eq!(rig.node.settings(&[RECEIVING, SENDING]).number, 0);
    assert_eq!(rig.node.memory(), memory);
    assert_eq!(rig.node.lengths(), lengths);
    for index in [0, 1] {
        assert_eq!(rig.node.state(index), Some(State::Closed));
        assert_eq!(rig.node.reason(index), Some(Reason::None));
    }
    assert_eq!(rig.node.direction(0), Some(Direction::Receiving));
    assert_eq!(rig.node.direction(1), Some(Direction::Sending));
    assert_eq!(rig.take(0), Err(12));
    assert_eq!(rig.reclaim(1), Err(12));
    assert_eq!([rig.open(0), rig.open(1)], [0, 0]);
}

/// New settings clear the reason.
#[test]
fn settings_clear_the_reason() {
    let mut rig = Rig::receiving(RECEIVING);
    rig.arrive(&alone(CLOSE, 1));
    assert_eq!(rig.node.reason(0), Some(Reason::ControlNumber));
    rig.node.settings(&[RECEIVING]);
    assert_eq!(rig.node.reason(0), Some(Reason::None));
}

/// "A node's memories lie one after another in table order", and so do the
/// lengths.
#[test]
fn memories_lie_in_table_order() {
    let small = Settings {
        slots: 5,
        most_payload: 3,
        ..sending(0)
    };
    let middle = Settings {
        slots: 6,
        most_payload: 2,
        ..receiving(1)
    };
    let last = Settings {
        slots: 4,
        most_payload: 7,
        ..sending(2)
    };
    let mut rig = Rig::new(&[small, middle, last]);
    open_all(&mut rig, &[0, 2]);
    rig.transfer(2, b"last");
    rig.transfer(0, b"small");
    rig.open(1);
    rig.arrive(&packet_for(1, OPEN, 0));
    let fields = Fields {
        kind: DATA,
        number: 2,
        ..THERE.header(HERE.own, 1)
    };
    rig.arrive(&written(&fields, b"m"));
    let mut memory = vec![NOISE; 15 + 12 + 28];
    memory[..5].copy_from_slice(b"small");
    memory[15 + 2] = b'm';
    memory[27..31].copy_from_slice(b"last");
    let mut lengths = vec![NOISE_LENGTH; 15];
    lengths[..2].copy_from_slice(&[3, 2]);
    lengths[5 + 1] = 1;
    lengths[11] = 4;
    assert_eq!(rig.node.memory(), memory);
    assert_eq!(rig.node.lengths(), lengths);
}
