//! The leading octet of a unit on a pair (document 02, A13).

use super::*;

/// Channel 0 with the spare channel 1, which has another number; channel 0 is OPEN.
fn pair() -> Rig {
    let first = Settings {
        spare: 2,
        lead: 1,
        ..SENDING
    };
    let spare = Settings {
        channel: SENDING.channel + 1,
        lead: 1,
        ..SENDING
    };
    let mut rig = Rig::new(&[first, spare]);
    rig.open(0);
    rig.next().unwrap();
    rig.arrive(&alone(CONTROL_ACK, 0));
    rig
}

/// "Each has a leading octet on both routes: 0": the octet is filed, sent and
/// reclaimed with the unit.
#[test]
fn a_unit_has_a_leading_octet() {
    let mut rig = pair();
    assert_eq!(rig.transfer(0, b"fan"), 0);
    assert_eq!(rig.transfer(0, b""), 0);
    shut(&mut rig);
    assert_eq!(rig.reclaim(0), Ok(b"\0fan".to_vec()));
    assert_eq!(rig.reclaim(0), Ok(b"\0".to_vec()));
    assert_eq!(rig.reclaim(0), Err(12));
}

/// "Answer 6 comes one octet sooner on such pairs."
#[test]
fn six_comes_one_octet_sooner() {
    let most = (SENDING.most_payload * SENDING.most_segments) as usize;
    let mut rig = pair();
    for octets in [most, most + 1, usize::MAX] {
        assert_eq!(rig.node.would_transfer(0, octets).number, 6);
    }
    assert_eq!(rig.transfer(0, &vec![7; most]), 6);
    assert_eq!(rig.transfer(0, &vec![7; most - 1]), 0);
    shut(&mut rig);
    let mut filed = vec![7; most];
    filed[0] = 0;
    assert_eq!(rig.reclaim(0), Ok(filed));
}
