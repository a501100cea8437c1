use super::*;

/// Bits 0-3 of Address Control hold the length: 15 and no more (000,
/// 4.2.3.8.3).
#[test]
fn up_to_15_octets() {
    for count in 0..=MOST_PREFIX {
        let octets = &[7; MOST_PREFIX][..count];
        let prefix = Prefix::new(octets).unwrap();
        assert_eq!(prefix.said(), octets);
        assert!(prefix.in_range());
    }
    assert_eq!(Prefix::new(&[]), Some(Prefix::NONE));
    assert_eq!(Prefix::new(&[7; 16]), None);
}

/// A length over 15, and an octet past the length that is not 0.
#[test]
fn out_of_range() {
    let full = Prefix::new(&[7; 15]).unwrap();
    for length in 0..=255 {
        let changed = Prefix { length, ..full };
        assert_eq!(changed.in_range(), length == 15);
        let empty = Prefix {
            length,
            ..Prefix::NONE
        };
        assert_eq!(empty.in_range(), length <= 15);
    }
}

/// An octet of 0 within the prefix is an octet of it.
#[test]
fn a_prefix_of_zeros_is_not_none() {
    let zeros = Prefix::new(&[0; 3]).unwrap();
    assert!(zeros.in_range());
    assert_ne!(zeros, Prefix::NONE);
}
