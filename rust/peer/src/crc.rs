//! The check sum of a packet (000, 4.2.5; 001, 4.3; document 01, The packet).

/// x^16 + x^12 + x^5 + 1, the x^16 being the bit that leaves the register
/// (000, 4.2.5).
const POLYNOMIAL: u16 = 0x1021;

/// All the initial values are 1 (000, 4.2.5).
const START: u16 = 0xFFFF;

/// The CRC over these octets. Document 01 settles what 000 leaves open: the
/// top bit of each octet first, and no inversion at the end.
pub fn crc(octets: &[u8]) -> u16 {
    octets.iter().fold(START, |register, &octet| {
        (0..8).rev().fold(register, |register, place| {
            step(register, octet >> place & 1 == 1)
        })
    })
}

/// The register after one more bit.
fn step(register: u16, bit: bool) -> u16 {
    let leaving = register & 0x8000 != 0;
    let shifted = register << 1;
    if leaving != bit {
        shifted ^ POLYNOMIAL
    } else {
        shifted
    }
}

#[cfg(test)]
mod tests {
    use super::crc;

    #[test]
    fn numbers_of_document_01() {
        assert_eq!(crc(b"123456789"), 0x29B1);
        assert_eq!(crc(b""), 0xFFFF);
    }

    #[test]
    fn octets_followed_by_their_crc_leave_nothing() {
        assert_eq!(crc(b"123456789\x29\xB1"), 0);
    }

    #[test]
    fn every_changed_bit_shows() {
        let octets = *b"123456789";
        for place in 0..8 * octets.len() {
            let mut changed = octets;
            changed[place / 8] ^= 1 << (place % 8);
            assert_ne!(crc(&changed), crc(&octets), "bit {place}");
        }
    }
}
