//! The check sum: ours, one that is kept bit by bit, one from a table of 256
//! numbers, and one from eight such tables, eight octets at a time.

use std::hint::black_box;

use crate::pair::each;

/// Lengths of what is summed up: nothing, an Ack before its sum, two words, a
/// Data packet of 64 octets before its sum, 1,024 octets, and a Data packet of
/// as many.
pub const LENGTHS: [usize; 6] = [0, 10, 16, 74, 1_024, 1_034];

/// The kinds, in the order of `round`.
pub const KINDS: [&str; 4] = ["ours", "bit by bit", "256", "8 x 256"];

/// Times that it is summed up in a round.
const TIMES: usize = 200;

/// Place n, octet u: what u adds to the register n octets after it left it.
static TABLES: [[u16; 256]; 8] = tables();

const fn tables() -> [[u16; 256]; 8] {
    let mut tables = [[0; 256]; 8];
    let mut octet = 0;
    while octet < 256 {
        let mut register = (octet as u16) << 8;
        let mut bit = 0;
        while bit < 8 * 8 {
            register = (register << 1) ^ ((register >> 15) * 0x1021);
            bit += 1;
            if bit % 8 == 0 {
                tables[bit / 8 - 1][octet] = register;
            }
        }
        octet += 1;
    }
    tables
}

/// The check sum bit by bit. The register is hidden from the optimiser after
/// each bit, which else makes a table, or many bits at once, of the loop.
pub fn bit_by_bit(octets: &[u8]) -> u16 {
    let mut register = 0xFFFF_u16;
    for octet in octets {
        for place in (0..8).rev() {
            let bit = u16::from(octet >> place & 1);
            let leaves = (register >> 15) ^ bit;
            register = black_box((register << 1) ^ (leaves * 0x1021));
        }
    }
    register
}

/// The octets after this register, one at a time.
fn octets_from(register: u16, octets: &[u8]) -> u16 {
    octets.iter().fold(register, |register, &octet| {
        let [upper, _] = register.to_be_bytes();
        (register << 8) ^ TABLES[0][usize::from(upper ^ octet)]
    })
}

/// An octet at a time, from a table of 256 numbers.
pub fn by_table(octets: &[u8]) -> u16 {
    octets_from(0xFFFF, octets)
}

/// Eight octets at a time, from eight tables; those left over by the first.
pub fn by_tables(octets: &[u8]) -> u16 {
    let mut eights = octets.chunks_exact(8);
    let register = eights.by_ref().fold(0xFFFF_u16, |register, eight| {
        let [upper, lower] = register.to_be_bytes();
        TABLES[7][usize::from(eight[0] ^ upper)]
            ^ TABLES[6][usize::from(eight[1] ^ lower)]
            ^ TABLES[5][usize::from(eight[2])]
            ^ TABLES[4][usize::from(eight[3])]
            ^ TABLES[3][usize::from(eight[4])]
            ^ TABLES[2][usize::from(eight[5])]
            ^ TABLES[1][usize::from(eight[6])]
            ^ TABLES[0][usize::from(eight[7])]
    });
    octets_from(register, eights.remainder())
}

/// Nanoseconds of each kind for so many octets.
pub fn round(length: usize) -> [f64; KINDS.len()] {
    let octets: Vec<u8> = (0..length).map(|place| (place * 7) as u8).collect();
    let sums: [fn(&[u8]) -> u16; KINDS.len()] = [proved::crc, bit_by_bit, by_table, by_tables];
    let expected = bit_by_bit(&octets);
    sums.map(|sum| {
        assert_eq!(sum(&octets), expected);
        each(TIMES, || {
            for _ in 0..TIMES {
                black_box(sum(black_box(&octets)));
            }
        })
    })
}

#[cfg(test)]
mod tests {
    use super::*;

    #[test]
    fn numbers_of_document_01() {
        for sum in [bit_by_bit, by_table, by_tables] {
            assert_eq!(sum(b"123456789"), 0x29B1);
            assert_eq!(sum(b""), 0xFFFF);
        }
    }

    #[test]
    fn ours_at_every_length() {
        let octets: Vec<u8> = (0..200_usize).map(|place| (place * 151) as u8).collect();
        for length in 0..=octets.len() {
            let part = &octets[..length];
            let expected = bit_by_bit(part);
            assert_eq!(proved::crc(part), expected, "{length} octets");
            assert_eq!(by_table(part), expected, "{length} octets");
            assert_eq!(by_tables(part), expected, "{length} octets");
        }
    }
}
