//! Input records (document 01, Replay program).

use crate::packet::{Numbers, Packet};
use crate::words::{all_octets, narrow};

/// The kinds by their numbers, from 1.
const KINDS: [&str; 8] = [
    "arrival", "tick", "open", "close", "transfer", "take", "next", "reclaim",
];

/// One record: its kind, and its body field by field.
#[derive(Clone, Debug)]
pub struct Record {
    kind: u16,
    body: Vec<Vec<u8>>,
}

impl Record {
    /// A record of the kind with this name.
    pub fn new(name: &str, body: Vec<Vec<u8>>) -> Record {
        let place = KINDS.iter().position(|kind| *kind == name);
        let kind = place.map_or(0, |place| place as u16 + 1);
        Record { kind, body }
    }

    /// The record of these words, n being the round of a repeat.
    pub fn read(words: &[String], round: u64, numbers: Numbers) -> Result<Record, String> {
        let (name, rest) = words.split_first().ok_or("no kind")?;
        let record = match (name.as_str(), rest.split_first()) {
            ("arrival", Some((first, octets))) if first == "raw" => {
                Record::new(name, vec![all_octets(octets)?])
            }
            ("arrival", _) => Record::new(name, Packet::read(rest, round, numbers)?.fields()),
            ("tick" | "next", _) => Record::new(name, vec![all_octets(rest)?]),
            ("record", Some((kind, octets))) => Record {
                kind: narrow(kind, round)?,
                body: vec![all_octets(octets)?],
            },
            (name, _) if !KINDS.contains(&name) => return Err(format!("no kind '{name}'")),
            (_, None) => Record::new(name, vec![]),
            (_, Some((index, octets))) => {
                Record::new(name, vec![vec![narrow(index, round)?], all_octets(octets)?])
            }
        };
        u16::try_from(record.length()).map_err(|_| "the body is too long")?;
        Ok(record)
    }

    fn length(&self) -> usize {
        self.body.iter().map(Vec::len).sum()
    }

    /// "body length (2 octets, little-endian), kind (2, little-endian)"
    fn head(&self) -> [[u8; 2]; 2] {
        [
            (self.length() as u16).to_le_bytes(),
            self.kind.to_le_bytes(),
        ]
    }

    /// What the program reads.
    pub fn octets(&self) -> Vec<u8> {
        [self.head().concat(), self.body.concat()].concat()
    }

    /// The same in hexadecimal, field by field.
    pub fn shown(&self) -> String {
        let [length, kind] = self.head().map(|field| shown(&field));
        let body = self.body.iter().filter(|field| !field.is_empty());
        let body: Vec<String> = body.map(|field| shown(field)).collect();
        format!("{length} {kind}  {}", body.join(" "))
            .trim_end()
            .into()
    }
}

/// A field in hexadecimal; many equal octets are counted.
fn shown(octets: &[u8]) -> String {
    match octets.first() {
        Some(first) if octets.len() > 4 && octets.iter().all(|octet| octet == first) => {
            format!("{first:02X}*{}", octets.len())
        }
        _ => octets.iter().map(|octet| format!("{octet:02X}")).collect(),
    }
}

#[cfg(test)]
mod tests {
    use super::*;
    use crate::packet::NUMBERS;
    use crate::words::split;

    fn read(line: &str) -> Result<Record, String> {
        Record::read(&split(line), 0, NUMBERS)
    }

    fn check(line: &str, octets: &[u8], shown: &str) {
        let record = read(line).expect("a record");
        assert_eq!(record.octets(), octets);
        assert_eq!(record.shown(), shown);
    }

    /// "The trace 00 00 02 00, 02 00 05 00 00 41"
    #[test]
    fn the_example_of_document_01() {
        check("tick", &[0, 0, 2, 0], "0000 0200");
        check("transfer 0 41", &[2, 0, 5, 0, 0, 0x41], "0200 0500  00 41");
    }

    #[test]
    fn every_kind_has_its_number() {
        let kinds = KINDS.map(|name| Record::new(name, vec![]).octets());
        assert_eq!(kinds, [1, 2, 3, 4, 5, 6, 7, 8].map(|kind| [0, 0, kind, 0]));
    }

    #[test]
    fn records_of_other_sorts() {
        check("record 258 FF", &[1, 0, 2, 1, 255], "0100 0201  FF");
        check("close", &[0, 0, 4, 0], "0000 0400");
        check("take 1", &[1, 0, 6, 0, 1], "0100 0600  01");
        check(
            "arrival raw 07*5",
            &[5, 0, 1, 0, 7, 7, 7, 7, 7],
            "0500 0100  07*5",
        );
        assert!(read("tock").is_err() && read("take 256").is_err());
        assert!(read("transfer 0 00*65535").is_err());
    }
}
