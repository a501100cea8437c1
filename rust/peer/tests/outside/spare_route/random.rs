//! Random calls of senders with spares: "accepted = confirmed ++ reclaimed ++ held per
//! channel, a moved unit being in reclaimed of the first and, with leading 1, in
//! accepted of the spare".

use std::collections::BTreeSet;

use link::{Noise, Units};
use peer::packet::kind::{CONTROL_ACK, DATA, DATA_ACK};
use peer::settings::Settings;

use super::{again, route, Routes};
use crate::calls::packet;

/// The channels of a table.
const COUNT: usize = 4;

/// A table of small channels, most of which name a spare.
fn table(noise: &mut Noise) -> Vec<Settings> {
    let spares: Vec<usize> = (0..COUNT)
        .map(|index| match noise.percent(75) {
            true => 1 + (index + 1 + noise.below(COUNT - 1)) % COUNT,
            false => 0,
        })
        .collect();
    let record = |index: usize| {
        let window = noise.one_of(&[1, 2, 4]);
        let slots = window + noise.below(6) as u32;
        let longest = noise.below(slots as usize).max(noise.below(slots as usize));
        let on_pair = spares[index] > 0 || spares.contains(&(index + 1));
        Settings {
            lead: u32::from(on_pair),
            window,
            slots,
            most_payload: 1 + noise.below(9) as u32,
            most_segments: 1 + longest as u32,
            timeout: 1 + noise.below(3) as u32,
            retries: noise.below(3) as u32,
            ..route(index as u16, spares[index] as u32)
        }
    };
    (0..COUNT).map(record).collect()
}

/// What the moves of all runs came to.
#[derive(Default)]
struct Tally {
    answers: BTreeSet<u8>,
    moved: usize,
    /// Units that had been moved before.
    moved_again: usize,
    /// Moves that left some units held.
    in_part: usize,
}

/// A node, and what a bystander knows of the units of its channels.
struct Player {
    routes: Routes,
    units: Vec<Units>,
    noise: Noise,
}

impl Player {
    fn new(seed: u64) -> Player {
        let mut noise = Noise::new(seed);
        Player {
            routes: Routes::new(&table(&mut noise)),
            units: vec![Units::default(); COUNT],
            noise,
        }
    }

    /// One random call.
    fn call(&mut self, tally: &mut Tally) {
        let index = self.noise.below(COUNT);
        match self.noise.below(100) {
            0..=11 => self.open(index),
            12..=15 => _ = self.routes.node.close(index),
            16..=39 => self.transfer(index),
            40..=59 => self.move_units(index, tally),
            60..=61 => self.reclaim(index),
            62..=63 => _ = self.routes.node.tick(),
            _ => self.exchange(),
        }
    }

    /// What is held is what was accepted and neither confirmed nor reclaimed.
    fn check(&self) {
        for (index, units) in self.units.iter().enumerate() {
            assert_eq!(self.routes.held(index), units.held());
        }
    }

    fn open(&mut self, index: usize) {
        if self.routes.node.open(index).number == 0 {
            self.units[index].open_sender();
        }
    }

    fn transfer(&mut self, index: usize) {
        let Settings { lead, .. } = self.routes.table[index];
        let length = self.noise.below(25).min(self.noise.below(25));
        let unit = self.noise.octets(length);
        if self.routes.transfer(index, &unit) == 0 {
            let filed = [&[0][..lead as usize], &unit].concat();
            self.units[index].opening().accepted.push(filed);
        }
    }

    /// Reclaims all, so that the channel can be opened.
    fn reclaim(&mut self, index: usize) {
        let mut out = [0; 128];
        loop {
            let answer = self.routes.node.reclaim(index, &mut out);
            if answer.number != 0 {
                return;
            }
            self.units[index].reclaim(&out[..answer.length]);
        }
    }

    fn move_units(&mut self, index: usize, tally: &mut Tally) {
        let (number, count) = self.routes.moved(index);
        for _ in 0..count {
            let unit = self.units[index].held()[0].clone();
            self.units[index].reclaim(&unit);
            let spare = self.routes.table[index].spare as usize - 1;
            self.units[spare].opening().accepted.push(again(&unit));
            tally.moved_again += usize::from(unit[0] == 1);
        }
        tally.answers.insert(number);
        tally.moved += count;
        let left = !self.units[index].held().is_empty();
        tally.in_part += usize::from(number == 0 && left);
    }

    /// The next packet goes out, and its Ack mostly comes back.
    fn exchange(&mut self) {
        let mut out = [0; 64];
        let answer = self.routes.node.next_packet(&mut out);
        if answer.number != 0 || self.noise.percent(40) {
            return;
        }
        let index = answer.index.expect("a channel");
        let kind = match out[2] & 0b111 {
            DATA => DATA_ACK,
            _ => CONTROL_ACK,
        };
        let ack = packet(0, index as u16, kind, out[7]);
        let answer = self.routes.node.arrival(&ack, &mut [0; 12]);
        assert_eq!((answer.number, answer.index), (0, Some(index)));
        if answer.confirmed > 0 {
            self.units[index].opening().confirmed += answer.confirmed;
        }
    }
}

/// Every answer of a move is given; units are moved twice, and in part.
#[test]
fn no_unit_is_on_neither_list_or_on_both() {
    let mut tally = Tally::default();
    for seed in 0..60 {
        let mut player = Player::new(13_000 + seed);
        for _ in 0..500 {
            for _ in 0..20 {
                player.call(&mut tally);
            }
            player.check();
        }
    }
    assert_eq!(tally.answers, BTreeSet::from([0, 5, 6, 7, 12, 14]));
    let seen = [tally.moved, tally.moved_again, tally.in_part];
    assert!(seen.iter().all(|&count| count > 100), "{seen:?}");
    println!("moved {}, again {}, in part {}", seen[0], seen[1], seen[2]);
}
