//! A link that loses, repeats, delays, reorders and damages packets.

use crate::Noise;

/// How bad a link is, in percent, and how late a packet may be.
#[derive(Clone, Copy, Debug)]
pub struct Weather {
    /// Packets lost.
    pub loss: usize,
    /// Packets that come twice.
    pub repeat: usize,
    /// Packets damaged.
    pub damage: usize,
    /// Rounds by which a packet may be overtaken; 0 keeps the order.
    pub lateness: usize,
    /// Repeats that come after very many rounds.
    pub forgotten: usize,
}

/// Nothing happens to a packet.
pub const FAIR: Weather = Weather {
    loss: 0,
    repeat: 0,
    damage: 0,
    lateness: 0,
    forgotten: 0,
};

/// What a link does to a packet that it damages.
pub type Damage = fn(&mut Vec<u8>, &mut Noise);

/// Changes one bit: any reader notices that.
#[allow(clippy::ptr_arg)] // as the type has it
pub fn one_bit(octets: &mut Vec<u8>, noise: &mut Noise) {
    let bit = noise.below(8 * octets.len());
    octets[bit / 8] ^= 1 << (bit % 8);
}

/// A packet under way. The segment is what its sender meant, or acknowledged; the
/// octets have but the number.
#[derive(Clone, Debug)]
pub struct Flight {
    /// The packet.
    pub octets: Vec<u8>,
    /// Its channel number, as it was sent.
    pub channel: u16,
    /// The segment, if it was noted.
    pub segment: Option<u64>,
    /// Whether the link damaged it.
    pub damaged: bool,
    due: usize,
}

/// The packets under way in one direction, and how many were lost.
#[derive(Clone, Debug)]
pub struct Link {
    /// Packets that the link lost.
    pub lost: u64,
    damage: Damage,
    flights: Vec<Flight>,
    now: usize,
}

impl Link {
    /// A link with nothing on it, which damages packets in this way.
    pub fn new(damage: Damage) -> Link {
        Link {
            lost: 0,
            damage,
            flights: Vec::new(),
            now: 0,
        }
    }

    /// Puts a packet on the link, no times or up to three.
    pub fn send(
        &mut self,
        octets: &[u8],
        segment: Option<u64>,
        weather: Weather,
        noise: &mut Noise,
    ) {
        let flight = Flight {
            octets: octets.to_vec(),
            channel: u16::from_be_bytes([octets[5], octets[6]]),
            segment,
            damaged: false,
            due: self.now,
        };
        let late = noise.below(weather.lateness + 1);
        if noise.percent(weather.loss) {
            self.lost += 1;
        } else {
            self.put(flight.clone(), late, weather, noise);
        }
        if noise.percent(weather.repeat) {
            let again = late + noise.below(weather.lateness + 1);
            self.put(flight.clone(), again, weather, noise);
        }
        if noise.percent(weather.forgotten) {
            let rounds = noise.below(600);
            self.put(flight, rounds, weather, noise);
        }
    }

    fn put(&mut self, mut flight: Flight, late: usize, weather: Weather, noise: &mut Noise) {
        flight.due += late;
        flight.damaged = noise.percent(weather.damage);
        if flight.damaged {
            (self.damage)(&mut flight.octets, noise);
        }
        self.flights.push(flight);
    }

    /// A round later.
    pub fn pass(&mut self) {
        self.now += 1;
    }

    /// The oldest packet that is due.
    pub fn deliver(&mut self) -> Option<Flight> {
        let due = |flight: &Flight| flight.due <= self.now;
        let place = self.flights.iter().position(due)?;
        Some(self.flights.remove(place))
    }

    /// Drops what is under way for a channel: no packet outlives its opening (the
    /// lateness premise).
    pub fn flush(&mut self, channel: u16) {
        self.flights.retain(|flight| flight.channel != channel);
    }
}
