//! Runs by chance: one opening over links that lose and keep the order, moods in which
//! one end or the other hurries, and at the end a good link.

use std::collections::VecDeque;

use link::Noise;
use peer::node::Node;
use peer::packet::kind::{DATA, FLOW_CONTROL};
use peer::settings::{Direction, Settings};
use peer::state::State;

use crate::calls::{new_node, ADDRESSES};
use crate::traps::SENDING;

/// What may happen next: a transfer, a hand-out of each node, an arrival at each, a
/// take, a tick of each.
const STEPS: usize = 8;

/// A packet under way, and of which Flow Control packet of the receiver it is, or the
/// Ack: their numbers need not tell them apart.
type Flight = (Vec<u8>, Option<usize>);

/// A sender, a receiver, and the links to each.
struct Run {
    nodes: [Node; 2],
    links: [VecDeque<Flight>; 2],
    noise: Noise,
    /// Packets lost, in percent.
    loss: usize,
    /// The receiver's timeout outlasts the way there and back: it does not tick while
    /// a Flow Control packet or its Ack is under way.
    patient: bool,
    longest: usize,
    accepted: VecDeque<Vec<u8>>,
    confirmed: usize,
    /// Data that was answered 8.
    full: usize,
    /// How many Flow Control packets there were, resends apart.
    flow_controls: usize,
    /// An Ack of one was taken for that of another.
    mistaken: bool,
}

impl Run {
    fn new(settings: Settings, patient: bool, seed: u64) -> Run {
        let mut noise = Noise::new(seed);
        let receiving = Settings {
            direction: Direction::Receiving,
            remote: ADDRESSES[0],
            ..settings
        };
        let mut nodes = [
            new_node(0, &[settings], &mut noise),
            new_node(1, &[receiving], &mut noise),
        ];
        for node in &mut nodes {
            assert_eq!(node.open(0).number, 0);
        }
        let mut run = Run {
            nodes,
            links: [VecDeque::new(), VecDeque::new()],
            loss: noise.one_of(&[0, 3, 10, 30]),
            patient,
            noise,
            longest: (settings.most_payload * settings.most_segments) as usize,
            accepted: VecDeque::new(),
            confirmed: 0,
            full: 0,
            flow_controls: 0,
            mistaken: false,
        };
        while run.nodes[0].state(0) != Some(State::Open) {
            for step in [1, 2, 3, 4, 6] {
                run.step(step, &mut 0);
            }
        }
        run
    }

    /// A packet of a node goes on the link to the other, or is lost.
    fn send(&mut self, from: usize, packet: &[u8], of: Option<usize>) {
        if !self.noise.percent(self.loss) {
            self.links[1 - from].push_back((packet.to_vec(), of));
        }
    }

    /// Whether the node had a packet to hand out.
    fn hand_out(&mut self, node: usize) -> bool {
        let mut out = [0; 64];
        let first = self.nodes[node].sight(0).unwrap().flow_first.is_none();
        let answer = self.nodes[node].next_packet(&mut out);
        if answer.number == 0 {
            let is_one = out[2] & 0b111 == FLOW_CONTROL;
            self.flow_controls += usize::from(is_one && first);
            let of = is_one.then_some(self.flow_controls);
            self.send(node, &out[..answer.length], of);
        }
        answer.number == 0
    }

    /// Whether a packet was on the link to the node.
    fn deliver(&mut self, node: usize) -> bool {
        let Some((packet, of)) = self.links[node].pop_front() else {
            return false;
        };
        let mut reply = [0; 64];
        let answer = self.nodes[node].arrival(&packet, &mut reply);
        assert!([0, 5, 8, 15, 16].contains(&answer.number), "{answer:?}");
        self.full += usize::from(answer.number == 8);
        assert!(answer.number != 8 || packet[2] & 0b111 == DATA);
        self.confirmed += answer.confirmed;
        if answer.octets() > 0 {
            self.send(node, &reply[..answer.length], of);
        } else if answer.number == 0 && of.is_some() {
            self.mistaken |= of != Some(self.flow_controls);
        }
        true
    }

    fn transfer(&mut self) {
        let length = self.noise.below(self.longest + 1);
        let unit = self.noise.octets(length);
        if self.nodes[0].transfer(0, &unit).number == 0 {
            self.accepted.push_back(unit);
        }
    }

    /// Whether there was a unit to take: the next of those accepted.
    fn take(&mut self, taken: &mut usize) -> bool {
        let mut out = [0; 64];
        let answer = self.nodes[1].take(0, &mut out);
        if answer.number == 0 {
            assert_eq!(out[..answer.length], self.accepted[*taken]);
            *taken += 1;
        }
        answer.number == 0
    }

    /// Whether a Flow Control packet or its Ack is.
    fn is_under_way(&self) -> bool {
        self.links.iter().flatten().any(|(_, of)| of.is_some())
    }

    fn step(&mut self, step: usize, taken: &mut usize) {
        match step {
            0 => self.transfer(),
            1 | 2 => _ = self.hand_out(step - 1),
            3 | 4 => _ = self.deliver(step - 3),
            5 => _ = self.take(taken),
            7 if self.patient && self.is_under_way() => {}
            _ => assert_eq!(self.nodes[step - 6].tick().number, 0),
        }
    }

    /// So many moods: in each the steps have weights of their own, and some are left
    /// out.
    fn moods(&mut self, count: usize, taken: &mut usize) {
        for _ in 0..count {
            let mut weights = [0; STEPS].map(|_| self.noise.one_of(&[0, 1, 4, 20]));
            weights[6..].fill(usize::from(self.noise.percent(50)));
            for _ in 0..self.noise.below(400) {
                let sum: usize = weights.iter().sum();
                let mut chosen = self.noise.below(sum.max(1));
                let found = weights.iter().position(|&weight| {
                    let hit = chosen < weight;
                    chosen = chosen.saturating_sub(weight);
                    hit
                });
                self.step(found.unwrap_or(0), taken);
            }
        }
    }

    /// Whether everything is confirmed and taken once the link is good and takes go on.
    fn settles(&mut self, taken: &mut usize) -> bool {
        self.loss = 0;
        for _ in 0..200 {
            let mut moved = true;
            while moved {
                moved = false;
                for node in [0, 1] {
                    moved |= self.hand_out(node) | self.deliver(node);
                }
                moved |= self.take(taken);
            }
            if (self.confirmed, *taken) == (self.accepted.len(), self.accepted.len()) {
                return true;
            }
            for node in &mut self.nodes {
                assert_eq!(node.tick().number, 0);
            }
        }
        false
    }
}

/// Settings by chance, with this window.
fn settings(window: u32, flow: u32, noise: &mut Noise) -> Settings {
    let slots = match noise.below(3) {
        0 => window,
        1 => (window + noise.below(8) as u32).min(128),
        _ => window + noise.below(129 - window as usize) as u32,
    };
    Settings {
        window,
        slots,
        most_payload: 1 + noise.below(3) as u32,
        most_segments: 1 + noise.below(slots.min(8) as usize) as u32,
        timeout: noise.one_of(&[1, 2, 5, 20]),
        retries: 255,
        interval: noise.one_of(&[0, 0, 3]),
        flow,
        ..SENDING
    }
}

/// What came of many runs.
#[derive(Debug, Default)]
struct Outcome {
    /// How often Data was answered 8.
    full: usize,
    /// The Flow Control packets, resends apart.
    flow_controls: usize,
    /// The highest window start.
    start: u64,
    /// The runs in which an Ack of a Flow Control packet was taken for that of another,
    /// and those that stood still in the end, which are among them.
    mistaken: usize,
    still: usize,
}

/// So many runs with every window.
fn runs(flow: u32, patient: bool, count: u64) -> Outcome {
    let mut outcome = Outcome::default();
    for window in [1, 2, 4, 8, 16, 32, 64, 128] {
        for seed in 0..count {
            let mut noise = Noise::new(1_000 * u64::from(window) + seed);
            let settings = settings(window, flow, &mut noise);
            let mut run = Run::new(settings, patient, noise.number());
            let mut taken = 0;
            run.moods(90, &mut taken);
            let settles = run.settles(&mut taken);
            assert!(settles || run.mistaken, "{window}, {seed}: stands still");
            let states = [0, 1].map(|node: usize| run.nodes[node].state(0));
            assert_eq!(states, [Some(State::Open); 2]);
            let start = run.nodes[0].sight(0).and_then(|sight| sight.start);
            outcome.start = outcome.start.max(start.expect("OPEN"));
            outcome.full += run.full;
            outcome.flow_controls += run.flow_controls;
            outcome.mistaken += usize::from(run.mistaken);
            outcome.still += usize::from(!settles);
        }
    }
    outcome
}

/// "with k at most 64, on a link that loses but keeps order, answer 8 never arises
/// between two ends that obey", and at 128 neither. None stands still but where an Ack
/// was taken for that of another Flow Control packet of the same number, which 000
/// allows, and of those few.
#[test]
fn no_data_gets_8() {
    let outcome = runs(1, false, 40);
    assert_eq!(outcome.full, 0);
    assert!(outcome.flow_controls > 1_000, "{outcome:?}");
    assert!(outcome.start > 1_000, "{outcome:?}");
    assert!(10 * outcome.still < outcome.mistaken, "{outcome:?}");
}

/// Where the timeout outlasts the way there and back no Ack is mistaken, and everything
/// is confirmed.
#[test]
fn none_stands_still() {
    let outcome = runs(1, true, 40);
    let Outcome {
        full,
        mistaken,
        still,
        ..
    } = outcome;
    assert_eq!((full, mistaken, still), (0, 0, 0));
    assert!(outcome.flow_controls > 1_000, "{outcome:?}");
}

/// Without Flow Control the same runs meet 8.
#[test]
fn without_it_data_gets_8() {
    let outcome = runs(0, false, 20);
    assert!(outcome.full > 100, "{outcome:?}");
    assert_eq!((outcome.flow_controls, outcome.still), (0, 0));
}
