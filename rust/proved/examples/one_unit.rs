//! Two nodes, a hall's host and a cooling station, each with one channel: the host
//! publishes a unit, the station takes it, and the host is told that it is
//! confirmed. What is a link between two machines elsewhere is here a buffer.

use proved::record::{direction, LINES, PROTOCOL};
use proved::{storage, Addresses, Answer, Channel, Limits, Node, NodeTable, Outcome};
use proved::{Refusal, Settings};

const HOST: u8 = 64;
const STATION: u8 = 65;

/// Of one channel between the two, seen from one end.
fn settings(remote: u8, direction: u8) -> [Settings; 1] {
    let addresses = Addresses {
        channel: 7,
        remote,
        direction,
        ..Addresses::default()
    };
    let limits = Limits {
        window: 4,
        slots: 8,
        payload: 16,
        segments: 4,
        timeout: 10,
        closing: 50,
        retries: 2,
        interval: 0,
        flow: 0,
        spare: 0,
        lead: 0,
    };
    [Settings { addresses, limits }]
}

fn node(address: u8) -> Node {
    let protocol = PROTOCOL;
    Node { address, protocol }
}

/// One packet from one end to the other, and the ack back. Gives how many units
/// the ack confirmed.
fn exchange(from: &mut NodeTable, to: &mut NodeTable, what: &str) -> Result<usize, Outcome> {
    let (mut packet, mut ack) = ([0; 28], [0; 12]);
    let (length, _) = done(from.next_packet(&mut packet))?;
    let (reply, _) = done(to.arrival(&packet[..length], &mut ack))?;
    let (_, confirmed) = done(from.arrival(&ack[..reply], &mut packet))?;
    println!("{what}: {length} octets over the link, acknowledged");
    Ok(confirmed)
}

/// The length written and the units confirmed, or the answer that was not meant.
fn done(answer: Answer) -> Result<(usize, usize), Outcome> {
    match answer.outcome {
        Outcome::Done { length, confirmed } => Ok((length, confirmed)),
        other => Err(other),
    }
}

fn play(host: &mut NodeTable, station: &mut NodeTable) -> Result<(), Outcome> {
    done(host.open(0))?;
    done(station.open(0))?;
    exchange(host, station, "Open")?;

    let event = "pump fan 3 stopped";
    done(host.transfer(0, event.as_bytes()))?;
    println!("the host publishes '{event}'");
    for segment in ["first segment", "last segment"] {
        let confirmed = exchange(host, station, segment)?;
        println!("units confirmed: {confirmed}");
    }

    let mut unit = [0; 64];
    let (length, _) = done(station.take(0, &mut unit))?;
    let taken = String::from_utf8_lossy(&unit[..length]);
    println!("the station takes '{taken}'");

    done(host.close(0))?;
    exchange(host, station, "Close")?;
    match host.reclaim(0, &mut unit).outcome {
        Outcome::Refused(Refusal::Nothing) => println!("nothing is left to reclaim: answer 12"),
        other => return Err(other),
    }
    Ok(())
}

fn main() -> Result<(), Outcome> {
    let of_host = settings(STATION, direction::SENDS);
    let of_station = settings(HOST, direction::RECEIVES);
    let (octets, lengths) = storage(&of_host);
    // What each node lends; all of it outlives the two.
    let mut tables = [[Channel::blank()]; 2];
    let mut memories = [vec![0; octets], vec![0; octets]];
    let mut slots = [vec![0; lengths], vec![0; lengths]];
    let [mut lines0, mut lines1] = [[0; LINES]; 2];
    let [t0, t1] = &mut tables;
    let [m0, m1] = &mut memories;
    let [l0, l1] = &mut slots;
    let host = NodeTable::settings(node(HOST), t0, m0, l0, &mut lines0, &of_host);
    let station = NodeTable::settings(node(STATION), t1, m1, l1, &mut lines1, &of_station);
    let mut host = host.map_err(Outcome::Refused)?;
    play(&mut host, &mut station.map_err(Outcome::Refused)?)
}
