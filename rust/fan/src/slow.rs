//! The slow subscriber (document 02, A5): a station that takes events more slowly
//! than the host publishes them. One script is played twice, without Flow Control
//! and with it, and what went over the link is counted.

mod counted;
mod report;
mod run;

use crate::ends::Lent;
use crate::options::Options;
use counted::Counted;
use proved::Limits;

/// Slots of the host: it holds all that the station has no room for.
const HOST_SLOTS: usize = 16;

/// Slots of the station: as few as the window allows, so that they get full.
const STATION_SLOTS: usize = 4;

/// Of either end. Resends into full slots use retries up, as lost packets do: there
/// are so many that no end goes inactive of slowness alone. The timeout is longer
/// than there and back, so that nothing is resent whose Ack is under way.
fn limits(slots: usize, flow: u16) -> Limits {
    Limits {
        window: 4,
        slots,
        payload: 32,
        segments: 1,
        timeout: 6,
        closing: 40,
        retries: 60,
        interval: 0,
        flow,
        spare: 0,
        lead: 0,
    }
}

/// Plays the script twice: the table and what it means, and whether it is as it
/// should be.
pub fn story(options: Options) -> (String, bool) {
    let [without, with] = [0, 1].map(|flow| played(options, flow));
    report::of(options, &without, &with)
}

fn played(options: Options, flow: u16) -> Counted {
    let mut of_host = Lent::host(limits(HOST_SLOTS, flow));
    let mut of_station = Lent::station(limits(STATION_SLOTS, flow));
    run::Run::new(options, of_host.node(), of_station.node()).play()
}
