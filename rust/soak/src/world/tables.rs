//! The tables of both nodes, and the accounts of their channels.

use link::{Noise, Place, Units};
use proved::record::{direction, Addresses, Limits, Prefix, Settings};

use super::ADDRESSES;
use crate::account::Account;

/// For each channel the prefixes that the packets of either node have: the same
/// from the same seed, and often none.
pub(super) fn prefixes_of(channels: usize, seed: u64) -> Vec<[Prefix; 2]> {
    let mut noise = Noise::new(!seed);
    let mut prefix = || Prefix::of(&noise.prefix()).expect("not over 15");
    (0..channels).map(|_| [prefix(), prefix()]).collect()
}

/// The table of a node. In the other's it is the other way round; a channel's
/// number is its place in the list.
pub(super) fn table_of(
    node: usize,
    channels: &[(usize, Limits)],
    prefixes: &[[Prefix; 2]],
) -> Vec<Settings> {
    let directed = |(channel, &(sender, limits)): (usize, &(usize, Limits))| Settings {
        addresses: Addresses {
            channel: channel as u16,
            remote: ADDRESSES[1 - node],
            direction: if sender == node {
                direction::SENDS
            } else {
                direction::RECEIVES
            },
            remote_prefix: prefixes[channel][1 - node],
            own_prefix: prefixes[channel][node],
        },
        limits,
    };
    let mut table: Vec<Settings> = channels.iter().enumerate().map(directed).collect();
    if node == 1 {
        table.reverse();
    }
    table
}

/// An account for each channel, with nothing in it.
pub(super) fn accounts_of(channels: &[(usize, Limits)]) -> Vec<Account> {
    let place = |node: usize, channel: usize| Place {
        node,
        index: match node {
            0 => channel,
            _ => channels.len() - 1 - channel,
        },
    };
    let account = |(channel, &(sender, limits)): (usize, &(usize, Limits))| Account {
        limits,
        channel: channel as u16,
        host: place(sender, channel),
        subscriber: place(1 - sender, channel),
        units: Units::default(),
        starts: [1; 2],
    };
    channels.iter().enumerate().map(account).collect()
}
