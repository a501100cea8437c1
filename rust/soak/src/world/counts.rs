//! What happened in a run, in numbers.

use std::fmt;

/// What happened in a run.
#[derive(Clone, Debug, Default)]
pub struct Counts {
    /// Openings of the host's ends.
    pub openings: u64,
    /// Units accepted, confirmed, reclaimed and taken.
    pub units: [u64; 4],
    /// Packets lost; damaged; dropped as too late; acknowledged again.
    pub packets: [u64; 4],
    /// Packets handed out with a prefix.
    pub regional: u64,
    /// Heartbeats handed out by hosts and by subscribers, answered, and acknowledged.
    pub heartbeats: [u64; 4],
    /// Flow Control packets handed out, answered, and acknowledged.
    pub flow_controls: [u64; 3],
    /// Data that found the slots full, in channels without Flow Control and with it.
    pub full: [u64; 2],
    /// Ends that went inactive, by reason 1 to 6.
    pub inactive: [u64; 6],
    /// Of those of reason 6, hosts and subscribers.
    pub unanswered: [u64; 2],
    /// Ends closed by a Close.
    pub closed: u64,
    /// Openings whose numbers passed 255.
    pub wrapped: u64,
    /// Times that the three claims were checked.
    pub checks: u64,
}

impl Counts {
    /// Adds those of another run.
    pub fn add(&mut self, other: &Counts) {
        let add = |sums: &mut [u64], counts: &[u64]| {
            for (sum, count) in sums.iter_mut().zip(counts) {
                *sum += count;
            }
        };
        add(&mut self.units, &other.units);
        add(&mut self.packets, &other.packets);
        add(&mut self.heartbeats, &other.heartbeats);
        add(&mut self.flow_controls, &other.flow_controls);
        add(&mut self.full, &other.full);
        add(&mut self.inactive, &other.inactive);
        add(&mut self.unanswered, &other.unanswered);
        self.regional += other.regional;
        self.openings += other.openings;
        self.closed += other.closed;
        self.wrapped += other.wrapped;
        self.checks += other.checks;
    }
}

impl fmt::Display for Counts {
    fn fmt(&self, out: &mut fmt::Formatter) -> fmt::Result {
        let [accepted, confirmed, reclaimed, taken] = self.units;
        let [lost, damaged, late, repeated] = self.packets;
        let [retries, late_open, control, data, flags, _] = self.inactive;
        let [by_hosts, by_subscribers, answered, acknowledged] = self.heartbeats;
        let [hosts, subscribers] = self.unanswered;
        let [stated, told, heard] = self.flow_controls;
        let [without, with] = self.full;
        writeln!(
            out,
            "  {} openings, {} of them past number 255",
            self.openings, self.wrapped
        )?;
        writeln!(out, "  units: {accepted} accepted, {confirmed} confirmed, {reclaimed} reclaimed, {taken} taken")?;
        writeln!(out, "  packets: {lost} lost, {damaged} damaged, {late} dropped as too late, {repeated} acknowledged again, {} with a prefix", self.regional)?;
        writeln!(out, "  Heartbeats: {by_hosts} handed out by hosts, {by_subscribers} by subscribers; {answered} answered, {acknowledged} acknowledged")?;
        writeln!(out, "  Flow Control: {stated} handed out, {told} answered, {heard} acknowledged; Data found full slots {without} times without it, {with} with it")?;
        writeln!(out, "  ends: {} closed; inactive by retries {retries}, late Open {late_open}, Control number {control}, Data number {data}, flags {flags}, Heartbeat {hosts} hosts and {subscribers} subscribers", self.closed)?;
        writeln!(out, "  the three claims checked {} times", self.checks)
    }
}
