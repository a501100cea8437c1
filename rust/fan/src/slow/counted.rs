//! What is counted of a run, and what it has to be.

use proved::Reason;

#[cfg(test)]
mod tests;

/// Of one run.
#[derive(Default)]
pub struct Counted {
    /// Events that the host's node accepted, in order.
    pub accepted: Vec<Vec<u8>>,
    /// Of these, those that the host was told are confirmed.
    pub confirmed: usize,
    /// Data packets that the host handed out.
    pub data: usize,
    /// Of these, those handed out before.
    pub resends: usize,
    /// Data that arrived at full slots: answer 8.
    pub full: usize,
    /// Flow Control packets that the station handed out.
    pub flow: usize,
    /// Data packets and their Acks that the link lost.
    pub lost: usize,
    /// Events that the station took, in order.
    pub taken: Vec<Vec<u8>>,
    /// Which end went inactive, and why.
    pub inactive: Option<(&'static str, Reason)>,
}

impl Counted {
    /// Whether Flow Control is used or not: the channel stays open, every event accepted
    /// is taken, in order, and confirmed, and each resend has its reason: Data that came to
    /// full slots, or that was lost, or whose Ack was.
    fn check(&self) -> Result<(), String> {
        if let Some((end, reason)) = self.inactive {
            return Err(format!("the {end}'s channel went inactive ({reason})"));
        }
        if self.taken != self.accepted {
            return Err("the events taken are not those accepted, in order".into());
        }
        if self.confirmed != self.accepted.len() {
            return Err("not every event accepted was confirmed".into());
        }
        if self.resends != self.full + self.lost {
            return Err("the resends are not one for each Data at full slots or lost".into());
        }
        Ok(())
    }
}

/// What Flow Control is for, or what is wrong with it.
pub fn check(without: &Counted, with: &Counted) -> Result<(), String> {
    let of_run = |name, run: &Counted| run.check().map_err(|why| format!("{name}: {why}"));
    of_run("without Flow Control", without)?;
    of_run("with Flow Control", with)?;
    if without.full == 0 {
        let why = "no Data arrived at full slots (does the link lose too much for that?)";
        return Err(format!("without Flow Control: {why}"));
    }
    if without.flow != 0 {
        return Err("without Flow Control: Flow Control packets were handed out".into());
    }
    if with.full != 0 {
        return Err("with Flow Control: Data arrived at full slots".into());
    }
    Ok(())
}
