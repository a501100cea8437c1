//! How a receive end states the highest number that it accepts (document 02, A5; 000,
//! 4.2.4.4 and 4.5.3.5: the Maximum Acceptable Sequence Number).

use super::{oldest_untaken, Phase, ReceivingEnd};
use crate::answer::Refusal;
use crate::segment::sequence_number;

impl ReceivingEnd {
    /// The number stated: the last of the window, or the last that there is room for
    /// if that is before it. With full slots it is the one before the window start,
    /// so none is accepted: 000's "The MASN shall be within the current sliding
    /// window" would ask for one that gets 8. Out of OPEN it is k, with which each
    /// opening begins: "the Control Ack Packet for a received Close Command may carry
    /// the default value of the MASN".
    pub(crate) fn stated(&self) -> u8 {
        let (window, slots) = (self.settings.window, self.settings.slots);
        let Phase::Open { reception, .. } = &self.phase else {
            return sequence_number(window.into());
        };
        let of_window = reception.start() + u64::from(window);
        let of_room = oldest_untaken(&self.complete, reception) + u64::from(slots);
        sequence_number(of_window.min(of_room) - 1)
    }

    /// What the Ack of Data or Control carries: the number stated, by the record as
    /// it is now, where Flow Control is used (000, 4.2.4.1 b).
    pub(crate) fn stated_in_ack(&self) -> Option<u8> {
        let used = self.settings.uses_flow_control();
        used.then(|| self.stated())
    }

    /// A take has changed the number stated. None is made out of OPEN, nor where Flow
    /// Control is not used.
    pub(super) fn make_flow_control(&mut self) {
        let used = self.settings.uses_flow_control();
        if let (true, Phase::Open { flow_control, .. }) = (used, &mut self.phase) {
            flow_control.make();
        }
    }

    /// An Ack of this number was transmitted.
    pub(crate) fn transmitted(&mut self, number: u8) {
        if let Phase::Open { flow_control, .. } = &mut self.phase {
            flow_control.transmitted(number);
        }
    }

    /// A Flow Control Ack. Nothing is transmitted, so the Heartbeat timer goes on.
    pub(crate) fn flow_control_ack(&mut self, number: u8) -> Result<(), Refusal> {
        let stated = self.stated();
        match &mut self.phase {
            Phase::Open { flow_control, .. } => flow_control.acknowledge(number, stated),
            _ => Err(Refusal::State),
        }
    }
}
