//! How many messages each side sent.

use crate::negotiation::Side;

/// The messages of the mediator and of the requester that were accepted or given.
#[derive(Clone, Copy, Debug, Default, PartialEq, Eq)]
pub struct Messages {
    pub mediator: u16,
    pub requester: u16,
}

impl Messages {
    /// So many messages, sent in turn; the mediator sends first.
    pub fn in_turn(count: u32) -> Messages {
        Messages { mediator: count.div_ceil(2) as u16, requester: (count / 2) as u16 }
    }

    /// Document 01's count: the messages accepted and the replies given together.
    pub fn count(self) -> u32 {
        u32::from(self.mediator) + u32::from(self.requester)
    }

    /// One message more of this side.
    pub fn add(&mut self, sender: Side) {
        match sender {
            Side::Mediator => self.mediator += 1,
            Side::Requester => self.requester += 1,
        }
    }
}
