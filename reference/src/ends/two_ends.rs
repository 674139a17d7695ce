//! A negotiation between two ends that both follow the rules.

use crate::ends::calls::Calls;
use crate::message::take::SCRATCH_BYTES;
use crate::message::MOST_MESSAGE_BYTES;
use crate::negotiation::*;
use crate::rules::expression::Role;

/// One end: its tables and its negotiation.
#[derive(Clone)]
pub struct End {
    pub tables: Vec<u8>,
    pub negotiation: Vec<u8>,
}

impl End {
    /// Begins, which must be accepted.
    pub fn begun(calls: &mut impl Calls, tables: Vec<u8>, other: u16, wanted: Role) -> End {
        let mut negotiation = vec![0; NEGOTIATION_BYTES];
        assert_eq!(calls.begin(&tables, &mut negotiation, other, wanted), 0);
        End { tables, negotiation }
    }

    /// The reply, which must be given.
    pub fn reply(&mut self, calls: &mut impl Calls) -> Vec<u8> {
        let (mut reply, mut scratch) = (vec![0xa5; MOST_MESSAGE_BYTES], vec![0x5a; SCRATCH_BYTES]);
        let answer = calls.reply(&self.tables, &mut self.negotiation, &mut reply, &mut scratch);
        assert!(answer.is_multiple_of(256), "a reply was refused {answer}");
        assert!(scratch.iter().all(|&byte| byte == 0));
        let length = (answer / 256) as usize;
        assert!(reply[length..].iter().all(|&byte| byte == 0xa5));
        reply.truncate(length);
        reply
    }

    pub fn take(&mut self, calls: &mut impl Calls, message: &[u8]) -> u64 {
        calls.take(&self.tables, &mut self.negotiation, message, &mut vec![0x5a; SCRATCH_BYTES])
    }

    pub fn state(&self) -> Negotiation {
        decode(&self.negotiation).unwrap_or_else(|clause| unreachable!("damaged: {clause:?}"))
    }
}

/// The mediator and the requester, the messages so far, and how many of them each end sent.
pub struct TwoEnds {
    pub ends: [End; 2],
    pub messages: Vec<Vec<u8>>,
    sent: [u16; 2],
}

impl TwoEnds {
    /// Begun at both ends. The tables begin with self.
    pub fn begun(calls: &mut impl Calls, tables: [Vec<u8>; 2], wanted: Role) -> TwoEnds {
        let [mediator, requester] = tables;
        let own = |tables: &[u8]| u16::from_be_bytes([tables[1], tables[2]]);
        let (mediating, requesting) = (own(&mediator), own(&requester));
        let ends = [
            End::begun(calls, mediator, requesting, wanted),
            End::begun(calls, requester, mediating, Role { entity: 0, name: 0 }),
        ];
        TwoEnds { ends, messages: vec![], sent: [0; 2] }
    }

    pub fn sender(&self) -> usize {
        self.messages.len() % 2
    }

    /// One reply, and its take at the other end, which must not refuse it. Both ends hold the same graph then, and the
    /// counts of the messages that were carried.
    pub fn next(&mut self, calls: &mut impl Calls) -> &[u8] {
        let sender = self.sender();
        let message = self.ends[sender].reply(calls);
        let answer = self.ends[1 - sender].take(calls, &message);
        assert_eq!(answer, 0, "an honest message was refused");
        let [given, taken] = [sender, 1 - sender].map(|end| self.ends[end].state());
        assert_eq!((given.nodes, given.edges, given.shown), (taken.nodes, taken.edges, taken.shown));
        assert_eq!(given.idle, taken.idle);
        self.sent[sender] += 1;
        let [mediator, requester] = self.sent;
        assert_eq!([given.messages, taken.messages], [Messages { mediator, requester }; 2]);
        // Full is known to the end that gives the reply alone.
        assert_eq!(if given.end == 4 { 0 } else { given.end }, taken.end);
        self.messages.push(message);
        &self.messages[self.messages.len() - 1]
    }

    /// The end that the last message's sender sees.
    pub fn end(&self) -> u8 {
        self.ends[1 - self.sender()].state().end
    }

    /// To its end, which comes.
    pub fn run(&mut self, calls: &mut impl Calls) -> u8 {
        loop {
            self.next(calls);
            if self.end() != 0 {
                return self.end();
            }
        }
    }
}
