//! Replies to an end that does as it likes: its messages are random and faulty ones, and the graphs are random.

use crate::ends::calls::Calls;
use crate::ends::two_ends::TwoEnds;
use crate::message::plan::Plan;
use crate::message::take::{sender, SCRATCH_BYTES};
use crate::message::MOST_MESSAGE_BYTES;
use crate::negotiation::faults;
use crate::negotiation::*;
use crate::random::Random;
use crate::rules::expression::Role;
use crate::tables::sample::Sample;

/// The four lent buffers of a reply.
#[derive(Clone, Debug, PartialEq, Eq)]
pub struct Lent {
    pub tables: Vec<u8>,
    pub negotiation: Vec<u8>,
    pub reply: Vec<u8>,
    pub scratch: Vec<u8>,
}

impl Lent {
    /// The answer of the call.
    pub fn reply(&mut self, calls: &mut impl Calls) -> u64 {
        calls.reply(&self.tables, &mut self.negotiation, &mut self.reply, &mut self.scratch)
    }
}

impl Random {
    /// Buffers that a reply accepts, with any content.
    pub fn lent_reply(&mut self, tables: Vec<u8>, negotiation: Vec<u8>) -> Lent {
        let length = [MOST_MESSAGE_BYTES, MOST_MESSAGE_BYTES, MOST_MESSAGE_BYTES + 1, 6000][self.below(4)];
        Lent { tables, negotiation, reply: self.bytes(length), scratch: self.bytes(SCRATCH_BYTES) }
    }

    /// The same with a wrong length or two.
    fn other_reply_lengths(&mut self, lent: &mut Lent) {
        let length = [0, 1, 4095, 4097, 5119, 5120, 5121, self.below(6000)][self.below(8)];
        match self.below(5) {
            0 => lent.tables.resize(length, 0),
            1 => lent.negotiation.resize(length, 0),
            2 => lent.reply.truncate(length.min(4095)),
            3 => lent.scratch.resize(length, 0),
            _ => {
                lent.reply.truncate(length.min(4095));
                lent.scratch.resize(length, 0);
            }
        }
    }

    /// A random sound negotiation, mostly where it is our turn, with tables that have credentials.
    fn some_graph(&mut self) -> (Sample, Negotiation) {
        let grown = self.grown();
        let house = grown.tables.house;
        let [issuer, subject, sensitive, access] = match self.below(20) {
            0 => [20, 40, 20, 10],
            1..=9 => [4, 8, 4, 2],
            _ => [2, 4, 2, 1],
        };
        let tables = self.sample_of(house.clone(), [house.names.len(), issuer, subject, sensitive, access]);
        let mut negotiation = grown.negotiation;
        if negotiation.end > 2 && self.percent(90) {
            negotiation.end = 0;
        }
        if !negotiation.nodes.is_empty() && sender(&negotiation) != negotiation.side && self.percent(95) {
            let count = negotiation.messages.count();
            negotiation.messages = Messages::in_turn(if count > 1 { count - 1 } else { 2 });
        }
        (tables, negotiation)
    }

    /// A reply onto such a negotiation, some with a fault.
    fn reply_to_graph(&mut self, calls: &mut impl Calls) {
        let (tables, mut negotiation) = self.some_graph();
        if self.percent(5) {
            faults::messages(self, &tables.house, &mut negotiation);
        }
        let mut lent = self.lent_reply(tables.records.concat(), encode(&negotiation));
        match self.below(20) {
            0 => self.other_reply_lengths(&mut lent),
            1 => lent.tables = self.tables(),
            2 => {
                let at = if self.percent(50) { self.below(HEADER_USED) } else { self.below(NEGOTIATION_BYTES) };
                lent.negotiation[at] ^= 1 << self.below(8);
            }
            _ => {}
        }
        lent.reply(calls);
    }
}

/// One end that follows the rules, and what the other one can say to it; and how many messages of each were accepted or
/// given since it began.
struct Played {
    plan: Plan,
    negotiation: Vec<u8>,
    messages: Messages,
}

impl Played {
    /// Begun, with the graph that two honest ends would reach as what may come.
    fn begun(random: &mut Random, calls: &mut impl Calls) -> Played {
        let pair = random.pair();
        let side = [Side::Mediator, Side::Requester][random.below(2)];
        let mut honest = TwoEnds::begun(calls, pair.tables(), pair.wanted);
        honest.run(calls);
        let tables = pair.ends[side as usize].clone();
        let whole = honest.ends[side as usize].state();
        let wanted = if side == Side::Mediator { pair.wanted } else { Role { entity: 0, name: 0 } };
        let mut negotiation = vec![0xff; NEGOTIATION_BYTES];
        assert_eq!(calls.begin(&tables.records.concat(), &mut negotiation, whole.other, wanted), 0);
        let now = Negotiation::fresh(whole.side, whole.own, whole.other, wanted);
        Played { plan: Plan { tables, now, whole }, negotiation, messages: Messages::default() }
    }

    /// Keeps the negotiation that a message of this side left, which counts the messages so far.
    fn keep(&mut self, negotiation: Vec<u8>, sender: Side) {
        self.plan.now = decode(&negotiation).unwrap_or_else(|clause| unreachable!("damaged: {clause:?}"));
        self.negotiation = negotiation;
        self.messages.add(sender);
        assert_eq!(self.plan.now.messages, self.messages);
    }

    /// Our reply, sometimes after one that is refused. Given on the other's turn it is refused too.
    fn reply(&mut self, random: &mut Random, calls: &mut impl Calls) {
        let mut lent = random.lent_reply(self.plan.tables_bytes(), self.negotiation.clone());
        if random.percent(5) {
            let mut other = lent.clone();
            random.other_reply_lengths(&mut other);
            other.reply(calls);
        }
        if lent.reply(calls).is_multiple_of(256) {
            self.keep(lent.negotiation, self.plan.now.side);
        }
    }

    /// A message of the other end, which may be refused.
    fn take(&mut self, random: &mut Random, calls: &mut impl Calls) {
        let mut lent = random.lent_message(&self.plan);
        let ours = lent.negotiation == self.negotiation;
        let answer = calls.take(&lent.tables, &mut lent.negotiation, &lent.message, &mut lent.scratch);
        if answer == 0 && ours {
            self.keep(lent.negotiation, self.plan.now.side.opposite());
        }
    }

    fn report(&mut self, random: &mut Random, calls: &mut impl Calls) {
        let node = random.below(self.plan.now.nodes.len() + 1) as u8;
        calls.report(&self.plan.tables_bytes(), &self.negotiation, node);
    }
}

/// Our end begins, and then replies and takes what comes, refused calls among them.
fn play(random: &mut Random, calls: &mut impl Calls) {
    let mut played = Played::begun(random, calls);
    for _ in 0..random.between(4, 24) {
        let now = &played.plan.now;
        let our_turn = sender(now) == now.side;
        // Rarely not at its turn, or after the end.
        if our_turn != random.percent(4) {
            played.reply(random, calls);
        } else {
            played.take(random, calls);
        }
        if random.percent(30) {
            played.report(random, calls);
        }
        if played.plan.now.end != 0 && random.percent(70) {
            return;
        }
    }
}

/// So many negotiations against such ends, and as many replies onto random graphs.
pub fn against_adversaries(random: &mut Random, count: u64, calls: &mut impl Calls) {
    for _ in 0..count {
        play(random, calls);
        random.reply_to_graph(calls);
    }
}

#[cfg(test)]
mod tests {
    use super::*;
    use crate::ends::calls::Reference;

    #[test]
    fn all_rules_occur() {
        let (mut random, mut reference) = (Random::new(8), Reference::default());
        against_adversaries(&mut random, 600, &mut reference);
        reference.counts.print();
        assert_eq!(reference.counts.missing(), [""; 0]);
    }
}
