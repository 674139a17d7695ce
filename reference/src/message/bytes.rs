//! Random and faulty takes, in bytes.

use crate::message::plan::Plan;
use crate::message::sample::Written;
use crate::message::take::{Accepted, Lent, Refused, SCRATCH_BYTES};
use crate::message::*;
use crate::negotiation::damage::MOST_MESSAGES;
use crate::negotiation::sample::Grown;
use crate::negotiation::*;
use crate::random::Random;

impl Random {
    /// A take on the plan's negotiation: half of them of legal commands alone, one in five with a fault elsewhere.
    pub fn lent_message(&mut self, plan: &Plan) -> Lent {
        let kind = self.below(100);
        let mut written = self.message(plan, (50..80).contains(&kind));
        if (80..86).contains(&kind) {
            self.change_commands(&mut written);
        }
        let mut message = [written.concat(), vec![END]].concat();
        if (86..92).contains(&kind) {
            self.change_message(&mut message);
        }
        let scratch = if self.percent(20) { vec![0; SCRATCH_BYTES] } else { self.bytes(SCRATCH_BYTES) };
        let mut lent = Lent { tables: plan.tables_bytes(), negotiation: encode(&plan.now), message, scratch };
        match kind {
            92..=95 => self.other_negotiation(plan, &mut lent),
            96 => self.other_turn(plan, &mut lent),
            97..=98 => self.other_message_lengths(&mut lent),
            _ => {}
        }
        lent
    }

    /// Commands in another order, left out or twice.
    fn change_commands(&mut self, written: &mut Written) {
        if written.is_empty() {
            return;
        }
        let (a, b) = (self.below(written.len()), self.below(written.len()));
        match self.below(5) {
            0 => written.swap(a, b),
            1 => self.shuffle(written),
            2 => drop(written.remove(a)),
            3 => written.insert(b, written[a].clone()),
            _ => written.insert(a, vec![END]),
        }
    }

    /// A change below the level of commands.
    fn change_message(&mut self, message: &mut Vec<u8>) {
        let at = self.below(message.len());
        match self.below(8) {
            0 => message.truncate(at.max(1)),
            // No end; of a lone end nothing would be left.
            1 if message.len() > 1 => drop(message.pop()),
            2 => message.push(END),
            3 => {
                let count = self.between(1, 30);
                message.extend(self.bytes(count));
            }
            4 => message[at] = self.byte(),
            5 => message[at] = self.below(8) as u8,
            6 => message.insert(at, self.below(8) as u8),
            _ => drop(message.splice(at..at, [0xff; 2])),
        }
    }

    /// A negotiation or tables with a fault.
    fn other_negotiation(&mut self, plan: &Plan, lent: &mut Lent) {
        let grown = Grown { tables: plan.tables.clone(), negotiation: plan.now.clone() };
        let faulty = self.lent(&grown);
        (lent.tables, lent.negotiation) = (faulty.tables, faulty.negotiation);
    }

    /// Our own turn, or a negotiation that has ended.
    fn other_turn(&mut self, plan: &Plan, lent: &mut Lent) {
        let mut negotiation = plan.now.clone();
        if negotiation.nodes.is_empty() || self.percent(50) {
            let count = negotiation.messages.count();
            negotiation.messages = Messages::in_turn(if count > 0 { count - 1 } else { 1 });
        } else if negotiation.end == 0 {
            (negotiation.end, negotiation.idle) = [(3, true), (4, true), (4, false)][self.below(3)];
        }
        lent.negotiation = encode(&negotiation);
    }

    fn other_message_lengths(&mut self, lent: &mut Lent) {
        let length = [0, 1, 4095, 4096, 4097, 5119, 5121, self.below(6000)][self.below(8)];
        match self.below(5) {
            0 => lent.tables.resize(length, 0),
            1 => lent.negotiation.resize(length, 0),
            2 => lent.message.resize(length, 0),
            3 => lent.scratch.resize(length, 0),
            _ => {
                lent.message.resize(length, 0);
                lent.scratch.resize(length, 0);
            }
        }
    }
}

/// Makes so many takes, some of them one after another on one negotiation. What is asked gives what the reference
/// judged.
pub fn many(random: &mut Random, count: u64, mut ask: impl FnMut(&Lent) -> Result<Accepted, Refused>) {
    let mut grown = random.grown();
    let mut plan = random.plan(&grown);
    for i in 0..count {
        let judged = ask(&random.lent_message(&plan));
        match judged {
            Ok(Accepted { after, .. })
                if after.end == 0 && after.messages.count() < MOST_MESSAGES && random.percent(60) =>
            {
                plan.turn(random, after);
            }
            _ => {
                if i % 4 == 0 {
                    grown = random.grown();
                }
                plan = random.plan(&grown);
            }
        }
    }
}

#[cfg(test)]
mod tests {
    use super::*;
    use crate::message::counts::TakeCounts;
    use crate::message::take::judge;

    /// Every answer and every end occurs, for each command and each kind of edge.
    #[test]
    fn all_occurs() {
        let mut counts = TakeCounts::default();
        many(&mut Random::new(4), 60_000, |lent| {
            let judged = judge(&lent.tables, &lent.negotiation, &lent.message, &lent.scratch);
            counts.taken(lent, &judged);
            judged
        });
        counts.print();
        assert_eq!(counts.missing(), [""; 0]);
    }
}
