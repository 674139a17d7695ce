//! Random lists of calls for the check of two runs, and two tables for each.

use crate::ends::adversary::Lent;
use crate::ends::calls::Reference;
use crate::ends::sample::{Draft, Holdings};
use crate::ends::two_ends::{End, TwoEnds};
use crate::message::plan::Plan;
use crate::message::take::{sender, take};
use crate::negotiation::sample::ALL_CLASSES;
use crate::negotiation::*;
use crate::random::Random;
use crate::rules::classes::Class::SubjectAll;
use crate::rules::expression::*;
use crate::runs::compare::{Call, List};
use crate::tables::records::{encode_record, Record};

/// A list and the tables of both runs.
pub struct TwoRuns {
    pub tables: [Vec<u8>; 2],
    pub list: List,
}

/// The end whose calls are listed, as the first run leaves it, and the other end while it is honest.
struct Listing {
    plan: Plan,
    negotiation: Vec<u8>,
    peer: Option<End>,
    calls: Vec<Call>,
}

impl Random {
    pub fn two_runs(&mut self) -> TwoRuns {
        let side = [Side::Mediator, Side::Requester][self.below(2)];
        let draft = self.guarded_draft(side);
        let own = side as usize;
        let runs = [(); 2].map(|()| {
            let mut other = draft.clone();
            self.other_holdings(&mut other, own);
            other
        });
        let tables = runs.each_ref().map(|run| run.pair().tables()[own].clone());
        let list = self.list(&runs[0], side);
        TwoRuns { tables, list }
    }

    /// A draft where this side has sensitive roles.
    fn guarded_draft(&mut self, side: Side) -> Draft {
        loop {
            let mut draft = self.draft();
            if !draft.holdings[side as usize].sensitive.is_empty() {
                if self.percent(60) {
                    self.add_decoys(&mut draft, side as usize);
                }
                return draft;
            }
        }
    }

    /// A role that the end proves of itself in two ways: by a sensitive role, and by another one that it holds.
    fn add_decoys(&mut self, draft: &mut Draft, end: usize) {
        let house = draft.houses[end].clone();
        let Holdings { subject_stored, sensitive, .. } = &mut draft.holdings[end];
        let sensitive_roles: Vec<Role> = sensitive.keys().copied().collect();
        for _ in 0..3 {
            let hidden = sensitive_roles[self.below(sensitive_roles.len())];
            let (Some(top), Some(open)) = (self.role_of(&house, &[SubjectAll]), self.role_of(&house, &[SubjectAll]))
            else {
                return;
            };
            let top = if draft.wanted.name == top.name && self.percent(50) { draft.wanted } else { top };
            if sensitive.contains_key(&top) || sensitive.contains_key(&open) || subject_stored.len() > 60 {
                continue;
            }
            let bodies =
                [(top, Expression::Role(hidden)), (top, Expression::Role(open)), (open, Expression::Entity(house.own))];
            for (head, body) in bodies {
                subject_stored.insert(encode_record(&Record::SubjectStored(Credential { head, body })));
            }
        }
    }

    /// Other direct credentials and AC records for some sensitive roles.
    fn other_holdings(&mut self, draft: &mut Draft, end: usize) {
        let house = draft.houses[end].clone();
        let holdings = &mut draft.holdings[end];
        let roles: Vec<Role> = holdings.sensitive.keys().copied().collect();
        let chance = [100, 50, 20][self.below(3)];
        for role in roles {
            if !self.percent(chance) {
                continue;
            }
            holdings.hold(role, house.own, self.percent(50));
            match (self.below(3), self.role_of(&house, &ALL_CLASSES)) {
                (0, Some(by)) => drop(holdings.access.insert(role, by)),
                (1, _) => drop(holdings.access.remove(&role)),
                _ => {}
            }
        }
    }

    /// Calls that the first run accepts for the most part, and some that it refuses.
    fn list(&mut self, draft: &Draft, side: Side) -> List {
        let mut reference = Reference::default();
        let pair = draft.pair();
        let mut honest = TwoEnds::begun(&mut reference, pair.tables(), pair.wanted);
        let [own, peer] = [side, side.opposite()].map(|side| side as usize);
        let begun = honest.ends.clone();
        honest.run(&mut reference);
        let (whole, now) = (honest.ends[own].state(), begun[own].state());
        let (other, wanted) = (now.other, now.wanted);
        let mut listing = Listing {
            plan: Plan { tables: pair.ends[own].clone(), now, whole },
            negotiation: begun[own].negotiation.clone(),
            peer: Some(begun[peer].clone()),
            calls: vec![],
        };
        for _ in 0..self.between(3, 16) {
            self.add_call(&mut listing);
        }
        List { other, wanted, negotiation: self.bytes(NEGOTIATION_BYTES), calls: listing.calls }
    }

    fn add_call(&mut self, listing: &mut Listing) {
        let now = &listing.plan.now;
        let our_turn = sender(now) == now.side;
        match self.below(100) {
            0..=15 => {
                let node = self.below(now.nodes.len() + 2) as u8;
                listing.calls.push(Call::Report { node });
            }
            // One that is not due.
            16..=20 if our_turn => self.add_take(listing),
            16..=20 => self.add_reply(listing),
            _ if our_turn => self.add_reply(listing),
            _ => self.add_take(listing),
        }
    }

    fn add_reply(&mut self, listing: &mut Listing) {
        let mut lent = self.lent_reply(listing.plan.tables_bytes(), listing.negotiation.clone());
        if self.percent(3) {
            lent.scratch.pop();
        }
        listing.calls.push(Call::Reply { reply: lent.reply.clone(), scratch: lent.scratch.clone() });
        let answer = lent.reply(&mut Reference::default());
        if answer.is_multiple_of(256) {
            let Lent { negotiation, reply, .. } = lent;
            let message = &reply[..(answer / 256) as usize];
            if let Some(peer) = &mut listing.peer {
                peer.take(&mut Reference::default(), message);
            }
            listing.keep(negotiation);
        }
    }

    /// The honest peer's message, or one that it would not send; then the peer is lost.
    fn add_take(&mut self, listing: &mut Listing) {
        let mut lent = self.lent_message(&listing.plan);
        let honest = listing.peer.as_mut().filter(|peer| {
            let state = peer.state();
            sender(&state) == state.side && state.end == 0
        });
        if let (Some(peer), true) = (honest, self.percent(75)) {
            lent.message = peer.reply(&mut Reference::default());
        } else {
            listing.peer = None;
        }
        listing.calls.push(Call::Take { message: lent.message.clone(), scratch: lent.scratch.clone() });
        let mut negotiation = listing.negotiation.clone();
        if take(&listing.plan.tables_bytes(), &mut negotiation, &lent.message, &mut lent.scratch) == 0 {
            listing.keep(negotiation);
        }
    }
}

impl Listing {
    fn keep(&mut self, negotiation: Vec<u8>) {
        self.plan.now = decode(&negotiation).unwrap_or_else(|clause| unreachable!("damaged: {clause:?}"));
        self.negotiation = negotiation;
    }
}

#[cfg(test)]
mod tests {
    use super::*;
    use crate::ends::calls::Calls;
    use crate::message::shapes::marked_messages;
    use crate::message::*;
    use crate::reply::leak::{Leak, LEAKS};
    use crate::rules::classes::Class::IssuerDef;
    use crate::runs::compare::{compare, Outcome};
    use crate::runs::counts::RunCounts;
    use crate::tables::records::Guard;
    use std::slice::from_ref;

    fn outcome(two: &TwoRuns, leak: Leak) -> Outcome {
        let mut reference = Reference { leak, ..Reference::default() };
        let tables = two.tables.each_ref().map(Vec::as_slice);
        compare(&mut reference, tables, &two.list).expect("tables that may be compared")
    }

    /// Lists run to their ends or part after an Ack target is satisfied; no call tells anything before. That goes for
    /// roles with names that are not listed too.
    #[test]
    fn nothing_leaks() {
        let (mut random, mut counts) = (Random::new(5), RunCounts::default());
        let (mut alike, mut parted) = (0, 0);
        for i in 0..600 {
            let two = random.two_runs();
            let outcome = outcome(&two, Leak::None);
            match outcome {
                Outcome::Alike => alike += 1,
                Outcome::Parted(_) => parted += 1,
                wrong => panic!("list {i}: {wrong:?}"),
            }
            counts.compared(two.tables.each_ref().map(Vec::as_slice), Some(outcome));
        }
        println!("alike {alike}, parted {parted}");
        assert!(alike > 300 && parted > 20, "{alike}, {parted}");
        counts.print();
        assert_eq!(counts.missing(), [""; 0]);
    }

    /// Each planted leak is found.
    #[test]
    fn leaks_are_found() {
        for leak in LEAKS {
            let mut random = Random::new(5);
            let found = (1..=2000).find(|_| matches!(outcome(&random.two_runs(), leak), Outcome::Leak(_)));
            println!("{leak:?}: found by list {found:?}");
            assert!(found.is_some(), "{leak:?}");
        }
    }

    fn role(entity: u16, name: u16) -> Role {
        Role { entity, name }
    }

    /// House's tables in cases (i) and (j), with the first so many of the three names and these records of what it holds.
    fn house_tables(listed: usize, held: &[Record]) -> Vec<u8> {
        let names = [(1, IssuerDef), (2, SubjectAll), (3, SubjectAll)].map(|(name, class)| Record::Name(name, class));
        let sensitive = Record::Sensitive(Guard { role: role(4, 3), by: role(1, 2) });
        let records = [&[Record::Own(2)][..], &names[..listed], held, &[sensitive]].concat();
        records.iter().flat_map(encode_record).collect()
    }

    /// House's calls there, and a report between them.
    fn house_list() -> List {
        let [first, _, third, _] = marked_messages(true).map(|commands| [commands, vec![Command::End]].concat());
        let take = |commands: &[Command]| Call::Take { message: encode_message(commands), scratch: vec![1; 4096] };
        let reply = || Call::Reply { reply: vec![2; 4096], scratch: vec![3; 4096] };
        let calls = vec![take(&first), reply(), Call::Report { node: 2 }, take(&third), reply()];
        List { other: 3, wanted: role(0, 0), negotiation: vec![4; NEGOTIATION_BYTES], calls }
    }

    /// Cases (i) and (j) as two runs of House: they part when it has taken Studio's proof of the Ack role. With a leak
    /// they differ in the first reply, before that. The sensitive role and its Ack role are hidden whether their names are
    /// listed or not.
    #[test]
    fn marked_cases() {
        let direct = Record::SubjectStored(Credential { head: role(4, 3), body: Expression::Entity(2) });
        let list = house_list();
        for listed in 1..=3 {
            let (held, not_held) = (house_tables(listed, from_ref(&direct)), house_tables(listed, &[]));
            for (leak, expected) in [
                (Leak::None, Outcome::Parted(5)),
                (Leak::Possession, Outcome::Leak(2)),
                (Leak::Mark, Outcome::Leak(2)),
                (Leak::Needed, Outcome::Parted(5)),
            ] {
                let mut reference = Reference { leak, ..Reference::default() };
                assert_eq!(compare(&mut reference, [&held, &not_held], &list), Some(expected), "{leak:?}");
            }
            let mut reference = Reference::default();
            assert_eq!(compare(&mut reference, [&held, &held], &list), Some(Outcome::Alike));
            assert_eq!(compare(&mut reference, [&held, &house_tables(listed, &[Record::Own(3)])], &list), None);
        }
        // Tables that list other names may not be compared.
        let tables = [2, 3].map(|listed| house_tables(listed, &[]));
        assert_eq!(compare(&mut Reference::default(), tables.each_ref().map(Vec::as_slice), &list), None);
    }

    /// The reference with wrong counts: in the negotiation after a reply, or in reports.
    struct Miscounting {
        reference: Reference,
        in_reports: bool,
    }

    impl Calls for Miscounting {
        fn begin(&mut self, tables: &[u8], negotiation: &mut [u8], other: u16, wanted: Role) -> u64 {
            self.reference.begin(tables, negotiation, other, wanted)
        }

        fn take(&mut self, tables: &[u8], negotiation: &mut [u8], message: &[u8], scratch: &mut [u8]) -> u64 {
            self.reference.take(tables, negotiation, message, scratch)
        }

        fn reply(&mut self, tables: &[u8], negotiation: &mut [u8], reply: &mut [u8], scratch: &mut [u8]) -> u64 {
            let answer = self.reference.reply(tables, negotiation, reply, scratch);
            // The low byte of the requester's count.
            negotiation[REQUESTER_MESSAGES_AT + 1] -= !self.in_reports as u8;
            answer
        }

        fn report(&mut self, tables: &[u8], negotiation: &[u8], node: u8) -> u64 {
            self.reference.report(tables, negotiation, node) + ((self.in_reports as u64) << 39)
        }
    }

    #[test]
    fn wrong_counts_are_found() {
        let (tables, list) = (house_tables(3, &[]), house_list());
        for (in_reports, number) in [(false, 2), (true, 3)] {
            let mut miscounting = Miscounting { reference: Reference::default(), in_reports };
            assert_eq!(compare(&mut miscounting, [&tables, &tables], &list), Some(Outcome::Miscounted(number)));
        }
    }
}
