//! Random tables of two ends that can negotiate with each other: one world, one class for each name, listed or not.
//!
//! A proof of the wanted role is laid out over both ends: each credential is stored where its class asks for, and some
//! roles that an end proves of itself are sensitive, with Ack and AC roles that the other end proves in turn. Then
//! credentials are taken out and others are added.

use crate::negotiation::sample::ALL_CLASSES;
use crate::negotiation::Side;
use crate::random::Random;
use crate::rules::classes::Class::{self, *};
use crate::rules::expression::*;
use crate::rules::frontier::is_entity;
use crate::tables::records::*;
use crate::tables::sample::{House, Sample};
use std::collections::{BTreeMap, BTreeSet};

/// The tables of the mediator and of the requester, and the wanted role.
#[derive(Clone)]
pub struct Pair {
    pub ends: [Sample; 2],
    pub wanted: Role,
}

impl Pair {
    pub fn tables(&self) -> [Vec<u8>; 2] {
        self.ends.each_ref().map(|end| end.records.concat())
    }
}

/// The records of one end but self and the names.
#[derive(Clone, Default)]
pub struct Holdings {
    pub issuer_stored: BTreeSet<Vec<u8>>,
    pub subject_stored: BTreeSet<Vec<u8>>,
    pub sensitive: BTreeMap<Role, Role>,
    pub access: BTreeMap<Role, Role>,
}

const MOST_STORED: usize = 64;
const MOST_GUARDED: usize = 32;

fn direct(role: Role, own: u16) -> Vec<u8> {
    encode_record(&Record::SubjectStored(Credential { head: role, body: Expression::Entity(own) }))
}

impl Holdings {
    /// The tables of a house, with AC records where the role is held and sensitive.
    pub fn sample(&self, house: &House) -> Sample {
        let mut names: Vec<Vec<u8>> =
            house.names.iter().map(|&(name, class)| encode_record(&Record::Name(name, class))).collect();
        names.sort();
        let guards = |guards: &BTreeMap<Role, Role>, record: fn(Guard) -> Record| -> Vec<Vec<u8>> {
            guards.iter().map(|(&role, &by)| encode_record(&record(Guard { role, by }))).collect()
        };
        let mut access = self.access.clone();
        access.retain(|role, _| {
            self.sensitive.contains_key(role) && self.subject_stored.contains(&direct(*role, house.own))
        });
        let mut records = vec![encode_record(&Record::Own(house.own))];
        records.extend(names);
        records.extend(self.issuer_stored.iter().cloned());
        records.extend(self.subject_stored.iter().cloned());
        records.extend(guards(&self.sensitive, Record::Sensitive));
        records.extend(guards(&access, Record::Access));
        Sample { house: house.clone(), records }
    }

    /// Holds a role of its own or not.
    pub fn hold(&mut self, role: Role, own: u16, held: bool) {
        let record = direct(role, own);
        if !held {
            self.subject_stored.remove(&record);
        } else if self.subject_stored.len() < MOST_STORED {
            self.subject_stored.insert(record);
        }
    }
}

/// Two ends in the making.
#[derive(Clone)]
pub struct Draft {
    pub houses: [House; 2],
    pub holdings: [Holdings; 2],
    pub wanted: Role,
    /// How often in a hundred a direct credential is sensitive.
    guarded: usize,
}

impl Draft {
    pub fn pair(&self) -> Pair {
        let sample = |end: usize| self.holdings[end].sample(&self.houses[end]);
        Pair { ends: [sample(0), sample(1)], wanted: self.wanted }
    }

    fn own(&self, side: Side) -> u16 {
        self.houses[side as usize].own
    }

    fn class(&self, name: u16) -> Class {
        self.houses[0].class(name)
    }

    /// Stores a credential where a proof to this verifier needs it.
    fn store(&mut self, verifier: Side, credential: Credential) {
        let (group, record) = if self.class(credential.head.name) == SubjectAll {
            let opponent = verifier.opposite() as usize;
            (&mut self.holdings[opponent].subject_stored, encode_record(&Record::SubjectStored(credential)))
        } else {
            (&mut self.holdings[verifier as usize].issuer_stored, encode_record(&Record::IssuerStored(credential)))
        };
        if group.len() < MOST_STORED {
            group.insert(record);
        }
    }
}

impl Random {
    pub fn pair(&mut self) -> Pair {
        self.draft().pair()
    }

    /// Mostly small; some are wide, so that replies stop on their sizes.
    pub fn draft(&mut self) -> Draft {
        match self.below(400) {
            0..=4 => self.wide_draft(30, 9),
            5 => self.wide_draft(60, 64),
            6..=8 => self.heavy_draft(),
            9..=22 => self.proof_draft(12, 12, 8),
            _ => {
                let depth = self.between(1, 5);
                self.proof_draft(6, 9, depth)
            }
        }
    }

    /// Two houses of one world. The requester may leave out subject-all names that the mediator lists.
    fn begun_draft(&mut self, most_entities: usize, name_count: usize) -> Draft {
        let mediator = self.house_among(most_entities, name_count);
        let mut requester = mediator.clone();
        while requester.own == mediator.own {
            requester.own = self.entity(mediator.world);
        }
        let left_out = [0, 0, 50, 100][self.below(4)];
        requester.names.retain(|(_, class)| *class != SubjectAll || !self.percent(left_out));
        let classes = if self.percent(85) { &ALL_CLASSES[..1] } else { &ALL_CLASSES };
        let wanted = self.role_of(&mediator, classes).or(self.role_of(&mediator, &ALL_CLASSES)).unwrap();
        let entity = if self.percent(70) { mediator.own } else { wanted.entity };
        let guarded = [0, 60, 80, 95][self.below(4)];
        let wanted = Role { entity, ..wanted };
        Draft { houses: [mediator, requester], holdings: Default::default(), wanted, guarded }
    }

    fn proof_draft(&mut self, most_entities: usize, most_names: usize, depth: usize) -> Draft {
        let name_count = if self.percent(4) { 0 } else { self.between(3, most_names) };
        let mut draft = self.begun_draft(most_entities, name_count);
        let (wanted, requesting) = (draft.wanted, draft.own(Side::Requester));
        for _ in 0..[1, 1, 1, 2, 3][self.below(5)] {
            self.prove_role(&mut draft, Side::Mediator, wanted, requesting, depth);
        }
        self.take_some_out(&mut draft);
        let noise = [0, 0, 1, 4, 12][self.below(5)];
        for end in [0, 1] {
            self.add_noise(&mut draft, end, noise);
        }
        draft
    }

    /// Credentials, and guards where they may stand, by which the verifier can see "f from the subject".
    fn prove_target(&mut self, draft: &mut Draft, verifier: Side, f: &Expression, subject: u16, depth: usize) {
        match f {
            Expression::Entity(_) => {}
            Expression::Role(role) => self.prove_role(draft, verifier, *role, subject, depth),
            Expression::Linked(base, second) => {
                let member = self.entity(draft.houses[0].world);
                self.prove_role(draft, verifier, Role { entity: member, name: *second }, subject, depth);
                self.prove_role(draft, verifier, *base, member, depth);
            }
            Expression::Intersection(parts) => {
                for part in parts {
                    self.prove_role(draft, verifier, *part, subject, depth);
                }
            }
        }
    }

    fn prove_role(&mut self, draft: &mut Draft, verifier: Side, role: Role, subject: u16, depth: usize) {
        let class = draft.class(role.name);
        let own = Expression::Entity(subject);
        let body = self.body_of_proof(&draft.houses[0], role, class, depth).unwrap_or(own.clone());
        draft.store(verifier, Credential { head: role, body: body.clone() });
        let opponent = verifier.opposite();
        if class == SubjectAll && subject == draft.own(opponent) {
            let chance = if body == own { draft.guarded } else { draft.guarded / 4 };
            if self.percent(chance) {
                self.guard(draft, opponent, role, depth);
            }
        }
        self.prove_target(draft, verifier, &body, subject, depth.saturating_sub(1));
    }

    /// A body other than an entity, often one that the other end must help to prove; None: the subject itself.
    fn body_of_proof(&mut self, house: &House, head: Role, class: Class, depth: usize) -> Option<Expression> {
        match class {
            IssuerDef if depth == 0 || self.percent(40) => self.role_of(house, &[SubjectAll]).map(Expression::Role),
            IssuerDef if self.percent(30) => {
                let base = Role { name: self.name_of(house, &[IssuerDef])?, ..head };
                Some(Expression::Linked(base, self.name_of(house, &[SubjectAll])?))
            }
            _ if depth == 0 => None,
            _ => {
                let body = self.body_for(house, head.entity, class).filter(|body| !is_entity(body));
                // An issuer-def role is rarely proved by one end alone.
                match body {
                    None | Some(Expression::Role(_)) if class == IssuerDef && self.percent(80) => {
                        self.role_of(house, &[IssuerDef, SubjectAll]).map(Expression::Role)
                    }
                    body => body,
                }
            }
        }
    }

    /// A role for which the other end is often asked.
    fn guarding(&mut self, house: &House) -> Option<Role> {
        let classes = if self.percent(60) { &ALL_CLASSES[2..] } else { &ALL_CLASSES };
        self.role_of(house, classes)
    }

    /// Makes a role sensitive, with an Ack role and perhaps an AC role that the other end proves.
    fn guard(&mut self, draft: &mut Draft, side: Side, role: Role, depth: usize) {
        let holdings = &draft.holdings[side as usize];
        if holdings.sensitive.contains_key(&role) || holdings.sensitive.len() >= MOST_GUARDED {
            return;
        }
        let other = draft.own(side.opposite());
        let roles = [(); 2].map(|()| self.guarding(&draft.houses[0]));
        let [Some(ack), Some(access)] = roles else { return };
        draft.holdings[side as usize].sensitive.insert(role, ack);
        self.prove_role(draft, side, ack, other, depth.saturating_sub(1));
        if self.percent(40) {
            draft.holdings[side as usize].access.insert(role, access);
            self.prove_role(draft, side, access, other, depth.saturating_sub(1));
        }
    }

    /// In some, a record or two of the proof.
    fn take_some_out(&mut self, draft: &mut Draft) {
        for _ in 0..[0, 0, 0, 1, 2][self.below(5)] {
            let Holdings { issuer_stored, subject_stored, .. } = &mut draft.holdings[self.below(2)];
            let group = if self.percent(50) { issuer_stored } else { subject_stored };
            if let Some(record) = group.iter().nth(self.below(group.len().max(1))).cloned() {
                group.remove(&record);
            }
        }
    }

    /// Records that belong to no proof.
    fn add_noise(&mut self, draft: &mut Draft, end: usize, most: usize) {
        let house = &draft.houses[end];
        let Holdings { issuer_stored, subject_stored, sensitive, access } = &mut draft.holdings[end];
        for _ in 0..self.between(0, most) {
            if issuer_stored.len() < MOST_STORED {
                issuer_stored.extend(
                    self.stored(house, &[IssuerDef, IssuerAll]).map(|one| encode_record(&Record::IssuerStored(one))),
                );
            }
            if subject_stored.len() < MOST_STORED {
                subject_stored
                    .extend(self.stored(house, &[SubjectAll]).map(|one| encode_record(&Record::SubjectStored(one))));
            }
            let (role, by) = (self.role_of(house, &[SubjectAll]), self.role_of(house, &ALL_CLASSES));
            if let (Some(role), Some(by), true) = (role, by, sensitive.len() < MOST_GUARDED && self.percent(30)) {
                sensitive.entry(role).or_insert(by);
                if self.percent(30) && subject_stored.len() < MOST_STORED {
                    subject_stored.insert(direct(role, house.own));
                    access.entry(role).or_insert(by);
                }
            }
        }
    }

    /// The first reply has about as many bytes as a message may have: 64 edges with a credential each, some of them to
    /// intersections of four roles.
    fn heavy_draft(&mut self) -> Draft {
        let mut draft = self.begun_draft(200, 9);
        let house = draft.houses[0].clone();
        draft.wanted.name = self.name_of(&house, &[IssuerDef]).unwrap_or(draft.wanted.name);
        let wide_count = self.between(9, 16);
        // An issuer-all head takes no roles of another class.
        let class = if draft.class(draft.wanted.name) == IssuerAll { IssuerAll } else { SubjectAll };
        for _ in 0..20 * MOST_STORED {
            let parts: BTreeSet<Role> = (0..4).filter_map(|_| self.role_of(&house, &[class])).collect();
            let parts: Vec<Role> = parts.into_iter().collect();
            let wide = draft.holdings[0].issuer_stored.len() < wide_count;
            let body = match parts.len() {
                4 if wide => Expression::Intersection(parts),
                4 => Expression::Role(parts[self.below(4)]),
                _ => continue,
            };
            draft.store(Side::Mediator, Credential { head: draft.wanted, body });
        }
        // Where the other end adds little, the next reply has room to go on.
        let noise = [0, 0, 30][self.below(3)];
        self.add_noise(&mut draft, 1, noise);
        draft
    }

    /// Full tables over many entities: the wanted role has many bodies, and so have the roles behind it.
    fn wide_draft(&mut self, most_entities: usize, name_count: usize) -> Draft {
        let mut draft = self.begun_draft(most_entities, name_count);
        let house = draft.houses[0].clone();
        let name = self.name_of(&house, &[IssuerDef]).unwrap_or(draft.wanted.name);
        draft.wanted.name = name;
        for _ in 0..self.between(20, 90) {
            if let Some(body) = self.body_for(&house, draft.wanted.entity, draft.class(name)) {
                draft.store(Side::Mediator, Credential { head: draft.wanted, body });
            }
        }
        for end in [0, 1] {
            self.add_noise(&mut draft, end, 90);
        }
        draft
    }
}

#[cfg(test)]
mod tests {
    use super::*;
    use crate::ends::calls::Reference;
    use crate::ends::two_ends::TwoEnds;
    use crate::message::*;
    use crate::reply::needed::is_hidden;
    use crate::rules::relation::from;
    use crate::tables::{check, decode};

    #[test]
    fn all_tables_are_accepted() {
        let mut random = Random::new(6);
        let (mut guards, mut access, mut most) = (0, 0, 0);
        for _ in 0..2000 {
            for tables in random.pair().tables() {
                assert_eq!(check(&tables), 0);
                let tables = decode(&tables).unwrap();
                guards += tables.sensitive.len();
                access += tables.access.len();
                most = most.max(tables.issuer_stored.len().min(tables.subject_stored.len()));
            }
        }
        assert!(guards > 2000 && access > 500 && most == MOST_STORED, "{guards}, {access}, {most}");
        // The rarer ones as well, in houses whose listed names have one class too.
        for _ in 0..1000 {
            let drafts = [random.heavy_draft(), random.wide_draft(30, 9)];
            drafts.iter().flat_map(|draft| draft.pair().tables()).for_each(|tables| assert_eq!(check(&tables), 0));
        }
    }

    /// A direct credential of a sensitive role is sent only after credentials that prove, of the other end, the Ack role
    /// and, if set, the AC role.
    fn direct_credentials_are_guarded(two: &TwoEnds) {
        let houses = two.ends.each_ref().map(|end| decode(&end.tables).unwrap());
        let mut shown: Vec<Credential> = vec![];
        for (i, message) in two.messages.iter().enumerate() {
            let (own, other) = (&houses[i % 2], Expression::Entity(houses[1 - i % 2].own));
            let mut rest = &message[..];
            while let Some(bytes) = next_command(rest) {
                if let Some(Command::Credential(credential)) = decode_command(bytes) {
                    let guards = own.sensitive.iter().chain(&own.access).filter(|guard| guard.role == credential.head);
                    if is_hidden(own, &credential) {
                        guards.for_each(|guard| assert!(from(&shown, &Expression::Role(guard.by), &other)));
                    }
                    shown.push(credential);
                }
                rest = &rest[bytes.len()..];
            }
        }
    }

    /// No honest message is refused, both ends hold one graph, and every rule, stop and end occurs.
    #[test]
    fn honest_negotiations() {
        let (mut random, mut reference) = (Random::new(7), Reference::default());
        let mut ends = [0; 5];
        let mut messages = BTreeMap::new();
        // Successes after three messages or more with edges of each kind.
        let mut kinds = [0; 7];
        for _ in 0..1000 {
            let pair = random.pair();
            let mut two = TwoEnds::begun(&mut reference, pair.tables(), pair.wanted);
            let end = two.run(&mut reference);
            ends[end as usize] += 1;
            *messages.entry((end, two.messages.len())).or_insert(0) += 1;
            direct_credentials_are_guarded(&two);
            let state = two.ends[0].state();
            if end == 1 {
                // Satisfied means proved.
                let requesting = Expression::Entity(state.other);
                assert!(from(&state.shown, &Expression::Role(pair.wanted), &requesting));
            }
            if end == 1 && two.messages.len() > 2 {
                (1..=6).for_each(|kind| kinds[kind] += state.edges.iter().any(|edge| edge.kind == kind as u8) as u64);
            }
        }
        println!("long successes with edges of kinds 1 to 6: {:?}", &kinds[1..]);
        assert!(kinds[1..].iter().all(|&times| times > 20), "{kinds:?}");
        println!("ends 0 to 4: {ends:?}; by end and number of messages: {messages:?}");
        reference.counts.print();
        assert_eq!(reference.counts.missing(), [""; 0]);
        let long_successes: u64 =
            messages.iter().filter(|((end, count), _)| *end == 1 && *count > 2).map(|(_, times)| times).sum();
        assert!(long_successes > 100, "{long_successes}");
        assert!(ends[1..].iter().all(|&times| times > 0), "{ends:?}");
    }

    /// Without sensitive roles the negotiation succeeds exactly if the mediator's 0x12 and the requester's 0x13 prove
    /// the wanted role, unless it is full.
    #[test]
    fn success_without_sensitive_roles() {
        let (mut random, mut reference) = (Random::new(9), Reference::default());
        let mut proved_count = [0, 0];
        for _ in 0..600 {
            let mut draft = random.draft();
            draft.holdings.iter_mut().for_each(|holdings| holdings.sensitive.clear());
            let pair = draft.pair();
            let [mediator, requester] = pair.tables().map(|tables| decode(&tables).unwrap());
            let credentials = [mediator.issuer_stored, requester.subject_stored].concat();
            let proved = from(&credentials, &Expression::Role(pair.wanted), &Expression::Entity(requester.own));
            let mut two = TwoEnds::begun(&mut reference, pair.tables(), pair.wanted);
            let end = two.run(&mut reference);
            assert!(end == 4 || (end == 1) == proved, "end {end}, proved {proved}");
            proved_count[proved as usize] += 1;
        }
        println!("not proved and proved: {proved_count:?}");
        assert!(proved_count.iter().all(|&count| count > 40));
    }
}
