//! Random house tables without a fault.

use crate::random::Random;
use crate::rules::classes::Class::{self, *};
use crate::rules::expression::*;
use crate::rules::sample::World;
use crate::tables::records::*;
use std::collections::BTreeSet;

/// How many records of the commands 0x11 to 0x15.
pub type Sizes = [usize; 5];
pub const FULL: Sizes = [64, 64, 64, 32, 32];
pub const FULL_BYTES: usize = 3779;

/// What the records of one sample draw from: few entities and names, so that records meet.
#[derive(Clone)]
pub struct House {
    /// Its names are those that the tables list, and often some more.
    pub world: World,
    pub own: u16,
    /// The names that are listed, with their classes.
    pub names: Vec<(u16, Class)>,
}

impl House {
    /// The names of the world that are not listed.
    pub fn unlisted(&self) -> Vec<u16> {
        self.world.names().filter(|name| self.names.iter().all(|(listed, _)| listed != name)).collect()
    }

    /// The class of a name; one that is not listed is subject-all.
    pub fn class(&self, name: u16) -> Class {
        self.names.iter().find(|(listed, _)| *listed == name).map_or(SubjectAll, |&(_, class)| class)
    }

    /// The names of these classes, those that are not listed first.
    pub fn names_of(&self, classes: &[Class]) -> Vec<u16> {
        let unlisted = if classes.contains(&SubjectAll) { self.unlisted() } else { vec![] };
        let listed = self.names.iter().filter(|(_, class)| classes.contains(class)).map(|&(name, _)| name);
        unlisted.into_iter().chain(listed).collect()
    }
}

/// Tables as their records' bytes.
#[derive(Clone)]
pub struct Sample {
    pub house: House,
    pub records: Vec<Vec<u8>>,
}

/// The classes of the two names that a linked body may have under a head of this class.
fn links(head: Class) -> &'static [(Class, Class)] {
    match head {
        IssuerAll => &[(IssuerAll, IssuerAll)],
        SubjectAll => &[(SubjectAll, SubjectAll)],
        IssuerDef => &[
            (SubjectAll, SubjectAll),
            (IssuerAll, IssuerAll),
            (IssuerDef, SubjectAll),
            (IssuerAll, SubjectAll),
            (IssuerAll, IssuerDef),
        ],
    }
}

/// Parts of tables. None: the house has no name of that class.
impl Random {
    fn house(&mut self, name_count: usize) -> House {
        let most = if self.percent(20) { 60 } else { 6 };
        self.house_among(most, name_count)
    }

    /// A house in a world of two entities to so many, that lists so many names.
    pub fn house_among(&mut self, most_entities: usize, name_count: usize) -> House {
        // A world has two names or more.
        let unlisted_count = [0, 0, 1, 2, 4][self.below(5)].max(2usize.saturating_sub(name_count));
        let world = World::spread(self.between(2, most_entities), name_count + unlisted_count, self.below(5));
        let only = [IssuerDef, IssuerAll, SubjectAll][self.below(3)];
        let one_class = name_count < 60 && self.percent(5);
        let class = |i| if one_class { only } else { [IssuerDef, IssuerAll, SubjectAll][i % 3] };
        let mut names: Vec<u16> = world.names().collect();
        self.shuffle(&mut names);
        let names = names.into_iter().take(name_count).enumerate().map(|(i, name)| (name, class(i))).collect();
        House { world, own: self.entity(world), names }
    }

    pub fn name_of(&mut self, house: &House, classes: &[Class]) -> Option<u16> {
        let names = house.names_of(classes);
        (!names.is_empty()).then(|| names[self.below(names.len())])
    }

    /// A name that is not listed: one of the world, or the next one where all of those are listed.
    pub fn unlisted_name(&mut self, house: &House) -> u16 {
        let next = house.world.number(house.names.len() + 1);
        let names = house.unlisted();
        names.get(self.below(names.len().max(1))).copied().unwrap_or(next)
    }

    pub fn role_of(&mut self, house: &House, classes: &[Class]) -> Option<Role> {
        Some(Role { entity: self.entity(house.world), name: self.name_of(house, classes)? })
    }

    /// A body that a head of this class takes.
    pub fn body_for(&mut self, house: &House, issuer: u16, head: Class) -> Option<Expression> {
        let only = [head];
        let classes: &[Class] = if head == IssuerDef { &[IssuerDef, IssuerAll, SubjectAll] } else { &only };
        Some(match self.below(8) {
            0..=1 => Expression::Entity(self.entity(house.world)),
            2..=3 => Expression::Role(self.role_of(house, classes)?),
            4..=5 => {
                let (first, second) = links(head)[self.below(links(head).len())];
                let base = Role { entity: issuer, name: self.name_of(house, &[first])? };
                Expression::Linked(base, self.name_of(house, &[second])?)
            }
            _ => {
                let count = self.between(2, 4);
                let parts: Option<BTreeSet<Role>> = (0..count).map(|_| self.role_of(house, classes)).collect();
                let parts: Vec<Role> = parts?.into_iter().collect();
                if parts.len() < 2 {
                    return None;
                }
                Expression::Intersection(parts)
            }
        })
    }

    /// A credential whose head has one of these classes.
    pub fn stored(&mut self, house: &House, heads: &[Class]) -> Option<Credential> {
        let head = self.role_of(house, heads)?;
        Some(Credential { head, body: self.body_for(house, head.entity, house.class(head.name))? })
    }

    /// Makes items until the group has so many, if that many can be found.
    fn fill<T: Ord>(&mut self, group: &mut BTreeSet<T>, count: usize, make: impl Fn(&mut Random) -> Option<T>) {
        for _ in 0..20 * count {
            if group.len() < count {
                group.extend(make(self));
            }
        }
    }

    /// So many records with heads of these classes. The second count are direct; the roles of these are given too.
    fn credentials(
        &mut self,
        house: &House,
        count: usize,
        held_count: usize,
        heads: &[Class],
        record: fn(Credential) -> Record,
    ) -> (BTreeSet<Role>, BTreeSet<Vec<u8>>) {
        let mut held = BTreeSet::new();
        self.fill(&mut held, held_count, |random| random.role_of(house, heads));
        let direct = |&head: &Role| Credential { head, body: Expression::Entity(house.own) };
        let mut records = held.iter().map(|role| encode_record(&record(direct(role)))).collect();
        self.fill(&mut records, count, |random| Some(encode_record(&record(random.stored(house, heads)?))));
        (held, records)
    }

    /// A record for each of the roles, with any role.
    fn guards(&mut self, house: &House, roles: BTreeSet<Role>, record: fn(Guard) -> Record) -> Vec<Vec<u8>> {
        let by = |random: &mut Random| random.role_of(house, &[IssuerDef, IssuerAll, SubjectAll]);
        roles.into_iter().filter_map(|role| Some(encode_record(&record(Guard { role, by: by(self)? })))).collect()
    }
}

/// Tables without a fault.
impl Random {
    /// Tables of these sizes, or smaller where the house has too little. Sizes above the most give records that are
    /// right but for their number.
    pub fn sample(&mut self, sizes: Sizes) -> Sample {
        let house = self.house(sizes[0]);
        self.sample_of(house, sizes)
    }

    /// The same of this house, which has its names.
    pub fn sample_of(&mut self, house: House, sizes: Sizes) -> Sample {
        let [_, issuer_count, subject_count, sensitive_count, access_count] = sizes;
        let house = &house;
        let mut names: Vec<Record> = house.names.iter().map(|&(name, class)| Record::Name(name, class)).collect();
        names.sort_by_key(encode_record);

        let (_, issuer_stored) =
            self.credentials(house, issuer_count, 0, &[IssuerDef, IssuerAll], Record::IssuerStored);
        // Some of the other storage are direct, enough for the AC records.
        let held_count = self.between(access_count.min(subject_count), subject_count);
        let (held, subject_stored) =
            self.credentials(house, subject_count, held_count, &[SubjectAll], Record::SubjectStored);

        // AC roles are held and sensitive; other sensitive roles may be held or not.
        let mut held: Vec<Role> = held.into_iter().collect();
        self.shuffle(&mut held);
        let access: BTreeSet<Role> = held.into_iter().take(access_count.min(sensitive_count)).collect();
        let mut sensitive = access.clone();
        self.fill(&mut sensitive, sensitive_count, |random| random.role_of(house, &[SubjectAll]));

        let mut records = vec![encode_record(&Record::Own(house.own))];
        records.extend(names.iter().map(encode_record));
        records.extend(issuer_stored);
        records.extend(subject_stored);
        records.extend(self.guards(house, sensitive, Record::Sensitive));
        records.extend(self.guards(house, access, Record::Access));
        Sample { house: house.clone(), records }
    }

    /// From none to full, often small.
    pub fn sizes(&mut self) -> Sizes {
        let kind = self.below(10);
        let mut sizes = FULL.map(|most| match kind {
            0 => most,
            1..=2 => self.between(0, most),
            _ => [0, 5, 5, 10][self.below(4)].min(self.below(most + 1)),
        });
        // Where no name is listed, all are subject-all.
        match self.below(10) {
            0 => sizes[0] = 0,
            1 => {}
            _ => sizes[0] = sizes[0].max(3),
        }
        sizes
    }

    /// Full sizes, but for the group of one of 0x11 to 0x14 that has one record too many. (A 33rd AC record is refused
    /// for its role, which cannot be in 0x14.)
    pub fn one_too_many(&mut self, command: u8) -> Sample {
        let mut sizes = FULL;
        sizes[(command - NAME) as usize] += 1;
        self.sample(sizes)
    }
}
