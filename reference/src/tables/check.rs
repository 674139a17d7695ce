//! The check of house tables.

use crate::refusal::Refusal;
use crate::rules::classes::{takes, Class};
use crate::rules::expression::*;
use crate::tables::records::*;

pub const MOST_TABLES_BYTES: usize = 4096;

#[derive(Clone, Debug, Default, PartialEq, Eq)]
pub struct Tables {
    /// Our own entity, or zero before its record is read.
    pub own: u16,
    pub names: Vec<(u16, Class)>,
    pub issuer_stored: Vec<Credential>,
    pub subject_stored: Vec<Credential>,
    pub sensitive: Vec<Guard>,
    pub access: Vec<Guard>,
}

impl Tables {
    /// The class that the name's 0x11 record gives it; a name without one is subject-all.
    pub fn class(&self, name: u16) -> Class {
        self.names.iter().find(|(known, _)| *known == name).map_or(Class::SubjectAll, |&(_, class)| class)
    }

    /// Whether one of the names has no 0x11 record.
    pub fn has_unlisted(&self, names: &[u16]) -> bool {
        names.iter().any(|&name| self.names.iter().all(|&(known, _)| known != name))
    }

    /// Whether 0x13 has the role's direct credential, role from self.
    pub fn holds(&self, role: Role) -> bool {
        self.subject_stored.contains(&Credential { head: role, body: Expression::Entity(self.own) })
    }

    pub fn is_sensitive(&self, role: Role) -> bool {
        self.sensitive.iter().any(|guard| guard.role == role)
    }

    fn add(&mut self, record: Record) {
        match record {
            Record::Own(entity) => self.own = entity,
            Record::Name(name, class) => self.names.push((name, class)),
            Record::IssuerStored(credential) => self.issuer_stored.push(credential),
            Record::SubjectStored(credential) => self.subject_stored.push(credential),
            Record::Sensitive(guard) => self.sensitive.push(guard),
            Record::Access(guard) => self.access.push(guard),
        }
    }
}

/// Whether a record keeps the class rules, by the records before it.
fn class_rules_kept(tables: &Tables, record: &Record) -> bool {
    let class_of = |name| tables.class(name);
    let stored = |credential: &Credential, heads: &[Class]| {
        let head = class_of(credential.head.name);
        heads.contains(&head) && takes(head, &credential.body, class_of)
    };
    match record {
        Record::Own(_) | Record::Name(..) => true,
        Record::IssuerStored(credential) => stored(credential, &[Class::IssuerDef, Class::IssuerAll]),
        Record::SubjectStored(credential) => stored(credential, &[Class::SubjectAll]),
        Record::Sensitive(guard) => class_of(guard.role.name) == Class::SubjectAll,
        // The role has class 3 if it is in 0x14.
        Record::Access(guard) => tables.holds(guard.role) && tables.is_sensitive(guard.role),
    }
}

/// The operand that the records of one command do not repeat.
fn first_operand(record: &[u8]) -> Option<&[u8]> {
    match record[0] {
        NAME => Some(&record[1..3]),
        SENSITIVE | ACCESS => Some(&record[1..5]),
        _ => None,
    }
}

/// Whether a record may stand after these.
fn in_order(earlier: &[&[u8]], record: &[u8]) -> bool {
    // Self is the first record.
    let Some(last) = earlier.last() else { return record[0] == SELF };
    let command_in_order = last[0] <= record[0];
    let alike: Vec<&[u8]> = earlier.iter().copied().filter(|other| other[0] == record[0]).collect();
    let ascending = alike.iter().all(|&other| other < record);
    let operand = first_operand(record);
    let repeated = operand.is_some() && alike.iter().any(|other| first_operand(other) == operand);
    let room = alike.len() < most_records(record[0]);
    command_in_order && ascending && !repeated && room
}

/// The next record, or None if there is none, or its command is unknown or cut.
pub fn next_record(bytes: &[u8]) -> Option<&[u8]> {
    bytes.get(..record_bytes(*bytes.first()?)?)
}

/// The tables, or why they are refused. Each record is judged by rising number before the next one is read.
pub fn decode(bytes: &[u8]) -> Result<Tables, Refusal> {
    if !(1..=MOST_TABLES_BYTES).contains(&bytes.len()) {
        return Err(Refusal::Length);
    }
    let mut tables = Tables::default();
    let mut earlier = Vec::new();
    let mut rest = bytes;
    while !rest.is_empty() {
        let own_bytes = next_record(rest).ok_or(Refusal::Command)?;
        let record = decode_record(own_bytes).ok_or(Refusal::Operand)?;
        if !class_rules_kept(&tables, &record) {
            return Err(Refusal::Class);
        }
        if !in_order(&earlier, own_bytes) {
            return Err(Refusal::Order);
        }
        tables.add(record);
        earlier.push(own_bytes);
        rest = &rest[own_bytes.len()..];
    }
    Ok(tables)
}

/// The answer of the call: 0, or the refusal's number.
pub fn check(bytes: &[u8]) -> u64 {
    match decode(bytes) {
        Ok(_) => 0,
        Err(refusal) => refusal as u64,
    }
}
