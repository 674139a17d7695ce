//! The records of house tables, and their bytes.

use crate::rules::classes::{decode_class, Class};
use crate::rules::expression::*;

/// The commands, in the order in which they stand.
pub const SELF: u8 = 0x10;
pub const NAME: u8 = 0x11;
pub const ISSUER_STORED: u8 = 0x12;
pub const SUBJECT_STORED: u8 = 0x13;
pub const SENSITIVE: u8 = 0x14;
pub const ACCESS: u8 = 0x15;

/// A sensitive role and its Ack role or AC role.
#[derive(Clone, Copy, Debug, PartialEq, Eq)]
pub struct Guard {
    pub role: Role,
    pub by: Role,
}

#[derive(Clone, Debug, PartialEq, Eq)]
pub enum Record {
    Own(u16),
    Name(u16, Class),
    IssuerStored(Credential),
    SubjectStored(Credential),
    Sensitive(Guard),
    Access(Guard),
}

impl Record {
    /// Every name in it but the one that it lists.
    pub fn names(&self) -> Vec<u16> {
        match self {
            Record::Own(_) | Record::Name(..) => vec![],
            Record::IssuerStored(stored) | Record::SubjectStored(stored) => stored.names(),
            Record::Sensitive(guard) | Record::Access(guard) => vec![guard.role.name, guard.by.name],
        }
    }
}

/// The bytes of a record, its command among them; None: there is no such command in tables.
pub fn record_bytes(command: u8) -> Option<usize> {
    match command {
        SELF => Some(3),
        NAME => Some(4),
        ISSUER_STORED | SUBJECT_STORED => Some(1 + CREDENTIAL_BYTES),
        SENSITIVE | ACCESS => Some(9),
        _ => None,
    }
}

/// How many records of a command the tables may have.
pub fn most_records(command: u8) -> usize {
    match command {
        SELF => 1,
        NAME | ISSUER_STORED | SUBJECT_STORED => 64,
        _ => 32,
    }
}

/// A number that is not zero.
fn number(bytes: &[u8]) -> Option<u16> {
    let number = u16::from_be_bytes([bytes[0], bytes[1]]);
    (number != 0).then_some(number)
}

fn role(bytes: &[u8]) -> Option<Role> {
    Some(Role { entity: number(&bytes[..2])?, name: number(&bytes[2..])? })
}

fn guard(bytes: &[u8]) -> Option<Guard> {
    Some(Guard { role: role(&bytes[..4])?, by: role(&bytes[4..])? })
}

/// The record that these bytes stand for, whose command is known; None: an operand has a wrong form.
pub fn decode_record(bytes: &[u8]) -> Option<Record> {
    let operands = &bytes[1..];
    match bytes[0] {
        SELF => number(operands).map(Record::Own),
        NAME => Some(Record::Name(number(operands)?, decode_class(operands[2])?)),
        ISSUER_STORED => decode_credential(operands).map(Record::IssuerStored),
        SUBJECT_STORED => decode_credential(operands).map(Record::SubjectStored),
        SENSITIVE => guard(operands).map(Record::Sensitive),
        ACCESS => guard(operands).map(Record::Access),
        command => unreachable!("command {command}"),
    }
}

fn encode_guard(command: u8, guard: &Guard) -> Vec<u8> {
    let numbers = [guard.role.entity, guard.role.name, guard.by.entity, guard.by.name];
    [vec![command], numbers.map(u16::to_be_bytes).concat()].concat()
}

pub fn encode_record(record: &Record) -> Vec<u8> {
    let credential = |command, credential| [vec![command], encode_credential(credential)].concat();
    match record {
        Record::Own(entity) => [&[SELF][..], &entity.to_be_bytes()].concat(),
        Record::Name(name, class) => [&[NAME][..], &name.to_be_bytes(), &[*class as u8]].concat(),
        Record::IssuerStored(stored) => credential(ISSUER_STORED, stored),
        Record::SubjectStored(stored) => credential(SUBJECT_STORED, stored),
        Record::Sensitive(guard) => encode_guard(SENSITIVE, guard),
        Record::Access(guard) => encode_guard(ACCESS, guard),
    }
}
