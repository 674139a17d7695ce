//! Faults in the records of house tables.

use crate::random::Random;
use crate::rules::classes::Class::*;
use crate::rules::expression::*;
use crate::tables::records::*;
use crate::tables::sample::Sample;

/// What can be done to one record. A few of the results are tables without a fault.
#[derive(Clone, Copy, Debug, PartialEq, Eq)]
pub enum Fault {
    Drop,
    Double,
    /// Once more with the same first operand and another last one.
    Repeat,
    SwapWithNext,
    Move,
    /// A record of any form and command beside it.
    Loose,
    Command,
    ZeroNumber,
    OtherNumber,
    /// The class byte, or the class of a name in it.
    ClassByte,
    /// A name that is not listed in place of one in it.
    UnlistedName,
    OtherName,
    /// A byte of the expression, or one that is unused.
    Form,
    /// A linked body of any two names.
    Link,
    /// A linked body that does not begin with the issuer.
    ForeignLink,
    /// Issuer-stored and subject-stored, Ack and AC.
    OtherTable,
    /// The direct credential of its role goes.
    NotHeld,
    /// The same is from another entity, or from a role of self.
    FromOther,
    FromRole,
    /// The 0x14 record of its role goes.
    NotSensitive,
}

pub const FAULTS: [Fault; 20] = [
    Fault::Drop,
    Fault::Double,
    Fault::Repeat,
    Fault::SwapWithNext,
    Fault::Move,
    Fault::Loose,
    Fault::Command,
    Fault::ZeroNumber,
    Fault::OtherNumber,
    Fault::ClassByte,
    Fault::UnlistedName,
    Fault::OtherName,
    Fault::Form,
    Fault::Link,
    Fault::ForeignLink,
    Fault::OtherTable,
    Fault::NotHeld,
    Fault::FromOther,
    Fault::FromRole,
    Fault::NotSensitive,
];

/// The record's command, or 0x10 where an earlier fault changed it into one of another length.
fn command(record: &[u8]) -> u8 {
    if record_bytes(record[0]) == Some(record.len()) {
        record[0]
    } else {
        SELF
    }
}

fn is_credential(record: &[u8]) -> bool {
    [ISSUER_STORED, SUBJECT_STORED].contains(&command(record))
}

/// Where a body begins.
const BODY: usize = 5;

/// Where the record's numbers are, unused ones too.
fn number_places(record: &[u8]) -> Vec<usize> {
    match command(record) {
        SELF | NAME => vec![1],
        SENSITIVE | ACCESS => vec![1, 3, 5, 7],
        _ => [1, 3].into_iter().chain((BODY + 2..record.len()).step_by(2)).collect(),
    }
}

/// Where the record's names are.
fn name_places(record: &[u8]) -> Vec<usize> {
    let in_body: &[usize] = match command(record) {
        SELF => return vec![],
        NAME => return vec![1],
        SENSITIVE | ACCESS => return vec![3, 7],
        _ => match (record[BODY], record[BODY + 1]) {
            (2, _) => &[9],
            (3, _) => &[9, 11],
            (4, count) => &[9, 13, 17, 21][..(count as usize).min(4)],
            _ => &[],
        },
    };
    [&[3], in_body].concat()
}

/// The changes.
impl Random {
    /// One of the places, or the first byte of the operands where there is none.
    fn one_of(&mut self, places: &[usize]) -> usize {
        if places.is_empty() {
            1
        } else {
            places[self.below(places.len())]
        }
    }

    /// A number of the house or near one.
    fn any_number(&mut self, sample: &Sample) -> u16 {
        let number = match self.below(3) {
            0 => self.between(0, 5) as u16,
            1 => self.entity(sample.house.world),
            _ => self.any_name(sample),
        };
        if self.percent(30) {
            number.wrapping_add([1, u16::MAX, 256, 255][self.below(4)])
        } else {
            number
        }
    }

    fn any_name(&mut self, sample: &Sample) -> u16 {
        self.name_of(&sample.house, &[IssuerDef, IssuerAll, SubjectAll]).unwrap()
    }

    /// A number of no name that is listed.
    fn unlisted_number(&mut self, sample: &Sample) -> u16 {
        loop {
            let number = self.any_number(sample);
            if number != 0 && sample.house.names.iter().all(|&(name, _)| name != number) {
                return number;
            }
        }
    }

    /// A record of right form that knows little of the others.
    pub fn loose_record(&mut self, sample: &Sample) -> Vec<u8> {
        let world = sample.house.world;
        let guard = Guard { role: self.role(world), by: self.role(world) };
        let class = [IssuerDef, IssuerAll, SubjectAll][self.below(3)];
        encode_record(&match self.below(8) {
            0 => Record::Own(self.entity(world)),
            1 => Record::Name(self.role(world).name, class),
            2..=3 => Record::IssuerStored(self.credential(world)),
            4..=5 => Record::SubjectStored(self.credential(world)),
            6 => Record::Sensitive(guard),
            _ => Record::Access(guard),
        })
    }

    /// Changes the class byte of this name record, or of one whose name this record has.
    fn change_class(&mut self, sample: &mut Sample, at: usize) {
        let record = &sample.records[at];
        let name_at = self.one_of(&name_places(record));
        let name = record[name_at..name_at + 2].to_vec();
        let byte = [0, 1, 2, 3, 4, 255][self.below(6)];
        for record in sample.records.iter_mut().filter(|r| command(r) == NAME && r[1..3] == name) {
            record[3] = byte;
        }
    }

    /// Changes one byte of a body, or of the operands of another record.
    fn change_form(&mut self, record: &mut [u8]) {
        let at = match self.below(3) {
            0 if is_credential(record) => BODY,
            1 if is_credential(record) => BODY + 1,
            _ => self.between(1, record.len() - 1),
        };
        record[at] = self.below(7) as u8;
    }

    /// Puts a linked body in a credential: of its issuer, or of another entity.
    fn link(&mut self, sample: &mut Sample, at: usize, foreign: bool) {
        let (first, second) = (self.any_name(sample), self.any_name(sample));
        let record = &mut sample.records[at];
        if is_credential(record) {
            let entity = u16::from_be_bytes([record[1], record[2]]);
            let entity = if foreign { (entity ^ [1, 256][self.below(2)]).max(1) } else { entity };
            let body = Expression::Linked(Role { entity, name: first }, second);
            record[BODY..].copy_from_slice(&encode_expression(&body));
        }
    }

    /// Another number at one of the places.
    fn change_number(&mut self, record: &mut [u8], places: &[usize], number: u16) {
        let at = self.one_of(places);
        record[at..at + 2].copy_from_slice(&number.to_be_bytes());
    }

    /// One fault at this record.
    pub fn put_fault(&mut self, sample: &mut Sample, fault: Fault, at: usize) {
        match fault {
            Fault::Drop | Fault::Double | Fault::Repeat | Fault::SwapWithNext | Fault::Move | Fault::Loose => {
                self.change_places(sample, fault, at)
            }
            Fault::NotHeld | Fault::FromOther | Fault::FromRole | Fault::NotSensitive => {
                change_need(&mut sample.records, fault, at)
            }
            _ => self.change_operands(sample, fault, at),
        }
    }

    fn change_places(&mut self, sample: &mut Sample, fault: Fault, at: usize) {
        let loose = self.loose_record(sample);
        let records = &mut sample.records;
        match fault {
            Fault::Double => records.insert(at, records[at].clone()),
            Fault::Repeat => records.insert(at + 1, repeated(&records[at])),
            Fault::SwapWithNext => {
                let next = (at + 1) % records.len();
                records.swap(at, next);
            }
            Fault::Move => {
                let record = records.remove(at);
                records.insert(self.below(records.len() + 1), record);
            }
            Fault::Loose => records.insert(at, loose),
            _ => drop(records.remove(at)),
        }
    }

    fn change_operands(&mut self, sample: &mut Sample, fault: Fault, at: usize) {
        let (any_number, any_name, unlisted) =
            (self.any_number(sample), self.any_name(sample), self.unlisted_number(sample));
        let record = &mut sample.records[at];
        let (numbers, names) = (number_places(record), name_places(record));
        match fault {
            Fault::Command if self.percent(70) => record[0] = self.below(0x18) as u8,
            Fault::Command => record[0] = self.byte(),
            Fault::ZeroNumber => self.change_number(record, &numbers, 0),
            Fault::OtherNumber => self.change_number(record, &numbers, any_number),
            Fault::UnlistedName => self.change_number(record, &names, unlisted),
            Fault::OtherName => self.change_number(record, &names, any_name),
            Fault::ClassByte => self.change_class(sample, at),
            Fault::Link => self.link(sample, at, false),
            Fault::ForeignLink => self.link(sample, at, true),
            // 0x12 and 0x13, 0x14 and 0x15.
            Fault::OtherTable => record[0] ^= (record[0] > NAME) as u8,
            _ => self.change_form(record),
        }
    }
}

/// The record with another class byte, or with the next entity in its second operand.
fn repeated(record: &[u8]) -> Vec<u8> {
    let place = match command(record) {
        SELF => 2,
        NAME => 3,
        SENSITIVE | ACCESS => 6,
        _ => BODY + 3,
    };
    let mut record = record.to_vec();
    record[place] = record[place].wrapping_add(1);
    record
}

/// Removes or changes what an AC record of the role that this record begins with would need.
fn change_need(records: &mut Vec<Vec<u8>>, fault: Fault, at: usize) {
    let role = records[at].get(1..5).map(<[u8]>::to_vec);
    let of_role = |record: &[u8]| role.is_some() && record.get(1..5) == role.as_deref();
    let direct = |record: &[u8]| command(record) == SUBJECT_STORED && record[BODY] == 1 && of_role(record);
    match fault {
        Fault::NotHeld => records.retain(|record| !direct(record)),
        Fault::NotSensitive => records.retain(|record| !(record[0] == SENSITIVE && of_role(record))),
        _ => {
            for record in records.iter_mut().filter(|record| direct(record)) {
                if fault == Fault::FromRole {
                    record[BODY] = 2;
                    record.copy_within(3..5, BODY + 4);
                } else {
                    record[BODY + 3] ^= 2;
                }
            }
        }
    }
}
