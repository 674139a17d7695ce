//! Tables at their sizes whose check takes long.

use crate::rules::classes::Class::{self, *};
use crate::rules::expression::*;
use crate::tables::records::*;

pub struct TableShape {
    pub name: &'static str,
    pub bytes: fn() -> Vec<u8>,
}

pub const TABLE_SHAPES: [TableShape; 4] = [
    TableShape { name: "intersections of four, last names", bytes: || tables(last_two, true) },
    TableShape { name: "intersections of four, first names", bytes: || tables(first_two, true) },
    TableShape { name: "intersections of four, no AC, last names", bytes: || tables(last_two, false) },
    TableShape { name: "intersections of four, no AC, all names", bytes: || tables(in_turn, false) },
];

const OWN: u16 = 1000;

/// Gives the i-th use of a name of class 2 or of class 3.
type Pick = fn(Class, u16) -> u16;

/// The name of class 2 or 3 that stands last.
fn last_two(class: Class, _: u16) -> u16 {
    62 + class as u16
}

/// The same for those that stand first.
fn first_two(class: Class, _: u16) -> u16 {
    class as u16
}

/// Every name of the class in turn.
fn in_turn(class: Class, i: u16) -> u16 {
    class as u16 + 2 * (i % 32)
}

/// Names 2 to 65: the even ones have class 2, the odd ones class 3.
fn names() -> Vec<Record> {
    (2..=65).map(|name| Record::Name(name, if name % 2 == 0 { IssuerAll } else { SubjectAll })).collect()
}

/// The i-th credential: its bytes differ from those of the last one as late as the names allow.
fn intersection(pick: Pick, class: Class, i: u16) -> Credential {
    let part = |k| Role { entity: if k < 4 { k } else { 4 + i }, name: pick(class, i + k) };
    let head = Role { entity: 1, name: pick(class, 0) };
    Credential { head, body: Expression::Intersection((1..=4).map(part).collect()) }
}

/// All sizes are full; without AC records every credential is an intersection.
fn tables(pick: Pick, access: bool) -> Vec<u8> {
    let role = |i| Role { entity: 100 + i, name: pick(SubjectAll, i) };
    let guard = |i| Guard { role: role(i), by: role(63 - i) };
    let intersections = if access { 32 } else { 64 };
    let mut records = vec![Record::Own(OWN)];
    records.extend(names());
    records.extend((0..64).map(|i| Record::IssuerStored(intersection(pick, IssuerAll, i))));
    records.extend((0..intersections).map(|i| Record::SubjectStored(intersection(pick, SubjectAll, i))));
    if access {
        let direct = |i| Credential { head: role(i), body: Expression::Entity(OWN) };
        records.extend((0..32).map(|i| Record::SubjectStored(direct(i))));
    }
    records.extend((0..32).map(|i| Record::Sensitive(guard(i))));
    if access {
        records.extend((0..32).map(|i| Record::Access(guard(i))));
    }
    let mut bytes: Vec<Vec<u8>> = records.iter().map(encode_record).collect();
    bytes.sort();
    bytes.concat()
}

#[cfg(test)]
mod tests {
    use super::*;
    use crate::tables::check;
    use crate::tables::sample::FULL_BYTES;

    #[test]
    fn all_are_accepted() {
        let lengths = TABLE_SHAPES.map(|shape| {
            let bytes = (shape.bytes)();
            assert_eq!(check(&bytes), 0, "{}", shape.name);
            bytes.len()
        });
        let without_access = FULL_BYTES - 32 * 9;
        assert_eq!(lengths, [FULL_BYTES, FULL_BYTES, without_access, without_access]);
    }
}
