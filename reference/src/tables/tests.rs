//! Hand-written tables for each refusal and each rule. Self is 9; name 1 has class 1, 2 class 2, 3 class 3; others are not
//! listed.

use crate::rules::classes::decode_class;
use crate::rules::expression::*;
use crate::tables::records::*;
use crate::tables::*;
use std::slice::from_ref;

fn role(entity: u16, name: u16) -> Role {
    Role { entity, name }
}

fn entity(entity: u16) -> Expression {
    Expression::Entity(entity)
}

fn of(entity: u16, name: u16) -> Expression {
    Expression::Role(role(entity, name))
}

fn linked(entity: u16, first: u16, second: u16) -> Expression {
    Expression::Linked(role(entity, first), second)
}

fn parts(parts: &[(u16, u16)]) -> Expression {
    Expression::Intersection(parts.iter().map(|&(entity, name)| role(entity, name)).collect())
}

fn own(entity: u16) -> Vec<u8> {
    encode_record(&Record::Own(entity))
}

fn name(name: u16, class: u8) -> Vec<u8> {
    encode_record(&Record::Name(name, decode_class(class).unwrap()))
}

fn issuer_stored(entity: u16, name: u16, body: Expression) -> Vec<u8> {
    encode_record(&Record::IssuerStored(Credential { head: role(entity, name), body }))
}

fn subject_stored(entity: u16, name: u16, body: Expression) -> Vec<u8> {
    encode_record(&Record::SubjectStored(Credential { head: role(entity, name), body }))
}

fn sensitive(of: (u16, u16), by: (u16, u16)) -> Vec<u8> {
    encode_record(&Record::Sensitive(Guard { role: role(of.0, of.1), by: role(by.0, by.1) }))
}

fn access(of: (u16, u16), by: (u16, u16)) -> Vec<u8> {
    encode_record(&Record::Access(Guard { role: role(of.0, of.1), by: role(by.0, by.1) }))
}

/// Self and the three names.
fn start() -> Vec<u8> {
    [own(9), name(1, 1), name(2, 2), name(3, 3)].concat()
}

/// The answer for these records after self and the names.
fn after_start(records: &[Vec<u8>]) -> u64 {
    check(&[start(), records.concat()].concat())
}

/// The answer for these records alone.
fn alone(records: &[Vec<u8>]) -> u64 {
    check(&records.concat())
}

/// The record with this byte at that place.
fn with(mut record: Vec<u8>, at: usize, byte: u8) -> Vec<u8> {
    record[at] = byte;
    record
}

#[test]
fn tables_are_read() {
    let bytes = [
        start(),
        issuer_stored(9, 1, of(4, 3)),
        subject_stored(4, 3, entity(9)),
        sensitive((4, 3), (5, 1)),
        access((4, 3), (6, 2)),
    ]
    .concat();
    let tables = decode(&bytes).unwrap();
    assert_eq!(tables.own, 9);
    assert_eq!([1, 2, 3, 4, 65535].map(|name| tables.class(name) as u8), [1, 2, 3, 3, 3]);
    assert_eq!(tables.issuer_stored, [Credential { head: role(9, 1), body: of(4, 3) }]);
    assert_eq!(tables.subject_stored, [Credential { head: role(4, 3), body: entity(9) }]);
    assert_eq!(tables.sensitive, [Guard { role: role(4, 3), by: role(5, 1) }]);
    assert_eq!(tables.access, [Guard { role: role(4, 3), by: role(6, 2) }]);
    assert!(tables.holds(role(4, 3)) && !tables.holds(role(4, 2)));
}

#[test]
fn bytes_of_records() {
    assert_eq!(own(0x0102), [0x10, 1, 2]);
    assert_eq!(name(0x0102, 3), [0x11, 1, 2, 3]);
    assert_eq!(issuer_stored(1, 2, entity(3))[..9], [0x12, 0, 1, 0, 2, 1, 0, 0, 3]);
    assert_eq!(subject_stored(1, 2, of(3, 4))[..11], [0x13, 0, 1, 0, 2, 2, 0, 0, 3, 0, 4]);
    assert_eq!(sensitive((1, 2), (3, 4)), [0x14, 0, 1, 0, 2, 0, 3, 0, 4]);
    assert_eq!(access((1, 2), (3, 4)), [0x15, 0, 1, 0, 2, 0, 3, 0, 4]);
}

#[test]
fn lengths() {
    assert_eq!(check(&[]), 1);
    assert_eq!(check(&[0]), 2);
    assert_eq!(check(&[0; 4096]), 2);
    assert_eq!(check(&[0; 4097]), 1);
    // A good beginning does not help.
    let mut bytes = start();
    bytes.resize(4097, 0);
    assert_eq!(check(&bytes), 1);
    assert_eq!(check(&bytes[..4096]), 2);
}

#[test]
fn commands() {
    assert_eq!(alone(&[own(9)]), 0);
    for command in (0..=255).filter(|command| !(0x10..=0x15).contains(command)) {
        assert_eq!(check(&[command]), 2);
        assert_eq!(after_start(&[vec![command; 30]]), 2);
    }
    // Message commands, and the end.
    assert_eq!(after_start(&[with(issuer_stored(9, 1, entity(2)), 0, 0x01)]), 2);
    assert_eq!(after_start(&[vec![0x06]]), 2);
}

#[test]
fn cut_records() {
    let records = [
        own(9),
        name(3, 3),
        issuer_stored(9, 3, entity(9)),
        subject_stored(4, 3, entity(9)),
        sensitive((4, 3), (5, 3)),
        access((4, 3), (5, 3)),
    ];
    for record in records {
        for length in 1..record.len() {
            assert_eq!(check(&record[..length]), 2);
            assert_eq!(after_start(&[record[..length].to_vec()]), 2);
            // A cut record of zeros is cut, not of wrong form.
            assert_eq!(after_start(&[with(vec![0; length], 0, record[0])]), 2);
        }
    }
}

#[test]
fn zero_numbers() {
    assert_eq!(check(&[0x10, 0, 0]), 3);
    assert_eq!(check(&[0x10, 1, 0]), 0);
    assert_eq!(alone(&[own(9), vec![0x11, 0, 0, 1]]), 3);
    assert_eq!(after_start(&[issuer_stored(0, 1, entity(2))]), 3);
    assert_eq!(after_start(&[issuer_stored(2, 0, entity(2))]), 3);
    assert_eq!(after_start(&[subject_stored(2, 3, entity(0))]), 3);
    for at in 0..4 {
        let mut numbers = [4, 3, 4, 3];
        numbers[at] = 0;
        let [a, b, c, d] = numbers;
        assert_eq!(after_start(&[sensitive((a, b), (c, d))]), 3);
        assert_eq!(after_start(&[access((a, b), (c, d))]), 3);
    }
}

#[test]
fn class_bytes() {
    for class in 0..=255 {
        let expected = if (1..=3).contains(&class) { 0 } else { 3 };
        assert_eq!(alone(&[own(9), vec![0x11, 0, 1, class]]), expected);
    }
}

#[test]
fn credential_forms() {
    let stored = |body: Expression| issuer_stored(9, 1, body);
    let wrong = [
        with(stored(entity(2)), 5, 0),
        with(stored(entity(2)), 5, 5),
        with(stored(entity(2)), 5, 6),
        with(stored(entity(2)), 6, 1),
        with(stored(entity(2)), 22, 1),
        with(stored(of(2, 2)), 6, 2),
        stored(linked(8, 2, 2)),
        stored(parts(&[(2, 2)])),
        stored(parts(&[(2, 2), (2, 2)])),
        stored(parts(&[(2, 2), (2, 1)])),
        stored(parts(&[(2, 1), (1, 2)])),
        stored(parts(&[(1, 1), (2, 2), (3, 3), (3, 3)])),
    ];
    for record in wrong {
        assert_eq!(after_start(from_ref(&record)), 3, "{record:?}");
        assert_eq!(after_start(&[with(record, 0, 0x13)]), 3);
    }
    assert_eq!(after_start(&[stored(linked(9, 2, 2))]), 0);
    assert_eq!(after_start(&[stored(parts(&[(1, 1), (1, 2), (2, 1), (2, 3)]))]), 0);
}

/// A head that is not listed is subject-all, whatever the body.
#[test]
fn unlisted_heads() {
    let bodies = [
        (entity(9), 0),
        (entity(4), 0),
        (of(2, 4), 0),
        (of(2, 5), 0),
        (of(2, 3), 0),
        (of(2, 1), 5),
        (of(2, 2), 5),
        (linked(9, 4, 4), 0),
        (linked(9, 4, 5), 0),
        (linked(9, 4, 3), 0),
        (linked(9, 3, 4), 0),
        (linked(9, 3, 3), 0),
        // Issuer-def, issuer-all, ill-typed.
        (linked(9, 1, 4), 5),
        (linked(9, 2, 4), 5),
        (linked(9, 2, 2), 5),
        (linked(9, 4, 1), 5),
        (linked(9, 4, 2), 5),
        (parts(&[(1, 4), (2, 5)]), 0),
        (parts(&[(1, 4), (2, 3)]), 0),
        (parts(&[(1, 3), (2, 4), (3, 5), (4, 3)]), 0),
        (parts(&[(1, 4), (2, 1)]), 5),
        (parts(&[(1, 4), (2, 2)]), 5),
        (parts(&[(1, 2), (2, 2)]), 5),
        (parts(&[(1, 4), (2, 4), (3, 4), (4, 1)]), 5),
    ];
    for (body, answer) in bodies {
        assert_eq!(after_start(&[subject_stored(9, 4, body.clone())]), answer, "{body:?}");
        assert_eq!(after_start(&[issuer_stored(9, 4, body)]), 5);
    }
}

/// A body with a name that is not listed, under listed heads.
#[test]
fn unlisted_bodies() {
    assert_eq!(heads(of(2, 4)), [1, 3]);
    for (first, second) in [(4, 4), (4, 5), (4, 3), (3, 4)] {
        assert_eq!(heads(linked(9, first, second)), [1, 3]);
    }
    for (first, second) in [(1, 4), (2, 4)] {
        assert_eq!(heads(linked(9, first, second)), [1]);
    }
    for (first, second) in [(4, 1), (4, 2)] {
        assert_eq!(heads(linked(9, first, second)), []);
    }
    assert_eq!(heads(parts(&[(1, 4), (2, 4)])), [1, 3]);
    assert_eq!(heads(parts(&[(1, 3), (2, 4), (3, 5), (4, 6)])), [1, 3]);
    assert_eq!(heads(parts(&[(1, 2), (2, 4)])), [1]);
    assert_eq!(heads(parts(&[(1, 1), (2, 4), (3, 3)])), [1]);
}

#[test]
fn unlisted_sensitive_roles() {
    for class in 1..=4 {
        assert_eq!(after_start(&[sensitive((5, 4), (5, class))]), 0);
    }
    assert_eq!(after_start(&[sensitive((5, 3), (5, 4))]), 0);
    assert_eq!(after_start(&[sensitive((5, 1), (5, 4))]), 5);
    // The AC role may be unlisted, and so may the role itself; it needs the same records as any.
    for role in [(4, 3), (4, 4)] {
        let direct = subject_stored(role.0, role.1, entity(9));
        let set = sensitive(role, (6, 5));
        assert_eq!(after_start(&[direct.clone(), set.clone(), access(role, (7, 5))]), 0);
        assert_eq!(after_start(&[set, access(role, (7, 5))]), 5);
        assert_eq!(after_start(&[direct, access(role, (7, 5))]), 5);
    }
}

/// The class is that of a record before: one that comes later gives none, and is out of order.
#[test]
fn names_listed_later() {
    assert_eq!(after_start(&[issuer_stored(9, 4, entity(2)), name(4, 1)]), 5);
    assert_eq!(after_start(&[subject_stored(9, 4, entity(2)), name(4, 1)]), 6);
    assert_eq!(after_start(&[sensitive((9, 4), (1, 1)), name(4, 1)]), 6);
    assert_eq!(after_start(&[name(4, 1), subject_stored(9, 4, entity(2))]), 5);
    assert_eq!(after_start(&[name(4, 1), issuer_stored(9, 4, entity(2))]), 0);
}

/// Without a listed name there is no issuer-stored credential, and all else.
#[test]
fn no_name_listed() {
    let records = [
        own(9),
        subject_stored(4, 1, entity(9)),
        subject_stored(4, 1, of(5, 2)),
        subject_stored(4, 1, linked(4, 2, 3)),
        subject_stored(4, 1, parts(&[(5, 2), (6, 3)])),
        sensitive((4, 1), (5, 2)),
        access((4, 1), (6, 3)),
    ];
    for count in 1..=records.len() {
        assert_eq!(alone(&records[..count]), 0);
    }
    assert_eq!(alone(&[own(9), issuer_stored(9, 1, entity(2))]), 5);
    assert_eq!(alone(&[own(9), access((4, 1), (6, 3))]), 5);
}

#[test]
fn heads_and_storage() {
    for (head, issuer, subject) in [(1, 0, 5), (2, 0, 5), (3, 5, 0)] {
        assert_eq!(after_start(&[issuer_stored(5, head, entity(5))]), issuer);
        assert_eq!(after_start(&[subject_stored(5, head, entity(5))]), subject);
    }
}

/// The heads of class 1 to 3, each in its storage, that take a body of issuer 9.
fn heads(body: Expression) -> Vec<u16> {
    let answers = [
        (1, after_start(&[issuer_stored(9, 1, body.clone())])),
        (2, after_start(&[issuer_stored(9, 2, body.clone())])),
        (3, after_start(&[subject_stored(9, 3, body)])),
    ];
    assert!(answers.iter().all(|(_, answer)| [0, 5].contains(answer)));
    answers.iter().filter(|(_, answer)| *answer == 0).map(|(head, _)| *head).collect()
}

#[test]
fn heads_and_bodies() {
    assert_eq!(heads(entity(1)), [1, 2, 3]);
    assert_eq!(heads(of(7, 1)), [1]);
    assert_eq!(heads(of(7, 2)), [1, 2]);
    assert_eq!(heads(of(7, 3)), [1, 3]);
    assert_eq!(heads(linked(9, 3, 3)), [1, 3]);
    assert_eq!(heads(linked(9, 2, 2)), [1, 2]);
    for (first, second) in [(1, 3), (2, 3), (2, 1)] {
        assert_eq!(heads(linked(9, first, second)), [1]);
    }
    for (first, second) in [(1, 1), (1, 2), (3, 1), (3, 2)] {
        assert_eq!(heads(linked(9, first, second)), []);
    }
    assert_eq!(heads(parts(&[(1, 2), (2, 2), (3, 2), (4, 2)])), [1, 2]);
    assert_eq!(heads(parts(&[(1, 3), (2, 3)])), [1, 3]);
    assert_eq!(heads(parts(&[(1, 3), (2, 2)])), [1]);
    assert_eq!(heads(parts(&[(1, 2), (2, 2), (3, 2), (4, 1)])), [1]);
    assert_eq!(heads(parts(&[(1, 1), (2, 3), (3, 3)])), [1]);
}

#[test]
fn sensitive_roles() {
    for (class, answer) in [(1, 5), (2, 5), (3, 0)] {
        assert_eq!(after_start(&[sensitive((5, class), (5, 3))]), answer);
        // The Ack role may have any class and any entity, and be the role itself.
        assert_eq!(after_start(&[sensitive((5, 3), (9, class))]), 0);
    }
    assert_eq!(after_start(&[sensitive((5, 3), (5, 3))]), 0);
}

#[test]
fn access_records() {
    let direct = || subject_stored(4, 3, entity(9));
    let set = || sensitive((4, 3), (5, 1));
    let record = || access((4, 3), (5, 1));
    for class in 1..=3 {
        assert_eq!(after_start(&[direct(), set(), access((4, 3), (7, class))]), 0);
        assert_eq!(after_start(&[direct(), set(), access((4, class), (7, 3))]), if class == 3 { 0 } else { 5 });
    }
    assert_eq!(after_start(&[record()]), 5);
    assert_eq!(after_start(&[direct(), record()]), 5);
    assert_eq!(after_start(&[set(), record()]), 5);
    // From another entity, from a role, of another role.
    assert_eq!(after_start(&[subject_stored(4, 3, entity(8)), set(), record()]), 5);
    assert_eq!(after_start(&[subject_stored(4, 3, of(9, 3)), set(), record()]), 5);
    assert_eq!(after_start(&[subject_stored(5, 3, entity(9)), set(), record()]), 5);
    assert_eq!(after_start(&[direct(), sensitive((5, 3), (4, 3)), record()]), 5);
    // What it needs comes too late.
    assert_eq!(after_start(&[direct(), record(), set()]), 5);
    assert_eq!(after_start(&[set(), record(), direct()]), 5);
}

#[test]
fn commands_in_order() {
    let records = [
        issuer_stored(9, 1, entity(2)),
        subject_stored(4, 3, entity(9)),
        sensitive((4, 3), (5, 3)),
        access((4, 3), (5, 3)),
    ];
    assert_eq!(after_start(&records), 0);
    for later in 0..4 {
        for earlier in 0..later {
            // The earlier record once more, with a byte or an operand that none has.
            let more = [issuer_stored(9, 2, entity(3)), subject_stored(5, 3, entity(9)), sensitive((5, 3), (5, 3))];
            assert_eq!(after_start(&[records[..=later].to_vec(), vec![more[earlier].clone()]].concat()), 6);
        }
        assert_eq!(after_start(&[records[..=later].to_vec(), vec![name(4, 1)]].concat()), 6);
        assert_eq!(after_start(&[records[..=later].to_vec(), vec![own(10)]].concat()), 6);
    }
}

#[test]
fn own_record() {
    assert_eq!(alone(&[own(9), own(9)]), 6);
    assert_eq!(alone(&[own(9), own(10)]), 6);
    assert_eq!(after_start(&[own(10)]), 6);
    // Missing: it shows at the first record, after that one's own 2 to 5. No name is listed there.
    assert_eq!(alone(&[name(1, 1)]), 6);
    assert_eq!(alone(&[name(1, 1), vec![0]]), 6);
    assert_eq!(alone(&[vec![0x11, 0, 1]]), 2);
    assert_eq!(alone(&[vec![0x11, 0, 1, 0], own(9)]), 3);
    assert_eq!(alone(&[issuer_stored(9, 1, entity(2)), own(9)]), 5);
    assert_eq!(alone(&[access((4, 3), (5, 3))]), 5);
    for body in [entity(2), of(2, 1), linked(9, 1, 2), parts(&[(1, 1), (2, 2)])] {
        assert_eq!(alone(&[subject_stored(9, 1, body.clone()), own(9)]), 6);
        assert_eq!(alone(&[issuer_stored(9, 1, body)]), 5);
    }
    assert_eq!(alone(&[subject_stored(9, 1, linked(8, 1, 2))]), 3);
    assert_eq!(alone(&[sensitive((4, 3), (5, 3))]), 6);
    assert_eq!(alone(&[sensitive((4, 3), (5, 3)), access((4, 3), (5, 3))]), 6);
}

#[test]
fn ascending_and_repeated() {
    let table = [
        // Bytes, not numbers alone: the high byte counts first.
        (vec![name(255, 1), name(256, 1)], 0),
        (vec![name(256, 1), name(255, 1)], 6),
        (vec![name(5, 1), name(5, 1)], 6),
        (vec![name(5, 1), name(5, 2)], 6),
        (vec![name(5, 3), name(6, 1)], 0),
    ];
    for (records, answer) in table {
        assert_eq!(alone(&[own(9), records.concat()]), answer);
    }
    let table = [
        (vec![issuer_stored(9, 1, entity(2)), issuer_stored(9, 1, entity(2))], 6),
        (vec![issuer_stored(9, 1, entity(2)), issuer_stored(9, 1, entity(3))], 0),
        (vec![issuer_stored(9, 1, entity(3)), issuer_stored(9, 1, entity(2))], 6),
        (vec![issuer_stored(9, 1, entity(3)), issuer_stored(9, 1, of(2, 2))], 0),
        (vec![issuer_stored(9, 2, entity(2)), issuer_stored(9, 1, entity(3))], 6),
        (vec![issuer_stored(9, 1, entity(2)), subject_stored(8, 3, entity(1))], 0),
        (vec![subject_stored(9, 3, entity(2)), subject_stored(9, 3, entity(2))], 6),
        (vec![subject_stored(9, 3, entity(2)), subject_stored(8, 3, entity(3))], 6),
        (vec![sensitive((4, 3), (5, 3)), sensitive((4, 3), (5, 3))], 6),
        (vec![sensitive((4, 3), (5, 3)), sensitive((4, 3), (6, 3))], 6),
        (vec![sensitive((4, 3), (5, 3)), sensitive((3, 3), (6, 3))], 6),
        (vec![sensitive((4, 3), (5, 3)), sensitive((5, 3), (4, 3))], 0),
    ];
    for (records, answer) in table {
        assert_eq!(after_start(&records), answer, "{records:?}");
    }
    let held = [4, 5].map(|entity| subject_stored(entity, 3, Expression::Entity(9))).concat();
    let set = [4, 5].map(|entity| sensitive((entity, 3), (1, 1))).concat();
    let table = [
        (vec![access((4, 3), (1, 1)), access((5, 3), (1, 1))], 0),
        (vec![access((5, 3), (1, 1)), access((4, 3), (1, 1))], 6),
        (vec![access((4, 3), (1, 1)), access((4, 3), (1, 1))], 6),
        (vec![access((4, 3), (1, 1)), access((4, 3), (1, 2))], 6),
    ];
    for (records, answer) in table {
        assert_eq!(after_start(&[held.clone(), set.clone(), records.concat()]), answer);
    }
}

#[test]
fn sizes() {
    let names: Vec<Vec<u8>> = (1..=65).map(|n| name(n, if n == 3 { 3 } else { 1 })).collect();
    assert_eq!(alone(&[own(9), names[..64].concat()]), 0);
    assert_eq!(alone(&[own(9), names.concat()]), 6);

    type Make = fn(u16) -> Vec<u8>;
    let groups: [(usize, Make); 3] = [
        (64, |i| issuer_stored(i, 1, entity(2))),
        (64, |i| subject_stored(i, 3, entity(9))),
        (32, |i| sensitive((i, 3), (1, 1))),
    ];
    let mut before = start();
    for (most, make) in groups {
        let records: Vec<Vec<u8>> = (1..=most as u16 + 1).map(make).collect();
        before.extend(records[..most].concat());
        assert_eq!(check(&before), 0);
        assert_eq!(check(&[&before[..], &records[most]].concat()), 6);
        // Its own 2 to 5 come first; class 2 breaks a rule of the last two groups only, a name that is not listed one of
        // the first group.
        let last = &records[most];
        let (class_2, unlisted) = if last[0] == ISSUER_STORED { (6, 5) } else { (5, 6) };
        let wrong = [
            (2, last[..8].to_vec()),
            (3, with(last.clone(), 4, 0)),
            (class_2, with(last.clone(), 4, 2)),
            (unlisted, with(last.clone(), 4, 7)),
        ];
        for (number, record) in wrong {
            assert_eq!(check(&[before.clone(), record].concat()), number);
        }
    }
    before.extend((1..=32).map(|i| access((i, 3), (1, 1))).collect::<Vec<_>>().concat());
    assert_eq!(check(&before), 0);
    // A 33rd role cannot be in 0x14.
    assert_eq!(check(&[before.clone(), access((33, 3), (1, 1))].concat()), 5);
    assert_eq!(check(&[before, access((32, 3), (1, 2))].concat()), 6);
}

#[test]
fn first_record_decides() {
    let wrong = [
        (2, vec![0x06]),
        (3, issuer_stored(0, 1, entity(2))),
        (5, issuer_stored(9, 7, entity(2))),
        (5, subject_stored(9, 1, entity(2))),
        (6, name(1, 1)),
    ];
    for (first_number, first) in &wrong {
        for (_, second) in &wrong {
            assert_eq!(after_start(&[first.clone(), second.clone()]), *first_number);
        }
    }
    // Within one record the lowest number: all of 3, 5, 6 apply to the first, each next one less.
    let records = [
        (issuer_stored(9, 3, linked(8, 7, 1)), 3),
        (issuer_stored(9, 3, linked(9, 7, 1)), 5),
        (issuer_stored(9, 1, linked(9, 3, 3)), 6),
    ];
    for (record, number) in records {
        assert_eq!(after_start(&[subject_stored(9, 3, entity(2)), record]), number);
    }
}
