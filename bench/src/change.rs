//! Changes of tables, graph and message. Many are refused; a search keeps those that are not.

use crate::case::{names_of, Case, Kind};
use reference::message::Command;
use reference::negotiation::faults::NEGOTIATION_FAULTS;
use reference::negotiation::sample::ALL_CLASSES;
use reference::negotiation::*;
use reference::random::Random;
use reference::rules::classes::Class::{IssuerAll, IssuerDef, SubjectAll};
use reference::rules::expression::{Credential, Expression, Role};
use reference::tables::records::{encode_record, most_records, Guard, Record};
use std::mem;

/// A part of a list in another order.
fn reorder<T>(random: &mut Random, items: &mut [T]) {
    if items.len() < 2 {
        return;
    }
    let (i, j) = (random.below(items.len()), random.below(items.len()));
    let (low, high) = (i.min(j), i.max(j));
    match random.below(4) {
        0 => items.swap(i, j),
        1 => items[low..=high].rotate_left(1),
        2 => items[low..=high].rotate_right(1),
        _ => items[low..=high].reverse(),
    }
}

fn head_of(record: &Record) -> Option<Role> {
    match record {
        Record::IssuerStored(Credential { head, .. }) | Record::SubjectStored(Credential { head, .. }) => Some(*head),
        _ => None,
    }
}

/// The head of a stored credential.
fn stored_head(random: &mut Random, records: &[Record]) -> Option<Role> {
    let heads: Vec<Role> = records.iter().filter_map(head_of).collect();
    (!heads.is_empty()).then(|| heads[random.below(heads.len())])
}

/// A credential of new parts, or with the heads of others as its head, as its body, or both.
fn stored(random: &mut Random, case: &Case, issuer: bool) -> Option<Credential> {
    let classes = if issuer { &[IssuerDef, IssuerAll][..] } else { &[SubjectAll] };
    let mut credential = random.stored(&case.house, classes)?;
    if random.percent(60) {
        credential.head = stored_head(random, &case.records)?;
    }
    match (random.below(3), &credential.body) {
        (0, _) => credential.body = Expression::Role(stored_head(random, &case.records)?),
        (1, Expression::Linked(base, second)) => {
            credential.body = Expression::Linked(Role { entity: credential.head.entity, ..*base }, *second);
        }
        _ => {}
    }
    Some(credential)
}

fn record(random: &mut Random, case: &Case) -> Option<Record> {
    Some(match random.below(8) {
        0..=3 => Record::IssuerStored(stored(random, case, true)?),
        4..=6 => Record::SubjectStored(stored(random, case, false)?),
        _ => guard(random, case)?,
    })
}

fn guard(random: &mut Random, case: &Case) -> Option<Record> {
    let (role, by) = (random.role_of(&case.house, &[SubjectAll])?, random.role_of(&case.house, &ALL_CLASSES)?);
    Some(Record::Sensitive(Guard { role, by }))
}

/// The places of the records of the same command.
fn places(records: &[Record], like: &Record) -> Vec<usize> {
    let is_like = |place: &usize| mem::discriminant(&records[*place]) == mem::discriminant(like);
    (0..records.len()).filter(is_like).collect()
}

fn change_tables(random: &mut Random, case: &mut Case) {
    let Some(new) = record(random, case) else { return };
    let places = places(&case.records, &new);
    match random.below(4) {
        0 if !places.is_empty() => drop(case.records.remove(places[random.below(places.len())])),
        1..=2 if !places.is_empty() => case.records[places[random.below(places.len())]] = new,
        _ => case.records.push(new),
    }
}

/// A record that is sound beside any others, but that it may be there already.
fn sound_record(random: &mut Random, case: &Case) -> Option<Record> {
    Some(match random.below(4) {
        0 => Record::IssuerStored(random.stored(&case.house, &[IssuerDef, IssuerAll])?),
        1 => Record::SubjectStored(random.stored(&case.house, &[SubjectAll])?),
        2 => Record::Name(10_000 + case.records.len() as u16, ALL_CLASSES[random.below(3)]),
        _ => guard(random, case)?,
    })
}

fn change_class(random: &mut Random, record: &mut Record) {
    if let Record::Name(_, class) = record {
        *class = ALL_CLASSES[random.below(3)];
    }
}

fn role_of_guard(record: &Record) -> Option<Role> {
    match record {
        Record::Sensitive(guard) => Some(guard.role),
        _ => None,
    }
}

/// More records, up to the sizes, perhaps after a name got another class.
fn fill_tables(random: &mut Random, case: &mut Case) {
    let names = places(&case.records, &Record::Name(0, SubjectAll));
    if let (Some(&place), true) = (names.get(random.below(names.len().max(1))), random.percent(30)) {
        change_class(random, &mut case.records[place]);
        case.house.names = names_of(&case.records);
    }
    for _ in 0..random.between(1, 64) {
        let Some(new) = sound_record(random, case) else { continue };
        let has_room = places(&case.records, &new).len() < most_records(encode_record(&new)[0]);
        let role = role_of_guard(&new);
        let is_new = |old: &Record| *old != new && (role.is_none() || role_of_guard(old) != role);
        if has_room && case.records.iter().all(is_new) {
            case.records.push(new);
        }
    }
}

fn change_graph(random: &mut Random, case: &mut Case) {
    let negotiation = &mut case.negotiation;
    match random.below(4) {
        0 => reorder(random, &mut negotiation.edges),
        1 => reorder(random, &mut negotiation.shown),
        _ => NEGOTIATION_FAULTS[random.below(NEGOTIATION_FAULTS.len())](random, &case.house, negotiation),
    }
}

/// A role of one of the credentials, or another one.
fn some_role(random: &mut Random, commands: &[Command]) -> Role {
    match &commands[random.below(commands.len())] {
        Command::Credential(Credential { head, .. }) => *head,
        _ => Role { entity: random.between(1, 64) as u16, name: random.between(1, 4) as u16 },
    }
}

fn some_credential(random: &mut Random, commands: &[Command]) -> Command {
    let (head, other) = (some_role(random, commands), some_role(random, commands));
    let body = match random.below(3) {
        0 => Expression::Role(other),
        1 => Expression::Linked(Role { entity: head.entity, name: other.name }, head.name),
        _ => Expression::Entity(other.entity),
    };
    Command::Credential(Credential { head, body })
}

fn some_join(random: &mut Random) -> Command {
    let kind = [IMPLICATION, IMPLICATION, LINKING_IMPLICATION, CONTROL][random.below(4)];
    Command::Join(Edge { kind, parent: random.below(MOST_NODES), child: random.below(MOST_NODES) })
}

fn change_message(random: &mut Random, commands: &mut Vec<Command>) {
    if commands.is_empty() {
        return;
    }
    let place = random.below(commands.len());
    match random.below(8) {
        0..=3 => reorder(random, commands),
        4 => drop(commands.remove(place)),
        5 => commands.insert(place, some_credential(random, commands)),
        6 => commands[place] = some_credential(random, commands),
        // Most joins are not legal and fall away.
        _ => (0..50).for_each(|_| commands.push(some_join(random))),
    }
}

/// One to three changes.
pub fn changed(random: &mut Random, case: &Case, kind: Kind) -> Case {
    let mut case = case.clone();
    for _ in 0..random.between(1, 3) {
        match (kind, random.below(4)) {
            (Kind::Reply, 0..=2) => change_tables(random, &mut case),
            (Kind::Take, 0..=1) => change_message(random, &mut case.commands),
            (Kind::Take | Kind::Report, 2) => fill_tables(random, &mut case),
            _ => change_graph(random, &mut case),
        }
    }
    case
}
