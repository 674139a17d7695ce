//! Cases of take worked out by hand from the papers: the marked ones, each refusal, the ends and the sizes.

use crate::message::shapes::*;
use crate::message::take::*;
use crate::message::writer::{other_end, Writer};
use crate::message::*;
use crate::negotiation::shapes::marked_case;
use crate::negotiation::*;
use crate::rules::expression::*;
use std::slice::from_ref;

fn answer(lent: &Lent) -> u64 {
    let mut after = lent.clone();
    let answer = take(&lent.tables, &mut after.negotiation, &lent.message, &mut after.scratch);
    if answer == 0 {
        assert!(after.scratch.iter().all(|&byte| byte == 0));
    } else {
        assert_eq!(after, *lent, "a refused call changed a byte");
    }
    answer
}

#[test]
fn marked_case_i() {
    let (runs, after) = marked_takes(true);
    let lengths: Vec<usize> = runs.iter().map(|run| run.lent.message.len()).collect();
    assert_eq!(lengths, [56, 25, 50, 48]);
    assert!(runs.iter().all(|run| answer(&run.lent) == 0));
    assert_eq!(after, marked_case(Side::Mediator, true).1);
    assert_eq!(other_end(&after), marked_case(Side::Requester, true).1);
}

#[test]
fn marked_case_j() {
    let (runs, after) = marked_takes(false);
    assert_eq!(runs[3].lent.message, [0x05, 1, 0x06]);
    assert_eq!(answer(&runs[3].lent), 0);
    assert_eq!(after, marked_case(Side::Mediator, false).1);
}

/// The first message of case (i), byte by byte.
#[test]
fn bytes_of_a_message() {
    let expected = [
        &[0x02, 0, 3, 0, 1, 2][..],
        &[0x01, 0, 3, 0, 1, 2, 0, 0, 4, 0, 3, 0, 0, 0, 0, 0, 0, 0, 0, 0, 0, 0, 0],
        &[0x03, 1, 0, 2, 0, 0, 4, 0, 3, 0, 0, 0, 0, 0, 0, 0, 0, 0, 0, 0, 0, 0, 2, 1],
        &[0x05, 0, 0x06],
    ];
    assert_eq!(marked_takes(true).0[0].lent.message, expected.concat());
}

#[test]
fn sizes() {
    for run in size_runs() {
        assert_eq!(answer(&run.lent), run.answer, "{}", run.name);
    }
}

fn role(entity: u16, name: u16) -> Role {
    Role { entity, name }
}

fn credential(head: Role, body: Expression) -> Command {
    Command::Credential(Credential { head, body })
}

fn role_target(entity: u16, name: u16) -> Form {
    Form::Target(Expression::Role(role(entity, name)))
}

fn child(kind: u8, parent: usize, form: Form, subject: u16, state: u8) -> Command {
    Command::Child(NewChild { kind, parent, form, subject, state })
}

fn join(kind: u8, parent: usize, child: usize) -> Command {
    Command::Join(Edge { kind, parent, child })
}

/// Names 1 and 2 of class 3, name 3 of class 1. The mediator is 1, the requester 2, and we are the requester.
fn tables() -> Vec<u8> {
    vec![0x10, 0, 2, 0x11, 0, 1, 3, 0x11, 0, 2, 3, 0x11, 0, 3, 1]
}

fn fresh() -> Negotiation {
    Negotiation::fresh(Side::Requester, 2, 1, role(0, 0))
}

fn lent(before: &Negotiation, message: Vec<u8>) -> Lent {
    Lent { tables: tables(), negotiation: encode(before), message, scratch: vec![7; SCRATCH_BYTES] }
}

/// A state that these commands lead to, one message of the mediator each; the requester's turns are skipped.
fn reached(commands: &[Command]) -> Negotiation {
    let mut writer = Writer::new(tables(), fresh());
    commands.iter().for_each(|command| writer.must(command.clone()));
    Negotiation { messages: Messages::in_turn(2), ..writer.now }
}

/// The answers to the bytes as a message, with an end.
fn answer_to(before: &Negotiation, commands: &[Command]) -> u64 {
    answer(&lent(before, [encode_message(commands), vec![END]].concat()))
}

/// The negotiation after the commands and an end.
fn after(before: &Negotiation, commands: &[Command]) -> Negotiation {
    let Lent { tables, negotiation, message, scratch } = lent(before, [encode_message(commands), vec![END]].concat());
    judge(&tables, &negotiation, &message, &scratch).unwrap().after
}

fn opened() -> Negotiation {
    reached(&[Command::Open(role(1, 1), 0)])
}

#[test]
fn lengths() {
    let right = lent(&opened(), vec![END]);
    assert_eq!(answer(&right), 0);
    for (tables, negotiation, message, scratch) in [
        (0, 5120, 1, 4096),
        (4097, 5120, 1, 4096),
        (15, 5119, 1, 4096),
        (15, 5121, 1, 4096),
        (15, 5120, 0, 4096),
        (15, 5120, 4097, 4096),
        (15, 5120, 1, 4095),
        (15, 5120, 1, 4097),
        (15, 5120, 1, 0),
    ] {
        let mut wrong = right.clone();
        wrong.tables.resize(tables, 0);
        wrong.negotiation.resize(negotiation, 0);
        wrong.message.resize(message, 0);
        wrong.scratch.resize(scratch, 0);
        assert_eq!(answer(&wrong), 1);
    }
}

#[test]
fn before_the_message() {
    let lend = |before: &Negotiation, tables: &[u8]| {
        // No command can be read, so each of these comes before 2.
        answer(&Lent { tables: tables.to_vec(), ..lent(before, vec![0xff]) })
    };
    let (opened, tables) = (opened(), tables());
    assert_eq!(lend(&opened, &tables), 2);
    assert_eq!(lend(&opened, &[0xff]), 2);
    assert_eq!(lend(&opened, &[0x10, 0, 0]), 3);
    assert_eq!(lend(&opened, &[0x10, 0, 2, 0x11, 0, 1, 1, 0x14, 0, 1, 0, 1, 0, 1, 0, 1]), 5);
    // No name is listed: the same record is right, and the negotiation is sound.
    assert_eq!(lend(&opened, &[0x10, 0, 2, 0x14, 0, 1, 0, 1, 0, 1, 0, 1]), 2);
    assert_eq!(lend(&opened, &[0x10, 0, 2]), 2);
    assert_eq!(lend(&opened, &[0x10, 0, 2, 0x10, 0, 2]), 6);
    let ended = Negotiation { end: 4, messages: Messages::in_turn(3), ..opened.clone() };
    assert_eq!(lend(&Negotiation { messages: Messages::in_turn(0), ..ended.clone() }, &tables), 20);
    // Ended before not our turn.
    assert_eq!(lend(&ended, &tables), 22);
    assert_eq!(lend(&Negotiation { messages: Messages::in_turn(3), ..opened.clone() }, &tables), 21);
    let mediator = other_end(&Negotiation { own: 1, other: 2, ..opened });
    assert_eq!(mediator.own, 2);
    assert_eq!(lend(&mediator, &tables), 20);
    let fresh_mediator = Negotiation::fresh(Side::Mediator, 2, 1, role(1, 1));
    assert_eq!(lend(&fresh_mediator, &tables), 21);
}

#[test]
fn what_cannot_be_read() {
    let opened = opened();
    let bytes = |message: &[u8]| answer(&lent(&opened, message.to_vec()));
    assert_eq!(bytes(&[0x00, END]), 2);
    assert_eq!(bytes(&[0x07, END]), 2);
    assert_eq!(bytes(&[0x10, 0, 1, END]), 2);
    assert_eq!(bytes(&[END, END]), 2);
    assert_eq!(bytes(&[END, 0]), 2);
    assert_eq!(bytes(&[MARK]), 2);
    assert_eq!(bytes(&[MARK, 0]), 2);
    assert_eq!(bytes(&[JOIN, 0, 0]), 2);
    assert_eq!(bytes(&[MARK, 0, END]), 0);
    // An earlier command's number comes first.
    assert_eq!(bytes(&[MARK, 9, 0xff]), 24);
    assert_eq!(bytes(&[MARK, 0, 0xff]), 2);
    assert_eq!(bytes(&[MARK, 0, MARK, 0, END]), 27);
}

#[test]
fn operands_and_classes() {
    let opened = opened();
    let to = |command: Command| answer_to(&opened, &[command]);
    let entity = |entity| Form::Target(Expression::Entity(entity));
    let linked = |first, second| Form::Target(Expression::Linked(role(1, first), second));
    assert_eq!(to(credential(role(0, 1), Expression::Entity(1))), 3);
    assert_eq!(to(credential(role(1, 1), Expression::Linked(role(2, 1), 1))), 3);
    assert_eq!(to(child(0, 0, role_target(1, 2), 2, 0)), 3);
    assert_eq!(to(child(7, 0, role_target(1, 2), 2, 0)), 3);
    assert_eq!(to(child(6, 0, role_target(1, 2), 0, 0)), 3);
    assert_eq!(to(child(6, 0, role_target(1, 2), 1, 4)), 3);
    assert_eq!(to(child(1, 0, entity(2), 2, 2)), 3);
    assert_eq!(to(child(2, 0, Form::Goal(2), 2, 2)), 3);
    assert_eq!(to(child(2, 0, Form::Goal(0), 2, 1)), 3);
    assert_eq!(to(join(0, 0, 0)), 3);
    assert_eq!(to(join(7, 9, 9)), 3);
    assert_eq!(to(Command::Open(role(1, 0), 0)), 3);
    assert_eq!(to(Command::Open(role(1, 1), 4)), 3);
    // Class 3 does not take a body of class 1, and a linked role of classes 3 and 1 is ill-typed.
    assert_eq!(to(credential(role(1, 1), Expression::Role(role(1, 3)))), 5);
    assert_eq!(to(child(6, 9, linked(1, 3), 1, 0)), 5);
    assert_eq!(to(child(6, 9, linked(3, 1), 1, 0)), 24);
    // The rules of storage are not for messages.
    assert_eq!(to(credential(role(1, 3), Expression::Entity(1))), 0);
    assert_eq!(to(credential(role(1, 1), Expression::Entity(1))), 0);
}

/// Name 9 is not listed: it is subject-all, and what is left to judge is judged.
#[test]
fn unlisted_names() {
    let opened = opened();
    let to = |command: Command| answer_to(&opened, &[command]);
    let linked = |first, second| Expression::Linked(role(1, first), second);
    let both = |a, b| Expression::Intersection(vec![role(1, a), role(2, b)]);
    let issued = |name, body| to(credential(role(1, name), body));
    assert_eq!([9, 1, 3].map(|name| issued(name, Expression::Entity(1))), [0; 3]);
    assert_eq!([9, 1, 3].map(|name| issued(name, Expression::Role(role(1, 9)))), [0; 3]);
    assert_eq!([9, 1, 3].map(|name| issued(9, Expression::Role(role(1, name)))), [0, 0, 5]);
    assert_eq!([9, 1, 3].map(|name| issued(name, linked(9, 8))), [0; 3]);
    assert_eq!([9, 1, 3].map(|name| issued(name, linked(9, 3))), [5; 3]);
    assert_eq!([9, 1, 3].map(|name| issued(name, linked(3, 9))), [5, 5, 0]);
    assert_eq!([9, 1, 3].map(|name| issued(name, both(9, 1))), [0; 3]);
    assert_eq!([9, 1, 3].map(|name| issued(name, both(9, 3))), [5, 5, 0]);
    // A node's only class rule is that its linked role is well typed.
    assert_eq!(to(child(6, 0, role_target(1, 9), 1, 0)), 0);
    assert_eq!(to(child(6, 9, role_target(1, 9), 1, 0)), 24);
    for (first, second) in [(9, 9), (9, 8), (9, 1), (1, 9), (3, 9)] {
        assert_eq!(to(child(6, 0, Form::Target(linked(first, second)), 1, 0)), 0);
    }
    assert_eq!(to(child(6, 0, Form::Target(linked(9, 3)), 1, 0)), 5);
    assert_eq!(to(child(2, 9, Form::Goal(9), 2, 1)), 24);
    let monitored = [child(6, 0, Form::Target(linked(9, 8)), 1, 0), child(2, 1, Form::Goal(8), 1, 1)];
    assert_eq!(answer_to(&opened, &monitored), 0);
    assert_eq!(after(&opened, &monitored).nodes.len(), 3);
    // With a proof: 1.1 from 1.9, 1.9 from 2.
    let proof = [
        credential(role(1, 1), Expression::Role(role(1, 9))),
        credential(role(1, 9), Expression::Entity(2)),
        child(1, 0, role_target(1, 9), 2, 0),
        child(1, 1, Form::Target(Expression::Entity(2)), 2, 3),
    ];
    assert_eq!(after(&opened, &proof).end, 1);
}

#[test]
fn opening_comes_first() {
    let to_fresh = |commands: &[Command]| answer_to(&fresh(), commands);
    assert_eq!(to_fresh(&[]), 23);
    assert_eq!(answer(&lent(&fresh(), vec![END, END])), 2);
    assert_eq!(to_fresh(&[credential(role(1, 1), Expression::Entity(1))]), 23);
    assert_eq!(to_fresh(&[credential(role(1, 9), Expression::Entity(1))]), 23);
    assert_eq!(to_fresh(&[credential(role(1, 9), Expression::Role(role(1, 3)))]), 5);
    assert_eq!(to_fresh(&[Command::Open(role(7, 9), 1)]), 0);
    assert_eq!(answer_to(&opened(), &[Command::Open(role(1, 9), 0)]), 23);
    assert_eq!(to_fresh(&[child(6, 0, role_target(1, 2), 1, 0)]), 23);
    assert_eq!(to_fresh(&[join(1, 0, 0)]), 23);
    assert_eq!(to_fresh(&[Command::Mark(0)]), 23);
    assert_eq!(to_fresh(&[Command::Open(role(7, 3), 1)]), 0);
    assert_eq!(to_fresh(&[Command::Open(role(7, 3), 1), Command::Open(role(7, 3), 1)]), 23);
    assert_eq!(answer_to(&opened(), &[Command::Open(role(1, 1), 0)]), 23);
}

/// 1.1 from 1.2.1 was shown, and the linked role is node 1.
fn with_link() -> Negotiation {
    let link = Expression::Linked(role(1, 2), 1);
    let shown = credential(role(1, 1), link.clone());
    reached(&[Command::Open(role(1, 1), 0), shown, child(1, 0, Form::Target(link), 2, 0)])
}

#[test]
fn forms_of_edges() {
    let with_link = with_link();
    let to = |command: Command| answer_to(&with_link, &[command]);
    let entity = |entity| Form::Target(Expression::Entity(entity));
    assert_eq!(to(child(6, 2, role_target(1, 2), 1, 0)), 24);
    assert_eq!(to(join(1, 0, 2)), 24);
    assert_eq!(to(join(1, 2, 0)), 24);
    assert_eq!(to(Command::Mark(2)), 24);
    // Another subject, a goal by kind 1, an entity about another one.
    assert_eq!(to(child(1, 0, role_target(1, 2), 3, 0)), 25);
    assert_eq!(to(child(1, 0, Form::Goal(1), 2, 1)), 25);
    assert_eq!(to(child(1, 0, entity(3), 2, 3)), 25);
    assert_eq!(to(child(1, 0, entity(3), 3, 3)), 25);
    // A child that stands, whether or not the edge does; an edge that stands; a node and itself.
    let link = Form::Target(Expression::Linked(role(1, 2), 1));
    assert_eq!(to(child(1, 0, link.clone(), 2, 0)), 25);
    assert_eq!(to(child(1, 1, role_target(1, 1), 2, 0)), 25);
    assert_eq!(to(join(1, 0, 1)), 25);
    assert_eq!(to(join(1, 0, 0)), 25);
    assert_eq!(to(join(2, 0, 1)), 25);
    assert_eq!(to(credential(role(1, 1), Expression::Linked(role(1, 2), 1))), 25);
    assert_eq!(to(child(2, 1, Form::Goal(2), 2, 1)), 25);
    assert_eq!(to(child(2, 1, Form::Goal(1), 2, 1)), 0);
    assert_eq!(to(child(6, 1, link.clone(), 1, 0)), 0);
    assert_eq!(to(child(6, 1, link, 2, 0)), 25);
}

#[test]
fn justification() {
    let with_link = with_link();
    let to = |commands: &[Command]| answer_to(&with_link, commands);
    let edge = child(1, 0, role_target(5, 1), 2, 0);
    assert_eq!(to(from_ref(&edge)), 26);
    // 1.1 from 1.2.1 from 5.1 by 1.2 from 5; not if the credential comes later.
    let base = credential(role(1, 2), Expression::Entity(5));
    assert_eq!(to(&[base.clone(), edge.clone()]), 0);
    assert_eq!(to(&[edge.clone(), base.clone()]), 26);
    // A cycle of implications is justified where the roles are equal by credentials alone.
    assert_eq!(to(&[join(1, 1, 0)]), 26);

    // Node 1 is monitored by goal 2, whose solution 3 is satisfied by node 4.
    let monitor = child(2, 1, Form::Goal(1), 2, 1);
    let member = credential(role(5, 1), Expression::Entity(2));
    let proof = child(1, 3, Form::Target(Expression::Entity(2)), 2, 3);
    let linking = child(4, 1, role_target(1, 2), 5, 0);
    // The mediator has processed its goals, so this solution is the requester's.
    let solved = {
        let mut solved = reached(&[
            Command::Open(role(1, 1), 0),
            credential(role(1, 1), Expression::Linked(role(1, 2), 1)),
            child(1, 0, Form::Target(Expression::Linked(role(1, 2), 1)), 2, 0),
            monitor,
        ]);
        solved.nodes.push(Node { form: role_target(5, 1), subject: 2, verifier: Side::Mediator, state: 0 });
        solved.edges.push(Edge { kind: SOLUTION, parent: 2, child: 3 });
        solved
    };
    let to = |commands: &[Command]| answer_to(&solved, commands);
    assert_eq!(to(from_ref(&linking)), 26);
    assert_eq!(to(&[member.clone(), proof.clone(), linking.clone()]), 0);
    assert_eq!(to(&[member.clone(), linking.clone(), proof.clone()]), 26);
    assert_eq!(to(&[member.clone(), proof.clone(), child(4, 1, role_target(1, 2), 6, 0)]), 26);
    assert_eq!(to(&[member, proof, child(4, 1, role_target(1, 1), 5, 0)]), 25);
    assert_eq!(to(&[child(3, 2, role_target(6, 1), 2, 0)]), 27);
}

#[test]
fn processed() {
    let to = |state: u8, command: Command| answer_to(&reached(&[Command::Open(role(1, 1), state)]), &[command]);
    let edge = child(6, 0, role_target(1, 2), 1, 0);
    assert_eq!([0, 1, 2].map(|state| to(state, edge.clone())), [0, 27, 0]);
    assert_eq!([0, 1, 2].map(|state| to(state, Command::Mark(0))), [0, 27, 0]);
    // A target of the requester: the mediator's bit is the other one.
    let with = |state| reached(&[Command::Open(role(1, 1), 0), child(6, 0, role_target(1, 2), 1, state)]);
    assert_eq!([0, 1, 2, 3].map(|state| answer_to(&with(state), &[Command::Mark(1)])), [0, 0, 27, 27]);
    assert_eq!(after(&with(0), &[Command::Mark(1)]).nodes[1].state, 2);
    assert_eq!(after(&with(1), &[Command::Mark(1)]).nodes[1].state, 3);
    assert_eq!(after(&with(0), &[Command::Mark(0)]).nodes[0].state, 1);
    // Not justified comes before processed.
    let unproved = child(1, 0, role_target(5, 1), 2, 0);
    assert_eq!(to(1, unproved), 26);
}

#[test]
fn ends() {
    let closed = |negotiation: Negotiation| {
        let Negotiation { end, idle, messages, .. } = negotiation;
        (end, idle, [messages.mediator, messages.requester])
    };
    let opened = opened();
    let shown = credential(role(1, 1), Expression::Entity(2));
    let proof = child(1, 0, Form::Target(Expression::Entity(2)), 2, 3);
    assert_eq!(closed(after(&opened, &[shown.clone(), proof.clone()])), (1, false, [2, 1]));
    assert_eq!(closed(after(&opened, &[Command::Mark(0)])), (0, false, [2, 1]));
    let by_other = reached(&[Command::Open(role(1, 1), 2)]);
    assert_eq!(closed(after(&by_other, &[Command::Mark(0)])), (2, false, [2, 1]));
    assert_eq!(closed(after(&fresh(), &[Command::Open(role(1, 1), 3)])), (2, false, [1, 0]));
    // Credentials alone are idle; twice is stalled.
    assert_eq!(closed(after(&opened, &[])), (0, true, [2, 1]));
    assert_eq!(closed(after(&opened, from_ref(&shown))), (0, true, [2, 1]));
    let idle = Negotiation { idle: true, ..opened };
    assert_eq!(closed(after(&idle, &[])), (3, true, [2, 1]));
    assert_eq!(closed(after(&idle, from_ref(&shown))), (3, true, [2, 1]));
    assert_eq!(closed(after(&idle, &[Command::Mark(0)])), (0, false, [2, 1]));
    assert_eq!(closed(after(&idle, &[shown, proof])), (1, false, [2, 1]));
    // The most messages is no size of take's.
    let most = Negotiation { messages: Messages::in_turn(1026), ..idle };
    assert_eq!(closed(after(&most, &[Command::Mark(0)])), (0, false, [514, 513]));
}

/// The mediator at the greatest count takes one message more, and what follows is damaged.
#[test]
fn beyond_the_greatest_count() {
    let opened = opened();
    let mut before = other_end(&Negotiation { messages: Messages::in_turn(1027), ..opened });
    (before.own, before.other) = (2, 3);
    before.nodes[0].subject = 3;
    let mut lent = lent(&before, vec![MARK, 0, END]);
    assert_eq!(take(&lent.tables, &mut lent.negotiation, &lent.message, &mut lent.scratch), 0);
    assert_eq!(lent.negotiation[12..16], [2, 2, 2, 2]);
    assert_eq!(answer(&lent), 20);
}
