//! Cases of reply worked out by hand from the papers: the marked ones, each rule, the credentials, the stops.

use crate::ends::calls::Reference;
use crate::ends::two_ends::TwoEnds;
use crate::message::*;
use crate::negotiation::*;
use crate::reply::leak::Leak;
use crate::reply::*;
use crate::rules::classes::{decode_class, Class};
use crate::rules::expression::*;
use crate::tables;
use crate::tables::records::*;

fn role(entity: u16, name: u16) -> Role {
    Role { entity, name }
}

fn to_role(entity: u16, name: u16) -> Expression {
    Expression::Role(role(entity, name))
}

fn linked(entity: u16, first: u16, second: u16) -> Expression {
    Expression::Linked(role(entity, first), second)
}

fn both(a: Role, b: Role) -> Expression {
    Expression::Intersection(vec![a, b])
}

fn entity(entity: u16) -> Expression {
    Expression::Entity(entity)
}

/// What is in tables but the names.
#[derive(Clone, Default)]
struct House {
    own: u16,
    issuer: Vec<(Role, Expression)>,
    subject: Vec<(Role, Expression)>,
    sensitive: Vec<(Role, Role)>,
    access: Vec<(Role, Role)>,
}

impl House {
    /// Tables with names 1 to 9: 1 to 3 of class 1, 4 to 6 of class 2, 7 to 9 of class 3. Names from 10 on are not listed.
    fn tables(&self) -> Vec<u8> {
        self.tables_with(&|name| (name - 1) / 3 + 1, 9)
    }

    fn tables_with(&self, class: &dyn Fn(u16) -> u16, name_count: u16) -> Vec<u8> {
        let class = |name| decode_class(class(name) as u8).unwrap_or(Class::SubjectAll);
        let credential = |(head, body): &(Role, Expression)| Credential { head: *head, body: body.clone() };
        let guard = |&(role, by): &(Role, Role)| Guard { role, by };
        let mut records = vec![Record::Own(self.own)];
        records.extend((1..=name_count).map(|name| Record::Name(name, class(name))));
        records.extend(self.issuer.iter().map(credential).map(Record::IssuerStored));
        records.extend(self.subject.iter().map(credential).map(Record::SubjectStored));
        records.extend(self.sensitive.iter().map(guard).map(Record::Sensitive));
        records.extend(self.access.iter().map(guard).map(Record::Access));
        let mut bytes: Vec<Vec<u8>> = records.iter().map(encode_record).collect();
        bytes.sort();
        bytes.concat()
    }
}

fn credential(head: Role, body: Expression) -> Command {
    Command::Credential(Credential { head, body })
}

fn target(kind: u8, parent: usize, expression: Expression, subject: u16, state: u8) -> Command {
    Command::Child(NewChild { kind, parent, form: Form::Target(expression), subject, state })
}

fn goal(parent: usize, name: u16, subject: u16) -> Command {
    Command::Child(NewChild { kind: MONITOR, parent, form: Form::Goal(name), subject, state: 1 })
}

fn node(expression: Expression, subject: u16, verifier: Side, state: u8) -> Node {
    Node { form: Form::Target(expression), subject, verifier, state }
}

/// These nodes, still without edges, where it is our turn.
fn graph(own: u16, side: Side, nodes: Vec<Node>) -> Negotiation {
    let wanted = match (side, &nodes[0].form) {
        (Side::Mediator, Form::Target(Expression::Role(role))) => *role,
        _ => role(0, 0),
    };
    let other = if side == Side::Mediator { REQUESTER } else { MEDIATOR };
    let mut negotiation = Negotiation::fresh(side, own, other, wanted);
    negotiation.nodes = nodes;
    negotiation.messages = Messages::in_turn(if side == Side::Mediator { 2 } else { 1 });
    negotiation
}

const MEDIATOR: u16 = 100;
const REQUESTER: u16 = 200;

/// The reply onto this negotiation, which need not be sound.
fn given(house: &House, negotiation: Negotiation) -> Given {
    let tables = tables::decode(&house.tables()).unwrap();
    give(&tables, negotiation, Leak::None)
}

/// The commands without the end.
fn commands(house: &House, negotiation: Negotiation) -> Vec<Command> {
    let mut commands = given(house, negotiation).commands;
    assert_eq!(commands.pop(), Some(Command::End));
    commands
}

/// Cases (i) and (j), with tables that list the first so many of the three names.
fn marked(held: bool, listed: u16) -> (TwoEnds, u8) {
    let class = |name: u16| if name == 1 { 1 } else { 3 };
    let studio = House {
        own: 3,
        issuer: vec![(role(3, 1), to_role(4, 3))],
        subject: vec![(role(1, 2), entity(3))],
        ..House::default()
    };
    let mut house = House { own: 2, sensitive: vec![(role(4, 3), role(1, 2))], ..House::default() };
    if held {
        house.subject.push((role(4, 3), entity(2)));
    }
    let tables = [studio, house].map(|house| house.tables_with(&class, listed));
    let mut reference = Reference::default();
    let mut ends = TwoEnds::begun(&mut reference, tables, role(3, 1));
    let end = ends.run(&mut reference);
    (ends, end)
}

#[test]
fn marked_cases() {
    let (i, success) = marked(true, 3);
    let (j, failed) = marked(false, 3);
    assert_eq!((success, failed), (1, 2));
    let lengths: Vec<usize> = i.messages.iter().map(Vec::len).collect();
    assert_eq!(lengths, [56, 25, 50, 48]);
    assert_eq!(i.messages[..3], j.messages[..3]);
    assert_eq!(j.messages[3..], [vec![0x05, 1, 0x06]]);
    assert_eq!(i.ends[0].state().nodes.len(), 5);
    assert_eq!(j.ends[0].state().nodes.len(), 4);
    let expected: Vec<Vec<u8>> = crate::message::shapes::marked_messages(true)
        .into_iter()
        .map(|commands| encode_message(&[commands, vec![Command::End]].concat()))
        .collect();
    assert_eq!(i.messages, expected);
    // Names 2 and 3 have the class that they have without a record.
    for listed in [1, 2] {
        assert_eq!(marked(true, listed).0.messages, i.messages);
        assert_eq!(marked(false, listed).0.messages, j.messages);
    }
}

#[test]
fn refusals() {
    let house = House { own: MEDIATOR, ..House::default() };
    let tables = house.tables();
    let fresh = encode(&Negotiation::fresh(Side::Mediator, MEDIATOR, REQUESTER, role(1, 1)));
    let ask = |tables: &[u8], negotiation: &[u8], reply_length: usize, scratch_length: usize| {
        let (mut after, mut replied, mut scratch) =
            (negotiation.to_vec(), vec![7; reply_length], vec![8; scratch_length]);
        let answered = reply(tables, &mut after, &mut replied, &mut scratch);
        if answered.is_err() {
            assert_eq!((&after[..], replied, scratch), (negotiation, vec![7; reply_length], vec![8; scratch_length]));
        }
        answer(answered)
    };
    assert_eq!(ask(&tables, &fresh, 4096, 4096), 256 * 9);
    assert_eq!(ask(&tables, &fresh, 5000, 4096), 256 * 9);
    for (length, reply, scratch) in [(5120, 4095, 4096), (5120, 4096, 4095), (5120, 4096, 4097), (5119, 4096, 4096)] {
        assert_eq!(ask(&tables, &fresh[..length], reply, scratch), 1);
    }
    assert_eq!(ask(&[], &fresh, 4096, 4096), 1);
    assert_eq!(ask(&[0x16], &[0; 5120], 4096, 4096), 2);
    assert_eq!(ask(&tables, &[0; 5120], 4096, 4096), 20);
    let mut ended = given(&house, decode(&fresh).unwrap()).after;
    assert_eq!(ask(&tables, &encode(&ended), 4096, 4096), 22);
    (ended.end, ended.nodes[0].state) = (0, 0);
    assert_eq!(ask(&tables, &encode(&ended), 4096, 4096), 21);
    ended.messages = Messages::in_turn(2);
    assert_eq!(ask(&tables, &encode(&ended), 4096, 4096), 256 * 3);
    let idle = Negotiation::fresh(Side::Requester, MEDIATOR, REQUESTER, role(0, 0));
    assert_eq!(ask(&tables, &encode(&idle), 4096, 4096), 21);
}

/// The first reply opens in the initial state of the role's class, and moves follow.
#[test]
fn first_reply() {
    let house = House { own: MEDIATOR, ..House::default() };
    let open = |name| commands(&house, Negotiation::fresh(Side::Mediator, MEDIATOR, REQUESTER, role(100, name)));
    assert_eq!(open(1), [Command::Open(role(100, 1), 2), Command::Mark(0)]);
    assert_eq!(open(4), [Command::Open(role(100, 4), 2), Command::Mark(0)]);
    assert_eq!(open(7), [Command::Open(role(100, 7), 1)]);
    assert_eq!(open(10), [Command::Open(role(100, 10), 1)]);
}

fn primary(name: u16, state: u8) -> Node {
    node(to_role(100, name), REQUESTER, Side::Mediator, state)
}

/// The verifier looks behind roles that the opponent cannot process; entities but the subject yield nothing.
#[test]
fn verifier_of_a_role() {
    let house = House {
        own: MEDIATOR,
        issuer: vec![
            (role(100, 1), entity(300)),
            (role(100, 1), to_role(100, 2)),
            (role(100, 1), both(role(1, 7), role(2, 1))),
            (role(100, 2), to_role(100, 1)),
            (role(100, 2), to_role(5, 8)),
            (role(100, 2), to_role(4, 8)),
            (role(100, 3), to_role(6, 8)),
            (role(100, 2), linked(100, 4, 7)),
        ],
        ..House::default()
    };
    let first = |body| credential(role(100, 1), body);
    let second = |body| credential(role(100, 2), body);
    let expected = [
        first(to_role(100, 2)),
        second(to_role(4, 8)),
        target(1, 0, to_role(4, 8), REQUESTER, 1),
        second(to_role(5, 8)),
        target(1, 0, to_role(5, 8), REQUESTER, 1),
        second(linked(100, 4, 7)),
        target(1, 0, linked(100, 4, 7), REQUESTER, 2),
        first(both(role(1, 7), role(2, 1))),
        target(1, 0, both(role(1, 7), role(2, 1)), REQUESTER, 2),
        Command::Mark(0),
    ];
    let start = graph(MEDIATOR, Side::Mediator, vec![primary(1, 2)]);
    let made = commands(&house, start);
    assert_eq!(made[..10], expected);
    // Then the linked role, whose first name has no member, and the intersection.
    assert_eq!(
        made[10..],
        [
            Command::Mark(3),
            target(5, 4, to_role(1, 7), REQUESTER, 1),
            target(5, 4, to_role(2, 1), REQUESTER, 2),
            Command::Mark(4),
            Command::Mark(6),
        ]
    );
}

/// The subject's own entity satisfies the primary, and the reply stops before the mark.
#[test]
fn verifier_stops_at_success() {
    let house = House { own: MEDIATOR, issuer: vec![(role(100, 1), entity(REQUESTER))], ..House::default() };
    let given = given(&house, graph(MEDIATOR, Side::Mediator, vec![primary(1, 2)]));
    assert_eq!((given.stop, given.after.end), (Stop::Satisfied, 1));
    assert_eq!(
        given.commands,
        [credential(role(100, 1), entity(REQUESTER)), target(1, 0, entity(REQUESTER), REQUESTER, 3), Command::End]
    );
}

/// The search stops at roles with names that are not listed, and new nodes have the states of their classes.
#[test]
fn verifier_stops_at_unlisted_roles() {
    let parts = both(role(1, 10), role(2, 1));
    let house = House {
        own: MEDIATOR,
        issuer: vec![
            (role(100, 1), to_role(100, 2)),
            (role(100, 1), to_role(5, 11)),
            (role(100, 1), linked(100, 1, 10)),
            (role(100, 1), linked(100, 10, 11)),
            (role(100, 1), parts.clone()),
            (role(100, 2), to_role(4, 10)),
        ],
        // Not looked at by the verifier.
        subject: vec![(role(4, 10), entity(REQUESTER)), (role(5, 11), to_role(6, 10))],
        ..House::default()
    };
    let made = commands(&house, graph(MEDIATOR, Side::Mediator, vec![primary(1, 2)]));
    let first = |body| credential(role(100, 1), body);
    assert_eq!(
        made,
        [
            first(to_role(100, 2)),
            credential(role(100, 2), to_role(4, 10)),
            target(1, 0, to_role(4, 10), REQUESTER, 1),
            first(to_role(5, 11)),
            target(1, 0, to_role(5, 11), REQUESTER, 1),
            first(linked(100, 1, 10)),
            target(1, 0, linked(100, 1, 10), REQUESTER, 2),
            first(linked(100, 10, 11)),
            target(1, 0, linked(100, 10, 11), REQUESTER, 1),
            first(parts.clone()),
            target(1, 0, parts, REQUESTER, 2),
            Command::Mark(0),
            goal(3, 10, REQUESTER),
            target(5, 5, to_role(1, 10), REQUESTER, 1),
            target(5, 5, to_role(2, 1), REQUESTER, 2),
            Command::Mark(5),
            Command::Mark(8),
        ]
    );
}

/// A linked role of the mediator's about the requester, under the primary.
fn linked_graph(own: u16, side: Side, linked: Expression, state: u8) -> Negotiation {
    graph(own, side, vec![primary(1, 3), node(linked, REQUESTER, Side::Mediator, state)])
}

/// Issuer-all first name: members over 0x12, then the frontiers of their roles.
#[test]
fn verifier_of_a_linked_role() {
    let house = House {
        own: MEDIATOR,
        issuer: vec![
            (role(100, 4), entity(7)),
            (role(100, 4), to_role(100, 5)),
            (role(100, 5), entity(6)),
            (role(100, 6), entity(5)),
            (role(7, 1), to_role(9, 9)),
            (role(6, 1), entity(REQUESTER)),
        ],
        ..House::default()
    };
    // A second name of class 3: the roles themselves.
    let start = linked_graph(MEDIATOR, Side::Mediator, linked(100, 4, 7), 2);
    assert_eq!(
        commands(&house, start),
        [
            credential(role(100, 4), to_role(100, 5)),
            credential(role(100, 5), entity(6)),
            target(1, 1, to_role(6, 7), REQUESTER, 1),
            credential(role(100, 4), entity(7)),
            target(1, 1, to_role(7, 7), REQUESTER, 1),
            Command::Mark(1),
        ]
    );
    // One of class 1: what is behind them, the subject's entity first.
    let start = linked_graph(MEDIATOR, Side::Mediator, linked(100, 4, 1), 2);
    assert_eq!(
        commands(&house, start),
        [
            credential(role(6, 1), entity(REQUESTER)),
            credential(role(100, 4), to_role(100, 5)),
            credential(role(100, 5), entity(6)),
            target(1, 1, entity(REQUESTER), REQUESTER, 3),
            credential(role(7, 1), to_role(9, 9)),
            credential(role(100, 4), entity(7)),
            target(1, 1, to_role(9, 9), REQUESTER, 1),
            Command::Mark(1),
        ]
    );
}

/// A linked role with an issuer-def first name, its goal and three solutions.
fn monitored(own: u16, side: Side, state: u8, goal_state: u8) -> Negotiation {
    let mut negotiation = linked_graph(own, side, linked(100, 1, 7), state);
    let verifier = Side::Mediator;
    negotiation.nodes.extend([
        Node { form: Form::Goal(7), subject: REQUESTER, verifier, state: goal_state },
        node(to_role(6, 7), REQUESTER, verifier, 3),
        node(to_role(5, 7), REQUESTER, verifier, 1),
        node(to_role(4, 7), REQUESTER, verifier, 3),
        node(entity(REQUESTER), REQUESTER, verifier, 3),
    ]);
    // Solution 5.7 is open, 6.7 and 4.7 are satisfied.
    let edges = [(2, 1, 2), (3, 2, 3), (3, 2, 4), (3, 2, 5), (1, 3, 6), (1, 5, 6)];
    negotiation.edges = edges.map(|(kind, parent, child)| Edge { kind, parent, child }).to_vec();
    negotiation
}

/// The goal, a linking implication for each satisfied solution, the mark when the goal is complete.
#[test]
fn linking_implications() {
    let goal_alone =
        |own, side| commands(&House { own, ..House::default() }, linked_graph(own, side, linked(100, 1, 7), 0));
    assert_eq!(goal_alone(MEDIATOR, Side::Mediator), [goal(1, 7, REQUESTER)]);
    // The requester has no solution, so the goal is complete and both are marked.
    assert_eq!(goal_alone(REQUESTER, Side::Requester), [goal(1, 7, REQUESTER), Command::Mark(2), Command::Mark(1)]);

    for (own, side) in [(MEDIATOR, Side::Mediator), (REQUESTER, Side::Requester)] {
        let house = House { own, ..House::default() };
        let implications = [target(4, 1, to_role(100, 1), 4, 2), target(4, 1, to_role(100, 1), 6, 2)];
        // One solution waits for the other side: no mark of the linked target.
        let mut waiting = monitored(own, side, 0, 3);
        waiting.nodes[4].state = if side == Side::Mediator { 1 } else { 2 };
        let made = commands(&house, waiting);
        assert_eq!(made[..2], implications);
        assert!(!made.contains(&Command::Mark(1)));
        // All are settled.
        let mut settled = monitored(own, side, 0, 3);
        settled.nodes[4].state = 3;
        assert_eq!(commands(&house, settled)[..3], [&implications[..], &[Command::Mark(1)]].concat());
        // A goal that the opponent has not processed is not complete.
        let mut open = monitored(own, side, 0, 1);
        open.nodes[4].state = 3;
        let made = commands(&house, open);
        assert_eq!(made[..2], implications);
        assert_eq!(made.contains(&Command::Mark(1)), side == Side::Requester);
    }
}

/// With a subject-all first name the verifier marks at once; the opponent goes by the goal.
#[test]
fn subject_all_first_name() {
    let start = |own, side| linked_graph(own, side, linked(100, 8, 7), 0);
    let house = |own| House { own, subject: vec![(role(5, 7), to_role(6, 9))], ..House::default() };
    assert_eq!(commands(&house(MEDIATOR), start(MEDIATOR, Side::Mediator)), [Command::Mark(1)]);
    assert_eq!(
        commands(&house(REQUESTER), start(REQUESTER, Side::Requester))[..3],
        [goal(1, 7, REQUESTER), target(3, 2, to_role(5, 7), REQUESTER, 1), Command::Mark(2),]
    );
}

/// A first name that is not listed is subject-all; a second one is no obstacle to other first names.
#[test]
fn linked_roles_of_unlisted_names() {
    let house = House { own: MEDIATOR, issuer: vec![(role(100, 4), entity(7))], ..House::default() };
    let made = |first, second| commands(&house, linked_graph(MEDIATOR, Side::Mediator, linked(100, first, second), 0));
    for (first, second) in [(10, 7), (10, 10), (10, 11), (8, 10)] {
        assert_eq!(made(first, second), [Command::Mark(1)]);
    }
    assert_eq!(made(1, 10), [goal(1, 10, REQUESTER)]);
    let member = [credential(role(100, 4), entity(7)), target(1, 1, to_role(7, 10), REQUESTER, 1), Command::Mark(1)];
    assert_eq!(made(4, 10), member);
    let house = House { own: REQUESTER, subject: vec![(role(5, 11), to_role(6, 9))], ..House::default() };
    assert_eq!(
        commands(&house, linked_graph(REQUESTER, Side::Requester, linked(100, 10, 11), 0))[..3],
        [goal(1, 11, REQUESTER), target(3, 2, to_role(5, 11), REQUESTER, 1), Command::Mark(2)]
    );
}

/// A target of the mediator's under the primary, which only the verifier has processed, and the requester's commands.
fn answers(house: &House, asked: Expression, subject: u16) -> Vec<Command> {
    let nodes = vec![primary(1, 3), node(asked, subject, Side::Mediator, 1)];
    commands(house, graph(REQUESTER, Side::Requester, nodes))
}

#[test]
fn opponent_of_a_plain_role() {
    let mut house = House {
        own: REQUESTER,
        subject: vec![
            (role(1, 7), to_role(2, 7)),
            (role(1, 7), to_role(3, 7)),
            (role(2, 7), to_role(4, 7)),
            (role(2, 7), entity(300)),
            (role(3, 7), linked(3, 7, 8)),
            (role(3, 7), both(role(5, 8), role(6, 8))),
            (role(4, 7), entity(REQUESTER)),
        ],
        ..House::default()
    };
    // The own entity is reached: nothing else is said.
    assert_eq!(
        answers(&house, to_role(1, 7), REQUESTER),
        [
            credential(role(1, 7), to_role(2, 7)),
            credential(role(2, 7), to_role(4, 7)),
            credential(role(4, 7), entity(REQUESTER)),
            target(1, 1, entity(REQUESTER), REQUESTER, 3),
            Command::Mark(1),
        ]
    );
    // A sensitive role stops the search, held or not.
    house.sensitive = vec![(role(4, 7), role(100, 9))];
    let first = [
        credential(role(1, 7), to_role(2, 7)),
        credential(role(2, 7), to_role(4, 7)),
        target(1, 1, to_role(4, 7), REQUESTER, 1),
        credential(role(1, 7), to_role(3, 7)),
        credential(role(3, 7), linked(3, 7, 8)),
        target(1, 1, linked(3, 7, 8), REQUESTER, 1),
        credential(role(3, 7), both(role(5, 8), role(6, 8))),
        target(1, 1, both(role(5, 8), role(6, 8)), REQUESTER, 1),
        Command::Mark(1),
        target(6, 2, to_role(100, 9), MEDIATOR, 1),
    ];
    let held = answers(&house, to_role(1, 7), REQUESTER);
    assert_eq!(held[..10], first);
    // The goal of the linked role, without a solution.
    assert_eq!(
        held[10..],
        [
            goal(3, 8, REQUESTER),
            target(5, 4, to_role(5, 8), REQUESTER, 1),
            target(5, 4, to_role(6, 8), REQUESTER, 1),
            Command::Mark(4),
            Command::Mark(6),
            Command::Mark(3),
            Command::Mark(7),
            Command::Mark(8),
        ]
    );
    house.subject.pop();
    assert_eq!(answers(&house, to_role(1, 7), REQUESTER), held);
    // A role that nothing defines is marked.
    assert_eq!(answers(&house, to_role(9, 7), REQUESTER), [Command::Mark(1)]);
    assert_eq!(answers(&house, to_role(9, 1), REQUESTER), [Command::Mark(1)]);
}

/// Another's role: the search passes sensitive roles, by their credentials but the direct one.
#[test]
fn opponent_of_a_role_of_another() {
    let house = House {
        own: REQUESTER,
        subject: vec![
            (role(1, 7), to_role(2, 7)),
            (role(2, 7), entity(REQUESTER)),
            (role(2, 7), entity(300)),
            (role(2, 7), linked(2, 7, 8)),
        ],
        sensitive: vec![(role(2, 7), role(100, 9)), (role(1, 7), role(100, 9))],
        ..House::default()
    };
    assert_eq!(
        answers(&house, to_role(1, 7), 300),
        [
            credential(role(1, 7), to_role(2, 7)),
            credential(role(2, 7), entity(300)),
            target(1, 1, entity(300), 300, 3),
            Command::Mark(1),
        ]
    );
    assert_eq!(
        answers(&house, to_role(1, 7), MEDIATOR)[..4],
        [
            credential(role(1, 7), to_role(2, 7)),
            credential(role(2, 7), linked(2, 7, 8)),
            target(1, 1, linked(2, 7, 8), MEDIATOR, 1),
            Command::Mark(1),
        ]
    );
}

/// A goal's solutions: sensitive roles, and those of the credentials, whoever the subject.
#[test]
fn opponent_of_a_goal() {
    let house = House {
        own: REQUESTER,
        subject: vec![
            (role(3, 7), entity(300)),
            (role(2, 7), entity(REQUESTER)),
            (role(4, 8), entity(300)),
            (role(5, 7), entity(REQUESTER)),
        ],
        sensitive: vec![(role(1, 7), role(100, 9)), (role(2, 7), role(100, 9)), (role(1, 8), role(100, 9))],
        ..House::default()
    };
    for subject in [REQUESTER, MEDIATOR] {
        let mut nodes = vec![primary(1, 3), node(linked(100, 1, 7), subject, Side::Mediator, 3)];
        nodes.push(Node { form: Form::Goal(7), subject, verifier: Side::Mediator, state: 1 });
        let made = commands(&house, graph(REQUESTER, Side::Requester, nodes));
        let solution = |entity| target(3, 2, to_role(entity, 7), subject, 1);
        assert_eq!(made[..5], [solution(1), solution(2), solution(3), solution(5), Command::Mark(2)]);
    }
}

/// Roles with names that are not listed: proved by 0x13, sensitive, solutions of a goal.
#[test]
fn opponent_of_unlisted_roles() {
    let mut house = House {
        own: REQUESTER,
        subject: vec![(role(1, 10), to_role(2, 11)), (role(2, 11), entity(REQUESTER)), (role(4, 10), entity(300))],
        ..House::default()
    };
    let way = credential(role(1, 10), to_role(2, 11));
    let direct = credential(role(2, 11), entity(REQUESTER));
    let own = target(1, 1, entity(REQUESTER), REQUESTER, 3);
    assert_eq!(answers(&house, to_role(1, 10), REQUESTER), [way.clone(), direct.clone(), own, Command::Mark(1)]);
    // Sensitive, held or not: the search stops there, and the Ack role with another such name is asked for.
    house.sensitive = vec![(role(2, 11), role(100, 12))];
    let mut not_held = house.clone();
    not_held.subject.remove(1);
    for house in [&house, &not_held] {
        assert_eq!(
            answers(house, to_role(1, 10), REQUESTER),
            [
                way.clone(),
                target(1, 1, to_role(2, 11), REQUESTER, 1),
                Command::Mark(1),
                target(6, 2, to_role(100, 12), MEDIATOR, 1),
            ]
        );
    }
    // Satisfied by the mediator's trivial target, the Ack target lets the direct credential go, or the mark.
    let nodes = vec![
        primary(1, 3),
        node(to_role(2, 11), REQUESTER, Side::Mediator, 1),
        node(to_role(100, 12), MEDIATOR, Side::Requester, 3),
        node(entity(MEDIATOR), MEDIATOR, Side::Requester, 3),
    ];
    let mut met = graph(REQUESTER, Side::Requester, nodes);
    met.edges = vec![Edge { kind: CONTROL, parent: 1, child: 2 }, Edge { kind: IMPLICATION, parent: 2, child: 3 }];
    assert_eq!(
        commands(&house, met.clone()),
        [direct, target(1, 1, entity(REQUESTER), REQUESTER, 3), Command::Mark(1)]
    );
    assert_eq!(commands(&not_held, met.clone()), [Command::Mark(1)]);
    met.edges.pop();
    assert_eq!([&house, &not_held].map(|house| commands(house, met.clone())), [vec![], vec![]]);
    // Solutions: a sensitive role is one whether it is held or not.
    house.sensitive.push((role(3, 10), role(100, 12)));
    let mut nodes = vec![primary(1, 3), node(linked(100, 1, 10), REQUESTER, Side::Mediator, 3)];
    nodes.push(Node { form: Form::Goal(10), subject: REQUESTER, verifier: Side::Mediator, state: 1 });
    let made = commands(&house, graph(REQUESTER, Side::Requester, nodes));
    let solution = |entity| target(3, 2, to_role(entity, 10), REQUESTER, 1);
    assert_eq!(made[..4], [solution(1), solution(3), solution(4), Command::Mark(2)]);
}

/// The requester's sensitive role 1.7 with Ack role 100.9 and perhaps AC role 100.8, and the edges of the answer.
fn guarded(held: bool, access: bool) -> House {
    let mut house = House {
        own: REQUESTER,
        subject: vec![(role(1, 7), to_role(1, 7)), (role(1, 7), to_role(2, 7)), (role(2, 7), to_role(3, 8))],
        sensitive: vec![(role(1, 7), role(100, 9)), (role(3, 8), role(100, 9))],
        ..House::default()
    };
    if held {
        house.subject.push((role(1, 7), entity(REQUESTER)));
    }
    if access {
        house.access.push((role(1, 7), role(100, 8)));
    }
    house
}

/// The same graph with the Ack and AC targets; those numbered satisfied have the mediator's trivial target as a child.
fn guarded_graph(met: &[usize]) -> Negotiation {
    let mine = |name| node(to_role(100, name), MEDIATOR, Side::Requester, 3);
    let nodes = vec![
        primary(1, 3),
        node(to_role(1, 7), REQUESTER, Side::Mediator, 1),
        mine(9),
        mine(8),
        node(entity(MEDIATOR), MEDIATOR, Side::Requester, 3),
        // The end of rule (4), done.
        node(to_role(3, 8), REQUESTER, Side::Mediator, 3),
    ];
    let mut negotiation = graph(REQUESTER, Side::Requester, nodes);
    negotiation.edges = vec![
        Edge { kind: CONTROL, parent: 1, child: 2 },
        Edge { kind: CONTROL, parent: 0, child: 3 },
        Edge { kind: IMPLICATION, parent: 1, child: 5 },
    ];
    negotiation.edges.extend(met.iter().map(|&parent| Edge { kind: IMPLICATION, parent, child: 4 }));
    negotiation
}

#[test]
fn opponent_of_a_sensitive_role() {
    // Rules (1) and (4) wait for nothing, and a self-edge counts as done.
    for (held, access) in [(false, false), (true, false), (true, true)] {
        let made = answers(&guarded(held, access), to_role(1, 7), REQUESTER);
        assert_eq!(
            made,
            [
                target(6, 1, to_role(100, 9), MEDIATOR, 1),
                credential(role(1, 7), to_role(2, 7)),
                credential(role(2, 7), to_role(3, 8)),
                target(1, 1, to_role(3, 8), REQUESTER, 1),
                // The other sensitive role has the same Ack target.
                Command::Join(Edge { kind: CONTROL, parent: 3, child: 2 }),
            ]
        );
        // The Ack target is failed: nothing more, ever.
        assert_eq!(commands(&guarded(held, access), guarded_graph(&[])), []);
    }
    let direct = [credential(role(1, 7), entity(REQUESTER)), target(1, 1, entity(REQUESTER), REQUESTER, 3)];
    let mark = [Command::Mark(1)];
    // Ack is met: not held, the mark; held, the direct credential; with an AC role, its target first.
    assert_eq!(commands(&guarded(false, false), guarded_graph(&[2])), mark);
    assert_eq!(commands(&guarded(true, false), guarded_graph(&[2])), [&direct[..], &mark].concat());
    let control = Command::Join(Edge { kind: CONTROL, parent: 1, child: 3 });
    let control = [control];
    assert_eq!(commands(&guarded(true, true), guarded_graph(&[2])), control);
    assert_eq!(commands(&guarded(true, true), guarded_graph(&[2, 3])), [&control[..], &direct, &mark].concat());
    // The AC target alone does not do.
    assert_eq!(commands(&guarded(true, true), guarded_graph(&[3])), []);
    // The direct credential that the other end has shown is not sent again.
    let mut shown = guarded_graph(&[2]);
    shown.shown.push(Credential { head: role(1, 7), body: entity(REQUESTER) });
    assert_eq!(commands(&guarded(true, false), shown), [&direct[1..], &mark].concat());
}

/// Rule (4) leads to no entity: the role behind the sensitive one is passed, and its own direct credential is not used.
#[test]
fn sensitive_role_over_a_plain_one() {
    let house = House {
        own: REQUESTER,
        subject: vec![(role(1, 7), to_role(2, 7)), (role(2, 7), entity(REQUESTER))],
        sensitive: vec![(role(1, 7), role(100, 9))],
        ..House::default()
    };
    let ack = target(6, 1, to_role(100, 9), MEDIATOR, 1);
    assert_eq!(answers(&house, to_role(1, 7), REQUESTER), [ack]);
    let mut met = guarded_graph(&[2]);
    met.edges.remove(2);
    assert_eq!(commands(&house, met), [Command::Mark(1)]);
}

/// An AC role that is the Ack role needs no second edge.
#[test]
fn one_role_for_both() {
    let mut house = guarded(true, false);
    house.access.push((role(1, 7), role(100, 9)));
    let made = commands(&house, guarded_graph(&[2]));
    let direct = [credential(role(1, 7), entity(REQUESTER)), target(1, 1, entity(REQUESTER), REQUESTER, 3)];
    assert_eq!(made, [&direct[..], &[Command::Mark(1)]].concat());
    assert_eq!(commands(&house, guarded_graph(&[])), []);
}

/// A direct credential of a sensitive role that is shown proves edges, as all that is shown does; no frontier has it.
#[test]
fn shown_direct_credential() {
    let house = House {
        own: REQUESTER,
        subject: vec![
            (role(1, 7), to_role(2, 7)),
            (role(1, 7), to_role(3, 7)),
            (role(2, 7), entity(REQUESTER)),
            (role(3, 7), entity(REQUESTER)),
        ],
        sensitive: vec![(role(3, 7), role(100, 9))],
        ..House::default()
    };
    let mut negotiation =
        graph(REQUESTER, Side::Requester, vec![primary(1, 3), node(to_role(1, 7), REQUESTER, Side::Mediator, 1)]);
    negotiation.shown.push(Credential { head: role(3, 7), body: entity(REQUESTER) });
    assert_eq!(
        commands(&house, negotiation.clone()),
        [credential(role(1, 7), to_role(3, 7)), target(1, 1, entity(REQUESTER), REQUESTER, 3), Command::Mark(1),]
    );
    // Without the other way the frontier stops at the sensitive role.
    let mut less = house.clone();
    less.subject.remove(2);
    assert_eq!(
        commands(&less, negotiation)[..2],
        [credential(role(1, 7), to_role(3, 7)), target(1, 1, to_role(3, 7), REQUESTER, 1),]
    );
}

/// A satisfied target of a sensitive role is marked though rules (2) and (3) wait.
#[test]
fn satisfied_sensitive_role() {
    let mut negotiation = guarded_graph(&[]);
    negotiation.nodes.push(node(entity(REQUESTER), REQUESTER, Side::Mediator, 3));
    negotiation.edges.push(Edge { kind: IMPLICATION, parent: 1, child: 6 });
    for held in [false, true] {
        assert_eq!(commands(&guarded(held, held), negotiation.clone()), [Command::Mark(1)]);
    }
}

/// A direct credential of a sensitive role proves no other edge, even where it would be shorter.
#[test]
fn needed_without_hidden() {
    let mut house = House {
        own: REQUESTER,
        subject: vec![
            (role(1, 7), to_role(2, 7)),
            (role(2, 7), entity(REQUESTER)),
            (role(1, 7), to_role(3, 7)),
            (role(3, 7), entity(REQUESTER)),
        ],
        ..House::default()
    };
    let by = |entity_of: u16| {
        [
            credential(role(1, 7), to_role(entity_of, 7)),
            credential(role(entity_of, 7), entity(REQUESTER)),
            target(1, 1, entity(REQUESTER), REQUESTER, 3),
            Command::Mark(1),
        ]
    };
    assert_eq!(answers(&house, to_role(1, 7), REQUESTER), by(3));
    house.sensitive = vec![(role(3, 7), role(100, 9))];
    assert_eq!(answers(&house, to_role(1, 7), REQUESTER), by(2));
}

/// Intersections at both sides: parts in order, then the mark.
#[test]
fn intersections() {
    let parts = both(role(5, 7), role(6, 1));
    let part_edges = [target(5, 1, to_role(5, 7), REQUESTER, 1), target(5, 1, to_role(6, 1), REQUESTER, 2)];
    for (own, side, state) in [(MEDIATOR, Side::Mediator, 2), (REQUESTER, Side::Requester, 1)] {
        let house = House { own, ..House::default() };
        let nodes = vec![primary(1, 3), node(parts.clone(), REQUESTER, Side::Mediator, state)];
        let made = commands(&house, graph(own, side, nodes));
        assert_eq!(made[..3], [&part_edges[..], &[Command::Mark(1)]].concat());
    }
}

/// A reply without a move is idle; the second message running of the sort is stalled.
#[test]
fn stalled() {
    let house = House { own: REQUESTER, ..House::default() };
    let mut negotiation = graph(REQUESTER, Side::Requester, vec![primary(1, 2)]);
    let once = given(&house, negotiation.clone());
    assert_eq!((once.commands, once.after.end, once.after.idle), (vec![Command::End], 0, true));
    negotiation.idle = true;
    assert_eq!(given(&house, negotiation).after.end, 3);
}

/// The mediator's primary 100.1 with so many credentials to these bodies.
fn wide(bodies: impl Iterator<Item = Expression>) -> House {
    House { own: MEDIATOR, issuer: bodies.map(|body| (role(100, 1), body)).collect(), ..House::default() }
}

/// An intersection of four roles of its own.
fn quarter(i: u16) -> Expression {
    Expression::Intersection(vec![role(i, 7), role(i, 8), role(i, 9), role(i + 1, 7)])
}

fn first_reply_of(house: &House, edges: usize) -> Given {
    let mut fresh = Negotiation::fresh(Side::Mediator, MEDIATOR, REQUESTER, role(100, 1));
    fresh.edges = vec![Edge { kind: CONTROL, parent: 0, child: 0 }; edges];
    given(house, fresh)
}

/// An open, 64 edges with a credential each and a mark are 3,016 bytes; eleven intersections of 98 bytes are 1,078 more.
/// The other three go into the next reply.
#[test]
fn stop_on_bytes() {
    let house = wide((1..=50).map(|i| to_role(i, 7)).chain((1..=14).map(|i| quarter(200 + 2 * i))));
    let first = first_reply_of(&house, 0);
    assert_eq!(encode_message(&first.commands).len(), 4095);
    assert_eq!((first.stop, first.after.end, first.after.idle), (Stop::Bytes, 0, false));
    let second = given(&house, Negotiation { messages: Messages::in_turn(2), ..first.after });
    assert_eq!(second.commands[0], target(5, 62, to_role(224, 7), REQUESTER, 1));
    assert_eq!(encode_message(&second.commands).len(), 3 * 98 + 1);
    assert_eq!((second.stop, second.after.end, second.after.nodes.len()), (Stop::NoMove, 0, 121));
    // Where the move would pass a size too, the reply is full.
    let full = first_reply_of(&house, MOST_EDGES - 108);
    assert_eq!(encode_message(&full.commands).len(), 4095);
    assert_eq!((full.stop, full.after.end), (Stop::Size(Size::Edges), 4));
}

/// One primary, 40 intersections and 87 parts.
#[test]
fn stop_on_nodes() {
    let full = first_reply_of(&wide((1..=40).map(|i| quarter(2 * i))), 0);
    assert_eq!((full.stop, full.after.end, full.after.nodes.len()), (Stop::Size(Size::Nodes), 4, MOST_NODES));
    assert_eq!(encode_message(&full.commands).len(), 6 + 40 * 47 + 2 + 21 * 98 + 3 * 24 + 1);
}

#[test]
fn stop_on_edges() {
    let house = wide((1..=3).map(|i| to_role(i, 7)));
    let fits = first_reply_of(&house, MOST_EDGES - 3);
    assert_eq!((fits.stop, fits.after.end), (Stop::NoMove, 0));
    let full = first_reply_of(&house, MOST_EDGES - 2);
    assert_eq!((full.stop, full.after.end, full.after.edges.len()), (Stop::Size(Size::Edges), 4, MOST_EDGES));
    assert_eq!(full.rules.len(), 3);
}

/// An edge that needs two credentials where one has room: neither is sent, and no smaller move is tried.
#[test]
fn stop_on_shown() {
    let mut house = wide([to_role(100, 2), to_role(9, 7)].into_iter());
    house.issuer.push((role(100, 2), to_role(8, 7)));
    let with_shown = |count: usize, idle: bool| {
        let mut negotiation = graph(MEDIATOR, Side::Mediator, vec![primary(1, 2)]);
        let filler = |i| Credential { head: role(i as u16 + 1, 9), body: entity(9) };
        negotiation.shown = (0..count).map(filler).collect();
        given(&house, Negotiation { idle, ..negotiation })
    };
    let fits = with_shown(MOST_SHOWN - 3, true);
    assert_eq!((fits.stop, fits.after.end, fits.after.shown.len()), (Stop::NoMove, 0, MOST_SHOWN));
    let one_edge = with_shown(MOST_SHOWN - 2, true);
    assert_eq!((one_edge.stop, one_edge.after.end, one_edge.commands.len()), (Stop::Size(Size::Shown), 4, 4));
    let none = with_shown(MOST_SHOWN - 1, false);
    assert_eq!((none.stop, none.after.end, none.after.idle), (Stop::Size(Size::Shown), 4, true));
    assert_eq!(none.commands, [Command::End]);
    // Stalled comes before full.
    assert_eq!(with_shown(MOST_SHOWN - 1, true).after.end, 3);
}

/// After the primary has failed the reply goes on until no move remains.
#[test]
fn goes_on_after_failure() {
    let nodes = vec![primary(1, 2), node(to_role(7, 1), REQUESTER, Side::Mediator, 2)];
    let made = given(&House { own: MEDIATOR, ..House::default() }, graph(MEDIATOR, Side::Mediator, nodes));
    assert_eq!(made.commands, [Command::Mark(0), Command::Mark(1), Command::End]);
    assert_eq!((made.stop, made.after.end), (Stop::NoMove, 2));
}
