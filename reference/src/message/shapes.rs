//! Messages built by hand: those of the marked cases, and those that go up to the sizes and one beyond.

use crate::message::take::*;
use crate::message::writer::{other_end, Run, Writer};
use crate::message::*;
use crate::negotiation::*;
use crate::refusal::Refusal;
use crate::rules::classes::Class::*;
use crate::rules::expression::*;
use crate::tables::records::{encode_record, Record};

fn role(entity: u16, name: u16) -> Role {
    Role { entity, name }
}

/// The tables of cases (i) and (j), without what only replies look at.
fn marked_tables(own: u16) -> Vec<u8> {
    let names = [(1, IssuerDef), (2, SubjectAll), (3, SubjectAll)].map(|(name, class)| Record::Name(name, class));
    [vec![Record::Own(own)], names.to_vec()].concat().iter().flat_map(encode_record).collect()
}

fn direct(head: Role, entity: u16) -> Command {
    Command::Credential(Credential { head, body: Expression::Entity(entity) })
}

fn target(kind: u8, parent: usize, expression: Expression, subject: u16, state: u8) -> Command {
    Command::Child(NewChild { kind, parent, form: Form::Target(expression), subject, state })
}

/// The four messages of case (i), or of case (j).
pub fn marked_messages(success: bool) -> [Vec<Command>; 4] {
    let first = vec![
        Command::Open(role(3, 1), 2),
        Command::Credential(Credential { head: role(3, 1), body: Expression::Role(role(4, 3)) }),
        target(IMPLICATION, 0, Expression::Role(role(4, 3)), 2, 1),
        Command::Mark(0),
    ];
    let second = vec![target(CONTROL, 1, Expression::Role(role(1, 2)), 3, 1)];
    let third = vec![direct(role(1, 2), 3), target(IMPLICATION, 2, Expression::Entity(3), 3, 3), Command::Mark(2)];
    let fourth = match success {
        true => vec![direct(role(4, 3), 2), target(IMPLICATION, 1, Expression::Entity(2), 2, 3)],
        false => vec![Command::Mark(1)],
    };
    [first, second, third, fourth]
}

/// Each of these messages onto the state before it, at the end that takes it; and the state after the last one there.
pub fn marked_takes(success: bool) -> (Vec<Run>, Negotiation) {
    // House 2 takes the first one.
    let mut at = Negotiation::fresh(Side::Requester, 2, 3, role(0, 0));
    let mut runs = Vec::new();
    for (i, commands) in marked_messages(success).into_iter().enumerate() {
        let mut writer = Writer::new(marked_tables(at.own), at.clone());
        commands.into_iter().for_each(|command| writer.must(command));
        let case = if success { "i" } else { "j" };
        let run = writer.finish(format!("case ({case}), message {}", i + 1));
        let Lent { tables, negotiation, message, scratch } = &run.lent;
        at = judge(tables, negotiation, message, scratch).unwrap().after;
        if i < 3 {
            at = other_end(&at);
        }
        runs.push(run);
    }
    (runs, at)
}

/// The ends of the other runs.
pub const MEDIATOR: u16 = 1000;
pub const REQUESTER: u16 = 100;

/// Names 1 to 64, all of class 3.
pub fn plain_tables(own: u16) -> Vec<u8> {
    let names = (1..=64).map(|name| Record::Name(name, SubjectAll));
    [vec![Record::Own(own)], names.collect()].concat().iter().flat_map(encode_record).collect()
}

/// The requester takes an open of 1.1 with what follows it.
pub fn opening() -> Writer {
    let fresh = Negotiation::fresh(Side::Requester, REQUESTER, MEDIATOR, role(0, 0));
    let mut writer = Writer::new(plain_tables(REQUESTER), fresh);
    writer.must(Command::Open(role(1, 1), 0));
    writer
}

/// A role of its own for each number.
fn other_role(i: usize) -> Expression {
    Expression::Role(role(2 + i as u16, 1))
}

/// A control edge to a new target of the requester under the primary.
fn control(i: usize) -> Command {
    target(CONTROL, 0, other_role(i), MEDIATOR, 0)
}

/// The same of the mediator under the first of these.
fn control_back(i: usize) -> Command {
    target(CONTROL, 1, other_role(i), REQUESTER, 0)
}

fn shown(i: usize) -> Command {
    direct(role(1 + i as u16, 2), MEDIATOR)
}

/// All control edges between nodes of the two sides, in both directions.
fn control_joins(nodes: &[Node]) -> Vec<Command> {
    let mut joins = Vec::new();
    for (parent, above) in nodes.iter().enumerate() {
        for (child, below) in nodes.iter().enumerate() {
            if above.verifier != below.verifier {
                joins.push(Command::Join(Edge { kind: CONTROL, parent, child }));
            }
        }
    }
    joins
}

/// 64 credentials, and a 65th or one of them again: in the same message, and in the next one.
fn credential_runs() -> Vec<Run> {
    let mut writer = opening();
    (0..MOST_SHOWN).for_each(|i| writer.must(shown(i)));
    let next =
        Writer::new(plain_tables(REQUESTER), Negotiation { messages: Messages::in_turn(2), ..writer.now.clone() });
    vec![
        writer.finish("64 credentials"),
        writer.finish_with("65 credentials", &[shown(64)], 28),
        next.finish_with("a 65th credential in a later message", &[shown(64)], 28),
        next.finish_with("the 64th credential again", &[shown(63)], 25),
    ]
}

/// Nodes 0 to 127, and one more.
fn node_runs() -> Vec<Run> {
    let mut writer = opening();
    (1..MOST_NODES).for_each(|i| writer.must(control(i)));
    assert_eq!(writer.now.nodes.len(), MOST_NODES);
    vec![writer.finish("node 127"), writer.finish_with("node 128", &[control(MOST_NODES)], 28)]
}

/// A message of 4,096 bytes, and one byte more.
fn length_runs() -> Vec<Run> {
    let mut writer = opening();
    (1..MOST_NODES).for_each(|i| writer.must(control(i)));
    (0..45).for_each(|i| writer.must(shown(i)));
    // Three marks of two bytes; 0 is the mediator's, the others are not.
    (0..3).for_each(|node| writer.must(Command::Mark(node)));
    let most = writer.finish("4,096 bytes");
    assert_eq!(most.lent.message.len(), MOST_MESSAGE_BYTES);
    let mut beyond = writer.finish_with("4,097 bytes", &[], 1);
    beyond.lent.message.push(END);
    vec![most, beyond]
}

/// 256 edges between 32 nodes, and one more.
fn edge_runs() -> Vec<Run> {
    let mut writer = opening();
    (1..=16).for_each(|i| writer.must(control(i)));
    (1..=15).for_each(|i| writer.must(control_back(i)));
    let mut spare = Vec::new();
    for join in control_joins(&writer.now.nodes) {
        match writer.add(join.clone()) {
            Ok(()) | Err(Refusal::Fit) => {}
            Err(_) => spare.push(join),
        }
    }
    assert_eq!((writer.now.nodes.len(), writer.now.edges.len()), (32, MOST_EDGES));
    vec![
        writer.finish("256 edges"),
        writer.finish_with("257 edges, between old nodes", &spare[..1], 28),
        writer.finish_with("257 edges, with a new child", &[control(40)], 28),
    ]
}

/// The sizes, and one beyond each.
pub fn size_runs() -> Vec<Run> {
    [credential_runs(), node_runs(), length_runs(), edge_runs()].into_iter().flatten().collect()
}
