//! Cases worked out by hand from the papers: forms of edges, states, damage, begin and report.

use crate::negotiation::begin::begin;
use crate::negotiation::clause::Clause;
use crate::negotiation::damage::damage;
use crate::negotiation::graph::{edge_form, legal_state};
use crate::negotiation::report::{judge, report};
use crate::negotiation::shapes::marked_case;
use crate::negotiation::states::{propagated, Propagated};
use crate::negotiation::*;
use crate::rules::expression::*;
use crate::tables::{self, Tables};

fn role(entity: u16, name: u16) -> Expression {
    Expression::Role(Role { entity, name })
}

fn linked(entity: u16, name: u16, second: u16) -> Expression {
    Expression::Linked(Role { entity, name }, second)
}

fn both(a: (u16, u16), b: (u16, u16)) -> Expression {
    Expression::Intersection(vec![Role { entity: a.0, name: a.1 }, Role { entity: b.0, name: b.1 }])
}

/// A target of the mediator about entity 2.
fn target(expression: Expression, state: u8) -> Node {
    Node { form: Form::Target(expression), subject: 2, verifier: Side::Mediator, state }
}

fn goal(name: u16, state: u8) -> Node {
    Node { form: Form::Goal(name), subject: 2, verifier: Side::Mediator, state }
}

fn edges(list: &[(u8, usize, usize)]) -> Vec<Edge> {
    list.iter().map(|&(kind, parent, child)| Edge { kind, parent, child }).collect()
}

/// The propagated states as report numbers them.
fn states(nodes: &[Node], list: &[(u8, usize, usize)]) -> Vec<u8> {
    propagated(nodes, &edges(list)).into_iter().map(|state| state as u8).collect()
}

/// Self 1 and names 1 to 3, all of class 3.
fn house() -> Tables {
    tables::decode(&[0x10, 0, 1, 0x11, 0, 1, 3, 0x11, 0, 2, 3, 0x11, 0, 3, 3]).unwrap()
}

/// Mediator 1 wants 1.1 of 2; the primary has state 0.
fn opened(nodes: Vec<Node>, list: &[(u8, usize, usize)], shown: &[(u16, u16, Expression)]) -> Negotiation {
    let mut negotiation = Negotiation::fresh(Side::Mediator, 1, 2, Role { entity: 1, name: 1 });
    negotiation.nodes = [vec![target(role(1, 1), 0)], nodes].concat();
    negotiation.edges = edges(list);
    let credential = |(entity, name, body): &(u16, u16, Expression)| Credential {
        head: Role { entity: *entity, name: *name },
        body: body.clone(),
    };
    negotiation.shown = shown.iter().map(credential).collect();
    negotiation.messages = Messages::in_turn(3);
    negotiation.end = match propagated(&negotiation.nodes, &negotiation.edges)[0] {
        Propagated::Open => 0,
        Propagated::Done => 1,
        Propagated::Failed => 2,
    };
    negotiation
}

#[test]
fn legal_states() {
    let legal = |form: Form| (0..=4).filter(|&state| legal_state(&form, state)).collect::<Vec<u8>>();
    assert_eq!(legal(Form::Target(Expression::Entity(1))), [3]);
    assert_eq!(legal(Form::Goal(1)), [1, 3]);
    assert_eq!(legal(Form::Target(both((1, 1), (1, 2)))), [1, 2, 3]);
    assert_eq!(legal(Form::Target(role(1, 1))), [0, 1, 2, 3]);
    assert_eq!(legal(Form::Target(linked(1, 1, 1))), [0, 1, 2, 3]);
}

/// Which kinds of edges may join a parent and a child of the same verifier and subject.
#[test]
fn forms_of_edges() {
    let negotiation = opened(vec![], &[], &[]);
    let kinds = |parent: &Node, child: &Node| {
        (0..=7).filter(|&kind| edge_form(&negotiation, kind, parent, child)).collect::<Vec<u8>>()
    };
    let about = |node: Node, subject| Node { subject, ..node };
    let of_requester = |node: Node| Node { verifier: Side::Requester, ..node };
    let (a, whole) = (target(role(1, 1), 0), target(both((1, 1), (1, 2)), 1));
    let (link, solved) = (target(linked(1, 1, 2), 0), goal(2, 1));
    let none: [u8; 0] = [];
    assert_eq!(kinds(&a, &target(Expression::Entity(2), 3)), [1]);
    assert_eq!(kinds(&a, &whole), [1]);
    assert_eq!(kinds(&a, &solved), none);
    assert_eq!(kinds(&a, &about(a.clone(), 3)), none);
    assert_eq!(kinds(&link, &solved), [2]);
    assert_eq!(kinds(&link, &goal(1, 1)), none);
    assert_eq!(kinds(&link, &about(goal(2, 1), 3)), none);
    // By its form a linking implication may be about the same entity.
    assert_eq!(kinds(&link, &a), [1, 4]);
    assert_eq!(kinds(&link, &about(a.clone(), 3)), [4]);
    assert_eq!(kinds(&link, &about(target(role(1, 2), 0), 3)), none);
    assert_eq!(kinds(&solved, &target(role(7, 2), 0)), [3]);
    assert_eq!(kinds(&solved, &target(role(7, 1), 0)), none);
    assert_eq!(kinds(&solved, &target(linked(1, 1, 2), 0)), none);
    assert_eq!(kinds(&whole, &a), [5]);
    assert_eq!(kinds(&whole, &target(role(1, 3), 0)), none);
    assert_eq!(kinds(&whole, &about(a.clone(), 3)), none);
    // The other side's target about the parent's verifier: the mediator is 1, the requester 2.
    assert_eq!(kinds(&a, &of_requester(about(link.clone(), 1))), [6]);
    assert_eq!(kinds(&a, &of_requester(link.clone())), none);
    assert_eq!(kinds(&of_requester(a.clone()), &link), [6]);
    assert_eq!(kinds(&whole, &of_requester(about(link.clone(), 1))), none);
    assert_eq!(kinds(&a, &of_requester(about(whole.clone(), 1))), none);
}

#[test]
fn standard_targets() {
    let (entity, open) = (target(Expression::Entity(2), 3), target(role(1, 1), 0));
    let processed = target(role(1, 2), 3);
    // A trivial target is satisfied; a fully processed standard one without an implication child is failed.
    assert_eq!(states(&[open.clone(), processed.clone(), entity.clone()], &[]), [0, 2, 1]);
    assert_eq!(states(&[open.clone(), entity.clone()], &[(1, 0, 1)]), [1, 1]);
    assert_eq!(states(&[open.clone(), processed.clone()], &[(1, 0, 1)]), [0, 2]);
    assert_eq!(states(&[processed.clone(), target(role(1, 3), 3)], &[(1, 0, 1)]), [2, 2]);
    assert_eq!(states(&[processed.clone(), open.clone()], &[(1, 0, 1)]), [0, 0]);
    assert_eq!(states(&[processed.clone(), entity.clone(), target(role(1, 3), 3)], &[(1, 0, 1), (1, 0, 2)]), [1, 1, 2]);
    // A control child says nothing of its parent.
    assert_eq!(states(&[processed, entity], &[(6, 0, 1)]), [2, 1]);
}

/// A cycle of implications stays unknown, processed or not.
#[test]
fn cycles() {
    for state in [0, 3] {
        let nodes = [target(role(1, 1), state), target(role(1, 2), state)];
        assert_eq!(states(&nodes, &[(1, 0, 1), (1, 1, 0)]), [0, 0]);
    }
}

#[test]
fn intersections() {
    let parts = [target(role(1, 1), 0), target(role(1, 2), 0), target(Expression::Entity(2), 3)];
    let nodes = |state| [vec![target(both((1, 1), (1, 2)), state)], parts.to_vec()].concat();
    let all = [(5, 0, 1), (5, 0, 2), (1, 1, 3), (1, 2, 3)];
    assert_eq!(states(&nodes(3), &all), [1, 1, 1, 1]);
    assert_eq!(states(&nodes(1), &all), [0, 1, 1, 1]);
    assert_eq!(states(&nodes(2), &all), [0, 1, 1, 1]);
    // Without an edge, with one, or with a part that is not satisfied.
    assert_eq!(states(&nodes(3), &[]), [0, 0, 0, 1]);
    assert_eq!(states(&nodes(3), &[(5, 0, 1), (1, 1, 3)]), [0, 1, 0, 1]);
    assert_eq!(states(&nodes(3), &all[..3]), [0, 1, 0, 1]);
    // One failed part is enough, whatever is processed.
    let mut failing = nodes(1);
    failing[2].state = 3;
    assert_eq!(states(&failing, &all[..3]), [2, 1, 2, 1]);
    assert_eq!(states(&failing, &[(5, 0, 1)]), [0, 0, 2, 1]);
}

#[test]
fn goals() {
    let (yes, no, open) = (target(Expression::Entity(2), 3), target(role(3, 2), 3), target(role(4, 2), 0));
    let nodes = |state| [goal(2, state), yes.clone(), no.clone(), open.clone()];
    assert_eq!(states(&nodes(3), &[])[0], 1);
    assert_eq!(states(&nodes(1), &[])[0], 0);
    assert_eq!(states(&nodes(3), &[(3, 0, 2)])[0], 1);
    assert_eq!(states(&nodes(3), &[(3, 0, 2), (3, 0, 3)])[0], 0);
    assert_eq!(states(&nodes(1), &[(3, 0, 2)])[0], 0);
    // A goal is no implication child, complete or not.
    let linked = [target(linked(1, 1, 2), 0), goal(2, 3)];
    assert_eq!(states(&linked, &[(2, 0, 1)]), [0, 1]);
}

/// 1.1 <- 1.2.3, 3.3 <- 2 and 1.2 <- 3: the solution 3.3 is satisfied, then the linking implication to <1.2 <- 3>.
fn linking() -> Negotiation {
    let list = [(1, 0, 1), (2, 1, 2), (3, 2, 3), (1, 3, 4), (4, 1, 5), (1, 5, 6), (6, 0, 7)];
    let about_three = |expression, state| Node { subject: 3, ..target(expression, state) };
    let nodes = vec![
        target(linked(1, 2, 3), 0),
        goal(3, 1),
        target(role(3, 3), 0),
        target(Expression::Entity(2), 3),
        about_three(role(1, 2), 0),
        about_three(Expression::Entity(3), 3),
        Node { form: Form::Target(role(1, 1)), subject: 1, verifier: Side::Requester, state: 0 },
    ];
    let shown = [(1, 1, linked(1, 2, 3)), (3, 3, Expression::Entity(2)), (1, 2, Expression::Entity(3))];
    opened(nodes, &list, &shown)
}

#[test]
fn linking_implications() {
    let sound = linking();
    assert_eq!(damage(&house(), &sound), None);
    assert_eq!(sound.end, 1);

    // Between old nodes, moved before the edge that satisfies the solution.
    let mut late = sound.clone();
    late.nodes.remove(7);
    late.edges.truncate(6);
    late.edges.swap(3, 4);
    late.nodes.swap(4, 5);
    late.edges[3].child = 4;
    late.edges[4].child = 5;
    late.edges[5].parent = 4;
    assert_eq!(damage(&house(), &late), Some(Clause::LinkingImplication));

    // The solution is another entity's.
    let mut foreign = sound.clone();
    foreign.nodes[5].subject = 4;
    foreign.nodes[6] = Node { form: Form::Target(Expression::Entity(4)), ..foreign.nodes[6].clone() };
    foreign.nodes[6].subject = 4;
    foreign.shown[2].body = Expression::Entity(4);
    assert_eq!(damage(&house(), &foreign), Some(Clause::LinkingImplication));
}

#[test]
fn implications() {
    let entity = || vec![target(Expression::Entity(2), 3)];
    let direct = (1, 1, Expression::Entity(2));
    let via = (1, 1, role(1, 2));
    assert_eq!(damage(&house(), &opened(entity(), &[(1, 0, 1)], &[direct.clone()])), None);
    assert_eq!(damage(&house(), &opened(entity(), &[(1, 0, 1)], &[])), Some(Clause::Implication));
    let two = opened(entity(), &[(1, 0, 1)], &[(1, 2, Expression::Entity(2)), via]);
    assert_eq!(damage(&house(), &two), None);
    assert_eq!(damage(&house(), &opened(vec![], &[(1, 0, 0)], &[])), Some(Clause::SelfEdge));
    assert_eq!(damage(&house(), &opened(entity(), &[], &[direct])), Some(Clause::NotBrought));
}

/// Self 1; name 1 has class 1, 2 class 2, 3 class 3; others are not listed.
fn typed_house() -> Tables {
    tables::decode(&[0x10, 0, 1, 0x11, 0, 1, 1, 0x11, 0, 2, 2, 0x11, 0, 3, 3]).unwrap()
}

/// The same negotiation with tables that list its names, some of them or none.
#[test]
fn unlisted_names_are_no_damage() {
    let self_alone = tables::decode(&[0x10, 0, 1]).unwrap();
    for tables in [&house(), &typed_house(), &self_alone] {
        let wanted = Negotiation::fresh(Side::Mediator, 1, 2, Role { entity: 1, name: 9 });
        assert_eq!(damage(tables, &wanted), None);
        let whole = both((1, 9), (2, 8));
        let nodes = vec![target(whole.clone(), 1), target(role(1, 9), 0), target(Expression::Entity(2), 3)];
        let shown = [(1, 1, whole), (1, 9, Expression::Entity(2)), (5, 9, role(6, 8)), (5, 9, linked(5, 8, 7))];
        assert_eq!(damage(tables, &opened(nodes, &[(1, 0, 1), (5, 1, 2), (1, 2, 3)], &shown)), None);
    }
    // Where no name is listed, all of them are subject-all.
    assert_eq!(damage(&self_alone, &linking()), None);
}

/// A target of the requester under the primary, with the goal of its second name.
fn controlled(first: u16, second: u16) -> Negotiation {
    let other_side = |node: Node| Node { subject: 1, verifier: Side::Requester, ..node };
    let nodes = vec![other_side(target(linked(1, first, second), 0)), other_side(goal(second, 1))];
    opened(nodes, &[(6, 0, 1), (2, 1, 2)], &[])
}

/// A class rule that an unlisted name breaks is damage.
#[test]
fn classes_of_unlisted_names() {
    for (first, second) in [(9, 9), (9, 8), (9, 3), (3, 9), (1, 9), (2, 9)] {
        assert_eq!(damage(&typed_house(), &controlled(first, second)), None, "{first} {second}");
    }
    for (first, second) in [(9, 1), (9, 2), (3, 1), (3, 2)] {
        assert_eq!(damage(&typed_house(), &controlled(first, second)), Some(Clause::NodeClass), "{first} {second}");
    }
    let shown = |name, body| damage(&typed_house(), &opened(vec![], &[], &[(1, name, body)]));
    let wrong = Some(Clause::CredentialClass);
    assert_eq!([1, 2, 3, 9].map(|name| shown(name, role(5, 9))), [None, wrong, None, None]);
    assert_eq!([1, 2, 3, 9].map(|name| shown(9, role(5, name))), [wrong, wrong, None, None]);
    assert_eq!([1, 2, 3, 9].map(|name| shown(name, linked(1, 9, 8))), [None, wrong, None, None]);
    assert_eq!([1, 2, 3, 9].map(|name| shown(name, linked(1, 9, 1))), [wrong; 4]);
    assert_eq!([1, 2, 3, 9].map(|name| shown(name, both((5, 3), (6, 9)))), [None, wrong, None, None]);
    assert_eq!([1, 2, 3, 9].map(|name| shown(name, Expression::Entity(5))), [None; 4]);
}

/// Ends and idle bytes beside an unknown, a satisfied and a failed primary.
#[test]
fn ends() {
    let unknown = opened(vec![], &[], &[]);
    let satisfied = opened(vec![target(Expression::Entity(2), 3)], &[(1, 0, 1)], &[(1, 1, Expression::Entity(2))]);
    let mut failed = opened(vec![], &[], &[]);
    failed.nodes[0].state = 3;
    let table: [(&Negotiation, [[bool; 2]; 5]); 3] = [
        (&unknown, [[true; 2], [false; 2], [false; 2], [false, true], [true; 2]]),
        (&satisfied, [[false; 2], [true, false], [false; 2], [false; 2], [false; 2]]),
        (&failed, [[false; 2], [false; 2], [true, false], [false; 2], [false; 2]]),
    ];
    for (negotiation, allowed) in table {
        for end in 0..5 {
            for idle in [false, true] {
                let other = Negotiation { end, idle, ..negotiation.clone() };
                let sound = damage(&house(), &other).is_none();
                assert_eq!(sound, allowed[end as usize][idle as usize], "end {end}, idle {idle}");
            }
        }
    }
}

#[test]
fn message_counts() {
    let found = |(mediator, requester), nodes: usize| {
        let mut negotiation = opened(vec![], &[], &[]);
        negotiation.nodes.truncate(nodes);
        damage(&house(), &Negotiation { messages: Messages { mediator, requester }, ..negotiation })
    };
    for counts in [(1, 0), (1, 1), (2, 1), (513, 513), (514, 513)] {
        assert_eq!(found(counts, 1), None, "{counts:?}");
        assert_eq!(found(counts, 0), Some(Clause::NotFresh), "{counts:?}");
    }
    assert_eq!([1, 0].map(|nodes| found((0, 0), nodes)), [Some(Clause::Messages), None]);
    // More than 1,027; those after the first two would be no more in two bytes.
    for counts in [(514, 514), (515, 514), (32769, 32768), (33000, 33000)] {
        assert_eq!(found(counts, 1), Some(Clause::Messages), "{counts:?}");
    }
    assert_eq!(found((32768, 32768), 0), Some(Clause::NotFresh));
    for counts in [(2, 0), (0, 1), (3, 1), (1, 2), (65535, 1), (1, 65535), (0, 65535), (65535, 0)] {
        assert_eq!([0, 1].map(|nodes| found(counts, nodes)), [Some(Clause::CountsDisagree); 2], "{counts:?}");
    }
}

/// Messages sent in turn, and one more of the side whose turn it is.
#[test]
fn messages_in_turn() {
    let counts = [0, 1, 2, 3, 1027].map(Messages::in_turn).map(|messages| (messages.mediator, messages.requester));
    assert_eq!(counts, [(0, 0), (1, 0), (1, 1), (2, 1), (514, 513)]);
    for count in 0..10 {
        let mut messages = Messages::in_turn(count);
        assert_eq!(messages.count(), count);
        messages.add([Side::Mediator, Side::Requester][count as usize % 2]);
        assert_eq!(messages, Messages::in_turn(count + 1));
    }
}

/// Marked cases (i) and (j) from both ends, at their last message.
#[test]
fn marked_cases() {
    for side in [Side::Mediator, Side::Requester] {
        for (success, states) in [(true, vec![1, 1, 1, 1, 1]), (false, vec![2, 2, 1, 1])] {
            let (tables, negotiation) = marked_case(side, success);
            let sound = judge(&tables, &encode(&negotiation)).unwrap_or_else(|refused| panic!("{refused:?}"));
            assert_eq!(sound.propagated.iter().map(|&state| state as u8).collect::<Vec<u8>>(), states);
        }
    }
    let (tables, negotiation) = marked_case(Side::Mediator, true);
    let bytes = encode(&negotiation);
    // Node 1: state 1, satisfied, end 1; 5 nodes, 4 edges, 3 credentials, 2 messages of each end.
    let value = 1 | 1 << 2 | 1 << 4 | 5 << 7 | 4 << 15 | 3 << 24 | 2 << 31 | 2 << 41;
    assert_eq!(report(&tables, &bytes, 1), 256 * value);
    assert_eq!(report(&tables, &bytes, 4), 256 * (value | 3));
    // With 1,027 messages: 514 of the mediator, 513 of the requester.
    let most = encode(&Negotiation { messages: Messages::in_turn(1027), ..negotiation });
    assert_eq!(most[12..20], [2, 2, 2, 1, 5, 0, 4, 3]);
    assert_eq!(report(&tables, &most, 1) >> 39, 514 | 513 << 10);
    assert_eq!([5, 255].map(|node| report(&tables, &bytes, node)), [24, 24]);
    assert_eq!(report(&tables, &bytes[1..], 0), 1);
    assert_eq!(report(&[], &bytes, 0), 1);
    assert_eq!(report(&tables[..2], &bytes, 0), 2);
}

/// Whatever byte is changed, the bytes are refused or stand for something else, which has these bytes alone.
#[test]
fn one_encoding() {
    let (_, negotiation) = marked_case(Side::Mediator, true);
    let bytes = encode(&negotiation);
    assert_eq!(bytes.len(), NEGOTIATION_BYTES);
    assert_eq!(decode(&bytes), Ok(negotiation.clone()));
    let mut read = 0;
    for at in 0..NEGOTIATION_BYTES {
        for bit in 0..8 {
            let mut other = bytes.clone();
            other[at] ^= 1 << bit;
            if let Ok(changed) = decode(&other) {
                assert_ne!(changed, negotiation);
                assert_eq!(encode(&changed), other);
                read += 1;
            }
        }
    }
    assert!(read > 0);
}

#[test]
fn begins() {
    let tables = [0x10, 0, 1, 0x11, 0, 1, 3];
    let before = vec![7; NEGOTIATION_BYTES];
    let try_one = |length: usize, other, entity, name| {
        let mut bytes = before[..length].to_vec();
        let answer = begin(&tables, &mut bytes, other, Role { entity, name });
        assert!(answer == 0 || bytes == before[..length]);
        (answer, bytes)
    };
    let numbers = [(5120, 2, 9, 1), (5120, 2, 0, 0), (5119, 0, 1, 0), (5120, 0, 1, 0), (5120, 0, 0, 1)];
    assert_eq!(numbers.map(|(length, other, entity, name)| try_one(length, other, entity, name).0), [0, 0, 1, 3, 3]);
    let numbers = [(0, 1, 2), (0, 1, 1), (1, 1, 1), (1, 0, 0)];
    assert_eq!(numbers.map(|(other, entity, name)| try_one(5120, other, entity, name).0), [7; 4]);
    // A wanted name that is not listed.
    let (answer, unlisted) = try_one(5120, 2, 9, 2);
    assert_eq!((answer, &unlisted[..12]), (0, &[2, 0, 0, 1, 0, 2, 0, 9, 0, 2, 0, 0][..]));
    assert_eq!([0, 1].map(|name| try_one(5120, 2, 0, name).0), [0, 3]);
    let (_, bytes) = try_one(5120, 0x203, 0x905, 1);
    assert_eq!(bytes[..10], [2, 0, 0, 1, 2, 3, 9, 5, 0, 1]);
    assert!(bytes[10..].iter().all(|&byte| byte == 0));
    assert_eq!(try_one(5120, 2, 0, 0).1[..6], [2, 1, 0, 1, 0, 2]);
    assert_eq!(report(&tables, &bytes, 0), 24);
}
