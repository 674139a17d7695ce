//! Faults in a negotiation; those in nodes and edges are in `node_faults` and `edge_faults`. A few of the results are
//! sound.

use crate::negotiation::damage::MOST_MESSAGES;
use crate::negotiation::edge_faults::*;
use crate::negotiation::node_faults::*;
use crate::negotiation::sample::ALL_CLASSES;
use crate::negotiation::*;
use crate::random::Random;
use crate::rules::classes::Class::*;
use crate::rules::expression::*;
use crate::tables::sample::House;

pub type NegotiationFault = fn(&mut Random, &House, &mut Negotiation);

pub const NEGOTIATION_FAULTS: [NegotiationFault; 43] = [
    other_side,
    own,
    other,
    wanted,
    end,
    idle,
    messages,
    emptied,
    node_form,
    node_field,
    leaf_field,
    node_names,
    nodes_swapped,
    nodes_swapped_with_edges,
    node_repeated,
    node_removed,
    node_not_brought,
    entity_subject,
    foreign_entity,
    marks,
    primary,
    edge_field,
    edges_swapped,
    edge_repeated,
    edge_removed,
    old_edge_removed,
    edge_moved,
    edge_moved_renumbered,
    edges_swapped_renumbered,
    old_edge_moved_up,
    linking_implication_moved,
    linking_implication_moved_renumbered,
    edge_after_linking,
    edge_between,
    edge_to_new_child,
    linking_implication_of_any,
    edge_of_any_form,
    self_edge,
    credential_replaced,
    credentials_swapped,
    credential_repeated,
    credential_removed,
    circle,
];

/// One of the items, unless there is none.
pub fn one<'a, T>(random: &mut Random, items: &'a mut [T]) -> Option<&'a mut T> {
    let at = random.below(items.len().max(1));
    items.get_mut(at)
}

/// Two places, unless there is no item.
pub fn two_places<T>(random: &mut Random, items: &[T]) -> Option<(usize, usize)> {
    (!items.is_empty()).then(|| (random.below(items.len()), random.below(items.len())))
}

fn other_side(_: &mut Random, _: &House, negotiation: &mut Negotiation) {
    negotiation.side = negotiation.side.opposite();
}

fn own(random: &mut Random, house: &House, negotiation: &mut Negotiation) {
    negotiation.own = [0, random.entity(house.world), negotiation.other][random.below(3)];
}

fn other(random: &mut Random, house: &House, negotiation: &mut Negotiation) {
    negotiation.other = [0, random.entity(house.world), negotiation.own][random.below(3)];
}

fn wanted(random: &mut Random, house: &House, negotiation: &mut Negotiation) {
    let wanted = &mut negotiation.wanted;
    match random.below(5) {
        0 => wanted.entity = 0,
        1 => wanted.name = 0,
        2 => wanted.name = random.unlisted_name(house),
        3 => *wanted = Role { entity: 0, name: 0 },
        _ => *wanted = random.role_of(house, &ALL_CLASSES).unwrap(),
    }
}

fn end(random: &mut Random, _: &House, negotiation: &mut Negotiation) {
    negotiation.end = random.below(5) as u8;
}

fn idle(_: &mut Random, _: &House, negotiation: &mut Negotiation) {
    negotiation.idle = !negotiation.idle;
}

pub fn messages(random: &mut Random, _: &House, negotiation: &mut Negotiation) {
    let Messages { mediator, requester } = negotiation.messages;
    let any = random.number() as u16;
    let counts = |mediator, requester| Messages { mediator, requester };
    let wrong = [
        // In turn: none, the most, more.
        Messages::in_turn(0),
        Messages::in_turn(0),
        Messages::in_turn(MOST_MESSAGES),
        Messages::in_turn(MOST_MESSAGES + 1),
        Messages::in_turn(MOST_MESSAGES + 2),
        Messages::in_turn(any.into()),
        // Not in turn: swapped, one end too far ahead, any.
        counts(requester, mediator),
        counts(requester.wrapping_add(2), requester),
        counts(mediator, mediator.wrapping_add(1)),
        counts(any, random.below(600) as u16),
        // Two bytes do not hold the sum, or one more than a count.
        counts(32768, 32768),
        counts(32769, 32768),
        counts(33000, 33000),
        counts(65535, 1),
        counts(1, 65535),
        counts(0, 65535),
        counts(65535, 65535),
    ];
    negotiation.messages = wrong[random.below(wrong.len())];
}

/// No node, and perhaps something else.
fn emptied(random: &mut Random, _: &House, negotiation: &mut Negotiation) {
    negotiation.nodes.clear();
    let kept = random.below(6);
    let keeps = |part| kept == part || kept == 5;
    if !keeps(0) {
        negotiation.messages = Messages::default();
    }
    negotiation.end *= keeps(1) as u8;
    negotiation.idle &= keeps(2);
    if !keeps(3) {
        negotiation.edges.clear();
    }
    if !keeps(4) {
        negotiation.shown.clear();
    }
}

/// A linking implication that would satisfy the solution that justifies it: 1.1 <- 1.1.1 and 1.1 <- 1 for any role. It
/// is sound if the solution is satisfied before in another way.
fn circle(random: &mut Random, house: &House, negotiation: &mut Negotiation) {
    let Some(role) = random.role_of(house, &[IssuerAll, SubjectAll]) else { return };
    let Role { entity, name } = role;
    let link = Expression::Linked(role, name);
    let requester = negotiation.entity(Side::Requester);
    let node = |form, subject| Node { form, subject, verifier: Side::Mediator, state: 3 };
    let target = |expression, subject| node(Form::Target(expression), subject);
    if negotiation.side == Side::Mediator {
        negotiation.wanted = role;
    }
    negotiation.shown = [link.clone(), Expression::Entity(entity), Expression::Entity(requester)]
        .map(|body| Credential { head: role, body })
        .to_vec();
    negotiation.shown.dedup();
    negotiation.nodes = vec![
        target(Expression::Role(role), requester),
        target(link, requester),
        node(Form::Goal(name), requester),
        target(Expression::Role(role), entity),
        target(Expression::Entity(entity), entity),
        target(Expression::Entity(requester), requester),
    ];
    let list = [(1, 0, 1), (2, 1, 2), (3, 2, 0), (4, 1, 3), (1, 3, 4), (1, 0, 5)];
    negotiation.edges = list.map(|(kind, parent, child)| Edge { kind, parent, child }).to_vec();
    match random.below(3) {
        0 => {}
        1 => {
            negotiation.edges.pop();
            negotiation.nodes.pop();
        }
        _ => {
            let last = negotiation.edges.pop().unwrap();
            negotiation.edges.insert(random.below(4), last);
            renumber(negotiation);
        }
    }
}

/// With class rules kept or not.
fn credential_replaced(random: &mut Random, house: &House, negotiation: &mut Negotiation) {
    let loose = random.credential(house.world);
    let kept = random.stored(house, &ALL_CLASSES);
    let replaced = match random.below(3) {
        0 => kept.unwrap_or(loose),
        1 => loose,
        _ => {
            // Any two names in a link of the issuer.
            let [name, first, second] = [0; 3].map(|_| random.name_of(house, &ALL_CLASSES).unwrap());
            let entity = loose.head.entity;
            let body = Expression::Linked(Role { entity, name: first }, second);
            Credential { head: Role { entity, name }, body }
        }
    };
    if let Some(credential) = one(random, &mut negotiation.shown) {
        *credential = replaced;
    }
}

fn credentials_swapped(random: &mut Random, _: &House, negotiation: &mut Negotiation) {
    if let Some((a, b)) = two_places(random, &negotiation.shown) {
        negotiation.shown.swap(a, b);
    }
}

fn credential_repeated(random: &mut Random, _: &House, negotiation: &mut Negotiation) {
    if let Some(credential) = one(random, &mut negotiation.shown).cloned() {
        if negotiation.shown.len() < MOST_SHOWN {
            negotiation.shown.push(credential);
        }
    }
}

fn credential_removed(random: &mut Random, _: &House, negotiation: &mut Negotiation) {
    if let Some((at, _)) = two_places(random, &negotiation.shown) {
        negotiation.shown.remove(at);
    }
}
