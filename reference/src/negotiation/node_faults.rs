//! Faults in the nodes of a negotiation. A few of the results are sound.

use crate::negotiation::faults::{one, two_places};
use crate::negotiation::sample::ALL_CLASSES;
use crate::negotiation::*;
use crate::random::Random;
use crate::rules::classes::Class::*;
use crate::rules::expression::*;
use crate::tables::sample::House;

/// Any form, well typed or not.
pub fn any_form(random: &mut Random, house: &House) -> Form {
    let issuer = random.entity(house.world);
    let loose = random.credential(house.world).body;
    match random.below(4) {
        0 => Form::Goal(random.name_of(house, &ALL_CLASSES).unwrap()),
        1 => Form::Target(Expression::Entity(issuer)),
        2 => Form::Target(loose),
        _ => Form::Target(random.body_for(house, issuer, IssuerDef).unwrap_or(Expression::Entity(issuer))),
    }
}

pub fn node_form(random: &mut Random, house: &House, negotiation: &mut Negotiation) {
    let form = any_form(random, house);
    if let Some(node) = one(random, &mut negotiation.nodes) {
        node.form = form;
    }
}

pub fn node_field(random: &mut Random, house: &House, negotiation: &mut Negotiation) {
    let Some(node) = one(random, &mut negotiation.nodes) else { return };
    match random.below(3) {
        0 => node.subject = random.entity(house.world),
        1 => node.verifier = node.verifier.opposite(),
        _ => node.state = random.below(4) as u8,
    }
}

/// A name that is not listed, or a linked role of any two names.
pub fn node_names(random: &mut Random, house: &House, negotiation: &mut Negotiation) {
    let [first, second] = [0; 2].map(|_| random.name_of(house, &ALL_CLASSES).unwrap());
    let (unlisted, in_place) = (random.unlisted_name(house), random.percent(30));
    let Some(node) = one(random, &mut negotiation.nodes) else { return };
    match &mut node.form {
        Form::Goal(name) => *name = unlisted,
        Form::Target(Expression::Role(role)) if in_place => role.name = unlisted,
        Form::Target(Expression::Linked(_, name)) if in_place => *name = unlisted,
        form => *form = Form::Target(Expression::Linked(Role { entity: node.subject, name: first }, second)),
    }
}

pub fn nodes_swapped(random: &mut Random, _: &House, negotiation: &mut Negotiation) {
    if let Some((a, b)) = two_places(random, &negotiation.nodes) {
        negotiation.nodes.swap(a, b);
    }
}

/// The same graph with other numbers.
pub fn nodes_swapped_with_edges(random: &mut Random, _: &House, negotiation: &mut Negotiation) {
    let Some((a, b)) = two_places(random, &negotiation.nodes) else { return };
    negotiation.nodes.swap(a, b);
    let renamed = |i| [(a, b), (b, a)].into_iter().find(|&(from, _)| from == i).map_or(i, |(_, to)| to);
    for edge in &mut negotiation.edges {
        *edge = Edge { kind: edge.kind, parent: renamed(edge.parent), child: renamed(edge.child) };
    }
}

pub fn add_node(negotiation: &mut Negotiation, node: Node) {
    if negotiation.nodes.len() < MOST_NODES {
        negotiation.nodes.push(node);
    }
}

pub fn add_edge(negotiation: &mut Negotiation, edge: Edge) {
    if negotiation.edges.len() < MOST_EDGES {
        negotiation.edges.push(edge);
    }
}

/// Perhaps with another state, and with an edge that brings it.
pub fn node_repeated(random: &mut Random, _: &House, negotiation: &mut Negotiation) {
    let Some(mut node) = one(random, &mut negotiation.nodes).cloned() else { return };
    if random.percent(50) {
        node.state = random.below(4) as u8;
    }
    let old = negotiation.nodes.iter().position(|other| other.same_target(&node)).unwrap();
    let number = negotiation.nodes.len();
    add_node(negotiation, node);
    if let Some(edge) = negotiation.edges.iter().find(|edge| edge.child == old).copied() {
        add_edge(negotiation, Edge { child: number, ..edge });
    }
}

/// Its edges stay, go with it, or go while the others are renumbered.
pub fn node_removed(random: &mut Random, _: &House, negotiation: &mut Negotiation) {
    let Some((at, _)) = two_places(random, &negotiation.nodes) else { return };
    negotiation.nodes.remove(at);
    let how = random.below(3);
    if how > 0 {
        negotiation.edges.retain(|edge| edge.parent != at && edge.child != at);
    }
    if how > 1 {
        for edge in &mut negotiation.edges {
            edge.parent -= (edge.parent > at) as usize;
            edge.child -= (edge.child > at) as usize;
        }
    }
}

fn some_side(random: &mut Random) -> Side {
    [Side::Mediator, Side::Requester][random.below(2)]
}

pub fn node_not_brought(random: &mut Random, house: &House, negotiation: &mut Negotiation) {
    let (form, verifier) = (any_form(random, house), some_side(random));
    add_node(negotiation, Node { form, subject: random.entity(house.world), verifier, state: 3 });
}

pub fn entity_subject(random: &mut Random, house: &House, negotiation: &mut Negotiation) {
    let is_entity = |node: &&mut Node| matches!(node.form, Form::Target(Expression::Entity(_)));
    if let Some(node) = negotiation.nodes.iter_mut().find(is_entity) {
        node.subject = random.entity(house.world);
    }
}

/// A role from an entity that is a member of it, but is not the node's subject.
pub fn foreign_entity(random: &mut Random, _: &House, negotiation: &mut Negotiation) {
    let Some(credential) = one(random, &mut negotiation.shown).cloned() else { return };
    let form = Form::Target(Expression::Role(credential.head));
    let is_foreign = |node: &Node| node.form == form && credential.body != Expression::Entity(node.subject);
    let Some(parent) = negotiation.nodes.iter().position(is_foreign) else { return };
    let Node { subject, verifier, .. } = negotiation.nodes[parent];
    let child = Node { form: Form::Target(credential.body), subject, verifier, state: 3 };
    if negotiation.nodes.len() < MOST_NODES && !negotiation.nodes.iter().any(|node| node.same_target(&child)) {
        add_edge(negotiation, Edge { kind: IMPLICATION, parent, child: negotiation.nodes.len() });
        add_node(negotiation, child);
    }
}

/// Some nodes have other states.
pub fn marks(random: &mut Random, _: &House, negotiation: &mut Negotiation) {
    for node in &mut negotiation.nodes {
        if random.percent(30) {
            node.state = random.below(4) as u8;
        }
    }
}

pub fn primary(random: &mut Random, house: &House, negotiation: &mut Negotiation) {
    let role = random.role_of(house, &ALL_CLASSES).unwrap();
    let Some(node) = negotiation.nodes.first_mut() else { return };
    match random.below(4) {
        0 => node.subject = random.entity(house.world),
        1 => node.verifier = Side::Requester,
        2 => node.form = Form::Target(Expression::Role(role)),
        _ => node.form = any_form(random, house),
    }
}
