//! Faults in the edges of a negotiation. A few of the results are sound.

use crate::negotiation::faults::{one, two_places};
use crate::negotiation::graph::{edge_form, is_standard};
use crate::negotiation::node_faults::{add_edge, add_node, any_form};
use crate::negotiation::*;
use crate::random::Random;
use crate::rules::expression::*;
use crate::tables::sample::House;
use std::collections::BTreeSet;

pub fn edge_field(random: &mut Random, _: &House, negotiation: &mut Negotiation) {
    let node = random.below(negotiation.nodes.len() + 1);
    let Some(edge) = one(random, &mut negotiation.edges) else { return };
    match random.below(3) {
        0 => edge.kind = random.between(1, 6) as u8,
        1 => edge.parent = node,
        _ => edge.child = node,
    }
}

/// The verifier or the subject of a node that has one edge alone; each kind of edge that there is as often.
pub fn leaf_field(random: &mut Random, house: &House, negotiation: &mut Negotiation) {
    let edges = &negotiation.edges;
    let touches = |edge: &Edge, node| edge.parent == node || edge.child == node;
    let is_leaf = |node| edges.iter().filter(|edge| touches(edge, node)).count() == 1;
    let mut leaves: Vec<Edge> = edges.iter().filter(|edge| is_leaf(edge.child)).copied().collect();
    random.shuffle(&mut leaves);
    let kinds: BTreeSet<u8> = leaves.iter().map(|edge| edge.kind).collect();
    let Some(&kind) = kinds.iter().nth(random.below(kinds.len().max(1))) else { return };
    let leaf = leaves.iter().find(|edge| edge.kind == kind).unwrap().child;
    let Some(node) = negotiation.nodes.get_mut(leaf) else { return };
    if random.percent(50) {
        node.verifier = node.verifier.opposite();
    } else {
        node.subject = random.entity(house.world);
    }
}

pub fn edges_swapped(random: &mut Random, _: &House, negotiation: &mut Negotiation) {
    if let Some((a, b)) = two_places(random, &negotiation.edges) {
        negotiation.edges.swap(a, b);
    }
}

pub fn edge_repeated(random: &mut Random, _: &House, negotiation: &mut Negotiation) {
    if let Some(edge) = one(random, &mut negotiation.edges).copied() {
        add_edge(negotiation, edge);
    }
}

pub fn edge_removed(random: &mut Random, _: &House, negotiation: &mut Negotiation) {
    if let Some((at, _)) = two_places(random, &negotiation.edges) {
        negotiation.edges.remove(at);
    }
}

/// The places of the edges that did not bring their child.
fn old_edges(edges: &[Edge]) -> Vec<usize> {
    let is_old = |at: &usize| edges[..*at].iter().any(|earlier| earlier.child == edges[*at].child);
    (0..edges.len()).filter(is_old).collect()
}

pub fn old_edge_removed(random: &mut Random, _: &House, negotiation: &mut Negotiation) {
    let places = old_edges(&negotiation.edges);
    if !places.is_empty() {
        negotiation.edges.remove(places[random.below(places.len())]);
    }
}

pub fn edge_moved(random: &mut Random, _: &House, negotiation: &mut Negotiation) {
    if let Some((from, to)) = two_places(random, &negotiation.edges) {
        let edge = negotiation.edges.remove(from);
        negotiation.edges.insert(to, edge);
    }
}

/// A linking implication comes earlier, perhaps before what justified it.
pub fn linking_implication_moved(random: &mut Random, _: &House, negotiation: &mut Negotiation) {
    let is_linking = |edge: &Edge| edge.kind == LINKING_IMPLICATION;
    if let Some(from) = negotiation.edges.iter().position(is_linking) {
        let edge = negotiation.edges.remove(from);
        negotiation.edges.insert(random.below(from + 1), edge);
    }
}

/// Numbers the nodes in the order in which edges first name them as children; the others come last.
pub fn renumber(negotiation: &mut Negotiation) {
    let Negotiation { nodes, edges, .. } = negotiation;
    let named = edges.iter().map(|edge| edge.child);
    let mut order: Vec<usize> = Vec::new();
    for node in [0].into_iter().chain(named).chain(0..nodes.len()) {
        if node < nodes.len() && !order.contains(&node) {
            order.push(node);
        }
    }
    let new = |old: usize| order.iter().position(|&node| node == old).unwrap_or(old);
    for edge in edges {
        *edge = Edge { kind: edge.kind, parent: new(edge.parent), child: new(edge.child) };
    }
    *nodes = order.iter().map(|&node| nodes[node].clone()).collect();
}

pub fn edge_moved_renumbered(random: &mut Random, house: &House, negotiation: &mut Negotiation) {
    edge_moved(random, house, negotiation);
    renumber(negotiation);
}

pub fn edges_swapped_renumbered(random: &mut Random, house: &House, negotiation: &mut Negotiation) {
    edges_swapped(random, house, negotiation);
    renumber(negotiation);
}

pub fn linking_implication_moved_renumbered(random: &mut Random, house: &House, negotiation: &mut Negotiation) {
    linking_implication_moved(random, house, negotiation);
    renumber(negotiation);
}

/// An edge that stood before a linking implication, and may have justified it, comes after it.
pub fn edge_after_linking(random: &mut Random, _: &House, negotiation: &mut Negotiation) {
    let is_linking = |edge: &Edge| edge.kind == LINKING_IMPLICATION;
    if let Some(linking) = negotiation.edges.iter().position(is_linking) {
        let edge = negotiation.edges.remove(random.below(linking.max(1)));
        negotiation.edges.insert(linking, edge);
        renumber(negotiation);
    }
}

/// An edge that did not bring its child comes before the one that did.
pub fn old_edge_moved_up(random: &mut Random, _: &House, negotiation: &mut Negotiation) {
    let places = old_edges(&negotiation.edges);
    if !places.is_empty() {
        let edge = negotiation.edges.remove(places[random.below(places.len())]);
        let brought = negotiation.edges.iter().position(|other| other.child == edge.child).unwrap();
        negotiation.edges.insert(random.below(brought + 1), edge);
    }
}

/// One more edge of right form between old nodes, justified or not.
pub fn edge_between(random: &mut Random, _: &House, negotiation: &mut Negotiation) {
    for _ in 0..20 {
        let Some((parent, child)) = two_places(random, &negotiation.nodes) else { return };
        let kind = if random.percent(60) { IMPLICATION } else { random.between(2, 6) as u8 };
        let edge = Edge { kind, parent, child };
        let (above, below) = (&negotiation.nodes[parent], &negotiation.nodes[child]);
        let new = parent != child && !negotiation.edges.contains(&edge);
        if new && edge_form(negotiation, kind, above, below) {
            return add_edge(negotiation, edge);
        }
    }
}

/// A new child with its parent's verifier and subject, often not justified or not of right form.
pub fn edge_to_new_child(random: &mut Random, house: &House, negotiation: &mut Negotiation) {
    let Some((parent, _)) = two_places(random, &negotiation.nodes) else { return };
    let Node { subject, verifier, .. } = negotiation.nodes[parent];
    let kind = if random.percent(70) { IMPLICATION } else { random.between(1, 6) as u8 };
    let child = Node { form: any_form(random, house), subject, verifier, state: 3 };
    if negotiation.nodes.len() < MOST_NODES && !negotiation.nodes.iter().any(|node| node.same_target(&child)) {
        add_edge(negotiation, Edge { kind, parent, child: negotiation.nodes.len() });
        add_node(negotiation, child);
    }
}

/// A linking implication for any subject.
pub fn linking_implication_of_any(random: &mut Random, house: &House, negotiation: &mut Negotiation) {
    let base = |node: &Node| match &node.form {
        Form::Target(Expression::Linked(base, _)) => Some(*base),
        _ => None,
    };
    let Some(parent) = negotiation.nodes.iter().position(|node| base(node).is_some()) else { return };
    let form = Form::Target(Expression::Role(base(&negotiation.nodes[parent]).unwrap()));
    let verifier = negotiation.nodes[parent].verifier;
    let child = Node { form, subject: random.entity(house.world), verifier, state: random.below(4) as u8 };
    if negotiation.nodes.len() < MOST_NODES && !negotiation.nodes.iter().any(|node| node.same_target(&child)) {
        add_edge(negotiation, Edge { kind: LINKING_IMPLICATION, parent, child: negotiation.nodes.len() });
        add_node(negotiation, child);
    }
}

pub fn edge_of_any_form(random: &mut Random, _: &House, negotiation: &mut Negotiation) {
    if let Some((parent, child)) = two_places(random, &negotiation.nodes) {
        add_edge(negotiation, Edge { kind: random.between(1, 6) as u8, parent, child });
    }
}

pub fn self_edge(random: &mut Random, _: &House, negotiation: &mut Negotiation) {
    let Some((node, _)) = two_places(random, &negotiation.nodes) else { return };
    let kind = if is_standard(&negotiation.nodes[node]) { IMPLICATION } else { random.between(1, 6) as u8 };
    add_edge(negotiation, Edge { kind, parent: node, child: node });
}
