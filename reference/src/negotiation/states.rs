//! Which targets are satisfied or failed and which goals are complete: section 4.4, least solution, with document 01's
//! change for intersections.

use crate::negotiation::*;
use crate::rules::expression::Expression;

/// What report says of a node.
#[derive(Clone, Copy, Debug, PartialEq, Eq)]
pub enum Propagated {
    /// Unknown or incomplete.
    Open = 0,
    /// Satisfied or complete.
    Done = 1,
    Failed = 2,
}

/// A flag for each node.
pub type Flags = Vec<bool>;

/// The children of a node by edges of these kinds.
pub fn children<'a>(edges: &'a [Edge], parent: usize, kinds: &'a [u8]) -> impl Iterator<Item = usize> + 'a {
    edges.iter().filter(move |edge| edge.parent == parent && kinds.contains(&edge.kind)).map(|edge| edge.child)
}

/// Kinds 1 and 4 bring implication children.
const IMPLICATIONS: [u8; 2] = [IMPLICATION, LINKING_IMPLICATION];

/// From no flag, sets those that the rule asks for until it asks for no more.
fn least(count: usize, rule: impl Fn(&Flags, usize) -> bool) -> Flags {
    let mut flags = vec![false; count];
    loop {
        let before = flags.clone();
        for node in 0..count {
            flags[node] = flags[node] || rule(&flags, node);
        }
        if flags == before {
            return flags;
        }
    }
}

/// The satisfied targets over these edges.
pub fn satisfied(nodes: &[Node], edges: &[Edge]) -> Flags {
    least(nodes.len(), |satisfied, i| match &nodes[i].form {
        Form::Target(Expression::Entity(_)) => true,
        Form::Target(Expression::Role(_) | Expression::Linked(..)) => {
            children(edges, i, &IMPLICATIONS).any(|child| satisfied[child])
        }
        // Fully processed, all part edges are there, and each child is satisfied.
        Form::Target(Expression::Intersection(parts)) => {
            nodes[i].fully_processed()
                && children(edges, i, &[PART]).count() == parts.len()
                && children(edges, i, &[PART]).all(|child| satisfied[child])
        }
        Form::Goal(_) => false,
    })
}

/// The failed targets over these edges.
pub fn failed(nodes: &[Node], edges: &[Edge]) -> Flags {
    least(nodes.len(), |failed, i| match &nodes[i].form {
        Form::Target(Expression::Entity(_)) => false,
        // Fully processed, and no implication child is left that is not failed.
        Form::Target(Expression::Role(_) | Expression::Linked(..)) => {
            nodes[i].fully_processed() && children(edges, i, &IMPLICATIONS).all(|child| failed[child])
        }
        Form::Target(Expression::Intersection(_)) => children(edges, i, &[PART]).any(|child| failed[child]),
        Form::Goal(_) => false,
    })
}

/// The propagated state of each node.
pub fn propagated(nodes: &[Node], edges: &[Edge]) -> Vec<Propagated> {
    let satisfied = satisfied(nodes, edges);
    let failed = failed(nodes, edges);
    let complete = |i: usize| {
        matches!(nodes[i].form, Form::Goal(_))
            && nodes[i].fully_processed()
            && children(edges, i, &[SOLUTION]).all(|child| satisfied[child] || failed[child])
    };
    let state = |i: usize| {
        assert!(!(satisfied[i] && failed[i]), "node {i} is both satisfied and failed");
        match (satisfied[i] || complete(i), failed[i]) {
            (true, _) => Propagated::Done,
            (_, true) => Propagated::Failed,
            _ => Propagated::Open,
        }
    };
    (0..nodes.len()).map(state).collect()
}
