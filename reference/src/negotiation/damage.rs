//! Whether a negotiation is damaged (20), one function for each part of it. What can be seen in the bytes alone is found
//! when they are decoded.

use crate::negotiation::clause::Clause;
use crate::negotiation::graph::{edge_form, legal_state};
use crate::negotiation::states::{children, propagated, satisfied, Propagated};
use crate::negotiation::*;
use crate::rules::classes::{takes, Class};
use crate::rules::expression::*;
use crate::rules::relation::Relation;
use crate::tables::Tables;

/// An open, 256 edges and 256 marks, each in a message of its own with an idle one after it, and one idle message more.
pub const MOST_MESSAGES: u32 = 1027;

/// Ok, or the clause where it does not hold.
fn demand(holds: bool, clause: Clause) -> Result<(), Clause> {
    if holds {
        Ok(())
    } else {
        Err(clause)
    }
}

/// Self is the tables', the other end is neither zero nor self, and a wanted role stands where we are the mediator.
fn header(tables: &Tables, negotiation: &Negotiation) -> Result<(), Clause> {
    demand(negotiation.own == tables.own, Clause::OtherSelf)?;
    demand(negotiation.other != 0 && negotiation.other != negotiation.own, Clause::OtherEnd)?;
    let Role { entity, name } = negotiation.wanted;
    match negotiation.side {
        Side::Mediator => demand(entity != 0 && name != 0, Clause::Wanted),
        Side::Requester => demand(entity == 0 && name == 0, Clause::Wanted),
    }
}

/// The counts are equal, or the mediator's is one ahead. Without a node all else is zero; with one there was a message,
/// and there were not too many.
fn counts(negotiation: &Negotiation) -> Result<(), Clause> {
    let Negotiation { end, idle, messages, nodes, edges, shown, .. } = negotiation;
    let [mediator, requester] = [messages.mediator, messages.requester].map(u32::from);
    demand(mediator == requester || mediator == requester + 1, Clause::CountsDisagree)?;
    if nodes.is_empty() {
        let fresh = (messages.count(), *end, *idle) == (0, 0, false) && edges.is_empty() && shown.is_empty();
        demand(fresh, Clause::NotFresh)
    } else {
        demand((1..=MOST_MESSAGES).contains(&messages.count()), Clause::Messages)
    }
}

/// An issuer-def head takes any well-typed body.
pub fn is_well_typed(tables: &Tables, expression: &Expression) -> bool {
    takes(Class::IssuerDef, expression, |name| tables.class(name))
}

/// What a node must be by itself.
fn node(tables: &Tables, node: &Node) -> Result<(), Clause> {
    if let Form::Target(linked @ Expression::Linked(..)) = &node.form {
        demand(is_well_typed(tables, linked), Clause::NodeClass)?;
    }
    demand(legal_state(&node.form, node.state), Clause::IllegalState)?;
    match node.form {
        Form::Target(Expression::Entity(entity)) => demand(entity == node.subject, Clause::EntitySubject),
        _ => Ok(()),
    }
}

fn no_node_repeats(nodes: &[Node]) -> Result<(), Clause> {
    let repeats = |i: usize| nodes[..i].iter().any(|earlier| earlier.same_target(&nodes[i]));
    demand(!(0..nodes.len()).any(repeats), Clause::RepeatedNode)
}

/// The primary's verifier is the mediator and its subject the requester. It is the wanted role, or any if we are the
/// requester.
fn primary(negotiation: &Negotiation) -> Result<(), Clause> {
    let Some(node) = negotiation.nodes.first() else { return Ok(()) };
    let role_begun = match (&node.form, negotiation.side) {
        (Form::Target(Expression::Role(role)), Side::Mediator) => *role == negotiation.wanted,
        (Form::Target(Expression::Role(_)), Side::Requester) => true,
        _ => false,
    };
    let ends_begun = node.verifier == Side::Mediator && node.subject == negotiation.entity(Side::Requester);
    demand(role_begun && ends_begun, Clause::Primary)
}

/// Class rules and no repeat. The rules of storage are not for credentials shown.
fn shown(tables: &Tables, shown: &[Credential]) -> Result<(), Clause> {
    for (i, credential) in shown.iter().enumerate() {
        let Credential { head, body } = credential;
        let class_of = |name| tables.class(name);
        demand(takes(class_of(head.name), body, class_of), Clause::CredentialClass)?;
        demand(!shown[..i].contains(credential), Clause::RepeatedCredential)?;
    }
    Ok(())
}

/// Edges join nodes that stand, and each is there once.
fn edges_stand(negotiation: &Negotiation) -> Result<(), Clause> {
    let Negotiation { nodes, edges, .. } = negotiation;
    for (j, edge) in edges.iter().enumerate() {
        demand(edge.parent < nodes.len() && edge.child < nodes.len(), Clause::AbsentNode)?;
        demand(!edges[..j].contains(edge), Clause::RepeatedEdge)?;
    }
    Ok(())
}

/// Edges first name nodes above 0 as children, in rising order, and their parents are there by then.
fn nodes_brought(negotiation: &Negotiation) -> Result<(), Clause> {
    let Negotiation { nodes, edges, .. } = negotiation;
    // The nodes below this one are there.
    let mut next = nodes.len().min(1);
    for edge in edges {
        demand(edge.parent < next, Clause::ParentNotBrought)?;
        demand(edge.child <= next, Clause::BroughtOutOfOrder)?;
        if edge.child == next {
            next += 1;
        }
    }
    demand(next == nodes.len(), Clause::NotBrought)
}

fn edge_forms(negotiation: &Negotiation) -> Result<(), Clause> {
    for &Edge { kind, parent, child } in &negotiation.edges {
        let (above, below) = (&negotiation.nodes[parent], &negotiation.nodes[child]);
        demand(edge_form(negotiation, kind, above, below), Clause::EdgeForm)?;
        demand(parent != child, Clause::SelfEdge)?;
    }
    Ok(())
}

/// Kind 1: parent from child holds over all credentials shown.
fn implications(negotiation: &Negotiation) -> Result<(), Clause> {
    let Negotiation { nodes, edges, shown, .. } = negotiation;
    let expression = |i: usize| match &nodes[i].form {
        Form::Target(expression) => expression,
        Form::Goal(_) => unreachable!("a goal in an implication edge"),
    };
    let asked: Vec<(&Expression, &Expression)> = edges
        .iter()
        .filter(|edge| edge.kind == IMPLICATION)
        .map(|edge| (expression(edge.parent), expression(edge.child)))
        .collect();
    let relation = Relation::new(shown, asked.iter().flat_map(|&(f, e)| [f, e]));
    demand(asked.iter().all(|(f, e)| relation.has(f, e)), Clause::Implication)
}

/// Kind 4: over the edges before it, the parent has a monitor child, and that goal has the satisfied solution child
/// <V : B.r2 <- S>, where B is the subject of the edge's child. Marks are as held.
pub fn is_linking_implication_justified(nodes: &[Node], before: &[Edge], edge: Edge) -> bool {
    let satisfied = satisfied(nodes, before);
    let member = nodes[edge.child].subject;
    let is_of_member = |i: usize| match &nodes[i].form {
        Form::Target(Expression::Role(role)) => role.entity == member,
        _ => false,
    };
    children(before, edge.parent, &[MONITOR])
        .any(|goal| children(before, goal, &[SOLUTION]).any(|solution| is_of_member(solution) && satisfied[solution]))
}

fn linking_implications(negotiation: &Negotiation) -> Result<(), Clause> {
    let Negotiation { nodes, edges, .. } = negotiation;
    for (j, &edge) in edges.iter().enumerate() {
        if edge.kind == LINKING_IMPLICATION {
            demand(is_linking_implication_justified(nodes, &edges[..j], edge), Clause::LinkingImplication)?;
        }
    }
    Ok(())
}

/// End 1 exactly where the primary is satisfied, 2 exactly where it is failed; 3 after an idle message, 1 and 2 after
/// another one.
fn end(negotiation: &Negotiation) -> Result<(), Clause> {
    let Negotiation { end, idle, nodes, edges, .. } = negotiation;
    let Some(&primary) = propagated(nodes, edges).first() else { return Ok(()) };
    demand((*end == 1) == (primary == Propagated::Done), Clause::End)?;
    demand((*end == 2) == (primary == Propagated::Failed), Clause::End)?;
    match end {
        1 | 2 => demand(!idle, Clause::Idle),
        3 => demand(*idle, Clause::Idle),
        _ => Ok(()),
    }
}

/// The clauses one after another.
fn sound(tables: &Tables, negotiation: &Negotiation) -> Result<(), Clause> {
    header(tables, negotiation)?;
    counts(negotiation)?;
    for one in &negotiation.nodes {
        node(tables, one)?;
    }
    no_node_repeats(&negotiation.nodes)?;
    primary(negotiation)?;
    shown(tables, &negotiation.shown)?;
    edges_stand(negotiation)?;
    nodes_brought(negotiation)?;
    edge_forms(negotiation)?;
    implications(negotiation)?;
    linking_implications(negotiation)?;
    end(negotiation)
}

/// The first clause that finds damage, or None if the negotiation is sound.
pub fn damage(tables: &Tables, negotiation: &Negotiation) -> Option<Clause> {
    sound(tables, negotiation).err()
}
