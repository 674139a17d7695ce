//! One command of a message, judged by rising number and then carried out: one function for each number.

use crate::message::*;
use crate::negotiation::damage::{is_linking_implication_justified, is_well_typed};
use crate::negotiation::graph::edge_form;
use crate::negotiation::*;
use crate::refusal::Refusal;
use crate::rules::classes::takes;
use crate::rules::expression::*;
use crate::rules::relation::from;
use crate::tables::Tables;

/// A credential's head takes its body, and a node's linked role is well typed.
fn class_rules_kept(tables: &Tables, command: &Command) -> bool {
    let class_of = |name| tables.class(name);
    match command {
        Command::Credential(Credential { head, body }) => takes(class_of(head.name), body, class_of),
        Command::Child(NewChild { form: Form::Target(linked @ Expression::Linked(..)), .. }) => {
            is_well_typed(tables, linked)
        }
        _ => true,
    }
}

/// Open comes first, and only then.
fn opens_first(negotiation: &Negotiation, command: &Command) -> bool {
    matches!(command, Command::Open(..)) == negotiation.nodes.is_empty()
}

/// The nodes that must stand.
fn nodes_named(command: &Command) -> Vec<usize> {
    match command {
        Command::Child(child) => vec![child.parent],
        Command::Join(edge) => vec![edge.parent, edge.child],
        Command::Mark(node) => vec![*node],
        Command::Credential(_) | Command::Open(..) | Command::End => vec![],
    }
}

/// The node that a new child is: the parent's verifier stays, but for a control edge.
fn new_node(negotiation: &Negotiation, child: &NewChild) -> Node {
    let above = negotiation.nodes[child.parent].verifier;
    let verifier = if child.kind == CONTROL { above.opposite() } else { above };
    Node { form: child.form.clone(), subject: child.subject, verifier, state: child.state }
}

/// An entity node has itself as subject.
fn subject_fits(node: &Node) -> bool {
    match node.form {
        Form::Target(Expression::Entity(entity)) => entity == node.subject,
        _ => true,
    }
}

fn child_fits(negotiation: &Negotiation, child: &NewChild) -> bool {
    let node = new_node(negotiation, child);
    edge_form(negotiation, child.kind, &negotiation.nodes[child.parent], &node)
        && subject_fits(&node)
        && !negotiation.nodes.iter().any(|old| old.same_target(&node))
}

fn join_fits(negotiation: &Negotiation, edge: &Edge) -> bool {
    let Negotiation { nodes, edges, .. } = negotiation;
    edge_form(negotiation, edge.kind, &nodes[edge.parent], &nodes[edge.child])
        && edge.parent != edge.child
        && !edges.contains(edge)
}

/// The edge has its form, and what is added is not there yet.
fn fits(negotiation: &Negotiation, command: &Command) -> bool {
    match command {
        Command::Credential(credential) => !negotiation.shown.contains(credential),
        Command::Child(child) => child_fits(negotiation, child),
        Command::Join(edge) => join_fits(negotiation, edge),
        Command::Open(..) | Command::Mark(_) | Command::End => true,
    }
}

/// Kind 1 over the credentials shown so far, kind 4 over the edges and marks that stand.
fn edge_justified(negotiation: &Negotiation, nodes: &[Node], edge: Edge) -> bool {
    match edge.kind {
        IMPLICATION => match (&nodes[edge.parent].form, &nodes[edge.child].form) {
            (Form::Target(f), Form::Target(e)) => from(&negotiation.shown, f, e),
            _ => unreachable!("a goal in an implication edge"),
        },
        LINKING_IMPLICATION => is_linking_implication_justified(nodes, &negotiation.edges, edge),
        _ => true,
    }
}

fn justified(negotiation: &Negotiation, command: &Command) -> bool {
    match command {
        Command::Child(child) => {
            let nodes = [&negotiation.nodes[..], &[new_node(negotiation, child)]].concat();
            let edge = Edge { kind: child.kind, parent: child.parent, child: negotiation.nodes.len() };
            edge_justified(negotiation, &nodes, edge)
        }
        Command::Join(edge) => edge_justified(negotiation, &negotiation.nodes, *edge),
        _ => true,
    }
}

/// The bit of a node's state that says that this side has processed it.
fn bit(node: &Node, side: Side) -> u8 {
    if side == node.verifier {
        1
    } else {
        2
    }
}

/// The node that the sender may not have processed yet.
fn node_processed(command: &Command) -> Option<usize> {
    match command {
        Command::Child(child) => Some(child.parent),
        Command::Join(edge) => Some(edge.parent),
        Command::Mark(node) => Some(*node),
        Command::Credential(_) | Command::Open(..) | Command::End => None,
    }
}

pub fn has_processed(negotiation: &Negotiation, sender: Side, node: usize) -> bool {
    let node = &negotiation.nodes[node];
    node.state & bit(node, sender) != 0
}

/// Whether there is room for what the command adds.
fn has_room(negotiation: &Negotiation, command: &Command) -> bool {
    let Negotiation { nodes, edges, shown, .. } = negotiation;
    match command {
        Command::Credential(_) => shown.len() < MOST_SHOWN,
        Command::Child(_) => nodes.len() < MOST_NODES && edges.len() < MOST_EDGES,
        Command::Join(_) => edges.len() < MOST_EDGES,
        Command::Open(..) | Command::Mark(_) | Command::End => true,
    }
}

/// The first number by which the command is refused, after its bytes are read.
fn judge(tables: &Tables, negotiation: &Negotiation, sender: Side, command: &Command) -> Result<(), Refusal> {
    let demand = |holds: bool, refusal| if holds { Ok(()) } else { Err(refusal) };
    let stands = |node: usize| node < negotiation.nodes.len();
    demand(class_rules_kept(tables, command), Refusal::Class)?;
    demand(opens_first(negotiation, command), Refusal::Opening)?;
    demand(nodes_named(command).into_iter().all(stands), Refusal::Absent)?;
    demand(fits(negotiation, command), Refusal::Fit)?;
    demand(justified(negotiation, command), Refusal::Unjustified)?;
    let processed = node_processed(command).is_some_and(|node| has_processed(negotiation, sender, node));
    demand(!processed, Refusal::Processed)?;
    demand(has_room(negotiation, command), Refusal::Size)
}

/// What a legal command does.
fn apply(negotiation: &mut Negotiation, sender: Side, command: &Command) {
    match command {
        Command::Credential(credential) => negotiation.shown.push(credential.clone()),
        Command::Open(role, state) => {
            let form = Form::Target(Expression::Role(*role));
            let subject = negotiation.entity(Side::Requester);
            negotiation.nodes.push(Node { form, subject, verifier: Side::Mediator, state: *state });
        }
        Command::Child(child) => {
            let node = new_node(negotiation, child);
            let number = negotiation.nodes.len();
            negotiation.nodes.push(node);
            negotiation.edges.push(Edge { kind: child.kind, parent: child.parent, child: number });
        }
        Command::Join(edge) => negotiation.edges.push(*edge),
        Command::Mark(node) => {
            let node = &mut negotiation.nodes[*node];
            node.state |= bit(node, sender);
        }
        Command::End => {}
    }
}

/// Carries the negotiation to its next state, or leaves it and says why the command is refused.
pub fn carry_out(
    tables: &Tables,
    negotiation: &mut Negotiation,
    sender: Side,
    command: &Command,
) -> Result<(), Refusal> {
    judge(tables, negotiation, sender, command)?;
    apply(negotiation, sender, command);
    Ok(())
}
