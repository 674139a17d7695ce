//! The forms of edges, and the states that a node may have.

use crate::negotiation::*;
use crate::rules::expression::*;

/// Whether a node of this form may have this state: trivial 3; goal 1 or 3; intersection 1 to 3; standard any.
pub fn legal_state(form: &Form, state: u8) -> bool {
    let legal: &[u8] = match form {
        Form::Target(Expression::Entity(_)) => &[3],
        Form::Goal(_) => &[1, 3],
        Form::Target(Expression::Intersection(_)) => &[1, 2, 3],
        Form::Target(Expression::Role(_) | Expression::Linked(..)) => &[0, 1, 2, 3],
    };
    legal.contains(&state)
}

/// Whether a node is a standard target: of a role or a linked role.
pub fn is_standard(node: &Node) -> bool {
    matches!(node.form, Form::Target(Expression::Role(_) | Expression::Linked(..)))
}

fn is_target(node: &Node) -> bool {
    matches!(node.form, Form::Target(_))
}

/// Whether both nodes have one verifier, and whether they have one subject.
fn same_verifier(parent: &Node, child: &Node) -> bool {
    parent.verifier == child.verifier
}

fn same_subject(parent: &Node, child: &Node) -> bool {
    parent.subject == child.subject
}

/// <V : f <- S> from <V : e <- S>, f a role or a linked role, e any expression.
fn implication_form(parent: &Node, child: &Node) -> bool {
    is_standard(parent) && is_target(child) && same_verifier(parent, child) && same_subject(parent, child)
}

/// <V : A.r1.r2 <- S> from <V : ?X.r2 <- S>
fn monitor_form(parent: &Node, child: &Node) -> bool {
    let names_fit = match (&parent.form, &child.form) {
        (Form::Target(Expression::Linked(_, second)), Form::Goal(name)) => second == name,
        _ => false,
    };
    names_fit && same_verifier(parent, child) && same_subject(parent, child)
}

/// <V : ?X.r2 <- S> from <V : B.r2 <- S>
fn solution_form(parent: &Node, child: &Node) -> bool {
    let names_fit = match (&parent.form, &child.form) {
        (Form::Goal(name), Form::Target(Expression::Role(role))) => role.name == *name,
        _ => false,
    };
    names_fit && same_verifier(parent, child) && same_subject(parent, child)
}

/// <V : A.r1.r2 <- S> from <V : A.r1 <- B>
fn linking_implication_form(parent: &Node, child: &Node) -> bool {
    let roles_fit = match (&parent.form, &child.form) {
        (Form::Target(Expression::Linked(base, _)), Form::Target(Expression::Role(role))) => base == role,
        _ => false,
    };
    roles_fit && same_verifier(parent, child)
}

/// <V : A1.r1 and .. Ak.rk <- S> from <V : Ai.ri <- S>
fn part_form(parent: &Node, child: &Node) -> bool {
    let part = match (&parent.form, &child.form) {
        (Form::Target(Expression::Intersection(parts)), Form::Target(Expression::Role(role))) => parts.contains(role),
        _ => false,
    };
    part && same_verifier(parent, child) && same_subject(parent, child)
}

/// <V : f <- S> from <opp(V) : f' <- V>, both standard.
fn control_form(negotiation: &Negotiation, parent: &Node, child: &Node) -> bool {
    is_standard(parent)
        && is_standard(child)
        && child.verifier == parent.verifier.opposite()
        && child.subject == negotiation.entity(parent.verifier)
}

/// Whether an edge of this kind may join these nodes. That it joins two different ones is another matter.
pub fn edge_form(negotiation: &Negotiation, kind: u8, parent: &Node, child: &Node) -> bool {
    match kind {
        IMPLICATION => implication_form(parent, child),
        MONITOR => monitor_form(parent, child),
        SOLUTION => solution_form(parent, child),
        LINKING_IMPLICATION => linking_implication_form(parent, child),
        PART => part_form(parent, child),
        CONTROL => control_form(negotiation, parent, child),
        _ => false,
    }
}
