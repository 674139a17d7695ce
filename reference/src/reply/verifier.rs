//! Section 5.3: the rules for a node whose verifier we are.

use crate::negotiation::*;
use crate::reply::moves::*;
use crate::rules::classes::Class;
use crate::rules::expression::*;
use crate::rules::frontier::frontier;
use crate::rules::relation::Relation;
use std::collections::BTreeSet;

/// What the rules ask for at a node that we have not processed.
pub fn work(view: &View, number: usize) -> Work {
    let node = &view.negotiation.nodes[number];
    match &node.form {
        Form::Target(Expression::Role(role)) => of_role(view, node, *role),
        Form::Target(Expression::Linked(base, second)) => match view.tables.class(base.name) {
            Class::IssuerAll => of_linked_all(view, node, *base, *second),
            Class::IssuerDef => of_linked_def(view, number, *base, *second),
            // Marked at once.
            Class::SubjectAll => Work { wishes: vec![], may_mark: true },
        },
        Form::Target(Expression::Intersection(parts)) => {
            Work { wishes: part_edges("verifier, intersection (1)", node, parts), may_mark: true }
        }
        // Always processed by the verifier.
        Form::Target(Expression::Entity(_)) | Form::Goal(_) => Work { wishes: vec![], may_mark: false },
    }
}

/// The frontier over 0x12 that stops at all that the opponent can process, and at all but roles.
fn oppo_frontier(view: &View, start: &Expression) -> Vec<Expression> {
    let stops = |e: &Expression| match e {
        Expression::Role(role) => view.tables.class(role.name) == Class::SubjectAll,
        _ => true,
    };
    frontier(&view.tables.issuer_stored, stops, start)
}

/// (1) the frontiers of the bodies of A.r's credentials, (2) the mark.
fn of_role(view: &View, node: &Node, role: Role) -> Work {
    let defining = view.tables.issuer_stored.iter().filter(|credential| credential.head == role);
    let reached = defining.flat_map(|credential| oppo_frontier(view, &credential.body)).collect();
    Work { wishes: implications("verifier, role (1)", node, reached), may_mark: true }
}

/// Every entity B with A.r1 from B over 0x12. It is the body of some credential there.
fn members(view: &View, base: Role) -> Vec<u16> {
    let credentials = &view.tables.issuer_stored;
    let bodies: BTreeSet<u16> = credentials
        .iter()
        .filter_map(|credential| match credential.body {
            Expression::Entity(entity) => Some(entity),
            _ => None,
        })
        .collect();
    let role = Expression::Role(base);
    let entities: Vec<Expression> = bodies.iter().map(|&entity| Expression::Entity(entity)).collect();
    let relation = Relation::new(credentials, entities.iter().chain([&role]));
    bodies.into_iter().filter(|&entity| relation.has(&role, &Expression::Entity(entity))).collect()
}

/// (1) for each member B of A.r1 the frontier of B.r2, (2) the mark.
fn of_linked_all(view: &View, node: &Node, base: Role, second: u16) -> Work {
    let roles = members(view, base).into_iter().map(|entity| Expression::Role(Role { entity, name: second }));
    let reached = roles.flat_map(|role| oppo_frontier(view, &role)).collect();
    Work { wishes: implications("verifier, linked issuer-all (1)", node, reached), may_mark: true }
}

/// (1) the monitor edge, (2) a linking implication for each satisfied solution, (3) the mark once the goal is complete.
fn of_linked_def(view: &View, number: usize, base: Role, second: u16) -> Work {
    let rules = ["verifier, linked issuer-def (1)", "verifier, linked issuer-def (2)"];
    let (wishes, may_mark) = view.linking(rules, number, base, second);
    Work { wishes, may_mark }
}
