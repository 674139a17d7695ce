//! Section 5.4: the rules for a node whose verifier is the other end.

use crate::negotiation::*;
use crate::reply::leak::Leak;
use crate::reply::moves::*;
use crate::reply::needed::without_hidden;
use crate::rules::expression::*;
use crate::rules::frontier::{frontier, is_entity};
use crate::tables::records::Guard;

/// What the rules ask for at a node that we have not processed.
pub fn work(view: &View, number: usize) -> Work {
    let node = &view.negotiation.nodes[number];
    match &node.form {
        Form::Target(Expression::Role(role)) if node.subject != view.tables.own => of_other(view, number, *role),
        Form::Target(Expression::Role(role)) => match guard_of(&view.tables.sensitive, *role) {
            Some(ack) => of_sensitive(view, number, *role, ack),
            None => of_plain(view, number, *role),
        },
        Form::Target(Expression::Linked(base, second)) => {
            let (wishes, may_mark) =
                view.linking(["opponent, linked (1)", "opponent, linked (2)"], number, *base, *second);
            Work { wishes, may_mark }
        }
        Form::Target(Expression::Intersection(parts)) => {
            Work { wishes: part_edges("opponent, intersection (1)", node, parts), may_mark: true }
        }
        Form::Goal(name) => Work { wishes: solutions(view, node, *name), may_mark: true },
        // Always fully processed.
        Form::Target(Expression::Entity(_)) => Work { wishes: vec![], may_mark: false },
    }
}

fn guard_of(guards: &[Guard], role: Role) -> Option<Role> {
    guards.iter().find(|guard| guard.role == role).map(|guard| guard.by)
}

/// The frontier over 0x13 that stops at all but roles.
fn simp_frontier(view: &View, start: &Expression) -> Vec<Expression> {
    let stops = |e: &Expression| !matches!(e, Expression::Role(_));
    frontier(&without_hidden(view.tables, &view.tables.subject_stored), stops, start)
}

/// The frontier over 0x13 that stops at all but roles that are not sensitive.
fn sens_frontier(view: &View, start: &Expression) -> Vec<Expression> {
    let stops = |e: &Expression| match e {
        Expression::Role(role) => view.tables.is_sensitive(*role),
        _ => true,
    };
    frontier(&without_hidden(view.tables, &view.tables.subject_stored), stops, start)
}

/// (1) the subject's trivial target if the frontier has it, (2) if not, the frontier but entities, (3) the mark.
fn to_frontier(rules: [&'static str; 2], node: &Node, frontier: Vec<Expression>) -> Work {
    let own = Expression::Entity(node.subject);
    let wishes = if frontier.contains(&own) {
        implications(rules[0], node, vec![own])
    } else {
        implications(rules[1], node, frontier.into_iter().filter(|e| !is_entity(e)).collect())
    };
    // Once (1) and (2) are done, satisfied or not.
    Work { wishes, may_mark: true }
}

fn of_plain(view: &View, number: usize, role: Role) -> Work {
    let reached = sens_frontier(view, &Expression::Role(role));
    to_frontier(["opponent, role (1)", "opponent, role (2)"], &view.negotiation.nodes[number], reached)
}

fn of_other(view: &View, number: usize, role: Role) -> Work {
    let reached = simp_frontier(view, &Expression::Role(role));
    let rules = ["opponent, role of another (1)", "opponent, role of another (2)"];
    to_frontier(rules, &view.negotiation.nodes[number], reached)
}

/// A control edge to our target of this role about the other end.
fn control(view: &View, rule: &'static str, role: Role) -> Wish {
    let (subject, verifier) = (view.negotiation.other, view.negotiation.side);
    Wish { rule, kind: CONTROL, form: Form::Target(Expression::Role(role)), subject, verifier, proof: Proof::Nothing }
}

/// Whether our target of this role about the other end stands and is satisfied.
fn is_met(view: &View, role: Role) -> bool {
    let target = view.find(&Form::Target(Expression::Role(role)), view.negotiation.other, view.negotiation.side);
    target.is_some_and(|number| view.is_done(number))
}

/// (1) the Ack target, (2) the AC target, (3) the direct credential, (4) the frontiers of the other bodies, (5) the
/// mark.
fn of_sensitive(view: &View, number: usize, role: Role, ack: Role) -> Work {
    let node = &view.negotiation.nodes[number];
    let access = guard_of(&view.tables.access, role);
    let held = view.tables.holds(role);
    let ack_met = is_met(view, ack);
    // Whether rules (2) and (3) no longer wait.
    let two_ready = ack_met || view.leak == Leak::Access;
    let three_ready = match view.leak {
        Leak::Possession => held,
        _ => ack_met && access.is_none_or(|access| is_met(view, access)),
    };

    let mut wishes = vec![control(view, "opponent, sensitive (1)", ack)];
    if two_ready {
        wishes.extend(access.map(|access| control(view, "opponent, sensitive (2)", access)));
    }
    if three_ready && held {
        let own = Expression::Entity(view.tables.own);
        let direct = Proof::Only(Credential { head: role, body: own.clone() });
        let wish = beside("opponent, sensitive (3)", IMPLICATION, node, Form::Target(own));
        wishes.push(Wish { proof: direct, ..wish });
    }
    wishes.extend(implications("opponent, sensitive (4)", node, frontier_of_others(view, role)));
    let waits = if view.leak == Leak::Mark && !held { false } else { !(ack_met && three_ready) };
    Work { wishes, may_mark: view.is_done(number) || !waits }
}

/// The frontiers of the bodies of a role's credentials but its direct one, entities aside.
fn frontier_of_others(view: &View, role: Role) -> Vec<Expression> {
    without_hidden(view.tables, &view.tables.subject_stored)
        .iter()
        .filter(|credential| credential.head == role)
        .flat_map(|credential| sens_frontier(view, &credential.body))
        .filter(|e| !is_entity(e))
        .collect()
}

/// A goal's solutions: the sensitive roles of this name and those that a credential in 0x13 defines.
fn solutions(view: &View, node: &Node, name: u16) -> Vec<Wish> {
    let sensitive = view.tables.sensitive.iter().map(|guard| guard.role);
    let shown = without_hidden(view.tables, &view.tables.subject_stored);
    let roles = sensitive.chain(shown.iter().map(|credential| credential.head)).filter(|role| role.name == name);
    let wish = |role| beside("opponent, goal (1)", SOLUTION, node, Form::Target(Expression::Role(role)));
    in_order(roles.map(wish).collect())
}
