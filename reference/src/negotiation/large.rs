//! More full negotiations whose report takes long: links and their goals, many expressions, and single parts alone.

use crate::negotiation::shapes::{chains, old_nodes, saturated, Builder, Shaped};
use crate::negotiation::*;
use crate::rules::expression::*;

fn role(entity: u16, name: u16) -> Role {
    Role { entity, name }
}

fn credential(head: Role, body: Expression) -> Credential {
    Credential { head, body }
}

fn role_target(role: Role) -> Form {
    Form::Target(Expression::Role(role))
}

/// The links 1.b.s of six names b and four names s, and six entities with each role s of the requester. Each solution
/// brings six linking implications: right after it, or when all solutions are there.
fn linking_implications(at_once: bool) -> Shaped {
    let (bases, seconds, entities) = (10..16, 20..24, 30..36);
    let requester = Builder::new(vec![]).negotiation.other;
    let mut shown = Vec::new();
    for second in seconds.clone() {
        shown.extend(bases.clone().map(|base| credential(role(1, 1), Expression::Linked(role(1, base), second))));
        shown.extend(entities.clone().map(|entity| credential(role(entity, second), Expression::Entity(requester))));
    }
    shown.reverse();
    let mut builder = Builder::new(shown);
    let mut late = Vec::new();
    for second in seconds {
        let parents: Vec<(u16, usize)> = bases
            .clone()
            .map(|base| (base, builder.imply(0, Expression::Linked(role(1, base), second)).unwrap()))
            .collect();
        let goals: Vec<usize> = parents
            .iter()
            .map(|&(_, parent)| builder.join_beside(MONITOR, parent, Form::Goal(second)).unwrap())
            .collect();
        for entity in entities.clone() {
            let solution = builder.join_beside(SOLUTION, goals[0], role_target(role(entity, second))).unwrap();
            builder.imply(solution, Expression::Entity(requester));
            for &(base, parent) in &parents {
                late.push((parent, role_target(role(1, base)), entity));
            }
            if at_once {
                join_all(&mut builder, &mut late);
            }
        }
    }
    join_all(&mut builder, &mut late);
    builder.finish(if at_once { "linking implications, one by one" } else { "linking implications, all last" })
}

fn join_all(builder: &mut Builder, late: &mut Vec<(usize, Form, u16)>) {
    for (parent, form, subject) in late.drain(..) {
        builder.join(LINKING_IMPLICATION, parent, form, subject, Side::Mediator);
    }
}

/// A goal with seven solutions, each proved by a chain of eight nodes, whose last edge comes right before the linking
/// implication.
fn linking_after_chains() -> Shaped {
    let requester = Builder::new(vec![]).negotiation.other;
    let mut shown = vec![credential(role(1, 1), Expression::Linked(role(1, 2), 3))];
    let of_chain = |i: u16, k: u16| role(100 * (i + 2) + k, 3);
    for i in 0..7 {
        shown.extend((0..7).map(|k| credential(of_chain(i, k), Expression::Role(of_chain(i, k + 1)))));
        shown.push(credential(of_chain(i, 7), Expression::Entity(requester)));
    }
    shown.reverse();
    let mut builder = Builder::new(shown);
    let parent = builder.imply(0, Expression::Linked(role(1, 2), 3)).unwrap();
    let goal = builder.join_beside(MONITOR, parent, Form::Goal(3)).unwrap();
    for i in 0..7 {
        let mut at = builder.join_beside(SOLUTION, goal, role_target(of_chain(i, 0))).unwrap();
        for k in 1..8 {
            at = builder.imply(at, Expression::Role(of_chain(i, k))).unwrap();
        }
        builder.imply(at, Expression::Entity(requester));
        let member = of_chain(i, 0).entity;
        builder.join(LINKING_IMPLICATION, parent, role_target(role(1, 2)), member, Side::Mediator);
    }
    builder.saturate();
    builder.finish("linking implications after chains")
}

/// One goal with 62 solutions, each proved by one edge, and the linking implication of each.
fn one_goal() -> Shaped {
    let requester = Builder::new(vec![]).negotiation.other;
    let mut shown = vec![credential(role(1, 1), Expression::Linked(role(1, 2), 3))];
    shown.extend((2..64).map(|entity| credential(role(entity, 3), Expression::Entity(requester))));
    let mut builder = Builder::new(shown);
    let parent = builder.imply(0, Expression::Linked(role(1, 2), 3)).unwrap();
    let goal = builder.join_beside(MONITOR, parent, Form::Goal(3)).unwrap();
    for entity in 2..64 {
        if let Some(solution) = builder.join_beside(SOLUTION, goal, role_target(role(entity, 3))) {
            builder.imply(solution, Expression::Entity(requester));
            builder.join(LINKING_IMPLICATION, parent, role_target(role(1, 2)), entity, Side::Mediator);
        }
    }
    builder.finish("one goal of many solutions")
}

/// 1.1 and 1.2.3 from B.3 for 62 entities B, for both ends: every node is about another expression.
fn many_expressions() -> Shaped {
    let link = Expression::Linked(role(1, 2), 3);
    let mut shown = vec![credential(role(1, 1), link.clone())];
    shown.extend((2..65).map(|entity| credential(role(1, 2), Expression::Entity(entity))));
    shown.reverse();
    let mut builder = Builder::new(shown);
    let starts = [0, builder.control(role(1, 1)).unwrap()];
    let links = starts.map(|start| builder.imply(start, link.clone()).unwrap());
    for entity in 2..64 {
        for parent in starts.into_iter().chain(links) {
            builder.imply(parent, Expression::Role(role(entity, 3)));
        }
    }
    builder.finish("role children, each another expression")
}

/// Nodes and credentials that differ in their last number alone: 1.1 from 1.1 and 1.2 and 1.3 and 1.n.
fn last_numbers() -> Shaped {
    let whole = |name| Expression::Intersection([1, 2, 3, name].map(|name| role(1, name)).to_vec());
    let shown: Vec<Credential> = (4..=62).rev().map(|name| credential(role(1, 1), whole(name))).collect();
    let mut builder = Builder::new(shown);
    let other = builder.control(role(1, 1)).unwrap();
    for name in 4..=62 {
        builder.imply(0, whole(name));
        builder.imply(other, whole(name));
    }
    builder.saturate();
    builder.finish("intersections, last number differs")
}

/// 16 intersections of four, all with their part edges.
fn part_edges() -> Shaped {
    let requester = Builder::new(vec![]).negotiation.other;
    let parts = |i: u16| (0..4).map(|k| role(10 + i + k, 1)).collect::<Vec<Role>>();
    let mut shown: Vec<Credential> =
        (0..30).map(|i| credential(role(1, 1), Expression::Intersection(parts(i)))).collect();
    shown.extend((0..33).map(|i| credential(role(10 + i, 1), Expression::Entity(requester))));
    let mut builder = Builder::new(shown);
    for i in 0..30 {
        let whole = builder.imply(0, Expression::Intersection(parts(i))).unwrap();
        for part in parts(i) {
            builder.join_beside(PART, whole, role_target(part));
        }
    }
    for node in 0..builder.negotiation.nodes.len() {
        if matches!(&builder.negotiation.nodes[node].form, Form::Target(Expression::Role(role)) if role.entity >= 10) {
            builder.imply(node, Expression::Entity(requester));
        }
    }
    builder.finish("intersections with their part edges")
}

/// 128 nodes and 256 edges without a credential, all edges control.
fn control_alone(shown: Vec<Credential>, name: &str) -> Shaped {
    let mut builder = Builder::new(shown);
    for i in 1..=MOST_NODES as u16 {
        builder.control(role(i, 1));
    }
    // Back to the primary, whose subject the requester is.
    let requester = builder.negotiation.other;
    for node in 1..MOST_NODES {
        builder.join(CONTROL, node, role_target(role(1, 1)), requester, Side::Mediator);
    }
    builder.finish(name)
}

/// 64 credentials of four parts each, with one node alone or with many.
fn credentials() -> Vec<Credential> {
    let whole = |i: u16| Expression::Intersection([1, 2, 3, 4 + i].map(|entity| role(entity, 1)).to_vec());
    (0..64).rev().map(|i| credential(role(1, 1), whole(i))).collect()
}

pub fn large() -> Vec<Shaped> {
    let mut shaped = vec![
        Builder::new(credentials()).finish("one node, 64 credentials"),
        control_alone(vec![], "control edges, no credential"),
        control_alone(credentials(), "control edges, 64 credentials"),
        linking_implications(true),
        linking_implications(false),
        linking_after_chains(),
        one_goal(),
        many_expressions(),
        last_numbers(),
        part_edges(),
    ];
    shaped.extend(chains());
    shaped.extend(old_nodes());
    shaped.extend(saturated());
    shaped
}

#[cfg(test)]
mod tests {
    use super::*;
    use crate::negotiation::report::judge;

    #[test]
    fn all_are_sound() {
        for shaped in large() {
            let judged = judge(&shaped.tables, &encode(&shaped.negotiation));
            assert!(judged.is_ok(), "{}: {:?}", shaped.name, judged.err());
        }
    }
}
