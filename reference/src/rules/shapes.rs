//! Questions over 64 credentials whose proofs are long or wide, each with an e that can be an entity or a role.

use crate::random::Random;
use crate::rules::expression::*;
use crate::rules::question::{Question, MOST_CREDENTIALS};

pub struct Shape {
    pub name: &'static str,
    /// The credentials that prove "1.1 from e".
    pub credentials: fn(&Expression) -> Vec<Credential>,
}

pub const SHAPES: [Shape; 8] = [
    Shape { name: "chain", credentials: chain },
    Shape { name: "links: one role of itself", credentials: one_role_of_itself },
    Shape { name: "links: each role of itself", credentials: each_role_of_itself },
    Shape { name: "links: each role of itself, in a ring", credentials: ring },
    Shape { name: "links: nested, one member each", credentials: nested },
    Shape { name: "links: nested, many members", credentials: many_members },
    Shape { name: "intersections: of the next four", credentials: next_four },
    Shape { name: "intersections: layers of four", credentials: layers },
];

fn role(entity: usize, name: usize) -> Role {
    Role { entity: entity as u16, name: name as u16 }
}

fn credential(head: Role, body: Expression) -> Credential {
    Credential { head, body }
}

fn entity(entity: usize) -> Expression {
    Expression::Entity(entity as u16)
}

fn linked(entity: usize, name: usize, second: usize) -> Expression {
    Expression::Linked(role(entity, name), second as u16)
}

/// Each role is the next one, and the last is e.
fn chain(e: &Expression) -> Vec<Credential> {
    let mut set: Vec<Credential> = (1..64).map(|i| credential(role(i, 1), Expression::Role(role(i + 1, 1)))).collect();
    set.push(credential(role(64, 1), e.clone()));
    set
}

/// 1.1 <- 1.1.1 finds the entities 2 to 63 one after another, and e last.
fn one_role_of_itself(e: &Expression) -> Vec<Credential> {
    let mut set = vec![credential(role(1, 1), linked(1, 1, 1))];
    set.extend((1..63).map(|i| credential(role(i, 1), entity(i + 1))));
    set.push(credential(role(63, 1), e.clone()));
    set
}

/// The same for every role on the way.
fn each_role_of_itself(e: &Expression) -> Vec<Credential> {
    let mut set: Vec<Credential> = (1..=32).map(|i| credential(role(i, 1), linked(i, 1, 1))).collect();
    set.extend((1..32).map(|i| credential(role(i, 1), entity(i + 1))));
    set.push(credential(role(32, 1), e.clone()));
    set
}

/// The same, and the last entity leads to the first.
fn ring(e: &Expression) -> Vec<Credential> {
    let mut set: Vec<Credential> = (1..=31).map(|i| credential(role(i, 1), linked(i, 1, 1))).collect();
    set.extend((1..=31).map(|i| credential(role(i, 1), entity(i % 31 + 1))));
    set.push(credential(role(31, 1), e.clone()));
    set.push(credential(role(31, 2), e.clone()));
    set
}

/// 1.1 <- 1.2.99, 1.2 <- 1.3.99 and so on; the last has one member, and each step up goes one entity further.
fn nested(e: &Expression) -> Vec<Credential> {
    let mut set: Vec<Credential> = (1..=31).map(|i| credential(role(1, i), linked(1, i + 1, 99))).collect();
    set.push(credential(role(1, 32), entity(2)));
    set.extend((2..=32).map(|i| credential(role(i, 99), entity(i + 1))));
    set.push(credential(role(32, 99), e.clone()));
    set
}

/// The same with 21 members at the bottom, each of which leads to another one.
fn many_members(e: &Expression) -> Vec<Credential> {
    let mut set: Vec<Credential> = (1..=21).map(|i| credential(role(1, i), linked(1, i + 1, 99))).collect();
    set.extend((0..21).map(|i| credential(role(1, 22), entity(i + 2))));
    set.extend((0..21).map(|i| credential(role(i + 2, 99), entity((i + 8) % 21 + 2))));
    set.push(credential(role(2, 99), e.clone()));
    set
}

/// Each role is the intersection of the next four, and the last four are e.
fn next_four(e: &Expression) -> Vec<Credential> {
    let mut set: Vec<Credential> = (1..=60)
        .map(|i| credential(role(i, 1), Expression::Intersection((1..=4).map(|k| role(i + k, 1)).collect())))
        .collect();
    set.extend((61..=64).map(|i| credential(role(i, 1), e.clone())));
    set
}

/// Four roles in each of 16 layers: each is the intersection of the next layer's, and the last four are e.
fn layers(e: &Expression) -> Vec<Credential> {
    let mut set = Vec::new();
    for layer in 1..=15 {
        let next = Expression::Intersection((1..=4).map(|k| role(layer + 1, k)).collect());
        set.extend((1..=4).map(|k| credential(role(layer, k), next.clone())));
    }
    set.extend((1..=4).map(|k| credential(role(16, k), e.clone())));
    set
}

/// The expression at the end of each shape's proof: an entity and a role that nothing else has.
pub fn ends() -> [(&'static str, Expression); 2] {
    [("entity", entity(100)), ("role", Expression::Role(role(100, 100)))]
}

pub const ORDERS: [&str; 3] = ["ascending", "descending", "shuffled"];

/// "1.1 from e" over the shape's credentials in this order.
pub fn question(shape: &Shape, order: &str, e: &Expression) -> Question {
    let mut credentials = (shape.credentials)(e);
    assert_eq!(credentials.len(), MOST_CREDENTIALS, "{}", shape.name);
    match order {
        "ascending" => {}
        "descending" => credentials.reverse(),
        _ => Random::new(1).shuffle(&mut credentials),
    }
    Question { credentials, f: Expression::Role(role(1, 1)), e: e.clone() }
}
