//! The steps by which a random negotiation grows.

use crate::negotiation::damage::is_linking_implication_justified;
use crate::negotiation::graph::legal_state;
use crate::negotiation::sample::{Extent, ALL_CLASSES};
use crate::negotiation::states::{children, satisfied};
use crate::negotiation::*;
use crate::random::Random;
use crate::rules::classes::Class::IssuerDef;
use crate::rules::expression::*;
use crate::rules::relation::Relation;
use crate::tables::sample::House;
use std::collections::BTreeSet;

pub struct Growth<'a> {
    random: &'a mut Random,
    negotiation: Negotiation,
    extent: Extent,
    /// The expressions that nodes are about, and "f from e" over them.
    pool: Vec<Expression>,
    relation: Relation,
}

/// Every expression that the credentials have, and some besides.
fn pool(random: &mut Random, house: &House, negotiation: &Negotiation, primary: &Node) -> Vec<Expression> {
    let mut pool = BTreeSet::new();
    if let Form::Target(expression) = &primary.form {
        pool.insert(expression.clone());
    }
    for credential in &negotiation.shown {
        pool.insert(Expression::Role(credential.head));
        pool.insert(credential.body.clone());
    }
    for entity in [negotiation.own, negotiation.other, random.entity(house.world)] {
        pool.insert(Expression::Entity(entity));
    }
    for _ in 0..random.between(0, 12) {
        pool.extend(random.role_of(house, &ALL_CLASSES).map(Expression::Role));
        // A body for an issuer-def head may be any well-typed expression.
        let issuer = random.entity(house.world);
        pool.extend(random.body_for(house, issuer, IssuerDef));
    }
    let parts: Vec<Expression> = pool.iter().flat_map(roles_in).map(Expression::Role).collect();
    pool.extend(parts);
    pool.into_iter().collect()
}

/// The parts of an intersection, the base of a linked role.
fn roles_in(expression: &Expression) -> Vec<Role> {
    match expression {
        Expression::Linked(base, _) => vec![*base],
        Expression::Intersection(parts) => parts.clone(),
        _ => vec![],
    }
}

impl<'a> Growth<'a> {
    /// The negotiation has its credentials and no node.
    pub fn new(random: &'a mut Random, house: &House, mut negotiation: Negotiation, primary: Node) -> Growth<'a> {
        let pool = pool(random, house, &negotiation, &primary);
        // Roles that solve goals are asked about too.
        let names: Vec<u16> = house.names_of(&ALL_CLASSES).into_iter().take(10).collect();
        let entities: BTreeSet<u16> = (0..12).map(|_| random.entity(house.world)).collect();
        let solutions = entities.iter().flat_map(|&entity| names.iter().map(move |&name| Role { entity, name }));
        let pool: Vec<Expression> =
            pool.into_iter().chain(solutions.map(Expression::Role)).collect::<BTreeSet<_>>().into_iter().collect();
        let relation = Relation::new(&negotiation.shown, &pool);
        let extent = Extent { nodes: 0, edges: 0, shown: 0 };
        negotiation.nodes = vec![primary];
        Growth { random, negotiation, extent, pool, relation }
    }

    /// Grows as far as asked, or until many steps in a row added nothing.
    pub fn run(mut self, extent: Extent) -> Negotiation {
        self.extent = extent;
        let mut idle = 0;
        while self.negotiation.edges.len() < extent.edges && idle < 60 {
            let before = self.negotiation.edges.len();
            let node = self.some_node();
            if self.random.percent(25) {
                self.satisfy(node, 4);
            } else {
                self.step(node);
            }
            idle = if self.negotiation.edges.len() > before { 0 } else { idle + 1 };
        }
        self.marks();
        self.negotiation
    }

    fn some_node(&mut self) -> usize {
        let count = self.negotiation.nodes.len();
        if self.random.percent(50) {
            self.random.below(count)
        } else {
            count - 1 - self.random.below(count.min(4))
        }
    }

    /// Marks all nodes, a few, or none.
    fn marks(&mut self) {
        let chance = [0, 10, 50, 90, 100][self.random.below(5)];
        for node in &mut self.negotiation.nodes {
            if self.random.percent(chance) {
                node.state |= [1, 2, 3, 3, 3][self.random.below(5)];
            }
        }
    }

    fn form(&self, node: usize) -> Form {
        self.negotiation.nodes[node].form.clone()
    }

    /// A node beside another one: with its verifier and subject.
    fn beside(&self, node: usize, form: Form) -> Node {
        let Node { subject, verifier, .. } = self.negotiation.nodes[node];
        Node { form, subject, verifier, state: 0 }
    }

    /// Joins a child, which may stand already, and gives its number; None: there is no room, or it is the parent.
    fn join(&mut self, kind: u8, parent: usize, child: Node) -> Option<usize> {
        let old = self.negotiation.nodes.iter().position(|node| node.same_target(&child));
        let number = old.unwrap_or(self.negotiation.nodes.len());
        let edge = Edge { kind, parent, child: number };
        if self.negotiation.edges.contains(&edge) {
            return Some(number);
        }
        let room = self.negotiation.edges.len() < self.extent.edges && number < self.extent.nodes;
        if !room || number == parent {
            return None;
        }
        if old.is_none() {
            let legal: Vec<u8> = (0..4).filter(|&state| legal_state(&child.form, state)).collect();
            let state = legal[self.random.below(legal.len())];
            self.negotiation.nodes.push(Node { state, ..child });
        }
        self.negotiation.edges.push(edge);
        Some(number)
    }

    /// One edge into the node, if one is found.
    fn step(&mut self, node: usize) {
        match self.form(node) {
            Form::Target(Expression::Entity(_)) => {}
            Form::Target(Expression::Role(_)) => match self.random.below(8) {
                0 => self.add_control(node),
                _ => drop(self.add_implication(node)),
            },
            Form::Target(Expression::Linked(..)) => match self.random.below(8) {
                0 => self.add_control(node),
                1..=2 => drop(self.add_implication(node)),
                3..=4 => drop(self.add_monitor(node)),
                _ => drop(self.add_linking_implication(node)),
            },
            Form::Target(Expression::Intersection(parts)) => {
                let part = parts[self.random.below(parts.len())];
                self.join(PART, node, self.beside(node, Form::Target(Expression::Role(part))));
            }
            Form::Goal(name) => drop(self.add_solution(node, name)),
        }
    }

    /// To an expression that the node's is from: often its subject.
    fn add_implication(&mut self, node: usize) -> Option<usize> {
        let Form::Target(f) = self.form(node) else { return None };
        let subject = Expression::Entity(self.negotiation.nodes[node].subject);
        let fits = |e: &&Expression| match e {
            Expression::Entity(_) => **e == subject,
            _ => **e != f,
        };
        if !self.pool.contains(&f) {
            return None;
        }
        let found: Vec<&Expression> = self.pool.iter().filter(fits).filter(|&e| self.relation.has(&f, e)).collect();
        if found.is_empty() {
            return None;
        }
        let compound: Vec<&Expression> = found.iter().copied().filter(|e| !roles_in(e).is_empty()).collect();
        let e = if found.contains(&&subject) && self.random.percent(40) {
            subject
        } else if !compound.is_empty() && self.random.percent(30) {
            compound[self.random.below(compound.len())].clone()
        } else {
            found[self.random.below(found.len())].clone()
        };
        self.join(IMPLICATION, node, self.beside(node, Form::Target(e)))
    }

    fn add_monitor(&mut self, node: usize) -> Option<usize> {
        let Form::Target(Expression::Linked(_, name)) = self.form(node) else { return None };
        self.join(MONITOR, node, self.beside(node, Form::Goal(name)))
    }

    /// Often a role that the subject is proved to have.
    fn add_solution(&mut self, goal: usize, name: u16) -> Option<usize> {
        let subject = Expression::Entity(self.negotiation.nodes[goal].subject);
        let roles: Vec<&Expression> =
            self.pool.iter().filter(|e| matches!(e, Expression::Role(role) if role.name == name)).collect();
        let proved: Vec<&Expression> = match self.pool.contains(&subject) {
            true => roles.iter().copied().filter(|role| self.relation.has(role, &subject)).collect(),
            false => vec![],
        };
        let from = if proved.is_empty() || self.random.percent(20) { roles } else { proved };
        if from.is_empty() {
            return None;
        }
        let role = from[self.random.below(from.len())].clone();
        self.join(SOLUTION, goal, self.beside(goal, Form::Target(role)))
    }

    /// For a satisfied solution of a goal that the node monitors.
    fn add_linking_implication(&mut self, node: usize) -> Option<usize> {
        let Form::Target(Expression::Linked(base, _)) = self.form(node) else { return None };
        let Negotiation { nodes, edges, .. } = &self.negotiation;
        let satisfied = satisfied(nodes, edges);
        let solutions: Vec<usize> = children(edges, node, &[MONITOR])
            .flat_map(|goal| children(edges, goal, &[SOLUTION]))
            .filter(|&solution| satisfied[solution])
            .collect();
        if solutions.is_empty() {
            return None;
        }
        let solution = solutions[self.random.below(solutions.len())];
        let Form::Target(Expression::Role(role)) = self.form(solution) else { return None };
        let child = self.beside(node, Form::Target(Expression::Role(base)));
        let before = self.negotiation.edges.clone();
        let child = self.join(LINKING_IMPLICATION, node, Node { subject: role.entity, ..child })?;
        let edge = Edge { kind: LINKING_IMPLICATION, parent: node, child };
        assert!(is_linking_implication_justified(&self.negotiation.nodes, &before, edge));
        Some(child)
    }

    /// To a standard target of the other side about this one's verifier.
    fn add_control(&mut self, node: usize) {
        let verifier = self.negotiation.nodes[node].verifier;
        let standard: Vec<Expression> =
            self.pool.iter().filter(|e| matches!(e, Expression::Role(_) | Expression::Linked(..))).cloned().collect();
        let form = Form::Target(standard[self.random.below(standard.len())].clone());
        let subject = self.negotiation.entity(verifier);
        self.join(CONTROL, node, Node { form, subject, verifier: verifier.opposite(), state: 0 });
    }

    /// Tries to satisfy the node in at most so many steps downwards.
    fn satisfy(&mut self, node: usize, depth: usize) {
        if depth == 0 {
            return;
        }
        match self.form(node) {
            Form::Target(Expression::Entity(_)) => {}
            Form::Target(Expression::Linked(..)) if self.random.percent(60) => self.satisfy_linked(node, depth - 1),
            Form::Target(Expression::Role(_) | Expression::Linked(..)) => {
                if let Some(child) = self.add_implication(node) {
                    self.satisfy(child, depth - 1);
                }
            }
            Form::Target(Expression::Intersection(parts)) => {
                for part in parts {
                    let child = self.beside(node, Form::Target(Expression::Role(part)));
                    if let Some(child) = self.join(PART, node, child) {
                        self.satisfy(child, depth - 1);
                    }
                }
                if self.random.percent(40) {
                    self.negotiation.nodes[node].state = 3;
                }
            }
            Form::Goal(name) => {
                if let Some(solution) = self.add_solution(node, name) {
                    self.satisfy(solution, depth - 1);
                }
            }
        }
    }

    /// By way of a goal, its solution, and the linking implication.
    fn satisfy_linked(&mut self, node: usize, depth: usize) {
        if let Some(goal) = self.add_monitor(node) {
            self.satisfy(goal, depth);
        }
        if let Some(child) = self.add_linking_implication(node) {
            self.satisfy(child, depth);
        }
    }
}
