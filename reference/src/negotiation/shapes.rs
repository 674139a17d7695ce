//! Sound negotiations: the marked cases at their last message, and full ones whose report takes long.

use crate::negotiation::damage::MOST_MESSAGES;
use crate::negotiation::states::{propagated, Propagated};
use crate::negotiation::*;
use crate::random::Random;
use crate::rules::classes::Class::*;
use crate::rules::expression::*;
use crate::rules::relation::Relation;
use crate::rules::shapes;
use crate::tables::records::{encode_record, Record};
use std::collections::BTreeSet;

/// Tables and a negotiation that is sound with them.
pub struct Shaped {
    pub name: String,
    pub tables: Vec<u8>,
    pub negotiation: Negotiation,
}

fn role(entity: u16, name: u16) -> Role {
    Role { entity, name }
}

/// Cases (i), a success, and (j), a failure, at their last message, as one of the ends holds them.
pub fn marked_case(side: Side, success: bool) -> (Vec<u8>, Negotiation) {
    let own = if side == Side::Mediator { 3 } else { 2 };
    let names = [(1, IssuerDef), (2, SubjectAll), (3, SubjectAll)].map(|(name, class)| Record::Name(name, class));
    let records = [vec![Record::Own(own)], names.to_vec()].concat();
    let wanted = if side == Side::Mediator { role(3, 1) } else { role(0, 0) };
    let mut negotiation = Negotiation::fresh(side, own, 5 - own, wanted);
    let (mediator, requester) = (Side::Mediator, Side::Requester);
    let node = |expression, subject, verifier, state| Node { form: Form::Target(expression), subject, verifier, state };
    negotiation.nodes = vec![
        node(Expression::Role(role(3, 1)), 2, mediator, 3),
        node(Expression::Role(role(4, 3)), 2, mediator, if success { 1 } else { 3 }),
        node(Expression::Role(role(1, 2)), 3, requester, 3),
        node(Expression::Entity(3), 3, requester, 3),
        node(Expression::Entity(2), 2, mediator, 3),
    ];
    let edge = |(kind, parent, child)| Edge { kind, parent, child };
    negotiation.edges = [(1, 0, 1), (6, 1, 2), (1, 2, 3), (1, 1, 4)].map(edge).to_vec();
    negotiation.shown = vec![
        Credential { head: role(3, 1), body: Expression::Role(role(4, 3)) },
        Credential { head: role(1, 2), body: Expression::Entity(3) },
        Credential { head: role(4, 3), body: Expression::Entity(2) },
    ];
    if !success {
        negotiation.nodes.pop();
        negotiation.edges.pop();
        negotiation.shown.pop();
    }
    negotiation.messages = Messages::in_turn(4);
    negotiation.end = if success { 1 } else { 2 };
    (records.iter().flat_map(encode_record).collect(), negotiation)
}

/// The mediator, and the requester, who is the entity at the end of the chains of `rules::shapes`.
const MEDIATOR: u16 = 1000;
const REQUESTER: u16 = 100;

/// A negotiation about 1.1 that gets its edges one after another. All names have class 3.
pub struct Builder {
    pub negotiation: Negotiation,
}

impl Builder {
    pub fn new(shown: Vec<Credential>) -> Builder {
        let mut negotiation = Negotiation::fresh(Side::Mediator, MEDIATOR, REQUESTER, role(1, 1));
        let form = Form::Target(Expression::Role(role(1, 1)));
        negotiation.nodes.push(Node { form, subject: REQUESTER, verifier: Side::Mediator, state: 0 });
        negotiation.shown = shown;
        Builder { negotiation }
    }

    /// Joins a child, which may stand already; None: it is the parent, or there is no room.
    pub fn join(&mut self, kind: u8, parent: usize, form: Form, subject: u16, verifier: Side) -> Option<usize> {
        let state = match form {
            Form::Target(Expression::Role(_) | Expression::Linked(..)) => 0,
            _ => 3,
        };
        let child = Node { form, subject, verifier, state };
        let old = self.negotiation.nodes.iter().position(|node| node.same_target(&child));
        let number = old.unwrap_or(self.negotiation.nodes.len());
        let edge = Edge { kind, parent, child: number };
        if self.negotiation.edges.contains(&edge) {
            return Some(number);
        }
        if number == parent || number == MOST_NODES || self.negotiation.edges.len() == MOST_EDGES {
            return None;
        }
        if old.is_none() {
            self.negotiation.nodes.push(child);
        }
        self.negotiation.edges.push(edge);
        Some(number)
    }

    /// A child with its parent's verifier and subject.
    pub fn join_beside(&mut self, kind: u8, parent: usize, form: Form) -> Option<usize> {
        let Node { subject, verifier, .. } = self.negotiation.nodes[parent];
        self.join(kind, parent, form, subject, verifier)
    }

    pub fn imply(&mut self, parent: usize, expression: Expression) -> Option<usize> {
        self.join_beside(IMPLICATION, parent, Form::Target(expression))
    }

    /// A role as the requester's target about the mediator, under the primary.
    pub fn control(&mut self, role: Role) -> Option<usize> {
        self.join(CONTROL, 0, Form::Target(Expression::Role(role)), MEDIATOR, Side::Requester)
    }

    /// Every implication and part edge that there is room for, node by node.
    pub fn saturate(&mut self) {
        let mut pool: BTreeSet<Expression> = self.negotiation.shown.iter().map(|c| c.body.clone()).collect();
        pool.extend(self.negotiation.shown.iter().map(|c| Expression::Role(c.head)));
        pool.extend(self.negotiation.nodes.iter().filter_map(|node| match &node.form {
            Form::Target(expression) => Some(expression.clone()),
            Form::Goal(_) => None,
        }));
        let relation = Relation::new(&self.negotiation.shown, &pool);
        let mut at = 0;
        while at < self.negotiation.nodes.len() && self.negotiation.edges.len() < MOST_EDGES {
            self.saturate_node(at, &pool, &relation);
            at += 1;
        }
    }

    fn saturate_node(&mut self, at: usize, pool: &BTreeSet<Expression>, relation: &Relation) {
        let Node { form: Form::Target(f), subject, .. } = self.negotiation.nodes[at].clone() else { return };
        match &f {
            Expression::Entity(_) => {}
            Expression::Intersection(parts) => {
                for &part in parts {
                    self.join_beside(PART, at, Form::Target(Expression::Role(part)));
                }
            }
            Expression::Role(_) | Expression::Linked(..) => {
                for e in pool {
                    let foreign = matches!(e, Expression::Entity(entity) if *entity != subject);
                    if !foreign && pool.contains(&f) && relation.has(&f, e) {
                        self.imply(at, e.clone());
                    }
                }
            }
        }
    }

    /// With the end that fits, and the tables.
    pub fn finish(mut self, name: impl Into<String>) -> Shaped {
        let primary = propagated(&self.negotiation.nodes, &self.negotiation.edges)[0];
        self.negotiation.end = match primary {
            Propagated::Open => 0,
            Propagated::Done => 1,
            Propagated::Failed => 2,
        };
        self.negotiation.messages = Messages::in_turn(MOST_MESSAGES);
        let mut records: Vec<Vec<u8>> = vec![encode_record(&Record::Own(MEDIATOR))];
        let names = (1..=62).chain([99, 100]).map(|name| Record::Name(name, SubjectAll));
        records.extend(names.map(|record| encode_record(&record)));
        Shaped { name: name.into(), tables: records.concat(), negotiation: self.negotiation }
    }
}

/// The credentials of each large question, in each order, with all edges that there is room for.
pub fn saturated() -> Vec<Shaped> {
    let mut shaped = Vec::new();
    for shape in &shapes::SHAPES {
        for order in shapes::ORDERS {
            let credentials = shapes::question(shape, order, &Expression::Entity(REQUESTER)).credentials;
            let heads: Vec<Role> = credentials.iter().map(|credential| credential.head).collect();
            let mut builder = Builder::new(credentials);
            builder.control(role(1, 1));
            builder.saturate();
            // Where this left room: the other roles as well.
            for head in heads {
                builder.control(head);
            }
            builder.saturate();
            shaped.push(builder.finish(format!("{}, {order}", shape.name)));
        }
    }
    shaped
}

/// i.1 <- (i + 1).1, and the last one from both ends.
fn chain(order: &str) -> Vec<Credential> {
    let mut shown: Vec<Credential> =
        (1..63).map(|i| Credential { head: role(i, 1), body: Expression::Role(role(i + 1, 1)) }).collect();
    shown.push(Credential { head: role(63, 1), body: Expression::Entity(REQUESTER) });
    shown.push(Credential { head: role(63, 1), body: Expression::Entity(MEDIATOR) });
    match order {
        "ascending" => {}
        "descending" => shown.reverse(),
        _ => Random::new(1).shuffle(&mut shown),
    }
    shown
}

/// Two chains of nodes, one for each end, each node from the next one; then as many edges more as there is room for.
pub fn chains() -> Vec<Shaped> {
    let mut shaped = Vec::new();
    for order in shapes::ORDERS {
        let mut builder = Builder::new(chain(order));
        let mut at = [0, builder.control(role(1, 1)).unwrap()];
        for i in 2..=63 {
            at = at.map(|node| builder.imply(node, Expression::Role(role(i, 1))).unwrap());
        }
        builder.imply(at[0], Expression::Entity(REQUESTER));
        builder.imply(at[1], Expression::Entity(MEDIATOR));
        builder.saturate();
        shaped.push(builder.finish(format!("two chains of nodes, {order}")));
    }
    shaped
}

/// The same chain between nodes that control edges brought, its edges in each order. One node is satisfied at once, and
/// the others one by one, or all at last.
pub fn old_nodes() -> Vec<Shaped> {
    let mut shaped = Vec::new();
    for order in shapes::ORDERS {
        for at_once in [true, false] {
            let mut steps: Vec<u16> = (1..63).collect();
            match order {
                "ascending" => {}
                "descending" => steps.reverse(),
                _ => Random::new(2).shuffle(&mut steps),
            }
            let when = if at_once { "first" } else { "last" };
            let name = format!("chain between old nodes, {order}, proved {when}");
            shaped.push(chain_between_old_nodes(&steps, at_once).finish(name));
        }
    }
    shaped
}

fn chain_between_old_nodes(steps: &[u16], at_once: bool) -> Builder {
    let mut builder = Builder::new(chain("shuffled"));
    for i in 1..=63 {
        builder.control(role(i, 1));
    }
    if at_once {
        builder.imply(63, Expression::Entity(MEDIATOR));
    }
    for &i in steps {
        builder.imply(i as usize, Expression::Role(role(i + 1, 1)));
    }
    builder.imply(63, Expression::Entity(MEDIATOR));
    builder.saturate();
    builder
}
