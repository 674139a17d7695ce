//! Commands that are most likely refused, one function for each number. A few are legal.

use crate::message::legal::carry_out;
use crate::message::plan::Plan;
use crate::message::*;
use crate::negotiation::graph::{is_standard, legal_state};
use crate::negotiation::sample::ALL_CLASSES;
use crate::negotiation::*;
use crate::random::Random;
use crate::refusal::Refusal;
use crate::rules::expression::*;
use crate::tables;
use crate::tables::sample::House;
use std::collections::BTreeMap;

impl Random {
    /// The bytes of a faulty command at this state of the negotiation.
    pub fn faulty_command(&mut self, plan: &Plan, now: &Negotiation) -> Vec<u8> {
        let house = &plan.tables.house;
        if self.percent(5) {
            return self.unreadable();
        }
        if is_full(now) && self.percent(70) {
            if let Some(command) = self.refused_by(plan, now, Refusal::Size) {
                return encode_command(&command);
            }
        }
        let command = match self.below(if now.nodes.is_empty() { 5 } else { 17 }) {
            0..=1 => self.wrong_operand(house, now),
            2 => self.unlisted_command(house, now),
            3 => self.ill_typed(house, now),
            4 => self.opening_again(house, now),
            5..=6 => self.absent(house, now),
            7..=9 => self.unfit(house, now),
            10..=13 => self.unjustified(house, now),
            _ => self.processed(plan, now),
        };
        // Where none is found, an unknown one.
        command.map_or(vec![0], |command| encode_command(&command))
    }

    /// An unknown command, or one of tables.
    fn unreadable(&mut self) -> Vec<u8> {
        let first = [0, 7, 0x10, 0x14, self.byte()][self.below(5)];
        let count = self.below(24);
        [vec![first], self.bytes(count)].concat()
    }

    /// Some command with nodes that stand, if there are any.
    fn any_command(&mut self, house: &House, now: &Negotiation) -> Option<Command> {
        let node = self.below(now.nodes.len().max(1));
        let other = self.below(now.nodes.len().max(1));
        Some(match self.below(5) {
            0 => Command::Credential(self.stored(house, &ALL_CLASSES)?),
            1 => Command::Open(self.role_of(house, &ALL_CLASSES)?, self.below(4) as u8),
            2 => Command::Join(Edge { kind: self.between(1, 6) as u8, parent: node, child: other }),
            3 => Command::Mark(node),
            _ => Command::Child(self.any_child(house, now)?),
        })
    }

    /// A child of any form that its kind may or may not have.
    fn any_child(&mut self, house: &House, now: &Negotiation) -> Option<NewChild> {
        let issuer = self.entity(house.world);
        let form = match self.below(6) {
            0 => Form::Goal(self.name_of(house, &ALL_CLASSES)?),
            1 => Form::Target(Expression::Entity([now.own, now.other][self.below(2)])),
            _ => Form::Target(self.any_body(house)?),
        };
        let legal: Vec<u8> = (0..4).filter(|&state| legal_state(&form, state)).collect();
        let subject = [now.own, now.other, issuer][self.below(3)];
        let parent = self.below(now.nodes.len().max(1));
        Some(NewChild { kind: self.between(1, 6) as u8, parent, form, subject, state: legal[self.below(legal.len())] })
    }

    /// A legal child of the free kinds, or any one.
    fn some_child(&mut self, house: &House, now: &Negotiation) -> Option<NewChild> {
        if !now.nodes.is_empty() {
            for _ in 0..4 {
                if let Some(Command::Child(child)) = self.free_child(house, now) {
                    return Some(child);
                }
            }
        }
        self.any_child(house, now)
    }

    /// 3
    fn wrong_operand(&mut self, house: &House, now: &Negotiation) -> Option<Command> {
        let mut child = self.some_child(house, now)?;
        let wrong_kind = [0, 7, self.byte() | 8][self.below(3)];
        let node = self.below(now.nodes.len().max(1));
        let mut credential = self.stored(house, &ALL_CLASSES)?;
        let wrong_state = [4, self.byte() | 4][self.below(2)];
        Some(match self.below(9) {
            0 => Command::Open(Role { entity: 0, name: credential.head.name }, 0),
            1 => Command::Open(credential.head, wrong_state),
            2 => Command::Join(Edge { kind: wrong_kind, parent: node, child: node }),
            3 => {
                let zero_name = self.percent(50);
                *(if zero_name { &mut credential.head.name } else { &mut credential.head.entity }) = 0;
                Command::Credential(credential)
            }
            4 => {
                // A linked body of another issuer.
                let base = Role { entity: credential.head.entity ^ 1, name: credential.head.name };
                Command::Credential(Credential { body: Expression::Linked(base, base.name), ..credential })
            }
            wrong => {
                match wrong {
                    5 => child.kind = wrong_kind,
                    6 => child.subject = 0,
                    7 => child.state = wrong_state,
                    _ => child.state = self.below(4) as u8,
                }
                Command::Child(child)
            }
        })
    }

    /// A name that is not listed: 5 where the class does not fit, or what else there is.
    fn unlisted_command(&mut self, house: &House, now: &Negotiation) -> Option<Command> {
        let role = Role { entity: self.entity(house.world), name: self.unlisted_name(house) };
        let mut child = self.some_child(house, now)?;
        let issued = self.role_of(house, &ALL_CLASSES)?;
        Some(match self.below(7) {
            0 => Command::Open(role, 0),
            1 => Command::Credential(Credential { head: role, body: Expression::Entity(role.entity) }),
            2 => Command::Credential(Credential { head: issued, body: Expression::Role(role) }),
            3 => Command::Credential(Credential { head: role, body: Expression::Role(issued) }),
            4 => {
                child.form = Form::Target(Expression::Linked(issued, role.name));
                child.state = 0;
                Command::Child(child)
            }
            5 => {
                child.form = Form::Target(Expression::Linked(role, issued.name));
                child.state = 0;
                Command::Child(child)
            }
            _ => {
                child.form = Form::Goal(role.name);
                child.state = 1;
                Command::Child(child)
            }
        })
    }

    /// 5, where the classes of the names drawn do not fit.
    fn ill_typed(&mut self, house: &House, now: &Negotiation) -> Option<Command> {
        let mut child = self.some_child(house, now)?;
        let (head, other) = (self.role_of(house, &ALL_CLASSES)?, self.role_of(house, &ALL_CLASSES)?);
        Some(match self.below(3) {
            0 => Command::Credential(Credential { head, body: Expression::Role(other) }),
            1 => Command::Credential(Credential { head, body: Expression::Linked(head, other.name) }),
            _ => {
                child.form = Form::Target(Expression::Linked(head, other.name));
                child.state = 0;
                Command::Child(child)
            }
        })
    }

    /// 23: an open, or another command while no node stands.
    fn opening_again(&mut self, house: &House, now: &Negotiation) -> Option<Command> {
        if now.nodes.is_empty() {
            return self.any_command(house, now);
        }
        Some(Command::Open(self.role_of(house, &ALL_CLASSES)?, self.below(4) as u8))
    }

    /// 24
    fn absent(&mut self, house: &House, now: &Negotiation) -> Option<Command> {
        let count = now.nodes.len();
        let absent = [count, count, 255, self.between(count, 255)][self.below(4)];
        let node = self.below(count);
        let kind = self.between(1, 6) as u8;
        Some(match self.below(4) {
            0 => Command::Mark(absent),
            1 => Command::Join(Edge { kind, parent: absent, child: node }),
            2 => Command::Join(Edge { kind, parent: node, child: absent }),
            _ => Command::Child(NewChild { parent: absent, ..self.some_child(house, now)? }),
        })
    }

    /// 25
    fn unfit(&mut self, house: &House, now: &Negotiation) -> Option<Command> {
        let node = self.below(now.nodes.len());
        let kind = self.between(1, 6) as u8;
        let edge = now.edges.get(self.below(now.edges.len().max(1)));
        let any_state = self.below(4) as u8;
        let old_child = |node: &Node, kind, parent| {
            let Node { form, subject, state, .. } = node.clone();
            let state = if legal_state(&form, any_state) { any_state } else { state };
            Command::Child(NewChild { kind, parent, form, subject, state })
        };
        Some(match self.below(10) {
            0 => Command::Credential(now.shown.get(self.below(now.shown.len().max(1)))?.clone()),
            1 => Command::Join(*edge?),
            2 => Command::Join(Edge { kind, parent: node, child: node }),
            3 => Command::Join(Edge { kind, parent: node, child: self.below(now.nodes.len()) }),
            // A child that stands, under its parent or another one.
            4 => old_child(&now.nodes[edge?.child], edge?.kind, edge?.parent),
            5 => old_child(&now.nodes[node], kind, self.below(now.nodes.len())),
            6 => Command::Child(NewChild { subject: self.entity(house.world), ..self.some_child(house, now)? }),
            7 => Command::Child(NewChild { kind, ..self.some_child(house, now)? }),
            8 => self.foreign_entity(now)?,
            _ => Command::Child(self.any_child(house, now)?),
        })
    }

    /// From a node about a credential's head to the entity that it names, which may not be the subject.
    fn foreign_entity(&mut self, now: &Negotiation) -> Option<Command> {
        let direct: Vec<&Credential> =
            now.shown.iter().filter(|credential| matches!(credential.body, Expression::Entity(_))).collect();
        let Credential { head, body } = (*direct.get(self.below(direct.len().max(1)))?).clone();
        let parent = now.nodes.iter().position(|node| node.form == Form::Target(Expression::Role(head)))?;
        let subject = now.nodes[parent].subject;
        Some(Command::Child(NewChild { kind: IMPLICATION, parent, form: Form::Target(body), subject, state: 3 }))
    }

    /// 26: edges of kinds 1 and 4 that have the form.
    fn unjustified(&mut self, house: &House, now: &Negotiation) -> Option<Command> {
        let standard: Vec<usize> = (0..now.nodes.len()).filter(|&node| is_standard(&now.nodes[node])).collect();
        let parent = standard[self.below(standard.len())];
        let Node { form, subject, verifier, .. } = now.nodes[parent].clone();
        let issuer = self.entity(house.world);
        let beside = |form, subject| Node { form, subject, verifier, state: 0 };
        match (form, self.below(6)) {
            (Form::Target(Expression::Linked(base, _)), 0..=2) => {
                let child = beside(Form::Target(Expression::Role(base)), issuer);
                Some(self.edge_to(now, LINKING_IMPLICATION, parent, child))
            }
            (_, 3) => self.shown_implication(now),
            (_, 4) => self.linking_implication(now).or_else(|| self.any_join(now)),
            _ => {
                let body = match self.any_body(house)? {
                    Expression::Entity(_) => Expression::Entity(subject),
                    body => body,
                };
                Some(self.edge_to(now, IMPLICATION, parent, beside(Form::Target(body), subject)))
            }
        }
    }

    /// 27: marks of processed nodes and edges into them.
    fn processed(&mut self, plan: &Plan, now: &Negotiation) -> Option<Command> {
        if self.percent(60) {
            return self.refused_by(plan, now, Refusal::Processed);
        }
        let sender = now.side.opposite();
        let done = |node: &Node| node.state & if sender == node.verifier { 1 } else { 2 } != 0;
        let done: Vec<usize> = (0..now.nodes.len()).filter(|&node| done(&now.nodes[node])).collect();
        done.get(self.below(done.len().max(1))).map(|&node| Command::Mark(node))
    }

    /// An edge or a credential that is refused so, if some tries find one; each kind of edge that they find as often.
    fn refused_by(&mut self, plan: &Plan, now: &Negotiation, refusal: Refusal) -> Option<Command> {
        let tables = tables::decode(&plan.tables_bytes()).unwrap();
        let sender = now.side.opposite();
        let mut found = BTreeMap::new();
        for _ in 0..30 {
            let command = match self.below(10) {
                0 => self.stored(&plan.tables.house, &ALL_CLASSES).map(Command::Credential),
                _ => self.some_edge(&plan.tables.house, now),
            };
            let Some(command) = command else { continue };
            if carry_out(&tables, &mut now.clone(), sender, &command) == Err(refusal) {
                found.insert(edge_kind(&command), command);
            }
        }
        let at = self.below(found.len().max(1));
        found.into_values().nth(at)
    }
}

/// Whether there is no room for something.
fn is_full(now: &Negotiation) -> bool {
    now.nodes.len() == MOST_NODES || now.edges.len() == MOST_EDGES || now.shown.len() == MOST_SHOWN
}
