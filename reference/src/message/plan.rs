//! The negotiations that random messages go on from: a part of a random sound one, whose rest is still to come.

use crate::message::writer::other_end;
use crate::negotiation::damage::{damage, MOST_MESSAGES};
use crate::negotiation::graph::{edge_form, legal_state};
use crate::negotiation::sample::{Grown, ALL_CLASSES};
use crate::negotiation::states::{propagated, Propagated};
use crate::negotiation::*;
use crate::random::Random;
use crate::rules::expression::*;
use crate::tables;
use crate::tables::records::{encode_record, Record};
use crate::tables::sample::Sample;

/// A sound negotiation, and the whole that it is on the way to.
#[derive(Clone)]
pub struct Plan {
    pub tables: Sample,
    pub now: Negotiation,
    pub whole: Negotiation,
}

impl Plan {
    pub fn tables_bytes(&self) -> Vec<u8> {
        self.tables.records.concat()
    }

    fn is_sound(&self, negotiation: &Negotiation) -> bool {
        damage(&tables::decode(&self.tables_bytes()).unwrap(), negotiation).is_none()
    }

    /// The credentials that are still to come.
    pub fn withheld(&self, now: &Negotiation) -> Vec<Credential> {
        self.whole.shown.iter().filter(|credential| !now.shown.contains(credential)).cloned().collect()
    }

    /// Goes on after a message was taken: with the other end, or as if this one had given a reply.
    pub fn turn(&mut self, random: &mut Random, after: Negotiation) {
        let house = &mut self.tables.house;
        // Records after the names speak of self.
        let names_alone = self.tables.records.len() == 1 + house.names.len();
        if names_alone && random.percent(70) {
            self.now = other_end(&after);
            house.own = self.now.own;
            self.tables.records[0] = encode_record(&Record::Own(house.own));
        } else {
            self.now = Negotiation { idle: random.percent(30), ..after };
            self.now.messages.add(self.now.side);
        }
    }
}

/// The first so many edges of a negotiation and the nodes that they bring.
fn first_edges(whole: &Negotiation, count: usize) -> Negotiation {
    let edges = whole.edges[..count].to_vec();
    let last = edges.iter().map(|edge| edge.child).max().unwrap_or(0);
    Negotiation { nodes: whole.nodes[..=last].to_vec(), edges, ..whole.clone() }
}

/// The state without this side's mark, or as near to it as is legal.
pub fn without_mark(node: &Node, side: Side) -> u8 {
    let (own, other) = if side == node.verifier { (1, 2) } else { (2, 1) };
    [node.state & !own, other, node.state].into_iter().find(|&state| legal_state(&node.form, state)).unwrap()
}

impl Random {
    pub fn plan(&mut self, grown: &Grown) -> Plan {
        let Grown { tables, negotiation: whole } = grown.clone();
        let fresh = Negotiation::fresh(whole.side, whole.own, whole.other, whole.wanted);
        let mut plan = Plan { tables, now: fresh, whole };
        let opens = plan.whole.side == Side::Requester && self.percent(15);
        if !plan.whole.nodes.is_empty() && !opens {
            plan.now = self.part(&plan);
            self.fill_up(&mut plan);
        }
        plan
    }

    /// A part that has not ended, if one is found soon.
    fn part(&mut self, plan: &Plan) -> Negotiation {
        let mut most = plan.whole.edges.len();
        loop {
            let count = self.between(0, most);
            let mut part = first_edges(&plan.whole, count);
            self.withhold(plan, &mut part);
            self.unmark(plan, &mut part);
            self.set_turn(&mut part);
            if part.end == 0 || count == 0 || self.percent(5) {
                return part;
            }
            most = count / 2;
        }
    }

    /// Takes back credentials that no edge needs.
    fn withhold(&mut self, plan: &Plan, part: &mut Negotiation) {
        let chance = [0, 30, 70, 100][self.below(4)];
        let shown: Vec<Credential> = part.shown.iter().filter(|_| !self.percent(chance)).cloned().collect();
        let mut less = Negotiation { shown, ..part.clone() };
        self.set_turn(&mut less);
        if plan.is_sound(&less) {
            *part = less;
        }
    }

    /// Takes back the sender's marks, so that edges and marks can follow.
    fn unmark(&mut self, plan: &Plan, part: &mut Negotiation) {
        let sender = part.side.opposite();
        let chance = [0, 50, 100, 100, 100][self.below(5)];
        let mut less = part.clone();
        for node in &mut less.nodes {
            if self.percent(chance) {
                node.state = without_mark(node, sender);
            }
        }
        self.set_turn(&mut less);
        if plan.is_sound(&less) {
            *part = less;
        }
    }

    /// The end that fits, mostly none, and a count by which the other side sends.
    fn set_turn(&mut self, part: &mut Negotiation) {
        let primary = propagated(&part.nodes, &part.edges)[0];
        (part.end, part.idle) = match primary {
            Propagated::Done => (1, false),
            Propagated::Failed => (2, false),
            Propagated::Open => (0, self.percent(30)),
        };
        let odd = (part.side == Side::Mediator) as u32;
        let count = [1, 1, self.between(1, 8), self.between(1, 512), 513][self.below(5)] as u32;
        part.messages = Messages::in_turn((2 * count + odd).min(MOST_MESSAGES - 1 + odd));
    }

    /// Rarely, credentials or control edges up to the size or one below.
    fn fill_up(&mut self, plan: &mut Plan) {
        let less = self.below(2);
        match self.below(30) {
            0 => self.fill_shown(plan, MOST_SHOWN - less),
            1 => self.fill_nodes(plan, MOST_NODES - less),
            2 => self.fill_edges(plan, MOST_EDGES - less),
            _ => {}
        }
    }

    fn fill_shown(&mut self, plan: &mut Plan, count: usize) {
        for _ in 0..20 * count {
            let credential = self.stored(&plan.tables.house, &ALL_CLASSES);
            let shown = &mut plan.now.shown;
            shown.extend(credential.filter(|new| shown.len() < count && !shown.contains(new)));
        }
    }

    /// Targets of both sides in turn, about roles of entities that are not known otherwise: the requester's under the
    /// primary, the mediator's under the requester's before it.
    fn fill_nodes(&mut self, plan: &mut Plan, count: usize) {
        let name = self.name_of(&plan.tables.house, &ALL_CLASSES).unwrap();
        let ends = [Side::Mediator, Side::Requester].map(|side| (side, plan.now.entity(side)));
        let mut of_requester = None;
        for entity in 1000.. {
            let Negotiation { nodes, edges, .. } = &mut plan.now;
            if nodes.len() >= count || edges.len() == MOST_EDGES {
                return;
            }
            let [(mediator, mediating), (requester, requesting)] = ends;
            let (parent, verifier, subject) = match of_requester.take() {
                None => (0, requester, mediating),
                Some(parent) => (parent, mediator, requesting),
            };
            let form = Form::Target(Expression::Role(Role { entity, name }));
            let node = Node { form, subject, verifier, state: self.below(4) as u8 };
            if !nodes.iter().any(|old| old.same_target(&node)) {
                if verifier == requester {
                    of_requester = Some(nodes.len());
                }
                edges.push(Edge { kind: CONTROL, parent, child: nodes.len() });
                nodes.push(node);
            }
        }
    }

    /// The same for some of them, and control edges in both directions.
    fn fill_edges(&mut self, plan: &mut Plan, count: usize) {
        let node_count = (plan.now.nodes.len() + 30).min(MOST_NODES);
        self.fill_nodes(plan, node_count);
        let Negotiation { nodes, edges, .. } = plan.now.clone();
        for (parent, above) in nodes.iter().enumerate() {
            for (child, below) in nodes.iter().enumerate() {
                let edge = Edge { kind: CONTROL, parent, child };
                let room = plan.now.edges.len() < count.max(edges.len());
                let fits = edge_form(&plan.now, CONTROL, above, below);
                if room && fits && !plan.now.edges.contains(&edge) {
                    plan.now.edges.push(edge);
                }
            }
        }
    }
}

#[cfg(test)]
mod tests {
    use super::*;

    #[test]
    fn all_are_sound() {
        let mut random = Random::new(3);
        let (mut ended, mut most) = (0, [0; 3]);
        for _ in 0..3000 {
            let grown = random.grown();
            let plan = random.plan(&grown);
            let found = damage(&tables::decode(&plan.tables_bytes()).unwrap(), &plan.now);
            assert_eq!(found, None, "{:?}", plan.now);
            let Negotiation { end, nodes, edges, shown, .. } = &plan.now;
            ended += (*end != 0) as usize;
            most = [most[0].max(nodes.len()), most[1].max(edges.len()), most[2].max(shown.len())];
        }
        assert!(ended < 600, "{ended} have ended");
        assert_eq!(most, [MOST_NODES, MOST_EDGES, MOST_SHOWN]);
    }
}
