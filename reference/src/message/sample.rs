//! Random messages: commands are proposed, and those that are legal are written. One that is not may be left in.

use crate::message::plan::{without_mark, Plan};
use crate::message::writer::Writer;
use crate::message::*;
use crate::negotiation::graph::{edge_form, legal_state};
use crate::negotiation::sample::ALL_CLASSES;
use crate::negotiation::states::{children, satisfied};
use crate::negotiation::*;
use crate::random::Random;
use crate::refusal::Refusal;
use crate::rules::expression::*;
use crate::tables::sample::House;

/// The commands of a message, each in bytes, without an end.
pub type Written = Vec<Vec<u8>>;

impl Random {
    /// A message of legal commands onto the plan's negotiation; if a fault is asked for, one at most that is not.
    pub fn message(&mut self, plan: &Plan, faulty: bool) -> Written {
        let most = if self.percent(1) { 100 } else { [1, 4, 12, 40][self.below(4)] };
        let count = self.between(1, most);
        let fault_at = if faulty { self.below(count) } else { count };
        let mut writer = Writer::new(plan.tables_bytes(), plan.now.clone());
        if plan.now.nodes.is_empty() && !(faulty && self.percent(20)) {
            self.write_open(plan, &mut writer);
        }
        let mut planned = self.edges_to_come(plan);
        let mut fault = None;
        for i in 0..count {
            if i == fault_at {
                fault = Some((writer.commands.len(), self.faulty_command(plan, &writer.now)));
            }
            // A few tries.
            let _ = (0..4).any(|_| self.write_one(plan, &mut planned, &mut writer));
        }
        let mut written: Written = writer.commands.iter().map(encode_command).collect();
        if let Some((at, bytes)) = fault {
            written.insert(at, bytes);
        }
        written
    }

    /// The planned role, or another one where nothing is planned.
    fn write_open(&mut self, plan: &Plan, writer: &mut Writer) {
        let role = match plan.whole.nodes.first().map(|node| &node.form) {
            Some(Form::Target(Expression::Role(role))) => *role,
            _ => self.role_of(&plan.tables.house, &ALL_CLASSES).unwrap(),
        };
        writer.must(Command::Open(role, self.below(4) as u8));
    }

    /// The edges of the whole that do not stand, the next one last.
    fn edges_to_come(&self, plan: &Plan) -> Vec<Edge> {
        let Plan { now, whole, .. } = plan;
        let number = |node: usize| now.nodes.iter().position(|old| old.same_target(&whole.nodes[node]));
        let stands = |edge: &Edge| match (number(edge.parent), number(edge.child)) {
            (Some(parent), Some(child)) => now.edges.contains(&Edge { kind: edge.kind, parent, child }),
            _ => false,
        };
        whole.edges.iter().rev().filter(|edge| !stands(edge)).copied().collect()
    }

    /// Proposes a command and writes it if it is legal.
    fn write_one(&mut self, plan: &Plan, planned: &mut Vec<Edge>, writer: &mut Writer) -> bool {
        if writer.now.nodes.is_empty() {
            return false;
        }
        let command = match self.below(20) {
            0..=6 => return self.write_planned(plan, planned, writer),
            7..=9 => self.credential_to_come(plan, &writer.now),
            10 => self.stored(&plan.tables.house, &ALL_CLASSES).map(Command::Credential),
            11..=12 => self.mark(&writer.now),
            _ => self.some_edge(&plan.tables.house, &writer.now),
        };
        command.is_some_and(|command| writer.add(command).is_ok())
    }

    /// An edge of some kind that has the form, if one is found.
    pub fn some_edge(&mut self, house: &House, now: &Negotiation) -> Option<Command> {
        match self.below(7) {
            0..=1 => self.free_child(house, now),
            2..=3 => self.shown_implication(now),
            4..=5 => self.linking_implication(now),
            _ => self.any_join(now),
        }
    }

    /// The next planned edge; where it needs credentials, often with those that are to come.
    fn write_planned(&mut self, plan: &Plan, planned: &mut Vec<Edge>, writer: &mut Writer) -> bool {
        let Some(edge) = planned.pop() else { return false };
        let Some(command) = self.planned(plan, &writer.now, edge) else { return false };
        match writer.add(command.clone()) {
            Ok(()) => true,
            Err(Refusal::Unjustified) if self.percent(80) => {
                for credential in plan.withheld(&writer.now) {
                    // There may be no room.
                    let _ = writer.add(Command::Credential(credential));
                }
                writer.add(command).is_ok()
            }
            Err(_) => false,
        }
    }

    fn planned(&mut self, plan: &Plan, now: &Negotiation, edge: Edge) -> Option<Command> {
        let nodes = &plan.whole.nodes;
        let parent = now.nodes.iter().position(|old| old.same_target(&nodes[edge.parent]))?;
        Some(self.edge_to(now, edge.kind, parent, nodes[edge.child].clone()))
    }

    /// An edge to a child, which may stand already. The sender has often not processed a new one.
    pub fn edge_to(&mut self, now: &Negotiation, kind: u8, parent: usize, child: Node) -> Command {
        match now.nodes.iter().position(|old| old.same_target(&child)) {
            Some(child) => Command::Join(Edge { kind, parent, child }),
            None => {
                let legal: Vec<u8> = (0..4).filter(|&state| legal_state(&child.form, state)).collect();
                let state = legal[self.below(legal.len())];
                let node = Node { state, ..child };
                let state = if self.percent(60) { without_mark(&node, now.side.opposite()) } else { state };
                Command::Child(NewChild { kind, parent, form: node.form, subject: node.subject, state })
            }
        }
    }

    fn credential_to_come(&mut self, plan: &Plan, now: &Negotiation) -> Option<Command> {
        let withheld = plan.withheld(now);
        (!withheld.is_empty()).then(|| Command::Credential(withheld[self.below(withheld.len())].clone()))
    }

    fn mark(&mut self, now: &Negotiation) -> Option<Command> {
        let node = if self.percent(10) { 0 } else { self.below(now.nodes.len()) };
        Some(Command::Mark(node))
    }

    /// A node, often one of the first.
    fn some_place(&mut self, now: &Negotiation) -> usize {
        let most = if self.percent(50) { 12 } else { MOST_NODES };
        self.below(now.nodes.len().min(most))
    }

    /// An edge that needs no justification.
    pub fn free_child(&mut self, house: &House, now: &Negotiation) -> Option<Command> {
        let parent = self.some_place(now);
        let Node { form, subject, verifier, .. } = now.nodes[parent].clone();
        let beside = |form| Node { form, subject, verifier, state: 0 };
        let role = |role| Form::Target(Expression::Role(role));
        let (kind, child) = match form {
            Form::Target(Expression::Linked(_, second)) if self.percent(80) => (MONITOR, beside(Form::Goal(second))),
            Form::Target(Expression::Role(_)) if self.percent(80) => return None,
            Form::Target(Expression::Role(_) | Expression::Linked(..)) => {
                (CONTROL, self.controlling(house, now, parent)?)
            }
            Form::Target(Expression::Intersection(parts)) => (PART, beside(role(parts[self.below(parts.len())]))),
            Form::Goal(name) => (SOLUTION, beside(role(self.solution(house, now, name)))),
            Form::Target(Expression::Entity(_)) => return None,
        };
        Some(self.edge_to(now, kind, parent, child))
    }

    /// A body of some credential.
    pub fn any_body(&mut self, house: &House) -> Option<Expression> {
        self.stored(house, &ALL_CLASSES).map(|credential| credential.body)
    }

    /// A standard target of the other side about the parent's verifier.
    fn controlling(&mut self, house: &House, now: &Negotiation, parent: usize) -> Option<Node> {
        let verifier = now.nodes[parent].verifier;
        let expression = match self.any_body(house) {
            Some(linked @ Expression::Linked(..)) => linked,
            _ => Expression::Role(self.role_of(house, &ALL_CLASSES)?),
        };
        let subject = now.entity(verifier);
        Some(Node { form: Form::Target(expression), subject, verifier: verifier.opposite(), state: 0 })
    }

    /// From a node about the head of a credential to its body, often to the subject.
    pub fn shown_implication(&mut self, now: &Negotiation) -> Option<Command> {
        let parent = self.some_place(now);
        let Node { form: Form::Target(Expression::Role(head)), subject, verifier, .. } = now.nodes[parent].clone()
        else {
            return None;
        };
        let own = Expression::Entity(subject);
        let bodies: Vec<&Expression> =
            now.shown.iter().filter(|credential| credential.head == head).map(|credential| &credential.body).collect();
        let body = (*bodies.get(self.below(bodies.len().max(1)))?).clone();
        let foreign = matches!(body, Expression::Entity(_)) && body != own;
        let body = if foreign || (bodies.contains(&&own) && self.percent(50)) { own } else { body };
        let child = Node { form: Form::Target(body), subject, verifier, state: 0 };
        Some(self.edge_to(now, IMPLICATION, parent, child))
    }

    /// A role of this name, often one that a credential issues.
    fn solution(&mut self, house: &House, now: &Negotiation, name: u16) -> Role {
        let heads: Vec<Role> =
            now.shown.iter().map(|credential| credential.head).filter(|head| head.name == name).collect();
        if !heads.is_empty() && self.percent(80) {
            heads[self.below(heads.len())]
        } else {
            Role { entity: self.entity(house.world), name }
        }
    }

    /// For a solution of a goal that a linked role monitors, often a satisfied one.
    pub fn linking_implication(&mut self, now: &Negotiation) -> Option<Command> {
        let monitors: Vec<&Edge> = now.edges.iter().filter(|edge| edge.kind == MONITOR).collect();
        let monitor = **monitors.get(self.below(monitors.len().max(1)))?;
        let Node { form: Form::Target(Expression::Linked(base, _)), verifier, .. } = now.nodes[monitor.parent].clone()
        else {
            return None;
        };
        let mut solutions: Vec<usize> = children(&now.edges, monitor.child, &[SOLUTION]).collect();
        if self.percent(70) {
            let satisfied = satisfied(&now.nodes, &now.edges);
            solutions.retain(|&solution| satisfied[solution]);
        }
        let solution = *solutions.get(self.below(solutions.len().max(1)))?;
        let Form::Target(Expression::Role(Role { entity, .. })) = now.nodes[solution].form else { return None };
        let form = Form::Target(Expression::Role(base));
        Some(self.edge_to(now, LINKING_IMPLICATION, monitor.parent, Node { form, subject: entity, verifier, state: 0 }))
    }

    /// Two nodes and a kind that may join them, if a few tries find some.
    pub fn any_join(&mut self, now: &Negotiation) -> Option<Command> {
        for _ in 0..40 {
            let (parent, child) = (self.some_place(now), self.some_place(now));
            let kind = self.between(1, 6) as u8;
            if edge_form(now, kind, &now.nodes[parent], &now.nodes[child]) {
                return Some(Command::Join(Edge { kind, parent, child }));
            }
        }
        None
    }
}
