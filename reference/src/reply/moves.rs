//! The next move of a reply: nodes by rising number, rules in printed order, the edges of a rule by the child's bytes.

use crate::message::legal::has_processed;
use crate::message::*;
use crate::negotiation::states::{propagated, Propagated};
use crate::negotiation::*;
use crate::reply::leak::Leak;
use crate::reply::needed::{needed, without_hidden};
use crate::reply::opponent;
use crate::reply::verifier;
use crate::rules::classes::Class;
use crate::rules::expression::*;
use crate::tables::Tables;

/// What our end knows when it looks for its next move.
pub struct View<'a> {
    pub tables: &'a Tables,
    pub negotiation: &'a Negotiation,
    pub states: Vec<Propagated>,
    pub leak: Leak,
}

/// What goes before an edge.
#[derive(Clone, Debug, PartialEq, Eq)]
pub enum Proof {
    /// Nothing: the edge is not of kind 1.
    Nothing,
    /// The credentials that it needs.
    Needed,
    /// One credential alone.
    Only(Credential),
}

/// An edge into a node that a rule asks for.
#[derive(Clone, Debug, PartialEq, Eq)]
pub struct Wish {
    pub rule: &'static str,
    pub kind: u8,
    pub form: Form,
    pub subject: u16,
    pub verifier: Side,
    pub proof: Proof,
}

/// What the rules ask for at a node: all edges, in the order in which they are made, and whether the node may be marked
/// after them.
pub struct Work {
    pub wishes: Vec<Wish>,
    pub may_mark: bool,
}

/// Credentials and an edge, or a mark.
#[derive(Clone, Debug, PartialEq, Eq)]
pub struct Move {
    pub rule: &'static str,
    pub credentials: Vec<Credential>,
    pub command: Command,
}

/// The edges of one rule by the child's 18 bytes, then by its subject, each once.
pub fn in_order(mut wishes: Vec<Wish>) -> Vec<Wish> {
    wishes.sort_by_key(|wish| (encode_form(&wish.form), wish.subject));
    wishes.dedup();
    wishes
}

/// The same kind of edge to a node beside its parent: with the same verifier and subject.
pub fn beside(rule: &'static str, kind: u8, parent: &Node, form: Form) -> Wish {
    let proof = if kind == IMPLICATION { Proof::Needed } else { Proof::Nothing };
    Wish { rule, kind, form, subject: parent.subject, verifier: parent.verifier, proof }
}

/// Kind 1 edges to the targets of a frontier. An entity yields an edge only if it is the subject.
pub fn implications(rule: &'static str, parent: &Node, frontier: Vec<Expression>) -> Vec<Wish> {
    let fits = |e: &Expression| !matches!(e, Expression::Entity(entity) if *entity != parent.subject);
    let wish = |e| beside(rule, IMPLICATION, parent, Form::Target(e));
    in_order(frontier.into_iter().filter(fits).map(wish).collect())
}

/// Kind 5 edges to the parts of an intersection.
pub fn part_edges(rule: &'static str, parent: &Node, parts: &[Role]) -> Vec<Wish> {
    in_order(parts.iter().map(|&part| beside(rule, PART, parent, Form::Target(Expression::Role(part)))).collect())
}

impl View<'_> {
    pub fn new<'a>(tables: &'a Tables, negotiation: &'a Negotiation, leak: Leak) -> View<'a> {
        let states = propagated(&negotiation.nodes, &negotiation.edges);
        View { tables, negotiation, states, leak }
    }

    /// The number of a node that stands.
    pub fn find(&self, form: &Form, subject: u16, verifier: Side) -> Option<usize> {
        let same = |node: &Node| (&node.form, node.subject, node.verifier) == (form, subject, verifier);
        self.negotiation.nodes.iter().position(same)
    }

    /// Satisfied if it is a target, complete if it is a goal.
    pub fn is_done(&self, node: usize) -> bool {
        self.states[node] == Propagated::Done
    }

    /// The linking goal of a linked target, its solutions and the linking implications that these allow: the edges, and
    /// whether the goal stands and is complete.
    pub fn linking(&self, rules: [&'static str; 2], parent: usize, base: Role, second: u16) -> (Vec<Wish>, bool) {
        let node = &self.negotiation.nodes[parent];
        let monitor = beside(rules[0], MONITOR, node, Form::Goal(second));
        let Some(goal) = self.find(&monitor.form, node.subject, node.verifier) else {
            return (vec![monitor], false);
        };
        let mut wishes = vec![];
        for edge in self.negotiation.edges.iter().filter(|edge| edge.kind == SOLUTION && edge.parent == goal) {
            if let (Form::Target(Expression::Role(solution)), true) =
                (&self.negotiation.nodes[edge.child].form, self.is_done(edge.child))
            {
                let form = Form::Target(Expression::Role(base));
                let wish = beside(rules[1], LINKING_IMPLICATION, node, form);
                wishes.push(Wish { subject: solution.entity, ..wish });
            }
        }
        ([vec![monitor], in_order(wishes)].concat(), self.is_done(goal))
    }

    /// The command for an edge that is asked for; None: it counts as done, as it stands or leads to the node itself.
    fn edge_command(&self, parent: usize, wish: &Wish) -> Option<Command> {
        let &Wish { kind, ref form, subject, verifier, .. } = wish;
        match self.find(form, subject, verifier) {
            Some(child) => {
                let edge = Edge { kind, parent, child };
                let done = child == parent || self.negotiation.edges.contains(&edge);
                (!done).then_some(Command::Join(edge))
            }
            None => {
                let state = self.initial_state(form, verifier);
                Some(Command::Child(NewChild { kind, parent, form: form.clone(), subject, state }))
            }
        }
    }

    /// The state of a new node by section 5.2.
    pub fn initial_state(&self, form: &Form, verifier: Side) -> u8 {
        let subject_all = |name| self.tables.class(name) == Class::SubjectAll;
        let verifier_processed = match form {
            Form::Target(Expression::Entity(_)) => return 3,
            Form::Target(Expression::Role(role)) => subject_all(role.name),
            Form::Target(Expression::Linked(base, second)) => subject_all(base.name) && subject_all(*second),
            // Created by the verifier, it is opponent-processed.
            Form::Target(Expression::Intersection(_)) => verifier != self.negotiation.side,
            Form::Goal(_) => true,
        };
        if verifier_processed {
            1
        } else {
            2
        }
    }

    /// The own credentials that a kind 1 edge into a node may need: 0x12 for its verifier, 0x13 for the opponent.
    fn own_set(&self, parent: usize) -> Vec<Credential> {
        let verifies = self.negotiation.nodes[parent].verifier == self.negotiation.side;
        let storage = if verifies { &self.tables.issuer_stored } else { &self.tables.subject_stored };
        if self.leak == Leak::Needed {
            storage.clone()
        } else {
            without_hidden(self.tables, storage)
        }
    }

    fn credentials(&self, parent: usize, wish: &Wish) -> Vec<Credential> {
        let shown = &self.negotiation.shown;
        match (&wish.proof, &self.negotiation.nodes[parent].form, &wish.form) {
            (Proof::Only(credential), ..) if shown.contains(credential) => vec![],
            (Proof::Only(credential), ..) => vec![credential.clone()],
            (Proof::Needed, Form::Target(f), Form::Target(e)) => needed(&self.own_set(parent), shown, f, e),
            _ => vec![],
        }
    }

    /// The first edge at a node that is not done, else its mark if that is allowed.
    fn next_at(&self, number: usize) -> Option<Move> {
        let node = &self.negotiation.nodes[number];
        let verifies = node.verifier == self.negotiation.side;
        let work = if verifies { verifier::work(self, number) } else { opponent::work(self, number) };
        for wish in &work.wishes {
            if let Some(command) = self.edge_command(number, wish) {
                return Some(Move { rule: wish.rule, credentials: self.credentials(number, wish), command });
            }
        }
        let rule = if verifies { "verifier's mark" } else { "opponent's mark" };
        work.may_mark.then_some(Move { rule, credentials: vec![], command: Command::Mark(number) })
    }

    /// The first move that is not done at a node that our side has not processed.
    pub fn next_move(&self) -> Option<Move> {
        let Negotiation { side, nodes, .. } = self.negotiation;
        (0..nodes.len())
            .filter(|&number| !has_processed(self.negotiation, *side, number))
            .find_map(|number| self.next_at(number))
    }
}
