//! What occurred among many calls on negotiations, by the reference's answers, and what never did.

use crate::negotiation::clause::{Clause, CLAUSES};
use crate::negotiation::damage::MOST_MESSAGES;
use crate::negotiation::report::{Refused, Sound};
use crate::negotiation::*;
use crate::rules::expression::Expression;
use crate::tables::{self, Tables};
use std::collections::{BTreeMap, BTreeSet};

const BEGIN_NUMBERS: [u64; 7] = [0, 1, 2, 3, 5, 6, 7];
const REPORT_NUMBERS: [u64; 8] = [0, 1, 2, 3, 5, 6, 20, 24];

/// The propagated states that nodes of each form can have.
const STATES: [(&str, &[u64]); 7] = [
    ("entity", &[1]),
    ("role", &[0, 1, 2]),
    ("linked role", &[0, 1, 2]),
    ("intersection of 2", &[0, 1, 2]),
    ("intersection of 3", &[0, 1, 2]),
    ("intersection of 4", &[0, 1, 2]),
    ("goal", &[0, 1]),
];

fn form_name(form: &Form) -> &'static str {
    match form {
        Form::Target(Expression::Entity(_)) => "entity",
        Form::Target(Expression::Role(_)) => "role",
        Form::Target(Expression::Linked(..)) => "linked role",
        Form::Target(Expression::Intersection(parts)) => STATES[parts.len() + 1].0,
        Form::Goal(_) => "goal",
    }
}

/// Where a sound negotiation can have a name that the tables do not list.
const UNLISTED: [&str; 6] = ["wanted role", "role", "linked role", "intersection", "goal", "credential"];

/// The places of such names, each once.
fn unlisted_in(tables: &Tables, negotiation: &Negotiation) -> BTreeSet<&'static str> {
    let Negotiation { side, wanted, nodes, shown, .. } = negotiation;
    let wanted = (*side == Side::Mediator).then_some(("wanted role", vec![wanted.name]));
    let in_nodes = nodes.iter().map(|node| {
        let place = match &node.form {
            Form::Target(Expression::Intersection(_)) => "intersection",
            form => form_name(form),
        };
        (place, node.form.names())
    });
    let in_shown = shown.iter().map(|credential| ("credential", credential.names()));
    let all = wanted.into_iter().chain(in_nodes).chain(in_shown);
    all.filter(|(_, names)| tables.has_unlisted(names)).map(|(place, _)| place).collect()
}

/// Whether counts of messages are wrong in some way, given whether a node stands.
type WrongMessages = fn(Messages, bool) -> bool;

const WRONG_MESSAGES: [(&str, WrongMessages); 9] = [
    ("the mediator's two ahead", |m, _| m.mediator.checked_sub(m.requester) == Some(2)),
    ("the requester's one ahead", |m, _| m.requester.checked_sub(m.mediator) == Some(1)),
    ("none with a node", |m, node| m.count() == 0 && node),
    ("some without a node", |m, node| m.count() > 0 && !node),
    ("1,028 in turn", |m, _| m == Messages::in_turn(MOST_MESSAGES + 1)),
    ("1,029 in turn", |m, _| m == Messages::in_turn(MOST_MESSAGES + 2)),
    // In two bytes: one ahead; a sum of 0; a sum of 1 to 1,027.
    ("0 and 65,535", |m, _| (m.mediator, m.requester) == (0, 65535)),
    ("65,536 in turn without a node", |m, node| m == Messages::in_turn(65536) && !node),
    ("65,537 to 66,563 in turn", |m, _| (65537..=66563).contains(&m.count()) && m == Messages::in_turn(m.count())),
];

#[derive(Default)]
pub struct NegotiationCounts {
    begins: BTreeMap<u64, u64>,
    reports: BTreeMap<u64, u64>,
    clauses: BTreeMap<Clause, u64>,
    wrong_messages: BTreeMap<&'static str, u64>,
    states: BTreeMap<(&'static str, u64), u64>,
    ends: BTreeMap<u8, u64>,
    kinds: BTreeMap<u8, u64>,
    /// Sound negotiations with a name that is not listed, by the place of it.
    unlisted: BTreeMap<&'static str, u64>,
    /// The greatest counts of nodes, edges and credentials.
    most: [usize; 3],
}

fn count<K: Ord>(counts: &mut BTreeMap<K, u64>, key: K) {
    *counts.entry(key).or_default() += 1;
}

/// "accepted 5, refused 1 7", with the numbers that never occurred as 0.
fn numbers_line(counts: &BTreeMap<u64, u64>, numbers: &[u64]) -> String {
    let text = |&number: &u64| {
        let times = counts.get(&number).unwrap_or(&0);
        if number == 0 {
            format!("accepted {times}")
        } else {
            format!("refused {number} {times}")
        }
    };
    numbers.iter().map(text).collect::<Vec<_>>().join(", ")
}

impl NegotiationCounts {
    pub fn begun(&mut self, answer: u64) {
        count(&mut self.begins, answer);
    }

    /// A report's answer; its number alone counts.
    pub fn reported(&mut self, answer: u64) {
        count(&mut self.reports, answer % 256);
    }

    /// What is wrong with the counts of messages, if the negotiation can be read.
    pub fn lent(&mut self, negotiation: &[u8]) {
        if negotiation.len() != NEGOTIATION_BYTES {
            return;
        }
        let Ok(Negotiation { messages, nodes, .. }) = decode(negotiation) else { return };
        for (what, is_wrong) in WRONG_MESSAGES {
            if is_wrong(messages, !nodes.is_empty()) {
                count(&mut self.wrong_messages, what);
            }
        }
    }

    pub fn judged(&mut self, tables: &[u8], judged: &Result<Sound, Refused>) {
        match judged {
            Err(Refused::Input(_)) => {}
            Err(Refused::Damaged(clause)) => count(&mut self.clauses, *clause),
            Ok(sound) => self.sound(&tables::decode(tables).unwrap(), sound),
        }
    }

    fn sound(&mut self, tables: &Tables, sound: &Sound) {
        let Negotiation { end, nodes, edges, shown, .. } = &sound.negotiation;
        count(&mut self.ends, *end);
        unlisted_in(tables, &sound.negotiation).into_iter().for_each(|place| count(&mut self.unlisted, place));
        for (node, &state) in nodes.iter().zip(&sound.propagated) {
            count(&mut self.states, (form_name(&node.form), state as u64));
        }
        for edge in edges {
            count(&mut self.kinds, edge.kind);
        }
        for (most, now) in self.most.iter_mut().zip([nodes.len(), edges.len(), shown.len()]) {
            *most = now.max(*most);
        }
    }

    pub fn print(&self) {
        println!("begin: {}", numbers_line(&self.begins, &BEGIN_NUMBERS));
        println!("report: {}", numbers_line(&self.reports, &REPORT_NUMBERS));
        let times = |clause: &Clause| format!("{clause:?} {}", self.clauses.get(clause).unwrap_or(&0));
        println!("damage, found first by: {}", CLAUSES.iter().map(times).collect::<Vec<_>>().join(", "));
        let times =
            |(what, _): &(&str, WrongMessages)| format!("{what} {}", self.wrong_messages.get(what).unwrap_or(&0));
        println!("wrong counts of messages: {}", WRONG_MESSAGES.iter().map(times).collect::<Vec<_>>().join(", "));
        println!("sound negotiations, by end: {}", lines(&self.ends));
        for (form, states) in STATES {
            let times = |&state: &u64| format!("{state} {}", self.states.get(&(form, state)).unwrap_or(&0));
            println!("states of {form} nodes: {}", states.iter().map(times).collect::<Vec<_>>().join(", "));
        }
        println!("edges, by kind: {}", lines(&self.kinds));
        let times = |place: &&str| format!("{place} {}", self.unlisted.get(place).unwrap_or(&0));
        let places = UNLISTED.iter().map(times).collect::<Vec<_>>().join(", ");
        println!("sound negotiations with a name that is not listed: {places}");
        let [nodes, edges, shown] = self.most;
        println!("at most {nodes} nodes, {edges} edges, {shown} credentials");
    }

    /// What must have been damaged and was not.
    pub fn missing_damage(&self) -> Vec<String> {
        let clauses = CLAUSES.iter().filter(|clause| !self.clauses.contains_key(clause));
        let messages = WRONG_MESSAGES.iter().filter(|(what, _)| !self.wrong_messages.contains_key(what));
        let of_messages = messages.map(|(what, _)| format!("messages: {what}"));
        clauses.map(|clause| format!("damage {clause:?}")).chain(of_messages).collect()
    }

    /// Where sound negotiations must have had a name that is not listed and did not.
    pub fn missing_unlisted(&self) -> Vec<String> {
        let places = UNLISTED.iter().filter(|place| !self.unlisted.contains_key(*place));
        places.map(|place| format!("a name that is not listed: {place}")).collect()
    }

    /// What a large run must have met and did not.
    pub fn missing(&self) -> Vec<String> {
        let mut missing = [self.missing_damage(), self.missing_unlisted()].concat();
        let mut note = |occurred: bool, what: String| {
            if !occurred {
                missing.push(what);
            }
        };
        BEGIN_NUMBERS.iter().for_each(|number| note(self.begins.contains_key(number), format!("begin {number}")));
        REPORT_NUMBERS.iter().for_each(|number| note(self.reports.contains_key(number), format!("report {number}")));
        (0..=4).for_each(|end| note(self.ends.contains_key(&end), format!("end {end}")));
        (1..=6).for_each(|kind| note(self.kinds.contains_key(&kind), format!("an edge of kind {kind}")));
        for (form, states) in STATES {
            for &state in states {
                note(self.states.contains_key(&(form, state)), format!("state {state} of {form}"));
            }
        }
        note(self.most == [MOST_NODES, MOST_EDGES, MOST_SHOWN], "the full sizes".into());
        missing
    }
}

/// "0 17, 1 4"
fn lines(counts: &BTreeMap<u8, u64>) -> String {
    counts.iter().map(|(key, times)| format!("{key} {times}")).collect::<Vec<_>>().join(", ")
}
