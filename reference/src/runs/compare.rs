//! Document 01's "Two runs" as a check: one list of calls on two tables that differ in direct credentials of sensitive
//! roles and in AC records alone.
//!
//! Each call must answer alike and leave the same bytes in both runs, up to and with each call after which one of the
//! two runs, at least, has no differing role's Ack target satisfied. As Ack targets stay satisfied, it is enough to look
//! at the first call that differs.
//!
//! In each run besides, the counts that the negotiation holds and that a report gives are those of the messages accepted
//! and the replies given since its begin.

use crate::ends::calls::Calls;
use crate::message::legal::carry_out;
use crate::message::*;
use crate::negotiation::states::satisfied;
use crate::negotiation::*;
use crate::reply::needed::without_hidden;
use crate::rules::expression::*;
use crate::tables::records::Guard;
use crate::tables::{self, Tables};

/// A call's arguments, and what its buffers hold at its start but the run's tables and negotiation.
#[derive(Clone, Debug)]
pub enum Call {
    Take { message: Vec<u8>, scratch: Vec<u8> },
    Reply { reply: Vec<u8>, scratch: Vec<u8> },
    Report { node: u8 },
}

/// Begin's arguments, what the negotiation's buffer holds before it, and the calls after it.
#[derive(Clone, Debug)]
pub struct List {
    pub other: u16,
    pub wanted: Role,
    pub negotiation: Vec<u8>,
    pub calls: Vec<Call>,
}

/// How far a list went.
#[derive(Clone, Copy, Debug, PartialEq, Eq)]
pub enum Outcome {
    /// All calls were alike.
    Alike,
    /// The call of this number differed, after the Ack target of a differing role was satisfied in both runs.
    Parted(usize),
    /// The call of this number differed before. Begin has the number 0.
    Leak(usize),
    /// After the call of this number a run had other counts than those of its messages.
    Miscounted(usize),
}

/// What a call can be seen to have done: its answer, and the bytes of its buffers after it.
#[derive(Clone, Debug, PartialEq, Eq)]
struct Seen {
    answer: u64,
    buffers: Vec<Vec<u8>>,
}

/// One run: its tables and negotiation, and the graph built by the messages accepted and given, which it counts.
struct Run {
    tables_bytes: Vec<u8>,
    tables: Tables,
    negotiation: Vec<u8>,
    graph: Negotiation,
}

impl Run {
    /// Begun, and what that did. The tables are accepted ones.
    fn begin(calls: &mut impl Calls, tables_bytes: &[u8], list: &List) -> Option<(Run, Seen)> {
        let tables = tables::decode(tables_bytes).ok()?;
        let mut negotiation = list.negotiation.clone();
        let answer = calls.begin(tables_bytes, &mut negotiation, list.other, list.wanted);
        let side = if list.wanted.entity == 0 { Side::Requester } else { Side::Mediator };
        let graph = Negotiation::fresh(side, tables.own, list.other, list.wanted);
        let seen = Seen { answer, buffers: vec![negotiation.clone()] };
        Some((Run { tables_bytes: tables_bytes.to_vec(), tables, negotiation, graph }, seen))
    }

    fn call(&mut self, calls: &mut impl Calls, call: &Call) -> Seen {
        let Run { tables_bytes, negotiation, .. } = self;
        match call {
            Call::Take { message, scratch } => {
                let mut scratch = scratch.clone();
                let answer = calls.take(tables_bytes, negotiation, message, &mut scratch);
                if answer == 0 {
                    self.build(message, self.graph.side.opposite());
                }
                self.seen(answer, vec![message.clone(), scratch])
            }
            Call::Reply { reply, scratch } => {
                let (mut reply, mut scratch) = (reply.clone(), scratch.clone());
                let answer = calls.reply(tables_bytes, negotiation, &mut reply, &mut scratch);
                if answer.is_multiple_of(256) {
                    let length = (answer / 256) as usize;
                    self.build(&reply[..length.min(reply.len())], self.graph.side);
                }
                self.seen(answer, vec![reply, scratch])
            }
            Call::Report { node } => {
                let answer = calls.report(tables_bytes, negotiation, *node);
                self.seen(answer, vec![])
            }
        }
    }

    fn seen(&self, answer: u64, others: Vec<Vec<u8>>) -> Seen {
        Seen { answer, buffers: [vec![self.negotiation.clone()], others].concat() }
    }

    /// Whether the negotiation after a call has the counts of the messages so far, and the answer of a report too, which
    /// has them above its low 39 bits.
    fn is_counted(&self, call: &Call, seen: &Seen) -> bool {
        let messages = self.graph.messages;
        let [mediator, requester] = [messages.mediator, messages.requester].map(u64::from);
        let is_reported = match call {
            Call::Report { .. } if seen.answer.is_multiple_of(256) => seen.answer >> 39 == mediator + 1024 * requester,
            _ => true,
        };
        is_reported && decode(&self.negotiation).is_ok_and(|held| held.messages == messages)
    }

    /// Counts a message, and carries its commands out on the graph. Those that are accepted or given can be read and are
    /// legal; if one is not, that is for other checks to find.
    fn build(&mut self, message: &[u8], sender: Side) {
        self.graph.messages.add(sender);
        let mut rest = message;
        while let Some(bytes) = next_command(rest) {
            if let Some(command) = decode_command(bytes) {
                let _ = carry_out(&self.tables, &mut self.graph, sender, &command);
            }
            rest = &rest[bytes.len()..];
        }
    }

    /// Whether the target of this role stands, with our end as verifier and the other end as subject, and is satisfied.
    fn is_met(&self, ack: Role) -> bool {
        let Negotiation { nodes, edges, side, other, .. } = &self.graph;
        let form = Form::Target(Expression::Role(ack));
        let target = Node { form, subject: *other, verifier: *side, state: 0 };
        let satisfied = satisfied(nodes, edges);
        (0..nodes.len()).any(|i| nodes[i].same_target(&target) && satisfied[i])
    }
}

/// The sensitive roles, with their Ack roles, whose direct credential or AC record the two tables do not share.
pub fn differing(tables: [&Tables; 2]) -> Vec<Guard> {
    let policy = |tables: &Tables, role| tables.access.iter().find(|guard| guard.role == role).map(|guard| guard.by);
    let differs = |role| {
        let [a, b] = tables.map(|tables| (tables.holds(role), policy(tables, role)));
        a != b
    };
    tables[0].sensitive.iter().filter(|guard| differs(guard.role)).copied().collect()
}

/// Whether the two are equal but for direct credentials of sensitive roles and AC records.
pub fn may_be_compared(tables: [&Tables; 2]) -> bool {
    let public = |tables: &Tables| {
        let subject_stored = without_hidden(tables, &tables.subject_stored);
        Tables { subject_stored, access: vec![], ..tables.clone() }
    };
    public(tables[0]) == public(tables[1])
}

/// Runs the list on both tables and compares call by call. None: the tables may not be compared.
pub fn compare(calls: &mut impl Calls, tables: [&[u8]; 2], list: &List) -> Option<Outcome> {
    let (mut a, seen_a) = Run::begin(calls, tables[0], list)?;
    let (mut b, seen_b) = Run::begin(calls, tables[1], list)?;
    if !may_be_compared([&a.tables, &b.tables]) {
        return None;
    }
    if seen_a != seen_b {
        return Some(Outcome::Leak(0));
    }
    if seen_a.answer != 0 {
        return Some(Outcome::Alike);
    }
    let acks: Vec<Role> = differing([&a.tables, &b.tables]).iter().map(|guard| guard.by).collect();
    for (number, call) in (1..).zip(&list.calls) {
        let (seen_a, seen_b) = (a.call(calls, call), b.call(calls, call));
        if !a.is_counted(call, &seen_a) || !b.is_counted(call, &seen_b) {
            return Some(Outcome::Miscounted(number));
        }
        if seen_a != seen_b {
            let none_met = |run: &Run| !acks.iter().any(|&ack| run.is_met(ack));
            let hidden = none_met(&a) || none_met(&b);
            return Some(if hidden { Outcome::Leak(number) } else { Outcome::Parted(number) });
        }
    }
    Some(Outcome::Alike)
}
