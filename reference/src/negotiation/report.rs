//! The call that reports on a node.

use crate::negotiation::begin::lengths_fit;
use crate::negotiation::clause::Clause;
use crate::negotiation::damage::damage;
use crate::negotiation::states::{propagated, Propagated};
use crate::negotiation::{decode, Negotiation};
use crate::refusal::Refusal;
use crate::tables;

/// A sound negotiation with the propagated state of each node.
pub struct Sound {
    pub negotiation: Negotiation,
    pub propagated: Vec<Propagated>,
}

/// Why no node can be reported on.
#[derive(Clone, Copy, Debug, PartialEq, Eq)]
pub enum Refused {
    Input(Refusal),
    Damaged(Clause),
}

/// What holds for every node: the lengths, the tables and the damage.
pub fn judge(tables: &[u8], negotiation: &[u8]) -> Result<Sound, Refused> {
    if !lengths_fit(tables, negotiation) {
        return Err(Refused::Input(Refusal::Length));
    }
    let tables = tables::decode(tables).map_err(Refused::Input)?;
    let negotiation = decode(negotiation).map_err(Refused::Damaged)?;
    match damage(&tables, &negotiation) {
        Some(clause) => Err(Refused::Damaged(clause)),
        None => {
            let propagated = propagated(&negotiation.nodes, &negotiation.edges);
            Ok(Sound { negotiation, propagated })
        }
    }
}

/// The values side by side from the low bits, each with its width.
fn pack(values: &[(u64, u32)]) -> u64 {
    let mut packed = 0;
    let mut at = 0;
    for &(value, width) in values {
        assert!(value < 1 << width, "{value} in {width} bits");
        packed |= value << at;
        at += width;
    }
    packed
}

/// 256 times the values of a node.
fn values(sound: &Sound, node: usize) -> u64 {
    let negotiation = &sound.negotiation;
    256 * pack(&[
        (negotiation.nodes[node].state.into(), 2),
        (sound.propagated[node] as u64, 2),
        (negotiation.end.into(), 3),
        (negotiation.nodes.len() as u64, 8),
        (negotiation.edges.len() as u64, 9),
        (negotiation.shown.len() as u64, 7),
        (negotiation.messages.mediator.into(), 10),
        (negotiation.messages.requester.into(), 10),
    ])
}

/// The answer for one node of what was judged.
pub fn answer(judged: &Result<Sound, Refused>, node: u8) -> u64 {
    match judged {
        Err(Refused::Input(refusal)) => *refusal as u64,
        Err(Refused::Damaged(_)) => Refusal::Damaged as u64,
        Ok(sound) if node as usize >= sound.negotiation.nodes.len() => Refusal::Absent as u64,
        Ok(sound) => values(sound, node as usize),
    }
}

/// The answer of the call.
pub fn report(tables: &[u8], negotiation: &[u8], node: u8) -> u64 {
    answer(&judge(tables, negotiation), node)
}
