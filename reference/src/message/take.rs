//! The call that takes a message of the other end.

use crate::message::legal::carry_out;
use crate::message::*;
use crate::negotiation::begin::lengths_fit;
use crate::negotiation::damage::damage;
use crate::negotiation::states::{propagated, Propagated};
use crate::negotiation::*;
use crate::refusal::Refusal;
use crate::tables::{self, Tables};

pub const SCRATCH_BYTES: usize = 4096;

/// The four lent buffers.
#[derive(Clone, Debug, PartialEq, Eq)]
pub struct Lent {
    pub tables: Vec<u8>,
    pub negotiation: Vec<u8>,
    pub message: Vec<u8>,
    pub scratch: Vec<u8>,
}

/// An accepted message: its commands, and the negotiation after it.
#[derive(Debug)]
pub struct Accepted {
    pub commands: Vec<Command>,
    pub after: Negotiation,
}

/// Why a message is refused, and at which command if it was one that could be read.
#[derive(Clone, Debug, PartialEq, Eq)]
pub struct Refused {
    pub refusal: Refusal,
    pub command: Option<Command>,
}

impl From<Refusal> for Refused {
    fn from(refusal: Refusal) -> Refused {
        Refused { refusal, command: None }
    }
}

fn all_lengths_fit(tables: &[u8], negotiation: &[u8], message: &[u8], scratch: &[u8]) -> bool {
    lengths_fit(tables, negotiation)
        && (1..=MOST_MESSAGE_BYTES).contains(&message.len())
        && scratch.len() == SCRATCH_BYTES
}

/// The side that sends the next message: the mediator when the count is even.
pub fn sender(negotiation: &Negotiation) -> Side {
    if negotiation.messages.count().is_multiple_of(2) {
        Side::Mediator
    } else {
        Side::Requester
    }
}

/// Whether a command is an open, an edge or a mark.
fn moves(command: &Command) -> bool {
    !matches!(command, Command::Credential(_) | Command::End)
}

/// The commands left to right, each read, judged and carried out before the next one is read.
fn all_commands(tables: &Tables, negotiation: &mut Negotiation, message: &[u8]) -> Result<Vec<Command>, Refused> {
    let sender = negotiation.side.opposite();
    let mut commands = Vec::new();
    let mut rest = message;
    while commands.last() != Some(&Command::End) {
        let bytes = next_command(rest).ok_or(Refusal::Command)?;
        let command = decode_command(bytes).ok_or(Refusal::Operand)?;
        carry_out(tables, negotiation, sender, &command)
            .map_err(|refusal| Refused { refusal, command: Some(command.clone()) })?;
        commands.push(command);
        rest = &rest[bytes.len()..];
    }
    Ok(commands)
}

/// Counts the other side's message and judges the end: success, failed, stalled, or none.
///
/// A message without a move changes no node and no edge, so no message ends in success or failure and is idle.
fn close(negotiation: &mut Negotiation, idle: bool) {
    let idle_before = negotiation.idle;
    negotiation.messages.add(negotiation.side.opposite());
    negotiation.idle = idle;
    negotiation.end = match propagated(&negotiation.nodes, &negotiation.edges)[0] {
        Propagated::Done => 1,
        Propagated::Failed => 2,
        Propagated::Open if idle && idle_before => 3,
        Propagated::Open => 0,
    };
    assert!(!(idle && [1, 2].contains(&negotiation.end)), "an end after an idle message");
}

/// The negotiation after the message, or why the call is refused.
pub fn judge(tables: &[u8], negotiation: &[u8], message: &[u8], scratch: &[u8]) -> Result<Accepted, Refused> {
    if !all_lengths_fit(tables, negotiation, message, scratch) {
        return Err(Refusal::Length.into());
    }
    let tables = tables::decode(tables)?;
    let mut after = decode(negotiation).map_err(|_| Refusal::Damaged)?;
    if damage(&tables, &after).is_some() {
        return Err(Refusal::Damaged.into());
    }
    if after.end != 0 {
        return Err(Refusal::Ended.into());
    }
    if sender(&after) == after.side {
        return Err(Refusal::Turn.into());
    }
    let commands = all_commands(&tables, &mut after, message)?;
    close(&mut after, !commands.iter().any(moves));
    Ok(Accepted { commands, after })
}

/// The answer of the call. A refused one leaves every byte as it is.
pub fn take(tables: &[u8], negotiation: &mut [u8], message: &[u8], scratch: &mut [u8]) -> u64 {
    match judge(tables, negotiation, message, scratch) {
        Ok(accepted) => {
            negotiation.copy_from_slice(&encode(&accepted.after));
            scratch.fill(0);
            0
        }
        Err(refused) => refused.refusal as u64,
    }
}
