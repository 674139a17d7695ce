//! The call that gives a reply: moves one after another until it stops.

use crate::message::legal::carry_out;
use crate::message::take::{sender, SCRATCH_BYTES};
use crate::message::*;
use crate::negotiation::begin::lengths_fit;
use crate::negotiation::damage::damage;
use crate::negotiation::states::{propagated, satisfied, Propagated};
use crate::negotiation::*;
use crate::refusal::Refusal;
use crate::reply::leak::Leak;
use crate::reply::moves::*;
use crate::rules::expression::*;
use crate::tables::{self, Tables};

/// Why no further move is made.
#[derive(Clone, Copy, Debug, PartialEq, Eq, PartialOrd, Ord)]
pub enum Stop {
    NoMove,
    /// The primary is satisfied.
    Satisfied,
    /// The next move does not fit before the end byte.
    Bytes,
    /// The next move would pass a size, whether it fits or not; the first such size.
    Size(Size),
}

/// The sizes that a move can pass.
#[derive(Clone, Copy, Debug, PartialEq, Eq, PartialOrd, Ord)]
pub enum Size {
    Nodes,
    Edges,
    Shown,
}

/// A reply: its commands with the end, the rules that asked for its moves, why it stopped, and the negotiation after it.
#[derive(Clone, Debug)]
pub struct Given {
    pub commands: Vec<Command>,
    pub rules: Vec<&'static str>,
    pub stop: Stop,
    pub after: Negotiation,
}

fn all_lengths_fit(tables: &[u8], negotiation: &[u8], reply: &[u8], scratch: &[u8]) -> bool {
    lengths_fit(tables, negotiation) && reply.len() >= MOST_MESSAGE_BYTES && scratch.len() == SCRATCH_BYTES
}

/// The commands of a move, its credentials first.
fn commands_of(next: &Move) -> Vec<Command> {
    let credentials = next.credentials.iter().cloned().map(Command::Credential);
    credentials.chain([next.command.clone()]).collect()
}

/// The first of nodes, edges and credentials shown of which there would be more than a negotiation has room for.
fn passed_size(negotiation: &Negotiation, next: &Move) -> Option<Size> {
    let (new_nodes, new_edges) = match next.command {
        Command::Child(_) => (1, 1),
        Command::Join(_) => (0, 1),
        _ => (0, 0),
    };
    let sizes = [
        (Size::Nodes, negotiation.nodes.len() + new_nodes > MOST_NODES),
        (Size::Edges, negotiation.edges.len() + new_edges > MOST_EDGES),
        (Size::Shown, negotiation.shown.len() + next.credentials.len() > MOST_SHOWN),
    ];
    sizes.into_iter().find(|(_, passed)| *passed).map(|(size, _)| size)
}

/// A reply in the making; the negotiation goes along.
struct Replying<'a> {
    tables: &'a Tables,
    now: Negotiation,
    commands: Vec<Command>,
    rules: Vec<&'static str>,
    leak: Leak,
}

impl Replying<'_> {
    /// Writes a command and carries it out. What the rules ask for is legal.
    fn write(&mut self, command: Command) {
        let side = self.now.side;
        let carried = carry_out(self.tables, &mut self.now, side, &command);
        assert_eq!(carried, Ok(()), "an own command: {command:?}");
        self.commands.push(command);
    }

    /// The mediator's first reply: the wanted role in its initial state.
    fn open(&mut self) {
        let wanted = self.now.wanted;
        let form = Form::Target(Expression::Role(wanted));
        let state = View::new(self.tables, &self.now, self.leak).initial_state(&form, Side::Mediator);
        self.write(Command::Open(wanted, state));
        self.rules.push("open");
    }

    fn fits(&self, commands: &[Command]) -> bool {
        let end = 1;
        encode_message(&self.commands).len() + encode_message(commands).len() + end <= MOST_MESSAGE_BYTES
    }

    /// Makes the next move, or says why not.
    fn step(&mut self) -> Result<(), Stop> {
        if satisfied(&self.now.nodes, &self.now.edges)[0] {
            return Err(Stop::Satisfied);
        }
        let next = View::new(self.tables, &self.now, self.leak).next_move().ok_or(Stop::NoMove)?;
        if let Some(size) = passed_size(&self.now, &next) {
            return Err(Stop::Size(size));
        }
        let commands = commands_of(&next);
        if !self.fits(&commands) {
            return Err(Stop::Bytes);
        }
        commands.into_iter().for_each(|command| self.write(command));
        self.rules.push(next.rule);
        Ok(())
    }

    fn all_moves(&mut self) -> Stop {
        if self.now.nodes.is_empty() {
            self.open();
        }
        loop {
            if let Err(stop) = self.step() {
                return stop;
            }
        }
    }
}

/// Counts our reply and judges the end: success, failed, stalled, full, or none.
fn close(negotiation: &mut Negotiation, idle: bool, stop: Stop) {
    let stalled = idle && negotiation.idle;
    negotiation.messages.add(negotiation.side);
    negotiation.idle = idle;
    negotiation.end = match propagated(&negotiation.nodes, &negotiation.edges)[0] {
        Propagated::Done => 1,
        Propagated::Failed => 2,
        Propagated::Open if stalled => 3,
        Propagated::Open if matches!(stop, Stop::Size(_)) => 4,
        Propagated::Open => 0,
    };
}

/// The reply onto a sound negotiation that has not ended and where it is our turn.
pub fn give(tables: &Tables, negotiation: Negotiation, leak: Leak) -> Given {
    let mut replying = Replying { tables, now: negotiation, commands: vec![], rules: vec![], leak };
    let stop = replying.all_moves();
    let Replying { now: mut after, mut commands, rules, .. } = replying;
    // Every move is an open, an edge or a mark.
    close(&mut after, rules.is_empty(), stop);
    commands.push(Command::End);
    Given { commands, rules, stop, after }
}

/// The reply, or why the call is refused.
pub fn judge(tables: &[u8], negotiation: &[u8], reply: &[u8], scratch: &[u8], leak: Leak) -> Result<Given, Refusal> {
    if !all_lengths_fit(tables, negotiation, reply, scratch) {
        return Err(Refusal::Length);
    }
    let tables = tables::decode(tables)?;
    let negotiation = decode(negotiation).map_err(|_| Refusal::Damaged)?;
    if damage(&tables, &negotiation).is_some() {
        return Err(Refusal::Damaged);
    }
    if negotiation.end != 0 {
        return Err(Refusal::Ended);
    }
    if sender(&negotiation) != negotiation.side {
        return Err(Refusal::Turn);
    }
    Ok(give(&tables, negotiation, leak))
}

/// Writes what a reply that was judged leaves in the buffers, and gives its length.
pub fn write(given: &Given, negotiation: &mut [u8], reply: &mut [u8], scratch: &mut [u8]) -> usize {
    let message = encode_message(&given.commands);
    negotiation.copy_from_slice(&encode(&given.after));
    reply[..message.len()].copy_from_slice(&message);
    scratch.fill(0);
    message.len()
}

/// The length, or the number of the refusal. A refused call leaves every byte as it is; an accepted one writes the reply
/// at the start of its buffer and leaves the rest.
pub fn reply(tables: &[u8], negotiation: &mut [u8], reply: &mut [u8], scratch: &mut [u8]) -> Result<usize, Refusal> {
    let given = judge(tables, negotiation, reply, scratch, Leak::None)?;
    Ok(write(&given, negotiation, reply, scratch))
}

/// The answer of the call: 256 times the length, or the refusal's number.
pub fn answer(replied: Result<usize, Refusal>) -> u64 {
    match replied {
        Ok(length) => 256 * length as u64,
        Err(refusal) => refusal as u64,
    }
}
