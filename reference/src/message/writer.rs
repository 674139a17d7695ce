//! Messages written command by command.

use crate::message::legal::carry_out;
use crate::message::take::*;
use crate::message::*;
use crate::negotiation::*;
use crate::refusal::Refusal;
use crate::rules::expression::*;
use crate::tables::{self, Tables};

/// A take with a name, and the number that it must answer.
#[derive(Clone)]
pub struct Run {
    pub name: String,
    pub lent: Lent,
    pub answer: u64,
}

/// The negotiation as the other end holds it.
pub fn other_end(negotiation: &Negotiation) -> Negotiation {
    let side = negotiation.side.opposite();
    let wanted = match (side, negotiation.nodes.first().map(|node| &node.form)) {
        (Side::Mediator, Some(Form::Target(Expression::Role(role)))) => *role,
        (Side::Mediator, _) => unreachable!("no primary, so the wanted role is not known"),
        (Side::Requester, _) => Role { entity: 0, name: 0 },
    };
    Negotiation { side, own: negotiation.other, other: negotiation.own, wanted, ..negotiation.clone() }
}

/// A message that is written command by command; the negotiation goes along.
pub struct Writer {
    tables_bytes: Vec<u8>,
    tables: Tables,
    before: Negotiation,
    pub now: Negotiation,
    pub commands: Vec<Command>,
}

impl Writer {
    pub fn new(tables_bytes: Vec<u8>, before: Negotiation) -> Writer {
        let tables = tables::decode(&tables_bytes).unwrap();
        let now = before.clone();
        Writer { tables_bytes, tables, before, now, commands: vec![] }
    }

    /// Writes a command if it is legal.
    pub fn add(&mut self, command: Command) -> Result<(), Refusal> {
        let sender = self.now.side.opposite();
        carry_out(&self.tables, &mut self.now, sender, &command)?;
        self.commands.push(command);
        Ok(())
    }

    pub fn must(&mut self, command: Command) {
        let added = self.add(command.clone());
        assert_eq!(added, Ok(()), "{command:?}");
    }

    pub fn child(&mut self, kind: u8, parent: usize, form: Form, subject: u16, state: u8) {
        self.must(Command::Child(NewChild { kind, parent, form, subject, state }));
    }

    /// How long the message is, its end included.
    pub fn length(&self) -> usize {
        encode_message(&self.commands).len() + 1
    }

    /// The take of the message with an end.
    pub fn finish(&self, name: impl Into<String>) -> Run {
        self.finish_with(name, &[], 0)
    }

    /// The same with further commands before the end, and the answer that these give.
    pub fn finish_with(&self, name: impl Into<String>, further: &[Command], answer: u64) -> Run {
        let commands = [&self.commands[..], further, &[Command::End]].concat();
        let lent = Lent {
            tables: self.tables_bytes.clone(),
            negotiation: encode(&self.before),
            message: encode_message(&commands),
            scratch: vec![0xa5; SCRATCH_BYTES],
        };
        Run { name: name.into(), lent, answer }
    }
}
