//! The commands of messages, and their bytes.

use crate::negotiation::graph::legal_state;
use crate::negotiation::*;
use crate::rules::expression::*;

pub const MOST_MESSAGE_BYTES: usize = 4096;

/// The first bytes of commands.
pub const CREDENTIAL: u8 = 0x01;
pub const OPEN: u8 = 0x02;
pub const CHILD: u8 = 0x03;
pub const JOIN: u8 = 0x04;
pub const MARK: u8 = 0x05;
pub const END: u8 = 0x06;

/// An edge with a new child, as it stands in a message.
#[derive(Clone, Debug, PartialEq, Eq)]
pub struct NewChild {
    pub kind: u8,
    pub parent: usize,
    pub form: Form,
    pub subject: u16,
    pub state: u8,
}

#[derive(Clone, Debug, PartialEq, Eq)]
pub enum Command {
    Credential(Credential),
    Open(Role, u8),
    Child(NewChild),
    Join(Edge),
    Mark(usize),
    End,
}

impl Command {
    /// Every name in it.
    pub fn names(&self) -> Vec<u16> {
        match self {
            Command::Credential(credential) => credential.names(),
            Command::Open(role, _) => vec![role.name],
            Command::Child(child) => child.form.names(),
            Command::Join(_) | Command::Mark(_) | Command::End => vec![],
        }
    }
}

/// The kind of the edge that a command adds.
pub fn edge_kind(command: &Command) -> Option<u8> {
    match command {
        Command::Child(child) => Some(child.kind),
        Command::Join(edge) => Some(edge.kind),
        _ => None,
    }
}

/// The bytes of a command, its first one among them; None: there is no such command in messages.
pub fn command_bytes(first: u8) -> Option<usize> {
    match first {
        CREDENTIAL => Some(1 + CREDENTIAL_BYTES),
        OPEN => Some(6),
        CHILD => Some(24),
        JOIN => Some(4),
        MARK => Some(2),
        END => Some(1),
        _ => None,
    }
}

fn number(bytes: &[u8]) -> u16 {
    u16::from_be_bytes([bytes[0], bytes[1]])
}

fn kind_exists(kind: u8) -> bool {
    (IMPLICATION..=CONTROL).contains(&kind)
}

/// Any state is legal for a role.
fn decode_open(operands: &[u8]) -> Option<Command> {
    let role = Role { entity: number(operands), name: number(&operands[2..]) };
    let state = operands[4];
    let form = Form::Target(Expression::Role(role));
    (role.entity != 0 && role.name != 0 && legal_state(&form, state)).then_some(Command::Open(role, state))
}

fn decode_child(operands: &[u8]) -> Option<Command> {
    let (kind, parent) = (operands[0], operands[1] as usize);
    let form = decode_form(&operands[2..20])?;
    let (subject, state) = (number(&operands[20..]), operands[22]);
    let right = kind_exists(kind) && subject != 0 && legal_state(&form, state);
    right.then_some(Command::Child(NewChild { kind, parent, form, subject, state }))
}

fn decode_join(operands: &[u8]) -> Option<Command> {
    let edge = Edge { kind: operands[0], parent: operands[1] as usize, child: operands[2] as usize };
    kind_exists(edge.kind).then_some(Command::Join(edge))
}

/// The command that these bytes stand for, whose first is known; None: an operand has a wrong form.
pub fn decode_command(bytes: &[u8]) -> Option<Command> {
    let operands = &bytes[1..];
    match bytes[0] {
        CREDENTIAL => decode_credential(operands).map(Command::Credential),
        OPEN => decode_open(operands),
        CHILD => decode_child(operands),
        JOIN => decode_join(operands),
        MARK => Some(Command::Mark(operands[0] as usize)),
        END => Some(Command::End),
        first => unreachable!("command {first}"),
    }
}

fn encode_open(role: &Role, state: u8) -> Vec<u8> {
    [&[OPEN][..], &role.entity.to_be_bytes(), &role.name.to_be_bytes(), &[state]].concat()
}

fn encode_child(child: &NewChild) -> Vec<u8> {
    let NewChild { kind, parent, form, subject, state } = child;
    [&[CHILD, *kind, *parent as u8][..], &encode_form(form), &subject.to_be_bytes(), &[*state]].concat()
}

pub fn encode_command(command: &Command) -> Vec<u8> {
    match command {
        Command::Credential(credential) => [vec![CREDENTIAL], encode_credential(credential)].concat(),
        Command::Open(role, state) => encode_open(role, *state),
        Command::Child(child) => encode_child(child),
        Command::Join(Edge { kind, parent, child }) => vec![JOIN, *kind, *parent as u8, *child as u8],
        Command::Mark(node) => vec![MARK, *node as u8],
        Command::End => vec![END],
    }
}

pub fn encode_message(commands: &[Command]) -> Vec<u8> {
    commands.iter().flat_map(encode_command).collect()
}

/// The bytes of the next command, or None if there is none, or it is unknown or cut, or an end that is not the last.
pub fn next_command(rest: &[u8]) -> Option<&[u8]> {
    let bytes = rest.get(..command_bytes(*rest.first()?)?)?;
    let last = bytes.len() == rest.len();
    (bytes[0] != END || last).then_some(bytes)
}
