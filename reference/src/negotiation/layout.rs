//! A negotiation as one end holds it, and its 5,120 bytes of layout number 2.

use crate::negotiation::clause::Clause;
use crate::negotiation::Messages;
use crate::rules::expression::*;

pub const NEGOTIATION_BYTES: usize = 5120;
pub const MOST_NODES: usize = 128;
pub const MOST_EDGES: usize = 256;
pub const MOST_SHOWN: usize = 64;
pub const LAYOUT: u8 = 2;

/// Where the header has its counts, of two bytes, two, one, two and one; and how many bytes it uses.
pub const MEDIATOR_MESSAGES_AT: usize = 12;
pub const REQUESTER_MESSAGES_AT: usize = 14;
pub const NODE_COUNT_AT: usize = 16;
pub const EDGE_COUNT_AT: usize = 17;
pub const SHOWN_COUNT_AT: usize = 19;
pub const HEADER_USED: usize = 20;

/// Where the parts begin, and the bytes of a record.
pub const NODES_AT: usize = 128;
pub const NODE_BYTES: usize = 22;
pub const EDGES_AT: usize = 2944;
pub const EDGE_BYTES: usize = 3;
pub const SHOWN_AT: usize = 3712;

#[derive(Clone, Copy, Debug, PartialEq, Eq, PartialOrd, Ord, Hash)]
pub enum Side {
    Mediator = 0,
    Requester = 1,
}

impl Side {
    pub fn opposite(self) -> Side {
        match self {
            Side::Mediator => Side::Requester,
            Side::Requester => Side::Mediator,
        }
    }
}

/// What a node is about: f of a target, or r of the linking goal ?X.r.
#[derive(Clone, Debug, PartialEq, Eq, PartialOrd, Ord, Hash)]
pub enum Form {
    Target(Expression),
    Goal(u16),
}

impl Form {
    /// Every name in it.
    pub fn names(&self) -> Vec<u16> {
        match self {
            Form::Target(expression) => expression.names(),
            Form::Goal(name) => vec![*name],
        }
    }
}

#[derive(Clone, Debug, PartialEq, Eq)]
pub struct Node {
    pub form: Form,
    pub subject: u16,
    pub verifier: Side,
    /// Bit 0 verifier-processed, bit 1 opponent-processed.
    pub state: u8,
}

impl Node {
    pub fn fully_processed(&self) -> bool {
        self.state == 3
    }

    /// Nodes are unique by this.
    pub fn same_target(&self, other: &Node) -> bool {
        (&self.form, self.subject, self.verifier) == (&other.form, other.subject, other.verifier)
    }
}

/// Edge kinds.
pub const IMPLICATION: u8 = 1;
pub const MONITOR: u8 = 2;
pub const SOLUTION: u8 = 3;
pub const LINKING_IMPLICATION: u8 = 4;
pub const PART: u8 = 5;
pub const CONTROL: u8 = 6;

#[derive(Clone, Copy, Debug, PartialEq, Eq)]
pub struct Edge {
    pub kind: u8,
    pub parent: usize,
    pub child: usize,
}

#[derive(Clone, Debug, PartialEq, Eq)]
pub struct Negotiation {
    pub side: Side,
    pub own: u16,
    pub other: u16,
    /// The wanted role, zeros for the requester.
    pub wanted: Role,
    pub end: u8,
    pub idle: bool,
    pub messages: Messages,
    pub nodes: Vec<Node>,
    pub edges: Vec<Edge>,
    pub shown: Vec<Credential>,
}

impl Negotiation {
    /// No node, no edge and no credential.
    pub fn fresh(side: Side, own: u16, other: u16, wanted: Role) -> Negotiation {
        let (end, idle, messages) = (0, false, Messages::default());
        Negotiation { side, own, other, wanted, end, idle, messages, nodes: vec![], edges: vec![], shown: vec![] }
    }

    /// The entity on a side.
    pub fn entity(&self, side: Side) -> u16 {
        if side == self.side {
            self.own
        } else {
            self.other
        }
    }
}

fn number(bytes: &[u8], at: usize) -> u16 {
    u16::from_be_bytes([bytes[at], bytes[at + 1]])
}

fn decode_side(byte: u8) -> Option<Side> {
    [Side::Mediator, Side::Requester].into_iter().find(|&side| side as u8 == byte)
}

pub fn decode_form(bytes: &[u8]) -> Option<Form> {
    let name = number(bytes, 2);
    let rest_unused = bytes[1] == 0 && bytes[4..].iter().all(|&byte| byte == 0);
    match bytes[0] {
        5 if name != 0 && rest_unused => Some(Form::Goal(name)),
        5 => None,
        _ => decode_expression(bytes).map(Form::Target),
    }
}

pub fn encode_form(form: &Form) -> Vec<u8> {
    match form {
        Form::Target(expression) => encode_expression(expression),
        Form::Goal(name) => {
            let mut bytes = [&[5, 0][..], &name.to_be_bytes()].concat();
            bytes.resize(EXPRESSION_BYTES, 0);
            bytes
        }
    }
}

fn decode_node(bytes: &[u8]) -> Option<Node> {
    let form = decode_form(&bytes[..EXPRESSION_BYTES])?;
    let subject = number(bytes, 18);
    let verifier = decode_side(bytes[20])?;
    let state = bytes[21];
    (subject != 0 && state <= 3).then_some(Node { form, subject, verifier, state })
}

fn decode_edge(bytes: &[u8]) -> Option<Edge> {
    let edge = Edge { kind: bytes[0], parent: bytes[1] as usize, child: bytes[2] as usize };
    (IMPLICATION..=CONTROL).contains(&edge.kind).then_some(edge)
}

/// The first so many records of a part, or None if one has a wrong form.
fn records<T>(part: &[u8], size: usize, count: usize, decode: fn(&[u8]) -> Option<T>) -> Option<Vec<T>> {
    part.chunks(size).take(count).map(decode).collect()
}

/// The negotiation that these bytes stand for. Every state has one encoding: each unused byte is zero.
pub fn decode(bytes: &[u8]) -> Result<Negotiation, Clause> {
    assert_eq!(bytes.len(), NEGOTIATION_BYTES);
    let demand = |holds: bool, clause| if holds { Ok(()) } else { Err(clause) };
    demand(bytes[0] == LAYOUT, Clause::Layout)?;
    let side = decode_side(bytes[1]).ok_or(Clause::Side)?;
    demand(bytes[10] <= 4, Clause::EndByte)?;
    demand(bytes[11] <= 1, Clause::IdleByte)?;
    let (node_count, shown_count) = (bytes[NODE_COUNT_AT] as usize, bytes[SHOWN_COUNT_AT] as usize);
    let edge_count = number(bytes, EDGE_COUNT_AT) as usize;
    demand(node_count <= MOST_NODES && edge_count <= MOST_EDGES && shown_count <= MOST_SHOWN, Clause::TooMany)?;

    let unused = [
        &bytes[HEADER_USED..NODES_AT],
        &bytes[NODES_AT + NODE_BYTES * node_count..EDGES_AT],
        &bytes[EDGES_AT + EDGE_BYTES * edge_count..SHOWN_AT],
        &bytes[SHOWN_AT + CREDENTIAL_BYTES * shown_count..],
    ];
    demand(unused.concat().iter().all(|&byte| byte == 0), Clause::Unused)?;
    let nodes = records(&bytes[NODES_AT..], NODE_BYTES, node_count, decode_node);
    let edges = records(&bytes[EDGES_AT..], EDGE_BYTES, edge_count, decode_edge);
    let shown = records(&bytes[SHOWN_AT..], CREDENTIAL_BYTES, shown_count, decode_credential);
    Ok(Negotiation {
        side,
        own: number(bytes, 2),
        other: number(bytes, 4),
        wanted: Role { entity: number(bytes, 6), name: number(bytes, 8) },
        end: bytes[10],
        idle: bytes[11] == 1,
        messages: Messages {
            mediator: number(bytes, MEDIATOR_MESSAGES_AT),
            requester: number(bytes, REQUESTER_MESSAGES_AT),
        },
        nodes: nodes.ok_or(Clause::NodeForm)?,
        edges: edges.ok_or(Clause::EdgeKind)?,
        shown: shown.ok_or(Clause::CredentialForm)?,
    })
}

fn encode_node(node: &Node) -> Vec<u8> {
    [encode_form(&node.form), node.subject.to_be_bytes().to_vec(), vec![node.verifier as u8, node.state]].concat()
}

fn encode_edge(edge: &Edge) -> Vec<u8> {
    vec![edge.kind, edge.parent as u8, edge.child as u8]
}

pub fn encode(negotiation: &Negotiation) -> Vec<u8> {
    let Negotiation { side, own, other, wanted, end, idle, messages, nodes, edges, shown } = negotiation;
    assert!(nodes.len() <= MOST_NODES && edges.len() <= MOST_EDGES && shown.len() <= MOST_SHOWN);
    let mut bytes = vec![LAYOUT, *side as u8];
    for n in [*own, *other, wanted.entity, wanted.name] {
        bytes.extend(n.to_be_bytes());
    }
    bytes.extend([*end, *idle as u8]);
    bytes.extend(messages.mediator.to_be_bytes());
    bytes.extend(messages.requester.to_be_bytes());
    bytes.push(nodes.len() as u8);
    bytes.extend((edges.len() as u16).to_be_bytes());
    bytes.push(shown.len() as u8);
    bytes.resize(NODES_AT, 0);
    bytes.extend(nodes.iter().flat_map(encode_node));
    bytes.resize(EDGES_AT, 0);
    bytes.extend(edges.iter().flat_map(encode_edge));
    bytes.resize(SHOWN_AT, 0);
    bytes.extend(shown.iter().flat_map(encode_credential));
    bytes.resize(NEGOTIATION_BYTES, 0);
    bytes
}
