//! The ways in which a negotiation can be damaged (20).

/// In the order in which the reference looks.
#[derive(Clone, Copy, Debug, PartialEq, Eq, PartialOrd, Ord, Hash)]
pub enum Clause {
    /// The layout number is not 2.
    Layout,
    /// The side byte is not 0 or 1.
    Side,
    /// The end byte is not 0 to 4.
    EndByte,
    /// The idle byte is not 0 or 1.
    IdleByte,
    /// More nodes, edges or credentials than a negotiation has room for.
    TooMany,
    /// An unused byte is not zero.
    Unused,
    /// A node record of wrong form.
    NodeForm,
    /// An edge kind outside 1 to 6.
    EdgeKind,
    /// A credential of wrong form.
    CredentialForm,
    /// A self other than the tables'.
    OtherSelf,
    /// The other end is zero or self.
    OtherEnd,
    /// A wanted role where we are the requester, or none or half of one where we are the mediator.
    Wanted,
    /// The messages of the two ends are neither equally many nor the mediator's one more.
    CountsDisagree,
    /// A message, an end, an idle message, an edge or a credential without a node.
    NotFresh,
    /// No message, or more than 1,027, with a node.
    Messages,
    /// A node's linked role is ill-typed.
    NodeClass,
    /// A state that is illegal for the node's form.
    IllegalState,
    /// An entity node with another subject.
    EntitySubject,
    RepeatedNode,
    /// A primary other than begun.
    Primary,
    CredentialClass,
    RepeatedCredential,
    /// An edge names a node that does not stand.
    AbsentNode,
    RepeatedEdge,
    /// An edge's parent was not yet brought.
    ParentNotBrought,
    /// An edge brings a node out of order.
    BroughtOutOfOrder,
    /// A node that no edge brought.
    NotBrought,
    EdgeForm,
    /// An edge joins a node to itself.
    SelfEdge,
    /// A kind 1 edge that the credentials do not prove.
    Implication,
    /// A kind 4 edge that the edges before it do not justify.
    LinkingImplication,
    /// An end that the primary's state contradicts.
    End,
    /// An end that the idle byte contradicts.
    Idle,
}

use Clause::*;

pub const CLAUSES: [Clause; 33] = [
    Layout,
    Side,
    EndByte,
    IdleByte,
    TooMany,
    Unused,
    NodeForm,
    EdgeKind,
    CredentialForm,
    OtherSelf,
    OtherEnd,
    Wanted,
    CountsDisagree,
    NotFresh,
    Messages,
    NodeClass,
    IllegalState,
    EntitySubject,
    RepeatedNode,
    Primary,
    CredentialClass,
    RepeatedCredential,
    AbsentNode,
    RepeatedEdge,
    ParentNotBrought,
    BroughtOutOfOrder,
    NotBrought,
    EdgeForm,
    SelfEdge,
    Implication,
    LinkingImplication,
    End,
    Idle,
];
