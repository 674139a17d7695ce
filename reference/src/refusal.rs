//! Why a call is refused.

/// The value is the number that the call returns. No call returns 4.
#[derive(Clone, Copy, Debug, PartialEq, Eq, PartialOrd, Ord)]
pub enum Refusal {
    /// A lent length outside the sizes.
    Length = 1,
    /// An unknown or cut command, a missing end, bytes after the end.
    Command = 2,
    /// An operand of wrong form.
    Operand = 3,
    /// A class rule broken.
    Class = 5,
    /// Tables out of order, repeated, self missing, or a size passed.
    Order = 6,
    /// At begin: the other end is zero or self.
    Other = 7,
    /// The negotiation is damaged.
    Damaged = 20,
    /// Not that side's turn.
    Turn = 21,
    /// Already ended.
    Ended = 22,
    /// Any command but open while no node stands, or open later.
    Opening = 23,
    /// No such node.
    Absent = 24,
    /// An edge of wrong form, or a node, edge or credential that is already present.
    Fit = 25,
    /// An edge that is not justified.
    Unjustified = 26,
    /// Already processed by the sender.
    Processed = 27,
    /// A size passed.
    Size = 28,
}
