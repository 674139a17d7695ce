//! Mistakes of a reply that tell of a direct credential too early. The check of two runs must find each of them.

/// Which mistake a reply makes; none but for that check.
#[derive(Clone, Copy, Debug, Default, PartialEq, Eq)]
pub enum Leak {
    #[default]
    None,
    /// The direct credential of a sensitive role is sent before its Ack target is satisfied.
    Possession,
    /// The credentials that an edge needs are chosen among all, direct ones of sensitive roles too.
    Needed,
    /// A sensitive role that is not held is marked before its Ack target is satisfied.
    Mark,
    /// The AC target is asked for before the Ack target is satisfied.
    Access,
}

pub const LEAKS: [Leak; 4] = [Leak::Possession, Leak::Needed, Leak::Mark, Leak::Access];
