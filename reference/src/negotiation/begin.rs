//! The call that begins a negotiation.

use crate::negotiation::{encode, Negotiation, Side, NEGOTIATION_BYTES};
use crate::refusal::Refusal;
use crate::rules::expression::Role;
use crate::tables::{self, MOST_TABLES_BYTES};

/// Both lent lengths, which are looked at before anything else.
pub fn lengths_fit(tables: &[u8], negotiation: &[u8]) -> bool {
    (1..=MOST_TABLES_BYTES).contains(&tables.len()) && negotiation.len() == NEGOTIATION_BYTES
}

/// The fresh negotiation, or why the call is refused.
fn fresh(tables: &[u8], negotiation: &[u8], other: u16, wanted: Role) -> Result<Negotiation, Refusal> {
    if !lengths_fit(tables, negotiation) {
        return Err(Refusal::Length);
    }
    let tables = tables::decode(tables)?;
    let side = match (wanted.entity, wanted.name) {
        (0, 0) => Side::Requester,
        (0, _) | (_, 0) => return Err(Refusal::Operand),
        _ => Side::Mediator,
    };
    if other == 0 || other == tables.own {
        return Err(Refusal::Other);
    }
    Ok(Negotiation::fresh(side, tables.own, other, wanted))
}

/// The answer of the call. A refused one leaves the negotiation as it is.
pub fn begin(tables: &[u8], negotiation: &mut [u8], other: u16, wanted: Role) -> u64 {
    match fresh(tables, negotiation, other, wanted) {
        Ok(fresh) => {
            negotiation.copy_from_slice(&encode(&fresh));
            0
        }
        Err(refusal) => refusal as u64,
    }
}
