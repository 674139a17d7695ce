//! The calls of a negotiation on lent bytes, for what plays them: the reference, or something beside it.

use crate::message::take;
use crate::negotiation::{begin, report};
use crate::reply::leak::Leak;
use crate::reply::{self, counts::ReplyCounts};
use crate::rules::expression::Role;

pub trait Calls {
    fn begin(&mut self, tables: &[u8], negotiation: &mut [u8], other: u16, wanted: Role) -> u64;
    fn take(&mut self, tables: &[u8], negotiation: &mut [u8], message: &[u8], scratch: &mut [u8]) -> u64;
    fn reply(&mut self, tables: &[u8], negotiation: &mut [u8], reply: &mut [u8], scratch: &mut [u8]) -> u64;
    fn report(&mut self, tables: &[u8], negotiation: &[u8], node: u8) -> u64;
}

/// The reference, its replies with a leak or none. It counts what they did.
#[derive(Default)]
pub struct Reference {
    pub leak: Leak,
    pub counts: ReplyCounts,
}

impl Calls for Reference {
    fn begin(&mut self, tables: &[u8], negotiation: &mut [u8], other: u16, wanted: Role) -> u64 {
        begin::begin(tables, negotiation, other, wanted)
    }

    fn take(&mut self, tables: &[u8], negotiation: &mut [u8], message: &[u8], scratch: &mut [u8]) -> u64 {
        take::take(tables, negotiation, message, scratch)
    }

    fn reply(&mut self, tables: &[u8], negotiation: &mut [u8], reply: &mut [u8], scratch: &mut [u8]) -> u64 {
        let judged = reply::judge(tables, negotiation, reply, scratch, self.leak);
        self.counts.replied(tables, &judged);
        reply::answer(judged.map(|given| reply::write(&given, negotiation, reply, scratch)))
    }

    fn report(&mut self, tables: &[u8], negotiation: &[u8], node: u8) -> u64 {
        report::report(tables, negotiation, node)
    }
}
