//! A call of the engine with what it is lent, in the bytes that replay.c reads.

use crate::reply::Engine;
use reference::ends::calls::Calls;
use reference::message::take;
use reference::rules::expression::Role;
use reference::rules::question;

/// What ends a row of calls.
pub const ROW_END: u8 = 0;

#[derive(Clone)]
pub struct Call {
    kind: u8,
    buffers: Vec<Vec<u8>>,
}

impl Call {
    fn new(kind: u8, buffers: &[&[u8]]) -> Call {
        Call { kind, buffers: buffers.iter().map(|buffer| buffer.to_vec()).collect() }
    }

    pub fn question(lent: &question::Lent) -> Call {
        Call::new(1, &[&lent.credentials, &lent.f, &lent.e])
    }

    pub fn check(tables: &[u8]) -> Call {
        Call::new(2, &[tables])
    }

    fn begin(tables: &[u8], negotiation: &[u8], other: u16, wanted: Role) -> Call {
        let numbers = [other, wanted.entity, wanted.name].map(u16::to_be_bytes).concat();
        Call::new(3, &[tables, negotiation, &numbers])
    }

    pub fn take(lent: &take::Lent) -> Call {
        Call::new(4, &[&lent.tables, &lent.negotiation, &lent.message, &lent.scratch])
    }

    pub fn reply(tables: &[u8], negotiation: &[u8], reply: &[u8], scratch: &[u8]) -> Call {
        Call::new(5, &[tables, negotiation, reply, scratch])
    }

    pub fn report(tables: &[u8], negotiation: &[u8]) -> Call {
        Call::new(6, &[tables, negotiation])
    }

    pub fn encode(&self) -> Vec<u8> {
        let lengthened = |buffer: &Vec<u8>| [&(buffer.len() as u32).to_le_bytes()[..], buffer].concat();
        [vec![self.kind], self.buffers.iter().flat_map(lengthened).collect()].concat()
    }
}

/// The engine; its calls are kept, each as it was before it was made.
#[derive(Default)]
pub struct Recorder {
    pub calls: Vec<Call>,
}

impl Calls for Recorder {
    fn begin(&mut self, tables: &[u8], negotiation: &mut [u8], other: u16, wanted: Role) -> u64 {
        self.calls.push(Call::begin(tables, negotiation, other, wanted));
        Engine.begin(tables, negotiation, other, wanted)
    }

    fn take(&mut self, tables: &[u8], negotiation: &mut [u8], message: &[u8], scratch: &mut [u8]) -> u64 {
        self.calls.push(Call::new(4, &[tables, negotiation, message, scratch]));
        Engine.take(tables, negotiation, message, scratch)
    }

    fn reply(&mut self, tables: &[u8], negotiation: &mut [u8], reply: &mut [u8], scratch: &mut [u8]) -> u64 {
        self.calls.push(Call::reply(tables, negotiation, reply, scratch));
        Engine.reply(tables, negotiation, reply, scratch)
    }

    fn report(&mut self, tables: &[u8], negotiation: &[u8], node: u8) -> u64 {
        Engine.report(tables, negotiation, node)
    }
}
