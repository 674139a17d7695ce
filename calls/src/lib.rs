//! The engine's calls for Rust: as C has them, and as functions on slices. include/lavutremo.h says what each reads,
//! writes and refuses.

// In each call a pointer goes with the length of what it points to. The engine keeps no pointer.
#[link(name = "engine", kind = "static")]
extern "C" {
    pub fn lavutremo_question(
        credentials: *const u8,
        credentials_len: usize,
        f: *const u8,
        f_len: usize,
        e: *const u8,
        e_len: usize,
    ) -> u64;

    pub fn lavutremo_check(tables: *const u8, tables_len: usize) -> u64;

    pub fn lavutremo_begin(
        tables: *const u8,
        tables_len: usize,
        negotiation: *mut u8,
        negotiation_len: usize,
        other: u16,
        entity: u16,
        name: u16,
    ) -> u64;

    pub fn lavutremo_take(
        tables: *const u8,
        tables_len: usize,
        negotiation: *mut u8,
        negotiation_len: usize,
        message: *const u8,
        message_len: usize,
        scratch: *mut u8,
        scratch_len: usize,
    ) -> u64;

    pub fn lavutremo_reply(
        tables: *const u8,
        tables_len: usize,
        negotiation: *mut u8,
        negotiation_len: usize,
        reply: *mut u8,
        reply_len: usize,
        scratch: *mut u8,
        scratch_len: usize,
    ) -> u64;

    pub fn lavutremo_report(
        tables: *const u8,
        tables_len: usize,
        negotiation: *const u8,
        negotiation_len: usize,
        node: u8,
    ) -> u64;
}

pub fn question(credentials: &[u8], f: &[u8], e: &[u8]) -> u64 {
    let (f_at, f_len, e_at, e_len) = (f.as_ptr(), f.len(), e.as_ptr(), e.len());
    unsafe { lavutremo_question(credentials.as_ptr(), credentials.len(), f_at, f_len, e_at, e_len) }
}

pub fn check(tables: &[u8]) -> u64 {
    unsafe { lavutremo_check(tables.as_ptr(), tables.len()) }
}

pub fn begin(tables: &[u8], negotiation: &mut [u8], other: u16, entity: u16, name: u16) -> u64 {
    let (at, len) = (negotiation.as_mut_ptr(), negotiation.len());
    unsafe { lavutremo_begin(tables.as_ptr(), tables.len(), at, len, other, entity, name) }
}

pub fn take(tables: &[u8], negotiation: &mut [u8], message: &[u8], scratch: &mut [u8]) -> u64 {
    let (tables_at, tables_len) = (tables.as_ptr(), tables.len());
    let (at, len) = (negotiation.as_mut_ptr(), negotiation.len());
    let (message_at, message_len) = (message.as_ptr(), message.len());
    let (scratch_at, scratch_len) = (scratch.as_mut_ptr(), scratch.len());
    unsafe { lavutremo_take(tables_at, tables_len, at, len, message_at, message_len, scratch_at, scratch_len) }
}

pub fn reply(tables: &[u8], negotiation: &mut [u8], reply: &mut [u8], scratch: &mut [u8]) -> u64 {
    let (tables_at, tables_len) = (tables.as_ptr(), tables.len());
    let (at, len) = (negotiation.as_mut_ptr(), negotiation.len());
    let (reply_at, reply_len) = (reply.as_mut_ptr(), reply.len());
    let (scratch_at, scratch_len) = (scratch.as_mut_ptr(), scratch.len());
    unsafe { lavutremo_reply(tables_at, tables_len, at, len, reply_at, reply_len, scratch_at, scratch_len) }
}

pub fn report(tables: &[u8], negotiation: &[u8], node: u8) -> u64 {
    unsafe { lavutremo_report(tables.as_ptr(), tables.len(), negotiation.as_ptr(), negotiation.len(), node) }
}
