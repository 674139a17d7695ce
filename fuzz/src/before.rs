//! A library of before beside the engine. Every request is lent to it too; where each name is listed, its answer and all
//! lent bytes must be the engine's.
//!
//! The environment variable LAVUTREMO_BEFORE names it, a shared object; without it nothing is compared. A name that is
//! not listed was refused before and is subject-all now, so requests with one are not compared. Many of these must differ:
//! that shows that a difference is found.

use crate::{hex, Guarded};
use reference::message::{decode_command, next_command};
use reference::negotiation::{self, NEGOTIATION_BYTES};
use reference::rules::expression::Role;
use reference::tables::records::{decode_record, Record};
use reference::tables::{self, next_record};
use std::collections::{BTreeMap, BTreeSet};
use std::env;
use std::ffi::{c_char, c_int, c_void, CString};
use std::mem::transmute_copy;
use std::sync::{LazyLock, Mutex};

/// A call, with its arguments but the buffers.
#[derive(Clone, Copy, Debug)]
pub enum Request {
    Question,
    Check,
    Begin { other: u16, wanted: Role },
    Take,
    Reply,
    Report { node: u8 },
}

impl Request {
    fn name(self) -> &'static str {
        match self {
            Request::Question => "question",
            Request::Check => "check",
            Request::Begin { .. } => "begin",
            Request::Take => "take",
            Request::Reply => "reply",
            Request::Report { .. } => "report",
        }
    }
}

/// Whether a record of tables has a name that no 0x11 record before it lists. What cannot be read ends the check.
fn has_unlisted_record(bytes: &[u8]) -> bool {
    let (mut listed, mut rest) = (BTreeSet::new(), bytes);
    while let Some(bytes) = next_record(rest) {
        let Some(record) = decode_record(bytes) else { return false };
        if record.names().iter().any(|name| !listed.contains(name)) {
            return true;
        }
        if let Record::Name(name, _) = record {
            listed.insert(name);
        }
        rest = &rest[bytes.len()..];
    }
    false
}

/// The names in a negotiation; none where its bytes are damaged whatever the names.
fn negotiation_names(bytes: &[u8]) -> Vec<u16> {
    if bytes.len() != NEGOTIATION_BYTES {
        return vec![];
    }
    let Ok(negotiation) = negotiation::decode(bytes) else { return vec![] };
    let in_nodes = negotiation.nodes.iter().flat_map(|node| node.form.names());
    let in_shown = negotiation.shown.iter().flat_map(|credential| credential.names());
    [negotiation.wanted.name].into_iter().chain(in_nodes).chain(in_shown).collect()
}

/// The names in a message, up to the first command that cannot be read.
fn message_names(message: &[u8]) -> Vec<u16> {
    let (mut names, mut rest) = (vec![], message);
    while let Some(bytes) = next_command(rest) {
        let Some(command) = decode_command(bytes) else { break };
        names.extend(command.names());
        rest = &rest[bytes.len()..];
    }
    names
}

/// Whether the request has a name that is not listed. Questions have no tables, and classes are not consulted there.
fn has_unlisted(request: Request, lent: &[&[u8]]) -> bool {
    if let Request::Question = request {
        return false;
    }
    if has_unlisted_record(lent[0]) {
        return true;
    }
    // Where the tables are refused, no other name is looked at.
    let Ok(tables) = tables::decode(lent[0]) else { return false };
    let mut names = match request {
        Request::Question | Request::Check => vec![],
        Request::Begin { wanted, .. } => vec![wanted.name],
        Request::Take => [negotiation_names(lent[1]), message_names(lent[2])].concat(),
        Request::Reply | Request::Report { .. } => negotiation_names(lent[1]),
    };
    names.retain(|&name| name != 0);
    tables.has_unlisted(&names)
}

extern "C" {
    fn dlopen(file: *const c_char, flags: c_int) -> *mut c_void;
    fn dlsym(library: *mut c_void, name: *const c_char) -> *mut c_void;
}

const RTLD_NOW: c_int = 2;

type One = unsafe extern "C" fn(*mut u8, usize) -> u64;
type Report = unsafe extern "C" fn(*mut u8, usize, *mut u8, usize, u8) -> u64;
type Begin = unsafe extern "C" fn(*mut u8, usize, *mut u8, usize, u16, u16, u16) -> u64;
type Three = unsafe extern "C" fn(*mut u8, usize, *mut u8, usize, *mut u8, usize) -> u64;
type Four = unsafe extern "C" fn(*mut u8, usize, *mut u8, usize, *mut u8, usize, *mut u8, usize) -> u64;

/// How many requests there were, how many of them the engine accepted, and how many differed.
#[derive(Default)]
struct Counts {
    all: u64,
    accepted: u64,
    differing: u64,
}

struct Before {
    library: *mut c_void,
    /// For each call: those that must be the same, and those with a name that is not listed.
    counts: BTreeMap<&'static str, [Counts; 2]>,
}

// The library has no state of its own.
unsafe impl Send for Before {}

static BEFORE: LazyLock<Option<Mutex<Before>>> = LazyLock::new(|| {
    let file = CString::new(env::var("LAVUTREMO_BEFORE").ok()?).unwrap();
    let library = unsafe { dlopen(file.as_ptr(), RTLD_NOW) };
    assert!(!library.is_null(), "{file:?} cannot be opened");
    Some(Mutex::new(Before { library, counts: BTreeMap::new() }))
});

impl Before {
    /// The function of this call, of the type that it has there.
    unsafe fn function<F>(&self, request: Request) -> F {
        let name = CString::new(format!("lavutremo_{}", request.name())).unwrap();
        let address = dlsym(self.library, name.as_ptr());
        assert!(!address.is_null(), "{name:?} is not in the library of before");
        transmute_copy(&address)
    }

    /// The answer, with the buffers as they are after it. Each pointer goes with the length of what it points to.
    fn ask(&self, request: Request, buffers: &mut [Vec<u8>]) -> u64 {
        let lent: Vec<(*mut u8, usize)> = buffers.iter_mut().map(|bytes| (bytes.as_mut_ptr(), bytes.len())).collect();
        unsafe {
            match (request, &lent[..]) {
                (Request::Check, &[a]) => self.function::<One>(request)(a.0, a.1),
                (Request::Begin { other, wanted }, &[a, b]) => {
                    self.function::<Begin>(request)(a.0, a.1, b.0, b.1, other, wanted.entity, wanted.name)
                }
                (Request::Report { node }, &[a, b]) => self.function::<Report>(request)(a.0, a.1, b.0, b.1, node),
                (Request::Question, &[a, b, c]) => self.function::<Three>(request)(a.0, a.1, b.0, b.1, c.0, c.1),
                (Request::Take | Request::Reply, &[a, b, c, d]) => {
                    self.function::<Four>(request)(a.0, a.1, b.0, b.1, c.0, c.1, d.0, d.1)
                }
                (request, lent) => unreachable!("{request:?} with {} buffers", lent.len()),
            }
        }
    }

    fn compare(&mut self, request: Request, lent: &[&[u8]], answer: u64, after: &[Guarded]) {
        let mut buffers: Vec<Vec<u8>> = lent.iter().map(|content| content.to_vec()).collect();
        let answer_before = self.ask(request, &mut buffers);
        let differs =
            answer != answer_before || !buffers.iter().map(Vec::as_slice).eq(after.iter().map(Guarded::content));
        let is_left_out = has_unlisted(request, lent);
        let counts = &mut self.counts.entry(request.name()).or_default()[is_left_out as usize];
        counts.all += 1;
        counts.accepted += answer.is_multiple_of(256) as u64;
        counts.differing += differs as u64;
        if differs && !is_left_out && counts.differing == 1 {
            println!("first difference on a {request:?} from before: engine {answer}, before {answer_before}");
            lent.iter().for_each(|content| println!("  lent {}", hex(content)));
        }
    }
}

/// Lends the same to the library of before, if there is one, after the engine answered this and left the buffers so.
pub fn compare(request: Request, lent: &[&[u8]], answer: u64, after: &[Guarded]) {
    if let Some(before) = &*BEFORE {
        before.lock().unwrap().compare(request, lent, answer, after);
    }
}

/// How many of a call with a name that is not listed are enough for one of them to differ.
const ENOUGH: u64 = 1000;

/// Prints what was compared. Returns how many requests were the same and how many differed, a comparison that finds no
/// difference where there must be one among these.
pub fn compared() -> Option<(u64, u64)> {
    let before = BEFORE.as_ref()?.lock().unwrap();
    let (mut same, mut wrong) = (0, 0);
    println!("beside the library of before:");
    for (name, [compared, left_out]) in &before.counts {
        let Counts { all, accepted, differing } = compared;
        println!("  {name}: {all} compared, {accepted} of them accepted, {differing} differ");
        println!("    left out for a name that is not listed: {}, {} differ", left_out.all, left_out.differing);
        let finds_none = left_out.all >= ENOUGH && left_out.differing == 0;
        if finds_none {
            println!("    no difference is found where there must be one");
        }
        same += all - differing;
        wrong += differing + finds_none as u64;
    }
    Some((same, wrong))
}
