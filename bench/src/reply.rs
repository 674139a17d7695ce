//! Times replies beside the reference's, in microseconds: case (i) and a large negotiation that succeeds, by all calls of
//! both ends, each of their replies alone, and replies that last long.
//!
//! A reply changes what it is lent, so each call has its own copy, which is made before the clock starts.

use crate::calls::{Call, Recorder};
use crate::count::{Counted, Group, Pick};
use crate::found::{earlier_reply, worst_reply};
use reference::ends::calls::{Calls, Reference};
use reference::message::take::SCRATCH_BYTES;
use reference::message::MOST_MESSAGE_BYTES;
use reference::negotiation::{decode, NEGOTIATION_BYTES};
use reference::reply::large::{large_success, long_replies, Giving, WANTED};
use reference::rules::classes::Class::{IssuerDef, SubjectAll};
use reference::rules::expression::{Credential, Expression, Role};
use reference::tables::records::{encode_record, Guard, Record};
use std::process::exit;
use std::time::Instant;

/// What case (i) whole, the large success and the longest reply may cost.
const MOST_CASE: f64 = 80.0;
const MOST_LARGE: f64 = 1_900.0;
const MOST_REPLY: f64 = 12_000.0;

pub struct Engine;

impl Calls for Engine {
    fn begin(&mut self, tables: &[u8], negotiation: &mut [u8], other: u16, wanted: Role) -> u64 {
        engine::begin(tables, negotiation, other, wanted.entity, wanted.name)
    }

    fn take(&mut self, tables: &[u8], negotiation: &mut [u8], message: &[u8], scratch: &mut [u8]) -> u64 {
        engine::take(tables, negotiation, message, scratch)
    }

    fn reply(&mut self, tables: &[u8], negotiation: &mut [u8], reply: &mut [u8], scratch: &mut [u8]) -> u64 {
        engine::reply(tables, negotiation, reply, scratch)
    }

    fn report(&mut self, tables: &[u8], negotiation: &[u8], node: u8) -> u64 {
        engine::report(tables, negotiation, node)
    }
}

/// The buffers of a reply.
#[derive(Clone, PartialEq)]
pub struct Lent {
    negotiation: Vec<u8>,
    pub reply: Vec<u8>,
    scratch: Vec<u8>,
}

impl Lent {
    pub fn new(negotiation: Vec<u8>) -> Lent {
        Lent { negotiation, reply: vec![0; MOST_MESSAGE_BYTES], scratch: vec![0; SCRATCH_BYTES] }
    }

    pub fn give(&mut self, calls: &mut impl Calls, tables: &[u8]) -> u64 {
        calls.reply(tables, &mut self.negotiation, &mut self.reply, &mut self.scratch)
    }
}

/// The median of so many times, in microseconds.
fn median(count: usize, mut run: impl FnMut() -> f64) -> f64 {
    let mut times: Vec<f64> = (0..count).map(|_| run()).collect();
    times.sort_by(f64::total_cmp);
    times[count / 2]
}

/// The same for some 40 milliseconds.
fn steady(mut run: impl FnMut() -> f64) -> f64 {
    let count = (40_000.0 / median(3, &mut run)).clamp(5.0, 1001.0);
    median(count as usize, run)
}

fn reply_time(calls: &mut impl Calls, giving: &Giving) -> f64 {
    let mut lent = Lent::new(giving.negotiation.clone());
    let start = Instant::now();
    let answer = lent.give(calls, &giving.tables);
    let time = start.elapsed().as_secs_f64() * 1e6;
    assert_eq!(answer % 256, 0);
    time
}

/// Two ends: their tables and the wanted role.
struct Two {
    name: &'static str,
    tables: [Vec<u8>; 2],
    wanted: Role,
}

/// The buffers of both ends, made before the clock starts.
struct Buffers {
    negotiations: [Vec<u8>; 2],
    reply: Vec<u8>,
    scratch: Vec<u8>,
}

impl Buffers {
    fn new() -> Buffers {
        let negotiations = [vec![0; NEGOTIATION_BYTES], vec![0; NEGOTIATION_BYTES]];
        Buffers { negotiations, reply: vec![0; MOST_MESSAGE_BYTES], scratch: vec![0; SCRATCH_BYTES] }
    }
}

/// Begins both ends and passes so many messages from one to the other; gives the messages.
fn negotiate(calls: &mut impl Calls, two: &Two, messages: usize, buffers: &mut Buffers) -> Vec<Vec<u8>> {
    let Buffers { negotiations, reply, scratch } = buffers;
    let own = |end: usize| u16::from_be_bytes([two.tables[end][1], two.tables[end][2]]);
    let none = Role { entity: 0, name: 0 };
    for (end, wanted) in [(0, two.wanted), (1, none)] {
        assert_eq!(calls.begin(&two.tables[end], &mut negotiations[end], own(1 - end), wanted), 0);
    }
    let mut given = Vec::with_capacity(messages);
    for number in 0..messages {
        let (sender, taker) = (number % 2, 1 - number % 2);
        let answer = calls.reply(&two.tables[sender], &mut negotiations[sender], reply, scratch);
        assert_eq!(answer % 256, 0);
        let message = &reply[..(answer / 256) as usize];
        assert_eq!(calls.take(&two.tables[taker], &mut negotiations[taker], message, scratch), 0);
        given.push(message.to_vec());
    }
    given
}

fn whole_name(two: &Two, messages: usize) -> String {
    format!("{}, {messages} messages, all calls of both ends", two.name)
}

fn whole_time(calls: &mut impl Calls, two: &Two, messages: usize, buffers: &mut Buffers) -> f64 {
    let start = Instant::now();
    negotiate(calls, two, messages, buffers);
    start.elapsed().as_secs_f64() * 1e6
}

/// How many messages until the end, which is a success.
fn message_count(two: &Two) -> usize {
    (1..50)
        .find(|&count| {
            let mut buffers = Buffers::new();
            negotiate(&mut Engine, two, count, &mut buffers);
            decode(&buffers.negotiations[0]).unwrap().end == 1
        })
        .unwrap_or_else(|| {
            println!("{}: no success", two.name);
            exit(1)
        })
}

/// Each reply of the negotiation alone.
fn replies_of(two: &Two, messages: usize) -> Vec<Giving> {
    let before = |number: usize| {
        let mut buffers = Buffers::new();
        let given = negotiate(&mut Engine, two, number + 1, &mut buffers);
        let bytes = given[number].len();
        let mut buffers = Buffers::new();
        negotiate(&mut Engine, two, number, &mut buffers);
        let name = format!("{}, reply {} of {bytes} bytes", two.name, number + 1);
        let end = number % 2;
        Giving { name, tables: two.tables[end].clone(), negotiation: buffers.negotiations[end].clone() }
    };
    (0..messages).map(before).collect()
}

struct Row {
    set: String,
    /// Nodes, edges and credentials afterwards.
    sizes: [usize; 3],
    bytes: usize,
    engine: f64,
    reference: f64,
}

fn sizes(negotiation: &[u8]) -> [usize; 3] {
    let negotiation = decode(negotiation).unwrap();
    [negotiation.nodes.len(), negotiation.edges.len(), negotiation.shown.len()]
}

/// Ends the program if the reply is refused or differs from the reference's. Gives the buffers after it and its length.
pub fn must_agree(giving: &Giving) -> (Lent, usize) {
    let [mut by_engine, mut expected] = [(); 2].map(|()| Lent::new(giving.negotiation.clone()));
    let answer = by_engine.give(&mut Engine, &giving.tables);
    let reference = expected.give(&mut Reference::default(), &giving.tables);
    let same = by_engine == expected;
    if answer % 256 != 0 || answer != reference || !same {
        println!("{}: engine {answer}, reference {reference}, same bytes: {same}", giving.name);
        exit(1);
    }
    (by_engine, (answer / 256) as usize)
}

impl Row {
    fn of_reply(giving: &Giving) -> Row {
        let (lent, bytes) = must_agree(giving);
        Row {
            set: giving.name.clone(),
            sizes: sizes(&lent.negotiation),
            bytes,
            engine: steady(|| reply_time(&mut Engine, giving)),
            reference: median(3, || reply_time(&mut Reference::default(), giving)),
        }
    }

    fn of_whole(two: &Two, messages: usize) -> Row {
        let mut buffers = [Buffers::new(), Buffers::new()];
        let given = negotiate(&mut Engine, two, messages, &mut buffers[0]);
        if given != negotiate(&mut Reference::default(), two, messages, &mut buffers[1]) {
            println!("{}: the messages differ", two.name);
            exit(1);
        }
        Row {
            set: whole_name(two, messages),
            sizes: sizes(&buffers[0].negotiations[0]),
            bytes: given.iter().map(Vec::len).sum(),
            engine: steady(|| whole_time(&mut Engine, two, messages, &mut buffers[0])),
            reference: median(5, || whole_time(&mut Reference::default(), two, messages, &mut buffers[1])),
        }
    }

    fn print(&self) {
        let Row { set, sizes: [nodes, edges, shown], bytes, engine, reference } = self;
        let sizes = format!("{nodes}, {edges}, {shown}");
        println!("{set:<68} {sizes:>12} {bytes:>5} {engine:>9.2} {reference:>10.1} {:>7.1}", reference / engine);
    }
}

fn slowest(rows: &[Row]) -> &Row {
    rows.iter().max_by(|a, b| a.engine.total_cmp(&b.engine)).unwrap()
}

fn case() -> Two {
    let role = |entity, name| Role { entity, name };
    let names = [(1, IssuerDef), (2, SubjectAll), (3, SubjectAll)].map(|(name, class)| Record::Name(name, class));
    let credential = |head, body| Credential { head, body };
    let tables = |own: u16, others: &[Record]| {
        let records = [&[Record::Own(own)][..], &names, others].concat();
        records.iter().flat_map(encode_record).collect::<Vec<u8>>()
    };
    let studio = [
        Record::IssuerStored(credential(role(3, 1), Expression::Role(role(4, 3)))),
        Record::SubjectStored(credential(role(1, 2), Expression::Entity(3))),
    ];
    let house = [
        Record::SubjectStored(credential(role(4, 3), Expression::Entity(2))),
        Record::Sensitive(Guard { role: role(4, 3), by: role(1, 2) }),
    ];
    Two { name: "case (i)", tables: [tables(3, &studio), tables(2, &house)], wanted: role(3, 1) }
}

fn large() -> Two {
    Two { name: "large success", tables: large_success(), wanted: WANTED }
}

/// Long ones, and what a search found.
fn known() -> Vec<Giving> {
    let mut known = long_replies();
    known.push(earlier_reply());
    known.push(worst_reply());
    known
}

/// Whole, then each reply. Gives the time of the whole.
fn rows_of(two: &Two, replies: &mut Vec<Row>) -> f64 {
    let messages = message_count(two);
    let whole = Row::of_whole(two, messages);
    whole.print();
    for giving in replies_of(two, messages) {
        replies.push(Row::of_reply(&giving));
        replies[replies.len() - 1].print();
    }
    whole.engine
}

pub fn table() {
    println!(
        "{:<68} {:>12} {:>5} {:>9} {:>10} {:>7}",
        "reply, microseconds; nodes, edges, credentials", "after", "bytes", "engine", "reference", "ratio"
    );
    let mut replies = Vec::new();
    let wholes = [(case(), MOST_CASE), (large(), MOST_LARGE)];
    let mut warnings = Vec::new();
    for (two, most) in wholes {
        let time = rows_of(&two, &mut replies);
        if time >= most {
            warnings.push(format!("{time:.2} is not under {most} ({})", two.name));
        }
    }
    println!("largest reply of these: {:.2} ({})", slowest(&replies).engine, slowest(&replies).set);
    for giving in known() {
        replies.push(Row::of_reply(&giving));
        replies[replies.len() - 1].print();
    }
    let worst = slowest(&replies);
    println!("worst reply: {:.2} ({})", worst.engine, worst.set);
    warnings.extend(
        replies
            .iter()
            .filter(|row| row.engine >= MOST_REPLY)
            .map(|row| format!("{:.2} is not under {MOST_REPLY} ({})", row.engine, row.set)),
    );
    warnings.iter().for_each(|warning| println!("warning: {warning}"));
}

/// Makes the same calls again and again, for a profile: case (i) whole, the large success whole, or the replies whose name
/// has these words.
pub fn repeat(words: &str, times: u32) {
    for two in [case(), large()].iter().filter(|two| two.name == words) {
        let (messages, mut buffers) = (message_count(two), Buffers::new());
        (0..times).for_each(|_| drop(negotiate(&mut Engine, two, messages, &mut buffers)));
    }
    for giving in known().iter().filter(|giving| giving.name.contains(words)) {
        (0..times).for_each(|_| assert!(reply_time(&mut Engine, giving) > 0.0));
    }
}

/// Whole, then each reply.
fn counted_of(two: &Two) -> Vec<Counted> {
    let (messages, mut recorder) = (message_count(two), Recorder::default());
    negotiate(&mut recorder, two, messages, &mut Buffers::new());
    let mut rows = vec![Counted { name: whole_name(two, messages), calls: recorder.calls }];
    rows.extend(replies_of(two, messages).iter().map(counted_reply));
    rows
}

pub fn call(tables: &[u8], negotiation: &[u8]) -> Call {
    let Lent { negotiation, reply, scratch } = Lent::new(negotiation.to_vec());
    Call::reply(tables, &negotiation, &reply, &scratch)
}

fn counted_reply(giving: &Giving) -> Counted {
    Counted::of(format!("reply: {}", giving.name), call(&giving.tables, &giving.negotiation))
}

/// The same calls, to count.
pub fn counted() -> Vec<Group> {
    let mut rows = [counted_of(&case()), counted_of(&large())].concat();
    rows.extend(known().iter().map(counted_reply));
    vec![Group { rows, pick: Pick::All }]
}
