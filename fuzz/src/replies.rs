//! Whole negotiations by the engine beside the reference: honest ones, ones against ends that do as they like, and the
//! check of two runs by the engine alone.

use crate::before::{self, Request};
use crate::{hex, Guarded};
use engine::{lavutremo_begin, lavutremo_reply, lavutremo_report, lavutremo_take};
use reference::ends::adversary::against_adversaries;
use reference::ends::calls::{Calls, Reference};
use reference::ends::two_ends::TwoEnds;
use reference::message::MOST_MESSAGE_BYTES;
use reference::random::Random;
use reference::reply::leak::{Leak, LEAKS};
use reference::rules::expression::Role;
use reference::runs::compare::{compare, Outcome};
use reference::runs::counts::RunCounts;
use reference::runs::sample::TwoRuns;

/// The engine. Each buffer is lent with random bytes beside it.
struct Engine {
    guards: Random,
    /// How often bytes were changed beside a buffer, or in one that is only read.
    strays: u64,
}

/// A buffer lent for a call: what it holds, and whether the call may write it.
enum Buffer<'a> {
    Read(&'a [u8]),
    Written(&'a mut [u8]),
}

use Buffer::*;

impl Buffer<'_> {
    fn content(&self) -> &[u8] {
        match self {
            Read(content) => content,
            Written(content) => content,
        }
    }
}

impl Engine {
    fn new(seed: u64) -> Engine {
        Engine { guards: Random::new(!seed), strays: 0 }
    }

    /// Lends the buffers to a call, which is given where they are, and brings back what was written.
    fn lend<const N: usize>(
        &mut self,
        request: Request,
        mut buffers: [Buffer; N],
        call: impl FnOnce([(*mut u8, usize); N]) -> u64,
    ) -> u64 {
        let mut guarded = buffers.each_ref().map(|buffer| Guarded::new(&mut self.guards, buffer.content()));
        let before = guarded.each_ref().map(|buffer| buffer.bytes.clone());
        let mut lengths = buffers.each_ref().map(|buffer| buffer.content().len()).into_iter();
        let answer = call(guarded.each_mut().map(|buffer| (buffer.pointer(), lengths.next().unwrap_or(0))));
        before::compare(request, &buffers.each_ref().map(Buffer::content), answer, &guarded);
        for ((buffer, guarded), before) in buffers.iter_mut().zip(&guarded).zip(before) {
            let start = guarded.start;
            let expected = match buffer {
                Read(_) => before,
                Written(content) => {
                    let after = &guarded.bytes[start..start + content.len()];
                    let expected = [&before[..start], after, &before[start + content.len()..]].concat();
                    content.copy_from_slice(after);
                    expected
                }
            };
            self.strays += (guarded.bytes != expected) as u64;
        }
        answer
    }
}

// In each call a pointer goes with the length of what it points to, and the engine keeps none.
impl Calls for Engine {
    fn begin(&mut self, tables: &[u8], negotiation: &mut [u8], other: u16, wanted: Role) -> u64 {
        let Role { entity, name } = wanted;
        let request = Request::Begin { other, wanted };
        self.lend(request, [Read(tables), Written(negotiation)], |[tables, negotiation]| unsafe {
            lavutremo_begin(tables.0, tables.1, negotiation.0, negotiation.1, other, entity, name)
        })
    }

    fn take(&mut self, tables: &[u8], negotiation: &mut [u8], message: &[u8], scratch: &mut [u8]) -> u64 {
        let buffers = [Read(tables), Written(negotiation), Read(message), Written(scratch)];
        self.lend(Request::Take, buffers, |[a, b, c, d]| unsafe {
            lavutremo_take(a.0, a.1, b.0, b.1, c.0, c.1, d.0, d.1)
        })
    }

    fn reply(&mut self, tables: &[u8], negotiation: &mut [u8], reply: &mut [u8], scratch: &mut [u8]) -> u64 {
        let buffers = [Read(tables), Written(negotiation), Written(reply), Written(scratch)];
        self.lend(Request::Reply, buffers, |[a, b, c, d]| unsafe {
            lavutremo_reply(a.0, a.1, b.0, b.1, c.0, c.1, d.0, d.1)
        })
    }

    fn report(&mut self, tables: &[u8], negotiation: &[u8], node: u8) -> u64 {
        self.lend(Request::Report { node }, [Read(tables), Read(negotiation)], |[tables, negotiation]| unsafe {
            lavutremo_report(tables.0, tables.1, negotiation.0, negotiation.1, node)
        })
    }
}

/// The engine beside the reference. What plays them sees the reference's answers and bytes.
struct Both {
    engine: Engine,
    reference: Reference,
    passed: u64,
    failed: u64,
}

/// A call's name, the buffers it reads and those it writes, before it.
struct Case<'a> {
    name: &'static str,
    read: &'a [&'a [u8]],
    written: Vec<Vec<u8>>,
}

impl Both {
    fn new(seed: u64) -> Both {
        Both { engine: Engine::new(seed), reference: Reference::default(), passed: 0, failed: 0 }
    }

    /// Compares the answers, and the written buffers after the call.
    fn note(&mut self, case: Case, answers: [u64; 2], engine: &[&[u8]], reference: &[&[u8]]) {
        let strays = std::mem::take(&mut self.engine.strays);
        if answers[0] == answers[1] && engine == reference && strays == 0 {
            self.passed += 1;
            return;
        }
        self.failed += 1;
        if self.failed == 1 {
            let Case { name, read, written } = case;
            let same: Vec<bool> = engine.iter().zip(reference).map(|(a, b)| a == b).collect();
            println!("first difference on a {name}: engine {}, reference {}", answers[0], answers[1]);
            println!("  written buffers the same: {same:?}, changed where they must not be: {strays}");
            read.iter().for_each(|bytes| println!("  read    {}", hex(bytes)));
            written.iter().for_each(|bytes| println!("  written {}", hex(bytes)));
            engine.iter().for_each(|bytes| println!("  engine's    {}", hex(bytes)));
            reference.iter().for_each(|bytes| println!("  reference's {}", hex(bytes)));
        }
    }
}

impl Calls for Both {
    fn begin(&mut self, tables: &[u8], negotiation: &mut [u8], other: u16, wanted: Role) -> u64 {
        let mut own = negotiation.to_vec();
        let case = Case { name: "begin", read: &[tables], written: vec![own.clone()] };
        let answer = self.engine.begin(tables, &mut own, other, wanted);
        let expected = self.reference.begin(tables, negotiation, other, wanted);
        self.note(case, [answer, expected], &[&own], &[negotiation]);
        expected
    }

    fn take(&mut self, tables: &[u8], negotiation: &mut [u8], message: &[u8], scratch: &mut [u8]) -> u64 {
        let (mut own, mut own_scratch) = (negotiation.to_vec(), scratch.to_vec());
        let case = Case { name: "take", read: &[tables, message], written: vec![own.clone()] };
        let answer = self.engine.take(tables, &mut own, message, &mut own_scratch);
        let expected = self.reference.take(tables, negotiation, message, scratch);
        self.note(case, [answer, expected], &[&own, &own_scratch], &[negotiation, scratch]);
        expected
    }

    fn reply(&mut self, tables: &[u8], negotiation: &mut [u8], reply: &mut [u8], scratch: &mut [u8]) -> u64 {
        let (mut own, mut own_reply, mut own_scratch) = (negotiation.to_vec(), reply.to_vec(), scratch.to_vec());
        let case = Case { name: "reply", read: &[tables], written: vec![own.clone()] };
        let answer = self.engine.reply(tables, &mut own, &mut own_reply, &mut own_scratch);
        let expected = self.reference.reply(tables, negotiation, reply, scratch);
        let [engine, reference] = [[&own[..], &own_reply, &own_scratch], [negotiation, reply, scratch]];
        self.note(case, [answer, expected], &engine, &reference);
        expected
    }

    fn report(&mut self, tables: &[u8], negotiation: &[u8], node: u8) -> u64 {
        let case = Case { name: "report", read: &[tables, negotiation], written: vec![] };
        let answer = self.engine.report(tables, negotiation, node);
        let expected = self.reference.report(tables, negotiation, node);
        self.note(case, [answer, expected], &[], &[]);
        expected
    }
}

/// From so many negotiations, or lists for two runs, on all that is to occur must have occurred.
const ENOUGH: u64 = 10_000;
const ENOUGH_LISTS: u64 = 1_000;

/// Prints what occurred and gives how many calls passed and failed.
fn counted(both: Both, enough: bool) -> (u64, u64) {
    let Both { reference, passed, mut failed, .. } = both;
    reference.counts.print();
    let missing = reference.counts.missing();
    if enough && !missing.is_empty() {
        println!("never occurred: {}", missing.join(", "));
        failed += 1;
    }
    (passed, failed)
}

/// What occurred among whole honest negotiations.
#[derive(Default)]
struct Played {
    ends: [u64; 5],
    messages: usize,
    /// Negotiations in which a reply had no room for its next move and the next reply of that end went on.
    continued: u64,
}

impl Played {
    fn note(&mut self, two: &TwoEnds) {
        self.ends[two.end() as usize] += 1;
        self.messages += two.messages.len();
        let lengths: Vec<usize> = two.messages.iter().map(Vec::len).collect();
        // A move is an edge with its credentials: with one credential or none, 47 bytes at most.
        let goes_on = |three: &[usize]| three[0] + 47 > MOST_MESSAGE_BYTES && three[2] > 1;
        self.continued += lengths.windows(3).any(goes_on) as u64;
    }

    fn print(&self, count: u64) {
        let Played { ends: [_, success, failed, stalled, full], messages, continued } = self;
        println!("{count} honest negotiations, {messages} messages");
        println!("their ends: success {success}, failed {failed}, stalled {stalled}, full {full}");
        println!(
            "with a reply of nearly {MOST_MESSAGE_BYTES} bytes that the next reply of its end continues: {continued}"
        );
    }

    fn is_complete(&self) -> bool {
        self.continued > 0 && !self.ends[1..].contains(&0)
    }
}

/// To its end, each message with reports at both ends.
fn play_honest(random: &mut Random, both: &mut Both) -> TwoEnds {
    let pair = random.pair();
    let mut two = TwoEnds::begun(both, pair.tables(), pair.wanted);
    while two.messages.is_empty() || two.end() == 0 {
        two.next(both);
        for end in &two.ends {
            let nodes = end.state().nodes.len();
            both.report(&end.tables, &end.negotiation, random.below(nodes + 1) as u8);
        }
    }
    two
}

/// Negotiations of two honest ends: each reply, its take at the other end, and reports at both. Returns how many calls
/// passed and failed.
pub fn ask_honest(seed: u64, count: u64) -> (u64, u64) {
    let (mut random, mut both) = (Random::new(seed), Both::new(seed));
    let mut played = Played::default();
    for _ in 0..count {
        played.note(&play_honest(&mut random, &mut both));
    }
    played.print(count);
    let (passed, failed) = counted(both, count >= ENOUGH);
    let lacks = count >= ENOUGH && !played.is_complete();
    if lacks {
        println!("an end, or a reply that is continued, never occurred");
    }
    (passed, failed + lacks as u64)
}

/// Negotiations against ends that do as they like. Returns how many calls passed and failed.
pub fn ask_adversarial(seed: u64, count: u64) -> (u64, u64) {
    let (mut random, mut both) = (Random::new(seed), Both::new(seed));
    against_adversaries(&mut random, count, &mut both);
    println!("{count} negotiations against ends that do as they like, and as many replies onto random graphs");
    counted(both, count >= ENOUGH)
}

/// How the lists for two runs went.
#[derive(Default)]
struct Compared {
    alike: u64,
    parted: u64,
    leaks: u64,
    /// Lists after a call of which an end's count was not that of its messages.
    miscounted: u64,
    calls: usize,
    counts: RunCounts,
}

impl Compared {
    fn note(&mut self, two: &TwoRuns, outcome: Option<Outcome>) {
        self.calls += two.list.calls.len();
        self.counts.compared(two.tables.each_ref().map(Vec::as_slice), outcome);
        match outcome {
            Some(Outcome::Alike) => self.alike += 1,
            Some(Outcome::Parted(_)) => self.parted += 1,
            Some(Outcome::Miscounted(_)) => self.miscounted += 1,
            _ => self.leaks += 1,
        }
        let is_wrong = !matches!(outcome, Some(Outcome::Alike | Outcome::Parted(_)));
        if is_wrong && self.leaks + self.miscounted == 1 {
            println!("first list that tells too much or too little, or is miscounted: {outcome:?}");
            two.tables.iter().for_each(|tables| println!("  tables {}", hex(tables)));
            println!("  {:?}", two.list);
        }
    }
}

fn compare_by(calls: &mut impl Calls, two: &TwoRuns) -> Option<Outcome> {
    compare(calls, two.tables.each_ref().map(Vec::as_slice), &two.list)
}

/// The number, from 1, of the first of these lists that shows the reference with this leak to tell too much.
fn found_by(seed: u64, count: u64, leak: Leak) -> Option<u64> {
    let (mut random, mut leaking) = (Random::new(seed), Reference { leak, ..Reference::default() });
    (1..=count).find(|_| matches!(compare_by(&mut leaking, &random.two_runs()), Some(Outcome::Leak(_))))
}

/// Lists of calls on two tables each, by the engine; then the same lists by the reference with each planted leak, until
/// one finds it. Returns how many lists and leaks passed and failed.
pub fn ask_two_runs(seed: u64, count: u64) -> (u64, u64) {
    let (mut random, mut engine) = (Random::new(seed), Engine::new(seed));
    let mut compared = Compared::default();
    for _ in 0..count {
        let two = random.two_runs();
        let outcome = compare_by(&mut engine, &two);
        compared.note(&two, outcome);
    }
    let Compared { alike, parted, leaks, miscounted, calls, counts } = compared;
    println!("{count} lists for two runs, {calls} calls: alike to the end {alike}, parted after an Ack target was satisfied {parted}");
    println!("  lists in which an end's count was not that of its messages: {miscounted}");
    counts.print();
    let missing = counts.missing();
    let lacks = count >= ENOUGH_LISTS && !missing.is_empty();
    if lacks {
        println!("never occurred: {}", missing.join(", "));
    }
    let found = LEAKS.map(|leak| (leak, found_by(seed, count, leak)));
    found.iter().for_each(|(leak, list)| println!("  planted leak {leak:?}: found by list {list:?}"));
    let missed = found.iter().filter(|(_, list)| list.is_none()).count() as u64;
    let missed = if count >= ENOUGH_LISTS { missed } else { 0 };
    let failed = leaks + miscounted + missed + (engine.strays > 0) as u64 + lacks as u64;
    (alike + parted + LEAKS.len() as u64 - missed, failed)
}
