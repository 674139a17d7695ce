//! Compares the engine's answers with the reference's, and looks whether a lent buffer was changed.
//!
//! fuzz [SEED [COUNT..]], the counts in this order: how many random and damaged questions to ask, random tables to
//! check, sound and damaged negotiations to report on, messages to take, whole negotiations to play between honest ends
//! and against ends that do as they like, and lists of calls to compare on two tables each. What has a count of 0 is
//! left out. The large questions of `rules::shapes` are asked besides, each whole and without each one of its
//! credentials, some tables are checked with each fault at each place, and the messages of the marked cases and those
//! at the sizes are taken. Where `before` has a library of before, every request is lent to it too.

mod before;
mod negotiations;
mod replies;
mod takes;

use before::Request;
use engine::{lavutremo_check, lavutremo_question};
use negotiations::ask_negotiations;
use reference::random::Random;
use reference::rules::question::{self, Lent};
use reference::rules::shapes;
use reference::tables;
use reference::tables::bytes::each_fault_of_each_size;
use reference::tables::counts::TableCounts;
use replies::{ask_adversarial, ask_honest, ask_two_runs};
use std::process::exit;
use takes::ask_takes;

/// How many random bytes stand after a buffer.
const AFTER: usize = 32;

/// A buffer to lend, with random bytes before and after it.
struct Guarded {
    bytes: Vec<u8>,
    start: usize,
}

impl Guarded {
    fn new(random: &mut Random, content: &[u8]) -> Guarded {
        // The start varies so that the buffer is aligned in every way.
        let start = random.between(32, 47);
        let bytes = [&random.bytes(start), content, &random.bytes(AFTER)].concat();
        Guarded { bytes, start }
    }

    /// For the calls as C has them: of a slice that is only read the compiler may assume that it stays the same, and
    /// that is what is checked here.
    fn pointer(&mut self) -> *mut u8 {
        self.bytes[self.start..].as_mut_ptr()
    }

    fn content(&self) -> &[u8] {
        &self.bytes[self.start..self.bytes.len() - AFTER]
    }

    /// All bytes as they must be if the content became this.
    fn with(&self, content: &[u8]) -> Vec<u8> {
        let end = self.start + content.len();
        [&self.bytes[..self.start], content, &self.bytes[end..]].concat()
    }
}

/// The engine's answer, and whether all bytes are still the same.
fn ask_engine(random: &mut Random, lent: &Lent) -> (u64, bool) {
    let contents: [&[u8]; 3] = [&lent.credentials, &lent.f, &lent.e];
    let mut buffers = contents.map(|content| Guarded::new(random, content));
    let copies = buffers.each_ref().map(|buffer| buffer.bytes.clone());
    let [credentials, f, e] = buffers.each_mut().map(Guarded::pointer);
    // Each pointer goes with the length of what it points to, and the engine keeps none.
    let answer = unsafe { lavutremo_question(credentials, lent.credentials.len(), f, lent.f.len(), e, lent.e.len()) };
    before::compare(Request::Question, &contents, answer, &buffers);
    let kept = buffers.iter().map(|buffer| &buffer.bytes).eq(&copies);
    (answer, kept)
}

#[derive(Default)]
struct Counts {
    passed: u64,
    failed: u64,
    no: u64,
    yes: u64,
    refused: [u64; 4],
}

impl Counts {
    fn ask(&mut self, random: &mut Random, lent: &Lent) {
        let expected = question::answer(&lent.credentials, &lent.f, &lent.e);
        match expected {
            0 => self.no += 1,
            256 => self.yes += 1,
            number => self.refused[number as usize] += 1,
        }
        let (answer, kept) = ask_engine(random, lent);
        if answer == expected && kept {
            self.passed += 1;
            return;
        }
        self.failed += 1;
        if self.failed == 1 {
            println!("first difference: engine {answer}, reference {expected}");
            if !kept {
                println!("  bytes in or beside a lent buffer were changed");
            }
            println!("  credentials {}", hex(&lent.credentials));
            println!("  f           {}", hex(&lent.f));
            println!("  e           {}", hex(&lent.e));
        }
    }
}

/// Returns how many questions were asked.
fn ask_shapes(random: &mut Random, counts: &mut Counts) -> u64 {
    let before = counts.passed + counts.failed;
    for shape in &shapes::SHAPES {
        for order in shapes::ORDERS {
            for (_, e) in shapes::ends() {
                let whole = shapes::question(shape, order, &e);
                counts.ask(random, &question::encode(&whole));
                for i in 0..whole.credentials.len() {
                    let mut less = whole.clone();
                    less.credentials.remove(i);
                    counts.ask(random, &question::encode(&less));
                }
            }
        }
    }
    counts.passed + counts.failed - before
}

/// The same for tables.
fn check_engine(random: &mut Random, bytes: &[u8]) -> (u64, bool) {
    let mut buffer = Guarded::new(random, bytes);
    let copy = buffer.bytes.clone();
    // As above.
    let answer = unsafe { lavutremo_check(buffer.pointer(), bytes.len()) };
    before::compare(Request::Check, &[bytes], answer, std::slice::from_ref(&buffer));
    (answer, buffer.bytes == copy)
}

/// Checks and what they answered.
#[derive(Default)]
struct Checks {
    passed: u64,
    failed: u64,
    counts: TableCounts,
}

impl Checks {
    fn ask(&mut self, random: &mut Random, bytes: &[u8]) {
        let decoded = tables::decode(bytes);
        self.counts.checked(&decoded);
        let expected = decoded.err().map_or(0, |refusal| refusal as u64);
        let (answer, kept) = check_engine(random, bytes);
        if answer == expected && kept {
            self.passed += 1;
            return;
        }
        self.failed += 1;
        if self.failed == 1 {
            println!("first difference in tables: engine {answer}, reference {expected}");
            if !kept {
                println!("  bytes in or beside the lent buffer were changed");
            }
            println!("  tables {}", hex(bytes));
        }
    }
}

/// Returns how many tables passed and failed.
fn ask_tables(seed: u64, count: u64) -> (u64, u64) {
    let (mut random, mut guards) = (Random::new(seed), Random::new(!seed));
    let mut all = Checks::default();
    for _ in 0..count {
        let bytes = random.tables();
        all.ask(&mut guards, &bytes);
    }
    each_fault_of_each_size(&mut random, |bytes| all.ask(&mut guards, bytes));

    println!("{count} random tables, {} with each fault at each place", all.passed + all.failed - count);
    all.counts.print();
    let missing = all.counts.missing();
    if !missing.is_empty() {
        println!("never occurred: {}", missing.join(", "));
        all.failed += 1;
    }
    (all.passed, all.failed)
}

fn hex(bytes: &[u8]) -> String {
    bytes.iter().map(|byte| format!("{byte:02x}")).collect()
}

fn argument(at: usize, default: u64) -> u64 {
    match std::env::args().nth(at) {
        None => default,
        Some(word) => word.parse().unwrap_or_else(|_| {
            eprintln!("usage: fuzz [SEED [RANDOM [DAMAGED [TABLES [NEGOTIATIONS [TAKES [HONEST [ADVERSARIAL [TWO_RUNS]]]]]]]]]");
            exit(2)
        }),
    }
}

/// Returns how many questions passed and failed.
fn ask_questions(seed: u64, random_count: u64, damaged_count: u64) -> (u64, u64) {
    let mut random = Random::new(seed);
    let mut counts = Counts::default();
    for _ in 0..random_count {
        let lent = question::encode(&random.question());
        counts.ask(&mut random, &lent);
    }
    let yes_share = 100.0 * counts.yes as f64 / random_count.max(1) as f64;
    println!("seed {seed}: {random_count} random questions, {yes_share:.1}% yes; {damaged_count} damaged ones");

    for _ in 0..damaged_count {
        let lent = random.damaged();
        counts.ask(&mut random, &lent);
    }
    let shaped_count = ask_shapes(&mut random, &mut counts);
    println!("{shaped_count} large questions");

    let Counts { passed, mut failed, no, yes, refused: [_, length, command, operand] } = counts;
    println!("answers: no {no}, yes {yes}, refused 1 {length}, refused 2 {command}, refused 3 {operand}");
    if [no, yes, length, command, operand].contains(&0) {
        println!("an answer never occurred: ask more questions");
        failed += 1;
    }
    if random_count >= 1000 && !(25.0..=75.0).contains(&yes_share) {
        println!("the share of yes is not between 25% and 75%");
        failed += 1;
    }
    (passed, failed)
}

/// Asks so many of one sort. Returns how many passed and failed.
type Ask = fn(seed: u64, count: u64) -> (u64, u64);

/// What follows the questions, each with the count that it has where none is given.
const SORTS: [(u64, Ask); 6] = [
    (100_000, ask_tables),
    (100_000, ask_negotiations),
    (100_000, ask_takes),
    (2_000, ask_honest),
    (1_000, ask_adversarial),
    (1_000, ask_two_runs),
];

fn main() {
    let (seed, random_count, damaged_count) = (argument(1, 1), argument(2, 200_000), argument(3, 200_000));
    let mut results = Vec::new();
    if random_count + damaged_count > 0 {
        results.push(ask_questions(seed, random_count, damaged_count));
    }
    for (at, (default, ask)) in (4..).zip(SORTS) {
        match argument(at, default) {
            0 => {}
            count => results.push(ask(seed, count)),
        }
    }
    results.extend(before::compared());
    let passed: u64 = results.iter().map(|(passed, _)| passed).sum();
    let failed: u64 = results.iter().map(|(_, failed)| failed).sum();
    println!("{passed} passed, {failed} failed");
    exit((failed > 0) as i32);
}
