//! Times takes beside the reference's, in microseconds. All messages are accepted, so that nothing is skipped.
//!
//! A take changes what it is lent, so each call has its own copy, which is made before the clock starts.

use crate::calls::Call;
use crate::count::{Counted, Group, Pick};
use crate::found::{earlier_take, worst_take};
use reference::message::large::{all_again, long_messages, onto_full};
use reference::message::shapes::{marked_takes, size_runs};
use reference::message::take::{self, Lent, SCRATCH_BYTES};
use reference::message::writer::Run;
use reference::negotiation::{decode, MOST_EDGES, MOST_NODES, MOST_SHOWN};
use std::process::exit;
use std::time::Instant;

/// How many of the slowest are shown, of those that are many.
const SHOWN: usize = 8;

pub fn engine(lent: &mut Lent) -> u64 {
    engine::take(&lent.tables, &mut lent.negotiation, &lent.message, &mut lent.scratch)
}

fn by_reference(lent: &mut Lent) -> u64 {
    take::take(&lent.tables, &mut lent.negotiation, &lent.message, &mut lent.scratch)
}

/// Microseconds a call: the median of so many.
fn median(lent: &Lent, call: fn(&mut Lent) -> u64, count: usize) -> f64 {
    let mut times: Vec<f64> = Vec::new();
    let mut used = lent.clone();
    for _ in 0..count {
        used.negotiation.copy_from_slice(&lent.negotiation);
        used.scratch.copy_from_slice(&lent.scratch);
        let start = Instant::now();
        let answer = call(&mut used);
        times.push(start.elapsed().as_secs_f64() * 1e6);
        assert_eq!(answer, 0);
    }
    times.sort_by(f64::total_cmp);
    times[count / 2]
}

/// The take of a message that is accepted.
pub fn run(name: String, tables: Vec<u8>, negotiation: Vec<u8>, message: Vec<u8>) -> Run {
    let lent = Lent { tables, negotiation, message, scratch: vec![0; SCRATCH_BYTES] };
    Run { name, lent, answer: 0 }
}

/// Ends the program if the message is refused or the bytes differ from the reference's.
pub fn must_agree(run: &Run) {
    let [mut by_engine, mut expected] = [run.lent.clone(), run.lent.clone()];
    let answers = (engine(&mut by_engine), by_reference(&mut expected));
    if answers != (0, 0) || by_engine != expected {
        let (got, reference) = answers;
        println!("{}: engine {got}, reference {reference}, same bytes: {}", run.name, by_engine == expected);
        exit(1);
    }
}

#[derive(Clone)]
struct Row {
    set: String,
    /// Nodes, edges and credentials before the message and after it.
    before: [usize; 3],
    after: [usize; 3],
    bytes: usize,
    engine: f64,
    reference: f64,
}

fn sizes(negotiation: &[u8]) -> [usize; 3] {
    let negotiation = decode(negotiation).unwrap();
    [negotiation.nodes.len(), negotiation.edges.len(), negotiation.shown.len()]
}

impl Row {
    fn measure(run: &Run) -> Row {
        must_agree(run);
        let mut after = run.lent.clone();
        engine(&mut after);
        // Some 20 milliseconds.
        let count = (20_000.0 / median(&run.lent, engine, 3)).clamp(15.0, 1001.0);
        Row {
            set: run.name.clone(),
            before: sizes(&run.lent.negotiation),
            after: sizes(&after.negotiation),
            bytes: run.lent.message.len(),
            engine: median(&run.lent, engine, count as usize),
            reference: median(&run.lent, by_reference, 3),
        }
    }

    fn print(&self) {
        let Row { set, before, after, bytes, engine, reference } = self;
        let sizes = |[nodes, edges, shown]: [usize; 3]| format!("{nodes}, {edges}, {shown}");
        println!(
            "{set:<62} {:>12} {:>12} {bytes:>5} {engine:>9.2} {reference:>10.1} {:>7.1}",
            sizes(*before),
            sizes(*after),
            reference / engine
        );
    }
}

/// The slowest of these, and how many there were.
fn slowest(what: &str, runs: &[Run]) -> Vec<Row> {
    for run in runs {
        must_agree(run);
    }
    let mut timed: Vec<(f64, &Run)> = runs.iter().map(|run| (median(&run.lent, engine, 5), run)).collect();
    timed.sort_by(|a, b| b.0.total_cmp(&a.0));
    println!("{what}: the {SHOWN} slowest of {}", runs.len());
    timed.iter().take(SHOWN).map(|(_, run)| Row::measure(run)).collect()
}

fn heading() {
    println!(
        "{:<62} {:>12} {:>12} {:>5} {:>9} {:>10} {:>7}",
        "take, microseconds; nodes, edges, credentials", "before", "after", "bytes", "engine", "reference", "ratio"
    );
}

fn is_full(run: &Run) -> bool {
    sizes(&run.lent.negotiation) == [MOST_NODES, MOST_EDGES, MOST_SHOWN]
}

/// Case (i), messages at the sizes, long ones, and what a search found.
fn named() -> Vec<Run> {
    let sized = size_runs().into_iter().filter(|run| run.answer == 0).collect();
    [marked_takes(true).0, sized, long_messages(), vec![earlier_take(), worst_take()]].concat()
}

pub fn table() {
    heading();
    let mut rows: Vec<Row> = Vec::new();
    let mut add = |row: Row| {
        row.print();
        rows.push(row);
    };
    named().iter().map(Row::measure).for_each(&mut add);
    let (full, large): (Vec<Run>, Vec<Run>) = onto_full().into_iter().partition(is_full);
    slowest("short messages, 128 nodes, 256 edges and 64 credentials", &full).into_iter().for_each(&mut add);
    slowest("short messages, other large negotiations", &large).into_iter().for_each(&mut add);
    slowest("large negotiations by one message", &all_again()).into_iter().for_each(&mut add);
    let worst = rows.iter().max_by(|a, b| a.engine.total_cmp(&b.engine)).unwrap();
    println!("worst take: {:.2} ({})", worst.engine, worst.set);
}

/// Takes the messages whose name has these words again and again, for a profile.
pub fn repeat(words: &str, times: usize) {
    for run in named().iter().filter(|run| run.name.contains(words)) {
        median(&run.lent, engine, times);
    }
}

/// The same takes, to count.
pub fn counted() -> Vec<Group> {
    let row = |run: &Run| Counted::of(format!("take: {}", run.name), Call::take(&run.lent));
    let rows = |runs: Vec<Run>| runs.iter().map(row).collect();
    let (full, large): (Vec<Run>, Vec<Run>) = onto_full().into_iter().partition(is_full);
    let mut groups = vec![Group { rows: rows(named()), pick: Pick::All }];
    groups.extend([full, large, all_again()].map(|runs| Group { rows: rows(runs), pick: Pick::Most(SHOWN) }));
    groups
}
