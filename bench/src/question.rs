//! Times questions over 64 credentials beside the reference's, in microseconds.
//!
//! engine: the whole call. making: the part of it that reads the bytes and makes the relation. one more: asking one
//! more question over a relation that is made already. reference: the separate code.

use crate::calls::Call;
use crate::count::{Counted, Group, Pick};
use crate::time;
use reference::random::Random;
use reference::rules::question::{self, Lent, Question};
use reference::rules::sample::World;
use reference::rules::shapes;
use std::process::exit;

/// How many random sets of a kind.
const RANDOM: usize = 15;

/// What a question may cost, in microseconds.
const MOST: f64 = 20.0;
const MOST_CHAIN: f64 = 6.0;

#[link(name = "measure", kind = "static")]
extern "C" {
    /// Makes the relation once and asks the question so many times; 256 times the number of yes, or the refusal.
    fn measure_questions(
        credentials: *const u8,
        credentials_len: usize,
        f: *const u8,
        f_len: usize,
        e: *const u8,
        e_len: usize,
        times: u32,
    ) -> u64;
}

pub fn ask(lent: &Lent) -> u64 {
    engine::question(&lent.credentials, &lent.f, &lent.e)
}

fn ask_times(lent: &Lent, times: u32) -> u64 {
    let Lent { credentials, f, e } = lent;
    // Each pointer goes with the length of what it points to.
    unsafe {
        let (f_at, f_len, e_at, e_len) = (f.as_ptr(), f.len(), e.as_ptr(), e.len());
        measure_questions(credentials.as_ptr(), credentials.len(), f_at, f_len, e_at, e_len, times)
    }
}

pub fn ask_reference(lent: &Lent) -> u64 {
    question::answer(&lent.credentials, &lent.f, &lent.e)
}

/// Microseconds for asking once more over a relation that is made already.
pub fn one_more(lent: &Lent) -> f64 {
    (time(|| ask_times(lent, 101)) - time(|| ask_times(lent, 1))) / 100.0
}

struct Row {
    set: String,
    e: &'static str,
    answer: &'static str,
    engine: f64,
    one_more: f64,
    reference: f64,
}

impl Row {
    fn measure(set: String, e: &'static str, question: &Question) -> Row {
        let lent = question::encode(question);
        let answer = ask(&lent);
        if answer != ask_reference(&lent) || ask_times(&lent, 1) != answer || ask_times(&lent, 3) != 3 * answer {
            println!("{set}, e {e}: the answers differ");
            exit(1);
        }
        Row {
            set,
            e,
            answer: if answer == 256 { "yes" } else { "no" },
            engine: time(|| ask(&lent)),
            one_more: one_more(&lent),
            reference: time(|| ask_reference(&lent)),
        }
    }

    fn print(&self) {
        println!(
            "{:<50} {:<7} {:<6} {:>8.2} {:>8.2} {:>9.3} {:>10.1} {:>7.1}",
            self.set,
            self.e,
            self.answer,
            self.engine,
            self.engine - self.one_more,
            self.one_more,
            self.reference,
            self.reference / self.engine
        );
    }
}

/// Of the rows, the one with the middle engine time and the one with the greatest.
fn median_and_worst(mut rows: Vec<Row>) -> [Row; 2] {
    rows.sort_by(|a, b| a.engine.total_cmp(&b.engine));
    let count = rows.len();
    let mut worst = rows.pop().unwrap();
    let mut median = rows.swap_remove(count / 2);
    median.set = format!("{}, median of {count}", median.set);
    worst.set = format!("{}, worst of {count}", worst.set);
    [median, worst]
}

fn worst(rows: &[Row]) -> &Row {
    rows.iter().max_by(|a, b| a.engine.total_cmp(&b.engine)).unwrap()
}

/// Questions of one kind, over sets of 64 credentials.
struct Sets {
    name: String,
    e: &'static str,
    questions: Vec<Question>,
}

fn random_sets() -> Vec<Sets> {
    let mut random = Random::new(1);
    let mut sets = Vec::new();
    for (entities, names) in [(3, 3), (6, 6), (12, 4), (16, 16), (60, 60)] {
        for (e, role_asked) in [("entity", false), ("role", true)] {
            let name = format!("random: {entities} entities, {names} names");
            let world = World::new(entities, names);
            let questions = (0..RANDOM).map(|_| random.full_question(world, role_asked)).collect();
            sets.push(Sets { name, e, questions });
        }
    }
    sets
}

/// The known shapes, each in each order.
fn shaped_sets() -> Vec<Sets> {
    let mut sets = Vec::new();
    for shape in &shapes::SHAPES {
        for order in shapes::ORDERS {
            for (e, end) in shapes::ends() {
                let name = format!("{}, {order}", shape.name);
                sets.push(Sets { name, e, questions: vec![shapes::question(shape, order, &end)] });
            }
        }
    }
    sets
}

pub fn table() {
    println!(
        "{:<50} {:<7} {:<6} {:>8} {:>8} {:>9} {:>10} {:>7}",
        "64 credentials, microseconds", "e", "answer", "engine", "making", "one more", "reference", "ratio"
    );
    let mut others = Vec::new();
    for Sets { name, e, questions } in random_sets() {
        let rows = questions.iter().map(|question| Row::measure(name.clone(), e, question));
        for row in median_and_worst(rows.collect()) {
            row.print();
            others.push(row);
        }
    }
    let mut chains = Vec::new();
    for Sets { name, e, questions } in shaped_sets() {
        let is_chain = name.starts_with("chain,");
        let row = Row::measure(name, e, &questions[0]);
        row.print();
        if is_chain { &mut chains } else { &mut others }.push(row);
    }

    for (what, rows, most) in [("chain", &chains, MOST_CHAIN), ("other set", &others, MOST)] {
        let row = worst(rows);
        println!("worst {what}: {:.2} ({}, e {})", row.engine, row.set, row.e);
        for row in rows.iter().filter(|row| row.engine >= most) {
            println!("warning: {:.2} is not under {most} ({}, e {})", row.engine, row.set, row.e);
        }
    }
}

/// The same questions, to count.
pub fn counted() -> Vec<Group> {
    let group = |Sets { name, e, questions }: Sets| {
        let row =
            |question: &Question| Counted::of(format!("{name}, e {e}"), Call::question(&question::encode(question)));
        let pick = if questions.len() > 1 { Pick::MedianAndWorst } else { Pick::All };
        Group { rows: questions.iter().map(row).collect(), pick }
    };
    [random_sets(), shaped_sets()].into_iter().flatten().map(group).collect()
}
