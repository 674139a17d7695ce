//! Times the check of tables at their sizes beside the reference's, in microseconds.

use crate::calls::Call;
use crate::count::{Counted, Group, Pick};
use crate::time;
use reference::random::Random;
use reference::tables;
use reference::tables::sample::FULL;
use reference::tables::shapes::TABLE_SHAPES;
use std::process::exit;

/// What a check may cost, in microseconds.
const MOST: f64 = 50.0;
const RANDOM: usize = 15;

struct Row {
    set: String,
    bytes: usize,
    engine: f64,
    reference: f64,
}

impl Row {
    fn measure(set: String, bytes: &[u8]) -> Row {
        let (engine, reference) = (engine::check(bytes), tables::check(bytes));
        if (engine, reference) != (0, 0) {
            println!("{set}: engine {engine}, reference {reference}, where 0 is right");
            exit(1);
        }
        let (engine, reference) = (time(|| engine::check(bytes)), time(|| tables::check(bytes)));
        Row { set, bytes: bytes.len(), engine, reference }
    }

    fn print(&self) {
        let Row { set, bytes, engine, reference } = self;
        println!("{set:<50} {bytes:>7} {engine:>8.2} {reference:>10.1} {:>7.1}", reference / engine);
    }
}

/// The rows by rising engine time.
fn sorted(mut rows: Vec<Row>) -> Vec<Row> {
    rows.sort_by(|a, b| a.engine.total_cmp(&b.engine));
    rows
}

fn random_tables() -> Vec<Vec<u8>> {
    let mut random = Random::new(1);
    (0..RANDOM).map(|_| random.sample(FULL).records.concat()).collect()
}

fn random_rows() -> Vec<Row> {
    let mut rows = sorted(random_tables().iter().map(|tables| Row::measure("random".into(), tables)).collect());
    let mut worst = rows.pop().unwrap();
    let mut median = rows.swap_remove(RANDOM / 2);
    median.set = format!("random, median of {RANDOM}");
    worst.set = format!("random, worst of {RANDOM}");
    vec![median, worst]
}

pub fn table() {
    println!(
        "{:<50} {:>7} {:>8} {:>10} {:>7}",
        "tables at their sizes, microseconds", "bytes", "engine", "reference", "ratio"
    );
    let mut rows = random_rows();
    rows.extend(TABLE_SHAPES.iter().map(|shape| Row::measure(shape.name.into(), &(shape.bytes)())));
    rows.iter().for_each(Row::print);

    let rows = sorted(rows);
    let worst = rows.last().unwrap();
    println!("worst check: {:.2} ({})", worst.engine, worst.set);
    for row in rows.iter().filter(|row| row.engine >= MOST) {
        println!("warning: {:.2} is not under {MOST} ({})", row.engine, row.set);
    }
}

/// The same checks, to count.
pub fn counted() -> Vec<Group> {
    let row = |name: &str, tables: &[u8]| Counted::of(format!("check of tables: {name}"), Call::check(tables));
    let random = random_tables().iter().map(|tables| row("random", tables)).collect();
    let shaped = TABLE_SHAPES.iter().map(|shape| row(shape.name, &(shape.bytes)())).collect();
    vec![Group { rows: random, pick: Pick::MedianAndWorst }, Group { rows: shaped, pick: Pick::All }]
}
