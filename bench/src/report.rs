//! Times reports on negotiations beside the reference's, in microseconds. All are sound, so that nothing is skipped.

use crate::calls::Call;
use crate::count::{Counted, Group, Pick};
use crate::found::worst_report;
use crate::{least, time};
use reference::negotiation::large::large;
use reference::negotiation::report;
use reference::negotiation::sample::FULL_EXTENT;
use reference::negotiation::shapes::{marked_case, Builder, Shaped};
use reference::negotiation::*;
use reference::random::Random;
use reference::rules::expression::{Expression, Role};
use reference::tables::shapes::TABLE_SHAPES;
use std::process::exit;

const RANDOM: usize = 15;

/// The engine's report on the primary.
pub fn engine(tables: &[u8], negotiation: &[u8]) -> u64 {
    engine::report(tables, negotiation, 0)
}

/// Ends the program if a report is refused or differs from the reference's.
pub fn must_agree(shaped: &Shaped, bytes: &[u8]) {
    let (engine, reference) = (engine(&shaped.tables, bytes), report::report(&shaped.tables, bytes, 0));
    if engine != reference || engine % 256 != 0 {
        println!("{}: engine {engine}, reference {reference}", shaped.name);
        println!("{:?}", report::judge(&shaped.tables, bytes).err());
        exit(1);
    }
}

struct Row {
    set: String,
    /// Nodes, edges, those of kind 1 and of kind 4, credentials.
    sizes: [usize; 5],
    engine: f64,
    reference: f64,
}

fn sizes(negotiation: &Negotiation) -> [usize; 5] {
    let Negotiation { nodes, edges, shown, .. } = negotiation;
    let of_kind = |kind| edges.iter().filter(|edge| edge.kind == kind).count();
    [nodes.len(), edges.len(), of_kind(IMPLICATION), of_kind(LINKING_IMPLICATION), shown.len()]
}

impl Row {
    fn measure(shaped: &Shaped) -> Row {
        let bytes = encode(&shaped.negotiation);
        must_agree(shaped, &bytes);
        Row {
            set: shaped.name.clone(),
            sizes: sizes(&shaped.negotiation),
            engine: time(|| engine(&shaped.tables, &bytes)),
            reference: least(|| report::report(&shaped.tables, &bytes, 0), 1, 3),
        }
    }

    fn print(&self) {
        let Row { set, sizes: [nodes, edges, implications, linking, shown], engine, reference } = self;
        println!(
            "{set:<54} {nodes:>5} {edges:>5} {implications:>6} {linking:>6} {shown:>5} {engine:>9.2} {reference:>10.1} \
             {:>7.1}",
            reference / engine
        );
    }
}

/// A small negotiation, and one node with tables at their sizes.
fn small() -> Vec<Shaped> {
    let (tables, negotiation) = marked_case(Side::Mediator, true);
    let case = Shaped { name: "case (i), at its end".into(), tables, negotiation };
    let mut full_tables = Builder::new(vec![]).finish("one node, tables at their sizes");
    full_tables.tables = (TABLE_SHAPES[0].bytes)();
    // These tables have the names from 2 on.
    let wanted = Role { entity: 1, name: 2 };
    full_tables.negotiation.wanted = wanted;
    full_tables.negotiation.nodes[0].form = Form::Target(Expression::Role(wanted));
    vec![case, Builder::new(vec![]).finish("one node"), full_tables]
}

pub fn random_full(random: &mut Random, count: usize) -> Vec<Shaped> {
    let shaped = |_| {
        let grown = random.grown_to(FULL_EXTENT);
        Shaped { name: "random, grown".into(), tables: grown.tables.records.concat(), negotiation: grown.negotiation }
    };
    (0..count).map(shaped).collect()
}

/// Large ones, and what a search found.
fn known() -> Vec<Shaped> {
    let mut known = large();
    known.push(worst_report());
    known
}

fn random_rows() -> Vec<Row> {
    let mut rows: Vec<Row> = random_full(&mut Random::new(1), RANDOM).iter().map(Row::measure).collect();
    rows.sort_by(|a, b| a.engine.total_cmp(&b.engine));
    let mut worst = rows.pop().unwrap();
    let mut median = rows.swap_remove(RANDOM / 2);
    median.set = format!("random, median of {RANDOM}");
    worst.set = format!("random, worst of {RANDOM}");
    vec![median, worst]
}

pub fn table() {
    println!(
        "{:<54} {:>5} {:>5} {:>6} {:>6} {:>5} {:>9} {:>10} {:>7}",
        "report, microseconds", "nodes", "edges", "kind 1", "kind 4", "shown", "engine", "reference", "ratio"
    );
    let mut rows = Vec::new();
    let mut add = |row: Row| {
        row.print();
        rows.push(row);
    };
    small().iter().map(Row::measure).for_each(&mut add);
    random_rows().into_iter().for_each(&mut add);
    known().iter().map(Row::measure).for_each(&mut add);
    let worst = rows.iter().max_by(|a, b| a.engine.total_cmp(&b.engine)).unwrap();
    println!("worst report: {:.2} ({})", worst.engine, worst.set);
}

/// The same reports, to count.
pub fn counted() -> Vec<Group> {
    let row = |shaped: &Shaped| {
        let call = Call::report(&shaped.tables, &encode(&shaped.negotiation));
        Counted::of(format!("report: {}", shaped.name), call)
    };
    let rows = |all: Vec<Shaped>| all.iter().map(row).collect();
    vec![
        Group { rows: rows(small()), pick: Pick::All },
        Group { rows: rows(random_full(&mut Random::new(1), RANDOM)), pick: Pick::MedianAndWorst },
        Group { rows: rows(known()), pick: Pick::All },
    ]
}
