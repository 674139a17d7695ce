//! The instructions of every row of the benchmark, and the bytes that its calls copy.

use crate::calls::Call;
use crate::counter::{Copies, Counter};
use crate::{question, reply, report, tables, take};

/// A row: calls that count together.
#[derive(Clone)]
pub struct Counted {
    pub name: String,
    pub calls: Vec<Call>,
}

impl Counted {
    pub fn of(name: String, call: Call) -> Counted {
        Counted { name, calls: vec![call] }
    }
}

/// Which rows of a group are printed.
pub enum Pick {
    All,
    MedianAndWorst,
    /// So many that have most instructions.
    Most(usize),
}

pub struct Group {
    pub rows: Vec<Counted>,
    pub pick: Pick,
}

/// What was counted of a row, and the number of its profile.
struct Count {
    name: String,
    instructions: u64,
    copied: u64,
    profile: usize,
}

impl Count {
    fn print(&self) {
        let Count { name, instructions, copied, profile } = self;
        println!("{name:<84} {instructions:>12} {copied:>13} {profile:>7}");
    }
}

/// Those to print, of the rows of a group.
fn picked(mut counts: Vec<Count>, pick: &Pick) -> Vec<Count> {
    let count = counts.len();
    match pick {
        Pick::All => counts,
        Pick::MedianAndWorst => {
            counts.sort_by_key(|row| row.instructions);
            let mut worst = counts.pop().unwrap();
            let mut median = counts.swap_remove(count / 2);
            median.name = format!("{}, median of {count}", median.name);
            worst.name = format!("{}, worst of {count}", worst.name);
            vec![median, worst]
        }
        Pick::Most(most) => {
            counts.sort_by_key(|row| std::cmp::Reverse(row.instructions));
            counts.truncate(*most);
            println!("the next {}: those with most instructions of {count}", counts.len());
            counts
        }
    }
}

pub fn table() {
    let (mut counter, mut copies) = (Counter::new("count"), Copies::new());
    println!("profile N is build/count/row.N, for callgrind_annotate");
    println!("{:<84} {:>12} {:>13} {:>7}", "row", "instructions", "bytes copied", "profile");
    let groups = [question::counted, tables::counted, report::counted, take::counted, reply::counted];
    for Group { rows, pick } in groups.iter().flat_map(|counted| counted()) {
        let counts = rows.into_iter().map(|Counted { name, calls }| {
            let instructions = counter.count(&calls);
            Count { name, instructions, copied: copies.count(&calls), profile: counter.rows }
        });
        picked(counts.collect(), &pick).iter().for_each(Count::print);
    }
}
