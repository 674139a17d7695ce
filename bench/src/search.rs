//! Looks for takes, replies and reports with most instructions: from the known cases and random ones, by changes that
//! are kept where the count grew.

use crate::case::{starts, Accepted, Case, Kind};
use crate::change::changed;
use crate::counter::{here, Counter};
use reference::random::Random;
use std::fs;

/// How many starts are changed: those with most instructions.
const STARTS: usize = 4;
/// How many changes are tried for one that is accepted.
const TRIES: usize = 200;

struct Search {
    kind: Kind,
    random: Random,
    counter: Counter,
    folder: &'static str,
    /// The most instructions until now.
    most: u64,
}

/// A case, and what was counted of it.
struct Found {
    case: Case,
    accepted: Accepted,
    instructions: u64,
}

impl Search {
    fn count(&mut self, case: Case) -> Option<Found> {
        let accepted = case.accepted(self.kind)?;
        Some(self.count_accepted(case, accepted))
    }

    fn count_accepted(&mut self, case: Case, accepted: Accepted) -> Found {
        let instructions = self.counter.count(&[accepted.call.clone()]);
        self.counter.forget();
        Found { case, accepted, instructions }
    }

    /// A change that is accepted. A message of less than half as many commands is passed over without a count.
    fn next(&mut self, best: &Found) -> Option<Found> {
        for _ in 0..TRIES {
            let case = changed(&mut self.random, &best.case, self.kind);
            match case.accepted(self.kind) {
                Some(accepted) if 2 * accepted.command_count() >= best.accepted.command_count() => {
                    return Some(self.count_accepted(case, accepted));
                }
                _ => {}
            }
        }
        None
    }

    fn climb(&mut self, mut best: Found, steps: u32) -> Found {
        for _ in 0..steps {
            if let Some(next) = self.next(&best).filter(|next| next.instructions > best.instructions) {
                best = next;
                self.keep(&best);
            }
        }
        best
    }

    /// Keeps the bytes beside the program if they are the worst until now.
    fn keep(&mut self, found: &Found) {
        if found.instructions <= self.most {
            return;
        }
        self.most = found.instructions;
        let Accepted { tables, negotiation, message, .. } = &found.accepted;
        for (name, bytes) in [("tables", tables), ("negotiation", negotiation), ("message", message)] {
            fs::write(here().join(self.folder).join(name), bytes).unwrap();
        }
    }

    /// The starts with most instructions.
    fn starts(&mut self) -> Vec<Found> {
        let starts = starts(&mut self.random, self.kind);
        let mut counted: Vec<Found> = starts.into_iter().filter_map(|case| self.count(case)).collect();
        counted.sort_by_key(|found| std::cmp::Reverse(found.instructions));
        counted.truncate(STARTS);
        counted
    }
}

/// Climbs so many steps from each start, and keeps the worst.
pub fn search(kind: Kind, steps: u32, seed: u64) {
    let folder = match kind {
        Kind::Take => "search-take",
        Kind::Reply => "search-reply",
        Kind::Report => "search-report",
    };
    let mut search = Search { kind, random: Random::new(seed), counter: Counter::new(folder), folder, most: 0 };
    println!("{:<74} {:>12} {:>12}", "instructions", "start", "found");
    for start in search.starts() {
        let (name, before) = (start.case.name.clone(), start.instructions);
        search.keep(&start);
        let found = search.climb(start, steps);
        println!("{name:<74} {before:>12} {:>12}", found.instructions);
        found.accepted.must_agree(kind, &name);
    }
    println!("most: {}, kept in build/{folder}/", search.most);
}
