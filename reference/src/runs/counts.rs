//! What occurred among lists for two runs whose differing roles all have names that are not listed, and what never did.

use crate::rules::expression::Role;
use crate::runs::compare::{differing, Outcome};
use crate::tables::{self, Tables};
use std::collections::BTreeMap;

/// How a role differs.
const DIFFERENCES: [&str; 3] =
    ["held in one run, no AC role", "held in one run, with an AC role", "held in both, AC role differs"];
/// How a list went.
const WAYS: [&str; 2] = ["alike to the end", "parted after an Ack target was satisfied"];

#[derive(Default)]
pub struct RunCounts {
    unlisted: BTreeMap<&'static str, u64>,
}

fn difference(tables: [&Tables; 2], role: Role) -> &'static str {
    let is_held = tables.map(|tables| tables.holds(role));
    let has_policy = tables.map(|tables| tables.access.iter().any(|guard| guard.role == role));
    match (is_held, has_policy) {
        ([true, true], _) => DIFFERENCES[2],
        (_, [false, false]) => DIFFERENCES[0],
        _ => DIFFERENCES[1],
    }
}

impl RunCounts {
    /// A list on these tables, which are accepted, and how it went.
    pub fn compared(&mut self, tables: [&[u8]; 2], outcome: Option<Outcome>) {
        let tables = tables.map(|bytes| tables::decode(bytes).unwrap());
        let tables = [&tables[0], &tables[1]];
        let roles: Vec<Role> = differing(tables).iter().map(|guard| guard.role).collect();
        if roles.is_empty() || !roles.iter().all(|role| tables[0].has_unlisted(&[role.name])) {
            return;
        }
        let way = match outcome {
            Some(Outcome::Alike) => Some(WAYS[0]),
            Some(Outcome::Parted(_)) => Some(WAYS[1]),
            _ => None,
        };
        for what in roles.iter().map(|&role| difference(tables, role)).chain(way) {
            *self.unlisted.entry(what).or_default() += 1;
        }
    }

    pub fn print(&self) {
        let times = |what: &&str| self.unlisted.get(what).copied().unwrap_or(0);
        let all = |words: &[&str]| words.iter().map(|what| format!("{what} {}", times(what))).collect::<Vec<_>>();
        println!("  lists whose differing roles are not listed: {}", all(&WAYS).join(", "));
        println!("  their differing roles: {}", all(&DIFFERENCES).join(", "));
    }

    /// What a large run must have met and did not.
    pub fn missing(&self) -> Vec<String> {
        let all = WAYS.iter().chain(&DIFFERENCES).filter(|what| !self.unlisted.contains_key(*what));
        all.map(|what| format!("a differing role that is not listed: {what}")).collect()
    }
}
