//! What occurred among many replies, by the reference's answers, and what never did.

use crate::message::counts::{unlisted_in, UNLISTED};
use crate::message::*;
use crate::refusal::Refusal;
use crate::reply::{Given, Size, Stop};
use crate::tables;
use std::collections::BTreeMap;

/// Every rule that adds an edge, and the marks.
pub const RULES: [&str; 20] = [
    "open",
    "verifier, role (1)",
    "verifier, linked issuer-all (1)",
    "verifier, linked issuer-def (1)",
    "verifier, linked issuer-def (2)",
    "verifier, intersection (1)",
    "verifier's mark",
    "opponent, role (1)",
    "opponent, role (2)",
    "opponent, sensitive (1)",
    "opponent, sensitive (2)",
    "opponent, sensitive (3)",
    "opponent, sensitive (4)",
    "opponent, role of another (1)",
    "opponent, role of another (2)",
    "opponent, linked (1)",
    "opponent, linked (2)",
    "opponent, intersection (1)",
    "opponent, goal (1)",
    "opponent's mark",
];

const SIZES: [Size; 3] = [Size::Nodes, Size::Edges, Size::Shown];
const STOPS: [Stop; 3] = [Stop::NoMove, Stop::Satisfied, Stop::Bytes];

#[derive(Clone, Debug, Default)]
pub struct ReplyCounts {
    /// Refusals by number, and 0 for the replies given.
    numbers: BTreeMap<u64, u64>,
    ends: BTreeMap<u8, u64>,
    stops: BTreeMap<Stop, u64>,
    /// Replies with the end full, by the size.
    full: BTreeMap<Size, u64>,
    rules: BTreeMap<&'static str, u64>,
    /// Replies by the number of their commands, at most 10.
    commands: BTreeMap<usize, u64>,
    /// Kind 1 edges by the number of credentials before them, at most 4.
    needed: BTreeMap<usize, u64>,
    joins: u64,
    /// Replies with a name that is not listed, by the place of it.
    unlisted: BTreeMap<&'static str, u64>,
    /// The greatest counts of nodes, edges and credentials after a reply, and its bytes.
    most: [usize; 4],
}

fn count<K: Ord>(counts: &mut BTreeMap<K, u64>, key: K) {
    *counts.entry(key).or_default() += 1;
}

fn line<K>(counts: &BTreeMap<K, u64>, name: impl Fn(&K) -> String) -> String {
    counts.iter().map(|(key, times)| format!("{} {times}", name(key))).collect::<Vec<_>>().join(", ")
}

impl ReplyCounts {
    pub fn replied(&mut self, tables: &[u8], judged: &Result<Given, Refusal>) {
        match judged {
            Ok(given) => {
                count(&mut self.numbers, 0);
                let tables = tables::decode(tables).unwrap();
                unlisted_in(&tables, &given.commands).into_iter().for_each(|place| count(&mut self.unlisted, place));
                self.given(given);
            }
            Err(refusal) => count(&mut self.numbers, *refusal as u64),
        }
    }

    fn given(&mut self, given: &Given) {
        let Given { commands, rules, stop, after } = given;
        count(&mut self.ends, after.end);
        count(&mut self.stops, *stop);
        if let (Stop::Size(size), 4) = (stop, after.end) {
            count(&mut self.full, *size);
        }
        rules.iter().for_each(|&rule| count(&mut self.rules, rule));
        count(&mut self.commands, commands.len().min(10));
        self.credentials(commands);
        let sizes = [after.nodes.len(), after.edges.len(), after.shown.len(), encode_message(commands).len()];
        for (most, now) in self.most.iter_mut().zip(sizes) {
            *most = now.max(*most);
        }
    }

    fn credentials(&mut self, commands: &[Command]) {
        let mut credentials = 0;
        for command in commands {
            if let Command::Credential(_) = command {
                credentials += 1;
                continue;
            }
            if edge_kind(command) == Some(1) {
                count(&mut self.needed, credentials.min(4));
            }
            self.joins += matches!(command, Command::Join(_)) as u64;
            credentials = 0;
        }
    }

    pub fn times(&self, rule: &str) -> u64 {
        *self.rules.get(rule).unwrap_or(&0)
    }

    pub fn print(&self) {
        println!(
            "reply: {}",
            line(&self.numbers, |&number| match number {
                0 => "given".into(),
                number => format!("refused {number}"),
            })
        );
        println!("ends after a reply: {}", line(&self.ends, u8::to_string));
        println!("stops: {}", line(&self.stops, |stop| format!("{stop:?}")));
        println!("full by: {}", line(&self.full, |size| format!("{size:?}")));
        println!("commands in a reply: {}", line(&self.commands, |count| format!("{count}:")));
        println!("credentials before a kind 1 edge: {}", line(&self.needed, |count| format!("{count}:")));
        println!("edges between old nodes: {}", self.joins);
        println!("replies with a name that is not listed: {}", line(&self.unlisted, |place| place.to_string()));
        for rule in RULES {
            println!("  {rule}: {}", self.times(rule));
        }
        let [nodes, edges, shown, bytes] = self.most;
        println!("at most {nodes} nodes, {edges} edges, {shown} credentials, {bytes} bytes in a reply");
    }

    /// What a large run must have met and did not.
    pub fn missing(&self) -> Vec<String> {
        let mut missing = Vec::new();
        let mut note = |occurred: bool, what: String| {
            if !occurred {
                missing.push(what);
            }
        };
        RULES.iter().for_each(|rule| note(self.rules.contains_key(rule), (*rule).into()));
        STOPS.iter().for_each(|stop| note(self.stops.contains_key(stop), format!("stop {stop:?}")));
        SIZES.iter().for_each(|size| note(self.full.contains_key(size), format!("full by {size:?}")));
        (0..=4).for_each(|end| note(self.ends.contains_key(&end), format!("end {end}")));
        (0..=4).for_each(|count| note(self.needed.contains_key(&count), format!("{count} credentials before an edge")));
        note(self.joins > 0, "an edge between old nodes".into());
        for place in UNLISTED {
            note(self.unlisted.contains_key(place), format!("a name that is not listed: {place}"));
        }
        missing
    }
}
