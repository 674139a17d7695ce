//! What occurred among many takes, by the reference's answers, and what never did.

use crate::message::take::{Accepted, Lent, Refused};
use crate::message::*;
use crate::negotiation::Form;
use crate::refusal::Refusal;
use crate::rules::expression::Expression;
use crate::tables::{self, Tables};
use std::collections::{BTreeMap, BTreeSet};

const NUMBERS: [u64; 15] = [0, 1, 2, 3, 5, 6, 20, 21, 22, 23, 24, 25, 26, 27, 28];

#[derive(Default)]
pub struct TakeCounts {
    numbers: BTreeMap<u64, u64>,
    ends: BTreeMap<u8, u64>,
    /// The accepted commands, and the edges among them by kind.
    commands: BTreeMap<&'static str, u64>,
    edges: BTreeMap<(&'static str, u8), u64>,
    /// The refused commands that could be read, with their numbers; and the edges among them.
    refused: BTreeMap<(&'static str, u64), u64>,
    refused_edges: BTreeMap<(u8, u64), u64>,
    /// Accepted messages with a name that is not listed, by the place of it.
    unlisted: BTreeMap<&'static str, u64>,
    /// The greatest counts of nodes, edges and credentials after a message, and its bytes.
    most: [usize; 4],
}

fn count<K: Ord>(counts: &mut BTreeMap<K, u64>, key: K) {
    *counts.entry(key).or_default() += 1;
}

const COMMANDS: [&str; 6] = ["credential", "open", "new child", "join", "mark", "end"];

fn command_name(command: &Command) -> &'static str {
    match command {
        Command::Credential(_) => "credential",
        Command::Open(..) => "open",
        Command::Child(_) => "new child",
        Command::Join(_) => "join",
        Command::Mark(_) => "mark",
        Command::End => "end",
    }
}

/// Where commands can have a name that the tables do not list.
pub const UNLISTED: [&str; 6] = ["credential", "open", "role", "linked role", "intersection", "goal"];

/// The place of such a name in a command.
fn place_of_names(command: &Command) -> &'static str {
    match command {
        Command::Open(..) => "open",
        Command::Child(NewChild { form: Form::Goal(_), .. }) => "goal",
        Command::Child(NewChild { form: Form::Target(expression), .. }) => match expression {
            Expression::Linked(..) => "linked role",
            Expression::Intersection(_) => "intersection",
            _ => "role",
        },
        _ => "credential",
    }
}

/// The places of such names in the commands, each once.
pub fn unlisted_in(tables: &Tables, commands: &[Command]) -> BTreeSet<&'static str> {
    commands.iter().filter(|command| tables.has_unlisted(&command.names())).map(place_of_names).collect()
}

/// The refusals that a command of this sort can get, those before it is read aside.
fn refusals(command: &str) -> &'static [u64] {
    match command {
        "credential" => &[5, 23, 25, 28],
        "open" => &[23],
        "new child" => &[5, 23, 24, 25, 26, 27, 28],
        "join" => &[23, 24, 25, 26, 27, 28],
        "mark" => &[23, 24, 27],
        _ => &[23],
    }
}

/// The same for an edge of a kind. (Few goals and intersections stand where there is no room.)
fn edge_refusals(kind: u8) -> &'static [u64] {
    match kind {
        1 => &[24, 25, 26, 27, 28],
        4 => &[24, 25, 26, 27],
        6 => &[24, 25, 27, 28],
        _ => &[24, 25, 27],
    }
}

fn line<K: std::fmt::Debug>(counts: &BTreeMap<K, u64>, name: impl Fn(&K) -> String) -> String {
    counts.iter().map(|(key, times)| format!("{} {times}", name(key))).collect::<Vec<_>>().join(", ")
}

impl TakeCounts {
    pub fn taken(&mut self, lent: &Lent, judged: &Result<Accepted, Refused>) {
        match judged {
            Ok(accepted) => {
                count(&mut self.numbers, 0);
                let tables = tables::decode(&lent.tables).unwrap();
                unlisted_in(&tables, &accepted.commands).into_iter().for_each(|place| count(&mut self.unlisted, place));
                self.accepted(&lent.message, accepted);
            }
            Err(Refused { refusal, command }) => {
                count(&mut self.numbers, *refusal as u64);
                if let Some(command) = command {
                    self.refused(*refusal, command);
                }
            }
        }
    }

    fn accepted(&mut self, message: &[u8], accepted: &Accepted) {
        let after = &accepted.after;
        count(&mut self.ends, after.end);
        for command in &accepted.commands {
            count(&mut self.commands, command_name(command));
            if let Some(kind) = edge_kind(command) {
                count(&mut self.edges, (command_name(command), kind));
            }
        }
        let sizes = [after.nodes.len(), after.edges.len(), after.shown.len(), message.len()];
        for (most, now) in self.most.iter_mut().zip(sizes) {
            *most = now.max(*most);
        }
    }

    fn refused(&mut self, refusal: Refusal, command: &Command) {
        count(&mut self.refused, (command_name(command), refusal as u64));
        if let Some(kind) = edge_kind(command) {
            count(&mut self.refused_edges, (kind, refusal as u64));
        }
    }

    pub fn print(&self) {
        println!(
            "take: {}",
            line(&self.numbers, |&number| match number {
                0 => "accepted".into(),
                number => format!("refused {number}"),
            })
        );
        println!("ends after a message: {}", line(&self.ends, u8::to_string));
        println!("accepted commands: {}", line(&self.commands, |name| name.to_string()));
        println!("accepted edges, by kind: {}", line(&self.edges, |(name, kind)| format!("{name} {kind}:")));
        println!("refused commands: {}", line(&self.refused, |(name, number)| format!("{name} by {number}:")));
        println!("refused edges: {}", line(&self.refused_edges, |(kind, number)| format!("kind {kind} by {number}:")));
        println!("accepted with a name that is not listed: {}", line(&self.unlisted, |place| place.to_string()));
        let [nodes, edges, shown, bytes] = self.most;
        println!("at most {nodes} nodes, {edges} edges, {shown} credentials, {bytes} bytes in an accepted message");
    }

    /// What a large run must have met and did not.
    pub fn missing(&self) -> Vec<String> {
        let mut missing = Vec::new();
        let mut note = |occurred: bool, what: String| {
            if !occurred {
                missing.push(what);
            }
        };
        NUMBERS.iter().for_each(|number| note(self.numbers.contains_key(number), format!("take {number}")));
        (0..=3).for_each(|end| note(self.ends.contains_key(&end), format!("end {end}")));
        for place in UNLISTED {
            note(self.unlisted.contains_key(place), format!("a name that is not listed: {place}"));
        }
        for name in COMMANDS {
            note(self.commands.contains_key(name), format!("{name} accepted"));
            for &number in refusals(name) {
                note(self.refused.contains_key(&(name, number)), format!("{name} refused {number}"));
            }
        }
        for kind in 1..=6 {
            for name in ["new child", "join"] {
                note(self.edges.contains_key(&(name, kind)), format!("{name} of kind {kind} accepted"));
            }
            for &number in edge_refusals(kind) {
                note(self.refused_edges.contains_key(&(kind, number)), format!("kind {kind} refused {number}"));
            }
        }
        missing
    }
}
