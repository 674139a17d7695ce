//! Looks for the credentials whose questions take the engine longest: from random sets and from the known shapes, by
//! small changes that are kept where the time grew.

use crate::least;
use crate::question::{ask, ask_reference, one_more};
use reference::random::Random;
use reference::rules::expression::*;
use reference::rules::question::{self, Lent, Question, MOST_CREDENTIALS};
use reference::rules::sample::World;
use reference::rules::shapes;
use std::hint::black_box;
use std::process::exit;

/// Microseconds a call, in short batches.
fn engine_time(lent: &Lent, batches: u32) -> f64 {
    least(|| ask(black_box(lent)), 4, batches)
}

struct Found {
    from: String,
    question: Question,
    time: f64,
}

/// A question and changes of it. New parts are put together from the entities and names that it has.
struct Climb<'a> {
    random: &'a mut Random,
    question: Question,
}

impl Climb<'_> {
    fn place(&mut self) -> usize {
        self.random.below(self.question.credentials.len())
    }

    /// A role of a head, or one with the entity of one head and the name of another.
    fn role(&mut self) -> Role {
        let (i, j) = (self.place(), self.place());
        let (first, second) = (self.question.credentials[i].head, self.question.credentials[j].head);
        if self.random.percent(70) {
            first
        } else {
            Role { entity: first.entity, name: second.name }
        }
    }

    fn body(&mut self, issuer: u16) -> Expression {
        match self.random.below(8) {
            0..=1 => Expression::Entity(self.role().entity),
            2..=3 => Expression::Role(self.role()),
            4..=6 => Expression::Linked(Role { entity: issuer, name: self.role().name }, self.role().name),
            _ => {
                let mut parts: Vec<Role> = (0..self.random.between(2, 4)).map(|_| self.role()).collect();
                parts.sort();
                parts.dedup();
                if parts.len() == 1 {
                    Expression::Role(parts[0])
                } else {
                    Expression::Intersection(parts)
                }
            }
        }
    }

    fn change(&mut self) {
        let (i, j) = (self.place(), self.place());
        let (low, high) = (i.min(j), i.max(j));
        match self.random.below(12) {
            0..=2 => {
                let head = self.role();
                self.question.credentials[i] = Credential { head, body: self.body(head.entity) };
            }
            3..=5 => {
                let issuer = self.question.credentials[i].head.entity;
                self.question.credentials[i].body = self.body(issuer);
            }
            // Another name alone.
            6 => {
                self.question.credentials[i].head.name = self.role().name;
            }
            7 => self.question.credentials.swap(i, j),
            8 => self.question.credentials[low..=high].rotate_left(1),
            9 => self.question.credentials[low..=high].rotate_right(1),
            10 => self.question.credentials[low..=high].reverse(),
            _ => {
                let role = self.role();
                self.question.e = match self.question.e {
                    Expression::Entity(_) => Expression::Entity(role.entity),
                    _ => Expression::Role(role),
                };
            }
        }
    }

    /// So many tries of one to three changes.
    fn run(mut self, from: String, steps: u32) -> Found {
        let mut best = self.question.clone();
        let mut best_time = engine_time(&question::encode(&best), 40);
        for _ in 0..steps {
            self.question = best.clone();
            for _ in 0..self.random.between(1, 3) {
                self.change();
            }
            let lent = question::encode(&self.question);
            if engine_time(&lent, 4) <= best_time {
                continue;
            }
            if ask(&lent) != ask_reference(&lent) {
                println!("the answers differ: {:?}", self.question);
                exit(1);
            }
            let now = engine_time(&lent, 40);
            if now > best_time {
                best_time = now;
                best = self.question.clone();
            }
        }
        Found { from, question: best, time: best_time }
    }
}

#[derive(Clone, Copy)]
enum Base {
    /// Each role links by 1.1.
    First,
    /// Each by the one before, and 1.1 by itself.
    Before,
    /// Each by the one before, and 1.1 by the seventh; the entities are a ring.
    Ring,
}

/// 1.1 finds the entities from 2 on one after another, and so do other roles of 1 by their links. The last entity has e.
fn readers(linked: u16, base: Base, e: &Expression) -> Question {
    let role = |entity, name| Role { entity, name };
    let link = |name, base| Credential { head: role(1, name), body: Expression::Linked(role(1, base), 99) };
    let way = |from, to| Credential { head: role(from, 99), body: Expression::Entity(to) };
    let mut credentials = vec![Credential { head: role(1, 1), body: Expression::Entity(2) }];
    credentials.push(link(1, if matches!(base, Base::Ring) { 7 } else { 1 }));
    credentials.extend((2..=linked).map(|name| link(name, if matches!(base, Base::First) { 1 } else { name - 1 })));
    let last = (MOST_CREDENTIALS - credentials.len()) as u16 + 1;
    credentials.extend((2..last).map(|entity| way(entity, entity + 1)));
    if matches!(base, Base::Ring) {
        credentials.pop();
        credentials.push(way(last - 1, 2));
    }
    credentials.push(Credential { head: role(last, 99), body: e.clone() });
    Question { credentials, f: Expression::Role(role(1, 1)), e: e.clone() }
}

fn starts(random: &mut Random) -> Vec<(String, Question)> {
    let mut starts = Vec::new();
    for (e, role_asked) in [("entity", false), ("role", true)] {
        for (entities, names) in [(3, 3), (8, 2), (8, 8), (16, 3), (30, 2)] {
            let question = random.full_question(World::new(entities, names), role_asked);
            starts.push((format!("random: {entities} entities, {names} names, e {e}"), question));
        }
    }
    for shape in &shapes::SHAPES {
        for (e, end) in shapes::ends() {
            starts.push((format!("{}, e {e}", shape.name), shapes::question(shape, "shuffled", &end)));
        }
    }
    for linked in [12, 21, 30] {
        for (how, base) in
            [("one role", Base::First), ("the one before", Base::Before), ("the one before, in a ring", Base::Ring)]
        {
            for (e, end) in shapes::ends() {
                let mut question = readers(linked, base, &end);
                random.shuffle(&mut question.credentials);
                starts.push((format!("links: {linked} by {how}, e {e}"), question));
            }
        }
    }
    starts
}

fn role_text(role: &Role) -> String {
    format!("{}.{}", role.entity, role.name)
}

fn text(expression: &Expression) -> String {
    match expression {
        Expression::Entity(entity) => entity.to_string(),
        Expression::Role(role) => role_text(role),
        Expression::Linked(base, name) => format!("{}.{name}", role_text(base)),
        Expression::Intersection(parts) => parts.iter().map(role_text).collect::<Vec<_>>().join(" & "),
    }
}

fn kind(expression: &Expression) -> usize {
    match expression {
        Expression::Entity(_) => 0,
        Expression::Role(_) => 1,
        Expression::Linked(..) => 2,
        Expression::Intersection(_) => 3,
    }
}

fn distinct<T: Ord>(items: impl Iterator<Item = T>) -> usize {
    items.collect::<std::collections::BTreeSet<T>>().len()
}

fn describe(found: &Found) {
    let Question { credentials, f, e } = &found.question;
    let lent = question::encode(&found.question);
    let mut kinds = [0; 4];
    for credential in credentials {
        kinds[kind(&credential.body)] += 1;
    }
    println!(
        "{:.2}, of it {:.2} for one more, from {}: {} from {}",
        found.time,
        one_more(&lent),
        found.from,
        text(f),
        text(e)
    );
    println!("  {} entities, {} roles, {} linked, {} intersections", kinds[0], kinds[1], kinds[2], kinds[3]);
    println!(
        "  {} heads of {} entities and {} names",
        distinct(credentials.iter().map(|c| c.head)),
        distinct(credentials.iter().map(|c| c.head.entity)),
        distinct(credentials.iter().map(|c| c.head.name))
    );
    for row in credentials.chunks(4) {
        let texts: Vec<String> =
            row.iter().map(|c| format!("{:<36}", format!("{} <- {}", role_text(&c.head), text(&c.body)))).collect();
        println!("  {}", texts.concat().trim_end());
    }
}

/// The median of five timings of each, one round of all after the other: a time that was only once so long does not count.
fn time_again(found: &mut [Found]) {
    let mut rounds: Vec<Vec<f64>> = vec![Vec::new(); found.len()];
    for _ in 0..5 {
        for (f, times) in found.iter().zip(&mut rounds) {
            times.push(engine_time(&question::encode(&f.question), 40));
        }
    }
    for (f, times) in found.iter_mut().zip(&mut rounds) {
        times.sort_by(f64::total_cmp);
        f.time = times[2];
    }
}

/// Climbs from each start, times what was found again, and prints the worst set for an entity e and for a role e.
pub fn search(steps: u32, seed: u64) {
    let mut random = Random::new(seed);
    println!("{:<60} {:>8} {:>8}", "64 credentials, microseconds", "found", "again");
    let mut found: Vec<Found> = Vec::new();
    for (from, question) in starts(&mut random) {
        assert_eq!(question.credentials.len(), MOST_CREDENTIALS);
        found.push(Climb { random: &mut random, question }.run(from, steps));
    }
    let first: Vec<f64> = found.iter().map(|f| f.time).collect();
    time_again(&mut found);
    for (f, first) in found.iter().zip(first) {
        println!("{:<60} {:>8.2} {:>8.2}", f.from, first, f.time);
    }
    found.sort_by(|a, b| b.time.total_cmp(&a.time));
    for entity in [true, false] {
        if let Some(worst) = found.iter().find(|f| matches!(f.question.e, Expression::Entity(_)) == entity) {
            describe(worst);
        }
    }
}
