//! "f from e": the least relation over all expressions of kinds 1 to 4 with these five conditions.
//!
//! 1. e from e.
//! 2. If e1 from e2 and e2 from e3, then e1 from e3.
//! 3. If A.r <- e is a credential, then A.r from e.
//! 4. If A.r1 from B, then A.r1.r2 from B.r2, for every linked role A.r1.r2.
//! 5. If each part of an intersection is from e, then the intersection is from e, for every intersection.
//!
//! It is built over the expressions that matter to what is asked, from nothing, by adding pairs until no condition
//! adds one.

use crate::rules::expression::*;
use std::collections::{BTreeSet, HashMap};

/// Whether "f from e" holds over these credentials.
pub fn from(credentials: &[Credential], f: &Expression, e: &Expression) -> bool {
    Relation::new(credentials, [f, e]).has(f, e)
}

/// "f from e" for any f and e among the expressions that it was made with.
pub struct Relation {
    expressions: Expressions,
    pairs: Pairs,
}

impl Relation {
    pub fn new<'a>(credentials: &[Credential], asked: impl IntoIterator<Item = &'a Expression>) -> Relation {
        let expressions = Expressions::of(credentials, asked);
        let pairs = least(credentials, &expressions);
        Relation { expressions, pairs }
    }

    pub fn has(&self, f: &Expression, e: &Expression) -> bool {
        self.pairs.has(self.expressions.number(f), self.expressions.number(e))
    }
}

/// One "f from e", to be asked over several sets of credentials. Expressions that matter to one set do no harm in another.
pub struct Asked {
    expressions: Expressions,
    f: usize,
    e: usize,
}

impl Asked {
    /// All sets are among these credentials.
    pub fn new(credentials: &[Credential], f: &Expression, e: &Expression) -> Asked {
        let expressions = Expressions::of(credentials, [f, e]);
        let [f, e] = [f, e].map(|asked| expressions.number(asked));
        Asked { expressions, f, e }
    }

    pub fn over<'a>(&self, credentials: impl IntoIterator<Item = &'a Credential>) -> bool {
        least(credentials, &self.expressions).has(self.f, self.e)
    }
}

/// The expressions that matter, each once and numbered from 0.
#[derive(Default)]
struct Expressions {
    list: Vec<Expression>,
    numbers: HashMap<Expression, usize>,
}

impl Expressions {
    fn of<'a>(credentials: &[Credential], asked: impl IntoIterator<Item = &'a Expression>) -> Expressions {
        let mut expressions = Expressions::default();
        expressions.collect(credentials, asked);
        expressions
    }

    /// All expressions that occur, their parts, and for each linked role A.r1.r2 among them the role B.r2 of every
    /// entity B that occurs.
    ///
    /// No other x can help as the middle of "f from x" and "x from e". It is no credential's body, and no linked role
    /// here leads to it, so no role here is from x. Nor is an intersection: of its two parts or more, one is not x.
    fn collect<'a>(&mut self, credentials: &[Credential], asked: impl IntoIterator<Item = &'a Expression>) {
        for credential in credentials {
            self.add(Expression::Role(credential.head));
            self.add_with_parts(&credential.body);
        }
        for expression in asked {
            self.add_with_parts(expression);
        }

        let mut entities = BTreeSet::new();
        let mut link_names = BTreeSet::new();
        for expression in &self.list {
            match expression {
                Expression::Entity(entity) => {
                    entities.insert(*entity);
                }
                Expression::Role(role) => {
                    entities.insert(role.entity);
                }
                Expression::Linked(_, name) => {
                    link_names.insert(*name);
                }
                // Its parts are in the list as roles.
                Expression::Intersection(_) => {}
            }
        }
        for &entity in &entities {
            for &name in &link_names {
                self.add(Expression::Role(Role { entity, name }));
            }
        }
    }

    fn add(&mut self, expression: Expression) {
        if !self.numbers.contains_key(&expression) {
            self.numbers.insert(expression.clone(), self.list.len());
            self.list.push(expression);
        }
    }

    fn add_with_parts(&mut self, expression: &Expression) {
        self.add(expression.clone());
        match expression {
            Expression::Entity(_) | Expression::Role(_) => {}
            Expression::Linked(base, _) => self.add(Expression::Role(*base)),
            Expression::Intersection(parts) => {
                for part in parts {
                    self.add(Expression::Role(*part));
                }
            }
        }
    }

    fn number(&self, expression: &Expression) -> usize {
        self.numbers[expression]
    }

    fn number_of_role(&self, role: Role) -> usize {
        self.number(&Expression::Role(role))
    }
}

/// A set of pairs (a, b) of numbers below `size`, as rows of bits, one after another: bit b of row a.
#[derive(Clone, PartialEq)]
struct Pairs {
    size: usize,
    width: usize,
    words: Vec<u64>,
}

impl Pairs {
    fn none(size: usize) -> Pairs {
        let width = size.div_ceil(64);
        Pairs { size, width, words: vec![0; size * width] }
    }

    fn has(&self, a: usize, b: usize) -> bool {
        self.words[a * self.width + b / 64] >> (b % 64) & 1 == 1
    }

    fn add(&mut self, a: usize, b: usize) {
        self.words[a * self.width + b / 64] |= 1 << (b % 64);
    }

    fn row(&self, a: usize) -> &[u64] {
        &self.words[a * self.width..][..self.width]
    }

    /// Adds (a, x) for every x of the row.
    fn add_row(&mut self, a: usize, row: &[u64]) {
        for (word, more) in self.words[a * self.width..].iter_mut().zip(row) {
            *word |= more;
        }
    }
}

/// The least set of pairs (f, e), over the numbers of these expressions, with the five conditions.
fn least<'a>(credentials: impl IntoIterator<Item = &'a Credential>, expressions: &Expressions) -> Pairs {
    let mut pairs = Pairs::none(expressions.list.len());
    reflexive(&mut pairs);
    stated(&mut pairs, credentials, expressions);
    loop {
        let before = pairs.clone();
        linking(&mut pairs, expressions);
        intersection(&mut pairs, expressions);
        transitive(&mut pairs);
        if pairs == before {
            return pairs;
        }
    }
}

/// Condition 1: e from e.
fn reflexive(pairs: &mut Pairs) {
    for e in 0..pairs.size {
        pairs.add(e, e);
    }
}

/// Condition 3: a credential's head is from its body.
fn stated<'a>(pairs: &mut Pairs, credentials: impl IntoIterator<Item = &'a Credential>, expressions: &Expressions) {
    for credential in credentials {
        pairs.add(expressions.number_of_role(credential.head), expressions.number(&credential.body));
    }
}

/// Condition 4: A.r1.r2 is from B.r2 if A.r1 is from the entity B.
fn linking(pairs: &mut Pairs, expressions: &Expressions) {
    for (linked, expression) in expressions.list.iter().enumerate() {
        let Expression::Linked(base, name) = expression else { continue };
        let base = expressions.number_of_role(*base);
        for (member, expression) in expressions.list.iter().enumerate() {
            let Expression::Entity(entity) = expression else { continue };
            if pairs.has(base, member) {
                pairs.add(linked, expressions.number_of_role(Role { entity: *entity, name: *name }));
            }
        }
    }
}

/// Condition 5: an intersection is from every e that each of its parts is from.
fn intersection(pairs: &mut Pairs, expressions: &Expressions) {
    for (whole, expression) in expressions.list.iter().enumerate() {
        let Expression::Intersection(parts) = expression else { continue };
        let mut common = pairs.row(expressions.number_of_role(parts[0])).to_vec();
        for part in &parts[1..] {
            let row = pairs.row(expressions.number_of_role(*part));
            for (word, other) in common.iter_mut().zip(row) {
                *word &= other;
            }
        }
        pairs.add_row(whole, &common);
    }
}

/// Condition 2: what is from b is from all that b is from. Taking each b once, for all pairs, closes the set.
fn transitive(pairs: &mut Pairs) {
    for b in 0..pairs.size {
        let row = pairs.row(b).to_vec();
        // What is from itself alone adds nothing.
        if row.iter().map(|word| word.count_ones()).sum::<u32>() == 1 {
            continue;
        }
        for a in 0..pairs.size {
            if pairs.has(a, b) {
                pairs.add_row(a, &row);
            }
        }
    }
}

#[cfg(test)]
mod tests {
    use super::*;
    use crate::random::Random;

    fn entity(entity: u16) -> Expression {
        Expression::Entity(entity)
    }

    fn role(entity: u16, name: u16) -> Expression {
        Expression::Role(Role { entity, name })
    }

    fn linked(entity: u16, name: u16, second: u16) -> Expression {
        Expression::Linked(Role { entity, name }, second)
    }

    fn both(a: (u16, u16), b: (u16, u16)) -> Expression {
        Expression::Intersection(vec![Role { entity: a.0, name: a.1 }, Role { entity: b.0, name: b.1 }])
    }

    fn credential(entity: u16, name: u16, body: Expression) -> Credential {
        Credential { head: Role { entity, name }, body }
    }

    #[test]
    fn marked_cases() {
        let chain = [credential(1, 1, role(2, 2)), credential(2, 2, entity(3))];
        let link = [credential(1, 1, linked(1, 2, 3)), credential(2, 3, entity(4)), credential(1, 2, entity(2))];
        let meet = [credential(1, 1, both((2, 2), (3, 3))), credential(2, 2, entity(4)), credential(3, 3, entity(4))];
        assert!(from(&[], &role(1, 1), &role(1, 1)));
        assert!(!from(&[], &role(1, 1), &entity(2)));
        assert!(from(&chain, &role(1, 1), &entity(3)));
        assert!(!from(&chain, &role(2, 2), &role(1, 1)));
        assert!(from(&link, &role(1, 1), &entity(4)));
        assert!(!from(&link[..2], &role(1, 1), &entity(4)));
        assert!(!from(&meet[..2], &role(1, 1), &entity(4)));
        assert!(from(&meet, &role(1, 1), &entity(4)));
    }

    #[test]
    fn roles_reached_through_a_link() {
        let set = [credential(2, 1, linked(2, 1, 1)), credential(2, 1, entity(1))];
        assert!(from(&set, &role(2, 1), &role(1, 1)));
        assert!(!from(&set, &role(2, 1), &role(3, 1)));
    }

    #[test]
    fn expressions_that_no_credential_has() {
        let set = [credential(1, 1, entity(2)), credential(2, 2, entity(3)), credential(4, 4, entity(3))];
        assert!(from(&set, &linked(1, 1, 2), &entity(3)));
        assert!(from(&set, &linked(1, 1, 9), &role(2, 9)));
        assert!(from(&set, &both((2, 2), (4, 4)), &entity(3)));
        assert!(!from(&set, &both((1, 1), (2, 2)), &entity(3)));
        // No part of an intersection is from the intersection.
        assert!(!from(&[], &role(1, 1), &both((1, 1), (2, 2))));
        assert!(from(&[], &both((1, 1), (2, 2)), &both((1, 1), (2, 2))));
    }

    #[test]
    fn cycles_prove_nothing() {
        let set = [credential(1, 1, role(2, 2)), credential(2, 2, role(1, 1)), credential(3, 3, linked(3, 3, 3))];
        assert!(from(&set, &role(1, 1), &role(2, 2)));
        assert!(!from(&set, &role(1, 1), &entity(3)));
        assert!(!from(&set, &role(3, 3), &entity(3)));
    }

    /// The members of each role as RT0 has them without the relation: a map from roles to sets of entities.
    fn members(credentials: &[Credential]) -> HashMap<Role, BTreeSet<u16>> {
        let mut members: HashMap<Role, BTreeSet<u16>> = HashMap::new();
        loop {
            let before = members.clone();
            let of = |role: Role| before.get(&role).cloned().unwrap_or_default();
            for credential in credentials {
                let more: BTreeSet<u16> = match &credential.body {
                    Expression::Entity(entity) => [*entity].into(),
                    Expression::Role(role) => of(*role),
                    Expression::Linked(base, name) => {
                        of(*base).iter().flat_map(|&entity| of(Role { entity, name: *name })).collect()
                    }
                    Expression::Intersection(parts) => {
                        of(parts[0]).into_iter().filter(|x| parts.iter().all(|part| of(*part).contains(x))).collect()
                    }
                };
                members.entry(credential.head).or_default().extend(more);
            }
            if members == before {
                return members;
            }
        }
    }

    /// Asking about many expressions at once changes no answer.
    #[test]
    fn many_expressions_at_once() {
        let mut random = Random::new(8);
        for _ in 0..200 {
            let credentials = random.question().credentials;
            let asked: Vec<Expression> = (0..4).flat_map(|_| [random.question().f, random.question().e]).collect();
            let heads = credentials.iter().take(4).map(|credential| Expression::Role(credential.head));
            let asked: Vec<Expression> = asked.into_iter().chain(heads).collect();
            let relation = Relation::new(&credentials, &asked);
            for f in &asked {
                for e in &asked {
                    assert_eq!(relation.has(f, e), from(&credentials, f, e), "{credentials:?} {f:?} {e:?}");
                }
            }
        }
    }

    /// A role is from an entity exactly where the entity is a member of the role.
    #[test]
    fn from_an_entity_is_membership() {
        let mut random = Random::new(7);
        let mut yes = 0;
        for _ in 0..300 {
            let credentials = random.question().credentials;
            let members = members(&credentials);
            for a in 1..=4 {
                for name in 1..=4 {
                    for b in 1..=4 {
                        let member = members.get(&Role { entity: a, name }).is_some_and(|members| members.contains(&b));
                        assert_eq!(from(&credentials, &role(a, name), &entity(b)), member);
                        yes += member as u32;
                    }
                }
            }
        }
        assert!(yes > 300, "{yes}");
    }
}
