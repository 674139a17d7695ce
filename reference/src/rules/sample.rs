//! Random questions and damaged ones.

use crate::random::Random;
use crate::rules::expression::*;
use crate::rules::question::*;

/// The entities and names that one question draws from: few, so that credentials meet.
#[derive(Clone, Copy)]
pub struct World {
    entities: usize,
    names: usize,
    spread: usize,
}

impl World {
    pub fn new(entities: usize, names: usize) -> World {
        World { entities, names, spread: 0 }
    }

    /// The numbers are of one sort for a spread of 0 to 3, of all four for 4.
    pub fn spread(entities: usize, names: usize, spread: usize) -> World {
        World { entities, names, spread }
    }

    pub fn names(self) -> impl Iterator<Item = u16> {
        (1..=self.names).map(move |i| self.number(i))
    }

    /// The i-th number, low or high, or different from its neighbours in its high byte alone.
    pub fn number(self, i: usize) -> u16 {
        let sort = if self.spread == 4 { i % 4 } else { self.spread };
        let i = i as u16;
        match sort {
            0 => i,
            1 => 256 * i,
            2 => 257 * i,
            _ => u16::MAX - i + 1,
        }
    }
}

/// Random parts of questions.
impl Random {
    fn world(&mut self) -> World {
        let most = if self.percent(20) { 60 } else { 6 };
        World { entities: self.between(2, most), names: self.between(2, most), spread: self.below(4) }
    }

    pub fn entity(&mut self, world: World) -> u16 {
        world.number(self.between(1, world.entities))
    }

    fn name(&mut self, world: World) -> u16 {
        world.number(self.between(1, world.names))
    }

    pub fn role(&mut self, world: World) -> Role {
        Role { entity: self.entity(world), name: self.name(world) }
    }

    fn linked(&mut self, world: World, entity: u16) -> Expression {
        Expression::Linked(Role { entity, name: self.name(world) }, self.name(world))
    }

    pub fn intersection(&mut self, world: World, part_count: usize) -> Expression {
        // A world has two entities and two names or more, so four roles can be found.
        let mut parts = Vec::new();
        while parts.len() < part_count {
            let part = self.role(world);
            if !parts.contains(&part) {
                parts.push(part);
            }
        }
        parts.sort();
        Expression::Intersection(parts)
    }

    fn expression(&mut self, world: World) -> Expression {
        let issuer = self.entity(world);
        self.body(world, issuer)
    }

    fn body(&mut self, world: World, issuer: u16) -> Expression {
        match self.below(8) {
            0..=2 => Expression::Entity(self.entity(world)),
            3..=4 => Expression::Role(self.role(world)),
            5..=6 => self.linked(world, issuer),
            _ => {
                let part_count = self.between(2, 4);
                self.intersection(world, part_count)
            }
        }
    }

    pub fn credential(&mut self, world: World) -> Credential {
        let head = self.role(world);
        Credential { head, body: self.body(world, head.entity) }
    }
}

/// Random questions.
impl Random {
    pub fn question(&mut self) -> Question {
        let world = self.world();
        if self.percent(40) {
            self.loose_question(world)
        } else {
            self.proved_question(world)
        }
    }

    /// Credentials and expressions that know nothing of each other.
    fn loose_question(&mut self, world: World) -> Question {
        let most = if self.percent(50) { 12 } else { MOST_CREDENTIALS };
        let count = self.between(0, most);
        let credentials: Vec<Credential> = (0..count).map(|_| self.credential(world)).collect();
        let f = if count > 0 && self.percent(50) {
            Expression::Role(credentials[self.below(count)].head)
        } else {
            self.expression(world)
        };
        let e = if count > 0 && self.percent(50) {
            credentials[self.below(count)].body.clone()
        } else {
            self.expression(world)
        };
        Question { credentials, f, e }
    }

    /// A question over 64 random credentials, with one of the heads as f.
    pub fn full_question(&mut self, world: World, role_asked: bool) -> Question {
        let credentials: Vec<Credential> = (0..MOST_CREDENTIALS).map(|_| self.credential(world)).collect();
        let f = Expression::Role(credentials[self.below(MOST_CREDENTIALS)].head);
        let end = self.role(world);
        let e = if role_asked { Expression::Role(end) } else { Expression::Entity(end.entity) };
        Question { credentials, f, e }
    }

    /// Credentials that prove "f from e", often less one or two of them, among others.
    fn proved_question(&mut self, world: World) -> Question {
        let f = loop {
            let f = self.expression(world);
            if !matches!(f, Expression::Entity(_)) || self.percent(5) {
                break f;
            }
        };
        let e = self.expression(world);
        let depth = if self.percent(20) { self.between(5, 60) } else { self.between(0, 5) };
        let mut credentials = Vec::new();
        let bend = [2, 3, 5, 20][self.below(4)];
        self.prove(world, &f, &e, depth, bend, &mut credentials);
        for _ in 0..[0, 0, 1, 1, 1, 2][self.below(6)] {
            if !credentials.is_empty() {
                credentials.remove(self.below(credentials.len()));
            }
        }
        if self.percent(50) {
            for _ in 0..self.below(MOST_CREDENTIALS / 4) {
                credentials.push(self.credential(world));
            }
        }
        if self.percent(20) && !credentials.is_empty() {
            for _ in 0..self.below(MOST_CREDENTIALS / 4) {
                credentials.push(credentials[self.below(credentials.len())].clone());
            }
        }
        match self.below(4) {
            0 => {}
            1 => credentials.reverse(),
            _ => self.shuffle(&mut credentials),
        }
        credentials.truncate(MOST_CREDENTIALS);
        Question { credentials, f, e }
    }

    /// Adds credentials that prove "f from e" through at most `depth` other expressions on one path, and few on the
    /// side paths that links and intersections need. The greater `bend`, the fewer of these. An entity f cannot be
    /// proved.
    fn prove(
        &mut self,
        world: World,
        f: &Expression,
        e: &Expression,
        depth: usize,
        bend: usize,
        out: &mut Vec<Credential>,
    ) {
        if f == e {
            return;
        }
        let less = depth.saturating_sub(1);
        match f {
            Expression::Entity(_) => {}
            Expression::Role(head) => {
                let foreign = matches!(e, Expression::Linked(base, _) if base.entity != head.entity);
                let middle = if foreign && (depth == 0 || self.percent(20)) {
                    // Only a role of its own entity can have this linked role as its body.
                    let Expression::Linked(base, _) = e else { unreachable!() };
                    Expression::Role(Role { entity: base.entity, name: self.name(world) })
                } else if depth == 0 || out.len() >= MOST_CREDENTIALS {
                    if !foreign {
                        out.push(Credential { head: *head, body: e.clone() });
                    }
                    return;
                } else {
                    match self.below(bend) {
                        0 => self.linked(world, head.entity),
                        1 => {
                            let part_count = self.between(2, 4);
                            self.intersection(world, part_count)
                        }
                        _ => Expression::Role(self.role(world)),
                    }
                };
                out.push(Credential { head: *head, body: middle.clone() });
                self.prove(world, &middle, e, less, bend, out);
            }
            Expression::Linked(base, name) => {
                let entity = self.entity(world);
                let (to_base, to_e) = if self.percent(50) { (less, less.min(2)) } else { (less.min(2), less) };
                self.prove(world, &Expression::Role(*base), &Expression::Entity(entity), to_base, bend, out);
                self.prove(world, &Expression::Role(Role { entity, name: *name }), e, to_e, bend, out);
            }
            Expression::Intersection(parts) => {
                let long = self.below(parts.len());
                for (i, part) in parts.iter().enumerate() {
                    let depth = if i == long { less } else { less.min(1) };
                    self.prove(world, &Expression::Role(*part), e, depth, bend, out);
                }
            }
        }
    }
}

/// Damaged questions.
impl Random {
    /// The bytes of a random question with one damage, sometimes two or three. A few are still of right form.
    pub fn damaged(&mut self) -> Lent {
        let mut lent = encode(&self.question());
        let times = [1, 1, 1, 1, 2, 3][self.below(6)];
        for _ in 0..times {
            self.damage(&mut lent);
        }
        lent
    }

    fn damage(&mut self, lent: &mut Lent) {
        let world = World::new(3, 3);
        match self.below(18) {
            // One byte.
            0 => {
                let bytes = self.buffer(lent);
                if !bytes.is_empty() {
                    let at = self.below(bytes.len());
                    bytes[at] = self.byte();
                }
            }
            // A cut.
            1 => {
                let bytes = self.buffer(lent);
                bytes.truncate(self.below(bytes.len() + 1));
            }
            // A cut command of zeros.
            2 => {
                let at = self.command(lent);
                lent.credentials.truncate(at);
                lent.credentials.push(CREDENTIAL);
                lent.credentials.resize(lent.credentials.len() + self.below(CREDENTIAL_BYTES), 0);
            }
            // The end is missing.
            3 => {
                lent.credentials.pop();
            }
            // Bytes after the end: random ones, a second end, a credential.
            4 => {
                let more = match self.below(3) {
                    0 => {
                        let count = self.between(1, 30);
                        self.bytes(count)
                    }
                    1 => vec![END],
                    _ => [vec![CREDENTIAL], encode_credential(&self.credential(world))].concat(),
                };
                lent.credentials.extend(more);
            }
            // An end among the commands.
            5 => {
                let at = self.command(lent);
                lent.credentials.insert(at.min(lent.credentials.len()), END);
            }
            // Two commands change places, one of them perhaps the end.
            6 => {
                let mut commands: Vec<Vec<u8>> = lent.credentials.chunks(COMMAND_BYTES).map(<[u8]>::to_vec).collect();
                if !commands.is_empty() {
                    let (a, b) = (self.below(commands.len()), self.below(commands.len()));
                    commands.swap(a, b);
                    lent.credentials = commands.concat();
                }
            }
            // Another command, known in other messages or not.
            7 => {
                let at = self.command(lent);
                let first = if self.percent(70) { self.below(0x18) as u8 } else { self.byte() };
                if let Some(byte) = lent.credentials.get_mut(at) {
                    *byte = first;
                }
            }
            // A zero number, in an expression or in a head.
            8 => {
                if self.percent(70) {
                    let i = self.below(3);
                    self.change_expression(lent, |bytes| bytes[2 + 2 * i..4 + 2 * i].fill(0));
                } else {
                    let at = self.command(lent) + 1 + 2 * self.below(2);
                    if let Some(number) = lent.credentials.get_mut(at..at + 2) {
                        number.fill(0);
                    }
                }
            }
            // A field that may be unused is not zero, in one byte alone.
            9 => {
                let (at, byte) = (self.between(4, 17), self.byte());
                self.change_expression(lent, |bytes| bytes[at] = byte);
            }
            // Equal or descending parts.
            10 => {
                let part_count = self.between(2, 4);
                let mut whole = encode_expression(&self.intersection(world, part_count));
                let at = 2 + 4 * self.below(part_count - 1);
                if self.percent(50) {
                    whole.copy_within(at..at + 4, at + 4);
                } else {
                    whole[at..at + 8].rotate_left(4);
                }
                self.change_expression(lent, |bytes| bytes.copy_from_slice(&whole));
            }
            // Another part count.
            11 => {
                let part_count = self.below(7) as u8;
                self.change_expression(lent, |bytes| bytes[1] = part_count);
            }
            // Another kind.
            12 => {
                let kind = [0, 1, 2, 3, 4, 5, 6, 255][self.below(8)];
                self.change_expression(lent, |bytes| bytes[0] = kind);
            }
            // A goal.
            13 => {
                let mut goal = encode_expression(&Expression::Entity(1));
                goal[0] = 5;
                self.change_expression(lent, |bytes| bytes.copy_from_slice(&goal));
            }
            // A linked body, often of another entity than the issuer.
            14 => {
                let entity = self.between(1, 3) as u16;
                let linked = encode_expression(&self.linked(world, entity));
                let at = self.command(lent) + 5;
                if let Some(body) = lent.credentials.get_mut(at..at + EXPRESSION_BYTES) {
                    body.copy_from_slice(&linked);
                }
            }
            // Another length of f or e.
            15 => {
                let length = match self.below(4) {
                    0 => 0,
                    1 => 17,
                    2 => 19,
                    _ => self.between(0, 64),
                };
                let bytes = if self.percent(50) { &mut lent.f } else { &mut lent.e };
                bytes.resize(length, 0);
            }
            // Another length of the credentials, within the sizes or not.
            16 => {
                let length = match self.below(4) {
                    0 => 0,
                    1 => MOST_BYTES,
                    2 => MOST_BYTES + 1,
                    _ => self.between(MOST_BYTES + 1, MOST_BYTES + 64),
                };
                let fill = encode_credential(&self.credential(world));
                while lent.credentials.len() < length {
                    lent.credentials.pop();
                    lent.credentials.push(CREDENTIAL);
                    lent.credentials.extend(&fill);
                    lent.credentials.push(END);
                }
                lent.credentials.truncate(length);
            }
            // Any bytes.
            _ => {
                let count = self.between(0, 100);
                *self.buffer(lent) = self.bytes(count);
            }
        }
    }

    /// One of the three buffers.
    fn buffer<'a>(&mut self, lent: &'a mut Lent) -> &'a mut Vec<u8> {
        match self.below(4) {
            0 => &mut lent.f,
            1 => &mut lent.e,
            _ => &mut lent.credentials,
        }
    }

    /// Where a command begins.
    fn command(&mut self, lent: &Lent) -> usize {
        COMMAND_BYTES * self.below(lent.credentials.len() / COMMAND_BYTES + 1)
    }

    /// Changes the bytes of one body, of f or of e.
    fn change_expression(&mut self, lent: &mut Lent, change: impl FnOnce(&mut [u8])) {
        let bytes = match self.below(4) {
            0 => lent.f.get_mut(..EXPRESSION_BYTES),
            1 => lent.e.get_mut(..EXPRESSION_BYTES),
            _ => {
                let at = self.command(lent) + 5;
                lent.credentials.get_mut(at..at + EXPRESSION_BYTES)
            }
        };
        if let Some(bytes) = bytes {
            change(bytes);
        }
    }
}
