//! A take, a reply or a report in the parts that a search changes, and where searches start.

use crate::calls::Call;
use crate::found::{worst_reply, worst_report, worst_take};
use crate::reply::{self, Lent};
use crate::{report, take};
use reference::message::large::{all_again, long_messages};
use reference::message::writer::{Run, Writer};
use reference::message::*;
use reference::negotiation::growth::Growth;
use reference::negotiation::large::large;
use reference::negotiation::sample::{Extent, ALL_CLASSES};
use reference::negotiation::shapes::Shaped;
use reference::negotiation::states::{propagated, Propagated};
use reference::negotiation::*;
use reference::random::Random;
use reference::reply::large::{long_replies, Giving};
use reference::rules::classes::Class;
use reference::rules::expression::{Expression, Role};
use reference::rules::sample::World;
use reference::tables::records::*;
use reference::tables::sample::House;

/// How many random ones are made, and how many of them are among the starts.
const RANDOM: usize = 2000;
const RANDOM_STARTS: usize = 60;

#[derive(Clone, Copy, PartialEq)]
pub enum Kind {
    Take,
    Reply,
    Report,
}

#[derive(Clone)]
pub struct Case {
    pub name: String,
    /// What changes draw from.
    pub house: House,
    pub records: Vec<Record>,
    pub negotiation: Negotiation,
    /// The commands of a taken message, without its end.
    pub commands: Vec<Command>,
}

/// The bytes of a case that is accepted.
pub struct Accepted {
    pub tables: Vec<u8>,
    pub negotiation: Vec<u8>,
    /// The message taken, or that of the reply.
    pub message: Vec<u8>,
    pub call: Call,
}

fn records(mut tables: &[u8]) -> Vec<Record> {
    let mut records = Vec::new();
    while let Some(length) = tables.first().and_then(|&command| record_bytes(command)) {
        records.extend(decode_record(&tables[..length]));
        tables = &tables[length..];
    }
    records
}

/// The names that tables list, with their classes.
pub fn names_of(records: &[Record]) -> Vec<(u16, Class)> {
    let name = |record: &Record| match record {
        Record::Name(name, class) => Some((*name, *class)),
        _ => None,
    };
    records.iter().filter_map(name).collect()
}

fn commands(mut message: &[u8]) -> Vec<Command> {
    let mut commands = Vec::new();
    while let Some(bytes) = next_command(message) {
        commands.extend(decode_command(bytes).filter(|command| *command != Command::End));
        message = &message[bytes.len()..];
    }
    commands
}

impl Case {
    fn new(name: &str, tables: &[u8], negotiation: Negotiation, message: &[u8]) -> Case {
        let records = records(tables);
        let house = House { world: World::new(64, 4), own: negotiation.own, names: names_of(&records) };
        Case { name: name.into(), house, records, negotiation, commands: commands(message) }
    }

    fn tables(&self) -> Vec<u8> {
        let mut records: Vec<Vec<u8>> = self.records.iter().map(encode_record).collect();
        records.sort();
        records.dedup();
        records.concat()
    }

    /// Whose turn it is, and the end: as the call needs them. None: the graph has ended, or its edges do not stand.
    fn settled(&self, kind: Kind) -> Option<Negotiation> {
        let mut settled = self.negotiation.clone();
        let Negotiation { nodes, edges, side, .. } = &settled;
        let is_first = nodes.is_empty() && kind == Kind::Reply && *side == Side::Mediator;
        if edges.iter().any(|edge| edge.parent.max(edge.child) >= nodes.len()) || (nodes.is_empty() && !is_first) {
            return None;
        }
        let ours = (kind == Kind::Reply) == (*side == Side::Mediator);
        let state = if is_first { Propagated::Open } else { propagated(nodes, edges)[0] };
        settled.messages = Messages::in_turn(if is_first { 0 } else { 1 + ours as u32 });
        settled.idle = false;
        settled.end = match state {
            Propagated::Open => 0,
            Propagated::Done => 1,
            Propagated::Failed => 2,
        };
        (kind == Kind::Report || settled.end == 0).then_some(settled)
    }

    /// The bytes, if the engine accepts them. Of the commands those that are legal one after another and fit are left.
    pub fn accepted(&self, kind: Kind) -> Option<Accepted> {
        let (tables, settled) = (self.tables(), self.settled(kind)?);
        let negotiation = encode(&settled);
        let is_sound = || settled.nodes.is_empty() || report::engine(&tables, &negotiation) % 256 == 0;
        if engine::check(&tables) != 0 || !is_sound() {
            return None;
        }
        match kind {
            Kind::Report => {
                let call = Call::report(&tables, &negotiation);
                Some(Accepted { tables, negotiation, message: vec![], call })
            }
            Kind::Take => {
                let Run { lent, .. } = self.legal(tables.clone(), settled);
                let call = Call::take(&lent);
                let accepted = take::engine(&mut lent.clone()) == 0;
                accepted.then_some(Accepted { tables, negotiation, message: lent.message, call })
            }
            Kind::Reply => {
                let mut lent = Lent::new(negotiation.clone());
                let answer = lent.give(&mut reply::Engine, &tables);
                let message = lent.reply[..(answer / 256) as usize].to_vec();
                let call = reply::call(&tables, &negotiation);
                (answer % 256 == 0).then_some(Accepted { tables, negotiation, message, call })
            }
        }
    }

    fn legal(&self, tables: Vec<u8>, negotiation: Negotiation) -> Run {
        let mut writer = Writer::new(tables, negotiation);
        let mut length = 1;
        for command in &self.commands {
            let bytes = encode_command(command).len();
            if length + bytes <= MOST_MESSAGE_BYTES && writer.add(command.clone()).is_ok() {
                length += bytes;
            }
        }
        writer.finish(self.name.clone())
    }
}

impl Accepted {
    /// How many commands the message has.
    pub fn command_count(&self) -> usize {
        commands(&self.message).len()
    }

    /// Ends the program if the reference answers otherwise.
    pub fn must_agree(&self, kind: Kind, name: &str) {
        let (name, tables, negotiation) = (name.to_string(), self.tables.clone(), self.negotiation.clone());
        match kind {
            Kind::Take => take::must_agree(&take::run(name, tables, negotiation, self.message.clone())),
            Kind::Reply => drop(reply::must_agree(&Giving { name, tables, negotiation })),
            Kind::Report => {
                let shaped = Shaped { name, tables, negotiation: decode(&negotiation).unwrap() };
                report::must_agree(&shaped, &negotiation);
            }
        }
    }
}

fn of_shaped(Shaped { name, tables, negotiation }: &Shaped) -> Case {
    Case::new(name, tables, negotiation.clone(), &[])
}

fn of_run(run: &Run) -> Case {
    Case::new(&run.name, &run.lent.tables, decode(&run.lent.negotiation).unwrap(), &run.lent.message)
}

fn of_giving(Giving { name, tables, negotiation }: &Giving) -> Case {
    Case::new(name, tables, decode(negotiation).unwrap(), &[])
}

/// Full storage over few entities and names, and a graph of some size over the same.
fn dense(random: &mut Random) -> Case {
    let (most_entities, name_count) = (random.between(3, 24), random.between(3, 12));
    let house = random.house_among(most_entities, name_count);
    let sensitive = random.between(0, 32);
    let tables = random.sample_of(house.clone(), [name_count, 64, 64, sensitive, 0]).records.concat();
    let side = if random.percent(50) { Side::Mediator } else { Side::Requester };
    let negotiation = graph(random, &house, side);
    Case { house, ..Case::new("random, full storage", &tables, negotiation, &[]) }
}

/// A graph over the entities and names of a house.
fn graph(random: &mut Random, house: &House, side: Side) -> Negotiation {
    let other = (1..).map(|i| house.world.number(i)).find(|&other| other != house.own).unwrap();
    let wanted = random.role_of(house, &ALL_CLASSES).unwrap();
    let asked = if side == Side::Mediator { wanted } else { Role { entity: 0, name: 0 } };
    let mut negotiation = Negotiation::fresh(side, house.own, other, asked);
    if side == Side::Mediator && random.percent(30) {
        return negotiation;
    }
    let extent = Extent { nodes: random.between(1, 100), edges: random.between(0, 150), shown: 0 };
    for _ in 0..random.between(0, 40) {
        negotiation.shown.extend(random.stored(house, &ALL_CLASSES).filter(|new| !negotiation.shown.contains(new)));
    }
    let subject = negotiation.entity(Side::Requester);
    let form = Form::Target(Expression::Role(wanted));
    let primary = Node { form, subject, verifier: Side::Mediator, state: 0 };
    Growth::new(random, house, negotiation, primary).run(extent)
}

/// The known cases, what was found before, and random ones.
pub fn starts(random: &mut Random, kind: Kind) -> Vec<Case> {
    let mut starts: Vec<Case> = match kind {
        Kind::Take => [long_messages(), all_again(), vec![worst_take()]].concat().iter().map(of_run).collect(),
        Kind::Reply => long_replies().iter().chain([&worst_reply()]).map(of_giving).collect(),
        Kind::Report => large().iter().chain([&worst_report()]).map(of_shaped).collect(),
    };
    match kind {
        Kind::Take => {}
        Kind::Reply => starts.extend(long_random(random)),
        Kind::Report => starts.extend(report::random_full(random, RANDOM_STARTS).iter().map(of_shaped)),
    }
    starts
}

/// Those of the random replies that have most commands.
fn long_random(random: &mut Random) -> Vec<Case> {
    let length = |case: &Case| case.accepted(Kind::Reply).map_or(0, |accepted| accepted.command_count());
    let mut cases: Vec<(usize, Case)> = (0..RANDOM).map(|_| dense(random)).map(|case| (length(&case), case)).collect();
    cases.sort_by_key(|(length, _)| std::cmp::Reverse(*length));
    cases.into_iter().take(RANDOM_STARTS).map(|(_, case)| case).collect()
}
