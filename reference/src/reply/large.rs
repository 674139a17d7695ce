//! Replies that last long, and a large negotiation of two honest ends.

use crate::negotiation::large::large;
use crate::negotiation::shapes::Shaped;
use crate::negotiation::*;
use crate::rules::classes::Class::{self, *};
use crate::rules::expression::*;
use crate::tables::records::*;

/// A reply onto a negotiation.
#[derive(Clone)]
pub struct Giving {
    pub name: String,
    pub tables: Vec<u8>,
    pub negotiation: Vec<u8>,
}

pub const MEDIATOR: u16 = 100;
pub const REQUESTER: u16 = 200;

/// Names: 1 to 9 and 101 to 116 of class 1, 11 to 19 of class 2, the others, to 48, of class 3.
fn class(name: u16) -> Class {
    match name {
        1..=9 | 101..=116 => IssuerDef,
        11..=19 => IssuerAll,
        _ => SubjectAll,
    }
}

fn role(entity: u16, name: u16) -> Role {
    Role { entity, name }
}

fn to_role(entity: u16, name: u16) -> Expression {
    Expression::Role(role(entity, name))
}

/// What is in tables but the names.
#[derive(Clone, Default)]
struct House {
    own: u16,
    issuer: Vec<Credential>,
    subject: Vec<Credential>,
    sensitive: Vec<Guard>,
    access: Vec<Guard>,
}

impl House {
    fn new(own: u16) -> House {
        House { own, ..House::default() }
    }

    fn issue(&mut self, head: Role, body: Expression) {
        self.issuer.push(Credential { head, body });
    }

    fn store(&mut self, head: Role, body: Expression) {
        self.subject.push(Credential { head, body });
    }

    fn hide(&mut self, role: Role, ack: Role) {
        self.sensitive.push(Guard { role, by: ack });
    }

    /// Records that no proof uses, as many as there is room for.
    fn fill(&mut self) {
        for spare in (3000..).map(|entity| role(entity, 42)).take(32 - self.sensitive.len()) {
            self.store(spare, Expression::Entity(self.own));
            self.hide(spare, Role { name: 43, ..spare });
            self.access.push(Guard { role: spare, by: Role { name: 44, ..spare } });
        }
        for i in 0..64 - self.issuer.len() as u16 {
            self.issue(role(1000 + i, 9), to_role(2000 + i, 41));
        }
        for i in 0..64 - self.subject.len() as u16 {
            self.store(role(1000 + i, 40), to_role(2000 + i, 41));
        }
    }

    fn tables(&self) -> Vec<u8> {
        let mut records = vec![Record::Own(self.own)];
        let names = (1..=48).chain(101..=116);
        records.extend(names.map(|name| Record::Name(name, class(name))));
        records.extend(self.issuer.iter().cloned().map(Record::IssuerStored));
        records.extend(self.subject.iter().cloned().map(Record::SubjectStored));
        records.extend(self.sensitive.iter().copied().map(Record::Sensitive));
        records.extend(self.access.iter().copied().map(Record::Access));
        let mut bytes: Vec<Vec<u8>> = records.iter().map(encode_record).collect();
        bytes.sort();
        bytes.concat()
    }
}

/// The wanted role of `large_success`.
pub const WANTED: Role = Role { entity: MEDIATOR, name: 1 };

/// Tables at their sizes of a mediator and a requester. The wanted role needs 12 sensitive roles of the requester, each
/// with an Ack and an AC role of its own that lead to two roles which the mediator holds.
pub fn large_success() -> [Vec<u8>; 2] {
    let (mut mediator, mut requester) = (House::new(MEDIATOR), House::new(REQUESTER));
    let parts = |roles: &[Role]| Expression::Intersection(roles.to_vec());
    let groups = [2, 3, 4].map(|name| role(MEDIATOR, name));
    mediator.issue(WANTED, parts(&groups));
    for (i, group) in (0..).zip(groups) {
        mediator.issue(group, parts(&[0, 1, 2, 3].map(|k| role(10 + 4 * i + k, 20))));
    }
    for k in 0..12 {
        let (secret, ack, access) = (role(10 + k, 20), role(300 + k, 101), role(300 + k, 102));
        let (first, second) = (role(400 + k, 21), role(500 + k, 22));
        requester.store(secret, Expression::Entity(REQUESTER));
        requester.hide(secret, ack);
        requester.access.push(Guard { role: secret, by: access });
        requester.issue(ack, Expression::Role(first));
        requester.issue(access, Expression::Role(second));
        mediator.store(first, Expression::Entity(MEDIATOR));
        mediator.store(second, Expression::Entity(MEDIATOR));
    }
    [mediator, requester].map(|mut house| {
        house.fill();
        house.tables()
    })
}

/// A graph in the making. Nodes have the initial states of new ones.
struct Draft {
    negotiation: Negotiation,
}

impl Draft {
    /// The primary, which the requester need not process, on the given side's turn.
    fn new(side: Side) -> Draft {
        let (own, other, wanted) = match side {
            Side::Mediator => (MEDIATOR, REQUESTER, WANTED),
            Side::Requester => (REQUESTER, MEDIATOR, role(0, 0)),
        };
        let mut negotiation = Negotiation::fresh(side, own, other, wanted);
        let form = Form::Target(Expression::Role(WANTED));
        negotiation.nodes.push(Node { form, subject: REQUESTER, verifier: Side::Mediator, state: 2 });
        negotiation.messages = Messages::in_turn(if side == Side::Mediator { 2 } else { 1 });
        Draft { negotiation }
    }

    fn show(&mut self, head: Role, body: Expression) {
        self.negotiation.shown.push(Credential { head, body });
    }

    /// A new child.
    fn bring(&mut self, kind: u8, parent: usize, form: Form, subject: u16, verifier: Side, state: u8) -> usize {
        let child = self.negotiation.nodes.len();
        self.negotiation.nodes.push(Node { form, subject, verifier, state });
        self.join(kind, parent, child);
        child
    }

    fn join(&mut self, kind: u8, parent: usize, child: usize) {
        self.negotiation.edges.push(Edge { kind, parent, child });
    }

    /// Our target about the mediator, under the primary.
    fn own_target(&mut self, role: Role) -> usize {
        let form = Form::Target(Expression::Role(role));
        self.bring(CONTROL, 0, form, MEDIATOR, Side::Requester, 1)
    }

    /// The mediator's target about the requester, under one of the requester's.
    fn other_target(&mut self, parent: usize, expression: Expression, state: u8) -> usize {
        self.bring(CONTROL, parent, Form::Target(expression), REQUESTER, Side::Mediator, state)
    }

    fn finish(self, name: impl Into<String>, house: &House) -> Giving {
        Giving { name: name.into(), tables: house.tables(), negotiation: encode(&self.negotiation) }
    }
}

/// A chain of 64 credentials of which an edge needs each, over so many others that are shown. The tables have it in
/// the order of the chain, or in the other one.
fn needed_chain(shown: u16, ascending: bool) -> Giving {
    let mut house = House::new(REQUESTER);
    let at = |i: u16| if ascending { i } else { 66 - i };
    for i in 1..=64 {
        house.store(role(at(i), 20), to_role(at(i + 1), 20));
    }
    house.hide(role(at(65), 20), role(9, 21));
    let mut draft = Draft::new(Side::Requester);
    for i in 0..shown {
        draft.show(role(1000 + i, 30), to_role(1001 + i, 30));
    }
    let ack = draft.own_target(role(9, 21));
    draft.other_target(ack, to_role(at(1), 20), 1);
    let order = if ascending { "in order" } else { "from its end" };
    draft.finish(format!("a chain of 64 needed credentials {order}, {shown} shown"), &house)
}

/// A role with 64 bodies: 64 edges with one credential each.
fn many_bodies() -> Giving {
    let mut house = House::new(MEDIATOR);
    for i in 0..64 {
        house.issue(WANTED, to_role(1000 + i, 20));
    }
    Draft::new(Side::Mediator).finish("64 edges with a credential each", &house)
}

/// Linked roles with issuer-all first names, all of the same members; behind the second role of each member are the same
/// targets. After the first link, all edges join old nodes.
fn many_members(links: u16, members: u16, targets: u16) -> Giving {
    let mut house = House::new(MEDIATOR);
    let first = |link: u16| role(MEDIATOR, 13 + link);
    for member in 0..members {
        house.issue(first(0), Expression::Entity(1000 + member));
        house.issue(role(1000 + member, 8), to_role(2000, 8));
    }
    (1..links).for_each(|link| house.issue(first(link), Expression::Role(first(0))));
    (0..targets).for_each(|target| house.issue(role(2000, 8), Expression::Role(role(3000 + target, 20))));
    let mut draft = Draft::new(Side::Mediator);
    for link in 0..links {
        let linked = Expression::Linked(first(link), 8);
        draft.show(WANTED, linked.clone());
        draft.bring(IMPLICATION, 0, Form::Target(linked), REQUESTER, Side::Mediator, 2);
    }
    draft.finish(format!("{links} issuer-all links, {members} members, {targets} targets behind each"), &house)
}

/// An issuer-all link whose members' roles the opponent processes: one edge for each of 64 members.
fn plain_members() -> Giving {
    let mut house = House::new(MEDIATOR);
    for member in 0..64 {
        house.issue(role(MEDIATOR, 11), Expression::Entity(1000 + member));
    }
    let link = Expression::Linked(role(MEDIATOR, 11), 20);
    let mut draft = Draft::new(Side::Mediator);
    draft.show(WANTED, link.clone());
    draft.bring(IMPLICATION, 0, Form::Target(link), REQUESTER, Side::Mediator, 2);
    draft.finish("an issuer-all link, 64 members, an edge for each", &house)
}

/// The bodies behind the sensitive roles of `waiting_roles`: a chain whose roles each lead to the last one besides, or
/// roles side by side that do.
#[derive(Clone, Copy)]
enum Behind {
    Chain,
    ReversedChain,
    Side,
}

/// 32 sensitive roles that wait, behind each of which 16 credentials lead to the last of them; then 22 intersections of
/// these roles, and other roles, whose edges and marks are made one after another.
fn waiting_roles(behind: Behind) -> Giving {
    let mut house = House::new(REQUESTER);
    let secret = |k: u16| role(1000 + k, 20);
    let way = |i: u16| match behind {
        Behind::ReversedChain => role(2020 - i, 20),
        _ => role(2000 + i, 20),
    };
    let ack = role(9, 21);
    (0..32).for_each(|k| house.hide(secret(k), ack));
    (0..31).for_each(|k| house.store(secret(k), Expression::Role(way(0))));
    for i in 1..=16 {
        let from = if let Behind::Side = behind { way(0) } else { way(i - 1) };
        house.store(from, Expression::Role(way(i)));
        house.store(way(i), Expression::Role(secret(31)));
    }
    let mut draft = Draft::new(Side::Requester);
    (0..31).for_each(|k| draft.show(secret(k), Expression::Role(way(0))));
    draft.show(way(0), Expression::Role(way(1)));
    draft.show(way(1), Expression::Role(secret(31)));
    let acknowledging = draft.own_target(ack);
    let secrets: Vec<usize> =
        (0..31).map(|k| draft.other_target(acknowledging, Expression::Role(secret(k)), 1)).collect();
    for i in 0..22 {
        let whole = Expression::Intersection([i, i + 1, i + 2].map(secret).to_vec());
        draft.show(WANTED, whole.clone());
        draft.bring(IMPLICATION, 0, Form::Target(whole), REQUESTER, Side::Mediator, 1);
    }
    for i in 0..71 {
        draft.other_target(acknowledging, to_role(6000 + i, 22), 1);
    }
    let last = draft.other_target(acknowledging, Expression::Role(secret(31)), 1);
    for &node in secrets.iter().chain([&last]) {
        draft.join(CONTROL, node, acknowledging);
    }
    for &node in &secrets {
        draft.join(IMPLICATION, node, last);
    }
    let shape = match behind {
        Behind::Chain => "a chain",
        Behind::ReversedChain => "a chain from its end",
        Behind::Side => "roles side by side",
    };
    draft.finish(format!("32 sensitive roles that wait, behind them {shape}"), &house)
}

/// Linked targets that wait for their goals, all satisfied solutions with their linking implications; the solutions
/// are then marked.
fn waiting_links(links: u16, members: u16) -> Giving {
    let mut house = House::new(REQUESTER);
    let mut draft = Draft::new(Side::Requester);
    let verifier = Side::Mediator;
    let acknowledging = draft.own_target(role(9, 21));
    let mut linked = vec![];
    for link in 0..links {
        let second = 20 + link;
        let node = draft.other_target(acknowledging, Expression::Linked(role(MEDIATOR, 2), second), 0);
        let goal = draft.bring(MONITOR, node, Form::Goal(second), REQUESTER, verifier, 1);
        linked.push((node, goal, second));
        // A solution that waits, so that the goal stays incomplete.
        house.hide(role(999, second), role(9, 21));
        draft.bring(SOLUTION, goal, Form::Target(to_role(999, second)), REQUESTER, verifier, 1);
    }
    let mut own = None;
    for &(_, goal, second) in &linked {
        for member in 0..members {
            draft.show(role(1000 + member, second), Expression::Entity(REQUESTER));
            let form = Form::Target(to_role(1000 + member, second));
            let solution = draft.bring(SOLUTION, goal, form, REQUESTER, verifier, 1);
            match own {
                Some(own) => draft.join(IMPLICATION, solution, own),
                None => {
                    let form = Form::Target(Expression::Entity(REQUESTER));
                    own = Some(draft.bring(IMPLICATION, solution, form, REQUESTER, verifier, 3));
                }
            }
        }
    }
    for (i, &(node, ..)) in linked.iter().enumerate() {
        for member in 0..members {
            let form = Form::Target(to_role(MEDIATOR, 2));
            if i == 0 {
                draft.bring(LINKING_IMPLICATION, node, form, 1000 + member, verifier, 2);
            } else {
                let child = draft.negotiation.nodes.iter().position(|n| n.form == form && n.subject == 1000 + member);
                draft.join(LINKING_IMPLICATION, node, child.unwrap_or(0));
            }
        }
    }
    draft.finish(format!("{links} linked roles that wait, {members} solutions each"), &house)
}

/// So many linked targets that wait for one goal; then other roles, which are marked.
fn waiting_for_one_goal(links: u16) -> Giving {
    let mut house = House::new(REQUESTER);
    house.hide(role(999, 20), role(9, 21));
    let mut draft = Draft::new(Side::Requester);
    let verifier = Side::Mediator;
    let acknowledging = draft.own_target(role(9, 21));
    let linked = |i: u16| Expression::Linked(role(7000 + i, 2), 20);
    let first = draft.other_target(acknowledging, linked(0), 0);
    let goal = draft.bring(MONITOR, first, Form::Goal(20), REQUESTER, verifier, 1);
    for i in 1..links {
        let node = draft.other_target(acknowledging, linked(i), 0);
        draft.join(MONITOR, node, goal);
    }
    draft.bring(SOLUTION, goal, Form::Target(to_role(999, 20)), REQUESTER, verifier, 1);
    for i in 0..124 - links {
        draft.other_target(acknowledging, to_role(6000 + i, 22), 1);
    }
    draft.finish(format!("{links} linked roles that wait for one goal"), &house)
}

/// Full negotiations that have not ended, on the mediator's turn.
fn onto_full() -> Vec<Giving> {
    let giving = |Shaped { name, tables, negotiation }| {
        let negotiation = encode(&Negotiation { messages: Messages::in_turn(2), ..negotiation });
        Giving { name: format!("onto: {name}"), tables, negotiation }
    };
    large().into_iter().filter(|shaped| shaped.negotiation.end == 0).map(giving).collect()
}

pub fn long_replies() -> Vec<Giving> {
    let mut all = vec![many_bodies(), plain_members()];
    for shown in [0, 63] {
        all.extend([true, false].map(|ascending| needed_chain(shown, ascending)));
    }
    for behind in [Behind::Chain, Behind::ReversedChain, Behind::Side] {
        all.push(waiting_roles(behind));
    }
    all.extend(
        [(7, 16, 24), (7, 10, 36), (7, 24, 9)].map(|(links, members, targets)| many_members(links, members, targets)),
    );
    all.extend([(1, 60), (3, 20), (6, 10), (10, 6)].map(|(links, members)| waiting_links(links, members)));
    all.extend([30, 62, 90].map(waiting_for_one_goal));
    all.extend(onto_full());
    all
}

#[cfg(test)]
mod tests {
    use super::*;
    use crate::ends::calls::Reference;
    use crate::ends::two_ends::TwoEnds;
    use crate::reply::judge;
    use crate::reply::leak::Leak;
    use crate::tables::check;

    #[test]
    fn large_success_succeeds() {
        let tables = large_success();
        tables.iter().for_each(|tables| assert_eq!((check(tables), tables.len()), (0, 3779)));
        let mut reference = Reference::default();
        let mut ends = TwoEnds::begun(&mut reference, tables, WANTED);
        assert_eq!(ends.run(&mut reference), 1);
        let Negotiation { nodes, edges, shown, .. } = ends.ends[0].state();
        println!(
            "{} messages, {} nodes, {} edges, {} shown",
            ends.messages.len(),
            nodes.len(),
            edges.len(),
            shown.len()
        );
        assert_eq!((nodes.len(), edges.len(), shown.len()), (70, 103, 64));
    }

    #[test]
    fn long_replies_are_given() {
        for Giving { name, tables, negotiation } in long_replies() {
            assert_eq!(check(&tables), 0, "{name}");
            let given = judge(&tables, &negotiation, &[0; 4096], &[0; 4096], Leak::None);
            let given = given.unwrap_or_else(|refusal| {
                let tables = crate::tables::decode(&tables).unwrap();
                let found =
                    decode(&negotiation).map(|negotiation| crate::negotiation::damage::damage(&tables, &negotiation));
                panic!("{name}: {refusal:?} {found:?}")
            });
            println!("{name}: {} moves, {:?}", given.rules.len(), given.stop);
        }
    }
}
