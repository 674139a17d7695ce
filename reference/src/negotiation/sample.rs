//! Random sound negotiations. The credentials come first, as which of them stood when an edge was added cannot be seen;
//! then `growth` adds nodes, edges and marks one after another.

use crate::negotiation::growth::Growth;
use crate::negotiation::states::{propagated, Propagated};
use crate::negotiation::*;
use crate::random::Random;
use crate::rules::classes::Class::{self, *};
use crate::rules::expression::*;
use crate::tables::sample::{House, Sample};
use std::collections::BTreeSet;

pub const ALL_CLASSES: [Class; 3] = [IssuerDef, IssuerAll, SubjectAll];

/// Tables and a negotiation that is sound with them.
#[derive(Clone)]
pub struct Grown {
    pub tables: Sample,
    pub negotiation: Negotiation,
}

/// How far a negotiation grows.
#[derive(Clone, Copy, Debug)]
pub struct Extent {
    pub nodes: usize,
    pub edges: usize,
    pub shown: usize,
}

pub const FULL_EXTENT: Extent = Extent { nodes: MOST_NODES, edges: MOST_EDGES, shown: MOST_SHOWN };

impl Random {
    pub fn grown(&mut self) -> Grown {
        let extent = self.extent();
        self.grown_to(extent)
    }

    /// Mostly small, so that many are made; one in a hundred is full.
    fn extent(&mut self) -> Extent {
        let kind = self.below(100);
        let mut up_to = |most: usize| match kind {
            0..=3 => 0,
            4..=73 => self.between(1, 12),
            74..=93 => self.between(1, 40).min(most),
            94..=98 => self.between(1, most),
            _ => most,
        };
        Extent { nodes: up_to(MOST_NODES), edges: up_to(MOST_EDGES), shown: up_to(MOST_SHOWN) }
    }

    /// A sound negotiation of this extent, or a smaller one where there is too little to add.
    pub fn grown_to(&mut self, extent: Extent) -> Grown {
        let tables = self.negotiation_tables();
        let mut negotiation = self.begun(&tables.house);
        if extent.nodes > 0 {
            negotiation.shown = self.shown(&tables.house, &negotiation, extent.shown);
            let primary = self.primary(&tables.house, &mut negotiation);
            negotiation = Growth::new(self, &tables.house, negotiation, primary).run(extent);
            self.close(&mut negotiation);
        }
        Grown { tables, negotiation }
    }

    /// Tables of few entities and names, so that credentials and nodes meet.
    fn negotiation_tables(&mut self) -> Sample {
        let name_count = match self.below(20) {
            0 => 0,
            1..=2 => self.between(10, 64),
            _ => self.between(3, 9),
        };
        let most_entities = if self.percent(5) { 40 } else { 6 };
        let house = self.house_among(most_entities, name_count);
        let sizes = if self.percent(20) { [name_count, 3, 6, 3, 2] } else { [name_count, 0, 0, 0, 0] };
        self.sample_of(house, sizes)
    }

    fn begun(&mut self, house: &House) -> Negotiation {
        let other = loop {
            let other = self.entity(house.world);
            if other != house.own {
                break other;
            }
        };
        let wanted = self.role_of(house, &ALL_CLASSES).unwrap();
        if self.percent(50) {
            Negotiation::fresh(Side::Mediator, house.own, other, wanted)
        } else {
            Negotiation::fresh(Side::Requester, house.own, other, Role { entity: 0, name: 0 })
        }
    }

    /// So many credentials that keep the class rules; many are from one of the two ends.
    fn shown(&mut self, house: &House, negotiation: &Negotiation, count: usize) -> Vec<Credential> {
        let mut shown: Vec<Credential> = Vec::new();
        let direct_share = [20, 50, 80][self.below(3)];
        for _ in 0..20 * count {
            let credential = if self.percent(direct_share) {
                self.direct(house, negotiation)
            } else if self.percent(30) {
                self.of_common_heads(house, &shown)
            } else {
                self.stored(house, &ALL_CLASSES)
            };
            match credential {
                Some(credential) if shown.len() < count && !shown.contains(&credential) => shown.push(credential),
                _ => {}
            }
        }
        self.shuffle(&mut shown);
        shown
    }

    /// A role from one of the two ends.
    fn direct(&mut self, house: &House, negotiation: &Negotiation) -> Option<Credential> {
        let entity = if self.percent(50) { negotiation.own } else { negotiation.other };
        Some(Credential { head: self.role_of(house, &ALL_CLASSES)?, body: Expression::Entity(entity) })
    }

    /// An issuer-def role from an intersection of two to four roles that have a member in common.
    fn of_common_heads(&mut self, house: &House, shown: &[Credential]) -> Option<Credential> {
        let body = &shown.get(self.below(shown.len().max(1)))?.body;
        let mut heads: Vec<Role> = shown.iter().filter(|other| other.body == *body).map(|other| other.head).collect();
        self.shuffle(&mut heads);
        let parts: BTreeSet<Role> = heads.into_iter().take(self.between(2, 4)).collect();
        let whole = Expression::Intersection(parts.into_iter().collect());
        let enough = matches!(&whole, Expression::Intersection(parts) if parts.len() > 1);
        let head = self.role_of(house, &[IssuerDef])?;
        enough.then_some(Credential { head, body: whole })
    }

    /// The primary, with any state; often the head of a credential.
    fn primary(&mut self, house: &House, negotiation: &mut Negotiation) -> Node {
        let head = negotiation.shown.get(self.below(MOST_SHOWN)).map(|credential| credential.head);
        let role = match head {
            Some(head) if negotiation.side == Side::Requester || self.percent(90) => head,
            _ => self.role_of(house, &ALL_CLASSES).unwrap(),
        };
        if negotiation.side == Side::Mediator {
            negotiation.wanted = role;
        }
        Node {
            form: Form::Target(Expression::Role(role)),
            subject: negotiation.entity(Side::Requester),
            verifier: Side::Mediator,
            state: self.below(4) as u8,
        }
    }

    /// The counts, the end and the idle byte that fit.
    pub fn close(&mut self, negotiation: &mut Negotiation) {
        let primary = propagated(&negotiation.nodes, &negotiation.edges)[0];
        (negotiation.end, negotiation.idle) = match primary {
            Propagated::Done => (1, false),
            Propagated::Failed => (2, false),
            Propagated::Open => [(0, false), (0, true), (3, true), (4, false), (4, true)][self.below(5)],
        };
        let count = [1, 2, self.between(3, 20), self.between(1, 1027), 1027][self.below(5)] as u32;
        negotiation.messages = Messages::in_turn(count);
    }
}

#[cfg(test)]
mod tests {
    use super::*;
    use crate::negotiation::report::judge;

    /// All are sound and have one encoding, and every size, state and way to a state is reached.
    #[test]
    fn grown_ones_are_sound() {
        let mut random = Random::new(5);
        let (mut most_nodes, mut most_edges, mut linking, mut wholes) = (0, 0, 0, [0; 5]);
        for _ in 0..4000 {
            let grown = random.grown();
            let (tables, bytes) = (grown.tables.records.concat(), encode(&grown.negotiation));
            let sound = judge(&tables, &bytes).unwrap_or_else(|refused| panic!("{refused:?} {:?}", grown.negotiation));
            assert_eq!(sound.negotiation, grown.negotiation);
            let Negotiation { nodes, edges, .. } = &sound.negotiation;
            most_nodes = most_nodes.max(nodes.len());
            most_edges = most_edges.max(edges.len());
            linking += edges.iter().filter(|edge| edge.kind == LINKING_IMPLICATION).count();
            for (node, state) in nodes.iter().zip(&sound.propagated) {
                if let (Form::Target(Expression::Intersection(parts)), Propagated::Done) = (&node.form, state) {
                    wholes[parts.len()] += 1;
                }
            }
        }
        assert_eq!((most_nodes, most_edges), (MOST_NODES, MOST_EDGES));
        assert!(linking > 100, "{linking} linking implications");
        assert!(wholes[2..].iter().all(|&count| count > 20), "satisfied intersections: {wholes:?}");
    }
}
