//! Random and faulty negotiations with their tables, in bytes.

use crate::negotiation::faults::{self, NEGOTIATION_FAULTS};
use crate::negotiation::sample::{Extent, Grown, ALL_CLASSES};
use crate::negotiation::shapes::marked_case;
use crate::negotiation::*;
use crate::random::Random;
use crate::rules::classes::Class;
use crate::rules::expression::CREDENTIAL_BYTES;
use crate::tables::records::{encode_record, Record};
use crate::tables::MOST_TABLES_BYTES;

/// The two lent buffers of a report.
#[derive(Clone, Debug, PartialEq, Eq)]
pub struct Lent {
    pub tables: Vec<u8>,
    pub negotiation: Vec<u8>,
}

/// The counts of the header: where they are, of how many bytes, and the most of each.
const COUNTS: [(usize, usize, u16); 5] = [
    (MEDIATOR_MESSAGES_AT, 2, 514),
    (REQUESTER_MESSAGES_AT, 2, 513),
    (NODE_COUNT_AT, 1, MOST_NODES as u16),
    (EDGE_COUNT_AT, 2, MOST_EDGES as u16),
    (SHOWN_COUNT_AT, 1, MOST_SHOWN as u16),
];

/// The same record as layout number 1 had it: with one count of messages, and the other counts right after it.
pub fn in_layout_1(bytes: &[u8]) -> Vec<u8> {
    let number = |at: usize| u16::from_be_bytes([bytes[at], bytes[at + 1]]);
    let messages = number(MEDIATOR_MESSAGES_AT).wrapping_add(number(REQUESTER_MESSAGES_AT));
    let (before, counts) = (&bytes[1..MEDIATOR_MESSAGES_AT], &bytes[NODE_COUNT_AT..HEADER_USED]);
    [&[1], before, &messages.to_be_bytes(), counts, &[0; 2], &bytes[HEADER_USED..]].concat()
}

impl Random {
    /// A sound negotiation with its tables, or one with a fault in it.
    pub fn lent(&mut self, grown: &Grown) -> Lent {
        let mut lent = Lent { tables: grown.tables.records.concat(), negotiation: encode(&grown.negotiation) };
        match self.below(22) {
            0..=3 => {}
            4..=11 => lent.negotiation = encode(&self.faulty(grown)),
            12..=13 => lent.negotiation = encode(&self.miscounted(grown)),
            14..=17 => self.change_negotiation_bytes(&mut lent.negotiation),
            18..=19 => lent.tables = self.other_classes(grown),
            20 => self.other_tables(&mut lent.tables),
            _ => self.other_lengths(&mut lent),
        }
        lent
    }

    /// One fault, sometimes two, often with the end that fits afterwards.
    fn faulty(&mut self, grown: &Grown) -> Negotiation {
        let mut negotiation = grown.negotiation.clone();
        for _ in 0..[1, 1, 1, 2][self.below(4)] {
            let fault = NEGOTIATION_FAULTS[self.below(NEGOTIATION_FAULTS.len())];
            fault(self, &grown.tables.house, &mut negotiation);
        }
        let Negotiation { nodes, edges, .. } = &negotiation;
        let stand = |edge: &Edge| edge.parent < nodes.len() && edge.child < nodes.len();
        if !nodes.is_empty() && edges.iter().all(stand) && self.percent(50) {
            let ended = (negotiation.end, negotiation.idle, negotiation.messages);
            self.close(&mut negotiation);
            if self.percent(30) {
                (negotiation.end, negotiation.idle, negotiation.messages) = ended;
            }
        }
        negotiation
    }

    /// Nothing but the counts of messages is wrong, with nodes or without any.
    fn miscounted(&mut self, grown: &Grown) -> Negotiation {
        let mut negotiation = grown.negotiation.clone();
        if self.percent(20) {
            let Negotiation { side, own, other, wanted, .. } = negotiation;
            negotiation = Negotiation::fresh(side, own, other, wanted);
        }
        faults::messages(self, &grown.tables.house, &mut negotiation);
        negotiation
    }

    /// One change below the level of records.
    fn change_negotiation_bytes(&mut self, bytes: &mut [u8]) {
        // Of the edge count the low byte.
        let counts = [NODE_COUNT_AT, EDGE_COUNT_AT + 1, SHOWN_COUNT_AT].map(|at| bytes[at] as usize);
        let node = NODES_AT + NODE_BYTES * self.below(counts[0].max(1));
        let edge = EDGES_AT + EDGE_BYTES * self.below(counts[1].max(1));
        let credential = SHOWN_AT + CREDENTIAL_BYTES * self.below(counts[2].max(1));
        let small = self.below(8) as u8;
        match self.below(16) {
            0 => bytes[self.below(NEGOTIATION_BYTES)] = self.byte(),
            1 => bytes[self.below(HEADER_USED)] = small,
            2 => bytes[self.between(10, 11)] = small,
            3 => bytes[[0, 1][self.below(2)]] = small,
            4 => self.change_count(bytes),
            5 => self.fill_unused(bytes),
            6 => bytes[node + self.below(NODE_BYTES)] = small,
            7 => bytes[node + self.between(18, 21)] = small,
            8 => bytes[edge + self.below(EDGE_BYTES)] = small,
            9 => bytes[credential + self.below(CREDENTIAL_BYTES)] = small,
            13 => bytes[node + self.below(2)] = small,
            10 => bytes[node..node + NODE_BYTES].fill(0),
            11 => bytes[edge..edge + EDGE_BYTES].fill(0),
            12 => bytes[credential..credential + CREDENTIAL_BYTES].fill(0),
            14 => self.change_layout(bytes),
            _ => {
                let to = NODES_AT + NODE_BYTES * self.below(counts[0].max(1));
                bytes.copy_within(node..node + NODE_BYTES, to);
            }
        }
    }

    /// One more or less, the most, one more than that, or any.
    fn change_count(&mut self, bytes: &mut [u8]) {
        let (at, size, most) = COUNTS[self.below(COUNTS.len())];
        let field = &mut bytes[at..at + size];
        let count = field.iter().fold(0, |count: u16, &byte| count << 8 | u16::from(byte));
        let any = self.byte().into();
        let other = [count.wrapping_add(1), count.saturating_sub(1), most, most + 1, any][self.below(5)];
        field.copy_from_slice(&other.to_be_bytes()[2 - size..]);
    }

    /// The record as layout number 1 had it; with that number, or with ours.
    fn change_layout(&mut self, bytes: &mut [u8]) {
        bytes.copy_from_slice(&in_layout_1(bytes));
        if self.percent(30) {
            bytes[0] = LAYOUT;
        }
    }

    /// A byte that is not used is not zero: after the header, after the last record of a part, or at a part's end.
    fn fill_unused(&mut self, bytes: &mut [u8]) {
        let edge_count = u16::from_be_bytes([bytes[EDGE_COUNT_AT], bytes[EDGE_COUNT_AT + 1]]) as usize;
        let ends = [
            (HEADER_USED, NODES_AT),
            (NODES_AT + NODE_BYTES * bytes[NODE_COUNT_AT] as usize, EDGES_AT),
            (EDGES_AT + EDGE_BYTES * edge_count, SHOWN_AT),
            (SHOWN_AT + CREDENTIAL_BYTES * bytes[SHOWN_COUNT_AT] as usize, NEGOTIATION_BYTES),
        ];
        let (start, end) = ends[self.below(4)];
        if start < end {
            let at = [start, end - 1, self.between(start, end - 1)][self.below(3)];
            bytes[at] = 1 << self.below(8);
        }
    }

    /// Self and the names alone, one or all of them taken out, or one of another class; sometimes another self.
    fn other_classes(&mut self, grown: &Grown) -> Vec<u8> {
        let house = &grown.tables.house;
        let mut names: Vec<(u16, Class)> = house.names.clone();
        let at = self.below(names.len().max(1));
        let mut own = house.own;
        match self.below(10) {
            0 => own = self.entity(house.world),
            1 => names.clear(),
            2..=5 if !names.is_empty() => names[at].1 = ALL_CLASSES[self.below(3)],
            6..=8 if !names.is_empty() => drop(names.remove(at)),
            _ => {}
        }
        let mut records: Vec<Vec<u8>> =
            names.into_iter().map(|(name, class)| encode_record(&Record::Name(name, class))).collect();
        records.sort();
        [vec![encode_record(&Record::Own(own))], records].concat().concat()
    }

    /// Tables that may be refused, or a fault in these.
    fn other_tables(&mut self, tables: &mut Vec<u8>) {
        if self.percent(70) {
            *tables = self.tables();
        } else {
            let at = self.below(tables.len());
            tables[at] = self.byte();
        }
    }

    fn other_lengths(&mut self, lent: &mut Lent) {
        let any = self.between(0, 2 * NEGOTIATION_BYTES);
        let length = [0, 1, NEGOTIATION_BYTES - 1, NEGOTIATION_BYTES + 1, any][self.below(5)];
        let tables_length = [0, MOST_TABLES_BYTES, MOST_TABLES_BYTES + 1][self.below(3)];
        match self.below(4) {
            0 => lent.tables.resize(tables_length, 0),
            1 => {
                lent.tables.resize(tables_length, 0);
                lent.negotiation.resize(length, 0);
            }
            _ => lent.negotiation.resize(length, 0),
        }
    }
}

/// Asks about the negotiation with each byte changed in some ways.
pub fn each_byte(lent: &Lent, mut ask: impl FnMut(&Lent)) {
    for at in 0..NEGOTIATION_BYTES {
        let changed = match lent.negotiation[at] {
            0 => vec![1, 128],
            old => vec![old.wrapping_add(1), old - 1, old ^ 128, 0],
        };
        for byte in changed {
            let mut other = lent.clone();
            other.negotiation[at] = byte;
            ask(&other);
        }
    }
}

/// The marked cases at their ends, and some small random ones.
pub fn some_small(random: &mut Random) -> Vec<Lent> {
    let mut small = Vec::new();
    for side in [Side::Mediator, Side::Requester] {
        for success in [true, false] {
            let (tables, negotiation) = marked_case(side, success);
            small.push(Lent { tables, negotiation: encode(&negotiation) });
        }
    }
    for _ in 0..4 {
        let grown = random.grown_to(Extent { nodes: 12, edges: 20, shown: 10 });
        small.push(Lent { tables: grown.tables.records.concat(), negotiation: encode(&grown.negotiation) });
    }
    small
}

#[cfg(test)]
mod tests {
    use super::*;
    use crate::negotiation::clause::Clause;
    use crate::negotiation::counts::NegotiationCounts;
    use crate::negotiation::report::{judge, Refused};

    /// Every clause is the first to find damage in some, all that is wrong with counts occurs, sound ones have names that
    /// are not listed at each place, and what is read is written back.
    #[test]
    fn every_damage_occurs() {
        let mut random = Random::new(9);
        let (mut counts, mut in_old_layout) = (NegotiationCounts::default(), 0);
        for _ in 0..5000 {
            let grown = random.grown();
            for _ in 0..4 {
                let lent = random.lent(&grown);
                if lent.negotiation.len() == NEGOTIATION_BYTES {
                    if let Ok(negotiation) = decode(&lent.negotiation) {
                        assert_eq!(encode(&negotiation), lent.negotiation);
                    }
                }
                counts.lent(&lent.negotiation);
                counts.judged(&lent.tables, &judge(&lent.tables, &lent.negotiation));
                in_old_layout += (lent.negotiation == in_layout_1(&encode(&grown.negotiation))) as u64;
            }
        }
        assert_eq!(counts.missing_damage(), [""; 0]);
        assert_eq!(counts.missing_unlisted(), [""; 0]);
        assert!(in_old_layout > 50, "{in_old_layout} in layout number 1");
    }

    /// Case (i) at its end as layout number 1 had it: 4 messages, 5 nodes, 4 edges, 3 credentials.
    #[test]
    fn layout_1() {
        let (tables, negotiation) = marked_case(Side::Mediator, true);
        let old = in_layout_1(&encode(&negotiation));
        assert_eq!(old[..20], [1, 0, 0, 3, 0, 2, 0, 3, 0, 1, 1, 0, 0, 4, 5, 0, 4, 3, 0, 0]);
        assert_eq!(old[20..], encode(&negotiation)[20..]);
        assert_eq!(judge(&tables, &old).err(), Some(Refused::Damaged(Clause::Layout)));
    }
}
