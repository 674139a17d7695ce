//! What occurred among many checks of tables, by the reference's answers, and what never did.

use crate::refusal::Refusal;
use crate::tables::Tables;
use std::collections::BTreeMap;

const NUMBERS: [u64; 6] = [0, 1, 2, 3, 5, 6];

/// Where accepted tables can have a name that they do not list.
type Place = fn(&Tables) -> bool;

const UNLISTED: [(&str, Place); 8] = [
    ("head of 0x13", |t| t.subject_stored.iter().any(|stored| t.has_unlisted(&[stored.head.name]))),
    ("body of 0x12", |t| t.issuer_stored.iter().any(|stored| t.has_unlisted(&stored.body.names()))),
    ("body of 0x13", |t| t.subject_stored.iter().any(|stored| t.has_unlisted(&stored.body.names()))),
    ("sensitive role", |t| t.sensitive.iter().any(|guard| t.has_unlisted(&[guard.role.name]))),
    ("sensitive role with an AC role", |t| t.access.iter().any(|guard| t.has_unlisted(&[guard.role.name]))),
    ("Ack role", |t| t.sensitive.iter().any(|guard| t.has_unlisted(&[guard.by.name]))),
    ("AC role", |t| t.access.iter().any(|guard| t.has_unlisted(&[guard.by.name]))),
    ("all names, with AC records", |t| t.names.is_empty() && !t.access.is_empty()),
];

#[derive(Default)]
pub struct TableCounts {
    numbers: BTreeMap<u64, u64>,
    /// Accepted tables with a name that is not listed, by the place of it.
    unlisted: BTreeMap<&'static str, u64>,
}

impl TableCounts {
    pub fn checked(&mut self, decoded: &Result<Tables, Refusal>) {
        let number = decoded.as_ref().err().map_or(0, |&refusal| refusal as u64);
        *self.numbers.entry(number).or_default() += 1;
        if let Ok(tables) = decoded {
            for (place, _) in UNLISTED.iter().filter(|(_, has)| has(tables)) {
                *self.unlisted.entry(place).or_default() += 1;
            }
        }
    }

    pub fn print(&self) {
        let times = |number: &u64| self.numbers.get(number).unwrap_or(&0);
        let refused: Vec<String> =
            NUMBERS[1..].iter().map(|number| format!("refused {number} {}", times(number))).collect();
        println!("tables: accepted {}, {}", times(&0), refused.join(", "));
        let places: Vec<String> = self.unlisted.iter().map(|(place, times)| format!("{place} {times}")).collect();
        println!("accepted tables with a name that is not listed: {}", places.join(", "));
    }

    /// What a large run must have met and did not.
    pub fn missing(&self) -> Vec<String> {
        let numbers = NUMBERS.iter().filter(|number| !self.numbers.contains_key(number));
        let places = UNLISTED.iter().filter(|(place, _)| !self.unlisted.contains_key(place));
        let of_places = places.map(|(place, _)| format!("tables with a name that is not listed: {place}"));
        numbers.map(|number| format!("tables {number}")).chain(of_places).collect()
    }
}
