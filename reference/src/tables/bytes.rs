//! Random and faulty house tables in bytes.

use crate::random::Random;
use crate::tables::faults::FAULTS;
use crate::tables::records::*;
use crate::tables::sample::{Sample, FULL};
use crate::tables::shapes::TABLE_SHAPES;
use crate::tables::MOST_TABLES_BYTES;

impl Random {
    /// Random tables, four in ten without a fault.
    pub fn tables(&mut self) -> Vec<u8> {
        let sizes = self.sizes();
        let mut sample = self.sample(sizes);
        match self.below(20) {
            0..=5 => {}
            6..=13 => self.put_faults(&mut sample),
            14 => {
                let command = self.between(NAME as usize, SENSITIVE as usize) as u8;
                sample = self.one_too_many(command);
            }
            15 => self.shuffle_some(&mut sample.records),
            16 => return self.cut(sample.records.concat()),
            17 => return self.change_bytes(sample.records.concat()),
            18 if self.percent(80) => return self.loose_records(),
            18 => {
                let count = self.between(0, 100);
                return self.bytes(count);
            }
            _ => return self.other_length(sample.records.concat()),
        }
        sample.records.concat()
    }

    /// One fault, sometimes two, often with the records in order afterwards.
    fn put_faults(&mut self, sample: &mut Sample) {
        for _ in 0..[1, 1, 1, 2][self.below(4)] {
            if !sample.records.is_empty() {
                let (fault, at) = (FAULTS[self.below(FAULTS.len())], self.below(sample.records.len()));
                self.put_fault(sample, fault, at);
            }
        }
        if self.percent(60) {
            sample.records.sort();
        }
    }

    /// All records, all but the first, or the records of one command.
    fn shuffle_some(&mut self, records: &mut [Vec<u8>]) {
        let command = records[self.below(records.len())][0];
        match self.below(3) {
            0 => self.shuffle(records),
            1 => self.shuffle(&mut records[1..]),
            _ => {
                let start = records.iter().position(|record| record[0] == command).unwrap();
                let count = records.iter().filter(|record| record[0] == command).count();
                self.shuffle(&mut records[start..start + count]);
            }
        }
    }

    fn cut(&mut self, mut bytes: Vec<u8>) -> Vec<u8> {
        bytes.truncate(self.below(bytes.len() + 1));
        bytes
    }

    fn change_bytes(&mut self, mut bytes: Vec<u8>) -> Vec<u8> {
        for _ in 0..self.between(1, 3) {
            let at = self.below(bytes.len());
            bytes[at] = if self.percent(50) { self.byte() } else { self.below(5) as u8 };
        }
        bytes
    }

    /// A few records of any form and command after self and some names.
    fn loose_records(&mut self) -> Vec<u8> {
        let name_count = self.between(0, 6);
        let mut sample = self.sample([name_count, 0, 0, 0, 0]);
        for _ in 0..self.between(1, 4) {
            let record = self.loose_record(&sample);
            sample.records.push(record);
        }
        if self.percent(70) {
            sample.records.sort();
        }
        sample.records.concat()
    }

    /// At a bound of the length or beyond it, by zeros or by the tables once more.
    fn other_length(&mut self, bytes: Vec<u8>) -> Vec<u8> {
        let most = MOST_TABLES_BYTES;
        let length = [0, 1, most - 1, most, most + 1, self.between(most + 1, 2 * most)][self.below(6)];
        let fill = if self.percent(50) { vec![0] } else { bytes.clone() };
        bytes.into_iter().chain(fill.into_iter().cycle()).take(length).collect()
    }
}

/// Asks about the tables with each fault at each record, in two orders, cut at each byte, and changed at each byte.
pub fn each_fault(random: &mut Random, sample: &Sample, mut ask: impl FnMut(&[u8])) {
    let whole = sample.records.concat();
    ask(&whole);
    for at in 0..sample.records.len() {
        for fault in FAULTS {
            let mut faulty = sample.clone();
            random.put_fault(&mut faulty, fault, at);
            ask(&faulty.records.concat());
            faulty.records.sort();
            ask(&faulty.records.concat());
        }
    }
    for at in 0..whole.len() {
        ask(&whole[..at]);
        for byte in [0, random.below(6) as u8, whole[at].wrapping_add(1), whole[at].wrapping_sub(1)] {
            let mut changed = whole.clone();
            changed[at] = byte;
            ask(&changed);
        }
    }
}

/// Asks about such tables of all sizes: the same ones for the same seed.
pub fn each_fault_of_each_size(random: &mut Random, mut ask: impl FnMut(&[u8])) {
    for shape in &TABLE_SHAPES {
        ask(&(shape.bytes)());
    }
    for command in NAME..=SENSITIVE {
        ask(&random.one_too_many(command).records.concat());
    }
    let small = [6, 6, 6, 4, 3];
    for sizes in [[small; 8].to_vec(), vec![FULL]].concat() {
        let sample = random.sample(sizes);
        each_fault(random, &sample, &mut ask);
    }
}

#[cfg(test)]
mod tests {
    use super::*;
    use crate::rules::expression::Expression;
    use crate::tables::counts::TableCounts;
    use crate::tables::faults::Fault;
    use crate::tables::sample::FULL_BYTES;
    use crate::tables::{check, decode};

    #[test]
    fn good_tables() {
        let mut random = Random::new(1);
        let (mut links, mut intersections, mut sensitive, mut access) = (0, 0, 0, 0);
        for _ in 0..2000 {
            let sizes = random.sizes();
            let tables = decode(&random.sample(sizes).records.concat()).unwrap();
            let all = [&tables.issuer_stored[..], &tables.subject_stored].concat();
            links += all.iter().filter(|c| matches!(c.body, Expression::Linked(..))).count();
            intersections += all.iter().filter(|c| matches!(c.body, Expression::Intersection(_))).count();
            sensitive += tables.sensitive.len();
            access += tables.access.len();
        }
        let counts = [links, intersections, sensitive, access];
        println!("links, intersections, sensitive, access: {counts:?}");
        assert!(counts.iter().all(|&count| count > 2000));
    }

    #[test]
    fn full_tables() {
        let mut random = Random::new(1);
        for _ in 0..20 {
            let bytes = random.sample(FULL).records.concat();
            assert_eq!((bytes.len(), check(&bytes)), (FULL_BYTES, 0));
            for command in NAME..=SENSITIVE {
                let sample = random.one_too_many(command);
                assert_eq!(check(&sample.records.concat()), 6);
                // It is the one record that is refused.
                let last = sample.records.iter().rposition(|record| record[0] == command).unwrap();
                assert_eq!(check(&sample.records[..last].concat()), 0);
                assert_eq!(check(&sample.records[..=last].concat()), 6);
            }
        }
    }

    /// All numbers but 4, which no tables get, and names that are not listed at each place.
    #[test]
    fn every_number_occurs() {
        let mut random = Random::new(1);
        let (mut counts, mut all) = ([0; 7], TableCounts::default());
        for _ in 0..10_000 {
            let bytes = random.tables();
            counts[check(&bytes) as usize] += 1;
            all.checked(&decode(&bytes));
        }
        println!("random tables, 0 to 6: {counts:?}");
        assert!([0, 1, 2, 3, 5, 6].iter().all(|&number| counts[number] > 100));
        all.print();
        assert_eq!(all.missing(), [""; 0]);
        let mut counts = [0; 7];
        each_fault_of_each_size(&mut random, |bytes| counts[check(bytes) as usize] += 1);
        println!("each fault at each place, 0 to 6: {counts:?}");
        assert!(counts[0] > 0 && [2, 3, 5, 6].iter().all(|&number| counts[number] > 100));
    }

    #[test]
    fn faults() {
        let mut random = Random::new(1);
        for fault in FAULTS {
            let mut counts = [0; 7];
            for _ in 0..500 {
                let mut sample = random.sample([6, 6, 6, 4, 3]);
                let at = random.below(sample.records.len());
                random.put_fault(&mut sample, fault, at);
                sample.records.sort();
                counts[check(&sample.records.concat()) as usize] += 1;
            }
            println!("{fault:?}, in order, 0 to 6: {counts:?}");
            // Back in order, these two are no fault.
            assert_eq!(counts[0] == 500, [Fault::SwapWithNext, Fault::Move].contains(&fault));
        }
    }
}
