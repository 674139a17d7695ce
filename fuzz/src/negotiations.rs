//! Begins and reports, the engine's beside the reference's.

use crate::before::{self, Request};
use crate::{hex, Guarded};
use engine::{lavutremo_begin, lavutremo_report};
use reference::negotiation::begin::begin;
use reference::negotiation::bytes::{self, Lent};
use reference::negotiation::counts::NegotiationCounts;
use reference::negotiation::report::{answer, judge};
use reference::negotiation::sample::Grown;
use reference::negotiation::NODE_COUNT_AT;
use reference::random::Random;
use reference::rules::expression::Role;
use std::collections::BTreeSet;

/// Negotiations and what the calls on them answered.
#[derive(Default)]
struct Negotiations {
    passed: u64,
    failed: u64,
    counts: NegotiationCounts,
}

/// Node 0, the first absent one and 255; where the negotiation is sound, up to 16 others, or all where there are fewer.
fn nodes_asked(random: &mut Random, count: u8, sound: bool) -> BTreeSet<u8> {
    let others = match (sound, count) {
        (false, _) | (_, 0) => vec![],
        (true, 1..=16) => (0..count).collect(),
        (true, _) => (0..16).map(|_| random.byte() % count).collect(),
    };
    [0, count, 255].into_iter().chain(others).collect()
}

impl Negotiations {
    fn note(&mut self, same: bool, case: impl FnOnce() -> String) {
        if same {
            self.passed += 1;
            return;
        }
        self.failed += 1;
        if self.failed == 1 {
            println!("first difference on a negotiation: {}", case());
        }
    }

    /// Reports on some nodes.
    fn report(&mut self, random: &mut Random, lent: &Lent) {
        let Lent { tables, negotiation } = lent;
        let judged = judge(tables, negotiation);
        self.counts.lent(negotiation);
        self.counts.judged(tables, &judged);
        let count = negotiation.get(NODE_COUNT_AT).copied().unwrap_or(0);
        let mut buffers = [tables, negotiation].map(|content| Guarded::new(random, content));
        let copies = buffers.each_ref().map(|buffer| buffer.bytes.clone());
        for node in nodes_asked(random, count, judged.is_ok()) {
            let expected = answer(&judged, node);
            self.counts.reported(expected);
            let [tables_at, negotiation_at] = buffers.each_mut().map(Guarded::pointer);
            // Each pointer goes with the length of what it points to, and the engine keeps none.
            let got = unsafe { lavutremo_report(tables_at, tables.len(), negotiation_at, negotiation.len(), node) };
            before::compare(Request::Report { node }, &[tables, negotiation], got, &buffers);
            let kept = buffers.iter().map(|buffer| &buffer.bytes).eq(&copies);
            self.note(got == expected && kept, || {
                let why = judged.as_ref().err();
                let [tables, negotiation] = [tables, negotiation].map(|bytes| hex(bytes));
                format!(
                    "report on node {node}: engine {got}, reference {expected} {why:?}, bytes kept: {kept}\n  \
                         tables {tables}\n  negotiation {negotiation}"
                )
            });
        }
    }

    /// Begins in the negotiation's bytes.
    fn begin(&mut self, random: &mut Random, lent: &Lent, other: u16, wanted: Role) {
        let Lent { tables, negotiation } = lent;
        let mut after = negotiation.clone();
        let expected = begin(tables, &mut after, other, wanted);
        self.counts.begun(expected);
        let mut buffers = [tables, negotiation].map(|content| Guarded::new(random, content));
        let copies = [buffers[0].bytes.clone(), buffers[1].with(&after)];
        let [tables_at, negotiation_at] = buffers.each_mut().map(Guarded::pointer);
        let Role { entity, name } = wanted;
        // Each pointer goes with the length of what it points to, and the engine keeps none.
        let got =
            unsafe { lavutremo_begin(tables_at, tables.len(), negotiation_at, negotiation.len(), other, entity, name) };
        before::compare(Request::Begin { other, wanted }, &[tables, negotiation], got, &buffers);
        let same_bytes = buffers.iter().map(|buffer| &buffer.bytes).eq(&copies);
        self.note(got == expected && same_bytes, || {
            let tables = hex(tables);
            format!(
                "begin with {other}, {entity}.{name}: engine {got}, reference {expected}, bytes as they must be: \
                     {same_bytes}\n  tables {tables}\n  negotiation {} bytes",
                negotiation.len()
            )
        });
    }
}

/// Another end and a wanted role, which may be wrong.
fn begin_arguments(random: &mut Random, grown: &Grown) -> (u16, Role) {
    let house = &grown.tables.house;
    let other = [0, house.own, random.entity(house.world), random.entity(house.world)][random.below(4)];
    // Of a name that is listed or not.
    let mut wanted = random.role(house.world);
    match random.below(8) {
        0 => wanted.entity = 0,
        1 => wanted.name = 0,
        2..=3 => wanted = Role { entity: 0, name: 0 },
        _ => {}
    }
    (other, wanted)
}

/// Returns how many calls on negotiations passed and failed.
pub fn ask_negotiations(seed: u64, count: u64) -> (u64, u64) {
    let (mut random, mut guards) = (Random::new(seed), Random::new(!seed));
    let mut all = Negotiations::default();
    let mut grown = random.grown();
    for i in 0..count {
        // Each is lent four times, with another fault or none.
        if i % 4 == 0 {
            grown = random.grown();
        }
        let lent = random.lent(&grown);
        all.report(&mut guards, &lent);
        if random.percent(25) {
            let (other, wanted) = begin_arguments(&mut random, &grown);
            all.begin(&mut guards, &lent, other, wanted);
        }
    }
    let mut changed_count = 0;
    let small = bytes::some_small(&mut random);
    for lent in &small {
        bytes::each_byte(lent, |changed| {
            all.report(&mut guards, changed);
            changed_count += 1;
        });
        let negotiation = bytes::in_layout_1(&lent.negotiation);
        all.report(&mut guards, &Lent { negotiation, ..lent.clone() });
    }
    println!("{count} negotiations, {changed_count} with each byte changed, {} in layout number 1", small.len());
    all.counts.print();
    let missing = all.counts.missing();
    if count >= 100_000 && !missing.is_empty() {
        println!("never occurred: {}", missing.join(", "));
        all.failed += 1;
    }
    (all.passed, all.failed)
}
