//! Takes, the engine's beside the reference's.

use crate::before::{self, Request};
use crate::{hex, Guarded};
use engine::lavutremo_take;
use reference::message::bytes::many;
use reference::message::counts::TakeCounts;
use reference::message::shapes::{marked_takes, size_runs};
use reference::message::take::{judge, Accepted, Lent, Refused};
use reference::message::writer::Run;
use reference::negotiation::encode;
use reference::random::Random;

/// Takes and what they answered.
#[derive(Default)]
struct Takes {
    passed: u64,
    failed: u64,
    counts: TakeCounts,
}

/// The engine's answer, and whether all bytes of the four buffers, and those beside them, are as they must be if the
/// negotiation and the scratch became these.
fn take_engine(random: &mut Random, lent: &Lent, negotiation: &[u8], scratch: &[u8]) -> (u64, [bool; 4]) {
    let contents = [&lent.tables, &lent.negotiation, &lent.message, &lent.scratch];
    let mut buffers = contents.map(|content| Guarded::new(random, content));
    let after: [&[u8]; 4] = [&lent.tables, negotiation, &lent.message, scratch];
    let expected = [0, 1, 2, 3].map(|i| buffers[i].with(after[i]));
    let [tables_at, negotiation_at, message_at, scratch_at] = buffers.each_mut().map(Guarded::pointer);
    let [tables_len, negotiation_len, message_len, scratch_len] = contents.map(Vec::len);
    // Each pointer goes with the length of what it points to, and the engine keeps none.
    let answer = unsafe {
        lavutremo_take(
            tables_at,
            tables_len,
            negotiation_at,
            negotiation_len,
            message_at,
            message_len,
            scratch_at,
            scratch_len,
        )
    };
    before::compare(Request::Take, &contents.map(Vec::as_slice), answer, &buffers);
    (answer, [0, 1, 2, 3].map(|i| buffers[i].bytes == expected[i]))
}

impl Takes {
    /// What the reference judged, after the engine's answer was compared with it.
    fn ask(&mut self, guards: &mut Random, lent: &Lent) -> Result<Accepted, Refused> {
        let judged = judge(&lent.tables, &lent.negotiation, &lent.message, &lent.scratch);
        self.counts.taken(lent, &judged);
        let (expected, negotiation, scratch) = match &judged {
            Ok(accepted) => (0, encode(&accepted.after), vec![0; lent.scratch.len()]),
            Err(refused) => (refused.refusal as u64, lent.negotiation.clone(), lent.scratch.clone()),
        };
        let (answer, same_bytes) = take_engine(guards, lent, &negotiation, &scratch);
        if answer == expected && same_bytes == [true; 4] {
            self.passed += 1;
            return judged;
        }
        self.failed += 1;
        if self.failed == 1 {
            println!("first difference on a take: engine {answer}, reference {expected} {:?}", judged.as_ref().err());
            println!("  bytes as they must be in tables, negotiation, message, scratch: {same_bytes:?}");
            println!("  tables      {}", hex(&lent.tables));
            println!("  negotiation {}", hex(&lent.negotiation));
            println!("  message     {}", hex(&lent.message));
            println!("  scratch     {} bytes", lent.scratch.len());
        }
        judged
    }

    /// The marked cases and the sizes, a line each.
    fn ask_run(&mut self, guards: &mut Random, run: &Run) {
        let failed = self.failed;
        let answer = match self.ask(guards, &run.lent) {
            Ok(_) => 0,
            Err(refused) => refused.refusal as u64,
        };
        let as_expected = answer == run.answer && self.failed == failed;
        let verdict = if as_expected { "as it must be" } else { "WRONG" };
        println!("take of {}, {} bytes: {answer}, {verdict}", run.name, run.lent.message.len());
        self.failed += (answer != run.answer) as u64;
    }
}

/// Returns how many takes passed and failed.
pub fn ask_takes(seed: u64, count: u64) -> (u64, u64) {
    let (mut random, mut guards) = (Random::new(seed), Random::new(!seed));
    let mut all = Takes::default();
    for run in [marked_takes(true).0, marked_takes(false).0, size_runs()].concat() {
        all.ask_run(&mut guards, &run);
    }
    many(&mut random, count, |lent| all.ask(&mut guards, lent));
    println!("{count} random takes");
    all.counts.print();
    let missing = all.counts.missing();
    if count >= 100_000 && !missing.is_empty() {
        println!("never occurred: {}", missing.join(", "));
        all.failed += 1;
    }
    (all.passed, all.failed)
}
