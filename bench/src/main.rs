//! Times the engine beside the reference, in microseconds: questions over 64 credentials, then a check of tables at
//! their sizes, then reports on negotiations, then takes of messages, then replies; `bench tables`, `bench report`,
//! `bench take` and `bench reply` do one of the latter alone. `bench count` counts instructions and bytes copied.
//!
//! `bench search STEPS [SEED]` looks for questions that take longest, `bench search take STEPS [SEED]` for takes with
//! most instructions, as do `search reply` and `search report`. `bench take repeat WORDS TIMES` takes the messages
//! whose name has the words so many times, for a profile, and `bench reply repeat WORDS TIMES` gives such replies.

mod calls;
mod case;
mod change;
mod count;
mod counter;
mod found;
mod question;
mod question_search;
mod reply;
mod report;
mod search;
mod tables;
mod take;

use case::Kind;
use std::env;
use std::hint::black_box;
use std::process::exit;
use std::time::Instant;

/// Microseconds a call: the least of so many batches of so many calls, as other work on the machine only adds to it.
fn least(call: impl Fn() -> u64, count: u32, batches: u32) -> f64 {
    let batch = |_| {
        let start = Instant::now();
        for _ in 0..count {
            black_box(call());
        }
        start.elapsed().as_secs_f64() * 1e6 / count as f64
    };
    (0..batches).map(batch).fold(f64::INFINITY, f64::min)
}

/// The same in batches of a quarter of a millisecond or more.
fn time(call: impl Fn() -> u64) -> f64 {
    let count = 250.0 / least(&call, 1, 3);
    least(&call, count.ceil() as u32, 30)
}

fn usage() -> ! {
    println!("usage: bench [count | tables | report | take | reply | search [take | reply | report] STEPS [SEED]]");
    exit(2);
}

fn number(text: &str) -> u32 {
    text.parse().unwrap_or_else(|_| usage())
}

/// Questions by time, the others by instructions.
fn search(arguments: &[&str]) {
    let (kind, rest) = match arguments {
        ["take", rest @ ..] => (Some(Kind::Take), rest),
        ["reply", rest @ ..] => (Some(Kind::Reply), rest),
        ["report", rest @ ..] => (Some(Kind::Report), rest),
        rest => (None, rest),
    };
    let (steps, seed) = match rest {
        [steps] => (number(steps), 1),
        [steps, seed] => (number(steps), number(seed).into()),
        _ => usage(),
    };
    match kind {
        Some(kind) => search::search(kind, steps, seed),
        None => question_search::search(steps, seed),
    }
}

fn main() {
    let arguments: Vec<String> = env::args().skip(1).collect();
    let arguments: Vec<&str> = arguments.iter().map(String::as_str).collect();
    match arguments[..] {
        [] => {
            question::table();
            println!();
            tables::table();
            println!();
            report::table();
            println!();
            take::table();
            println!();
            reply::table();
        }
        ["count"] => count::table(),
        ["tables"] => tables::table(),
        ["report"] => report::table(),
        ["take"] => take::table(),
        ["take", "repeat", words, times] => take::repeat(words, number(times) as usize),
        ["reply"] => reply::table(),
        ["reply", "repeat", words, times] => reply::repeat(words, number(times)),
        ["search", ref rest @ ..] => search(rest),
        _ => usage(),
    }
}
