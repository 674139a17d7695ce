//! Counts the instructions of calls by callgrind, and the bytes that they copy. replay.c makes the calls; the counts do
//! not depend on what else runs.

use crate::calls::{Call, ROW_END};
use std::env;
use std::fs;
use std::io::{BufRead, BufReader, Write};
use std::path::{Path, PathBuf};
use std::process::{exit, Child, ChildStdin, ChildStdout, Command, Stdio};

/// Else a copy of a large block counts once for each byte.
const TUNABLES: &str = "glibc.cpu.x86_rep_movsb_threshold=100000000:glibc.cpu.x86_rep_stosb_threshold=100000000";

fn fail(why: &str) -> ! {
    println!("{why}");
    exit(1);
}

/// A program of replay.c that waits for the next row.
struct Replay {
    child: Child,
    input: ChildStdin,
    output: BufReader<ChildStdout>,
}

impl Replay {
    fn start(command: &mut Command) -> Replay {
        let started = command.stdin(Stdio::piped()).stdout(Stdio::piped()).spawn();
        let mut child =
            started.unwrap_or_else(|_| fail("valgrind, build/replay or build/copied is missing: make count"));
        let (input, output) = (child.stdin.take().unwrap(), child.stdout.take().unwrap());
        Replay { child, input, output: BufReader::new(output) }
    }

    /// Makes the calls, and gives the bytes copied.
    fn row(&mut self, calls: &[Call]) -> u64 {
        let mut bytes: Vec<u8> = calls.iter().flat_map(Call::encode).collect();
        bytes.push(ROW_END);
        let mut line = String::new();
        let done = self.input.write_all(&bytes).and_then(|()| self.input.flush());
        if done.and_then(|()| self.output.read_line(&mut line)).is_err() || line.is_empty() {
            fail("the calls were not made");
        }
        line.trim().parse().unwrap()
    }
}

impl Drop for Replay {
    fn drop(&mut self) {
        // Its input ends with this process at the latest, and it with that.
        let _ = self.child.kill();
        let _ = self.child.wait();
    }
}

/// The folder of this program.
pub fn here() -> PathBuf {
    env::current_exe().unwrap().parent().unwrap().to_path_buf()
}

/// Counts instructions.
pub struct Counter {
    replay: Replay,
    /// Where callgrind writes what it counted: this with a dot and a number.
    profile: PathBuf,
    /// How many rows were counted.
    pub rows: usize,
}

impl Counter {
    /// Its profiles go into this folder beside the program.
    pub fn new(folder: &str) -> Counter {
        let folder = here().join(folder);
        let _ = fs::remove_dir_all(&folder);
        fs::create_dir_all(&folder).unwrap_or_else(|_| fail("the folder for profiles cannot be made"));
        let profile = folder.join("row");
        let mut valgrind = Command::new("valgrind");
        valgrind.args(["--tool=callgrind", "--quiet", "--collect-atstart=no", "--toggle-collect=lavutremo_*"]);
        valgrind.arg(format!("--callgrind-out-file={}", profile.display())).arg(here().join("replay"));
        valgrind.env("GLIBC_TUNABLES", TUNABLES);
        Counter { replay: Replay::start(&mut valgrind), profile, rows: 0 }
    }

    fn dumped(&self) -> PathBuf {
        self.profile.with_extension(self.rows.to_string())
    }

    /// The instructions of the calls, without those around them.
    pub fn count(&mut self, calls: &[Call]) -> u64 {
        self.replay.row(calls);
        self.rows += 1;
        totals(&self.dumped()).unwrap_or_else(|| fail("callgrind wrote no count"))
    }

    /// Removes the profile of the last row.
    pub fn forget(&self) {
        let _ = fs::remove_file(self.dumped());
    }
}

fn totals(profile: &Path) -> Option<u64> {
    let text = fs::read_to_string(profile).ok()?;
    text.lines().find_map(|line| line.strip_prefix("totals: "))?.trim().parse().ok()
}

/// Counts the bytes that memcpy copies.
pub struct Copies {
    replay: Replay,
}

impl Copies {
    pub fn new() -> Copies {
        Copies { replay: Replay::start(&mut Command::new(here().join("copied"))) }
    }

    pub fn count(&mut self, calls: &[Call]) -> u64 {
        self.replay.row(calls)
    }
}
