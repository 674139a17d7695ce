//! reading [check]: writes docs/READING.md, the meaning of the promises file by file, or says where it is not current. It follows the
//! definitions from the contracts of the calls and from the laws that docs/PROOFS.md names. Fails where one of them stands among the
//! laws, or where specs/ has a definition that nothing rests on. Run in the repository's root.
mod items;
mod trace;

use items::{code, Item};
use std::collections::HashSet;
use std::fs;
use std::path::{Path, PathBuf};
use std::process::exit;
use trace::{Place, Specs};

fn files_below(folder: &Path, found: &mut Vec<PathBuf>) {
    let Ok(entries) = fs::read_dir(folder) else { return };
    for path in entries.flatten().map(|e| e.path()) {
        if path.is_dir() {
            files_below(&path, found);
        } else if path.extension().is_some_and(|e| e == "antt") {
            found.push(path);
        }
    }
}

fn modules(file: PathBuf) -> Vec<String> {
    let text = fs::read_to_string(file).unwrap_or_default();
    text.lines().filter_map(|l| l.strip_prefix("pub mod ")).map(String::from).collect()
}

/// The files of specs/ in reading order: crates from the ground up, files as their root lists them.
fn in_order(crates: &[String]) -> Vec<PathBuf> {
    let mut found = Vec::new();
    for name in crates {
        let folder = PathBuf::from(format!("crates/{name}/specs"));
        found.extend(modules(folder.join("Lib.antt")).into_iter().map(|m| folder.join(m + ".antt")));
    }
    found.retain(|f| f.exists());
    found
}

fn lines_of(item: &Item) -> usize {
    item.lines.iter().filter(|l| !code(l).trim().is_empty()).count()
}

/// The first sentence, without what every file says of itself.
fn sentence(head: &str) -> String {
    let head = head.replace("Assumes nothing.", "");
    head.trim().trim_end_matches('.').to_string()
}

/// A table of the files with these definitions, and how many lines and files they are.
fn table(specs: &Specs, order: &[PathBuf], places: &HashSet<Place>) -> (String, usize, usize) {
    let mut rows = String::from("| file | lines | what it says |\n|---|---:|---|\n");
    let (mut total, mut count) = (0, 0);
    for path in order {
        let here = places.iter().filter(|p| &p.0 == path && !specs.item(p).is_law);
        let lines: usize = here.map(|p| lines_of(specs.item(p))).sum();
        if lines > 0 {
            (total, count) = (total + lines, count + 1);
            rows += &format!("| [{0}](../{0}) | {lines} | {1} |\n", path.display(), sentence(&specs.files[path].head));
        }
    }
    (rows, total, count)
}

fn page(specs: &Specs, order: &[PathBuf], traced: &HashSet<Place>, believed: &HashSet<Place>) -> String {
    let (read, total, count) = table(specs, order, believed);
    let settled = traced.difference(believed).cloned().collect();
    let (found, settled_total, settled_count) = table(specs, order, &settled);
    format!(
        "# What a reader must believe\n\n\
        The definitions that the contracts of the calls and the theorems of [PROOFS](PROOFS.md) rest on, in reading order: \
        {total} lines in\n{count} files, comments and imports not counted. What is proved about them stands in the folders `laws/`, \
        and nobody has to read it.\n\
        `make reading` writes this page; the tests fail where it is not current, where one of these definitions stands among the laws,\n\
        or where `specs/` has one that no promise rests on.\n\n{read}\n\
        ## How an answer is found\n\n\
        {settled_total} more lines in {settled_count} files say how an answer is found. The theorems in the table \"Settled\" of \
        [PROOFS](PROOFS.md) say exactly which\nanswer it is, with the definitions above alone: who has read those need not read these.\n\n{found}"
    )
}

/// Definitions among the laws that a promise rests on, and definitions outside that none rests on.
fn misplaced(specs: &Specs, traced: &HashSet<Place>) -> Vec<String> {
    let mut found = Vec::new();
    for file in specs.files.values() {
        for (at, item) in file.items.iter().enumerate() {
            let rests = traced.contains(&(file.path.clone(), at)) && !item.is_law;
            let name = format!("{}: {}", file.path.display(), item.name);
            if rests && file.is_laws() {
                found.push(format!("{name} stands among the laws, and a promise rests on it"));
            } else if !rests && !file.is_laws() {
                found.push(format!("{name} stands in specs/, and no promise rests on it"));
            }
        }
    }
    found.sort();
    found
}

fn main() {
    let names = fs::read_to_string("crates.txt").expect("crates.txt in this folder");
    let crates: Vec<String> = names.lines().filter_map(|l| l.split_once(':')).filter_map(|l| l.0.split_whitespace().next()).map(String::from).collect();
    let mut paths = Vec::new();
    for name in &crates {
        files_below(&PathBuf::from(format!("crates/{name}/specs")), &mut paths);
        files_below(&PathBuf::from(format!("crates/{name}/proofs/laws")), &mut paths);
    }
    let files = paths.iter().map(|p| (p.clone(), items::read(p))).collect();
    let specs = Specs { files };
    let promises = fs::read_to_string("docs/PROOFS.md").expect("docs/PROOFS.md");
    let named = specs.on_page(&promises).and_then(|n| Ok((n, specs.settled(&promises)?)));
    let (named, settled) = named.unwrap_or_else(|why| {
        eprintln!("{why}");
        exit(1)
    });
    let roots = [specs.in_calls(), named].concat();
    let traced = specs.traced(&roots, &HashSet::new());
    let believed = specs.traced(&roots, &settled);
    let mut faults = misplaced(&specs, &traced);
    let page = page(&specs, &in_order(&crates), &traced, &believed);
    if std::env::args().nth(1).as_deref() != Some("check") {
        fs::write("docs/READING.md", page).expect("docs/READING.md to be written");
    } else if fs::read_to_string("docs/READING.md").unwrap_or_default() != page {
        faults.push("docs/READING.md is not current: make reading".into());
    }
    faults.iter().for_each(|f| println!("{f}"));
    exit(if faults.is_empty() { 0 } else { 1 });
}
