//! The files of crates/*/specs and crates/*/proofs/laws as items: definitions and laws with their names, and what a file imports.
use std::collections::HashMap;
use std::fs;
use std::path::{Path, PathBuf};

/// A definition, or a law, whose statement is its first lines.
pub struct Item {
    pub name: String,
    pub is_law: bool,
    pub statement: Vec<String>,
    pub lines: Vec<String>,
    /// Constructors of a data type.
    pub inner: Vec<String>,
}

pub struct File {
    pub path: PathBuf,
    pub head: String,
    pub items: Vec<Item>,
    /// A name of the file to the file that it comes from and its name there; no name stands for a whole module.
    pub imports: HashMap<String, (PathBuf, Option<String>)>,
}

impl File {
    pub fn is_laws(&self) -> bool {
        self.path.components().any(|c| c.as_os_str() == "laws")
    }
}

/// What stands before a comment.
pub fn code(line: &str) -> &str {
    if line.trim_start().starts_with("--") {
        return "";
    }
    line.split(" --").next().unwrap_or("")
}

/// The words of a line.
pub fn words(line: &str) -> Vec<&str> {
    let parts = line.split(|c: char| c.is_whitespace() || "(){}[],;".contains(c));
    parts.filter(|w| !w.is_empty()).collect()
}

fn indent(line: &str) -> usize {
    line.len() - line.trim_start().len()
}

/// The file that an import path names, as `Rattle.tables.specs.laws.Check`.
fn target(path: &str) -> Option<PathBuf> {
    let (owner, module) = path.strip_prefix("Rattle.")?.split_once('.')?;
    let file = format!("crates/{owner}/{}.antt", module.replace('.', "/"));
    (module.starts_with("specs.") || module.starts_with("proofs.laws.")).then(|| PathBuf::from(file))
}

/// Adds what a line `use PATH.{a, b as c}` or `use PATH as c` imports.
pub fn import(line: &str, into: &mut HashMap<String, (PathBuf, Option<String>)>) {
    let line = line.trim_start_matches("ghost ").trim_start_matches("pub ");
    let Some(rest) = line.strip_prefix("use ") else { return };
    let rest = rest.trim_end_matches(';');
    if let Some((path, names)) = rest.split_once(".{") {
        let Some(file) = target(path) else { return };
        for name in names.trim_end_matches('}').split(',') {
            let (there, here) = name.split_once(" as ").unwrap_or((name, name));
            into.insert(here.trim().into(), (file.clone(), Some(there.trim().into())));
        }
    } else if let Some((path, alias)) = rest.split_once(" as ") {
        if let Some(file) = target(path) {
            into.insert(alias.trim().into(), (file, None));
        }
    }
}

/// The name of the item that a line starts, and whether it is a law.
fn starts(line: &str) -> Option<(String, bool)> {
    let mut rest = line.trim_start();
    let mut is_law = true;
    loop {
        let (word, tail) = rest.split_once(' ')?;
        match word {
            "pub" => rest = tail,
            "abbrev" | "unfoldable" | "instance" => (rest, is_law) = (tail, false),
            "data" | "record" => return Some((tail.split(' ').next()?.into(), false)),
            _ => return (tail.starts_with(": ") || tail == ":").then(|| (word.into(), is_law)),
        }
    }
}

pub fn read(path: &Path) -> File {
    let text = fs::read_to_string(path).expect("a file of specs");
    let head: Vec<&str> = text.lines().take_while(|l| l.starts_with("--")).map(|l| l[2..].trim()).collect();
    let mut file = File { path: path.into(), head: head.join(" "), items: Vec::new(), imports: HashMap::new() };
    let mut base = 0;
    let mut section: Vec<(usize, String)> = Vec::new();
    let mut in_statement = false;
    for line in text.lines().filter(|l| !code(l).trim().is_empty()) {
        let at = indent(line);
        while section.last().is_some_and(|s| at <= s.0 && s.1.ends_with("where")) {
            base = section.pop().unwrap().0;
        }
        if let Some((_, header)) = section.last_mut().filter(|s| !s.1.ends_with("where")) {
            header.push(' ');
            header.push_str(line.trim());
            continue;
        }
        let start = line.trim_start();
        if start.starts_with("use ") || start.starts_with("pub use ") || start.starts_with("pub mod ") {
            import(start, &mut file.imports);
        } else if start.starts_with("module _") {
            section.push((at, line.into()));
            base = at + 2;
            in_statement = false;
        } else if let Some((name, is_law)) = starts(line).filter(|_| at == base) {
            let mut statement: Vec<String> = section.iter().map(|s| s.1.clone()).collect();
            statement.push(line.into());
            file.items.push(Item { name, is_law, statement, lines: vec![line.into()], inner: Vec::new() });
            in_statement = true;
        } else if let Some(item) = file.items.last_mut() {
            in_statement = in_statement && at > base;
            if in_statement {
                item.statement.push(line.into());
                if let Some((name, _)) = starts(line).filter(|_| item.lines[0].contains("data ")) {
                    item.inner.push(name);
                }
            }
            item.lines.push(line.into());
        }
    }
    file
}
