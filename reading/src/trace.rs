//! What the promises rest on: from names in contracts and statements to the definitions behind them.
use crate::items::{code, import, words, File, Item};
use std::collections::{HashMap, HashSet};
use std::fs;
use std::path::PathBuf;

/// A file and the number of an item in it.
pub type Place = (PathBuf, usize);

pub struct Specs {
    pub files: HashMap<PathBuf, File>,
}

impl Specs {
    pub fn item(&self, place: &Place) -> &Item {
        &self.files[&place.0].items[place.1]
    }

    /// A name of one letter is bound where it stands.
    fn named(&self, file: &PathBuf, name: &str) -> Option<Place> {
        let items = &self.files.get(file)?.items;
        let here = |i: &Item| (i.name == name && name.chars().count() > 1) || i.inner.iter().any(|n| n == name);
        let operator = |i: &Item| i.name.contains('◌') && i.name.split('◌').any(|p| !p.is_empty() && p == name);
        let at = items.iter().position(here).or_else(|| items.iter().position(operator))?;
        Some((file.clone(), at))
    }

    fn behind(&self, file: &File, word: &str) -> Option<Place> {
        if word.starts_with('.') {
            return None;
        }
        let (first, rest) = word.split_once('.').unwrap_or((word, ""));
        if let Some((from, None)) = file.imports.get(first) {
            return self.named(from, rest.split('.').next()?);
        }
        if let Some((from, Some(name))) = file.imports.get(first) {
            return self.named(from, name);
        }
        for (here, from) in &file.imports {
            if here.contains('◌') && here.split('◌').any(|p| !p.is_empty() && p == first) {
                return self.named(&from.0, from.1.as_ref()?);
            }
        }
        self.named(&file.path, first)
    }

    /// The definitions that these lines of a file name.
    fn mentioned(&self, file: &File, lines: &[String]) -> Vec<Place> {
        let lines = lines.iter().map(|l| code(l)).filter(|l| !l.trim_start().starts_with("unfolding "));
        lines.flat_map(words).filter_map(|w| self.behind(file, w)).collect()
    }

    /// What the statements of the roots, and the definitions that they name, rest on; a law only by its statement. Those that are settled
    /// are left out, with what only they rest on.
    pub fn traced(&self, roots: &[Place], settled: &HashSet<Place>) -> HashSet<Place> {
        let mut seen = HashSet::new();
        let mut left: Vec<Place> = roots.to_vec();
        while let Some(place) = left.pop() {
            if settled.contains(&place) || !seen.insert(place.clone()) {
                continue;
            }
            let item = self.item(&place);
            let mut lines = item.statement.clone();
            if !item.is_law {
                lines.extend(item.lines.iter().cloned());
            }
            left.extend(self.mentioned(&self.files[&place.0], &lines));
        }
        seen
    }

    /// The definitions in the contracts of the calls.
    pub fn in_calls(&self) -> Vec<Place> {
        let text = fs::read_to_string("crates/engine/src/lib.rt").expect("the calls");
        let mut imports = HashMap::new();
        text.lines().filter(|l| l.starts_with("ghost use ")).for_each(|l| import(l, &mut imports));
        let path = PathBuf::from("crates/engine/src/lib.rt");
        let calls = File { path, head: String::new(), items: Vec::new(), imports };
        let clause = |l: &&str| l.starts_with("    ensures ") || l.starts_with("    requires ") || l.starts_with("        ");
        let clauses: Vec<String> = text.lines().filter(clause).map(String::from).collect();
        self.mentioned(&calls, &clauses)
    }

    /// The laws and definitions that the page of promises names; a name of several files by the path that stands in its row.
    pub fn on_page(&self, page: &str) -> Result<Vec<Place>, String> {
        let mut found = Vec::new();
        for row in page.lines().filter(|l| l.starts_with('|')) {
            let quoted: Vec<&str> = row.split('`').skip(1).step_by(2).collect();
            for name in &quoted {
                let mut places: Vec<Place> = self.files.keys().filter_map(|f| self.exactly(f, name)).collect();
                if places.len() > 1 {
                    places.retain(|p| quoted.iter().any(|q| p.0 == PathBuf::from(q)));
                    if places.len() != 1 {
                        return Err(format!("docs/PROOFS.md: `{name}` stands in several files: name one in its row"));
                    }
                }
                found.extend(places);
            }
        }
        Ok(found)
    }

    /// The definitions in the table of settled ones. The laws beside them must say what they are.
    pub fn settled(&self, page: &str) -> Result<HashSet<Place>, String> {
        let mut found = HashSet::new();
        let part = page.split("\n## Settled\n").nth(1).unwrap_or("").split("\n## ").next().unwrap_or("");
        for row in part.lines().filter(|l| l.starts_with("| `")) {
            let cells: Vec<&str> = row.split('|').collect();
            let (defined, laws) = (self.on_page(&format!("|{}", cells[1]))?, self.on_page(row)?);
            let says = |law: &Place, d: &Place| self.mentioned(&self.files[&law.0], &self.item(law).statement).contains(d);
            for place in &defined {
                if !laws.iter().any(|l| self.item(l).is_law && says(l, place)) {
                    return Err(format!("docs/PROOFS.md: no law beside `{}` speaks of it", self.item(place).name));
                }
            }
            found.extend(defined);
        }
        Ok(found)
    }

    fn exactly(&self, file: &PathBuf, name: &str) -> Option<Place> {
        let at = self.files[file].items.iter().position(|i| i.name == name)?;
        Some((file.clone(), at))
    }
}
