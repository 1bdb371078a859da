//! The counted parts of the pages: what the contracts of the public calls rest on, file by file, and how many functions are proved.

use crate::calls::Calls;
use crate::repository::{Closure, Crate, Id, KitName, Repository};
use crate::specs::Kind;
use std::collections::{BTreeMap, BTreeSet};

/// The kit's libraries that declare C functions, and the parts of its `std` that call them.
const FOREIGN: [&str; 8] = [
    "libc",
    "os",
    "std::env",
    "std::fs",
    "std::io",
    "std::net",
    "std::process",
    "std::time",
];

/// What a file has: believed definitions and their lines, other definitions, laws.
#[derive(Default)]
struct Count {
    believed: usize,
    lines: usize,
    others: usize,
    laws: usize,
}

/// What the contracts of all public calls rest on together.
pub struct Counts<'a> {
    all: &'a Repository,
    calls: (usize, usize),
    /// By crate, as crates.txt has them, and path.
    files: BTreeMap<(Option<usize>, &'a str), Count>,
    kit: BTreeSet<KitName>,
}

fn believed(all: &Repository, calls: &Calls) -> Result<Closure, String> {
    let public = calls.floats.iter().chain(&calls.exported);
    let meant = public.map(|call| all.named(call.id));
    let meant = meant.collect::<Result<Vec<_>, _>>()?;
    all.closure(meant.into_iter().flatten().collect())
}

/// Adds an item to its file's count.
fn add(count: &mut Count, kind: Option<Kind>, lines: usize, believed: bool) {
    count.lines += if believed { lines } else { 0 };
    match (believed, kind) {
        (_, Some(Kind::Fixity)) => {}
        (true, _) => count.believed += 1,
        (false, Some(Kind::Law)) => count.laws += 1,
        (false, _) => count.others += 1,
    }
}

/// 1176 as 1,176.
fn grouped(number: usize) -> String {
    let digits = number.to_string();
    let lead = digits.len() % 3;
    let comma = |at: usize| if at > 0 && at % 3 == lead { "," } else { "" };
    let digits = digits.chars().enumerate();
    digits
        .map(|(at, digit)| format!("{}{digit}", comma(at)))
        .collect()
}

fn file_link(path: &str) -> String {
    format!("[{}](../{path})", path.trim_start_matches("crates/"))
}

fn file_row(path: &str, count: &Count) -> String {
    let Count {
        believed,
        lines,
        others,
        laws,
    } = count;
    let file = file_link(path);
    format!("| {file} | {believed} | {lines} | {others} | {laws} |\n")
}

/// The kit's names as rows of a table, a module each.
fn kit_rows(names: &BTreeSet<KitName>) -> String {
    let mut modules: BTreeMap<&str, Vec<String>> = BTreeMap::new();
    for (module, name) in names {
        let name = name.replace('|', "\\|");
        modules.entry(module).or_default().push(format!("`{name}`"));
    }
    let row =
        |(module, names): (&&str, &Vec<String>)| format!("| `{module}` | {} |\n", names.join(" "));
    modules.iter().map(row).collect()
}

/// Words in lines of at most 160 characters.
fn filled(words: impl Iterator<Item = String>) -> String {
    let mut lines: Vec<String> = Vec::new();
    for word in words {
        match lines.last_mut() {
            Some(line) if line.len() + word.len() < 160 => *line += &format!(" {word}"),
            _ => lines.push(word),
        }
    }
    lines.join("\n")
}

impl<'a> Counts<'a> {
    pub fn new(all: &'a Repository, calls: &Calls) -> Result<Counts<'a>, String> {
        let closure = believed(all, calls)?;
        let believed: BTreeSet<Id> = closure.items.into_iter().collect();
        let mut files: BTreeMap<_, Count> = BTreeMap::new();
        for (id, item) in all.items.iter().enumerate() {
            let kind = item.spec().map(|spec| spec.kind);
            if kind.is_some() || believed.contains(&id) {
                let key = (all.crate_of(&item.path), item.path.as_str());
                let count = files.entry(key).or_default();
                add(count, kind, item.place().lines, believed.contains(&id));
            }
        }
        Ok(Counts {
            all,
            calls: (calls.floats.len(), calls.exported.len()),
            files,
            kit: closure.kit,
        })
    }

    fn sum(&self, of: fn(&Count) -> usize) -> String {
        grouped(self.files.values().map(of).sum())
    }

    /// How much there is to believe.
    pub fn sum_up(&self) -> String {
        let (floats, exported) = self.calls;
        let calls = floats + exported;
        let files = self.files.values().filter(|count| count.believed > 0);
        let (believed, lines) = (self.sum(|c| c.believed), self.sum(|c| c.lines));
        let (others, laws) = (self.sum(|c| c.others), self.sum(|c| c.laws));
        format!(
            "The contracts of the {calls} public calls, {floats} on floats and {exported} exported, rest on\n\
             **{believed} definitions and types of {lines} lines in {} files**: those that they name, directly or through others.\n\
             They rest on none of the other {others} definitions of `specs/`, which serve laws and proofs, and on none of the {laws} laws, which are proved.\n",
            files.count(),
        )
    }

    /// The same file by file, and the kit's names.
    pub fn tables(&self) -> String {
        let (needed, others): (Vec<_>, Vec<_>) =
            self.files.iter().partition(|(_, count)| count.believed > 0);
        let rows = needed
            .iter()
            .map(|((_, path), count)| file_row(path, count));
        let mut spared: Vec<String> = others
            .iter()
            .map(|((_, path), _)| file_link(path))
            .collect();
        let last = spared.pop();
        let spared = spared.into_iter().map(|link| link + ",");
        let spared = spared.chain(last.map(|link| link + "."));
        format!(
            "| File | Definitions and types to believe | Their lines | Other definitions | Laws |\n|---|---|---|---|---|\n{}\n\
             No contract of a public call rests on these files:\n{}\n\n\
             Of the kit's own library the definitions name:\n\n| Module | Names |\n|---|---|\n{}",
            rows.collect::<String>(),
            filled(spared),
            kit_rows(&self.kit),
        )
    }

    /// Which crates need C functions, whose contracts nobody proves.
    pub fn assumed(&self) -> String {
        let needing = |one: &Crate| {
            let used = self.all.paths(&one.name);
            let named = |library: &str| {
                let listed = one.needs.iter().any(|need| need == library);
                let inside = |path: &str| path.starts_with(&format!("{library}::"));
                listed || used.iter().any(|path| *path == library || inside(path))
            };
            let foreign = FOREIGN.iter().filter(|library| named(library));
            let foreign: Vec<String> = foreign.map(|library| format!("`{library}`")).collect();
            let needs = format!("`{}` needs the kit's {}", one.name, foreign.join(" and "));
            (!foreign.is_empty()).then_some(needs)
        };
        let needing: Vec<String> = self.all.crates.iter().filter_map(needing).collect();
        match needing.is_empty() {
            true => "No crate needs a C function, so no contract is assumed.\n".to_string(),
            false => format!(
                "{}, whose C functions have assumed contracts; no other crate needs one.\n",
                needing.join(", ")
            ),
        }
    }

    /// How much is proved.
    pub fn functions(&self) -> String {
        let functions = grouped(self.all.functions("crates/"));
        let crates = self.all.crates.len();
        format!("There are {crates} crates with {functions} functions, each proved to meet its contract.\n")
    }
}

#[cfg(test)]
mod tests {
    use super::*;

    #[test]
    fn large_numbers_are_grouped() {
        let grouped = [7, 38, 438, 1176, 12345].map(grouped);
        assert_eq!(grouped, ["7", "38", "438", "1,176", "12,345"]);
    }

    #[test]
    fn lines_are_filled() {
        let long = "a".repeat(100);
        let lines = filled([long.clone(), "b".to_string(), long.clone()].into_iter());
        assert_eq!(lines, format!("{long} b\n{long}"));
    }
}
