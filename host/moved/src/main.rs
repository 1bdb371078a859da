//! For two states of the repository, per crate: which definitions, promises, laws and proofs were added, changed or removed, and how many
//! stayed. `tools/moved` gives it two commits.

#![forbid(unsafe_code)]

mod items;
mod pairs;
mod spelling;

use items::{Kind, KINDS};
use pairs::{Fate, Told};
use std::collections::BTreeSet;
use std::path::Path;
use std::process::ExitCode;
use std::{env, io};

const USAGE: &str = "\
moved OLD NEW [--list | --texts]

  OLD, NEW  two folders with the repository in two states
  --list    name each item that did not stay as it was and where it was
  --texts   the same, with the old and the new text of each that changed

A definition is an unfoldable or abbreviated item, a data type or a record of specs/ or of the lemmas in proofs/, or a type of src/. A
promise is a clause of a function's contract, or its signature. A law is an item of specs/ or of the lemmas that is no definition: its
statement with the parameters of the modules around it; its proof is counted by itself. A proof of a function is a file in its folder of
proofs/. Layout, comments, `use` lines and `pub` make no
difference, nor does what the language spelled otherwise before the port. What stands in another file or crate, differs in nothing but new
names of definitions, laws and functions, or is a clause under another name, has moved and counts as stayed.";

const FATES: [(Fate, &str); 4] = [
    (Fate::Added, "added"),
    (Fate::Changed, "changed"),
    (Fate::Removed, "removed"),
    (Fate::Moved, "moved"),
];

struct Ledger<'a> {
    kinds: Vec<(Kind, &'static str, Vec<Told<'a>>)>,
}

fn count(told: &[Told], krate: Option<&str>, fate: Fate) -> usize {
    let here = |one: &&Told| krate.is_none_or(|krate| one.item.krate == krate);
    told.iter()
        .filter(here)
        .filter(|one| one.fate == fate)
        .count()
}

/// `+1 ~2 −3 =40 (5 moved)`, without what there is none of.
fn cell(told: &[Told], krate: &str) -> String {
    let of = |fate| count(told, Some(krate), fate);
    let mut parts = Vec::new();
    for (sign, number) in [
        ("+", of(Fate::Added)),
        ("~", of(Fate::Changed)),
        ("−", of(Fate::Removed)),
    ] {
        if number > 0 {
            parts.push(format!("{sign}{number}"));
        }
    }
    let stayed = of(Fate::Stayed) + of(Fate::Moved);
    parts.push(if parts.is_empty() {
        stayed.to_string()
    } else {
        format!("={stayed}")
    });
    if of(Fate::Moved) > 0 {
        parts.push(format!("({} moved)", of(Fate::Moved)));
    }
    parts.join(" ")
}

impl Ledger<'_> {
    fn totals(&self) -> String {
        let mut text = "| | added | changed | removed | stayed | of these moved |\n|---|---|---|---|---|---|\n".to_string();
        for (_, name, told) in &self.kinds {
            let of = |fate| count(told, None, fate);
            let (moved, stayed) = (of(Fate::Moved), of(Fate::Stayed));
            let numbers = [
                of(Fate::Added),
                of(Fate::Changed),
                of(Fate::Removed),
                stayed + moved,
                moved,
            ];
            let numbers: Vec<String> = numbers.iter().map(usize::to_string).collect();
            text.push_str(&format!("| {name} | {} |\n", numbers.join(" | ")));
        }
        text
    }

    fn crates(&self) -> String {
        let all = self.kinds.iter().flat_map(|(_, _, told)| told);
        let crates: BTreeSet<&str> = all.map(|one| one.item.krate.as_str()).collect();
        let names: Vec<&str> = self.kinds.iter().map(|(_, name, _)| *name).collect();
        let mut text = format!(
            "| crate | {} |\n|---|---|---|---|---|---|\n",
            names.join(" | ")
        );
        for krate in crates {
            let cells: Vec<String> = self
                .kinds
                .iter()
                .map(|(_, _, told)| cell(told, krate))
                .collect();
            text.push_str(&format!("| {krate} | {} |\n", cells.join(" | ")));
        }
        text
    }

    fn list(&self, line: fn(&Told) -> String) -> String {
        let mut text = String::new();
        for (_, name, told) in &self.kinds {
            for (fate, word) in FATES {
                let mut lines: Vec<String> = told
                    .iter()
                    .filter(|one| one.fate == fate)
                    .map(line)
                    .collect();
                lines.sort();
                if !lines.is_empty() {
                    text.push_str(&format!("\n{name} {word}:\n\n{}", lines.concat()));
                }
            }
        }
        text
    }
}

/// An item's place and name, and the old ones where they are others.
fn line(one: &Told) -> String {
    let place = |item: &items::Item| format!("{}/{}", item.krate, item.place);
    let mut text = format!("- {} `{}`", place(one.item), one.item.name);
    if let Some(old) = one.old {
        if place(old) != place(one.item) {
            text.push_str(&format!(", was in {}", place(old)));
        }
        if old.name != one.item.name {
            text.push_str(&format!(", was `{}`", old.name));
        }
    }
    text + "\n"
}

/// The same, with both texts where the item changed. A proof's are left out.
fn texts(one: &Told) -> String {
    let proof = matches!(one.item.kind, Kind::Proof | Kind::LawProof);
    match one.old {
        Some(old) if one.fate == Fate::Changed && !proof => {
            let texts = [&old.text, &one.item.text];
            let [old, new] = texts.map(|text| format!("      {text}\n"));
            format!("{}{old}{new}", line(one))
        }
        _ => line(one),
    }
}

fn run(old: &str, new: &str, list: Option<fn(&Told) -> String>) -> Result<String, String> {
    let (old, new) = (items::all(Path::new(old))?, items::all(Path::new(new))?);
    let names = pairs::names(&old, &new);
    let kinds = KINDS.map(|(kind, name)| (kind, name, pairs::told(&old, &new, kind, &names)));
    let ledger = Ledger {
        kinds: kinds.into(),
    };
    let mut text = format!(
        "{}\n{}\nIn a cell: + added, ~ changed, − removed, = stayed.\n",
        ledger.totals(),
        ledger.crates()
    );
    if let Some(line) = list {
        text.push_str(&ledger.list(line));
    }
    Ok(text)
}

fn main() -> ExitCode {
    let words: Vec<String> = env::args().skip(1).collect();
    let (options, folders): (Vec<&str>, Vec<&str>) = words
        .iter()
        .map(String::as_str)
        .partition(|word| word.starts_with('-'));
    let list: Option<fn(&Told) -> String> = match options[..] {
        ["--list"] => Some(line),
        ["--texts"] => Some(texts),
        _ => None,
    };
    let ([old, new], true) = (&folders[..], list.is_some() || options.is_empty()) else {
        eprintln!("{USAGE}");
        return ExitCode::from(2);
    };
    match run(old, new, list) {
        Ok(text) => match io::Write::write_all(&mut io::stdout(), text.as_bytes()) {
            Ok(()) => ExitCode::SUCCESS,
            Err(_) => ExitCode::FAILURE,
        },
        Err(fault) => {
            eprintln!("{fault}");
            ExitCode::FAILURE
        }
    }
}
