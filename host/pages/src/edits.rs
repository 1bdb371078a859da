//! The must-fail edits: the wrong program that each stands for, and the public calls whose answers it changes.

use crate::files;
use crate::repository::Repository;
use std::collections::BTreeMap;
use std::path::Path;

/// The page that says what each edit rules out.
pub const TOLD: &str = "docs/DECISIONS.md";

pub struct Edit {
    /// As docs/DECISIONS.md names it: `crate/edit`.
    pub name: String,
    pub path: String,
    /// The wrong program, if docs/DECISIONS.md has a row for it.
    pub wrong: Option<String>,
    /// The public calls whose answers it changes, by its lines `calls:`, which the prover passes over.
    pub calls: Vec<String>,
}

/// The rows `| crate/edit | the wrong program |` of a page.
fn told(page: &str) -> BTreeMap<String, String> {
    let row = |line: &str| {
        let mut cells = line.strip_prefix("| ")?.strip_suffix(" |")?.split(" | ");
        let (name, wrong) = (cells.next()?, cells.next()?);
        let is_edit = name.contains('/') && !name.contains([' ', '`']);
        is_edit.then(|| (name.to_string(), wrong.to_string()))
    };
    page.lines().filter_map(row).collect()
}

/// The `file:` and `old:` of each replacement.
fn replaced(text: &str) -> Vec<(String, String)> {
    let mut file = String::new();
    let mut all = Vec::new();
    for line in text.lines() {
        if let Some(path) = line.strip_prefix("file: ") {
            file = path.to_string();
        } else if let Some(old) = line.strip_prefix("old: ") {
            all.push((file.clone(), old.to_string()));
        }
    }
    all
}

/// The names of the `calls:` lines.
fn calls(text: &str) -> Vec<String> {
    let lines = text.lines().filter_map(|line| line.strip_prefix("calls:"));
    let names = lines.flat_map(str::split_whitespace);
    names.map(str::to_string).collect()
}

fn read(root: &Path, krate: &str, path: String) -> Result<Edit, String> {
    let short = path
        .rsplit('/')
        .next()
        .unwrap_or("")
        .trim_end_matches(".edit");
    let name = format!("{krate}/{short}");
    let text = files::text(root, &path)?;
    for (file, old) in replaced(&text) {
        let file = format!("crates/{krate}/{file}");
        if !files::text(root, &file)?.contains(&old) {
            return Err(format!("{path}: '{old}' is not in {file}"));
        }
    }
    Ok(Edit {
        name,
        path,
        wrong: None,
        calls: calls(&text),
    })
}

/// All edits, and the rows that have no edit.
pub fn all(all: &Repository, root: &Path) -> Result<(Vec<Edit>, Vec<String>), String> {
    let mut told = told(&files::text(root, TOLD)?);
    let mut edits = Vec::new();
    for one in &all.crates {
        let paths = files::below(root, &format!("crates/{}/must-fail", one.name), "edit")?;
        let read = paths.into_iter().map(|path| read(root, &one.name, path));
        edits.extend(read.collect::<Result<Vec<_>, _>>()?);
    }
    let fill = |edit: &mut Edit| edit.wrong = told.remove(&edit.name);
    edits.iter_mut().for_each(fill);
    Ok((edits, told.into_keys().collect()))
}

#[cfg(test)]
mod tests {
    use super::*;

    #[test]
    fn rows_and_replacements_are_read() {
        let page = "| Edit | The wrong program |\n|---|---|\n| root/exponent | off by two |\n| `a` | b |\n";
        let told = told(page);
        assert_eq!(told.len(), 1);
        assert_eq!(told["root/exponent"], "off by two");
        let pairs = replaced("file: src/lib.rt\nold:     a + 1\nnew:     a\nold: b\nnew: c\n");
        let owned = |a: &str, b: &str| (a.to_string(), b.to_string());
        assert_eq!(
            pairs,
            [owned("src/lib.rt", "    a + 1"), owned("src/lib.rt", "b")]
        );
        assert_eq!(
            calls("calls: load pose\nfile: src/lib.rt\ncalls: reset\n"),
            ["load", "pose", "reset"]
        );
    }
}
