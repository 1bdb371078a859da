//! What a state of the crates has: each definition, promise, law and proof, with its text freed of layout and comments.

use crate::spelling;
use pages::files;
use pages::source;
use pages::specs;
use pages::words::{self, Kind as Sort, Word};
use std::fs;
use std::path::Path;

#[derive(Clone, Copy, Debug, PartialEq)]
pub enum Kind {
    Definition,
    Promise,
    Law,
    LawProof,
    Proof,
}

pub const KINDS: [(Kind, &str); 5] = [
    (Kind::Definition, "definitions"),
    (Kind::Promise, "promises"),
    (Kind::Law, "laws"),
    (Kind::LawProof, "proofs of laws"),
    (Kind::Proof, "proofs of functions"),
];

#[derive(Debug)]
pub struct Item {
    pub kind: Kind,
    pub krate: String,
    /// The file within the crate; of a function's proof the module.
    pub place: String,
    pub name: String,
    pub text: String,
}

/// Words with one space between them. Who sees an item, and a comma before a closing bracket, make no difference.
fn spaced(words: &[Word]) -> String {
    let kept = words.iter().enumerate().filter(|(at, word)| {
        let next = words.get(at + 1);
        let trails = word.is(",") && next.is_some_and(|next| [")", "}"].iter().any(|c| next.is(c)));
        !trails && !word.is("pub")
    });
    let text = |(_, word): (usize, &Word)| match word.kind {
        Sort::Field => format!(".{}", word.text),
        _ => word.text.clone(),
    };
    kept.map(text).collect::<Vec<_>>().join(" ")
}

/// The same in today's spelling.
fn plain(words: &[Word]) -> String {
    spaced(&spelling::today(words))
}

/// The texts of a specs item: a definition has one, a law its statement and its proof.
fn spec_texts(item: &specs::Item) -> Vec<(Kind, String)> {
    let heads = plain(&item.heads);
    match item.kind {
        specs::Kind::Fixity => Vec::new(),
        specs::Kind::Definition => {
            vec![(Kind::Definition, format!("{heads} {}", plain(&item.text)))]
        }
        specs::Kind::Law => {
            let colon = item.text.iter().position(|word| word.is(":"));
            let proof = colon.unwrap_or(0) + 1 + item.statement.len();
            vec![
                (Kind::Law, format!("{heads} : {}", plain(&item.statement))),
                (Kind::LawProof, plain(&item.text[proof..])),
            ]
        }
    }
}

/// The texts of a source item: a type is a definition, for contracts speak of it; a function has its signature and its clauses.
fn source_texts(item: &source::Item) -> Vec<(Kind, String, String)> {
    let head = spaced(&words::words(&item.text));
    match item.kind {
        source::Kind::Constant => Vec::new(),
        source::Kind::Type => vec![(Kind::Definition, item.name.clone(), head)],
        source::Kind::Function { .. } => {
            let promise = |what: &str, text| (Kind::Promise, format!("{} {what}", item.name), text);
            let head = head.trim_start_matches("( crate ) ").to_string();
            let mut texts = vec![promise("signature", head)];
            for clause in &item.clauses {
                let word = if clause.asks { "requires" } else { "ensures" };
                let own = clause.name != word;
                let what = if own {
                    format!("{word} {}", clause.name)
                } else {
                    word.to_string()
                };
                texts.push(promise(&what, plain(&spelling::clause(&clause.text))));
            }
            texts
        }
    }
}

/// A proof file's words, but for its `use` lines.
fn proof_text(text: &str) -> String {
    let lines = text.lines().map(words::code);
    let kept: Vec<&str> = lines.filter(|line| !line.starts_with("use ")).collect();
    plain(&words::words(&kept.join("\n")))
}

/// The name of a function's proof, if that is what stands there and no lemmas. Its answers go by its name, and so does a proof in one file,
/// as the older language has it; its invariants are a proof beside it.
fn proof_name(place: &str) -> Option<String> {
    let (folder, file) = place.strip_prefix("proofs/")?.rsplit_once('/')?;
    let function = folder.rsplit('/').next().unwrap_or(folder);
    match file {
        "Answers.antt" | "Proof.antt" => Some(function.to_string()),
        "Invariants.antt" => Some(format!("{function} invariants")),
        _ => None,
    }
}

/// The files below a folder with this ending, in any depth.
fn deep(root: &Path, folder: &str, ending: &str) -> Result<Vec<String>, String> {
    let mut paths = files::below(root, folder, ending)?;
    for inner in folders(root, folder)? {
        paths.extend(deep(root, &format!("{folder}/{inner}"), ending)?);
    }
    Ok(paths)
}

fn folders(root: &Path, folder: &str) -> Result<Vec<String>, String> {
    let place = root.join(folder);
    if !place.is_dir() {
        return Ok(Vec::new());
    }
    let told = |error: std::io::Error| format!("{folder}: {error}");
    let entries = fs::read_dir(&place).map_err(told)?;
    let entries = entries.collect::<Result<Vec<_>, _>>().map_err(told)?;
    let dirs = entries.iter().filter(|entry| entry.path().is_dir());
    let mut names: Vec<String> = dirs
        .map(|entry| entry.file_name().to_string_lossy().into_owned())
        .collect();
    names.sort();
    Ok(names)
}

/// The items of a file of a crate.
fn of_file(place: &str, text: &str) -> Vec<(Kind, String, String)> {
    if place.ends_with("/Lib.antt") {
        return Vec::new();
    }
    if let Some(name) = proof_name(place) {
        return vec![(Kind::Proof, name, proof_text(text))];
    }
    if place.ends_with(".antt") {
        let items = specs::parse(text).items;
        let named = |item: specs::Item| {
            spec_texts(&item)
                .into_iter()
                .map(move |(kind, text)| (kind, spelling::name(&item.name), text))
        };
        return items.into_iter().flat_map(named).collect();
    }
    source::parse(text)
        .items
        .iter()
        .flat_map(source_texts)
        .collect()
}

/// All items of the crates of a repository.
pub fn all(root: &Path) -> Result<Vec<Item>, String> {
    let mut items = Vec::new();
    for krate in folders(root, "crates")? {
        let folder = format!("crates/{krate}");
        let mut paths = deep(root, &format!("{folder}/specs"), "antt")?;
        paths.extend(deep(root, &format!("{folder}/src"), "rt")?);
        paths.extend(deep(root, &format!("{folder}/proofs"), "antt")?);
        for path in paths {
            let place = path[folder.len() + 1..].to_string();
            for (kind, name, text) in of_file(&place, &files::text(root, &path)?) {
                items.push(Item {
                    kind,
                    krate: krate.clone(),
                    place: place.clone(),
                    name,
                    text,
                });
            }
        }
    }
    Ok(items)
}

#[cfg(test)]
mod tests {
    use super::*;

    fn texts(place: &str, text: &str) -> Vec<(Kind, String, String)> {
        of_file(place, text)
    }

    #[test]
    fn a_law_is_its_statement_under_its_module_and_its_proof() {
        let text = "module _ (n : ℕ) where\n  -- why\n  pub law : (x : ℕ)\n      → x ≡ n\n  unfolding f\n  law x = go x\n    where\n      go : ℕ\n      go = n\n";
        let found = texts("specs/A.antt", text);
        let of = |kind, text: &str| (kind, "law".to_string(), text.to_string());
        assert_eq!(
            found,
            [
                of(Kind::Law, "module _ ( n : ℕ ) where : ( x : ℕ ) → x ≡ n"),
                of(
                    Kind::LawProof,
                    "unfolding f law x = go x where go : ℕ go = n"
                ),
            ]
        );
    }

    #[test]
    fn definitions_are_told_from_laws() {
        let text = "abbrev pub one : ℕ\none = 1\n\npub record Two (n : ℕ) : Type 0 where\n  pub a : n ≡ 2\n\nlaw : one ≡ 1\nlaw = refl\n";
        let kinds: Vec<(Kind, String)> = texts("specs/A.antt", text)
            .into_iter()
            .map(|(kind, name, _)| (kind, name))
            .collect();
        let of = |kind, name: &str| (kind, name.to_string());
        assert_eq!(
            kinds,
            [
                of(Kind::Definition, "one"),
                of(Kind::Definition, "Two"),
                of(Kind::Law, "law"),
                of(Kind::LawProof, "law")
            ]
        );
    }

    #[test]
    fn a_function_is_its_signature_and_clauses() {
        let wide = "pub(crate) fn f(\n    a: u16, // first\n    b: u16,\n) -> bool\n    requires { a < b }\n    ensures value { result ≡\n        a.now }\n{\n    x\n}\n";
        let narrow = "fn f(a: u16, b: u16) -> bool\n    requires { a < b } ensures value { result ≡ a.now }\n{ y }\n";
        let found = texts("src/a.rt", wide);
        assert_eq!(found, texts("src/a.rt", narrow));
        let names: Vec<&str> = found.iter().map(|(_, name, _)| name.as_str()).collect();
        assert_eq!(names, ["f signature", "f requires", "f ensures value"]);
        assert_eq!(found[2].2, "result ≡ a .now");
        let older = "fn f(a: u16, b: u16) -> bool\n    requires { ⌜ a < b ⌝ } ensures value { λ r. ⌜ r ≡ now (a .entry) ⌝ }\n{ y }\n";
        assert_eq!(found, texts("src/a.rt", older));
    }

    #[test]
    fn a_proof_is_compared_without_its_use_lines() {
        let text = "use a.B.{c}\n-- why\npub x : c\nx = c\n";
        let of = |name: &str| {
            let (name, text) = (name.to_string(), "x : c x = c".to_string());
            [(Kind::Proof, name, text)]
        };
        for (path, name) in [
            ("proofs/arm/walk/Answers.antt", "walk"),
            ("proofs/arm/walk/Invariants.antt", "walk invariants"),
            ("proofs/walk/Proof.antt", "walk"),
        ] {
            assert_eq!(texts(path, text), of(name));
        }
        let law = texts("specs/Turn.antt", text);
        assert_eq!(law.len(), 2);
        assert_eq!(texts("proofs/Turn.antt", text), law);
    }
}
