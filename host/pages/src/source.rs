//! The items of a Rattle source file: functions with their contracts, types and constants.

use crate::scope::{self, Names};
use crate::specs::{self, Imports, Place};
use crate::words::{self, Word};
use std::collections::BTreeMap;
use std::ops::Range;

#[derive(Clone, Debug, PartialEq)]
pub struct Clause {
    /// The name that the source gives it, or `requires`, or `ensures`.
    pub name: String,
    /// Whether it is a `requires`.
    pub asks: bool,
    pub line: usize,
    /// The names that it refers to, but for parameters.
    pub uses: Names,
    pub text: Vec<Word>,
}

#[derive(Clone, Copy, Debug, PartialEq)]
pub enum Kind {
    Function { public: bool },
    Type,
    Constant,
}

#[derive(Debug)]
pub struct Item {
    pub name: String,
    pub kind: Kind,
    pub place: Place,
    /// The comment above it.
    pub about: String,
    pub clauses: Vec<Clause>,
    /// The types that a signature, a field or a case names.
    pub types: Names,
    /// Its text without comments; a function's up to its contract.
    pub text: String,
}

#[derive(Debug)]
pub struct File {
    /// What the `ghost use` lines bring to the clauses.
    pub imports: Imports,
    /// What the `use` lines bring to the code: the written name, and its path.
    pub used: BTreeMap<String, String>,
    /// The modules that others see.
    pub modules: Vec<String>,
    pub items: Vec<Item>,
}

/// The text with every comment blanked, so that places stay.
fn bare(text: &str) -> String {
    let blank = |line: &str| match line.find("//") {
        Some(at) => format!("{}{}", &line[..at], " ".repeat(line.len() - at)),
        None => line.to_string(),
    };
    text.lines().map(blank).collect::<Vec<_>>().join("\n") + "\n"
}

fn line_of(text: &str, at: usize) -> usize {
    text[..at].matches('\n').count() + 1
}

fn is_word(c: char) -> bool {
    c.is_ascii_alphanumeric() || c == '_'
}

/// The end of the bracket that opens at `at`, behind its closer.
fn closed(text: &str, at: usize, open: char, close: char) -> usize {
    let mut depth = 0;
    for (here, c) in text[at..].char_indices() {
        depth += i32::from(c == open) - i32::from(c == close);
        if depth == 0 {
            return at + here + c.len_utf8();
        }
    }
    text.len()
}

/// The comment lines right above a line, attributes passed over.
fn about(text: &str, line: usize) -> String {
    let lines: Vec<&str> = text.lines().take(line - 1).map(str::trim).collect();
    let above = lines.into_iter().rev();
    let above = above.skip_while(|line| line.starts_with("#["));
    let comment = above.map_while(|line| line.strip_prefix("//"));
    let mut words: Vec<&str> = comment.map(str::trim).collect();
    words.reverse();
    words.join(" ")
}

/// The paths of names in code, as `a::b`, each with the character behind it.
fn paths(text: &str) -> Vec<(&str, char)> {
    let mut found = Vec::new();
    let mut rest = text;
    while let Some(at) = rest.find(is_word) {
        let word = &rest[at..];
        let end = word.find(|c| !is_word(c) && c != ':').unwrap_or(word.len());
        let path = word[..end].trim_end_matches(':');
        let behind = word[path.len()..].chars().next().unwrap_or(' ');
        found.push((path, behind));
        rest = &word[end..];
    }
    found
}

/// The types that a signature or a type's body names.
fn types(text: &str) -> Names {
    let named = paths(text).into_iter().map(|(path, _)| path);
    named
        .filter(|path| path.starts_with(|c: char| c.is_ascii_uppercase()))
        .map(str::to_string)
        .collect()
}

/// The parameters' names: each word in front of a colon.
fn parameters(signature: &str) -> Names {
    let named = paths(signature)
        .into_iter()
        .filter(|(_, behind)| *behind == ':');
    let mut names: Names = named.map(|(path, _)| path.to_string()).collect();
    names.insert("self".to_string());
    names
}

/// A clause's words, its `requires` or `ensures` and its name, stand in `head`, its body in `body`. Each `ensures` is lent `result`.
fn clause(text: &str, head: &Range<usize>, body: &Range<usize>, bound: &Names) -> Option<Clause> {
    let words = text[head.clone()].split_whitespace();
    let named: Vec<&str> = words.skip_while(|word| !CLAUSES.contains(word)).collect();
    let kind = text[head.clone()].find(named.first()?)?;
    let inside = text[body.clone()].trim_matches(['{', '}']);
    let inside = words::words(inside);
    let asks = named.first() == Some(&"requires");
    let mut bound = bound.clone();
    if !asks {
        bound.insert("result".to_string());
    }
    Some(Clause {
        name: named.last()?.to_string(),
        asks,
        line: line_of(text, head.start + kind),
        uses: scope::free(&inside, &bound),
        text: inside,
    })
}

const CLAUSES: [&str; 2] = ["requires", "ensures"];

/// Reads a function on from its `(` into the item, and answers the place behind it.
fn function(text: &str, open: usize, item: &mut Item) -> usize {
    let mut at = closed(text, open, '(', ')');
    let bound = parameters(&text[open..at]);
    let brace_from = |at: usize| text[at..].find('{').map_or(text.len(), |brace| at + brace);
    item.types = types(&text[open..brace_from(at)]);
    loop {
        let brace = brace_from(at);
        let end = closed(text, brace, '{', '}');
        let Some(clause) = clause(text, &(at..brace), &(brace..end), &bound) else {
            return end;
        };
        item.clauses.push(clause);
        at = end;
    }
}

/// A function's text up to its contract or body.
fn signature(text: &str) -> &str {
    let clauses = CLAUSES
        .iter()
        .filter_map(|word| text.find(&format!(" {word} ")));
    let ends = text.find('{').into_iter().chain(clauses);
    text[..ends.min().unwrap_or(text.len())].trim()
}

/// What a line declares: the word for it, the name, and whether others see it.
fn head(line: &str) -> Option<(&str, &str, bool)> {
    let line = line.trim();
    let public = line.starts_with("pub ");
    let marks = ["pub(crate) ", "pub ", "extern \"C\" "];
    let bare = marks
        .iter()
        .fold(line, |line, mark| line.trim_start_matches(mark));
    let (word, rest) = bare.split_once(' ')?;
    let name = &rest[..rest.find(|c| !is_word(c)).unwrap_or(rest.len())];
    let known = ["fn", "struct", "enum", "const", "mod"].contains(&word);
    known.then_some((word, name, public))
}

/// The item that begins at a line, and the place behind it.
fn item(text: &str, bare: &str, at: usize, line: &str) -> Option<(Item, usize)> {
    let (word, name, public) = head(line)?;
    let first = line_of(bare, at);
    let mut item = Item {
        name: name.to_string(),
        kind: Kind::Type,
        place: Place::default(),
        about: about(text, first),
        clauses: Vec::new(),
        types: Names::new(),
        text: String::new(),
    };
    let end = match word {
        "fn" => {
            item.kind = Kind::Function { public };
            function(bare, at + bare[at..].find('(')?, &mut item)
        }
        "const" => {
            item.kind = Kind::Constant;
            at + bare[at..].find(";\n")? + 1
        }
        "struct" | "enum" => {
            let end = closed(bare, at + bare[at..].find(['{', ';'])?, '{', '}');
            item.types = types(&bare[at..end]);
            item.types.remove(name);
            end
        }
        _ => return None,
    };
    item.text = match item.kind {
        Kind::Function { .. } => signature(&bare[at..end]),
        _ => &bare[at..end],
    }
    .to_string();
    let lines = bare[at..end].lines().filter(|line| !line.trim().is_empty());
    item.place = Place {
        line: first,
        last: line_of(bare, end),
        lines: lines.count(),
    };
    Some((item, end))
}

/// What a `use` line brings, one or several in braces: the last word of the path, or what follows `as`, and the path.
fn used(line: &str) -> Vec<(String, String)> {
    let Some(path) = line.trim().strip_prefix("use ") else {
        return Vec::new();
    };
    let path = path.trim_end_matches(';');
    let (front, inside) = path.split_once('{').unwrap_or(("", path));
    let several = inside.trim_end_matches('}').split(',').map(str::trim);
    let bring = |one: &str| {
        let last = one.rsplit("::").next().unwrap_or(one);
        let (one, name) = one.split_once(" as ").unwrap_or((one, last));
        (name.to_string(), format!("{front}{one}"))
    };
    several.filter(|one| !one.is_empty()).map(bring).collect()
}

fn items(text: &str, bare: &str) -> Vec<Item> {
    let mut items = Vec::new();
    let mut at = 0;
    while at < bare.len() {
        let line = bare[at..].lines().next().unwrap_or("");
        match item(text, bare, at, line) {
            Some((item, end)) => {
                items.push(item);
                at = end;
            }
            None => at += line.len() + 1,
        }
    }
    items
}

pub fn parse(text: &str) -> File {
    let bare = bare(text);
    let ghost = bare
        .lines()
        .filter_map(|line| line.trim().strip_prefix("ghost use "));
    let module = |line: &str| match head(line) {
        Some(("mod", name, true)) => Some(name.to_string()),
        _ => None,
    };
    File {
        imports: ghost.flat_map(specs::import).collect(),
        used: bare.lines().flat_map(used).collect(),
        modules: bare.lines().filter_map(module).collect(),
        items: items(text, &bare),
    }
}

#[cfg(test)]
mod tests {
    use super::*;

    const TEXT: &str = "\
#![tactic(auto)]
// A page.
use crate::state::State;
use refusals::lent as bytes;
use refusals::{load, shape as form};
ghost use Rattle.first.specs.Num.{sum_of, ◌⊕◌};
pub mod arms;
mod kept;

// Two floats.
#[derive(Clone, Copy)]
pub struct Pair {
    pub a: f64, // the first
    pub next: Kind,
}

const LARGE: [u16; 2] = [
    1,
    2,
];

impl Pair {
    // Adds
    // them.
    #[unsafe(no_mangle)]
    pub extern \"C\" fn sum(state: State, new_list: &mut [f64]) -> Pair
        requires { sum_of state.now }
        ensures list { new_list.new ≡ result ⊕ sum_of
            (record { a = result.next }) }
    {
        if bytes::first(LARGE) { 1 } else { inner(2) }
    }
}

fn inner(x: f64) -> f64 {
    x
}
";

    #[test]
    fn items_have_their_lines() {
        let file = parse(TEXT);
        let places: Vec<(&str, usize, usize)> = file
            .items
            .iter()
            .map(|i| (i.name.as_str(), i.place.line, i.place.last))
            .collect();
        assert_eq!(
            places,
            [
                ("Pair", 12, 15),
                ("LARGE", 17, 20),
                ("sum", 26, 32),
                ("inner", 35, 37)
            ]
        );
        assert_eq!(file.modules, ["arms"]);
        assert_eq!(file.used["bytes"], "refusals::lent");
        assert_eq!(file.used["load"], "refusals::load");
        assert_eq!(file.used["form"], "refusals::shape");
    }

    #[test]
    fn a_function_has_its_contract() {
        let file = parse(TEXT);
        let sum = &file.items[2];
        assert_eq!(sum.kind, Kind::Function { public: true });
        assert_eq!(sum.about, "Adds them.");
        let clauses: Vec<(&str, usize)> = sum
            .clauses
            .iter()
            .map(|c| (c.name.as_str(), c.line))
            .collect();
        assert_eq!(clauses, [("requires", 27), ("list", 28)]);
        assert!(sum.clauses[0].asks && !sum.clauses[1].asks);
        assert_eq!(
            sum.clauses[1].uses.iter().collect::<Vec<_>>(),
            ["sum_of", "≡", "⊕"]
        );
        assert_eq!(sum.types.iter().collect::<Vec<_>>(), ["Pair", "State"]);
        assert_eq!(file.items[0].types.iter().collect::<Vec<_>>(), ["Kind"]);
        assert_eq!(file.items[0].about, "Two floats.");
    }
}
