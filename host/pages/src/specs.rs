//! The declarations of a specs file: definitions, laws, and where each stands.

use crate::scope::{self, Names};
use crate::words::{self, Word};
use std::collections::BTreeMap;

/// What a `use` line brings: an item by its file and name, or a name of the kit by its module.
#[derive(Clone, Debug, PartialEq)]
pub enum Target {
    Item(String, String),
    Kit(String, String),
}

pub type Imports = BTreeMap<String, Target>;

#[derive(Clone, Copy, Debug, PartialEq)]
pub enum Kind {
    Definition,
    Law,
    Fixity,
}

/// Where an item stands in its file.
#[derive(Clone, Copy, Debug, Default, PartialEq)]
pub struct Place {
    pub line: usize,
    pub last: usize,
    /// Lines of code, without comments and blank lines.
    pub lines: usize,
}

#[derive(Debug)]
pub struct Item {
    pub name: String,
    pub kind: Kind,
    pub place: Place,
    /// What its text refers to.
    pub uses: Names,
    /// The names of a data type's cases.
    pub cases: Vec<String>,
    /// The words of its type, if it is a law.
    pub statement: Vec<Word>,
    pub text: Vec<Word>,
    /// The heads of the modules around it, whose parameters are its own.
    pub heads: Vec<Word>,
}

#[derive(Debug)]
pub struct File {
    pub imports: Imports,
    pub items: Vec<Item>,
}

/// Some lines that belong together: a signature, a clause, a `use` line.
#[derive(Default)]
struct Entry {
    place: Place,
    text: String,
    words: Vec<Word>,
    /// What the modules around it bind.
    outer: Names,
    heads: Vec<Word>,
}

/// A module that is open: how far in its lines stand, and its head.
struct Block {
    indent: usize,
    head: Vec<Word>,
}

/// The parts by which an operator is written: `◌⊕◌` as `⊕`.
pub fn parts(name: &str) -> Vec<&str> {
    name.split('◌').filter(|part| !part.is_empty()).collect()
}

/// The file of a module of a crate, and the type's name where the module is that of a declared type.
fn place(module: &str) -> Option<(String, Option<String>)> {
    let own = module.strip_prefix("Rattle.")?;
    if own.starts_with("std.") {
        return None;
    }
    let Some((name, rest)) = own.split_once(".specs") else {
        // No such file is read, so a name that leads there is told.
        return Some((format!("the module {own}"), None));
    };
    let rest = rest.trim_start_matches('.');
    let Some(declared) = rest.strip_prefix("declared.") else {
        let file = if rest.is_empty() { "Lib" } else { rest };
        let file = file.replace('.', "/");
        return Some((format!("crates/{name}/specs/{file}.antt"), None));
    };
    let declared = declared.trim_end_matches(".TheVariants");
    let (file, item) = declared.rsplit_once('.').unwrap_or(("lib", declared));
    let file = file.replace('.', "/");
    Some((
        format!("crates/{name}/src/{file}.rt"),
        Some(item.to_string()),
    ))
}

fn leads(module: &str, name: &str) -> Target {
    match place(module) {
        Some((path, item)) => Target::Item(path, item.unwrap_or_else(|| name.to_string())),
        None => Target::Kit(module.to_string(), name.to_string()),
    }
}

/// What a written name leads to: brought by itself, perhaps with a field behind it, or as `x.name` through `use MODULE as x`.
pub fn target(imports: &Imports, name: &str) -> Option<Target> {
    let Some((front, inner)) = name.split_once('.') else {
        return imports.get(name).cloned();
    };
    match imports.get(&format!("{front}.")) {
        Some(Target::Kit(module, _)) => Some(leads(module, inner)),
        Some(Target::Item(path, _)) => Some(Target::Item(path.clone(), inner.to_string())),
        None => imports.get(front).cloned(),
    }
}

/// What one `use` line brings, by the words with which it is then written.
pub fn import(line: &str) -> Vec<(String, Target)> {
    let line = line.trim().trim_end_matches(';');
    if let Some((module, alias)) = line.split_once(" as ") {
        return vec![(format!("{}.", alias.trim()), leads(module.trim(), ""))];
    }
    let Some((module, names)) = line.split_once(".{") else {
        return Vec::new();
    };
    let names = names.trim_end_matches('}').split(',').map(str::trim);
    let names = names.filter(|name| !name.is_empty());
    let bring = |name| {
        let target = leads(module.trim(), name);
        let written = written(name).into_iter();
        written.map(move |word| (word.to_string(), target.clone()))
    };
    names.flat_map(bring).collect()
}

fn written(name: &str) -> Vec<&str> {
    match name.strip_prefix('«') {
        Some(quoted) => vec![quoted.trim_end_matches('»')],
        None => parts(name),
    }
}

/// Gathers lines to entries: a line further in than its block goes on with the entry before it.
#[derive(Default)]
struct Gather {
    entries: Vec<Entry>,
    blocks: Vec<Block>,
}

impl Gather {
    fn line(&mut self, number: usize, line: &str) {
        let code = words::code(line);
        if code.trim().is_empty() {
            return;
        }
        let indent = code.len() - code.trim_start().len();
        self.open(indent);
        while self.blocks.pop_if(|b| indent < b.indent).is_some() {}
        if self.blocks.last().is_some_and(|b| indent == b.indent) {
            let names = self.blocks.iter().flat_map(|b| scope::bound(&b.head));
            let mut entry = Entry {
                outer: names.collect(),
                heads: self.blocks.iter().flat_map(|b| b.head.clone()).collect(),
                ..Default::default()
            };
            entry.place.line = number;
            self.entries.push(entry);
        }
        if let Some(entry) = self.entries.last_mut() {
            entry.place.last = number;
            entry.place.lines += 1;
            entry.text.push_str(code);
            entry.text.push('\n');
        }
    }

    /// Opens the file's own block, or that of a module whose head is complete.
    fn open(&mut self, indent: usize) {
        let Some(entry) = self.entries.last() else {
            let head = Vec::new();
            self.blocks = vec![Block { indent, head }];
            return;
        };
        let head = entry.text.trim();
        let inside = self.blocks.last().is_some_and(|b| indent > b.indent);
        if inside && head.starts_with("module ") && head.ends_with("where") {
            let head = words::words(head);
            self.blocks.push(Block { indent, head });
        }
    }
}

fn entries(text: &str) -> Vec<Entry> {
    let mut gather = Gather::default();
    for (at, line) in text.lines().enumerate() {
        gather.line(at + 1, line);
    }
    let with_words = |entry: Entry| Entry {
        words: words::words(&entry.text),
        ..entry
    };
    gather.entries.into_iter().map(with_words).collect()
}

/// The marks in front of a declaration, and what follows them.
fn marks(words: &[Word]) -> (&[Word], &[Word]) {
    const MARKS: [&str; 6] = ["pub", "abbrev", "unfoldable", "axiom", "record", "data"];
    let is_mark = |word: &&Word| MARKS.iter().any(|mark| word.is(mark));
    words.split_at(words.iter().take_while(is_mark).count())
}

fn has(words: &[Word], marks: &[&str]) -> bool {
    words
        .iter()
        .any(|word| marks.iter().any(|mark| word.is(mark)))
}

/// What an entry declares, if it begins a declaration.
fn kind(entry: &Entry) -> Option<Kind> {
    let (marks, rest) = marks(&entry.words);
    if entry.text.starts_with("infix") {
        return Some(Kind::Fixity);
    }
    if has(marks, &["record", "data"]) {
        return Some(Kind::Definition);
    }
    rest.get(1).filter(|word| word.is(":"))?;
    match has(marks, &["abbrev", "unfoldable", "axiom"]) {
        true => Some(Kind::Definition),
        false => Some(Kind::Law),
    }
}

/// The cases of a data type: the first word of each line behind its head.
fn cases(entry: &Entry) -> Vec<String> {
    if !has(marks(&entry.words).0, &["data"]) {
        return Vec::new();
    }
    let inside = entry.words.iter().skip(1).filter(|word| word.first);
    inside.map(|word| word.text.clone()).collect()
}

/// The item that an entry begins, if it begins one.
fn begun(entry: &Entry) -> Option<Item> {
    let kind = kind(entry)?;
    let (_, rest) = marks(&entry.words);
    let (name, uses) = match kind {
        Kind::Fixity => (entry.text.trim().to_string(), Names::new()),
        _ => (rest[0].text.clone(), of_head(entry)),
    };
    let statement = match kind {
        Kind::Law => rest[2..].to_vec(),
        _ => Vec::new(),
    };
    Some(Item {
        name,
        kind,
        place: entry.place,
        uses,
        cases: cases(entry),
        statement,
        text: entry.words.clone(),
        heads: entry.heads.clone(),
    })
}

/// What a declared type or a signature refers to.
fn of_head(entry: &Entry) -> Names {
    let (_, rest) = marks(&entry.words);
    let mut outer = entry.outer.clone();
    outer.extend(rest.first().map(|word| word.text.clone()));
    // A field's or a case's name stands first in its line, behind `pub` at most.
    let heads = entry.words.windows(2).skip(1).filter(|pair| pair[0].first);
    let fields = heads.map(|pair| &pair[usize::from(pair[0].is("pub"))]);
    if has(&entry.words, &["where"]) {
        outer.extend(fields.map(|word| word.text.clone()));
    }
    scope::free(rest, &outer)
}

/// What a clause refers to: in its patterns cases alone, the other names there are bound.
fn of_clause(entry: &Entry, own: &str, is_case: &dyn Fn(&str) -> bool) -> Names {
    let (left, right) = scope::sides(&entry.words);
    let own = parts(own);
    let mut patterns = scope::free(left, &entry.outer);
    patterns.retain(|name| !own.contains(&name.as_str()));
    let (cases, variables): (Names, Names) = patterns.into_iter().partition(|name| is_case(name));
    let outer = entry.outer.iter().cloned().chain(variables).collect();
    let mut uses = scope::free(right, &outer);
    uses.extend(cases);
    uses
}

/// Whether a name in a pattern is a case of a data type: one of this file, or one that a `use` line brings.
fn is_case(name: &str, local: &Names, imports: &Imports) -> bool {
    match imports.get(name) {
        _ if local.contains(name) => true,
        Some(Target::Kit(..)) => true,
        Some(Target::Item(..)) => name.starts_with(char::is_uppercase),
        None => false,
    }
}

/// Adds an entry to the items: it begins one, or goes on with the last.
fn take(items: &mut Vec<Item>, entry: Entry, is_case: &dyn Fn(&str) -> bool) {
    let (_, rest) = marks(&entry.words);
    if has(&rest[..1], &["use", "mod", "module"]) {
        return;
    }
    if let Some(item) = begun(&entry) {
        items.push(item);
    } else if let Some(item) = items.last_mut() {
        if !entry.words[0].is("unfolding") {
            item.uses.extend(of_clause(&entry, &item.name, is_case));
        }
        item.place.lines += entry.place.lines;
        item.place.last = entry.place.last;
        item.text.extend(entry.words);
    }
}

pub fn parse(text: &str) -> File {
    let entries = entries(text);
    let used = entries.iter().filter_map(|e| e.text.strip_prefix("use "));
    let imports: Imports = used.flat_map(import).collect();
    let local: Names = entries.iter().flat_map(cases).collect();
    let mut items = Vec::new();
    for entry in entries {
        take(&mut items, entry, &|name| is_case(name, &local, &imports));
    }
    File { imports, items }
}

#[cfg(test)]
mod tests {
    use super::*;

    const TEXT: &str = "\
-- A page.
use Rattle.std.specs.Float.Ieee.{Float, add}
use Rattle.first.specs.Num.{◌⊗◌, joints}
use Rattle.first.specs.Num as num
use Rattle.sheet.specs.declared.code.Kind.TheVariants.{Fixed}
use Rattle.sheet.specs.declared.code.Kind.{Kind}

infixl 6 ◌⊕◌

abbrev pub ◌⊕◌ : Float → Float → Float
x ⊕ y = add x y

-- of a kind
unfoldable pub cost_of : Kind → ℕ → Float
cost_of Fixed joints =
    one.x ⊗ num.two joints.sum

module _ (f : A → B)
    (g : B) where
  pub law : (x : A) → f x ≡ g
  unfolding cost_of
  law x = refl

pub record Pair : Type 0 where
  pub first : Float
  pub second : Kind
";

    fn item<'a>(file: &'a File, name: &str) -> &'a Item {
        file.items.iter().find(|item| item.name == name).unwrap()
    }

    fn place(line: usize, last: usize, lines: usize) -> Place {
        Place { line, last, lines }
    }

    fn listed(names: &Names) -> Vec<&str> {
        names.iter().map(String::as_str).collect()
    }

    #[test]
    fn declarations_have_their_lines_and_names() {
        let file = parse(TEXT);
        let sum = item(&file, "◌⊕◌");
        assert_eq!((sum.place, sum.kind), (place(10, 11, 2), Kind::Definition));
        assert_eq!(listed(&sum.uses), ["Float", "add"]);
        let cost = item(&file, "cost_of");
        assert_eq!(cost.place, place(14, 16, 3));
        assert_eq!(
            listed(&cost.uses),
            ["Fixed", "Float", "Kind", "num.two", "one.x", "ℕ", "⊗"]
        );
        let law = item(&file, "law");
        assert_eq!(law.kind, Kind::Law);
        assert_eq!(listed(&law.uses), ["A", "refl", "≡"]);
        assert_eq!(law.statement.len(), 10);
        assert_eq!((law.heads.len(), sum.heads.len()), (15, 0));
        let pair = item(&file, "Pair");
        assert_eq!(
            (pair.kind, pair.place),
            (Kind::Definition, place(24, 26, 3))
        );
        assert_eq!(listed(&pair.uses), ["Float", "Kind"]);
    }

    #[test]
    fn a_use_line_leads_to_a_file() {
        let file = parse(TEXT);
        let item = |path: &str, name: &str| Target::Item(path.to_string(), name.to_string());
        assert_eq!(
            file.imports["⊗"],
            item("crates/first/specs/Num.antt", "◌⊗◌")
        );
        let two = item("crates/first/specs/Num.antt", "two");
        assert_eq!(target(&file.imports, "num.two"), Some(two));
        let joints = item("crates/first/specs/Num.antt", "joints");
        assert_eq!(target(&file.imports, "joints.sum"), Some(joints));
        assert_eq!(
            file.imports["Fixed"],
            item("crates/sheet/src/code.rt", "Kind")
        );
        let kit = Target::Kit("Rattle.std.specs.Float.Ieee".to_string(), "add".to_string());
        assert_eq!(file.imports["add"], kit);
    }
}
