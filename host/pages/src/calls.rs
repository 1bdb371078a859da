//! docs/CALLS.md: every public call with its contract, what the contract names, and the wrong programs that it rules out.

use crate::edits::Edit;
use crate::header::Declaration;
use crate::numbers::{self, Theorem};
use crate::repository::{Id, Item, Meaning, Repository};
use crate::source;
use std::collections::BTreeMap;

pub const HEADER: &str = "include/relaxed_ik.h";
const PREFIX: &str = "relaxed_ik_";

const TOP: &str = "\
# Calls

Made by `host/target/release/pages` from the sources. The gate runs it with `--check`, so a line that has moved is found: run `make pages` then.

A call's name leads to its code, *Contract* to each clause, *Definitions and types* to what the clauses name, *Header* to the declaration in C, of a call on
floats to that of its byte form.

- *Answers*: the numbers that the call can answer, 0 if it is taken. The link leads to the theorem: the number is the lowest whose condition holds, and 0 if
  none does.
- *Rests on*: how many definitions and types the contract names, directly or through others, and how many lines of code those are;
  [TRUST.md](TRUST.md#the-definitions-file-by-file) has them file by file.
- *Edits*: wrong programs that the prover has to refuse in every run of the gate, each at all calls whose answers it changes for some input: the number, the
  value, the state or a list. The edit's own line `calls:` names them. [DECISIONS.md](DECISIONS.md#what-the-must-fail-edits-rule-out) says what each is, and so
  does the link's title.
";

/// What the page is made from.
pub struct Sources<'a> {
    pub all: &'a Repository,
    pub header: &'a BTreeMap<String, Declaration>,
    pub theorems: &'a [Theorem],
    pub edits: &'a [Edit],
}

/// A call on floats, or an exported one.
pub struct Call<'a> {
    pub id: Id,
    code: &'a source::Item,
    does: &'a str,
    named: Vec<Id>,
    closure: Vec<Id>,
    pub theorem: Option<&'a Theorem>,
    pub header: Option<&'a Declaration>,
    /// Those that change its answers.
    pub edits: Vec<&'a Edit>,
}

impl Call<'_> {
    pub fn name(&self) -> &str {
        &self.code.name
    }

    /// Whether a caller owes it nothing.
    pub fn asks_nothing(&self) -> bool {
        self.code.clauses.iter().all(|clause| !clause.asks)
    }
}

pub struct Calls<'a> {
    pub floats: Vec<Call<'a>>,
    pub exported: Vec<Call<'a>>,
}

impl<'a> Calls<'a> {
    pub fn all(&self) -> impl Iterator<Item = &Call<'a>> {
        self.floats.iter().chain(&self.exported)
    }
}

/// A link from a page in docs/ to a line.
fn link(text: &str, path: &str, line: usize) -> String {
    format!("[{text}](../{path}#L{line})")
}

fn item_link(item: &Item) -> String {
    link(&format!("`{}`", item.name()), &item.path, item.place().line)
}

/// An exported call is told by the header, one on floats by the comment above it.
fn does<'a>(code: &'a source::Item, header: Option<&'a Declaration>) -> &'a str {
    match header {
        Some(declaration) if code.name.starts_with(PREFIX) => &declaration.does,
        _ => &code.about,
    }
}

impl<'a> Sources<'a> {
    fn call(&self, id: Id) -> Result<Call<'a>, String> {
        let item = &self.all.items[id];
        let code = item.code().ok_or("a call that is no function")?;
        let short = code.name.trim_start_matches(PREFIX);
        let header = self.header.get(&format!("{PREFIX}{short}"));
        let does = does(code, header);
        if does.is_empty() {
            let place = format!("{}:{}", item.path, code.place.line);
            return Err(format!("{place}: no comment says what {} does", code.name));
        }
        let meant = self.all.named(id)?;
        let named = meant.iter().filter_map(Meaning::item).collect();
        let closure = self.all.closure(meant)?.items;
        Ok(Call {
            id,
            code,
            does,
            named,
            theorem: numbers::of_call(self.theorems, &closure),
            header,
            edits: self.edits_of(&code.name),
            closure,
        })
    }

    fn edits_of(&self, call: &str) -> Vec<&'a Edit> {
        let changes = |edit: &&Edit| edit.calls.iter().any(|name| name == call);
        self.edits.iter().filter(changes).collect()
    }

    /// The public calls, in the header's order.
    pub fn gather(&self) -> Result<Calls<'a>, String> {
        let of = |crates: &[&str]| -> Result<Vec<Call<'a>>, String> {
            let ids = crates.iter().flat_map(|name| self.all.calls(name));
            let calls = ids.map(|id| self.call(id));
            let mut calls = calls.collect::<Result<Vec<_>, _>>()?;
            calls.sort_by_key(|call| call.header.map_or(0, |declaration| declaration.line));
            Ok(calls)
        };
        Ok(Calls {
            floats: of(&["sizing", "state_calls"])?,
            exported: of(&["exports"])?,
        })
    }

    fn answers(&self, call: &Call) -> String {
        let Some(theorem) = call.theorem else {
            return String::new();
        };
        let item = &self.all.items[theorem.id];
        link(
            &numbers::ranges(&theorem.numbers),
            &item.path,
            item.place().line,
        )
    }

    fn row(&self, call: &Call, numbered: bool) -> String {
        let item = &self.all.items[call.id];
        let clauses = call.code.clauses.iter();
        let clauses = clauses.map(|clause| link(&clause.name, &item.path, clause.line));
        let named = call.named.iter().map(|id| item_link(&self.all.items[*id]));
        let declared = |declaration: &Declaration| link("declaration", HEADER, declaration.line);
        let (count, lines) = self.all.size(&call.closure);
        let mut cells = vec![item_link(item), call.does.replace('|', "\\|")];
        if numbered {
            cells.push(self.answers(call));
        }
        cells.extend([
            joined(clauses),
            joined(named),
            format!("{count}, {lines} lines"),
            call.header.map_or(String::new(), declared),
            joined(call.edits.iter().map(|edit| edit_link(edit))),
        ]);
        format!("| {} |\n", cells.join(" | "))
    }

    fn table(&self, calls: &[&Call], numbered: bool) -> String {
        let answers = if numbered { " Answers |" } else { "" };
        let head = format!(
            "| Call | What it does |{answers} Contract | Definitions and types | Rests on | Header | Edits |"
        );
        let columns = "---|".repeat(head.matches('|').count() - 1);
        let rows = calls.iter().map(|call| self.row(call, numbered));
        format!("{head}\n|{columns}\n{}", rows.collect::<String>())
    }

    pub fn page(&self, calls: &Calls) -> String {
        let exported = calls.exported.iter();
        let (bytes, numbers): (Vec<&Call>, Vec<&Call>) =
            exported.partition(|c| c.theorem.is_some());
        let floats: Vec<&Call> = calls.floats.iter().collect();
        format!(
            "{TOP}\n## On floats\n\n{}\n## Byte calls\n\n{}\n## Functions of numbers\n\n{}",
            self.table(&floats, true),
            self.table(&bytes, true),
            self.table(&numbers, false),
        )
    }
}

fn joined(parts: impl Iterator<Item = String>) -> String {
    parts.collect::<Vec<_>>().join(", ")
}

fn edit_link(edit: &Edit) -> String {
    match &edit.wrong {
        Some(wrong) => format!(
            "[{}](../{} \"{}\")",
            edit.name,
            edit.path,
            wrong.replace('"', "'")
        ),
        None => format!("[{}](../{})", edit.name, edit.path),
    }
}
