//! The repository as the pages see it: its crates, and every item of their sources and specs with its place and what it names.

use crate::scope::Names;
use crate::specs::{self, Imports, Target};
use crate::{files, source};
use std::collections::{BTreeMap, BTreeSet, VecDeque};
use std::path::Path;

pub struct Crate {
    pub name: String,
    pub needs: Vec<String>,
}

/// An item of a specs file or of a source file.
pub enum Body {
    Spec(specs::Item),
    Code(source::Item),
}

pub struct Item {
    pub path: String,
    pub body: Body,
}

impl Item {
    pub fn name(&self) -> &str {
        match &self.body {
            Body::Spec(item) => &item.name,
            Body::Code(item) => &item.name,
        }
    }

    pub fn place(&self) -> specs::Place {
        match &self.body {
            Body::Spec(item) => item.place,
            Body::Code(item) => item.place,
        }
    }

    pub fn code(&self) -> Option<&source::Item> {
        match &self.body {
            Body::Code(item) => Some(item),
            Body::Spec(_) => None,
        }
    }

    pub fn spec(&self) -> Option<&specs::Item> {
        match &self.body {
            Body::Spec(item) => Some(item),
            Body::Code(_) => None,
        }
    }

    fn is_fixity(&self) -> bool {
        self.spec()
            .is_some_and(|spec| spec.kind == specs::Kind::Fixity)
    }
}

pub type Id = usize;

/// What a name in a file means.
pub enum Meaning {
    Item(Id),
    Kit(KitName),
}

/// A module of the kit, and a name of it.
pub type KitName = (String, String);

impl Meaning {
    pub fn item(&self) -> Option<Id> {
        match self {
            Meaning::Item(id) => Some(*id),
            Meaning::Kit(_) => None,
        }
    }
}

/// What some contracts rest on: items in the order of their distance, and names of the kit.
#[derive(Default)]
pub struct Closure {
    pub items: Vec<Id>,
    pub kit: BTreeSet<KitName>,
}

#[derive(Default)]
pub struct Repository {
    pub crates: Vec<Crate>,
    pub items: Vec<Item>,
    /// By path: what `use` and `ghost use` lines bring to specs and clauses.
    imports: BTreeMap<String, Imports>,
    /// By path: what `use` lines bring to code.
    used: BTreeMap<String, BTreeMap<String, String>>,
    /// The files of the modules that a crate shows to others.
    public: BTreeSet<String>,
    at: BTreeMap<(String, String), Id>,
}

/// The lines `NAME: DEP DEP ..` of crates.txt; in front of the colon may stand what else the crate is.
fn crates(text: &str) -> Result<Vec<Crate>, String> {
    let line = |line: &str| {
        let fault = || format!("crates.txt: no colon in '{line}'");
        let (name, needs) = line.split_once(':').ok_or_else(fault)?;
        Ok(Crate {
            name: name.split_whitespace().next().unwrap_or("").to_string(),
            needs: needs.split_whitespace().map(str::to_string).collect(),
        })
    };
    let bare = text.lines().filter_map(|line| line.split('#').next());
    let bare = bare.map(str::trim).filter(|line| !line.is_empty());
    bare.map(line).collect()
}

impl Repository {
    pub fn read(root: &Path) -> Result<Repository, String> {
        let mut all = Repository {
            crates: crates(&files::text(root, "crates.txt")?)?,
            ..Default::default()
        };
        let names: Vec<String> = all.crates.iter().map(|one| one.name.clone()).collect();
        for name in names {
            all.read_sources(root, &format!("crates/{name}/src"))?;
            all.read_specs(root, &format!("crates/{name}/specs"))?;
        }
        Ok(all)
    }

    fn read_sources(&mut self, root: &Path, folder: &str) -> Result<(), String> {
        for path in files::below(root, folder, "rt")? {
            let file = source::parse(&files::text(root, &path)?);
            self.imports.insert(path.clone(), file.imports);
            self.used.insert(path.clone(), file.used);
            let modules = file.modules.iter();
            self.public
                .extend(modules.map(|module| format!("{folder}/{module}.rt")));
            self.add(&path, file.items.into_iter().map(Body::Code));
        }
        Ok(())
    }

    fn read_specs(&mut self, root: &Path, folder: &str) -> Result<(), String> {
        for path in files::below(root, folder, "antt")? {
            let file = specs::parse(&files::text(root, &path)?);
            self.imports.insert(path.clone(), file.imports);
            self.add(&path, file.items.into_iter().map(Body::Spec));
        }
        Ok(())
    }

    fn add(&mut self, path: &str, bodies: impl Iterator<Item = Body>) {
        for body in bodies {
            let item = Item {
                path: path.to_string(),
                body,
            };
            let id = self.items.len();
            let names = names(&item).into_iter();
            let new = names.map(|name| ((path.to_string(), name), id));
            // The first of a name counts, as it does for the checker's own scope.
            let new: Vec<_> = new.filter(|(key, _)| !self.at.contains_key(key)).collect();
            self.at.extend(new);
            self.items.push(item);
        }
    }

    /// The line of crates.txt that has a file's crate.
    pub fn crate_of(&self, path: &str) -> Option<usize> {
        let name = path.split('/').nth(1)?;
        self.crates.iter().position(|one| one.name == name)
    }

    fn find(&self, path: &str, name: &str) -> Option<Id> {
        self.at.get(&(path.to_string(), name.to_string())).copied()
    }

    /// What a name means where a clause or a specs file writes it.
    pub fn means(&self, path: &str, name: &str) -> Result<Meaning, String> {
        let own = Some(path).filter(|path| path.ends_with(".antt"));
        let bare = name.split('.').next().unwrap_or(name);
        if let Some(id) = own.and_then(|path| self.find(path, bare)) {
            return Ok(Meaning::Item(id));
        }
        let imports = self.imports.get(path);
        match imports.and_then(|imports| specs::target(imports, name)) {
            Some(Target::Kit(module, name)) => Ok(Meaning::Kit((module, name))),
            Some(Target::Item(there, item)) => match self.find(&there, &item) {
                Some(id) => Ok(Meaning::Item(id)),
                None => Err(format!("{path}: '{name}' is not declared in {there}")),
            },
            None => Err(format!("{path}: no 'use' line brings '{name}'")),
        }
    }

    /// What a name in code means: an item of the same file, or by its path through the `use` lines.
    fn code_means(&self, path: &str, name: &str) -> Option<Id> {
        let (first, rest) = name.split_once("::").unwrap_or((name, ""));
        let written = match self.used.get(path)?.get(first) {
            Some(there) if rest.is_empty() => there.clone(),
            Some(there) => format!("{there}::{rest}"),
            None => name.to_string(),
        };
        let Some((front, item)) = written.rsplit_once("::") else {
            return self.find(path, name);
        };
        let (first, modules) = front.split_once("::").unwrap_or((front, "lib"));
        let krate = match first {
            "crate" | "super" => path.split('/').nth(1)?,
            other => other,
        };
        let module = modules.replace("::", "/");
        self.find(&format!("crates/{krate}/src/{module}.rt"), item)
    }

    fn types_of(&self, id: Id) -> Vec<Meaning> {
        let item = &self.items[id];
        let types = item.code().into_iter().flat_map(|code| &code.types);
        let meant = types.filter_map(|name| self.code_means(&item.path, name));
        meant.map(Meaning::Item).collect()
    }

    fn meant(&self, id: Id, names: &Names) -> Result<Vec<Meaning>, String> {
        let path = &self.items[id].path;
        names.iter().map(|name| self.means(path, name)).collect()
    }

    /// What a function's contract names, directly, and the types of its signature.
    pub fn named(&self, id: Id) -> Result<Vec<Meaning>, String> {
        let clauses = self.items[id].code().into_iter().flat_map(|c| &c.clauses);
        let uses: Names = clauses.flat_map(|c| c.uses.iter().cloned()).collect();
        let mut all = self.types_of(id);
        all.extend(self.meant(id, &uses)?);
        Ok(all)
    }

    /// What an item's own text names; for an operator its line of precedence too.
    fn next(&self, id: Id) -> Result<Vec<Meaning>, String> {
        let item = &self.items[id];
        let Some(spec) = item.spec() else {
            return Ok(self.types_of(id));
        };
        let names = |other: &Item| {
            other
                .name()
                .split_whitespace()
                .any(|word| word == spec.name)
        };
        let fixity = |other: &Item| other.is_fixity() && other.path == item.path && names(other);
        let mut all = self.meant(id, &spec.uses)?;
        all.extend(self.items.iter().position(fixity).map(Meaning::Item));
        Ok(all)
    }

    pub fn closure(&self, from: Vec<Meaning>) -> Result<Closure, String> {
        let mut closure = Closure::default();
        let mut seen = BTreeSet::new();
        let mut waiting = VecDeque::from(from);
        while let Some(meaning) = waiting.pop_front() {
            match meaning {
                Meaning::Kit(name) => drop(closure.kit.insert(name)),
                Meaning::Item(id) if seen.insert(id) => {
                    closure.items.push(id);
                    waiting.extend(self.next(id)?);
                }
                Meaning::Item(_) => {}
            }
        }
        Ok(closure)
    }

    /// How many definitions and types some items are, and their lines; a line of precedence is no definition.
    pub fn size(&self, ids: &[Id]) -> (usize, usize) {
        let items = || ids.iter().map(|id| &self.items[*id]);
        let count = items().filter(|item| !item.is_fixity()).count();
        (count, items().map(|item| item.place().lines).sum())
    }

    /// The functions that a crate shows to others.
    pub fn calls(&self, of: &str) -> Vec<Id> {
        let folder = format!("crates/{of}/src/");
        let is_call = |item: &Item| {
            let kind = item.code().map(|code| code.kind);
            let shown = item.path.starts_with(&folder) && self.public.contains(&item.path);
            shown && kind == Some(source::Kind::Function { public: true })
        };
        let ids = 0..self.items.len();
        ids.filter(|id| is_call(&self.items[*id])).collect()
    }

    /// The paths that the `use` lines of a crate's code bring.
    pub fn paths(&self, of: &str) -> Vec<&str> {
        let folder = format!("crates/{of}/src/");
        let files = self.used.iter();
        let files = files.filter(|(path, _)| path.starts_with(&folder));
        let paths = files.flat_map(|(_, used)| used.values());
        paths.map(String::as_str).collect()
    }

    /// How many functions the files below a folder have.
    pub fn functions(&self, folder: &str) -> usize {
        let is_function = |item: &&Item| {
            let kind = item.code().map(|code| code.kind);
            let function = matches!(kind, Some(source::Kind::Function { .. }));
            function && item.path.starts_with(folder)
        };
        self.items.iter().filter(is_function).count()
    }
}

/// The names by which an item is found: its own, the parts of an operator, a data type's cases.
fn names(item: &Item) -> Vec<String> {
    let mut names = vec![item.name().to_string()];
    if let Some(spec) = item.spec().filter(|spec| spec.kind != specs::Kind::Fixity) {
        names.extend(specs::parts(&spec.name).into_iter().map(str::to_string));
        names.extend(spec.cases.iter().cloned());
    }
    names
}
