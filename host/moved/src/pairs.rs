//! Which item of the new state is which of the old one.

use crate::items::{Item, Kind};
use std::collections::{BTreeMap, HashMap};

#[derive(Clone, Copy, Debug, PartialEq)]
pub enum Fate {
    Added,
    Changed,
    Removed,
    /// The same text in another file or crate, or with other names.
    Moved,
    Stayed,
}

/// What became of an item: the new one, or the old one if it was removed.
pub struct Told<'a> {
    pub fate: Fate,
    pub item: &'a Item,
    /// The old one, if there was one.
    pub old: Option<&'a Item>,
}

/// What the old state calls by another name, by the old names.
#[derive(Default)]
pub struct Names(HashMap<String, String>);

impl Names {
    /// A text in the new names.
    fn renewed(&self, text: &str) -> String {
        let word = |word| self.0.get(word).map_or(word, String::as_str);
        text.split(' ').map(word).collect::<Vec<_>>().join(" ")
    }

    /// The same, with the item's own name left open.
    fn unnamed(&self, name: &str, text: &str) -> String {
        let open = |word| if word == name { "_" } else { word };
        self.renewed(&text.split(' ').map(open).collect::<Vec<_>>().join(" "))
    }
}

/// What two items must share to be one; each step takes what the steps before it left.
type Key = fn(&Item, &Names) -> Option<String>;

fn joined(parts: &[&str]) -> Option<String> {
    Some(parts.join("\n"))
}

/// A clause or a function's proof hardly names its function, so its text alone says too little.
fn unnamed(item: &Item, names: &Names) -> Option<String> {
    let told = !matches!(item.kind, Kind::Promise | Kind::Proof);
    told.then(|| names.unnamed(&item.name, &item.text))
}

/// A clause by its function, its kind and its text, whatever its name.
fn clause(item: &Item, names: &Names) -> Option<String> {
    let (function, what) = item.name.split_once(' ')?;
    let kind = what.split(' ').next()?;
    let told = item.kind == Kind::Promise;
    told.then(|| joined(&[&item.krate, function, kind, &names.renewed(&item.text)]))?
}

// A name can stand in two crates and be renamed in one, so the name as it is comes before the new one.
const STEPS: [(Fate, Key); 12] = [
    (Fate::Stayed, |i, _| {
        joined(&[&i.krate, &i.place, &i.name, &i.text])
    }),
    (Fate::Moved, |i, _| joined(&[&i.krate, &i.name, &i.text])),
    (Fate::Moved, |i, _| joined(&[&i.name, &i.text])),
    (Fate::Moved, |i, n| {
        joined(&[&n.renewed(&i.name), &n.renewed(&i.text)])
    }),
    (Fate::Moved, clause),
    (Fate::Changed, |i, _| joined(&[&i.krate, &i.place, &i.name])),
    (Fate::Changed, |i, n| {
        joined(&[&i.krate, &i.place, &n.renewed(&i.name)])
    }),
    (Fate::Moved, unnamed),
    (Fate::Changed, |i, _| joined(&[&i.krate, &i.name])),
    (Fate::Changed, |i, n| {
        joined(&[&i.krate, &n.renewed(&i.name)])
    }),
    (Fate::Changed, |i, _| joined(&[&i.name])),
    (Fate::Changed, |i, n| joined(&[&n.renewed(&i.name)])),
];

/// Takes the pairs with equal keys out of both lists, in their order.
fn paired<'a>(
    old: &mut Vec<&'a Item>,
    new: &mut Vec<&'a Item>,
    key: Key,
    names: &Names,
) -> Vec<(&'a Item, &'a Item)> {
    let mut places: HashMap<String, Vec<usize>> = HashMap::new();
    for (at, item) in old.iter().enumerate().rev() {
        if let Some(key) = key(item, names) {
            places.entry(key).or_default().push(at);
        }
    }
    let (mut taken, none) = (vec![false; old.len()], Names::default());
    let mut pairs = Vec::new();
    new.retain(|item| {
        let found = key(item, &none).and_then(|key| places.get_mut(&key)?.pop());
        if let Some(at) = found {
            taken[at] = true;
            pairs.push((old[at], *item));
        }
        found.is_none()
    });
    let mut at = 0..;
    old.retain(|_| !taken[at.next().unwrap_or(0)]);
    pairs
}

/// What became of the items of one kind.
pub fn told<'a>(old: &'a [Item], new: &'a [Item], kind: Kind, names: &Names) -> Vec<Told<'a>> {
    let mut old: Vec<&Item> = old.iter().filter(|item| item.kind == kind).collect();
    let mut new: Vec<&Item> = new.iter().filter(|item| item.kind == kind).collect();
    let mut all = Vec::new();
    for (fate, key) in STEPS {
        let pairs = paired(&mut old, &mut new, key, names).into_iter();
        all.extend(pairs.map(|(old, item)| Told {
            fate,
            item,
            old: Some(old),
        }));
    }
    let alone = |fate| {
        move |item| Told {
            fate,
            item,
            old: None,
        }
    };
    all.extend(new.into_iter().map(alone(Fate::Added)));
    all.extend(old.into_iter().map(alone(Fate::Removed)));
    all
}

/// Each function by crate and name, with all that it promises, its own name left open.
fn functions(items: &[Item], names: &Names) -> BTreeMap<(String, String), String> {
    let mut all: BTreeMap<(String, String), String> = BTreeMap::new();
    for item in items.iter().filter(|item| item.kind == Kind::Promise) {
        let (function, what) = item.name.split_once(' ').unwrap_or((&item.name, ""));
        let text = all
            .entry((item.krate.clone(), function.to_string()))
            .or_default();
        text.push_str(&format!("{what} {}\n", names.unnamed(function, &item.text)));
    }
    all
}

/// The functions of a crate that promise the same under another name.
fn renamed_functions(old: &[Item], new: &[Item], names: &Names) -> Vec<(String, String)> {
    let (old, new) = (functions(old, names), functions(new, &Names::default()));
    let gone = old.iter().filter(|(key, _)| !new.contains_key(key));
    let come: Vec<_> = new
        .iter()
        .filter(|(key, _)| !old.contains_key(key))
        .collect();
    let same = |(key, text): (&(String, String), &String)| {
        let mut found = come.iter().filter(|(k, t)| k.0 == key.0 && *t == text);
        let name = found.next().map(|(k, _)| k.1.clone());
        name.filter(|_| found.next().is_none())
            .map(|name| (key.1.clone(), name))
    };
    gone.filter_map(same).collect()
}

/// Every definition, law and function under another name. One that names another is found after that one.
pub fn names(old: &[Item], new: &[Item]) -> Names {
    let mut names = Names::default();
    loop {
        let known = names.0.len();
        let mut found = renamed_functions(old, new, &names);
        for kind in [Kind::Definition, Kind::Law] {
            let all = told(old, new, kind, &names);
            let moved = all.iter().filter(|one| one.fate == Fate::Moved);
            let pairs = moved.filter_map(|one| Some((&one.old?.name, &one.item.name)));
            let other = pairs.filter(|(before, after)| before != after);
            found.extend(other.map(|(before, after)| (before.clone(), after.clone())));
        }
        names.0.extend(found);
        if names.0.len() == known {
            return names;
        }
    }
}

#[cfg(test)]
mod tests {
    use super::*;

    fn item(krate: &str, place: &str, name: &str, text: &str) -> Item {
        let [krate, place, name, text] = [krate, place, name, text].map(str::to_string);
        Item {
            kind: Kind::Law,
            krate,
            place,
            name,
            text,
        }
    }

    #[test]
    fn each_fate_is_told() {
        let old = [
            item("a", "A", "stays", "1"),
            item("a", "A", "goes", "2"),
            item("a", "A", "shifts", "3"),
            item("a", "A", "changes", "4"),
            item("a", "A", "before", "5 = before x"),
            item("b", "A", "shifts and changes", "6"),
        ];
        let new = [
            item("a", "A", "stays", "1"),
            item("b", "B", "shifts", "3"),
            item("a", "A", "changes", "four"),
            item("a", "A", "after", "5 = after x"),
            item("c", "C", "shifts and changes", "six"),
            item("a", "A", "comes", "7"),
        ];
        let told = told(&old, &new, Kind::Law, &names(&old, &new));
        let fates: Vec<(&str, Fate)> = told
            .iter()
            .map(|t| (t.item.name.as_str(), t.fate))
            .collect();
        assert_eq!(
            fates,
            [
                ("stays", Fate::Stayed),
                ("shifts", Fate::Moved),
                ("after", Fate::Moved),
                ("changes", Fate::Changed),
                ("shifts and changes", Fate::Changed),
                ("comes", Fate::Added),
                ("goes", Fate::Removed),
            ]
        );
    }

    #[test]
    fn a_clause_under_another_name_has_moved() {
        let clause = |name: &str, text: &str| Item {
            kind: Kind::Promise,
            ..item("a", "A", name, text)
        };
        let (old, new) = (
            [clause("f ensures", "1"), clause("f ensures", "2")],
            [clause("f ensures value", "2"), clause("f requires", "1")],
        );
        let fates: Vec<Fate> = told(&old, &new, Kind::Promise, &Names::default())
            .iter()
            .map(|t| t.fate)
            .collect();
        assert_eq!(fates, [Fate::Moved, Fate::Added, Fate::Removed]);
    }

    #[test]
    fn one_clause_more_leaves_the_others() {
        let clause = |text: &str| Item {
            kind: Kind::Promise,
            ..item("a", "A", "f requires", text)
        };
        let (old, new) = (
            [clause("1"), clause("2")],
            [clause("0"), clause("1"), clause("2")],
        );
        let fates: Vec<Fate> = told(&old, &new, Kind::Promise, &Names::default())
            .iter()
            .map(|t| t.fate)
            .collect();
        assert_eq!(fates, [Fate::Stayed, Fate::Stayed, Fate::Added]);
    }

    #[test]
    fn a_new_name_reaches_what_names_it() {
        let of = |kind, name: &str, text: &str| Item {
            kind,
            ..item("a", "A", name, text)
        };
        let state = |inner: &str, outer: &str, f: &str| {
            vec![
                of(Kind::Definition, inner, &format!("{inner} = 1")),
                of(Kind::Definition, outer, &format!("{outer} = {inner} + 1")),
                of(
                    Kind::Promise,
                    &format!("{f} signature"),
                    &format!("fn {f} ( )"),
                ),
                of(
                    Kind::Promise,
                    &format!("{f} ensures"),
                    &format!("r ≡ {outer}"),
                ),
                of(Kind::Proof, f, &format!("unfold {outer}")),
            ]
        };
        let (old, new) = (
            state("lost", "lose", "lose_row"),
            state("gone", "remove", "remove_row"),
        );
        let names = names(&old, &new);
        for kind in [Kind::Definition, Kind::Promise, Kind::Proof] {
            let fates = told(&old, &new, kind, &names);
            assert!(fates.iter().all(|one| one.fate == Fate::Moved), "{kind:?}");
        }
    }
}
