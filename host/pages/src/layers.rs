//! The crates in layers: what each needs, and how high it stands.

use crate::repository::Crate;
use std::collections::{BTreeMap, BTreeSet};

pub type Needs<'a> = BTreeMap<&'a str, BTreeSet<&'a str>>;

/// What the crates' lines name; libraries of the kit are left out.
fn written(crates: &[Crate]) -> Needs<'_> {
    let own: BTreeSet<&str> = crates.iter().map(|one| one.name.as_str()).collect();
    let lines = crates.iter().map(|one| {
        let needs = one.needs.iter().map(String::as_str);
        let needs = needs.filter(|need| own.contains(need));
        (one.name.as_str(), needs.collect())
    });
    lines.collect()
}

/// Everything that each crate needs, through others too.
pub fn needs(crates: &[Crate]) -> Result<Needs<'_>, String> {
    let mut all = written(crates);
    // The lines stand in any order, so what is needed is passed on as often as there are crates.
    for _ in crates {
        let once = all.clone();
        let through = |needs: &BTreeSet<&str>| {
            needs
                .iter()
                .flat_map(|need| once[need].clone())
                .collect::<Vec<_>>()
        };
        all.values_mut()
            .for_each(|needs| needs.extend(through(needs)));
    }
    match all.iter().find(|(name, needs)| needs.contains(*name)) {
        Some((name, _)) => Err(format!("crates.txt: {name} needs itself")),
        None => Ok(all),
    }
}

/// The needs that no other need brings along.
pub fn direct<'a>(needs: &Needs<'a>, name: &str) -> Vec<&'a str> {
    let own = &needs[name];
    let through = |need: &&str| own.iter().any(|other| needs[other].contains(need));
    own.iter().copied().filter(|need| !through(need)).collect()
}

/// One layer above the highest that it needs; the ground is 0.
pub fn layer(needs: &Needs, name: &str) -> usize {
    let below = needs[name].iter().map(|need| layer(needs, need) + 1);
    below.max().unwrap_or(0)
}

#[cfg(test)]
mod tests {
    use super::*;

    fn crates(lines: &[(&str, &str)]) -> Vec<Crate> {
        let one = |(name, needs): &(&str, &str)| Crate {
            name: name.to_string(),
            needs: needs.split_whitespace().map(str::to_string).collect(),
        };
        lines.iter().map(one).collect()
    }

    #[test]
    fn a_need_that_another_brings_is_not_direct() {
        // In any order, with a library of the kit, and with needs that are not all written out.
        let crates = crates(&[
            ("d", "c"),
            ("c", "a b"),
            ("b", "a io"),
            ("a", ""),
            ("e", "a"),
        ]);
        let needs = needs(&crates).unwrap();
        let direct = ["a", "b", "c", "d", "e"].map(|name| direct(&needs, name));
        assert_eq!(direct, [vec![], vec!["a"], vec!["b"], vec!["c"], vec!["a"]]);
        let layers = ["a", "b", "c", "d", "e"].map(|name| layer(&needs, name));
        assert_eq!(layers, [0, 1, 2, 3, 1]);
    }

    #[test]
    fn a_circle_is_told() {
        assert!(needs(&crates(&[("a", "b"), ("b", "a")])).is_err());
    }
}
