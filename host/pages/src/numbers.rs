//! Which numbers a call can answer, read off the theorem that says so: `IsLowest rows (number ..)` or `Numbered state input (number ..)`.

use crate::repository::{Id, Repository};
use crate::specs::{Item, Kind};
use crate::words::Word;
use std::collections::BTreeSet;

/// A theorem on a call's number: what it is about, and the numbers of its rows.
pub struct Theorem {
    pub id: Id,
    pub about: Id,
    pub numbers: BTreeSet<u32>,
}

/// The first name in the last bracket of a statement, and the words in front of that bracket.
fn last_bracket(words: &[Word]) -> Option<(&Word, &[Word])> {
    let mut depth = 0;
    for (at, word) in words.iter().enumerate().rev() {
        depth += i32::from(word.is(")")) - i32::from(word.is("("));
        if depth == 0 {
            return (word.is("(")).then(|| (&words[at + 1], &words[..at]));
        }
    }
    None
}

/// The numbers of `row N` in an item's text. 0 is no refusal.
fn rows(item: &Item) -> BTreeSet<u32> {
    let pairs = item.text.windows(2).filter(|pair| pair[0].is("row"));
    pairs
        .filter_map(|pair| pair[1].text.parse().ok())
        .filter(|number| *number != 0)
        .collect()
}

/// The rows of everything that the words lead to. What a statement binds leads nowhere.
fn rows_of(all: &Repository, path: &str, words: &[Word]) -> Result<BTreeSet<u32>, String> {
    let names = words.iter().filter(|word| word.is_name());
    let meant = names.filter_map(|word| all.means(path, &word.text).ok());
    let items = meant.filter(|meaning| meaning.item().is_some()).collect();
    let found = all.closure(items)?.items;
    let specs = found.iter().filter_map(|id| all.items[*id].spec());
    Ok(specs.flat_map(rows).collect())
}

/// What a law is about, and the words that list its rows, if it is such a theorem.
fn stated(all: &Repository, id: Id) -> Option<(Id, &[Word])> {
    let item = &all.items[id];
    let law = item.spec().filter(|spec| spec.kind == Kind::Law)?;
    let says = |word: &Word| word.is("IsLowest") || word.is("Numbered");
    law.statement.iter().find(|word| says(word))?;
    let (number, ahead) = last_bracket(&law.statement)?;
    let about = all.means(&item.path, &number.text).ok()?.item()?;
    Some((about, ahead))
}

pub fn theorems(all: &Repository) -> Result<Vec<Theorem>, String> {
    let ids = 0..all.items.len();
    let stated = ids.filter_map(|id| stated(all, id).map(|(about, ahead)| (id, about, ahead)));
    let theorem = |(id, about, ahead): (Id, Id, &[Word])| {
        let mut numbers = rows_of(all, &all.items[id].path, ahead)?;
        numbers.insert(0);
        Ok(Theorem { id, about, numbers })
    };
    stated.map(theorem).collect()
}

/// The theorem on the nearest number that a contract leads to.
pub fn of_call<'a>(theorems: &'a [Theorem], closure: &[Id]) -> Option<&'a Theorem> {
    closure
        .iter()
        .find_map(|id| theorems.iter().find(|theorem| theorem.about == *id))
}

/// `0 to 7, 9`, as the header writes it.
pub fn ranges(numbers: &BTreeSet<u32>) -> String {
    let mut runs: Vec<(u32, u32)> = Vec::new();
    for number in numbers {
        match runs.last_mut() {
            Some((_, last)) if *last + 1 == *number => *last = *number,
            _ => runs.push((*number, *number)),
        }
    }
    let run = |(first, last): &(u32, u32)| match last - first {
        0 => format!("{first}"),
        1 => format!("{first}, {last}"),
        _ => format!("{first} to {last}"),
    };
    runs.iter().map(run).collect::<Vec<_>>().join(", ")
}

#[cfg(test)]
mod tests {
    use super::*;

    #[test]
    fn ranges_are_written_as_the_header_writes_them() {
        assert_eq!(ranges(&BTreeSet::from([0, 1, 2, 7, 9])), "0 to 2, 7, 9");
        assert_eq!(
            ranges(&BTreeSet::from([0, 7, 20, 21, 22])),
            "0, 7, 20 to 22"
        );
        assert_eq!(ranges(&BTreeSet::from([0, 20, 22])), "0, 20, 22");
    }
}
