//! Which names a piece of antt refers to: those that it neither binds nor uses as a label.

use crate::words::{Kind, Word};
use std::collections::BTreeSet;

pub type Names = BTreeSet<String>;

/// Reserved words, and what every file has without a `use` line.
const GIVEN: [&str; 18] = [
    "λ", "let", "in", "record", "where", "pub", "Type", "Unit", "tt", "⊥", "×", "→", "=", ":", "_",
    "|", "↦", "elim",
];

/// The names that the words bind: by λ, by `let`, in `(x : T)`, and at the head of a line behind `where`.
pub fn bound(words: &[Word]) -> Names {
    let mut names = Names::new();
    let mut local = false;
    for (at, word) in words.iter().enumerate() {
        let rest = &words[at + 1..];
        if word.is("λ") {
            names.extend(binders(rest, "."));
        } else if word.is("let") {
            names.extend(until(rest, &["=", ":"]));
        } else if word.is("(") || word.is("{") {
            names.extend(typed(rest));
        } else if local && word.first {
            names.insert(word.text.clone());
        }
        local |= word.is("where");
    }
    names
}

/// The binders of a λ, plain or with their types.
fn binders(words: &[Word], end: &str) -> Names {
    let mut names = Names::new();
    let (mut depth, mut typed) = (0, false);
    for word in words.iter().take_while(|word| !word.is(end)) {
        match word.text.as_str() {
            "(" | "{" => depth += 1,
            ")" | "}" => (depth, typed) = (depth - 1, false),
            ":" => typed = depth > 0,
            _ if word.is_name() && !typed => drop(names.insert(word.text.clone())),
            _ => {}
        }
    }
    names
}

/// The names in front of the first of some words.
fn until(words: &[Word], ends: &[&str]) -> Names {
    let ahead = words
        .iter()
        .take_while(|word| !ends.iter().any(|end| word.is(end)));
    ahead
        .filter(|word| word.is_name())
        .map(|word| word.text.clone())
        .collect()
}

/// The names of `a b : T`, if that is what stands there.
fn typed(words: &[Word]) -> Names {
    let names: Vec<&Word> = words
        .iter()
        .take_while(|word| word.is_name() && !word.is(":"))
        .collect();
    match words.get(names.len()) {
        Some(word) if word.is(":") => names.iter().map(|word| word.text.clone()).collect(),
        _ => Names::new(),
    }
}

/// The names that the words refer to, but for those in `outer` and those bound within. A name has the field behind it with it, for it can
/// be that of a module.
pub fn free(words: &[Word], outer: &Names) -> Names {
    let inner = bound(words);
    let refers = |(at, word): &(usize, &Word)| {
        let given = word.kind == Kind::Name && GIVEN.contains(&word.text.as_str());
        let number = word.text.starts_with(|c: char| c.is_ascii_digit());
        word.is_name() && !given && !number && !is_label(words, *at)
    };
    let is_bound = |name: &String| inner.contains(name) || outer.contains(name);
    let names = words.iter().enumerate().filter(refers);
    let names = names.filter(|(_, word)| !is_bound(&word.text));
    let whole = |(at, word): (usize, &Word)| match words.get(at + 1) {
        Some(field) if field.kind == Kind::Field => format!("{}.{}", word.text, field.text),
        _ => word.text.clone(),
    };
    names.map(whole).collect()
}

/// A field's name in `record { a = x; b = y }`, or an implicit argument's.
fn is_label(words: &[Word], at: usize) -> bool {
    let opens = at > 0 && (words[at - 1].is("{") || words[at - 1].is(";"));
    opens && words.get(at + 1).is_some_and(|word| word.is("="))
}

/// A clause cut at its first `=` outside brackets.
pub fn sides(words: &[Word]) -> (&[Word], &[Word]) {
    let mut depth = 0;
    for (at, word) in words.iter().enumerate() {
        match word.text.as_str() {
            "(" | "{" if word.kind == Kind::Mark => depth += 1,
            ")" | "}" if word.kind == Kind::Mark => depth -= 1,
            "=" if depth == 0 && word.kind == Kind::Name => {
                return (&words[..at], &words[at + 1..])
            }
            _ => {}
        }
    }
    (words, &[])
}

#[cfg(test)]
mod tests {
    use super::*;
    use crate::words::words;

    fn free_in(text: &str) -> Vec<String> {
        free(&words(text), &Names::new()).into_iter().collect()
    }

    #[test]
    fn what_is_bound_is_no_reference() {
        assert_eq!(free_in("λ x (y : T). f x y z"), ["T", "f", "z"]);
        assert_eq!(free_in("let d = g a in h d"), ["a", "g", "h"]);
        assert_eq!(free_in("(a b : T) → a ≡ c"), ["T", "c", "≡"]);
        assert_eq!(free_in("record { x = s.x; y = 12 }"), ["s.x"]);
        assert_eq!(free_in("λ (x : T). (f x.now).y"), ["T", "f"]);
        assert_eq!(
            free_in("go t\nwhere\ngo : A → B\ngo u = u v"),
            ["A", "B", "t", "u", "v"]
        );
    }

    #[test]
    fn a_clause_has_two_sides() {
        let clause = words("f {a = b} (c ∷ d) = record { e = c }");
        let (left, right) = sides(&clause);
        assert_eq!(left.len(), 11);
        assert!(right[0].is("record"));
    }
}
