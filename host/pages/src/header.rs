//! The C header: where each function is declared, and what the comment above it says.

use std::collections::{BTreeMap, BTreeSet};

#[derive(Debug, PartialEq)]
pub struct Declaration {
    pub line: usize,
    /// The comment's first sentence.
    pub does: String,
    /// The numbers of `Answers 0 to 7, 9.`, if the comment has them.
    pub answers: Option<BTreeSet<u32>>,
}

/// The numbers of `0 to 7, 9`.
fn numbers(text: &str) -> Option<BTreeSet<u32>> {
    let mut all = BTreeSet::new();
    for part in text.split(',') {
        let (first, last) = part.split_once(" to ").unwrap_or((part, part));
        all.extend(first.trim().parse().ok()?..=last.trim().parse::<u32>().ok()?);
    }
    Some(all)
}

/// A comment's lines as one, without its stars.
fn plain(comment: &str) -> String {
    let words = comment
        .split_whitespace()
        .filter(|word| !["/*", "*/", "*"].contains(word));
    words.collect::<Vec<_>>().join(" ")
}

fn first_sentence(text: &str) -> String {
    let end = text.find(". ").map_or(text.len(), |at| at + 1);
    text[..end].to_string()
}

fn answers(text: &str) -> Option<BTreeSet<u32>> {
    let said = text.split("Answers ").nth(1)?;
    numbers(said.trim_end_matches('.'))
}

/// The function that a line declares: a type, its name, a bracket.
fn declared(line: &str) -> Option<&str> {
    let front = line.split('(').next()?;
    let (kind, name) = front.rsplit_once(' ')?;
    let plain = line.contains('(') && ["uint32_t", "double"].contains(&kind.trim());
    plain.then_some(name)
}

pub fn parse(text: &str) -> BTreeMap<String, Declaration> {
    let mut all = BTreeMap::new();
    let mut comment = String::new();
    let mut open = false;
    for (at, line) in text.lines().enumerate() {
        if line.starts_with("/*") {
            comment.clear();
            open = true;
        }
        if open {
            comment.push_str(line);
            comment.push('\n');
            open = !line.contains("*/");
        } else if let Some(name) = declared(line) {
            let said = plain(&comment);
            let declaration = Declaration {
                line: at + 1,
                does: first_sentence(&said),
                answers: answers(&said),
            };
            all.insert(name.to_string(), declaration);
        }
    }
    all
}

#[cfg(test)]
mod tests {
    use super::*;

    #[test]
    fn a_declaration_has_its_comment() {
        let text = "/* Looks. Lent: lists.\n * Answers 0 to 2, 9. */\nuint32_t ik_load(\n    const uint8_t *a);\n\n/* A root. */\ndouble ik_sqrt(double x);\ndouble ik_two(void);\n";
        let all = parse(text);
        let load = &all["ik_load"];
        assert_eq!((load.line, load.does.as_str()), (3, "Looks."));
        assert_eq!(load.answers, Some(BTreeSet::from([0, 1, 2, 9])));
        assert_eq!(
            (all["ik_sqrt"].line, all["ik_sqrt"].answers.as_ref()),
            (7, None)
        );
        assert_eq!(all["ik_two"].does, "A root.");
    }
}
