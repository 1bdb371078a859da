//! The words of antt, the language of specs and contracts.

#[derive(Clone, Copy, Debug, PartialEq)]
pub enum Kind {
    /// A name, an operator or a keyword; also a numeral.
    Name,
    /// A name in « », which no keyword can be.
    Quoted,
    /// What stands behind a dot: a field, or a name of a module.
    Field,
    /// A bracket, a comma, a semicolon or the dot that ends the binders of a λ.
    Mark,
}

#[derive(Clone, Debug, PartialEq)]
pub struct Word {
    pub kind: Kind,
    pub text: String,
    /// Whether it is the first of its line.
    pub first: bool,
}

impl Word {
    pub fn is(&self, text: &str) -> bool {
        self.kind != Kind::Quoted && self.kind != Kind::Field && self.text == text
    }

    pub fn is_name(&self) -> bool {
        matches!(self.kind, Kind::Name | Kind::Quoted)
    }
}

fn ends_name(c: char) -> bool {
    c.is_whitespace() || "(){}.;,@\"«»".contains(c)
}

/// The line without its comment.
pub fn code(line: &str) -> &str {
    let starts = |at: &usize| line[..*at].chars().next_back().is_none_or(ends_name);
    let comment = line.match_indices("--").map(|(at, _)| at).find(starts);
    line[..comment.unwrap_or(line.len())].trim_end()
}

/// The words of some lines without comments.
pub fn words(text: &str) -> Vec<Word> {
    text.lines().flat_map(words_of_line).collect()
}

fn words_of_line(line: &str) -> Vec<Word> {
    let mut words: Vec<Word> = Vec::new();
    let mut rest = line.trim_start();
    while let Some(first) = rest.chars().next() {
        let (kind, text, used) = next(rest, first);
        if !text.is_empty() {
            let first = words.is_empty();
            words.push(Word { kind, text, first });
        }
        rest = &rest[used..];
    }
    words
}

/// The word at the front of `rest`, and how many bytes it takes; no text for a space.
fn next(rest: &str, first: char) -> (Kind, String, usize) {
    let name_at = |from: usize| {
        let name = &rest[from..];
        &name[..name.find(ends_name).unwrap_or(name.len())]
    };
    if first == '«' {
        let end = rest.find('»').unwrap_or(rest.len() - '»'.len_utf8());
        let text = rest['«'.len_utf8()..end].to_string();
        return (Kind::Quoted, text, end + '»'.len_utf8());
    }
    let quoted = rest[first.len_utf8()..].starts_with('«');
    // The dot of a λ has a space behind it.
    if first == '.' && (quoted || !rest[1..].starts_with(ends_name) && rest.len() > 1) {
        let from = if quoted { 1 + '«'.len_utf8() } else { 1 };
        let text = name_at(from).to_string();
        let used = from + text.len() + if quoted { '»'.len_utf8() } else { 0 };
        return (Kind::Field, text, used);
    }
    if !ends_name(first) {
        let text = name_at(0);
        return (Kind::Name, text.to_string(), text.len());
    }
    let text = if first.is_whitespace() {
        String::new()
    } else {
        first.to_string()
    };
    (Kind::Mark, text, first.len_utf8())
}

#[cfg(test)]
mod tests {
    use super::*;

    fn kinds(line: &str) -> Vec<(Kind, String)> {
        words(line).into_iter().map(|w| (w.kind, w.text)).collect()
    }

    #[test]
    fn names_fields_and_marks_are_told_apart() {
        use Kind::{Field, Mark, Name, Quoted};
        let owned = |list: &[(Kind, &str)]| -> Vec<(Kind, String)> {
            list.iter().map(|(k, t)| (*k, t.to_string())).collect()
        };
        assert_eq!(
            kinds("f (g s.arms).«a_b» = λ x. x ⊕ «x_y»"),
            owned(&[
                (Name, "f"),
                (Mark, "("),
                (Name, "g"),
                (Name, "s"),
                (Field, "arms"),
                (Mark, ")"),
                (Field, "a_b"),
                (Name, "="),
                (Name, "λ"),
                (Name, "x"),
                (Mark, "."),
                (Name, "x"),
                (Name, "⊕"),
                (Quoted, "x_y"),
            ])
        );
        assert_eq!(
            kinds("pairs.sum_to.1"),
            owned(&[(Name, "pairs"), (Field, "sum_to"), (Field, "1")])
        );
    }

    #[test]
    fn a_comment_begins_a_word() {
        assert_eq!(code("a-b -- c"), "a-b");
        assert_eq!(code("-- c"), "");
        assert_eq!(code("a--b"), "a--b");
    }
}
