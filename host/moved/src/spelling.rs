//! The older language's spelling brought to today's, so that a state from before the port can be held against one from after it. Of today's
//! spelling nothing changes but what both can say in two ways.

use pages::words::{Kind, Word};

/// A part of a name, between dashes, in snake case; what begins with a capital stays.
fn snake(part: &str) -> String {
    let letters: Vec<char> = part.chars().collect();
    let lower = |at: usize| letters.get(at).is_some_and(|c| c.is_lowercase());
    if !lower(0) {
        return part.to_string();
    }
    let mut out = String::new();
    for (at, c) in letters.iter().enumerate() {
        let behind = at > 0 && (lower(at - 1) || letters[at - 1].is_ascii_digit());
        let first_of_word = at > 0 && letters[at - 1].is_uppercase() && lower(at + 1);
        if c.is_uppercase() && (behind || first_of_word) {
            out.push('_');
        }
        out.extend(c.to_lowercase());
    }
    out
}

/// `jointsOf` as `joints_of`, `_+_` as `◌+◌`. A dash, which some names have lost, is an underline.
pub fn name(text: &str) -> String {
    let is_operator = |c: char| !c.is_alphanumeric() && c != '_' && c != '-';
    if text.contains('_') && text.contains(is_operator) {
        return text.replace('_', "◌");
    }
    let part = |part| match part {
        "getD" => "get_or".to_string(),
        _ => snake(part),
    };
    match text.starts_with(char::is_alphabetic) {
        true => text
            .split('-')
            .map(part)
            .collect::<Vec<_>>()
            .join("_")
            .replace('′', "'"),
        false => text.to_string(),
    }
}

/// How many words a name and the fields behind it are.
fn chain(words: &[Word]) -> usize {
    let fields = words.iter().skip(1);
    let fields = fields.take_while(|word| word.kind == Kind::Field).count();
    match words.first() {
        Some(word) if word.is_name() => 1 + fields,
        _ => 0,
    }
}

/// Where the bracket that opens at a place is closed.
fn closed(words: &[Word], open: usize) -> Option<usize> {
    let mut depth = 0;
    for (at, word) in words.iter().enumerate().skip(open) {
        depth += i32::from(word.is("(")) - i32::from(word.is(")"));
        if depth == 0 {
            return Some(at);
        }
    }
    None
}

/// `(a b .c)`, which is `(a b).c` today, without the brackets, and so is what `(a b).c` is in.
fn tight(words: &[Word]) -> Vec<Word> {
    let is_field = |at: usize| words.get(at).is_some_and(|word| word.kind == Kind::Field);
    let mut needless = vec![false; words.len()];
    for open in (0..words.len()).filter(|at| words[*at].is("(")) {
        let close = closed(words, open).filter(|at| is_field(at - 1) || is_field(at + 1));
        if let Some(close) = close {
            needless[open] = true;
            needless[close] = true;
        }
    }
    let kept = words.iter().zip(needless);
    kept.filter(|(_, needless)| !needless)
        .map(|(word, _)| word.clone())
        .collect()
}

fn field(text: &str) -> Word {
    Word {
        kind: Kind::Field,
        text: text.to_string(),
        first: false,
    }
}

/// What says of a lent list what it holds at entry: a reader of the older language, and two definitions of `lists`.
const READERS: [&str; 3] = ["now", "lent", "output_lent"];

/// `now (x .entry)` and `lent x` as `x.now`, `now (x .exit)` as `x.new`; and `x.old` and `x.entry.now` as `x.now`.
fn seen(words: &[Word]) -> Vec<Word> {
    let mut out: Vec<Word> = Vec::new();
    let mut at = 0;
    while at < words.len() {
        let count = chain(&words[at + 1..]);
        let reads = READERS.iter().any(|reader| words[at].is(reader));
        if reads && count > 0 {
            out.extend_from_slice(&words[at + 1..at + 1 + count]);
            out.push(field("now"));
            at += count + 1;
        } else {
            out.push(words[at].clone());
            at += 1;
        }
    }
    let mut all: Vec<Word> = Vec::new();
    for mut word in out {
        let is_field = word.kind == Kind::Field;
        if is_field && word.text == "old" {
            word.text = "now".to_string();
        }
        let ends = is_field && word.text == "now";
        let last = all.pop_if(|last| {
            ends && last.kind == Kind::Field && ["entry", "exit"].contains(&last.text.as_str())
        });
        if last.is_some_and(|last| last.text == "exit") {
            word.text = "new".to_string();
        }
        all.push(word);
    }
    all
}

/// Some words of either language in one spelling.
pub fn today(words: &[Word]) -> Vec<Word> {
    let kept = words.iter().filter(|word| !word.is("⌜") && !word.is("⌝"));
    let named = |word: &Word| Word {
        text: name(&word.text),
        ..word.clone()
    };
    let mut all: Vec<Word> = kept.map(named).collect();
    loop {
        let once = seen(&tight(&all));
        if once == all {
            return all;
        }
        all = once;
    }
}

/// A clause's words: what an older `ensures` binds in front of it is `result`. Brackets round the whole say nothing.
pub fn clause(words: &[Word]) -> Vec<Word> {
    let kept = words.iter().filter(|word| !word.is("⌜") && !word.is("⌝"));
    let words = said(&kept.cloned().collect::<Vec<_>>());
    match words.first().is_some_and(|word| word.is("("))
        && closed(&words, 0) == Some(words.len() - 1)
    {
        true => words[1..words.len() - 1].to_vec(),
        false => words,
    }
}

fn said(words: &[Word]) -> Vec<Word> {
    let [lambda, bound, dot, rest @ ..] = words else {
        return words.to_vec();
    };
    if !lambda.is("λ") || !dot.is(".") {
        return words.to_vec();
    }
    let bound = Some(&bound.text).filter(|bound| *bound != "_");
    let result = |word: &Word| match word.is_name() && Some(&word.text) == bound {
        true => Word {
            text: "result".to_string(),
            ..word.clone()
        },
        false => word.clone(),
    };
    rest.iter().map(result).collect()
}

#[cfg(test)]
mod tests {
    use super::*;
    use pages::words::words;

    fn spelled(text: &str) -> String {
        let all = today(&clause(&words(text)));
        let texts: Vec<String> = all.into_iter().map(|word| word.text).collect();
        texts.join(" ")
    }

    #[test]
    fn both_spellings_say_the_same() {
        for (old, new) in [
            ("λ r. ⌜ r ≡ sumTo (lent xs) ⌝", "result ≡ sum_to (lent xs)"),
            ("⌜ now (xs .entry) ≡ now ys ⌝", "xs.now ≡ ys.now"),
            ("λ _. ⌜ now (xs .exit) ≡ [] ⌝", "xs.new ≡ []"),
            ("λ r. ⌜ r .at ≡ k ⌝", "result.at ≡ k"),
            ("λ _. ⌜ f (λ _. k) ≡ k ⌝", "f (λ _. k) ≡ k"),
            ("λ r. ⌜ (r ≡ k) ⌝", "result ≡ k"),
            ("now (xs .entry) ++ ys", "xs.old ++ ys"),
            ("f (r .entry .at)", "f r.entry.at"),
            ("now (r .entry .codes)", "r.entry.codes.now"),
            ("lent xs = now (xs .entry)", "lent xs = xs.entry.now"),
            ("flat (P l .at)", "flat (P l).at"),
            ("sumOf (f (P l) .at) x′", "sum_of (f (P l)).at x'"),
            ("fold _⊕_ nought", "fold ◌⊕◌ nought"),
            (
                "getD-splice-in ofF64Bits negℤ",
                "get_or-splice-in of_f64_bits neg_ℤ",
            ),
        ] {
            assert_eq!(spelled(old), spelled(new), "{old}");
        }
    }

    #[test]
    fn what_differs_is_kept_apart() {
        for (one, other) in [
            ("f a.b", "f a b"),
            ("xs.new", "xs.old"),
            ("result ≡ x", "x ≡ result"),
            ("SumOf x", "sum_of x"),
        ] {
            let text = |text| {
                let all = today(&words(text));
                let dotted = |word: &Word| format!("{:?}{}", word.kind, word.text);
                all.iter().map(dotted).collect::<Vec<_>>()
            };
            assert_ne!(text(one), text(other), "{one}");
        }
    }
}
