//! The relative links of a Markdown page: each leads to a file that exists, to a heading of it, or to the line where the link's name is declared.

use std::fs;
use std::path::{Path, PathBuf};

#[derive(Debug, PartialEq)]
struct Link {
    /// Where its target stands in the page, in bytes.
    at: usize,
    line: usize,
    text: String,
    target: String,
}

/// The page with its fenced code blanked, so that places stay.
fn unfenced(page: &str) -> String {
    let mut fenced = false;
    let line = |line: &str| {
        let fence = line.starts_with("```");
        fenced ^= fence;
        match fenced || fence {
            true => " ".repeat(line.len() - 1) + "\n",
            false => line.to_string(),
        }
    };
    page.split_inclusive('\n').map(line).collect()
}

/// The links `[text](target)` and `![text](target)` of a page. A title behind the target is left out.
fn links(page: &str) -> Vec<Link> {
    let page = unfenced(page);
    let link = |(middle, _): (usize, &str)| {
        let at = middle + 2;
        let text = &page[page[..middle].rfind('[')? + 1..middle];
        let inside = &page[at..at + page[at..].find(')')?];
        Some(Link {
            at,
            line: page[..at].matches('\n').count() + 1,
            text: text.to_string(),
            target: inside.split_whitespace().next()?.to_string(),
        })
    };
    page.match_indices("](").filter_map(link).collect()
}

/// A heading as a link names it.
fn anchor(heading: &str) -> String {
    let kept = heading.trim().to_lowercase();
    let kept = kept
        .chars()
        .filter(|c| c.is_alphanumeric() || " -_".contains(*c));
    kept.map(|c| if c == ' ' { '-' } else { c }).collect()
}

fn has_heading(text: &str, wanted: &str) -> bool {
    let heads = text.lines().filter(|line| line.starts_with('#'));
    heads
        .map(|line| anchor(line.trim_start_matches('#')))
        .any(|head| head == wanted)
}

/// Whether a line of a file of this kind declares the name.
fn declares(ending: &str, line: &str, name: &str) -> bool {
    let behind = |mark: &str| {
        line.match_indices(mark).any(|(at, _)| {
            let rest = &line[at + mark.len()..];
            rest.starts_with(name)
                && !rest[name.len()..].starts_with(|c: char| c.is_alphanumeric() || c == '_')
        })
    };
    match ending {
        "antt" => {
            let marks = ["pub", "abbrev", "unfoldable", "record", "data"];
            let mut words = line
                .split_whitespace()
                .skip_while(|word| marks.contains(word));
            let declared = words.next() == Some(name);
            declared && (line.contains(" : ") || words.next() == Some("where"))
        }
        "rt" | "rs" => ["fn ", "struct ", "enum ", "const "]
            .iter()
            .any(|mark| behind(mark)),
        "h" => {
            behind("#define ")
                || (line.contains(&format!(" {name}(")) && !line.starts_with([' ', '/']))
        }
        _ => false,
    }
}

/// The name that a link to a line has to be about: its text in `code`, without the path before it.
fn name_of(text: &str) -> Option<&str> {
    let name = text.strip_prefix('`')?.strip_suffix('`')?;
    name.rsplit("::").next()
}

/// The lines of a file that declare a name.
fn declared(path: &Path, text: &str, name: &str) -> Vec<usize> {
    let ending = path.extension().and_then(|e| e.to_str()).unwrap_or("");
    let lines = text.lines().enumerate();
    lines
        .filter(|(_, line)| declares(ending, line, name))
        .map(|(at, _)| at + 1)
        .collect()
}

/// What is wrong with a link, and the line that it should name, if that can be told.
struct Fault {
    says: String,
    line: Option<usize>,
}

fn fault(says: String) -> Result<(), Fault> {
    Err(Fault { says, line: None })
}

/// Holds a link's `#L12` against the file: the line is there and declares what the text names.
fn hold_line(path: &Path, text: &str, link: &Link, number: &str, named: bool) -> Result<(), Fault> {
    let Ok(number) = number.parse::<usize>() else {
        return fault(format!("'#L{number}' is no line"));
    };
    if !named {
        let within = (1..=text.lines().count()).contains(&number);
        return if within {
            Ok(())
        } else {
            fault(format!("there is no line {number}"))
        };
    }
    let Some(name) = name_of(&link.text) else {
        return fault(
            "a link to a line has the declared name in backquotes as its text".to_string(),
        );
    };
    let lines = declared(path, text, name);
    match lines.first() {
        None => fault(format!("'{name}' is not declared there")),
        Some(_) if lines.contains(&number) => Ok(()),
        Some(line) => Err(Fault {
            says: format!("'{name}' is declared on line {line}"),
            line: Some(*line),
        }),
    }
}

fn hold(root: &Path, page: &str, link: &Link, named: bool) -> Result<(), Fault> {
    let (file, part) = link.target.split_once('#').unwrap_or((&link.target, ""));
    let folder = Path::new(page).parent().unwrap_or(Path::new(""));
    let path: PathBuf = root.join(if file.is_empty() {
        PathBuf::from(page)
    } else {
        folder.join(file)
    });
    if !path.exists() {
        return fault("there is no such file".to_string());
    }
    if part.is_empty() {
        return Ok(());
    }
    let Ok(text) = fs::read_to_string(&path) else {
        return fault("it cannot be read".to_string());
    };
    match part
        .strip_prefix('L')
        .filter(|rest| rest.starts_with(|c: char| c.is_ascii_digit()))
    {
        Some(number) => hold_line(&path, &text, link, number, named),
        None if has_heading(&text, part) => Ok(()),
        None => fault(format!("there is no heading '#{part}'")),
    }
}

fn is_relative(link: &Link) -> bool {
    !link.target.contains(':') && !link.target.starts_with('/')
}

/// How many links of a page are good, and what is wrong with the others.
/// `named`: a link to a line must have the name declared there as its text, so that a moved line is found.
pub fn check(root: &Path, page: &str, text: &str, named: bool) -> (usize, Vec<String>) {
    let held = links(text).into_iter().filter(is_relative).map(|link| {
        let says = |fault: Fault| {
            format!(
                "{page}:{}: [{}]({}): {}",
                link.line, link.text, link.target, fault.says
            )
        };
        hold(root, page, &link, named).map_err(says)
    });
    let (good, bad): (Vec<_>, Vec<_>) = held.partition(|one| one.is_ok());
    (
        good.len(),
        bad.into_iter().filter_map(Result::err).collect(),
    )
}

/// The page with every link to a line led to where its name is declared now.
pub fn renew(root: &Path, page: &str, text: &str) -> String {
    let mut out = text.to_string();
    for link in links(text).into_iter().rev().filter(is_relative) {
        if let Err(Fault {
            line: Some(line), ..
        }) = hold(root, page, &link, true)
        {
            let file = link.target.split('#').next().unwrap_or("");
            out.replace_range(
                link.at..link.at + link.target.len(),
                &format!("{file}#L{line}"),
            );
        }
    }
    out
}

#[cfg(test)]
mod tests {
    use super::*;

    #[test]
    fn links_are_found_with_their_places() {
        let page = "a [`b`](c.rt#L3 \"t\") ![d](e.svg)\n```\n[x](y)\n```\n[z\nz](#top)\n";
        let found = links(page);
        let told = found
            .iter()
            .map(|link| (link.line, link.text.as_str(), link.target.as_str()));
        let told: Vec<(usize, &str, &str)> = told.collect();
        assert_eq!(
            told,
            [
                (1, "`b`", "c.rt#L3"),
                (1, "d", "e.svg"),
                (6, "z\nz", "#top")
            ]
        );
        assert!(page[found[0].at..].starts_with("c.rt#L3"));
    }

    #[test]
    fn headings_are_named_as_links_name_them() {
        assert!(has_heading(
            "# A\n## What `rt ci` shows, once\n",
            "what-rt-ci-shows-once"
        ));
        assert!(!has_heading("# A\n", "b"));
    }

    #[test]
    fn declarations_are_told_from_uses() {
        assert!(declares("antt", "unfoldable pub splice : List A", "splice"));
        assert!(declares("antt", "pub record Given : Type 0 where", "Given"));
        assert!(!declares("antt", "splice xs at ys = take at xs", "splice"));
        assert!(declares("rt", "pub fn sqrt(x: f64) -> f64", "sqrt"));
        assert!(!declares("rt", "pub fn sqrt2(x: f64) -> f64", "sqrt"));
        assert!(!declares("rt", "    root::sqrt(x)", "sqrt"));
        assert!(declares(
            "h",
            "double relaxed_ik_sqrt(double x);",
            "relaxed_ik_sqrt"
        ));
        assert!(declares(
            "h",
            "#define RELAXED_IK_TAKEN 0",
            "RELAXED_IK_TAKEN"
        ));
    }
}
