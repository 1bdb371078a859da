//! The state of a run in a file that it can be resumed from: its settings, and
//! what was counted and found for each name.

use crate::draw::kind::Kind;
use crate::tally::{Difference, Shown, Tally};
use std::fmt::Write as _;
use std::io::Write as _;
use std::path::Path;
use std::time::Duration;
use std::{fs, io};

const FIRST: &str = "state of compare, version 1";

/// What has to be the same for a run to be resumed, by key and value.
pub type Settings = Vec<(&'static str, String)>;

/// Names with what was counted for them.
pub type Tallies = Vec<(&'static str, Tally)>;

/// Written beside the file and renamed over it: a run that is ended at any time
/// leaves the old state or the new one.
pub fn save(path: &Path, settings: &Settings, tallies: &Tallies) -> Result<(), String> {
    let mut beside = path.as_os_str().to_owned();
    beside.push(".part");
    let write = || -> io::Result<()> {
        let mut file = fs::File::create(&beside)?;
        file.write_all(text(settings, tallies).as_bytes())?;
        file.sync_all()?;
        fs::rename(&beside, path)
    };
    write().map_err(|error| format!("{}: {error}", path.display()))
}

/// Whether there is such a file.
pub fn load(path: &Path, settings: &Settings, tallies: &mut Tallies) -> Result<bool, String> {
    let told = |words: String| format!("{}: {words}", path.display());
    match fs::read_to_string(path) {
        Ok(text) => read(&text, settings, tallies).map(|()| true).map_err(told),
        Err(error) if error.kind() == io::ErrorKind::NotFound => Ok(false),
        Err(error) => Err(told(error.to_string())),
    }
}

fn text(settings: &Settings, tallies: &Tallies) -> String {
    let mut text = format!("{FIRST}\n");
    for (key, value) in settings {
        let _ = writeln!(text, "{key} {value}");
    }
    for (name, tally) in tallies {
        put_tally(&mut text, name, tally);
    }
    text
}

fn put_tally(text: &mut String, name: &str, tally: &Tally) {
    let _ = writeln!(text, "\nname {name}");
    for (key, count) in [
        ("blocks", tally.blocks),
        ("cases", tally.cases),
        ("differences", tally.differences),
        ("nanoseconds", tally.time.as_nanos() as u64),
    ] {
        let _ = writeln!(text, "{key} {count}");
    }
    for (number, count) in &tally.answers {
        let _ = writeln!(text, "answer {number} {count}");
    }
    for kept in &tally.kept {
        put_difference(text, kept);
    }
}

fn put_difference(text: &mut String, kept: &Difference) {
    let form = match kept.shown {
        Shown::Sheet(_) => "sheet",
        Shown::Lines(_) => "lines",
    };
    let _ = writeln!(text, "{form} {}", kept.place(" "));
    for line in kept.shown.text().lines() {
        let _ = writeln!(text, "|{line}");
    }
}

/// Puts what the text says into the tallies, if it is of these settings.
fn read(text: &str, settings: &Settings, tallies: &mut Tallies) -> Result<(), String> {
    let mut lines = text.lines();
    if lines.next() != Some(FIRST) {
        return Err(format!("no state: the first line is not '{FIRST}'"));
    }
    let found = lines.by_ref().take_while(|line| !line.is_empty());
    same_settings(&found.collect::<Vec<_>>(), settings)?;
    let mut at = None;
    let first = settings.len() + 3;
    for (line, number) in lines.zip(first..) {
        let unknown = || format!("line {number} is damaged: {line}");
        match line.strip_prefix("name ") {
            Some(name) => {
                at = tallies.iter().position(|(known, _)| *known == name);
                at.ok_or_else(unknown)?;
            }
            None => {
                let tally = at.map(|at| &mut tallies[at].1);
                tally
                    .and_then(|tally| take(tally, line))
                    .ok_or_else(unknown)?;
            }
        }
    }
    Ok(())
}

fn same_settings(found: &[&str], settings: &Settings) -> Result<(), String> {
    let asked: Vec<String> = settings
        .iter()
        .map(|(key, value)| format!("{key} {value}"))
        .collect();
    if found == asked {
        return Ok(());
    }
    Err(format!(
        "the state is of another run and cannot be resumed by this one\n  the state's: {}\n  this run's:  {}",
        found.join(", "),
        asked.join(", ")
    ))
}

/// One line of a name's; none if it cannot be understood.
fn take(tally: &mut Tally, line: &str) -> Option<()> {
    if let Some(line) = line.strip_prefix('|') {
        match &mut tally.kept.last_mut()?.shown {
            Shown::Sheet(text) | Shown::Lines(text) => *text += &format!("{line}\n"),
        }
        return Some(());
    }
    match line.split(' ').collect::<Vec<_>>()[..] {
        [""] => {}
        ["blocks", count] => tally.blocks = count.parse().ok()?,
        ["cases", count] => tally.cases = count.parse().ok()?,
        ["differences", count] => tally.differences = count.parse().ok()?,
        ["nanoseconds", count] => tally.time = Duration::from_nanos(count.parse().ok()?),
        ["answer", number, count] => {
            tally
                .answers
                .insert(number.parse().ok()?, count.parse().ok()?);
        }
        [form, kind, block, case] => tally.kept.push(Difference {
            kind: Kind::named(kind)?,
            block: block.parse().ok()?,
            case: case.parse().ok()?,
            shown: match form {
                "sheet" => Shown::Sheet(String::new()),
                "lines" => Shown::Lines(String::new()),
                _ => return None,
            },
        }),
        _ => return None,
    }
    Some(())
}

#[cfg(test)]
mod tests {
    use super::*;

    fn settings(seed: u64) -> Settings {
        vec![("program", "0123".to_string()), ("seed", seed.to_string())]
    }

    fn tallies() -> Tallies {
        let shown = Shown::Sheet("# a comment\n\nsonde 1\n".to_string());
        let difference = Difference {
            kind: Kind::Short,
            block: 3,
            case: 17,
            shown,
        };
        let other = Difference {
            shown: Shown::Lines("| input 0\n".to_string()),
            ..difference.clone()
        };
        let tally = Tally {
            blocks: 4,
            cases: 123,
            differences: 7,
            answers: [(0, 100), (9, 23)].into(),
            time: Duration::from_nanos(1_234_567_891),
            kept: vec![difference, other],
        };
        vec![("load", tally), ("pose", Tally::default())]
    }

    fn empty() -> Tallies {
        tallies()
            .iter()
            .map(|(name, _)| (*name, Tally::default()))
            .collect()
    }

    #[test]
    fn a_state_comes_back() {
        let text = text(&settings(1), &tallies());
        let mut found = empty();
        read(&text, &settings(1), &mut found).unwrap();
        assert_eq!(found, tallies());
    }

    #[test]
    fn another_run_is_refused() {
        let text = text(&settings(1), &tallies());
        let error = read(&text, &settings(2), &mut empty()).unwrap_err();
        assert!(
            error.contains("seed 1") && error.contains("seed 2"),
            "{error}"
        );
        let mut more = settings(1);
        more.push(("only", "load".to_string()));
        assert!(read(&text, &more, &mut empty()).is_err());
    }

    #[test]
    fn a_damaged_state_is_told_by_its_line() {
        let good = text(&settings(1), &tallies());
        for (old, new, told) in [
            (FIRST, "something", "first line"),
            ("cases 123", "cases many", "line 7 is damaged: cases many"),
            ("answer 9 23", "answer 9", "line 11 is damaged"),
            ("name pose", "name well", "name well"),
            ("sheet short", "sheet shorter", "sheet shorter"),
            ("name load\n", "", "line 5 is damaged"),
        ] {
            let text = good.replacen(old, new, 1);
            assert_ne!(text, good);
            let error = read(&text, &settings(1), &mut empty()).unwrap_err();
            assert!(error.contains(told), "{error}");
        }
    }

    #[test]
    fn a_file_is_replaced_whole() {
        let folder = std::env::temp_dir().join(format!("compare_state_{}", std::process::id()));
        fs::create_dir_all(&folder).unwrap();
        let path = folder.join("run.state");
        let mut found = empty();
        assert_eq!(load(&path, &settings(1), &mut found), Ok(false));
        save(&path, &settings(1), &empty()).unwrap();
        save(&path, &settings(1), &tallies()).unwrap();
        assert_eq!(load(&path, &settings(1), &mut found), Ok(true));
        assert_eq!(found, tallies());
        assert_eq!(fs::read_dir(&folder).unwrap().count(), 1);
        fs::remove_dir_all(&folder).unwrap();
    }
}
