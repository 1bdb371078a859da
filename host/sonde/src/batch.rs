//! A folder of sheets: a progress line while it runs, a table after it.

use crate::report::{goals_by, object, weights_from, Outcome};
use std::io::{IsTerminal, Write as _};
use std::path::Path;
use std::{fs, io};

/// The sheets of a folder, by name.
pub fn sheets(folder: &str) -> io::Result<Vec<String>> {
    let mut paths = Vec::new();
    for entry in fs::read_dir(folder)? {
        let path = entry?.path();
        if path.extension().is_some_and(|ending| ending == "sheet") {
            paths.push(path.display().to_string());
        }
    }
    paths.sort();
    Ok(paths)
}

/// Runs `check` on every path. The progress line is for a terminal only.
pub fn run(paths: &[String], check: impl Fn(&str) -> Outcome) -> Vec<Outcome> {
    let mut screen = io::stderr();
    let live = screen.is_terminal();
    let mut outcomes = Vec::new();
    let mut bad = 0;
    for (at, path) in paths.iter().enumerate() {
        let outcome = check(path);
        bad += usize::from(outcome.status() != 0);
        outcomes.push(outcome);
        if live && ((at + 1) % 16 == 0 || at + 1 == paths.len()) {
            let _ = write!(
                screen,
                "\r{} of {} sheets, {bad} not good",
                at + 1,
                paths.len()
            );
            let _ = screen.flush();
        }
    }
    if live {
        let _ = write!(screen, "\r{:60}\r", "");
    }
    outcomes
}

/// The outcomes, and how several of them are called.
const WORDS: [(&str, &str); 7] = [
    ("agrees", "agree"),
    ("agrees in part", "agree in part"),
    ("calculated", "calculated"),
    ("differs", "differ"),
    ("refused", "refused"),
    ("text fault", "with a fault in the text"),
    ("unreadable", "unreadable"),
];

fn count(outcomes: &[Outcome], word: &str) -> usize {
    let same = outcomes.iter().filter(|outcome| outcome.word() == word);
    same.count()
}

/// How many of the chains have a tool; of a sheet without any, nothing.
fn tools(outcome: &Outcome) -> Option<String> {
    let (_, work) = outcome.result.as_ref().ok()?;
    let count = work.tools();
    (count > 0).then(|| format!("{count}/{}", work.chains.len()))
}

/// By which list the goals were counted, if the sheet says.
fn goals(outcome: &Outcome) -> Option<String> {
    let (file, work) = outcome.result.as_ref().ok()?;
    goals_by(file, work).map(str::to_string)
}

/// A column that is there if any sheet has something for it.
struct Column {
    name: &'static str,
    width: usize,
    of: fn(&Outcome) -> Option<String>,
}

const OPTIONAL: [Column; 2] = [
    Column {
        name: "tools",
        width: 6,
        of: tools,
    },
    Column {
        name: "goals",
        width: 9,
        of: goals,
    },
];

/// What stands in these columns, one after the other.
fn across(columns: &[Column], text: impl Fn(&Column) -> String) -> String {
    let cell = |column: &Column| format!(" {:>width$}", text(column), width = column.width);
    columns.iter().map(cell).collect()
}

fn row(outcome: &Outcome, width: usize, columns: &[Column]) -> String {
    let name = Path::new(&outcome.path).file_name();
    let name = name.map_or(outcome.path.clone(), |name| {
        name.to_string_lossy().into_owned()
    });
    let (mut azimuth, mut inclination, mut filed) = (String::new(), String::new(), String::new());
    let mut weights = "";
    if let Ok((file, work)) = &outcome.result {
        weights = weights_from(file, work).unwrap_or_default();
        if let Some(chain) = work.chains.first() {
            azimuth = chain
                .direction
                .azimuth
                .map_or("none".to_string(), |v| format!("{v:.2}"));
            inclination = format!("{:.2}", chain.direction.inclination);
        }
        if !work.checks.is_empty() {
            let agree = work.count(|verdict| *verdict == crate::work::Verdict::Agrees);
            filed = format!("{agree}/{}", work.checks.len());
        }
    }
    let own = across(columns, |column| (column.of)(outcome).unwrap_or_default());
    let text = format!(
        "{name:<width$} {:<14} {azimuth:>8} {inclination:>11} {weights:>8}{own} {filed:>7}  {}",
        outcome.word(),
        outcome.note()
    );
    text.trim_end().to_string()
}

/// A row a sheet, then the counts. Azimuth and inclination are the first
/// chain's; of tools, how many chains have one; of goals, by which list they count.
pub fn table(outcomes: &[Outcome]) -> String {
    let file = |outcome: &Outcome| {
        Path::new(&outcome.path)
            .file_name()
            .map_or(0, |name| name.len())
    };
    let width = outcomes.iter().map(file).max().unwrap_or(0).max(5);
    let mut columns = Vec::from(OPTIONAL);
    columns.retain(|column| outcomes.iter().any(|one| (column.of)(one).is_some()));
    let names = across(&columns, |column| column.name.to_string());
    let mut lines = vec![format!(
        "{:<width$} {:<14} {:>8} {:>11} {:>8}{names} {:>7}  note",
        "sheet", "outcome", "azimuth", "inclination", "weights", "filed"
    )];
    lines.extend(outcomes.iter().map(|outcome| row(outcome, width, &columns)));
    let counts = WORDS
        .iter()
        .map(|(word, several)| (count(outcomes, word), several));
    let counts = counts.filter(|(count, _)| *count > 0);
    let counts: Vec<String> = counts
        .map(|(count, word)| format!("{count} {word}"))
        .collect();
    lines.push(String::new());
    lines.push(format!("{} sheets: {}", outcomes.len(), counts.join(", ")));
    lines.join("\n") + "\n"
}

/// A line of JSON a sheet, then one with the counts.
pub fn json(outcomes: &[Outcome]) -> String {
    let mut lines: Vec<String> = outcomes.iter().map(Outcome::json).collect();
    let counts = WORDS.map(|(word, _)| (word, count(outcomes, word).to_string()));
    let counts = object(&counts);
    lines.push(object(&[
        ("sheets", outcomes.len().to_string()),
        ("counts", counts),
    ]));
    lines.join("\n") + "\n"
}
