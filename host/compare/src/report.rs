//! What is printed and written: the list of names, a line for each, the
//! differences, the table of counts.

use crate::draw::kind::KINDS;
use crate::options::Options;
use crate::progress::clock;
use crate::shares::Amount;
use crate::state::{Settings, Tallies};
use crate::tally::{Difference, Shown, Tally};
use crate::target::Target;
use std::fmt::Write as _;
use std::path::Path;
use std::{fs, thread};

/// The names with what they get and have, then the kinds.
pub fn list(targets: &[Target]) -> String {
    let mut text = "name                      --cases N  --total N  what it is\n".to_string();
    for target in targets {
        let cases = match (target.pace.share, target.pace.divisor) {
            (0, _) => "0".to_string(),
            (_, 1) => "N".to_string(),
            (_, divisor) => format!("N / {divisor}"),
        };
        let share = target.pace.share as f64 / 10.0;
        let (name, about) = (target.name, target.about);
        let _ = writeln!(text, "{name:<24} {cases:>10} {share:>8.1} %  {about}");
        let _ = writeln!(text, "  {}", target.kind_names());
    }
    text.push_str("\nkind\n");
    for (_, name, about) in KINDS {
        let _ = writeln!(text, "{name:<10} {about}");
    }
    text
}

/// What is run.
pub fn head(options: &Options) -> String {
    let draws = match options.amount {
        Amount::Cases(cases) => format!("{cases} drawn cases a name, of a slow one fewer,"),
        Amount::Total(total) => format!("{total} drawn cases in all"),
    };
    format!("seed {}, {draws} besides the edges", options.seed)
}

/// A name's line, and one with how often each number was answered.
pub fn line(name: &str, tally: &Tally) -> String {
    let (cases, differences) = (tally.cases, tally.differences);
    let seconds = tally.time.as_secs_f64();
    let mut text =
        format!("{name:<24} {cases:>10} cases {differences:>8} differences {seconds:>8.2} s\n");
    if !tally.answers.is_empty() {
        let counts = tally.answers.iter();
        let counts: Vec<String> = counts.map(|(n, count)| format!("{n}: {count}")).collect();
        let _ = writeln!(text, "  answers {}", counts.join(", "));
    }
    text
}

/// Name, place and text of a difference. The place is a comment: a sheet may
/// begin with it.
pub fn difference(name: &str, seed: u64, kept: &Difference) -> String {
    let (kind, block, case) = (kept.kind.name(), kept.block, kept.case);
    let place = format!("# {name} differs: seed {seed}, kind {kind}, block {block}, case {case}");
    format!("{place}\n{}", kept.shown.text())
}

/// Writes a difference to a file of its own.
pub fn write(folder: &Path, name: &str, seed: u64, kept: &Difference) -> Result<(), String> {
    let ending = match kept.shown {
        Shown::Sheet(_) => "sheet",
        Shown::Lines(_) => "txt",
    };
    let path = folder.join(format!("{name}_{}.{ending}", kept.place("_")));
    fs::create_dir_all(folder)
        .and_then(|()| fs::write(&path, difference(name, seed, kept)))
        .map_err(|error| format!("{}: {error}", path.display()))
}

/// The processor's name, where the system tells it.
fn processor() -> String {
    let text = fs::read_to_string("/proc/cpuinfo").unwrap_or_default();
    let line = text.lines().find(|line| line.starts_with("model name"));
    let name = line.and_then(|line| line.split_once(": "));
    name.map_or("a processor without a name".to_string(), |(_, name)| {
        name.trim().to_string()
    })
}

/// The cases by name and by the number answered, in Markdown, under a line that
/// says how they were run.
pub fn counts(settings: &Settings, tallies: &Tallies) -> String {
    let mut all = Tally::default();
    tallies.iter().for_each(|(_, tally)| all.add(tally.clone()));
    let command: Vec<String> = settings
        .iter()
        .map(|(key, value)| format!("--{key} {value}"))
        .collect();
    let cores = thread::available_parallelism().map_or(1, usize::from);
    let head = format!(
        "`compare {}`: {} cases, {} differences, {} on one of {cores} cores, {}\n\n",
        command.join(" "),
        all.cases,
        all.differences,
        clock(all.time),
        processor()
    );
    head + &table(tallies, &all)
}

fn table(tallies: &Tallies, all: &Tally) -> String {
    let numbers: Vec<u32> = all.answers.keys().copied().collect();
    let columns: Vec<String> = numbers
        .iter()
        .map(|number| format!(" {number} |"))
        .collect();
    let mut text = format!("| name | cases | differences |{}\n", columns.concat());
    let _ = writeln!(text, "|---|---|---|{}", "---|".repeat(numbers.len()));
    let last = ("all", all.clone());
    for (name, tally) in tallies.iter().chain([&last]) {
        let count = |number| {
            tally
                .answers
                .get(number)
                .map_or(" |".to_string(), |n| format!(" {n} |"))
        };
        let counts: Vec<String> = numbers.iter().map(count).collect();
        let (cases, differences) = (tally.cases, tally.differences);
        let _ = writeln!(
            text,
            "| {name} | {cases} | {differences} |{}",
            counts.concat()
        );
    }
    text
}

/// Names without a difference and with one, or without a case.
pub fn verdict(tallies: &Tallies) -> (usize, usize) {
    let good = |(_, tally): &&(&str, Tally)| tally.differences == 0 && tally.cases > 0;
    let passed = tallies.iter().filter(good).count();
    (passed, tallies.len() - passed)
}

#[cfg(test)]
mod tests {
    use super::*;
    use crate::draw::kind::Kind;
    use crate::targets;

    fn tallies() -> Tallies {
        let sin = Tally {
            cases: 10,
            ..Tally::default()
        };
        let load = Tally {
            cases: 5,
            differences: 1,
            answers: [(0, 3), (7, 2)].into(),
            ..Tally::default()
        };
        vec![("sin", sin), ("load", load), ("cos", Tally::default())]
    }

    #[test]
    fn counts_are_a_table() {
        let text = counts(&vec![("total", "15".to_string())], &tallies());
        assert!(
            text.starts_with("`compare --total 15`: 15 cases, 1 differences, 0:00:00 on one of ")
        );
        let rows = "\
| name | cases | differences | 0 | 7 |
|---|---|---|---|---|
| sin | 10 | 0 | | |
| load | 5 | 1 | 3 | 2 |
| cos | 0 | 0 | | |
| all | 15 | 1 | 3 | 2 |
";
        assert!(text.ends_with(rows), "{text}");
    }

    /// A name of which nothing was run has not passed.
    #[test]
    fn a_name_passes_with_cases_and_without_differences() {
        assert_eq!(verdict(&tallies()), (1, 2));
    }

    #[test]
    fn a_difference_has_a_file_of_its_own() {
        let folder = std::env::temp_dir().join(format!("compare_found_{}", std::process::id()));
        let kept = Difference {
            kind: Kind::Nan,
            block: 2,
            case: 5,
            shown: Shown::Sheet("sonde 1\n".to_string()),
        };
        write(&folder, "load", 9, &kept).unwrap();
        let text = fs::read_to_string(folder.join("load_nan_2_5.sheet")).unwrap();
        assert_eq!(
            text,
            "# load differs: seed 9, kind nan, block 2, case 5\nsonde 1\n"
        );
        fs::remove_dir_all(&folder).unwrap();
    }

    #[test]
    fn the_list_has_every_name_and_kind() {
        let text = list(&targets());
        let has = |start: &str| text.lines().any(|line| line.starts_with(start));
        assert!(targets().iter().all(|target| has(target.name)));
        assert!(KINDS.iter().all(|(_, name, _)| has(name)));
    }
}
