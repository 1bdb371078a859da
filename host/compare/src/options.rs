//! The command line.

use crate::draw::kind::Kind;
use crate::shares::Amount;
use crate::target::Target;
use std::path::PathBuf;

pub const USAGE: &str = "\
compare [--cases N | --total N] [--seed S] [--only NAME,..] [--kind KIND,..]
        [--state FILE] [--differences DIR] [--counts]
compare --list

  --cases N          N drawn cases for each name (default 1000000), of a slow
                     name fewer, as --list shows
  --total N          N drawn cases for all names together, each name having the
                     share that --list shows
  --seed S           seed of the draws (default 1)
  --only NAME,..     these names alone
  --kind KIND,..     inputs of these kinds alone, for the names that have them
  --state FILE       keeps the state of the run in FILE after each block, and
                     resumes the run if FILE is there
  --differences DIR  writes each difference into a file of its own in DIR, at
                     most 20 a name
  --counts           at the end, a table in Markdown of the cases by name and by
                     the number answered
  --list             the names with their shares and kinds, and the kinds

The edges of every name are run in full on top of the draws. The last line is
'N passed, M failed', counting names. Exit status: 0 all passed, 1 some name
failed, 2 the command line or a file cannot be used.";

pub const DEFAULT_CASES: u64 = 1_000_000;

#[derive(Clone, Debug)]
pub struct Options {
    pub amount: Amount,
    pub seed: u64,
    /// All if empty, and of the kinds too.
    pub only: Vec<String>,
    pub kinds: Vec<Kind>,
    pub state: Option<PathBuf>,
    pub differences: Option<PathBuf>,
    pub counts: bool,
    pub list: bool,
    pub help: bool,
}

impl Default for Options {
    fn default() -> Self {
        Self {
            amount: Amount::Cases(DEFAULT_CASES),
            seed: 1,
            only: Vec::new(),
            kinds: Vec::new(),
            state: None,
            differences: None,
            counts: false,
            list: false,
            help: false,
        }
    }
}

fn number(text: &str) -> Result<u64, String> {
    text.parse()
        .map_err(|_| format!("not a whole number: {text}"))
}

fn kinds(words: &str) -> Result<Vec<Kind>, String> {
    let named = |word: &str| {
        Kind::named(word).ok_or_else(|| format!("no such kind: {word} (--list shows them)"))
    };
    words.split(',').map(named).collect()
}

impl Options {
    pub fn read(mut arguments: impl Iterator<Item = String>) -> Result<Self, String> {
        let mut options = Self::default();
        let mut amount = None;
        while let Some(argument) = arguments.next() {
            let mut value = || {
                let value = arguments.next();
                value.ok_or_else(|| format!("{argument} needs a value"))
            };
            match argument.as_str() {
                "--cases" | "--total" if amount.is_some() => {
                    return Err("--cases or --total, and once".to_string())
                }
                "--cases" => amount = Some(Amount::Cases(number(&value()?)?)),
                "--total" => amount = Some(Amount::Total(number(&value()?)?)),
                "--seed" => options.seed = number(&value()?)?,
                "--only" => options.only = value()?.split(',').map(str::to_string).collect(),
                "--kind" => options.kinds = kinds(&value()?)?,
                "--state" => options.state = Some(value()?.into()),
                "--differences" => options.differences = Some(value()?.into()),
                "--counts" => options.counts = true,
                "--list" => options.list = true,
                "--help" | "-h" => options.help = true,
                other => return Err(format!("unknown option: {other}")),
            }
        }
        options.amount = amount.unwrap_or(options.amount);
        Ok(options)
    }

    /// The names to run, in the order of the list.
    pub fn chosen(&self, mut targets: Vec<Target>) -> Result<Vec<Target>, String> {
        for name in &self.only {
            let Some(target) = targets.iter().find(|target| target.name == name) else {
                return Err(format!("no such name: {name} (--list shows them)"));
            };
            if !self.runs(target) {
                let kinds = target.kind_names();
                return Err(format!("{name} has no input of that kind, but {kinds}"));
            }
        }
        let named = |target: &Target| {
            self.only.is_empty() || self.only.iter().any(|name| name == target.name)
        };
        targets.retain(|target| named(target) && self.runs(target));
        Ok(targets)
    }

    /// Whether the name has an input of the kinds asked for.
    fn runs(&self, target: &Target) -> bool {
        self.kinds.is_empty() || self.kinds.iter().any(|kind| target.has(*kind))
    }

    /// What says which cases are run, by key and value.
    pub fn settings(&self) -> Vec<(&'static str, String)> {
        let mut settings = vec![match self.amount {
            Amount::Cases(number) => ("cases", number.to_string()),
            Amount::Total(number) => ("total", number.to_string()),
        }];
        settings.push(("seed", self.seed.to_string()));
        if !self.only.is_empty() {
            settings.push(("only", self.only.join(",")));
        }
        if !self.kinds.is_empty() {
            let names: Vec<&str> = self.kinds.iter().map(|kind| kind.name()).collect();
            settings.push(("kind", names.join(",")));
        }
        settings
    }
}

#[cfg(test)]
mod tests {
    use super::*;
    use crate::targets;

    fn read(line: &str) -> Result<Options, String> {
        Options::read(line.split_whitespace().map(str::to_string))
    }

    #[test]
    fn options_are_read() {
        let options = read("--cases 12 --seed 34 --only sin,cos --kind any").unwrap();
        assert_eq!((options.amount, options.seed), (Amount::Cases(12), 34));
        assert_eq!(options.only, ["sin", "cos"]);
        assert_eq!(options.kinds, [Kind::Any]);
        assert!(!options.list && read("--list").unwrap().list);
        let options = read("--total 5 --state s --differences d --counts").unwrap();
        assert_eq!(options.amount, Amount::Total(5));
        assert_eq!(options.state, Some("s".into()));
        assert_eq!(options.differences, Some("d".into()));
        assert!(options.counts);
    }

    #[test]
    fn the_usage_says_how_many_are_kept() {
        let most = format!("most {} a name", crate::tally::MOST_KEPT);
        assert!(USAGE.contains(&most));
    }

    #[test]
    fn wrong_options_are_told() {
        for line in [
            "--cases",
            "--cases many",
            "--nothing",
            "--cases 1 --total 1",
            "--total 1 --total 2",
            "--kind nothing",
            "--kind any,",
        ] {
            assert!(read(line).is_err(), "{line}");
        }
    }

    #[test]
    fn names_are_chosen() {
        let chosen = |line: &str| {
            let targets = read(line).unwrap().chosen(targets())?;
            Ok::<Vec<&str>, String>(targets.iter().map(|target| target.name).collect())
        };
        assert_eq!(chosen("--only cos,sin").unwrap(), ["sin", "cos"]);
        assert_eq!(chosen("").unwrap().len(), targets().len());
        assert_eq!(chosen("--kind short --only determinant").unwrap().len(), 1);
        let short = chosen("--kind short").unwrap();
        assert!(short.contains(&"determinant") && !short.contains(&"sin"));
        assert!(chosen("--only nothing").is_err());
        assert!(chosen("--only sin --kind short").is_err());
    }

    #[test]
    fn settings_are_what_was_asked_for() {
        let settings = read("--total 5 --only sin --kind any,edges")
            .unwrap()
            .settings();
        let settings: Vec<String> = settings
            .iter()
            .map(|(key, value)| format!("{key} {value}"))
            .collect();
        assert_eq!(
            settings,
            ["total 5", "seed 1", "only sin", "kind any,edges"]
        );
    }
}
