//! Works a hole sheet out again with the proved library and says whether every
//! filed figure comes out the same. README.md has the sheet's format.

#![forbid(unsafe_code)]

mod batch;
mod report;
mod sizes;
mod svg;
mod why;
mod work;

use report::{Outcome, Problem, GOOD, UNUSABLE};
use sizes::Planned;
use sonde::text;
use std::io::{Read as _, Write as _};
use std::process::ExitCode;
use std::{env, fs, io};

const USAGE: &str = "\
sonde SHEET [--json] [--svg FILE]
sonde --batch DIR [--json]
sonde --sizes SHEET [--json]
sonde --version

  SHEET        the sheet to work out, - for the standard input
  --json       one line of JSON a sheet, for programs
  --svg FILE   draws the arm and its goals into FILE
  --batch DIR  every *.sheet of a folder, and a table of them
  --sizes      how long the lists are that a program reserves for the arms of
               SHEET, and how many objectives there are by its goals line, if
               it has one; limits, joints, each goal, weights and tools are
               read and not judged
  --version    the program's version, and the proved library it is linked with

exit status: 0 worked out, and every filed figure agrees (with --sizes: planned);
1 a filed figure differs (with --batch: a sheet is not good); 2 a file or the
command line cannot be used; 3 a fault in the text; 11 to 18, 20 and 21 refused
by the library, with number 1 to 8, 10 and 11";

#[derive(Debug, Default, PartialEq)]
struct Options {
    sheet: Option<String>,
    batch: Option<String>,
    svg: Option<String>,
    json: bool,
    sizes: bool,
    help: bool,
    version: bool,
}

fn options(mut arguments: impl Iterator<Item = String>) -> Result<Options, String> {
    let mut options = Options::default();
    while let Some(argument) = arguments.next() {
        let mut value = || {
            arguments
                .next()
                .ok_or_else(|| format!("{argument} needs a value"))
        };
        match argument.as_str() {
            "--json" => options.json = true,
            "--sizes" => options.sizes = true,
            "--svg" => options.svg = Some(value()?),
            "--batch" => options.batch = Some(value()?),
            "--help" | "-h" => options.help = true,
            "--version" => options.version = true,
            other if other.starts_with('-') && other != "-" => {
                return Err(format!("unknown option: {other}"))
            }
            _ if options.sheet.is_some() => return Err(format!("one sheet only, not {argument}")),
            _ => options.sheet = Some(argument),
        }
    }
    match (&options.sheet, &options.batch) {
        _ if options.help || options.version => Ok(options),
        (None, None) => Err("which sheet?".to_string()),
        (Some(_), Some(_)) => Err("a sheet or --batch, not both".to_string()),
        (None, Some(_)) if options.svg.is_some() => Err("--svg draws one sheet".to_string()),
        (None, Some(_)) if options.sizes => Err("--sizes is for one sheet".to_string()),
        _ if options.sizes && options.svg.is_some() => Err("--sizes draws nothing".to_string()),
        _ => Ok(options),
    }
}

/// As much as a sheet can have, and a byte more if there is one.
fn read(path: &str) -> io::Result<Vec<u8>> {
    let source: Box<dyn io::Read> = match path {
        "-" => Box::new(io::stdin()),
        _ => Box::new(fs::File::open(path)?),
    };
    let mut bytes = Vec::new();
    source
        .take(text::MOST_BYTES as u64 + 1)
        .read_to_end(&mut bytes)?;
    Ok(bytes)
}

type Answered<T> = Result<(text::File, T), Problem>;

/// The sheet, and what came of what was asked of it.
fn ask<T>(bytes: &[u8], what: fn(&text::File) -> Result<T, work::Fault>) -> Answered<T> {
    let file = text::parse(bytes).map_err(|fault| Problem::Fault(work::Fault::Text(fault)))?;
    let found = what(&file).map_err(Problem::Fault)?;
    Ok((file, found))
}

fn ask_of<T>(path: &str, what: fn(&text::File) -> Result<T, work::Fault>) -> Answered<T> {
    let bytes = read(path).map_err(|error| Problem::Unreadable(error.to_string()))?;
    ask(&bytes, what)
}

fn check(path: &str) -> Outcome {
    Outcome {
        path: path.to_string(),
        result: ask_of(path, work::work),
    }
}

fn plan(path: &str) -> Planned {
    Planned {
        path: path.to_string(),
        result: ask_of(path, work::plan),
    }
}

/// Of the program, and what is known of the library: whether it has the objective
/// is the program's own choice.
fn version() -> String {
    let objective = match work::HAS_OBJECTIVE {
        true => "with the objective",
        false => "without the objective",
    };
    let (own, library) = (env!("CARGO_PKG_VERSION"), relaxed_ik::LIBRARY);
    format!("sonde {own}, {objective}\nlinked with {library}\n")
}

/// A reader that has gone away is no fault of ours.
fn say(text: &str) {
    let _ = io::stdout().write_all(text.as_bytes());
}

fn run(options: &Options) -> Result<u8, String> {
    if let Some(folder) = &options.batch {
        let paths = batch::sheets(folder).map_err(|error| format!("{folder}: {error}"))?;
        if paths.is_empty() {
            return Err(format!("{folder}: no *.sheet"));
        }
        let outcomes = batch::run(&paths, check);
        say(&match options.json {
            true => batch::json(&outcomes),
            false => batch::table(&outcomes),
        });
        return Ok(u8::from(outcomes.iter().any(|one| one.status() != GOOD)));
    }
    let path = options.sheet.as_deref().unwrap_or("-");
    if options.sizes {
        let planned = plan(path);
        say(&match options.json {
            true => planned.json() + "\n",
            false => planned.text(),
        });
        return Ok(planned.status());
    }
    let outcome = check(path);
    say(&match options.json {
        true => outcome.json() + "\n",
        false => outcome.text(),
    });
    if let (Some(file), Ok((sheet, work))) = (&options.svg, &outcome.result) {
        let drawing = svg::draw(&sheet.hole, work);
        fs::write(file, drawing).map_err(|error| format!("{file}: {error}"))?;
    }
    Ok(outcome.status())
}

fn main() -> ExitCode {
    let options = match options(env::args().skip(1)) {
        Ok(options) if options.help => {
            say(&format!("{USAGE}\n"));
            return ExitCode::SUCCESS;
        }
        Ok(options) if options.version => {
            say(&version());
            return ExitCode::SUCCESS;
        }
        Ok(options) => options,
        Err(message) => {
            eprintln!("{message}\n\n{USAGE}");
            return ExitCode::from(UNUSABLE);
        }
    };
    match run(&options) {
        Ok(status) => ExitCode::from(status),
        Err(message) => {
            eprintln!("{message}");
            ExitCode::from(UNUSABLE)
        }
    }
}

#[cfg(test)]
mod tests {
    use super::*;

    fn read(line: &str) -> Result<Options, String> {
        options(line.split_whitespace().map(str::to_string))
    }

    #[test]
    fn options_are_read() {
        let one = read("a.sheet --json --svg a.svg").unwrap();
        assert_eq!(one.sheet.as_deref(), Some("a.sheet"));
        assert_eq!(one.svg.as_deref(), Some("a.svg"));
        assert!(one.json && one.batch.is_none());
        assert_eq!(read("-").unwrap().sheet.as_deref(), Some("-"));
        assert_eq!(read("--batch d").unwrap().batch.as_deref(), Some("d"));
        let sizes = read("--sizes a.sheet --json").unwrap();
        assert_eq!(sizes.sheet.as_deref(), Some("a.sheet"));
        assert!(sizes.sizes && sizes.json);
        assert!(read("--version").unwrap().version);
    }

    #[test]
    fn wrong_options_are_told() {
        for line in [
            "",
            "a b",
            "--svg",
            "--nothing",
            "a --batch d",
            "--batch d --svg f",
            "--sizes",
            "--sizes --batch d",
            "--sizes a --svg f",
        ] {
            assert!(read(line).is_err(), "{line}");
        }
    }

    /// The sample sheets with bytes changed, words swapped and lines moved:
    /// whatever comes of it, it is said, and a refusal names a value.
    #[test]
    fn spoiled_sheets_are_told() {
        let folder = concat!(env!("CARGO_MANIFEST_DIR"), "/../../examples/sheets/good");
        let texts: Vec<String> = batch::sheets(folder)
            .unwrap()
            .iter()
            .map(|path| fs::read_to_string(path).unwrap())
            .collect();
        let mut state = 1u64;
        let mut below = |n: usize| {
            state ^= state << 13;
            state ^= state >> 7;
            state ^= state << 17;
            (state % n.max(1) as u64) as usize
        };
        let odd = [
            "",
            "nan",
            "-0",
            "1e999",
            "8.5",
            "64.5",
            "11",
            "-101",
            "0x7ff0000000000000",
            "link",
            "chain a",
            "goal",
            "filed",
            "free",
            "joints",
            "history",
            "weights",
            "1000.5",
            "tool",
            "tool 0 0 0.5 1 0 0 0",
            "goals",
            "goals strict",
            "strict",
        ];
        let mut met = std::collections::BTreeMap::new();
        for _ in 0..4000 {
            let mut lines: Vec<String> = texts[below(texts.len())]
                .lines()
                .map(str::to_string)
                .collect();
            for _ in 0..=below(3) {
                let at = below(lines.len());
                let mut words: Vec<String> = lines[at].split(' ').map(str::to_string).collect();
                match below(6) {
                    0 => drop(lines.remove(at)),
                    1 => lines.insert(at, lines[below(lines.len())].clone()),
                    2 => lines.swap(at, below(at + 1)),
                    3 => lines[at] = lines[at].replace("link fixed", "link code 47"),
                    _ => {
                        let word = below(words.len());
                        words[word] = odd[below(odd.len())].to_string();
                        lines[at] = words.join(" ");
                    }
                }
            }
            let text = lines.join("\n");
            let path = "spoiled".to_string();
            let outcome = Outcome {
                path: path.clone(),
                result: ask(text.as_bytes(), work::work),
            };
            assert!(!outcome.text().is_empty() && !outcome.json().is_empty());
            assert!(!outcome.note().contains("no single value"), "{text}");
            let planned = Planned {
                path,
                result: ask(text.as_bytes(), work::plan),
            };
            assert!(!planned.json().is_empty());
            assert!(!planned.text().contains("no single value"), "{text}");
            // What a sheet is refused for in its arms, sizing tells as well.
            match outcome.status() {
                status @ (11..=14 | 16) => assert_eq!(planned.status(), status, "{text}"),
                0 | 1 | 17 | 18 | 20 | 21 => assert_eq!(planned.status(), GOOD, "{text}"),
                _ => {}
            }
            if let Ok((file, work)) = &outcome.result {
                assert!(svg::draw(&file.hole, work).ends_with("</svg>\n"));
            }
            *met.entry(outcome.status()).or_insert(0) += 1;
        }
        // Every status but 2 can come of a text.
        for status in [0, 1, 3, 11, 12, 13, 14, 15, 16, 17, 18, 20, 21] {
            assert!(met.contains_key(&status), "{status}: {met:?}");
        }
    }
}
