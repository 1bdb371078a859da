//! Keeps the pages true to the sources. It makes docs/CALLS.md, docs/architecture.svg and the counted parts of other pages, and leads the
//! links of README.md and docs/*.md to the lines where their names are declared. `--check` writes nothing and says what is out of date.

#![forbid(unsafe_code)]

use pages::calls::{self, Calls, Sources};
use pages::counts::Counts;
use pages::repository::Repository;
use pages::{edits, files, header, links, numbers, picture};
use std::path::Path;
use std::process::ExitCode;
use std::{env, fs};

const USAGE: &str = "\
pages [ROOT] [--check]

  ROOT     the repository (default: the folder it is run in)
  --check  write nothing; fail if a page is not what would be written, or if a link leads nowhere";

const CALLS: &str = "docs/CALLS.md";
const TRUST: &str = "docs/TRUST.md";
const ARCHITECTURE: &str = "docs/ARCHITECTURE.md";
const PICTURE: &str = "docs/architecture.svg";

struct Options {
    root: String,
    check: bool,
}

fn options(arguments: impl Iterator<Item = String>) -> Result<Options, String> {
    let mut options = Options {
        root: ".".to_string(),
        check: false,
    };
    for argument in arguments {
        match argument.as_str() {
            "--check" => options.check = true,
            other if other.starts_with('-') => return Err(format!("unknown option: {other}")),
            _ => options.root = argument,
        }
    }
    Ok(options)
}

/// How much was found good, and what was not.
#[derive(Default)]
struct Report {
    good: usize,
    faults: Vec<String>,
}

impl Report {
    fn hold(&mut self, good: bool, fault: impl FnOnce() -> String) {
        match good {
            true => self.good += 1,
            false => self.faults.push(fault()),
        }
    }
}

/// A page as it should stand.
struct Page {
    path: String,
    text: String,
}

/// A counted part of a page, which stands between `<!-- pages: NAME -->` and `<!-- pages: end -->`.
struct Part {
    path: &'static str,
    name: &'static str,
    text: String,
}

impl Part {
    fn put(&self, page: &str) -> Result<String, String> {
        let (begin, end) = (
            format!("<!-- pages: {} -->\n", self.name),
            "<!-- pages: end -->\n",
        );
        let missing = |mark: &str| format!("{}: the line '{}' is missing", self.path, mark.trim());
        let (front, rest) = page.split_once(&begin).ok_or_else(|| missing(&begin))?;
        let (_, back) = rest.split_once(end).ok_or_else(|| missing(end))?;
        Ok(format!("{front}{begin}{}{end}{back}", self.text))
    }
}

/// The header says of each exported call the numbers that the theorem says.
fn hold_answers(calls: &Calls, report: &mut Report) {
    for call in &calls.exported {
        let said = call.header.and_then(|one| one.answers.as_ref());
        let proved = call.theorem.map(|theorem| &theorem.numbers);
        report.hold(said == proved, || {
            let told = [said, proved].map(|n| n.map_or("nothing".to_string(), numbers::ranges));
            let (said, proved) = (&told[0], &told[1]);
            format!(
                "{}: the header says {said}, the theorem {proved}",
                call.name()
            )
        });
    }
}

/// No public call has a `requires`.
fn hold_unasked(calls: &Calls, report: &mut Report) {
    for call in calls.all() {
        report.hold(call.asks_nothing(), || {
            format!("{} has a 'requires'", call.name())
        });
    }
}

/// Each row of docs/DECISIONS.md is of an edit that there is. An edit without a row is told and is no fault.
fn hold_edits(edits: &[edits::Edit], stray: Vec<String>, report: &mut Report) {
    for edit in edits {
        match edit.wrong {
            Some(_) => report.good += 1,
            None => println!("{}: no row for {}", edits::TOLD, edit.name),
        }
    }
    let fault = |name: String| format!("{}: there is no must-fail edit {name}", edits::TOLD);
    report.faults.extend(stray.into_iter().map(fault));
}

/// Edits that change a call's answers, at least.
const EDITS_A_CALL: usize = 2;

/// An edit names public calls alone, and each call has edits that change its answers.
fn hold_edited(calls: &Calls, edits: &[edits::Edit], report: &mut Report) {
    for edit in edits {
        for name in &edit.calls {
            report.hold(calls.all().any(|call| call.name() == name), || {
                format!("{}: there is no public call {name}", edit.path)
            });
        }
    }
    for call in calls.all() {
        let (name, count) = (call.name(), call.edits.len());
        report.hold(count >= EDITS_A_CALL, || {
            format!("{name}: must-fail edits that change its answers: {count}")
        });
    }
}

/// What is made of the sources: whole pages, and parts of others.
fn make(root: &Path, report: &mut Report) -> Result<(Vec<Page>, Vec<Part>), String> {
    let all = Repository::read(root)?;
    let header = header::parse(&files::text(root, calls::HEADER)?);
    let (edits, stray) = edits::all(&all, root)?;
    hold_edits(&edits, stray, report);
    let sources = Sources {
        all: &all,
        header: &header,
        theorems: &numbers::theorems(&all)?,
        edits: &edits,
    };
    let calls = sources.gather()?;
    hold_answers(&calls, report);
    hold_unasked(&calls, report);
    hold_edited(&calls, &edits, report);
    let page = |path: &str, text: String| Page {
        path: path.to_string(),
        text,
    };
    let pages = vec![
        page(CALLS, sources.page(&calls)),
        page(PICTURE, picture::svg(&all)?),
    ];
    let counts = Counts::new(&all, &calls)?;
    let part = |path, name, text| Part { path, name, text };
    let parts = vec![
        part(TRUST, "sum", counts.sum_up()),
        part(TRUST, "assumed", counts.assumed()),
        part(TRUST, "files", counts.tables()),
        part(ARCHITECTURE, "functions", counts.functions()),
    ];
    Ok((pages, parts))
}

/// The pages that people write, their counted parts renewed and their links led to where the names are declared.
fn renewed(root: &Path, parts: &[Part]) -> Result<Vec<Page>, String> {
    let mut paths = vec!["README.md".to_string()];
    paths.extend(files::below(root, "docs", "md")?);
    paths.retain(|path| path != CALLS);
    let page = |path: String| {
        let written = files::text(root, &path)?;
        let mut own = parts.iter().filter(|part| part.path == path);
        let text = own.try_fold(written, |text, part| part.put(&text))?;
        let text = links::renew(root, &path, &text);
        Ok(Page { path, text })
    };
    paths.into_iter().map(page).collect()
}

/// Writes a page, or with `--check` says whether it stands as it would be written.
fn settle(root: &Path, page: &Page, check: bool, report: &mut Report) -> Result<(), String> {
    let place = root.join(&page.path);
    let same = fs::read_to_string(&place).is_ok_and(|text| text == page.text);
    if !same && !check {
        fs::write(&place, &page.text).map_err(|error| format!("{}: {error}", page.path))?;
        println!("{}: written", page.path);
    }
    report.hold(same || !check, || {
        format!("{}: out of date: run 'make pages'", page.path)
    });
    Ok(())
}

fn hold_links(root: &Path, path: &str, report: &mut Report) -> Result<(), String> {
    // Each link of the page that is made whole is held by comparing the page.
    let (good, faults) = links::check(root, path, &files::text(root, path)?, path != CALLS);
    println!("{path}: {good} links are good, {} are not", faults.len());
    report.good += good;
    report.faults.extend(faults);
    Ok(())
}

fn run(options: &Options) -> Result<Report, String> {
    let root = Path::new(&options.root);
    let mut report = Report::default();
    let (made, parts) = make(root, &mut report)?;
    let written = renewed(root, &parts)?;
    for page in made.iter().chain(&written) {
        settle(root, page, options.check, &mut report)?;
    }
    let linked = made.iter().chain(&written);
    let mut linked = linked.filter(|page| page.path.ends_with(".md"));
    linked.try_for_each(|page| hold_links(root, &page.path, &mut report))?;
    Ok(report)
}

fn main() -> ExitCode {
    let options = match options(env::args().skip(1)) {
        Ok(options) => options,
        Err(message) => {
            eprintln!("{message}\n\n{USAGE}");
            return ExitCode::from(2);
        }
    };
    let report = run(&options).unwrap_or_else(|fault| Report {
        good: 0,
        faults: vec![fault],
    });
    report.faults.iter().for_each(|fault| println!("{fault}"));
    println!("{} passed, {} failed", report.good, report.faults.len());
    if report.faults.is_empty() {
        ExitCode::SUCCESS
    } else {
        ExitCode::FAILURE
    }
}
