//! Feeds the proved library and the reference the same inputs and compares
//! their answers bit for bit, a NaN matching a NaN.

#![forbid(unsafe_code)]

use compare::options::{Options, USAGE};
use compare::session::Session;
use compare::{report, session, targets};
use std::process::ExitCode;

/// The command line or a file cannot be used.
const UNUSABLE: u8 = 2;

/// Whether every name passed.
fn compare(options: &Options) -> Result<bool, String> {
    let targets = options.chosen(targets())?;
    if options.list {
        print!("{}", report::list(&targets));
        return Ok(true);
    }
    println!("{}", report::head(options));
    let mut session = Session::new(options, targets, session::checksum()?);
    session.resume()?;
    session.work(usize::MAX)?;
    for (name, tally) in session.tallies() {
        print!("{}", report::line(name, tally));
    }
    if options.counts {
        println!(
            "\n{}",
            report::counts(&options.settings(), session.tallies())
        );
    }
    let (passed, failed) = report::verdict(session.tallies());
    println!("{passed} passed, {failed} failed");
    Ok(failed == 0)
}

fn main() -> ExitCode {
    let options = match Options::read(std::env::args().skip(1)) {
        Ok(options) if options.help => {
            println!("{USAGE}");
            return ExitCode::SUCCESS;
        }
        Ok(options) => options,
        Err(message) => {
            eprintln!("{message}\n\n{USAGE}");
            return ExitCode::from(UNUSABLE);
        }
    };
    match compare(&options) {
        Ok(true) => ExitCode::SUCCESS,
        Ok(false) => ExitCode::FAILURE,
        Err(message) => {
            eprintln!("{message}");
            ExitCode::from(UNUSABLE)
        }
    }
}
