//! The command line of a program that writes stored files, or says whether they
//! are as it would write them.

#![forbid(unsafe_code)]

use std::env;
use std::path::Path;
use std::process::ExitCode;

/// What is done with a place: the last line to be printed, as an error where the
/// program fails.
pub type Done = Result<String, String>;

/// Does what the command line asks for. Without a place, or with another option,
/// that is the usage.
pub fn write_or_check(
    usage: &str,
    write: impl FnOnce(&Path) -> Done,
    check: impl FnOnce(&Path) -> Done,
) -> ExitCode {
    let words = words();
    let words: Vec<&str> = words.iter().map(String::as_str).collect();
    finish(
        usage,
        asked(&words).map(|(place, held)| if held { check(place) } else { write(place) }),
    )
}

/// The words behind the program's name.
pub fn words() -> Vec<String> {
    env::args().skip(1).collect()
}

/// Prints the last line; nothing done means that the words ask for nothing, and
/// the usage is printed.
pub fn finish(usage: &str, done: Option<Done>) -> ExitCode {
    match done {
        Some(Ok(line)) => {
            println!("{line}");
            ExitCode::SUCCESS
        }
        Some(Err(line)) => {
            println!("{line}");
            ExitCode::FAILURE
        }
        None => {
            eprintln!("{usage}");
            ExitCode::from(2)
        }
    }
}

/// The place, and whether it is to be checked.
fn asked<'a>(words: &[&'a str]) -> Option<(&'a Path, bool)> {
    match *words {
        [place] if !place.starts_with('-') => Some((Path::new(place), false)),
        [place, "--check"] | ["--check", place] => Some((Path::new(place), true)),
        _ => None,
    }
}

#[cfg(test)]
mod tests {
    use super::*;

    #[test]
    fn a_place_is_written_or_checked() {
        let place = Path::new("place");
        assert_eq!(asked(&["place"]), Some((place, false)));
        assert_eq!(asked(&["place", "--check"]), Some((place, true)));
        assert_eq!(asked(&["--check", "place"]), Some((place, true)));
        for words in [&[][..], &["--check"], &["--other"], &["place", "other"]] {
            assert_eq!(asked(words), None, "{words:?}");
        }
    }
}
