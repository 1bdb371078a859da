//! The program itself, ended while it runs and started again.

use std::path::{Path, PathBuf};
use std::process::{Command, Output, Stdio};
use std::thread::sleep;
use std::time::Duration;
use std::{env, fs};

const SETTINGS: &str = "--total 300000 --only sin,load,pose --seed 3 --counts";

fn compare(settings: &str, state: Option<&Path>) -> Command {
    let mut command = Command::new(env!("CARGO_BIN_EXE_compare"));
    command.args(settings.split(' '));
    if let Some(state) = state {
        command.arg("--state").arg(state);
    }
    command.stdout(Stdio::piped()).stderr(Stdio::piped());
    command
}

fn state(name: &str) -> PathBuf {
    let path = Path::new(env!("CARGO_TARGET_TMPDIR")).join(name);
    let _ = fs::remove_file(&path);
    path
}

fn said(output: &Output) -> String {
    String::from_utf8(output.stdout.clone()).unwrap()
}

/// The table's rows, which have no times in them.
fn rows(output: &Output) -> Vec<String> {
    let rows = said(output);
    let rows = rows.lines().filter(|line| line.starts_with("| "));
    rows.map(str::to_string).collect()
}

/// Ends a run once it has kept a state.
fn ended_early(path: &Path) {
    let mut child = compare(SETTINGS, Some(path)).spawn().unwrap();
    while !path.exists() {
        assert_eq!(child.try_wait().unwrap(), None, "it ended without a state");
        sleep(Duration::from_millis(1));
    }
    child.kill().unwrap();
    child.wait().unwrap();
}

#[test]
fn a_run_that_was_ended_goes_on() {
    let whole = compare(SETTINGS, None).output().unwrap();
    assert!(whole.status.success());
    let path = state("ended.state");
    ended_early(&path);
    let resumed = compare(SETTINGS, Some(&path)).output().unwrap();
    assert!(resumed.status.success());
    let line = said(&resumed);
    let line = line.lines().find_map(|line| line.strip_prefix("resumed: "));
    let line = line.expect("it says that it is resumed").to_string();
    let words: Vec<usize> = line
        .split(' ')
        .filter_map(|word| word.parse().ok())
        .collect();
    assert!(words[0] > 0 && words[0] < words[1], "{line}");
    assert_eq!(rows(&resumed), rows(&whole));
    assert_eq!(rows(&whole).len(), 5);
    assert!(said(&resumed).ends_with("3 passed, 0 failed\n"));
}

/// A run that is done has nothing left to do.
#[test]
fn a_run_that_is_done_is_told_again() {
    let path = state("done.state");
    let first = compare("--total 1000 --only sin --counts", Some(&path))
        .output()
        .unwrap();
    let again = compare("--total 1000 --only sin --counts", Some(&path))
        .output()
        .unwrap();
    assert_eq!(rows(&again), rows(&first));
    assert!(again.status.success());
}

#[test]
fn what_cannot_be_used_is_told() {
    let path = state("refused.state");
    assert!(compare("--total 1000 --only sin", Some(&path))
        .status()
        .unwrap()
        .success());
    let told = |settings: &str| {
        let output = compare(settings, Some(&path)).output().unwrap();
        assert_eq!(output.status.code(), Some(2), "{settings}");
        String::from_utf8(output.stderr).unwrap()
    };
    assert!(told("--total 2000 --only sin").contains("total 1000"));
    assert!(told("--total 1000 --only sin --seed 2").contains("another run"));
    assert!(told("--total 1000 --only nothing").contains("no such name"));
    assert!(told("--total 1000 --kind nothing").contains("no such kind"));
    fs::write(&path, "something else\n").unwrap();
    assert!(told("--total 1000 --only sin").contains("no state"));
}
