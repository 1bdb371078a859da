//! Times the proved functions against the reference's in one run. Only the
//! ratios mean something: the nanoseconds are this machine's. Nothing is
//! asserted here; `compare` looks at the answers.

// A declaration of what is linked counts as unsafe; two builds need one.
#![cfg_attr(not(feature = "two_builds"), forbid(unsafe_code))]

mod arms;
mod builds;
mod digits;
mod leaves;
#[cfg(feature = "objective")]
mod objective;
mod ratios;
mod report;
mod timing;

use builds::{Build, Round};
use ratios::Ratios;
use std::hint::black_box;
use std::process::ExitCode;
use timing::{pass, time, Timed};

const USAGE: &str = "\
bench [WORD]          times the rows, or those with the word in their name
bench --markdown      times all rows and prints the tables of docs/BENCHMARKS.md
bench --once NAME N   runs one row's proved side N times, untimed
bench --list          the names of the rows

For tools/speed_ratio, which links two builds of the library:
bench --round WORD    times the proved side of the rows on both, a line for each
bench --ratios FILE   prints tables of such lines
bench --both WORD N   runs the proved side N times on both, untimed";

/// In the name of a row that lends weights or tools, or picks the strict list,
/// between call and arm.
#[cfg(feature = "objective")]
const WITH_WEIGHTS: &str = " with weights";
const WITH_TOOLS: &str = " with tools";
#[cfg(feature = "objective")]
const WITH_STRICT_GOALS: &str = " with strict goals";

/// Whether the call has a row on the arm besides.
fn is_second(name: &str) -> bool {
    name.contains(" with ")
}

/// Inputs of one pass; small enough to stay near the processor.
const INPUTS: usize = 1024;

/// xorshift64*, with a fixed seed: every run times the same inputs.
struct Draw(u64);

impl Draw {
    fn between(&mut self, low: f64, high: f64) -> f64 {
        self.0 ^= self.0 >> 12;
        self.0 ^= self.0 << 25;
        self.0 ^= self.0 >> 27;
        let word = self.0.wrapping_mul(0x2545_f491_4f6c_dd1d);
        low + (high - low) * ((word >> 11) as f64 / 9007199254740992.0)
    }

    fn floats<const N: usize>(&mut self, low: f64, high: f64) -> [f64; N] {
        std::array::from_fn(|_| self.between(low, high))
    }

    fn quaternion(&mut self) -> [f64; 4] {
        let q: [f64; 4] = self.floats(-1.0, 1.0);
        let size = q.iter().map(|c| c * c).sum::<f64>().sqrt();
        q.map(|c| c / size)
    }

    fn inputs<I>(&mut self, mut one: impl FnMut(&mut Self) -> I) -> Vec<I> {
        (0..INPUTS).map(|_| one(self)).collect()
    }
}

/// What is asked for on the command line.
#[derive(Debug, PartialEq)]
enum Wish {
    /// Rows with the word in their name; an empty word is in every one.
    Time(String),
    Markdown,
    Once(String, usize),
    List,
    /// Rows as for `Time`, on two builds.
    Round(String),
    Ratios(String),
    Both(String, usize),
}

fn wish(arguments: &[&str]) -> Result<Wish, String> {
    let count = |word: &str| {
        let number = word.parse();
        number.map_err(|_| format!("not a whole number: {word}"))
    };
    match arguments {
        [] => Ok(Wish::Time(String::new())),
        ["--list"] => Ok(Wish::List),
        ["--markdown"] => Ok(Wish::Markdown),
        ["--once", name, times] => Ok(Wish::Once(name.to_string(), count(times)?)),
        ["--round" | "--both", ..] if !cfg!(feature = "two_builds") => {
            Err("one build is linked: run tools/speed_ratio".to_string())
        }
        ["--round", word] => Ok(Wish::Round(word.to_string())),
        ["--ratios", file] => Ok(Wish::Ratios(file.to_string())),
        ["--both", word, times] => Ok(Wish::Both(word.to_string(), count(times)?)),
        [word] if !word.starts_with('-') => Ok(Wish::Time(word.to_string())),
        _ => Err(format!("not understood: {}", arguments.join(" "))),
    }
}

/// The rows as they come, whether one was wished for, and what they took.
struct Rows {
    wish: Wish,
    found: bool,
    timed: Vec<Timed>,
}

impl Rows {
    fn new(wish: Wish) -> Self {
        Self {
            wish,
            found: false,
            timed: Vec::new(),
        }
    }

    /// Inputs are drawn for rows that are passed over too, so a row has the
    /// same ones whatever is asked for.
    fn row<I>(
        &mut self,
        name: &str,
        inputs: &[I],
        proved: impl Fn(&I) -> f64,
        reference: impl Fn(&I) -> f64,
    ) {
        match &self.wish {
            Wish::List => println!("{name}"),
            Wish::Time(word) if name.contains(word.as_str()) => {
                let row = time(name, inputs, &proved, &reference);
                print(&row, pass(inputs, &proved), pass(inputs, &reference));
                self.timed.push(row);
            }
            Wish::Markdown => {
                eprintln!("{name}");
                self.timed.push(time(name, inputs, &proved, &reference));
            }
            Wish::Once(chosen, times) if name == chosen => {
                let sum = repeated(inputs, *times, &proved);
                println!("{name}: {times} calls, sum {sum:e}");
            }
            Wish::Round(word) if report::has_table(name) && name.contains(word.as_str()) => {
                // The root's two rows differ in the reference alone.
                let name = name.split(", against ").next().unwrap_or(name);
                let round = Round::new(inputs, &proved, &builds::take);
                println!("{}", ratios::line(name, &round));
            }
            // Counts are by function, so each has one row on an arm.
            Wish::Both(word, times) if name.contains(word.as_str()) && !is_second(name) => {
                for build in [Build::Before, Build::After] {
                    builds::take(build);
                    let sum = repeated(inputs, *times, &proved);
                    println!("{name}: {times} calls {build:?}, sum {sum:e}");
                }
            }
            _ => return,
        }
        self.found = true;
    }
}

fn repeated<I>(inputs: &[I], times: usize, call: &impl Fn(&I) -> f64) -> f64 {
    let calls = inputs.iter().cycle().take(times);
    calls.map(|input| call(black_box(input))).sum()
}

fn print(row: &Timed, proved: f64, reference: f64) {
    let [low, high] = row.quartiles;
    println!(
        "{:<52} {:>10.1} {:>12.1} {:>8.2} {low:>8.2} {high:>6.2}   {proved:e} {reference:e}",
        row.name,
        row.proved,
        row.reference,
        row.ratio()
    );
}

fn main() -> ExitCode {
    let arguments: Vec<String> = std::env::args().skip(1).collect();
    let arguments: Vec<&str> = arguments.iter().map(String::as_str).collect();
    let wish = match wish(&arguments) {
        Ok(wish) => wish,
        Err(message) => {
            eprintln!("{message}\n\n{USAGE}");
            return ExitCode::from(2);
        }
    };
    if let Wish::Time(_) = wish {
        println!(
            "{:<52} {:>10} {:>12} {:>8} {:>15}   sums of one pass",
            "name", "proved ns", "reference ns", "ratio", "quartiles"
        );
    }
    if let Wish::Ratios(file) = wish {
        return ratios(&file);
    }
    let mut rows = Rows::new(wish);
    all(&mut rows);
    match rows.wish {
        Wish::Markdown => print!("{}", report::markdown(&rows.timed)),
        Wish::Time(_) => {
            print!("{}", report::growth(&rows.timed));
            print!("{}", report::beside_load(&rows.timed));
        }
        _ => {}
    }
    if rows.found {
        ExitCode::SUCCESS
    } else {
        eprintln!("no such row (--list shows them)");
        ExitCode::from(2)
    }
}

/// The tables of the rounds in a file; fails if a row does.
fn ratios(file: &str) -> ExitCode {
    let text = std::fs::read_to_string(file).map_err(|error| format!("{file}: {error}"));
    match text.and_then(|text| Ratios::of(&text)) {
        Ok(ratios) => {
            print!("{}", ratios.markdown());
            ExitCode::from(u8::from(!ratios.faults().is_empty()))
        }
        Err(message) => {
            eprintln!("{message}");
            ExitCode::from(2)
        }
    }
}

/// Every row, once. What came with the strict list and with turns draws for itself, so
/// that the others keep their inputs.
fn all(rows: &mut Rows) {
    let mut draw = Draw(0x9e37_79b9_7f4a_7c15);
    let mut rotations = Draw(0xbf58_476d_1ce4_e5b9);
    let mut turns = Draw(0x94d0_49bb_1331_11eb);
    leaves::rows(rows, &mut draw);
    leaves::turns(rows, &mut turns);
    leaves::rotations(rows, &mut rotations);
    #[cfg(feature = "objective")]
    objective::losses(rows, &mut draw);
    #[cfg(feature = "objective")]
    objective::strict_losses(rows, &mut rotations);
    calls(rows, &mut draw);
    #[cfg(feature = "objective")]
    objective::setting(rows, &mut draw);
}

/// Every call on arms of each size. Single chains of 2, 4, 8 and 16 joints
/// show how the cost grows.
fn calls(rows: &mut Rows, draw: &mut Draw) {
    let (four, two) = ([4; 4], [7; 2]);
    let sizes = [2, 4, 7, 8, 16].map(|joints| (format!("{joints} joints"), vec![joints]));
    let several = [("4 x 4 joints", &four[..]), ("7 + 7 joints", &two)];
    let several = several.map(|(label, joints)| (label.to_string(), joints.to_vec()));
    for (label, joints) in sizes.iter().chain(&several) {
        let chains = arms::Chains::new(joints, draw);
        arms::rows(rows, draw, label, &chains);
        #[cfg(feature = "objective")]
        objective::rows(rows, draw, label, &chains);
    }
}

#[cfg(test)]
mod tests {
    use super::*;

    #[test]
    fn wishes_are_read() {
        assert_eq!(wish(&[]), Ok(Wish::Time(String::new())));
        assert_eq!(wish(&["sin"]), Ok(Wish::Time("sin".to_string())));
        assert_eq!(wish(&["--list"]), Ok(Wish::List));
        assert_eq!(wish(&["--markdown"]), Ok(Wish::Markdown));
        let once = Wish::Once("frames, 7 joints".to_string(), 12);
        assert_eq!(wish(&["--once", "frames, 7 joints", "12"]), Ok(once));
        assert!(wish(&["--once", "sin"]).is_err());
        assert!(wish(&["--once", "sin", "often"]).is_err());
        assert!(wish(&["--nothing"]).is_err());
        assert_eq!(wish(&["--ratios", "x"]), Ok(Wish::Ratios("x".to_string())));
        let two = cfg!(feature = "two_builds");
        assert_eq!(wish(&["--round", ""]).is_ok(), two);
        assert_eq!(wish(&["--both", "sin", "5"]).is_ok(), two);
        assert!(wish(&["sin", "cos"]).is_err());
    }

    /// A row is asked as often as was wished, and no other one.
    #[test]
    fn once_asks_one_row() {
        let asked = std::cell::Cell::new(0);
        let proved = |x: &f64| {
            asked.set(asked.get() + 1);
            *x
        };
        let mut rows = Rows::new(Wish::Once("this".to_string(), 5));
        rows.row("this one not", &[1.0, 2.0], proved, |x| *x);
        assert!(!rows.found && asked.get() == 0);
        rows.row("this", &[1.0, 2.0], proved, |x| *x);
        assert!(rows.found && asked.get() == 5);
    }
}
