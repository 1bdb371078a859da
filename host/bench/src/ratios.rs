//! The rounds that `tools/speed_ratio` had timed, a process each, as tables. What
//! a call takes depends on where the system happens to put a process, in each
//! build in its own way, so one process would not do.

use crate::builds::{times_at_quarter, Round, Times};
use crate::report::parts;
use std::fmt::Write as _;

/// A row with a ratio over this has failed.
const LIMIT: f64 = 1.05;

/// A round on a line of its own.
pub fn line(name: &str, round: &Round) -> String {
    let [before, after, ratio] = round.times;
    format!("{before} {after} {ratio} {} {name}", round.same)
}

fn read(line: &str) -> Option<(&str, Round)> {
    let mut words = line.splitn(5, ' ');
    let mut number = || words.next()?.parse().ok();
    let times = [number()?, number()?, number()?];
    let same = words.next()?.parse().ok()?;
    Some((words.next()?, Round { times, same }))
}

struct Row {
    name: String,
    rounds: Vec<Round>,
}

impl Row {
    /// The first quartile, the median and the third of the faster half of the
    /// rounds, in which the machine was quieter.
    fn quarters(&self) -> [Times; 3] {
        let mut times: Vec<Times> = self.rounds.iter().map(|round| round.times).collect();
        times.sort_by(|a, b| (a[0] + a[1]).total_cmp(&(b[0] + b[1])));
        times.truncate(times.len().div_ceil(2));
        [1, 2, 3].map(|quarter| times_at_quarter(quarter, &times))
    }

    fn fault(&self) -> Option<String> {
        let [_, [_, _, ratio], _] = self.quarters();
        if self.rounds.iter().any(|round| !round.same) {
            Some(format!("{}: the builds answer differently", self.name))
        } else if ratio > LIMIT {
            Some(format!("{}: {ratio:.3} is over {LIMIT}", self.name))
        } else {
            None
        }
    }
}

pub struct Ratios {
    rows: Vec<Row>,
}

impl Ratios {
    /// Of the lines of all rounds.
    pub fn of(text: &str) -> Result<Self, String> {
        let mut rows: Vec<Row> = Vec::new();
        for line in text.lines() {
            let (name, round) = read(line).ok_or_else(|| format!("not a round: {line}"))?;
            match rows.iter_mut().find(|row| row.name == name) {
                Some(row) => row.rounds.push(round),
                None => rows.push(Row {
                    name: name.to_string(),
                    rounds: vec![round],
                }),
            }
        }
        Ok(Self { rows })
    }

    /// What is wrong with the rows that failed.
    pub fn faults(&self) -> Vec<String> {
        self.rows.iter().filter_map(Row::fault).collect()
    }

    pub fn markdown(&self) -> String {
        let mut text = "Nanoseconds a call before and after, and the ratio after / before: medians of the faster half of the rounds, and the quartiles of their ratios.\n".to_string();
        let mut last = "";
        for row in &self.rows {
            let (call, arm) = parts(&row.name);
            let title = arm.unwrap_or("functions on numbers");
            if title != last {
                let head = "before | after | ratio | quartiles |\n|---|---|---|---|---|";
                let _ = writeln!(text, "\n| {title} | {head}");
                last = title;
            }
            let [[_, _, low], [before, after, ratio], [_, _, high]] = row.quarters();
            let _ = writeln!(
                text,
                "| {call} | {before:.1} | {after:.1} | {ratio:.3} | {low:.3} to {high:.3} |"
            );
        }
        let faults = self.faults();
        let (failed, passed) = (faults.len(), self.rows.len() - faults.len());
        for fault in faults {
            let _ = write!(text, "\n{fault}");
        }
        text + &format!("\n{passed} passed, {failed} failed\n")
    }
}

#[cfg(test)]
mod tests {
    use super::*;

    #[test]
    fn a_round_is_read_again() {
        let round = Round {
            times: [0.1, 2.5e9, 1.0 / 3.0],
            same: false,
        };
        let line = line("load, 4 x 4 joints", &round);
        assert_eq!(read(&line), Some(("load, 4 x 4 joints", round)));
        for text in ["", "1 2 3 true", "1 2 x true sin", "1 2 3 yes sin"] {
            assert!(read(text).is_none() && (text.is_empty() || Ratios::of(text).is_err()));
        }
    }

    #[test]
    fn the_faster_half_counts() {
        let text = "9 9 1 true sin\n2 4 2 true sin\n8 24 3 true sin\n1 1 1 true cos\n1 1 1 true load, 2 joints\n1 1 1 false load, 2 joints\n";
        let ratios = Ratios::of(text).expect("rounds");
        let text = ratios.markdown();
        assert!(text.contains("| functions on numbers | before |"));
        assert!(text.contains("\n| sin | 5.5 | 6.5 | 1.500 | 1.250 to 1.750 |\n| cos | 1.0 |"));
        assert!(text.contains("\n\n| 2 joints | before |"));
        assert!(text.contains("\nsin: 1.500 is over 1.05\n"));
        assert!(text.contains("\nload, 2 joints: the builds answer differently\n"));
        assert!(text.ends_with("\n1 passed, 2 failed\n"));
    }
}
