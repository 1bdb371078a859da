//! The tables of docs/BENCHMARKS.md, made of the rows of one run.

use crate::timing::{Timed, REPETITIONS};
use std::fmt::Write as _;

/// Chains of so many joints show how the cost grows.
const GROWTH: [usize; 4] = [2, 4, 8, 16];
/// The arms that have a table of their own.
const ARMS: [&str; 5] = [
    "2 joints",
    "7 joints",
    "16 joints",
    "4 x 4 joints",
    "7 + 7 joints",
];

/// A row's function and its arm, if it is a call on one.
pub fn parts(name: &str) -> (&str, Option<&str>) {
    match name.rsplit_once(", ") {
        Some((call, arm)) if arm.ends_with(" joints") => (call, Some(arm)),
        _ => (name, None),
    }
}

/// Whether the row is more than a point of the growth.
pub fn has_table(name: &str) -> bool {
    parts(name).1.is_none_or(|arm| ARMS.contains(&arm))
}

pub fn markdown(timed: &[Timed]) -> String {
    let mut text = format!(
        "Nanoseconds a call, the fastest of {REPETITIONS} repetitions; their ratio; the quartiles of the ratio of neighbouring repetitions.\n"
    );
    for arm in ARMS {
        let rows = timed.iter().filter(|row| parts(&row.name).1 == Some(arm));
        table(&mut text, arm, rows);
    }
    let leaves = timed.iter().filter(|row| parts(&row.name).1.is_none());
    table(&mut text, "functions on numbers", leaves);
    text.push_str(&growth(timed));
    text.push_str(&beside_load(timed));
    text.push_str(&steadiness(timed));
    text
}

/// Says whether the run can be relied on.
fn steadiness(timed: &[Timed]) -> String {
    let steady = timed.iter().filter(|row| {
        let [low, high] = row.quartiles;
        high - low <= row.ratio() / 10.0
    });
    let (steady, all) = (steady.count(), timed.len());
    format!("\nIn {steady} of {all} rows the quartiles lie within a tenth of the ratio; the others were disturbed.\n")
}

fn table<'a>(text: &mut String, title: &str, rows: impl Iterator<Item = &'a Timed>) {
    let mut rows = rows.peekable();
    if rows.peek().is_none() {
        return;
    }
    let _ = writeln!(
        text,
        "\n| {title} | proved | reference | ratio | quartiles |\n|---|---|---|---|---|"
    );
    for row in rows {
        let (name, _) = parts(&row.name);
        let [low, high] = row.quartiles;
        let (proved, reference, ratio) = (row.proved, row.reference, row.ratio());
        let _ = writeln!(
            text,
            "| {name} | {proved:.1} | {reference:.1} | {ratio:.2} | {low:.2} to {high:.2} |"
        );
    }
}

/// The slope of the straight line that is nearest, by least squares, to the
/// logarithms: the power of the joints that the cost grows with.
fn power(costs: &[f64; GROWTH.len()]) -> f64 {
    let points = GROWTH.iter().zip(costs);
    let points: Vec<(f64, f64)> = points
        .map(|(&n, cost)| ((n as f64).ln(), cost.ln()))
        .collect();
    let count = points.len() as f64;
    let (sum_x, sum_y) = points
        .iter()
        .fold((0.0, 0.0), |(x, y), p| (x + p.0, y + p.1));
    let (middle_x, middle_y) = (sum_x / count, sum_y / count);
    let (above, below) = points.iter().fold((0.0, 0.0), |(above, below), (x, y)| {
        let step = x - middle_x;
        (above + step * (y - middle_y), below + step * step)
    });
    above / below
}

/// A row for each call that was timed at all the joint counts: what twice the
/// joints cost, and the power.
pub fn growth(timed: &[Timed]) -> String {
    let mut text = String::new();
    let first = format!("{} joints", GROWTH[0]);
    for row in timed {
        let (call, arm) = parts(&row.name);
        if arm != Some(&first) {
            continue;
        }
        let at = |joints: usize| {
            let name = format!("{call}, {joints} joints");
            timed.iter().find(|row| row.name == name)
        };
        let [Some(a), Some(b), Some(c), Some(d)] = GROWTH.map(at) else {
            continue;
        };
        let proved = [a, b, c, d].map(|row| row.proved);
        let reference = [a, b, c, d].map(|row| row.reference);
        let steps: Vec<String> = proved
            .windows(2)
            .map(|pair| format!("{:.2}", pair[1] / pair[0]))
            .collect();
        let (ours, theirs) = (power(&proved), power(&reference));
        let steps = steps.join(" | ");
        let _ = writeln!(text, "| {call} | {steps} | {ours:.2} | {theirs:.2} |");
    }
    if text.is_empty() {
        return text;
    }
    format!(
        "\nWhat twice the joints cost, in one chain, and the power of the joints that is nearest by least squares.\n\n\
         | growth | 2 to 4 joints | 4 to 8 | 8 to 16 | power | reference's |\n|---|---|---|---|---|---|\n{text}"
    )
}

/// What sizing takes beside a load of the same sheets, for each arm on which both
/// were timed.
pub fn beside_load(timed: &[Timed]) -> String {
    let mut text = String::new();
    for arm in ARMS {
        let of = |call: &str| {
            let name = format!("{call}, {arm}");
            timed.iter().find(|row| row.name == name)
        };
        if let (Some(load), Some(sizing)) = (of("load"), of("sizing")) {
            let (load, sizing) = (load.proved, sizing.proved);
            let ratio = sizing / load;
            let _ = writeln!(text, "| {arm} | {load:.1} | {sizing:.1} | {ratio:.2} |");
        }
    }
    if text.is_empty() {
        return text;
    }
    format!("\n| sizing beside load | load | sizing | sizing / load |\n|---|---|---|---|\n{text}")
}

#[cfg(test)]
mod tests {
    use super::*;

    fn row(name: &str, proved: f64, reference: f64) -> Timed {
        Timed {
            name: name.to_string(),
            proved,
            reference,
            quartiles: [0.1, 9.0],
        }
    }

    #[test]
    fn a_power_is_found_again() {
        for exponent in [0.0, 1.0, 2.5] {
            let costs = GROWTH.map(|n| 3.0 * (n as f64).powf(exponent));
            assert!((power(&costs) - exponent).abs() < 1e-12);
        }
    }

    #[test]
    fn names_are_taken_apart() {
        assert_eq!(parts("pose, 4 x 4 joints"), ("pose", Some("4 x 4 joints")));
        let leaf = "scaled_axis, one part a call";
        assert_eq!(parts(leaf), (leaf, None));
        assert!(has_table(leaf) && has_table("pose, 4 x 4 joints"));
        assert!(!has_table("pose, 4 joints"));
    }

    #[test]
    fn every_row_is_in_its_table() {
        let mut rows = vec![row("sin", 30.0, 60.0), row("pose, 7 joints", 5.0, 4.0)];
        rows.extend(GROWTH.map(|n| row(&format!("load, {n} joints"), (n * n) as f64, n as f64)));
        let text = markdown(&rows);
        assert!(text.contains("| sin | 30.0 | 60.0 | 0.50 | 0.10 to 9.00 |"));
        assert!(text.contains("| 7 joints | proved |"));
        assert!(text.contains("| pose | 5.0 | 4.0 | 1.25 | 0.10 to 9.00 |"));
        assert!(text.contains("| load | 4.00 | 4.00 | 4.00 | 2.00 | 1.00 |"));
        assert!(!text.contains("4 x 4"));
        assert!(text.contains("In 0 of 6 rows"));
        rows[0].quartiles = [0.49, 0.51];
        assert!(markdown(&rows).contains("In 1 of 6 rows"));
        assert!(growth(&rows[..2]).is_empty());
    }

    #[test]
    fn sizing_is_shown_beside_load() {
        let mut rows = vec![
            row("load, 7 joints", 10.0, 4.0),
            row("load, 2 joints", 9.0, 4.0),
        ];
        assert!(beside_load(&rows).is_empty());
        rows.push(row("sizing, 7 joints", 12.0, 900.0));
        let text = beside_load(&rows);
        assert!(text.ends_with("|---|\n| 7 joints | 10.0 | 12.0 | 1.20 |\n"));
        assert!(markdown(&rows).contains(&text));
    }
}
