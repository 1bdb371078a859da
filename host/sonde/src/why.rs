//! Which value broke which range. The library says the number; this finds, for
//! that number, the first value in the file that the scope paper's sentence for
//! it does not allow. It decides nothing: where it finds none, the number and
//! its words stand alone.

use crate::text::{Chain, File, Link, Row};
use relaxed_ik::{Refusal, MOST_SLIDE, MOST_TURN, WEIGHTS};
use std::slice;

/// A line of the file, if it is one, and what is wrong there.
type Place = (Option<usize>, String);

fn at(line: usize, words: String) -> Option<Place> {
    Some((Some(line), words))
}

/// NaN is within no range.
fn within(v: f64, low: f64, high: f64) -> bool {
    low <= v && v <= high
}

/// The squares' sum, w first, each step rounded.
fn squares(q: &[f64]) -> f64 {
    q[0] * q[0] + q[1] * q[1] + q[2] * q[2] + q[3] * q[3]
}

const LEAST_SQUARES: f64 = 0.999999999;
const MOST_SQUARES: f64 = 1.000000001;

pub fn find(refusal: Refusal, file: &File) -> Option<Place> {
    match refusal {
        Refusal::Sizes => sizes(file),
        Refusal::Lengths => lengths(file),
        Refusal::Code => code(file),
        Refusal::Count => count(file),
        Refusal::Limits => limits(file),
        Refusal::Link => links(file),
        Refusal::Joints => blocks(file),
        Refusal::Goals => goals(file),
        Refusal::Weights => weights(file),
        Refusal::Tool => tools(file),
        _ => None,
    }
}

fn sizes(file: &File) -> Option<Place> {
    let chains = file.chains.len();
    if chains == 0 {
        return Some((None, "the sheet has no chain".to_string()));
    }
    if let Some(fifth) = file.chains.get(4) {
        return at(fifth.line, format!("{chains} chains, at most 4 are taken"));
    }
    let wrong = |chain: &&Chain| !(1..=16).contains(&chain.links.len());
    let chain = file.chains.iter().find(wrong)?;
    let (name, links) = (&chain.name, chain.links.len());
    at(
        chain.line,
        format!("1 to 16 links are taken, chain {name} has {links}"),
    )
}

fn lengths(file: &File) -> Option<Place> {
    let mut links = file.links();
    let (chain, link_at, link) = links.find(|(_, _, link)| link.row.numbers.len() != 7)?;
    seven(
        &format!("link {link_at} of chain {}", chain.name),
        &link.row,
    )
}

/// A link's numbers or a tool's, if they are not seven.
fn seven(what: &str, row: &Row) -> Option<Place> {
    let found = row.numbers.len();
    if found == 7 {
        return None;
    }
    at(
        row.line,
        format!("{what} has {found} numbers, 7 are needed: displacement x y z, offset w i j k"),
    )
}

fn code(file: &File) -> Option<Place> {
    let listed = |code| matches!(code, 0 | 10..=16 | 20..=26 | 30..=36 | 40..=46);
    let mut links = file.links();
    let (chain, link_at, link) = links.find(|(_, _, link)| !listed(link.code))?;
    let (name, code) = (&chain.name, link.code);
    at(
        link.row.line,
        format!("link {link_at} of chain {name} has code {code}, which is not listed"),
    )
}

fn count(file: &File) -> Option<Place> {
    if let Some(chain) = file.chains.iter().find(|chain| chain.joints() < 2) {
        let (name, joints) = (&chain.name, chain.joints());
        return at(
            chain.line,
            format!("at least 2 joints are needed, chain {name} has {joints}"),
        );
    }
    let mut moving = file.links().filter(|(_, _, link)| link.code != 0);
    if let Some((_, _, link)) = moving.nth(16) {
        let all: usize = file.chains.iter().map(Chain::joints).sum();
        return at(
            link.row.line,
            format!("{all} joints in all, at most 16 are taken"),
        );
    }
    let first = file.chains.first()?.links.len();
    let mut later = file.chains.iter().skip(1);
    let chain = later.find(|chain| chain.joints() > first)?;
    let (name, joints) = (&chain.name, chain.joints());
    at(
        chain.line,
        format!("chain {name} has {joints} joints, more than the {first} links of the first chain"),
    )
}

fn limits(file: &File) -> Option<Place> {
    let joints: usize = file.chains.iter().map(Chain::joints).sum();
    for (joint, row) in file.limits.iter().enumerate() {
        let [lower, upper] = row.numbers[..] else {
            let found = row.numbers.len();
            return at(
                row.line,
                format!("a limits line of {found} numbers, 2 are needed, or the word free"),
            );
        };
        if lower == -999.0 && upper == 999.0 {
            continue;
        }
        for (name, v) in [("lower", lower), ("upper", upper)] {
            if !within(v, -100.0, 100.0) {
                return at(
                    row.line,
                    format!("joint {joint}: {name} limit {v} is not within -100..100"),
                );
            }
        }
        let apart = upper - lower;
        // Not the other way round: a NaN is met above.
        if apart < 0.001 {
            return at(
                row.line,
                format!("joint {joint}: upper - lower is {apart}, which is under 0.001"),
            );
        }
    }
    let found = file.limits.len();
    (found != joints).then(|| {
        let line = file.limits.last().map(|row| row.line);
        (
            line,
            format!("a limits line for each of {joints} joints is needed, the sheet has {found}"),
        )
    })
}

fn links(file: &File) -> Option<Place> {
    let mut links = file.links();
    links.find_map(|(chain, link_at, link)| {
        ranged(
            &format!("link {link_at} of chain {}", chain.name),
            &link.row,
        )
    })
}

/// The first of a link's seven numbers or a tool's that is out of range.
fn ranged(what: &str, row: &Row) -> Option<Place> {
    for (axis, v) in ["x", "y", "z"].iter().zip(&row.numbers) {
        if !within(*v, -10.0, 10.0) {
            return at(
                row.line,
                format!("{what}: displacement {axis} is {v}, not within -10..10"),
            );
        }
    }
    let sum = squares(row.numbers.get(3..7)?);
    if within(sum, LEAST_SQUARES, MOST_SQUARES) {
        return None;
    }
    at(
        row.line,
        format!("{what}: the squares of its offset sum to {sum}, not within {LEAST_SQUARES}..{MOST_SQUARES}"),
    )
}

fn values(rows: &[Row]) -> impl Iterator<Item = (usize, f64)> + '_ {
    let lined = |row: &Row| {
        let line = row.line;
        let numbers = row.numbers.clone();
        numbers.into_iter().map(move |v| (line, v))
    };
    rows.iter().flat_map(lined)
}

/// A joint's value, if it is not within the range of the joint's kind.
fn beyond(joint: usize, link: &Link, v: f64) -> Option<String> {
    let kind = link.kind()?;
    let most = match link.code / 10 {
        1 | 2 => MOST_TURN,
        _ => MOST_SLIDE,
    };
    (!within(v, -most, most)).then(|| {
        format!("joint {joint} is {v}, not within -{most}..{most}, the range of a {kind} joint")
    })
}

/// The first value of a block that is so, with its line.
fn beyond_in(file: &File, block: &[Row]) -> Option<(usize, String)> {
    let moving = file.links().filter(|(_, _, link)| link.code != 0);
    let mut joints = moving.zip(values(block)).enumerate();
    joints.find_map(|(joint, ((_, _, link), (line, v)))| Some((line, beyond(joint, link, v)?)))
}

fn blocks(file: &File) -> Option<Place> {
    let joints: usize = file.chains.iter().map(Chain::joints).sum();
    let last = |rows: &[Row]| rows.last().map(|row| row.line);
    let found = values(&file.joints).count();
    if found != joints {
        let words = format!("a value for each of {joints} joints is needed, the sheet has {found}");
        return Some((last(&file.joints), words));
    }
    if let Some((line, words)) = beyond_in(file, &file.joints) {
        return at(line, words);
    }
    if file.history.is_empty() {
        return None;
    }
    for (block, row) in file.history.iter().enumerate() {
        let found = row.numbers.len();
        if found != joints {
            return at(
                row.line,
                format!("a value for each of {joints} joints is needed, history block {block} has {found}"),
            );
        }
        if let Some((line, words)) = beyond_in(file, slice::from_ref(row)) {
            return at(line, format!("history block {block}: {words}"));
        }
    }
    let found = file.history.len();
    (found != 4).then(|| {
        (
            last(&file.history),
            format!("4 history lines are needed, the sheet has {found}"),
        )
    })
}

fn goals(file: &File) -> Option<Place> {
    for (goal_at, row) in file.goals.iter().enumerate() {
        let found = row.numbers.len();
        let Some(chain) = file.chains.get(goal_at) else {
            return at(row.line, "a goal more than there are chains".to_string());
        };
        let name = &chain.name;
        if found != 13 {
            return at(
                row.line,
                format!("the goal of chain {name} has {found} numbers, 13 are needed: position x y z, rotation w i j k, six tolerances"),
            );
        }
        let parts = ["x", "y", "z"].iter().zip(&row.numbers);
        for (axis, v) in parts {
            if !within(*v, -100.0, 100.0) {
                return at(
                    row.line,
                    format!(
                        "the goal of chain {name}: position {axis} is {v}, not within -100..100"
                    ),
                );
            }
        }
        let sum = squares(&row.numbers[3..7]);
        if !within(sum, LEAST_SQUARES, MOST_SQUARES) {
            return at(
                row.line,
                format!("the goal of chain {name}: the squares of its rotation sum to {sum}, not within {LEAST_SQUARES}..{MOST_SQUARES}"),
            );
        }
        for (at_, v) in row.numbers[7..].iter().enumerate() {
            if !within(*v, -100.0, 100.0) {
                return at(
                    row.line,
                    format!(
                        "the goal of chain {name}: tolerance {at_} is {v}, not within -100..100"
                    ),
                );
            }
        }
    }
    let (found, chains) = (file.goals.len(), file.chains.len());
    (found != chains).then(|| {
        let line = file.goals.last().map(|row| row.line);
        (
            line,
            format!("a goal line for each of {chains} chains is needed, the sheet has {found}"),
        )
    })
}

fn weights(file: &File) -> Option<Place> {
    let row = file.weights.as_ref()?;
    let (needed, found) = (WEIGHTS.len(), row.numbers.len());
    if found != needed {
        let names = WEIGHTS.join(", ");
        return at(
            row.line,
            format!("a weights line of {found} numbers, {needed} are needed: {names}"),
        );
    }
    let mut named = WEIGHTS.iter().zip(&row.numbers);
    let (name, v) = named.find(|(_, v)| !within(**v, 0.0, 1000.0))?;
    at(
        row.line,
        format!("the weight of {name} is {v}, not within 0..1000"),
    )
}

fn tools(file: &File) -> Option<Place> {
    file.tools().find_map(|(_, chain, row)| {
        let what = format!("the tool of chain {}", chain.name);
        seven(&what, row).or_else(|| ranged(&what, row))
    })
}
