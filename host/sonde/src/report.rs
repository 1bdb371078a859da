//! What is said of a sheet: in words, or as JSON for programs.

use crate::text::{File, PARTS};
use crate::work::{part_of, with_bits, ChainWork, Check, Fault, Verdict, Work, HAS_OBJECTIVE};
use relaxed_ik::WEIGHTS;
use std::fmt::Write as _;

/// Exit statuses. A refused sheet ends with `REFUSED` plus its number.
pub const GOOD: u8 = 0;
pub const DIFFERS: u8 = 1;
pub const UNUSABLE: u8 = 2;
pub const TEXT_FAULT: u8 = 3;
pub const REFUSED: u8 = 10;

/// A sheet, whatever became of it.
pub struct Outcome {
    pub path: String,
    pub result: Result<(File, Work), Problem>,
}

pub enum Problem {
    Unreadable(String),
    Fault(Fault),
}

impl Problem {
    pub fn status(&self) -> u8 {
        match self {
            Self::Unreadable(_) => UNUSABLE,
            Self::Fault(Fault::Text(_)) => TEXT_FAULT,
            // The numbers are 1 to 11.
            Self::Fault(Fault::Refused { refusal, .. }) => REFUSED + refusal.number() as u8,
        }
    }

    pub fn word(&self) -> &'static str {
        match self {
            Self::Unreadable(_) => "unreadable",
            Self::Fault(Fault::Text(_)) => "text fault",
            Self::Fault(Fault::Refused { .. }) => "refused",
        }
    }

    /// The line of the file that is at fault.
    pub fn line(&self) -> Option<usize> {
        match self {
            Self::Unreadable(_) => None,
            Self::Fault(Fault::Text(fault)) => fault.line,
            Self::Fault(Fault::Refused { line, .. }) => *line,
        }
    }

    /// On one line.
    pub fn note(&self) -> String {
        match self {
            Self::Unreadable(words) => words.clone(),
            Self::Fault(Fault::Text(fault)) => fault.to_string(),
            Self::Fault(Fault::Refused {
                refusal,
                line,
                words,
            }) => {
                let place = line.map_or(String::new(), |line| format!("line {line}: "));
                format!("{place}refused, {}: {words}", refusal.number())
            }
        }
    }

    pub fn text(&self, path: &str) -> String {
        let mut out = format!("{path}: {}\n", self.note());
        if let Self::Fault(Fault::Refused { refusal, .. }) = self {
            let _ = writeln!(out, "  taken are {}", refusal.words());
        }
        out
    }

    pub fn json(&self, path: &str) -> String {
        let mut fields = head_json(path, self.word(), self.status(), self.line());
        fields.push(("fault", problem_json(self)));
        object(&fields)
    }
}

impl Outcome {
    pub fn status(&self) -> u8 {
        match &self.result {
            Ok((_, work)) if work.differing() > 0 => DIFFERS,
            Ok(_) => GOOD,
            Err(problem) => problem.status(),
        }
    }

    /// A few words for the table and for programs.
    pub fn word(&self) -> &'static str {
        match &self.result {
            Ok((_, work)) if work.differing() > 0 => "differs",
            Ok((_, work)) if work.checks.is_empty() => "calculated",
            Ok((_, work)) if work.count(|v| *v == Verdict::NotChecked) > 0 => "agrees in part",
            Ok(_) => "agrees",
            Err(problem) => problem.word(),
        }
    }

    /// The line of the file that is at fault, or that has the first figure to
    /// differ.
    pub fn line(&self) -> Option<usize> {
        match &self.result {
            Ok((_, work)) => work.first_differing(),
            Err(problem) => problem.line(),
        }
    }

    /// What is wrong, on one line.
    pub fn note(&self) -> String {
        match &self.result {
            Ok((_, work)) if work.differing() > 0 => {
                let names = work
                    .checks
                    .iter()
                    .filter(|check| matches!(check.verdict, Verdict::Differs(_)));
                let names: Vec<&str> = names.map(|check| check.filed.name.as_str()).collect();
                names.join(", ")
            }
            Ok(_) => String::new(),
            Err(problem) => problem.note(),
        }
    }

    pub fn text(&self) -> String {
        let (file, work) = match &self.result {
            Ok(done) => done,
            Err(problem) => return problem.text(&self.path),
        };
        let mut out = title(file, &self.path);
        for chain in &work.chains {
            chain_text(&mut out, chain);
        }
        let _ = writeln!(out, "\nthe sheet as a whole");
        line(&mut out, "manipulability", work.manipulability);
        out.push_str(&objective_text(file, work));
        let _ = writeln!(
            out,
            "\nPoses{} are the proved library's. Azimuth and inclination are\n\
             those of the end frame's z axis, worked out of the proved rotation with the\n\
             standard library's hypot and atan2.",
            if HAS_OBJECTIVE {
                ", manipulability, objective and slopes"
            } else {
                " and manipulability"
            }
        );
        out.push('\n');
        out.push_str(&filed_text(work));
        out
    }

    pub fn json(&self) -> String {
        let (file, work) = match &self.result {
            Ok(done) => done,
            Err(problem) => return problem.json(&self.path),
        };
        let mut fields = head_json(&self.path, self.word(), self.status(), self.line());
        fields.extend(work_json(file, work));
        object(&fields)
    }
}

/// The hole and the file that it is from.
pub fn title(file: &File, path: &str) -> String {
    let hole = if file.hole.is_empty() {
        "(no name)"
    } else {
        &file.hole
    };
    format!("{hole}, from {path}\n")
}

fn line(out: &mut String, name: &str, v: f64) {
    let _ = writeln!(out, "  {name:<16} {v:<24} {:016x}", v.to_bits());
}

/// A chain's end, its direction, and its tool.
fn chain_text(out: &mut String, chain: &ChainWork) {
    let (links, joints) = (chain.codes.len(), chain.joints);
    let end = match chain.tool {
        Some(_) => ", a tool; its end, the tool's tip",
        None => "; its end",
    };
    let _ = writeln!(
        out,
        "\nchain {}: {links} links, {joints} joints{end}",
        chain.name
    );
    for (part, name) in PARTS.iter().enumerate() {
        line(out, name, part_of(&chain.end, part));
    }
    let azimuth = match chain.direction.azimuth {
        Some(degrees) => format!("{degrees:.6} degrees clockwise from north"),
        None => "none, the axis is vertical".to_string(),
    };
    let _ = writeln!(out, "  {:<16} {azimuth}", "azimuth");
    let inclination = chain.direction.inclination;
    let _ = writeln!(
        out,
        "  {:<16} {inclination:.6} degrees from straight down",
        "inclination"
    );
    if chain.tool.is_some() {
        let _ = writeln!(out, "  {:<16} sheet", "tool");
    }
    for (name, v) in named_tool(chain) {
        line(out, &format!("  {name}"), v);
    }
}

/// Whose weights the objective was summed by; of no objective, nobody's.
pub fn weights_from(file: &File, work: &Work) -> Option<&'static str> {
    work.objective.as_ref()?;
    Some(match file.weights {
        Some(_) => "sheet",
        None => "built-in",
    })
}

/// By which list the goals were counted, if the sheet says; of no objective, by none.
pub fn goals_by(file: &File, work: &Work) -> Option<&'static str> {
    work.objective.as_ref()?;
    file.list_word()
}

/// The sheet's weights by name; of the built-in ones none, which are the library's.
fn named_weights(file: &File) -> impl Iterator<Item = (&'static str, f64)> + '_ {
    let numbers = file.weights.iter().flat_map(|row| &row.numbers);
    WEIGHTS.into_iter().zip(numbers.copied())
}

/// The tool by displacement and offset, named as the parts of an end pose; nothing of
/// a chain without one.
fn named_tool(chain: &ChainWork) -> impl Iterator<Item = (&'static str, f64)> + '_ {
    let numbers = chain.tool.iter().flatten();
    PARTS.into_iter().zip(numbers.copied())
}

fn objective_text(file: &File, work: &Work) -> String {
    let mut out = String::new();
    let (Some(objective), Some(from)) = (&work.objective, weights_from(file, work)) else {
        return match file.goals.is_empty() {
            true => "  no goals, so no objective\n".to_string(),
            false => "  the objective is not in this build\n".to_string(),
        };
    };
    line(&mut out, "objective", objective.value);
    for (joint, slope) in objective.slopes.iter().enumerate() {
        line(&mut out, &format!("slope {joint}"), *slope);
    }
    if let Some(word) = goals_by(file, work) {
        let _ = writeln!(out, "  {:<16} {word}", "goals");
    }
    let _ = writeln!(out, "  {:<16} {from}", "weights");
    for (name, v) in named_weights(file) {
        line(&mut out, &format!("  {name}"), v);
    }
    out
}

fn filed_text(work: &Work) -> String {
    let mut out = String::new();
    if work.checks.is_empty() {
        return "no figures are filed\n".to_string();
    }
    for check in &work.checks {
        if let Verdict::Differs(came) = &check.verdict {
            let filed = figure(check);
            let (line, name) = (check.filed.line, &check.filed.name);
            let _ = writeln!(
                out,
                "DIFFERS, line {line}: {name}\n  filed    {filed}\n  came out {came}"
            );
        }
    }
    let agree = work.count(|verdict| *verdict == Verdict::Agrees);
    let left = work.count(|verdict| *verdict == Verdict::NotChecked);
    let all = work.checks.len();
    let _ = write!(out, "filed figures: {agree} of {all} agree");
    if work.differing() > 0 {
        let _ = write!(out, ", {} differ", work.differing());
    }
    if left > 0 {
        let _ = write!(
            out,
            ", {left} not checked (the objective is not in this build)"
        );
    }
    out.push('\n');
    out
}

fn figure(check: &Check) -> String {
    use crate::text::Figure;
    match &check.filed.figure {
        Figure::Exact(v) => with_bits(*v),
        Figure::Rounded { text, .. } => text.clone(),
        Figure::None => "none".to_string(),
    }
}

// ---- JSON

pub fn string(text: &str) -> String {
    let mut out = String::from("\"");
    for c in text.chars() {
        match c {
            '"' => out.push_str("\\\""),
            '\\' => out.push_str("\\\\"),
            '\n' => out.push_str("\\n"),
            c if (c as u32) < 0x20 => {
                let _ = write!(out, "\\u{:04x}", c as u32);
            }
            c => out.push(c),
        }
    }
    out.push('"');
    out
}

pub fn object(fields: &[(&str, String)]) -> String {
    let fields = fields
        .iter()
        .map(|(name, v)| format!("{}:{v}", string(name)));
    format!("{{{}}}", fields.collect::<Vec<_>>().join(","))
}

fn array(items: impl Iterator<Item = String>) -> String {
    format!("[{}]", items.collect::<Vec<_>>().join(","))
}

/// JSON has no NaN and no infinity.
fn plain(v: f64) -> String {
    if v.is_finite() {
        v.to_string()
    } else {
        "null".to_string()
    }
}

fn float(v: f64) -> String {
    let bits = format!("{:016x}", v.to_bits());
    object(&[("value", plain(v)), ("bits", string(&bits))])
}

fn optional(text: Option<String>) -> String {
    text.unwrap_or_else(|| "null".to_string())
}

/// What a line of JSON begins with, whatever became of the sheet.
pub fn head_json(
    path: &str,
    word: &str,
    status: u8,
    line: Option<usize>,
) -> Vec<(&'static str, String)> {
    vec![
        ("sheet", string(path)),
        ("outcome", string(word)),
        ("status", status.to_string()),
        ("line", optional(line.map(|line| line.to_string()))),
    ]
}

fn work_json(file: &File, work: &Work) -> Vec<(&'static str, String)> {
    let slopes = work.objective.as_ref();
    let slopes = slopes.map(|found| array(found.slopes.iter().map(|v| float(*v))));
    let mut fields = vec![
        ("hole", string(&file.hole)),
        ("chains", array(work.chains.iter().map(chain_json))),
        ("manipulability", float(work.manipulability)),
        (
            "objective",
            optional(work.objective.as_ref().map(|found| float(found.value))),
        ),
        ("slopes", optional(slopes)),
    ];
    // As with tools: a sheet that picks no list is told as ever.
    fields.extend(goals_by(file, work).map(|word| ("goals", string(word))));
    fields.push(("weights", optional(weights_json(file, work))));
    fields.push(("filed", array(work.checks.iter().map(check_json))));
    fields
}

fn chain_json(chain: &ChainWork) -> String {
    let parts = PARTS.iter().enumerate();
    let end: Vec<_> = parts
        .map(|(part, name)| (*name, float(part_of(&chain.end, part))))
        .collect();
    let mut fields = vec![
        ("name", string(&chain.name)),
        ("links", chain.codes.len().to_string()),
        ("joints", chain.joints.to_string()),
        ("end", object(&end)),
        ("azimuth", optional(chain.direction.azimuth.map(plain))),
        ("inclination", plain(chain.direction.inclination)),
    ];
    // Only where there is one: a sheet without tools is told as ever.
    if chain.tool.is_some() {
        let tool: Vec<_> = named_tool(chain)
            .map(|(name, v)| (name, float(v)))
            .collect();
        fields.push(("tool", object(&tool)));
    }
    object(&fields)
}

fn check_json(check: &Check) -> String {
    let (verdict, came) = match &check.verdict {
        Verdict::Agrees => ("agrees", None),
        Verdict::Differs(came) => ("differs", Some(string(came))),
        Verdict::NotChecked => ("not checked", None),
    };
    object(&[
        ("figure", string(&check.filed.name)),
        ("line", check.filed.line.to_string()),
        ("verdict", string(verdict)),
        ("filed", string(&figure(check))),
        ("came_out", optional(came)),
    ])
}

fn weights_json(file: &File, work: &Work) -> Option<String> {
    let mut fields = vec![("from", string(weights_from(file, work)?))];
    fields.extend(named_weights(file).map(|(name, v)| (name, float(v))));
    Some(object(&fields))
}

fn problem_json(problem: &Problem) -> String {
    let (refusal, words) = match problem {
        Problem::Unreadable(words) => (None, words),
        Problem::Fault(Fault::Text(fault)) => (None, &fault.words),
        Problem::Fault(Fault::Refused { refusal, words, .. }) => (Some(refusal), words),
    };
    object(&[
        (
            "refusal",
            optional(refusal.map(|refusal| refusal.number().to_string())),
        ),
        ("words", string(words)),
        (
            "taken",
            optional(refusal.map(|refusal| string(refusal.words()))),
        ),
    ])
}

#[cfg(test)]
mod tests {
    use super::*;

    #[test]
    fn strings_are_escaped() {
        assert_eq!(string("a\"b\\c\n\u{1}é"), "\"a\\\"b\\\\c\\n\\u0001é\"");
    }

    #[test]
    fn floats_keep_their_bits() {
        let minus_zero = "{\"value\":-0,\"bits\":\"8000000000000000\"}";
        assert_eq!(float(-0.0), minus_zero);
        assert!(float(f64::NAN).starts_with("{\"value\":null,"));
    }
}
