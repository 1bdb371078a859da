//! Writes the sample hole sheets. The figures filed in the good ones are the
//! reference run's: this program knows neither the proved library nor `sonde`,
//! so a sheet that agrees is one more comparison of the two.

#![forbid(unsafe_code)]

mod samples;

use reference::spacetime::robot::Robot;
use reference::strict::Pick;
use reference::tools::{self, Tools};
use reference::{record, refusals, sheet, weights};
use samples::{Arms, Bad, Chain, Sample};
use sheet_text::{Text, PARTS};
use std::fs;
use std::path::Path;
use std::process::ExitCode;

const USAGE: &str = "\
sheets DIR [--check]

  DIR      the folder for good/, bad/ and arms/
  --check  writes nothing, and says whether the files are as they would be
           written; the last line is 'N passed, M failed'";

/// Azimuth and inclination in degrees of the frame's z axis, azimuth clockwise
/// from +y, inclination from straight down. With the standard library's
/// functions, and so only to a few decimals.
fn direction(q: &[f64]) -> (Option<f64>, f64) {
    let (w, i, j, k) = (q[0], q[1], q[2], q[3]);
    let east = 2.0 * (i * k + w * j);
    let north = 2.0 * (j * k - w * i);
    let up = 1.0 - 2.0 * (i * i + j * j);
    let horizontal = east.hypot(north);
    let azimuth = (horizontal > 1e-9).then(|| east.atan2(north).to_degrees().rem_euclid(360.0));
    (azimuth, horizontal.atan2(-up).to_degrees())
}

struct Lists {
    sizes: Vec<u16>,
    codes: Vec<u16>,
    floats: Vec<f64>,
    limits: Vec<f64>,
    /// By chain; an empty list for none.
    tools: [Vec<f64>; tools::TOOLS],
}

impl Lists {
    fn robot(&self) -> Robot {
        sheet::robot(&self.sizes, &self.codes, &self.floats, &self.limits)
    }

    fn tools(&self) -> Tools {
        tools::tools(&self.tools)
    }
}

fn lists(chains: &[Chain]) -> Lists {
    let mut sizes = vec![chains.len() as u16];
    sizes.extend(chains.iter().map(|chain| chain.links.len() as u16));
    let links = || chains.iter().flat_map(|chain| &chain.links);
    Lists {
        sizes,
        codes: links().map(|link| link.code).collect(),
        floats: links().flat_map(|link| link.floats).collect(),
        limits: links().filter_map(|link| link.limits).flatten().collect(),
        tools: std::array::from_fn(|at| {
            chains.get(at).map_or(Vec::new(), |c| c.own_tool().to_vec())
        }),
    }
}

/// Goals where the arm would be at other joints.
fn goals(sample: &Sample, lists: &Lists) -> Vec<f64> {
    let Some((joints, tolerances)) = &sample.goal else {
        return Vec::new();
    };
    let ends = tools::ends(&lists.robot(), &lists.tools(), joints);
    let goals = ends.chunks_exact(7);
    goals
        .flat_map(|end| [end, &tolerances[..]].concat())
        .collect()
}

/// Whether the scope paper takes the sheet, by the reference's own refusals.
fn taken(sample: &Sample, lists: &Lists, goals: &[f64], history: &[f64]) -> bool {
    let joints = &sample.joints;
    let list = refusals::List::of;
    let sheet = refusals::Sheet {
        sizes: refusals::List::of(&lists.sizes),
        codes: refusals::List::of(&lists.codes),
        floats: list(&lists.floats),
        limits: list(&lists.limits),
    };
    let room = refusals::Room::of(1);
    let tools = lists.tools.each_ref().map(|tool| list(tool));
    if goals.is_empty() {
        let ends = refusals::Room::of(sheet::END_FLOATS * sample.chains.len());
        return refusals::pose(&sheet, &tools, list(joints), ends) == refusals::ACCEPTED;
    }
    let given = refusals::Given {
        sheet,
        goals: list(goals),
        history: list(history),
        weights: list(sample.own_weights()),
        tools,
    };
    refusals::objective(&given, list(joints), room) == refusals::ACCEPTED
}

/// The text of a good sheet.
fn good(sample: &Sample) -> String {
    let lists = lists(&sample.chains);
    let goals = goals(sample, &lists);
    let joints = &sample.joints;
    let history = match &sample.history {
        Some(blocks) => blocks.concat(),
        None => joints.repeat(4),
    };
    assert!(
        taken(sample, &lists, &goals, &history),
        "{}: the sample is refused",
        sample.file
    );
    let mut text = Text::default();
    text.comment(sample.about);
    text.start();
    text.line(&format!("hole {}", sample.hole));
    sample.chains.iter().for_each(|one| chain(&mut text, one));
    text.line("");
    text.numbers("joints", joints);
    for block in sample.history.iter().flatten() {
        text.numbers("history", block);
    }
    for goal in goals.chunks_exact(13) {
        text.numbers("goal", goal);
    }
    goals_line(&mut text, sample.pick);
    if let Some(weights) = &sample.weights {
        text.numbers("weights", weights);
    }
    if sample.filed {
        text.line("");
        file(&mut text, sample, &lists, &goals, &history);
    }
    text.finish()
}

/// The tolerance list needs no line.
fn goals_line(text: &mut Text, pick: Pick) {
    if pick == Pick::Strict {
        text.strict_goals();
    }
}

/// Arms without limits or joints. The first line says what `sonde --sizes` is to
/// print: the lengths of the reference run's own lists.
fn arms(sample: &Arms) -> String {
    let lists = lists(&sample.chains);
    let robot = lists.robot();
    let joints = vec![0.0; robot.num_dofs];
    let (positions, rotations) = sheet::frames(&robot, &joints);
    let objectives = sample.pick.master(&robot.chain_lengths).objectives;
    let entries = record::record(&robot, &joints).links;
    let mut text = Text::default();
    text.comment(&format!(
        "expected: positions {}, rotations {}, objectives {}, entries {}",
        positions.len(),
        rotations.len(),
        objectives.len(),
        entries.len()
    ));
    text.start();
    text.line(&format!("hole {}", sample.hole));
    for chain in &sample.chains {
        text.chain(chain.name);
        let links = chain.links.iter();
        links.for_each(|link| text.link(link.code, &link.floats));
    }
    goals_line(&mut text, sample.pick);
    text.finish()
}

/// Each joint's limits follow its link, the tool comes last.
fn chain(text: &mut Text, chain: &Chain) {
    text.chain(chain.name);
    for link in &chain.links {
        text.link(link.code, &link.floats);
        if let Some(pair) = link.limits {
            text.limits(&pair);
        }
    }
    if let Some(tool) = &chain.tool {
        text.tool(tool);
    }
}

/// The reference run's figures.
fn file(text: &mut Text, sample: &Sample, lists: &Lists, goals: &[f64], history: &[f64]) {
    let (robot, tools) = (lists.robot(), lists.tools());
    let ends = tools::ends(&robot, &tools, &sample.joints);
    for (chain, end) in sample.chains.iter().zip(ends.chunks_exact(7)) {
        for (part, v) in PARTS.iter().zip(end) {
            text.filed(&format!("{}.{part}", chain.name), *v);
        }
    }
    text.filed(
        "manipulability",
        robot.get_manipulability_immutable(&sample.joints),
    );
    if !goals.is_empty() {
        let master = weights::master(sample.pick, &robot.chain_lengths, sample.own_weights());
        let master = tools::with_tools(sample.pick, master, &tools);
        let vars = sheet::lent(robot, goals, history);
        let (value, slopes) = master.gradient(&sample.joints, &vars);
        text.filed("objective", value);
        for (joint, slope) in slopes.iter().enumerate() {
            text.filed(&format!("slope.{joint}"), *slope);
        }
    }
    for (chain, end) in sample.chains.iter().zip(ends.chunks_exact(7)) {
        let (azimuth, inclination) = direction(&end[3..]);
        let azimuth = azimuth.map_or("none".to_string(), |v| format!("{v:.4}"));
        let name = chain.name;
        text.line(&format!("filed {name}.azimuth {azimuth}"));
        text.line(&format!("filed {name}.inclination {inclination:.4}"));
    }
}

/// Every file by its path below DIR.
fn files() -> Vec<(String, String)> {
    let goods = samples::good();
    let mut files = Vec::new();
    for sample in &goods {
        files.push((format!("good/{}.sheet", sample.file), good(sample)));
    }
    for sample in samples::arms() {
        files.push((format!("arms/{}.sheet", sample.file), arms(&sample)));
    }
    for bad in samples::bad() {
        let text = bad.text(&base(&bad, &goods));
        files.push((format!("bad/{}.sheet", bad.file), text));
    }
    files
}

/// The text of the good sheet that a bad one is made of.
fn base(bad: &Bad, goods: &[Sample]) -> String {
    let sample = goods.iter().find(|sample| sample.file == bad.good);
    good(sample.expect("the good sheet is there"))
}

fn write(folder: &Path) -> Result<String, String> {
    let files = files();
    for (name, text) in &files {
        let path = folder.join(name);
        let told = |error| format!("{}: {error}", path.display());
        if let Some(parent) = path.parent() {
            fs::create_dir_all(parent).map_err(told)?;
        }
        fs::write(&path, text).map_err(told)?;
    }
    Ok(format!("{} sheets written", files.len()))
}

fn check(folder: &Path) -> Result<String, String> {
    let (mut passed, mut failed) = (0, 0);
    for (name, text) in files() {
        if fs::read_to_string(folder.join(&name)).is_ok_and(|found| found == text) {
            passed += 1;
        } else {
            println!("{name}: not as it would be written");
            failed += 1;
        }
    }
    let line = format!("{passed} passed, {failed} failed");
    if failed == 0 {
        Ok(line)
    } else {
        Err(line)
    }
}

fn main() -> ExitCode {
    command_line::write_or_check(USAGE, write, check)
}

#[cfg(test)]
mod tests {
    use super::*;

    /// In some line behind the first, which every one has of its own.
    #[test]
    fn every_bad_sheet_has_its_fault() {
        let goods = samples::good();
        for bad in samples::bad() {
            let base = base(&bad, &goods);
            let text = bad.text(&base);
            let differs = text.lines().skip(1).ne(base.lines().skip(1));
            assert!(differs, "{}", bad.file);
        }
    }

    #[test]
    fn the_samples_in_the_repository_are_up_to_date() {
        let folder = Path::new(env!("CARGO_MANIFEST_DIR")).join("../../examples/sheets");
        for (name, text) in files() {
            let found = fs::read_to_string(folder.join(&name)).unwrap_or_default();
            assert!(
                found == text,
                "{name}: run `sheets examples/sheets` at the root"
            );
        }
    }
}
