//! A sheet worked out again: everything but the direction is the library's.

use crate::text::{same, Figure, File, Filed, Key, Lists, TextFault};
use crate::why;
use relaxed_ik::{Frames, ObjectiveList, Plan, Pose, Refusal};

/// Whether this program was built with the objective.
pub const HAS_OBJECTIVE: bool = cfg!(feature = "objective");

/// Under this, the horizontal part of the axis says nothing of an azimuth.
const LEAST_HORIZONTAL: f64 = 1e-9;

/// Where the end frame's z axis points. Not the library's: from the proved
/// rotation, with the standard library's `hypot` and `atan2`, so its last bits
/// may differ from one system to another.
#[derive(Clone, Copy, Debug, PartialEq)]
pub struct Direction {
    pub axis: [f64; 3],
    /// Degrees clockwise from north (+y), east being +x; none if the axis is
    /// vertical.
    pub azimuth: Option<f64>,
    /// Degrees from straight down.
    pub inclination: f64,
}

impl Direction {
    fn of(end: &Pose) -> Self {
        let axis = end.rotate([0.0, 0.0, 1.0]);
        let [east, north, up] = axis;
        let horizontal = east.hypot(north);
        let azimuth = (horizontal > LEAST_HORIZONTAL).then(|| {
            let degrees = east.atan2(north).to_degrees();
            // Adding a turn to a tiny negative angle rounds to the turn itself.
            let positive = if degrees < 0.0 {
                degrees + 360.0
            } else {
                degrees
            };
            if positive >= 360.0 {
                0.0
            } else {
                positive
            }
        });
        Self {
            axis,
            azimuth,
            inclination: horizontal.atan2(-up).to_degrees(),
        }
    }
}

/// Where a chain is to go.
#[derive(Clone, Copy, Debug)]
pub struct Goal {
    pub position: [f64; 3],
    /// Of the position, and 0 in the strict list, where they count for nothing.
    pub tolerances: [f64; 3],
}

impl Goal {
    fn of(numbers: &[f64], list: ObjectiveList) -> Self {
        Self {
            position: [numbers[0], numbers[1], numbers[2]],
            tolerances: match list {
                ObjectiveList::Tolerance => [numbers[7], numbers[8], numbers[9]],
                ObjectiveList::Strict => [0.0; 3],
            },
        }
    }
}

#[derive(Clone, Debug)]
pub struct ChainWork {
    pub name: String,
    pub codes: Vec<u16>,
    pub joints: usize,
    pub end: Pose,
    pub direction: Direction,
    pub frames: Frames,
    pub goal: Option<Goal>,
    /// Displacement, then offset w first, if the chain has one. Its tip is then the end.
    pub tool: Option<Vec<f64>>,
}

impl ChainWork {
    /// Where the last link ends.
    pub fn flange(&self) -> [f64; 3] {
        let last = self.frames.positions.last();
        *last.expect("a base, if nothing else")
    }
}

#[derive(Clone, Debug, PartialEq)]
pub struct Slopes {
    pub value: f64,
    pub slopes: Vec<f64>,
}

#[derive(Clone, Debug)]
pub struct Work {
    pub chains: Vec<ChainWork>,
    pub manipulability: f64,
    /// None without goals, and where the program was built without it.
    pub objective: Option<Slopes>,
    pub checks: Vec<Check>,
}

/// A filed figure held against the one worked out again.
#[derive(Clone, Debug)]
pub struct Check {
    pub filed: Filed,
    pub verdict: Verdict,
}

#[derive(Clone, Debug, PartialEq)]
pub enum Verdict {
    Agrees,
    /// With what came out.
    Differs(String),
    /// The program was built without the objective.
    NotChecked,
}

/// Why a sheet could not be worked out.
#[derive(Clone, Debug, PartialEq)]
pub enum Fault {
    Text(TextFault),
    Refused {
        refusal: Refusal,
        line: Option<usize>,
        words: String,
    },
}

impl Fault {
    fn refused(refusal: Refusal, file: &File) -> Self {
        let (line, words) = why::find(refusal, file)
            .unwrap_or_else(|| (None, "no single value is at fault".to_string()));
        Self::Refused {
            refusal,
            line,
            words,
        }
    }
}

impl Work {
    /// Chains with a tool.
    pub fn tools(&self) -> usize {
        self.chains
            .iter()
            .filter(|chain| chain.tool.is_some())
            .count()
    }

    pub fn count(&self, wanted: impl Fn(&Verdict) -> bool) -> usize {
        let verdicts = self.checks.iter().map(|check| &check.verdict);
        verdicts.filter(|verdict| wanted(verdict)).count()
    }

    pub fn differing(&self) -> usize {
        self.count(|verdict| matches!(verdict, Verdict::Differs(_)))
    }

    pub fn first_differing(&self) -> Option<usize> {
        let mut checks = self.checks.iter();
        let first = checks.find(|check| matches!(check.verdict, Verdict::Differs(_)));
        first.map(|check| check.filed.line)
    }

    fn check(&self, filed: &Filed) -> Verdict {
        let exact = match filed.key {
            Key::End(chain, part) => part_of(&self.chains[chain].end, part),
            Key::Manipulability => self.manipulability,
            Key::Objective | Key::Slope(_) => match (&self.objective, filed.key) {
                (None, _) => return Verdict::NotChecked,
                (Some(objective), Key::Slope(at)) => objective.slopes[at],
                (Some(objective), _) => objective.value,
            },
            Key::Azimuth(chain) => {
                return degrees(self.chains[chain].direction.azimuth, &filed.figure)
            }
            Key::Inclination(chain) => {
                let inclination = self.chains[chain].direction.inclination;
                return degrees(Some(inclination), &filed.figure);
            }
        };
        match filed.figure {
            Figure::Exact(figure) if same(figure, exact) => Verdict::Agrees,
            _ => Verdict::Differs(with_bits(exact)),
        }
    }
}

/// A float as the sheets write it.
pub fn with_bits(v: f64) -> String {
    format!("{v} {:016x}", v.to_bits())
}

pub fn part_of(end: &Pose, part: usize) -> f64 {
    match part {
        0..=2 => end.position[part],
        _ => end.rotation[part - 3],
    }
}

/// An angle agrees if it rounds to what was filed; 360 is 0.
fn degrees(computed: Option<f64>, figure: &Figure) -> Verdict {
    let turn = |text: String| match text.strip_prefix("360") {
        Some(rest) if rest.bytes().all(|b| b == b'0' || b == b'.') => format!("0{rest}"),
        _ => text,
    };
    match (computed, figure) {
        (None, Figure::None) => Verdict::Agrees,
        (None, _) => Verdict::Differs("none".to_string()),
        (Some(v), Figure::Rounded { text, decimals }) => {
            let rounded = turn(format!("{v:.decimals$}"));
            if rounded == turn(text.clone()) {
                Verdict::Agrees
            } else {
                Verdict::Differs(rounded)
            }
        }
        (Some(v), _) => Verdict::Differs(format!("{v:.4}")),
    }
}

/// By the weights of the lists, or the built-in ones if they have none, at the tips
/// of their tools and by the list of objectives that is picked.
#[cfg(feature = "objective")]
fn objective(lists: &Lists, history: &[f64]) -> Result<Option<Slopes>, Refusal> {
    let given = relaxed_ik::Given {
        sheet: lists.sheet(),
        goals: &lists.goals,
        history,
        weights: &lists.weights,
        tools: lists.tools(),
        list: lists.list,
    };
    let (found, _) = given.gradient_one_block(&lists.joints)?;
    Ok(Some(Slopes {
        value: found.value,
        slopes: found.slopes,
    }))
}

#[cfg(not(feature = "objective"))]
fn objective(_: &Lists, _: &[f64]) -> Result<Option<Slopes>, Refusal> {
    Ok(None)
}

/// Has everything looked at that a sheet may be without.
fn looked_at(file: &File, lists: &Lists) -> Result<(), Refusal> {
    let sheet = lists.sheet();
    if !file.history.is_empty() {
        sheet.update(&lists.history, &lists.joints)?;
    }
    if !file.goals.is_empty() {
        sheet.set_goals(&lists.goals)?;
    }
    // A line of no number is not the same as no line, which the calls that use weights
    // and tools cannot tell.
    if file.weights.is_some() {
        relaxed_ik::set_weights(&lists.weights)?;
    }
    for (chain, _, tool) in file.tools() {
        sheet.set_tool(chain as u32, &tool.numbers)?;
    }
    Ok(())
}

/// Asks the library for everything. Its calls look at everything they are lent,
/// lowest number first, and are asked in the order of their own numbers: the
/// sheet, joints and history, goals, weights, tools.
fn answered(file: &File, lists: &Lists) -> Result<Work, Refusal> {
    let sheet = lists.sheet();
    sheet.load()?;
    let frames = sheet.frames(&lists.joints)?;
    let manipulability = sheet.manipulability(&lists.joints)?;
    looked_at(file, lists)?;
    let ends = sheet.poses(lists.tools(), &lists.joints)?;
    let history = match file.history.is_empty() {
        true => sheet.reset(lists.tools(), &lists.joints)?.history,
        false => lists.history.clone(),
    };
    let objective = match file.goals.is_empty() {
        true => None,
        false => objective(lists, &history)?,
    };
    let parts = file.chains.iter().zip(ends).zip(frames).enumerate();
    let chains = parts.map(|(at, ((chain, end), frames))| ChainWork {
        name: chain.name.clone(),
        codes: chain.links.iter().map(|link| link.code).collect(),
        joints: chain.joints(),
        direction: Direction::of(&end),
        end,
        frames,
        goal: file
            .goals
            .get(at)
            .map(|row| Goal::of(&row.numbers, lists.list)),
        tool: chain.tool.as_ref().map(|row| row.numbers.clone()),
    });
    Ok(Work {
        chains: chains.collect(),
        manipulability,
        objective,
        checks: Vec::new(),
    })
}

/// The sheet worked out, and every filed figure held against it.
pub fn work(file: &File) -> Result<Work, Fault> {
    if let Some(uneven) = file.uneven() {
        return Err(Fault::Text(uneven));
    }
    let lists = file.lists();
    let mut work = answered(file, &lists).map_err(|refusal| Fault::refused(refusal, file))?;
    let joints = lists.sheet().joints();
    let beyond = |filed: &&Filed| matches!(filed.key, Key::Slope(at) if at >= joints);
    if let Some(filed) = file.filed.iter().find(beyond) {
        return Err(Fault::Text(TextFault {
            line: Some(filed.line),
            words: format!("{} is filed of {joints} joints, counted from 0", filed.name),
        }));
    }
    let checks = file.filed.iter().map(|filed| Check {
        filed: filed.clone(),
        verdict: work.check(filed),
    });
    work.checks = checks.collect();
    Ok(work)
}

/// Asks the library how long the lists are, and how many objectives the list has
/// that is picked. Nothing but the arms is looked at.
pub fn plan(file: &File) -> Result<Plan, Fault> {
    let arms = file.arms();
    if let Some(uneven) = arms.uneven() {
        return Err(Fault::Text(uneven));
    }
    let lists = arms.lists();
    let plan = lists.sheet().plan(lists.list);
    plan.map_err(|refusal| Fault::refused(refusal, &arms))
}

#[cfg(test)]
mod tests {
    use super::*;
    use crate::text::parse;

    fn at(rotation: [f64; 4]) -> Direction {
        Direction::of(&Pose {
            position: [0.0; 3],
            rotation,
        })
    }

    /// The end frame turned about one axis by a quarter or a half.
    #[test]
    fn directions() {
        let h = 0.5f64.sqrt();
        for (rotation, azimuth, inclination) in [
            ([1.0, 0.0, 0.0, 0.0], None, 180.0),
            ([0.0, 1.0, 0.0, 0.0], None, 0.0),
            ([h, 0.0, h, 0.0], Some(90.0), 90.0),
            ([h, 0.0, -h, 0.0], Some(270.0), 90.0),
            ([h, -h, 0.0, 0.0], Some(0.0), 90.0),
            ([h, h, 0.0, 0.0], Some(180.0), 90.0),
        ] {
            let direction = at(rotation);
            let near = |a: f64, b: f64| (a - b).abs() < 1e-9 || (a - b).abs() > 360.0 - 1e-9;
            assert!(near(direction.inclination, inclination), "{direction:?}");
            match (direction.azimuth, azimuth) {
                (Some(a), Some(b)) => assert!(near(a, b), "{direction:?}"),
                (a, b) => assert_eq!(a, b, "{direction:?}"),
            }
        }
    }

    /// Always 0 or more and under 360.
    #[test]
    fn an_azimuth_is_under_a_turn() {
        for tilt in [1e-17, -1e-17, 1e-8, -1e-8] {
            let h = 0.5f64.sqrt();
            let azimuth = at([h, -h, tilt, tilt]).azimuth.unwrap();
            assert!((0.0..360.0).contains(&azimuth), "{azimuth}");
        }
    }

    #[test]
    fn degrees_agree_when_they_round_to_what_is_filed() {
        let filed = |text: &str| Figure::Rounded {
            text: text.to_string(),
            decimals: text.split_once('.').map_or(0, |(_, d)| d.len()),
        };
        assert_eq!(degrees(Some(12.344), &filed("12.34")), Verdict::Agrees);
        assert_eq!(degrees(Some(359.999), &filed("0.00")), Verdict::Agrees);
        assert_eq!(degrees(Some(0.0), &filed("360.0")), Verdict::Agrees);
        assert_eq!(degrees(None, &Figure::None), Verdict::Agrees);
        let differs = Verdict::Differs("12.35".to_string());
        assert_eq!(degrees(Some(12.346), &filed("12.34")), differs);
        assert_ne!(degrees(None, &filed("12.34")), Verdict::Agrees);
        assert_ne!(degrees(Some(1.0), &Figure::None), Verdict::Agrees);
    }

    const TWO: &str = "\
sonde 1
chain arm
link revolute z  0 0 1  1 0 0 0
link revolute y  0 0 1  1 0 0 0
limits -3 3
limits -3 3
joints 0 0
goal 0 0 2  1 0 0 0  0 0 0 0 0 0
filed arm.z 2 4000000000000000
";

    fn spoiled(good: &str, bad: &str) -> File {
        let text = TWO.replacen(good, bad, 1);
        assert_ne!(text, TWO);
        parse(text.as_bytes()).unwrap()
    }

    fn told(fault: Fault) -> (u32, Option<usize>, String) {
        match fault {
            Fault::Refused {
                refusal,
                line,
                words,
            } => (refusal.number(), line, words),
            Fault::Text(fault) => panic!("{fault}"),
        }
    }

    #[test]
    fn a_filed_figure_agrees_or_differs() {
        let found = work(&parse(TWO.as_bytes()).unwrap()).unwrap();
        assert_eq!((found.differing(), found.checks.len()), (0, 1));
        let off = TWO.replace("2 4000000000000000", "0x4000000000000001 4000000000000001");
        let found = work(&parse(off.as_bytes()).unwrap()).unwrap();
        assert_eq!(found.differing(), 1);
        let came = Verdict::Differs("2 4000000000000000".to_string());
        assert_eq!(found.checks[0].verdict, came);
    }

    /// The end is the tip, and where the last link ends stays; a wrong tool is told
    /// behind everything else.
    #[test]
    fn a_tool_moves_the_end() {
        let found = work(&spoiled("joints", "tool 0.5 0 1  0 1 0 0\njoints")).unwrap();
        let chain = &found.chains[0];
        assert_eq!(chain.end.position, [0.5, 0.0, 3.0]);
        assert_eq!(chain.end.rotation, [0.0, 1.0, 0.0, 0.0]);
        assert_eq!(chain.flange(), [0.0, 0.0, 2.0]);
        assert_eq!(chain.direction.inclination, 0.0, "upside down");
        assert_eq!(found.differing(), 1, "arm.z is filed of the flange");
        for (number, words) in [
            (7, "joints 9"),
            (8, "joints 0 0\ngoal 1"),
            (10, "joints 0 0\nweights 1"),
        ] {
            let file = spoiled("joints 0 0", &format!("tool 1\n{words}"));
            assert_eq!(told(work(&file).unwrap_err()).0, number);
        }
    }

    /// A strict goal has no tolerance, but is refused for one as ever.
    #[test]
    fn strict_goals_have_no_tolerance() {
        let wide = |tolerances: &str, line: &str| {
            let goal = format!("0.1 0.2 1.9  1 0 0 0  {tolerances} 0 0 0\n{line}\n");
            work(&spoiled("0 0 2  1 0 0 0  0 0 0 0 0 0\n", &goal))
        };
        let drawn = |work: &Work| work.chains[0].goal.map(|goal| goal.tolerances);
        let figures = |work: &Work| work.objective.clone();
        for (line, strict) in [
            ("", false),
            ("goals tolerance", false),
            ("goals strict", true),
        ] {
            let [near, far] = ["0 0 0", "0.5 0.6 0.7"].map(|t| wide(t, line).unwrap());
            let expected = if strict { [0.0; 3] } else { [0.5, 0.6, 0.7] };
            assert_eq!(drawn(&far), Some(expected));
            if HAS_OBJECTIVE {
                assert_eq!(figures(&near) == figures(&far), strict, "{line}");
            }
            assert_eq!(told(wide("0 0 200", line).unwrap_err()).0, 8);
        }
    }

    /// Neither limits nor joints nor goals are asked for, nor looked at.
    #[test]
    fn arms_alone_have_a_plan() {
        let expected = Plan {
            positions: 9,
            rotations: 16,
            objectives: 12,
            entries: 5,
        };
        let arms: Vec<&str> = TWO.lines().take(4).collect();
        let odd = format!("{}\nlimits 1\nlimits 1 2 3\n", arms.join("\n"));
        for text in [TWO, &arms.join("\n"), &odd] {
            for (line, objectives) in [("", 12), ("goals tolerance", 12), ("goals strict", 8)] {
                let file = parse(format!("{text}\n{line}").as_bytes()).unwrap();
                let expected = Plan {
                    objectives,
                    ..expected
                };
                assert_eq!(plan(&file), Ok(expected), "{line}");
            }
        }
        // A line too long and one too short by as much, which no list shows.
        let uneven = odd.replace("z  0 0 1", "z  0 1").replace("y  0", "y  0 0");
        let fault = plan(&parse(uneven.as_bytes()).unwrap()).unwrap_err();
        assert!(matches!(
            fault,
            Fault::Text(TextFault { line: Some(3), .. })
        ));
    }

    /// A joint of this kind behind a fixed link, and this value for it in the joints or
    /// in a block of the history.
    fn placed(kind: &str, at: usize, v: f64) -> File {
        let words = ["joints", "history", "history", "history", "history"];
        let mut lines = words.map(|word| format!("{word} 64 0"));
        lines[at] = format!("{} 64 {v}", words[at]);
        let links = format!("link fixed 0 0 1  1 0 0 0\nlink {kind} y");
        let text = TWO.replace("link revolute y", &links);
        parse(text.replace("joints 0 0", &lines.join("\n")).as_bytes()).unwrap()
    }

    #[test]
    fn a_joint_is_told_the_range_of_its_kind() {
        for (kind, most) in [
            ("revolute", 64.0f64),
            ("continuous", 64.0),
            ("prismatic", 8.0),
            ("telescoping", 8.0),
        ] {
            for (at, sign) in (0..5).flat_map(|at| [(at, 1.0), (at, -1.0)]) {
                assert!(work(&placed(kind, at, sign * most)).is_ok(), "{kind}");
                let beyond = sign * most.next_up();
                let words = format!(
                    "joint 1 is {beyond}, not within -{most}..{most}, the range of a {kind} joint"
                );
                let words = match at {
                    0 => words,
                    _ => format!("history block {}: {words}", at - 1),
                };
                let found = told(work(&placed(kind, at, beyond)).unwrap_err());
                assert_eq!(found, (7, Some(8 + at), words));
            }
        }
    }

    /// The number is the library's, the line and the value are found here.
    #[test]
    fn the_value_at_fault_is_named() {
        let history = |rest: &str| format!("joints 0 0\nhistory {rest}");
        let block = "0 0\nhistory 0 0\nhistory 0 0\nhistory 0 ";
        for (good, bad, number, line, words) in [
            ("chain arm\n", "chain arm\nchain b\n", 1, 2, "has 0"),
            ("link revolute z  0", "link revolute z", 2, 3, "6 numbers"),
            ("revolute y", "code 37", 3, 4, "code 37"),
            ("revolute y", "fixed", 4, 2, "chain arm has 1"),
            ("limits -3 3\n", "", 5, 5, "the sheet has 1"),
            ("limits -3 3", "limits -3 nan", 5, 5, "upper limit NaN"),
            ("limits -3 3", "limits 1 1.001", 5, 5, "under 0.001"),
            ("0 0 1  1", "0 -11 1  1", 6, 3, "displacement y is -11"),
            ("0 0 1  1", "0 0 1  1.1", 6, 3, "sum to 1.21"),
            ("joints 0 0", "joints 0", 7, 7, "the sheet has 1"),
            ("joints 0 0", "joints 0 64.5", 7, 7, "joint 1 is 64.5"),
            ("joints 0 0", &history("0 0"), 7, 8, "the sheet has 1"),
            (
                "joints 0 0",
                &history(&format!("{block}99")),
                7,
                11,
                "block 3: joint 1 is 99",
            ),
            ("goal 0 0 2", "goal 0 0 101", 8, 8, "position z is 101"),
            ("goal 0 0 2", "goal 0 0", 8, 8, "12 numbers"),
            (
                "0 0 0 0 0 0\n",
                "0 0 0 0 0 -200\n",
                8,
                8,
                "tolerance 5 is -200",
            ),
            (
                "filed",
                "weights 1 1 1 1 1 1 1 1 1\nfiled",
                10,
                9,
                "9 numbers, 8",
            ),
            ("filed", "weights # none\nfiled", 10, 9, "0 numbers, 8"),
            (
                "filed",
                "weights 1 1000.5 1 1 1 1 1 1\nfiled",
                10,
                9,
                "the weight of rotation is 1000.5",
            ),
            (
                "filed",
                "weights 1 1 1 1 1 1 1 nan\nfiled",
                10,
                9,
                "the weight of pairs is NaN",
            ),
            (
                "joints",
                "tool 0 0 1\njoints",
                11,
                7,
                "arm has 3 numbers, 7",
            ),
            (
                "joints",
                "tool # none\njoints",
                11,
                7,
                "arm has 0 numbers, 7",
            ),
            (
                "joints",
                "tool 0 0 10.5 1 0 0 0\njoints",
                11,
                7,
                "the tool of chain arm: displacement z is 10.5",
            ),
            (
                "joints",
                "tool 0 0 1 1 0 0 nan\njoints",
                11,
                7,
                "the tool of chain arm: the squares of its offset sum to NaN",
            ),
        ] {
            let file = spoiled(good, bad);
            let (found, at, said) = told(work(&file).unwrap_err());
            assert_eq!((found, at), (number, Some(line)), "{bad}: {said}");
            assert!(said.contains(words), "{said}");
            // Sizing tells the same of the arms, and looks at nothing else.
            match plan(&file) {
                Err(fault) => assert_eq!(told(fault), (found, at, said)),
                Ok(_) => assert!([5, 7, 8, 10, 11].contains(&number), "{bad}"),
            }
        }
        let far = format!("{TWO}filed slope.2 0 0000000000000000\n");
        let fault = work(&parse(far.as_bytes()).unwrap()).unwrap_err();
        assert!(matches!(
            fault,
            Fault::Text(TextFault { line: Some(10), .. })
        ));
        let empty = parse(b"sonde 1\njoints 0 0\n").unwrap();
        let fault = work(&empty).unwrap_err();
        assert!(matches!(
            fault,
            Fault::Refused {
                refusal: Refusal::Sizes,
                line: None,
                ..
            }
        ));
    }
}
