//! The sample arms, and the ways in which the bad sheets are bad.

use reference::strict::Pick;

pub struct Link {
    pub code: u16,
    pub floats: [f64; 7],
    pub limits: Option<[f64; 2]>,
}

pub struct Chain {
    pub name: &'static str,
    pub links: Vec<Link>,
    pub tool: Option<[f64; 7]>,
}

impl Chain {
    fn new(name: &'static str, links: Vec<Link>) -> Self {
        Self {
            name,
            links,
            tool: None,
        }
    }

    /// As a call is lent it: an empty list for none.
    pub fn own_tool(&self) -> &[f64] {
        self.tool.as_ref().map_or(&[], |tool| tool)
    }
}

pub struct Sample {
    pub file: &'static str,
    pub about: &'static str,
    pub hole: &'static str,
    pub chains: Vec<Chain>,
    pub joints: Vec<f64>,
    pub history: Option<[Vec<f64>; 4]>,
    /// The joints whose end poses are the goals, and every chain's tolerances.
    pub goal: Option<(Vec<f64>, [f64; 6])>,
    /// None for the built-in ones.
    pub weights: Option<[f64; 8]>,
    pub pick: Pick,
    pub filed: bool,
}

impl Sample {
    /// As a call is lent them: an empty list for the built-in ones.
    pub fn own_weights(&self) -> &[f64] {
        self.weights.as_ref().map_or(&[], |weights| weights)
    }
}

const STRAIGHT: [f64; 4] = [1.0, 0.0, 0.0, 0.0];
const FREE: [f64; 2] = [-999.0, 999.0];

fn link(code: u16, displacement: [f64; 3], offset: [f64; 4], limits: [f64; 2]) -> Link {
    let ([x, y, z], [w, i, j, k]) = (displacement, offset);
    Link {
        code,
        floats: [x, y, z, w, i, j, k],
        limits: (code != 0).then_some(limits),
    }
}

/// A mast, a slew ring, a boom and a wrist that points down the hole.
fn rig() -> Vec<Chain> {
    let wide = [-2.5, 2.5];
    let links = vec![
        link(0, [0.0, 0.0, 0.6], STRAIGHT, wide),
        link(23, [0.0, 0.0, 0.2], STRAIGHT, FREE),
        link(12, [0.1, 0.0, 0.2], STRAIGHT, [-1.2, 1.4]),
        link(12, [0.9, 0.0, 0.0], STRAIGHT, wide),
        link(11, [0.7, 0.0, 0.0], STRAIGHT, wide),
        link(0, [0.1, 0.0, 0.0], [0.8, 0.0, 0.6, 0.0], wide),
        link(12, [0.0, 0.0, 0.15], STRAIGHT, wide),
        link(11, [0.0, 0.0, 0.1], STRAIGHT, wide),
        link(13, [0.0, 0.0, 0.3], STRAIGHT, [-3.1, 3.1]),
    ];
    vec![Chain::new("boom", links)]
}

/// The rig with a sonde on its flange, a little aside and at a slant.
fn rig_with_sonde() -> Vec<Chain> {
    let mut chains = rig();
    chains[0].tool = Some([0.04, 0.0, 1.1, 0.96, 0.0, 0.28, 0.0]);
    chains
}

/// Both arms, with a sonde on the second.
fn two_arms_with_sonde() -> Vec<Chain> {
    let mut chains = two_arms();
    chains[1].tool = Some([0.0, 0.1, 0.6, 0.8, 0.0, 0.0, 0.6]);
    chains
}

/// The rig with a spindle at its end, which turns on as its slew ring does.
fn rig_with_spindle() -> Vec<Chain> {
    let mut chains = rig();
    chains[0].links[8] = link(26, [0.0, 0.0, 0.3], STRAIGHT, FREE);
    chains
}

/// Free joints of every kind.
fn every_kind() -> Vec<Chain> {
    let codes = [23, 33, 12, 43, 0, 16, 34, 45, 21];
    let links = codes.map(|code| link(code, [0.2, 0.1, 0.3], STRAIGHT, FREE));
    vec![Chain::new("stand", links.into())]
}

/// Slides, turned offsets and an axis of none.
fn slides() -> Vec<Chain> {
    let quarter = std::f64::consts::FRAC_1_SQRT_2;
    let links = vec![
        link(33, [0.0, 0.0, 0.8], STRAIGHT, [0.0, 1.5]),
        link(13, [0.0, 0.0, 0.3], [0.96, 0.0, 0.0, 0.28], [-3.0, 3.0]),
        link(31, [0.4, 0.1, 0.0], STRAIGHT, [-0.5, 0.5]),
        link(
            12,
            [0.5, 0.0, 0.0],
            [quarter, 0.0, quarter, 0.0],
            [-2.0, 2.0],
        ),
        link(10, [0.0, 0.0, 0.2], STRAIGHT, FREE),
        link(15, [0.0, 0.1, 0.4], [0.8, 0.6, 0.0, 0.0], [-2.0, 2.0]),
        link(26, [0.0, 0.0, 0.2], STRAIGHT, FREE),
        link(14, [0.0, 0.0, 0.25], STRAIGHT, [-2.0, 2.0]),
    ];
    vec![Chain::new("mast", links)]
}

/// A base that turns and leans, and on it a mast that extends in two stages, each
/// along its own axis, with a trolley across its head.
fn extending() -> Vec<Chain> {
    let links = vec![
        link(23, [0.0, 0.0, 0.5], STRAIGHT, FREE),
        link(12, [0.2, 0.0, 0.3], STRAIGHT, [-1.5, 1.5]),
        link(43, [0.0, 0.0, 0.6], STRAIGHT, [0.0, 3.0]),
        link(46, [0.0, 0.05, 0.4], [0.28, 0.96, 0.0, 0.0], [-2.0, 0.0]),
        link(41, [0.0, 0.0, 0.1], [0.8, 0.0, 0.6, 0.0], [-0.5, 0.5]),
        link(40, [0.0, 0.0, 0.05], STRAIGHT, FREE),
        link(12, [0.1, 0.0, 0.1], STRAIGHT, [-2.5, 2.5]),
        link(11, [0.0, 0.0, 0.2], STRAIGHT, [-2.5, 2.5]),
        link(13, [0.0, 0.0, 0.3], STRAIGHT, [-3.1, 3.1]),
    ];
    vec![Chain::new("mast", links)]
}

fn two_arms() -> Vec<Chain> {
    let wide = [-2.8, 2.8];
    let left = [13, 12, 12, 11, 12, 13].map(|code| link(code, [0.2, 0.1, 0.3], STRAIGHT, wide));
    let right = [13, 12, 0, 12].map(|code| link(code, [0.3, -0.4, 0.1], STRAIGHT, wide));
    vec![
        Chain::new("left", left.into()),
        Chain::new("right", right.into()),
    ]
}

/// As much as a sheet can hold: four chains of 16 links, 16 joints.
fn largest() -> Vec<Chain> {
    let chain = |(name, turn): (&'static str, f64)| {
        let links = (0..16).map(|at| {
            let (code, offset) = match at {
                0 => (13, [turn.cos(), 0.0, 0.0, turn.sin()]),
                4 => (12, STRAIGHT),
                8 => (11, STRAIGHT),
                12 => (22, STRAIGHT),
                _ => (0, STRAIGHT),
            };
            link(code, [0.15, 0.0, 0.05], offset, [-3.0, 3.0])
        });
        Chain::new(name, links.collect())
    };
    let turns = [("north", 0.8), ("east", 0.0), ("south", 2.4), ("west", 1.6)];
    turns.into_iter().map(chain).collect()
}

pub fn good() -> Vec<Sample> {
    let rig_joints = vec![0.7, -0.35, 1.1, 0.05, 0.95, 0.08, 0.1];
    let ring = vec![38.4, -0.35, 1.1, 0.05, 0.95, 0.08, -27.3];
    let farthest = vec![64.0, 8.0, -64.0, -8.0, 64.0, -8.0, 8.0, -64.0];
    let beside = |joints: &[f64], by: f64| -> Vec<f64> { joints.iter().map(|v| v + by).collect() };
    let short_of = |joints: &[f64], by: f64| -> Vec<f64> {
        joints.iter().map(|v| v - v.signum() * by).collect()
    };
    let slid = vec![0.4, 0.9, 0.1, 0.35, 0.2, -0.6, 0.3, 0.45];
    let extended = vec![0.8, 0.3, 1.7, -0.9, 0.2, 0.6, -0.4, 0.5, 0.35];
    let both = vec![0.2, 0.5, -0.4, 0.3, 0.6, -0.1, -0.5, 0.7, 0.4];
    let many = [0.1, 0.4, 0.2, 0.5].repeat(4);
    vec![
        Sample {
            file: "collar_12",
            about: "A boom over the collar, at rest, with a goal that it has all but reached.",
            hole: "Collar 12, station north",
            chains: rig(),
            joints: rig_joints.clone(),
            history: None,
            goal: Some((beside(&rig_joints, 0.001), [0.0, 0.0, 0.05, 0.1, 0.1, 3.2])),
            weights: None,
            pick: Pick::Tolerance,
            filed: true,
        },
        Sample {
            file: "sliding_mast",
            about: "Slides, turned offsets and a joint without axis, in motion: the four blocks\n\
                    of the history, the current one first, differ.",
            hole: "Collar 15, sliding mast",
            chains: slides(),
            joints: slid.clone(),
            history: Some([-0.01, -0.02, -0.04, -0.05].map(|by| beside(&slid, by))),
            goal: Some((beside(&slid, 0.004), [0.1, 0.2, 0.0, 0.0, 0.5, 3.2])),
            weights: None,
            pick: Pick::Tolerance,
            filed: true,
        },
        Sample {
            file: "extension_mast",
            about: "A mast on a base that turns and leans: telescoping joints slide along\n\
                    their own axes, and the one without axis does not slide.",
            hole: "Collar 18, extension mast",
            chains: extending(),
            joints: extended.clone(),
            history: Some([-0.01, -0.02, -0.04, -0.05].map(|by| beside(&extended, by))),
            goal: Some((beside(&extended, 0.004), [0.1, 0.2, 0.0, 0.0, 0.5, 3.2])),
            weights: None,
            pick: Pick::Tolerance,
            filed: true,
        },
        Sample {
            file: "two_arms",
            about: "Two chains, of six joints and of three.",
            hole: "Collar 3, two arms",
            chains: two_arms(),
            joints: both.clone(),
            history: None,
            goal: Some((beside(&both, -0.05), [0.3, 0.1, 0.2, 0.1, 0.1, 0.1])),
            weights: None,
            pick: Pick::Tolerance,
            filed: true,
        },
        Sample {
            file: "largest",
            about: "As much as a sheet can hold.",
            hole: "Test stand, four arms",
            chains: largest(),
            joints: many.clone(),
            history: None,
            goal: Some((beside(&many, 0.04), [0.0; 6])),
            weights: None,
            pick: Pick::Tolerance,
            filed: true,
        },
        Sample {
            file: "at_rest",
            about: "Two links up and no goals. The axis is vertical: there is no azimuth.",
            hole: "Test stand, straight up",
            chains: vec![Chain::new(
                "arm",
                [13, 12]
                    .map(|code| link(code, [0.0, 0.0, 1.0], STRAIGHT, [-3.0, 3.0]))
                    .into(),
            )],
            joints: vec![0.0, 0.0],
            history: None,
            goal: None,
            weights: None,
            pick: Pick::Tolerance,
            filed: true,
        },
        Sample {
            file: "unfiled",
            about: "Nothing is filed: the sheet is worked out and compared with nothing.",
            hole: "Collar 13",
            chains: rig(),
            joints: beside(&rig_joints, 0.2),
            history: None,
            goal: Some((beside(&rig_joints, 0.25), [0.0, 0.0, 0.05, 0.1, 0.1, 3.2])),
            weights: None,
            pick: Pick::Tolerance,
            filed: false,
        },
        Sample {
            file: "granite",
            about: "The crew's own weights: rotation, and so azimuth, counts more than position.",
            hole: "Collar 21, in granite",
            chains: rig(),
            joints: rig_joints.clone(),
            history: Some([-0.01, -0.02, -0.04, -0.05].map(|by| beside(&rig_joints, by))),
            goal: Some((beside(&rig_joints, 0.002), [0.0, 0.0, 0.05, 0.1, 0.1, 3.2])),
            weights: Some([20.0, 60.0, 0.1, 0.7, 0.5, 0.3, 2.0, 0.25]),
            pick: Pick::Tolerance,
            filed: true,
        },
        Sample {
            file: "sonde_on_flange",
            about: "A sonde on the flange: goal, azimuth and inclination are those of its tip.",
            hole: "Collar 24, sonde on the flange",
            chains: rig_with_sonde(),
            joints: rig_joints.clone(),
            history: Some([-0.01, -0.02, -0.04, -0.05].map(|by| beside(&rig_joints, by))),
            goal: Some((beside(&rig_joints, 0.002), [0.0, 0.0, 0.05, 0.1, 0.1, 3.2])),
            weights: None,
            pick: Pick::Tolerance,
            filed: true,
        },
        Sample {
            file: "surveyed_collar",
            about: "A surveyed collar: the goal is strict, and its tolerances count for nothing.",
            hole: "Collar 30, surveyed",
            chains: rig(),
            joints: rig_joints.clone(),
            history: Some([-0.01, -0.02, -0.04, -0.05].map(|by| beside(&rig_joints, by))),
            goal: Some((beside(&rig_joints, 0.002), [0.0, 0.0, 0.05, 0.1, 0.1, 3.2])),
            weights: None,
            pick: Pick::Strict,
            filed: true,
        },
        Sample {
            file: "surveyed_pair",
            about: "Two arms with strict goals, the crew's own weights, and a sonde on the second.",
            hole: "Collars 31 and 32, surveyed",
            chains: two_arms_with_sonde(),
            joints: both.clone(),
            history: None,
            goal: Some((beside(&both, -0.05), [0.3, 0.1, 0.2, 0.1, 0.1, 0.1])),
            weights: Some([20.0, 60.0, 0.1, 0.7, 0.5, 0.3, 2.0, 0.25]),
            pick: Pick::Strict,
            filed: true,
        },
        Sample {
            file: "slew_ring",
            about: "A slew ring that has gone round six times and counts on, and a spindle that\n\
                    has turned the other way.",
            hole: "Collar 36, several turns on",
            chains: rig_with_spindle(),
            joints: ring.clone(),
            history: Some([-0.01, -0.02, -0.04, -0.05].map(|by| beside(&ring, by))),
            goal: Some((beside(&ring, 0.002), [0.0, 0.0, 0.05, 0.1, 0.1, 3.2])),
            weights: None,
            pick: Pick::Tolerance,
            filed: true,
        },
        Sample {
            file: "farthest",
            about: "Every joint at an end of its range: 64 where it turns, 8 where it slides.",
            hole: "Test stand, as far as it goes",
            chains: every_kind(),
            joints: farthest.clone(),
            history: Some([0.0, 0.125, 0.25, 0.5].map(|by| short_of(&farthest, by))),
            goal: Some((short_of(&farthest, 0.0625), [0.1, 0.2, 0.0, 0.0, 0.5, 3.2])),
            weights: None,
            pick: Pick::Tolerance,
            filed: true,
        },
    ]
}

/// Arms alone, as `sonde --sizes` takes them.
pub struct Arms {
    pub file: &'static str,
    pub hole: &'static str,
    pub chains: Vec<Chain>,
    pub pick: Pick,
}

pub fn arms() -> Vec<Arms> {
    let named = |file, hole, chains, pick| Arms {
        file,
        hole,
        chains,
        pick,
    };
    let (tolerance, strict) = (Pick::Tolerance, Pick::Strict);
    vec![
        named("boom", "Rig north, its boom", rig(), tolerance),
        named("two_arms", "Rig south, both arms", two_arms(), tolerance),
        named("largest", "Test stand, four arms", largest(), tolerance),
        named("boom_strict", "Rig north, its boom", rig(), strict),
        named(
            "two_arms_strict",
            "Rig south, both arms",
            two_arms(),
            strict,
        ),
    ]
}

/// A good sheet with one line changed.
pub struct Bad {
    pub file: &'static str,
    /// The good sheet's file.
    pub good: &'static str,
    /// The exit status that `sonde` is to have.
    pub status: u8,
    /// The start of the line that is changed.
    line: &'static str,
    change: Change,
}

enum Change {
    /// Words of that line, and what stands in their place.
    Words(&'static str, &'static str),
    /// The line as often as this.
    Times(usize),
    Away,
    /// This line before it.
    Before(&'static str),
    /// This line after it.
    After(&'static str),
    /// The last digit of the bits, which is then another one, and the decimal with it.
    LastBit,
}

/// One line at fault is told by its number; the first line of the file says
/// which status and which line are expected.
impl Bad {
    pub fn text(&self, good: &str) -> String {
        // The first line is a comment and gives way to another.
        let mut lines: Vec<String> = good.lines().map(str::to_string).collect();
        let at = lines.iter().position(|line| line.starts_with(self.line));
        let at = at.expect("the line is there");
        // What is told is the line changed, but for a chain with too few or too
        // many links or joints and for a line that is gone.
        let mut told = Some(at + 1);
        let chain = lines.iter().position(|line| line.starts_with("chain "));
        match &self.change {
            Change::Words(old, new) => {
                assert!(lines[at].contains(old), "{}: {old}", self.file);
                lines[at] = lines[at].replacen(old, new, 1);
            }
            Change::Times(count) => {
                let line = lines[at].clone();
                lines.splice(at..=at, vec![line; *count]);
                told = chain.map(|chain| chain + 1);
            }
            Change::Away => {
                lines.remove(at);
                let last = lines.iter().rposition(|line| line.starts_with("limits "));
                told = last.map(|last| last + 1);
            }
            Change::Before(line) => lines.insert(at, line.to_string()),
            Change::After(line) => {
                lines.insert(at + 1, line.to_string());
                told = Some(at + 2);
            }
            Change::LastBit => {
                let words: Vec<&str> = lines[at].split(' ').collect();
                let bits = u64::from_str_radix(words[3], 16).expect("bits");
                let v = f64::from_bits(bits ^ 1);
                lines[at] = format!("filed {} {v} {:016x}", words[1], v.to_bits());
            }
        }
        let place = told.map_or("no line".to_string(), |line| format!("line {line}"));
        lines[0] = format!("# expected: status {}, {place}", self.status);
        lines.join("\n") + "\n"
    }
}

pub fn bad() -> Vec<Bad> {
    let changed = |file, status, line, change| Bad {
        file,
        good: "collar_12",
        status,
        line,
        change,
    };
    let words = |file, status, line, old, new| changed(file, status, line, Change::Words(old, new));
    // A line that the sheet does not have.
    let before = |file, status, line| changed(file, status, "goal", Change::Before(line));
    // Behind the chain's last link and its limits.
    let tool = |file, status, line| changed(file, status, "limits -3.1", Change::After(line));
    // A joint that is at an end of its range, or near it.
    let beyond = |file, line, old, new| Bad {
        good: "farthest",
        ..words(file, 17, line, old, new)
    };
    vec![
        changed(
            "refused_1_too_many_links",
            11,
            "link fixed",
            Change::Times(9),
        ),
        words(
            "refused_2_six_numbers",
            12,
            "link continuous z",
            "0 0 0.2",
            "0 0.2",
        ),
        words(
            "refused_3_code_37",
            13,
            "link revolute x",
            "revolute x",
            "code 37",
        ),
        words(
            "refused_3_code_47",
            13,
            "link revolute x",
            "revolute x",
            "code 47",
        ),
        changed(
            "refused_4_one_joint",
            14,
            "link revolute z",
            Change::Before("chain second"),
        ),
        words(
            "refused_5_limits_too_near",
            15,
            "limits -1.2 1.4",
            "-1.2 1.4",
            "1.3995 1.4",
        ),
        changed(
            "refused_5_limits_missing",
            15,
            "limits -1.2 1.4",
            Change::Away,
        ),
        words(
            "refused_6_offset",
            16,
            "link fixed         0.1",
            "0.8 0 0.6",
            "0.8 0 0.61",
        ),
        words(
            "refused_6_displacement",
            16,
            "link revolute y",
            "0.1 0 0.2",
            "0.1 0 20",
        ),
        words("refused_7_joint", 17, "joints", "joints 0.7", "joints 64.7"),
        words(
            "refused_7_not_a_number",
            17,
            "joints",
            "joints 0.7",
            "joints nan",
        ),
        beyond(
            "refused_7_turning_joint",
            "joints",
            "64 8",
            "64.00000000000001 8",
        ),
        beyond(
            "refused_7_sliding_joint",
            "joints",
            "8 -64",
            "8.000000000000002 -64",
        ),
        beyond("refused_7_history", "history 63.5", "63.5 7.5", "63.5 63.5"),
        words("refused_8_tolerance", 18, "goal", " 3.2", " 320"),
        words(
            "refused_8_strict_tolerance",
            18,
            "goal",
            " 3.2",
            " 320\ngoals strict",
        ),
        before(
            "refused_10_nine_weights",
            20,
            "weights 20 60 0.1 0.7 0.5 0.3 2 0.25 1",
        ),
        before(
            "refused_10_weight",
            20,
            "weights 20 1000.5 0.1 0.7 0.5 0.3 2 0.25",
        ),
        before("refused_10_no_weights", 20, "weights"),
        tool("refused_11_six_numbers", 21, "tool 0.04 0 1.1 0.96 0 0.28"),
        tool("refused_11_no_numbers", 21, "tool"),
        tool(
            "refused_11_displacement",
            21,
            "tool 0.04 0 11 0.96 0 0.28 0",
        ),
        tool("refused_11_offset", 21, "tool 0.04 0 1.1 0.96 0 0.29 0"),
        tool(
            "text_tool_with_commas",
            3,
            "tool 0.04, 0, 1.1, 0.96, 0, 0.28, 0",
        ),
        changed(
            "text_tool_before_its_chain",
            3,
            "chain",
            Change::Before("tool 0.04 0 1.1 0.96 0 0.28 0"),
        ),
        before(
            "text_weights_with_commas",
            3,
            "weights 20, 60, 0.1, 0.7, 0.5, 0.3, 2, 0.25",
        ),
        before("text_goals_loose", 3, "goals loose"),
        before("text_goals_of_no_list", 3, "goals"),
        words("text_goals_for_goal", 3, "goal", "goal", "goals"),
        words("text_not_a_number", 3, "limits -1.2 1.4", "-1.2", "-1,2"),
        words("text_unknown_word", 3, "joints", "joints", "angles"),
        words(
            "text_unknown_kind",
            3,
            "link revolute x",
            "revolute",
            "spherical",
        ),
        words("text_other_version", 3, "sonde", "1", "2"),
        words(
            "text_bits_of_another",
            3,
            "filed boom.x",
            "filed boom.x ",
            "filed boom.x 1",
        ),
        words("text_filed_of_no_chain", 3, "filed boom.y", "boom", "mast"),
        changed(
            "differs_in_the_last_bit",
            1,
            "filed boom.w",
            Change::LastBit,
        ),
        words(
            "differs_in_the_azimuth",
            1,
            "filed boom.azimuth",
            "azimuth ",
            "azimuth 1",
        ),
    ]
}
