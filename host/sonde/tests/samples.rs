//! The program on the sample sheets: the good ones are worked out and agree, a
//! bad one ends with the status, and names the line, that its first line says,
//! and arms alone are planned as theirs says.

use std::fs;
use std::path::{Path, PathBuf};
use std::process::{Command, Output};

fn sonde(arguments: &[&str]) -> Output {
    let program = env!("CARGO_BIN_EXE_sonde");
    Command::new(program).args(arguments).output().unwrap()
}

fn folder(name: &str) -> PathBuf {
    let root = Path::new(env!("CARGO_MANIFEST_DIR")).join("../..");
    root.join("examples/sheets").join(name)
}

fn sheets(name: &str) -> Vec<PathBuf> {
    let entries = fs::read_dir(folder(name)).unwrap();
    let mut paths: Vec<PathBuf> = entries.map(|entry| entry.unwrap().path()).collect();
    paths.sort();
    assert!(!paths.is_empty());
    paths
}

fn said(output: &Output) -> String {
    String::from_utf8(output.stdout.clone()).unwrap()
}

/// What stands after a name in a line of JSON, up to the next comma.
fn field(json: &str, name: &str) -> String {
    let name = format!("\"{name}\":");
    let at = json.find(&name).unwrap() + name.len();
    json[at..].split([',', '}']).next().unwrap().to_string()
}

/// The first number after these words on their line.
fn number(text: &str, words: &str) -> String {
    let mut lines = text.lines().map(str::trim);
    let rest = lines.find_map(|line| line.strip_prefix(words)).unwrap();
    rest.split_whitespace().next().unwrap().to_string()
}

/// The version is the package's, and the library the one that was linked, by
/// length and sum.
#[test]
fn the_version_names_the_library() {
    let output = sonde(&["--version"]);
    assert_eq!(output.status.code(), Some(0));
    let library = Path::new(env!("CARGO_MANIFEST_DIR")).join("../../target/staticlib/libexports.a");
    let bytes = fs::read(library).unwrap();
    let sum = bytes.iter().fold(0xcbf2_9ce4_8422_2325, |sum: u64, &byte| {
        (sum ^ u64::from(byte)).wrapping_mul(0x0000_0100_0000_01b3)
    });
    let with = match cfg!(feature = "objective") {
        true => "with",
        false => "without",
    };
    let expected = format!(
        "sonde {}, {with} the objective\nlinked with libexports.a, {} bytes, FNV-1a {sum:016x}\n",
        env!("CARGO_PKG_VERSION"),
        bytes.len()
    );
    assert_eq!(said(&output), expected);
}

#[test]
fn good_sheets_agree() {
    for path in sheets("good") {
        let output = sonde(&[path.to_str().unwrap()]);
        let text = said(&output);
        assert_eq!(output.status.code(), Some(0), "{text}");
        let filed = fs::read_to_string(&path).unwrap();
        let filed = filed
            .lines()
            .filter(|line| line.starts_with("filed "))
            .count();
        if filed == 0 {
            assert!(text.ends_with("no figures are filed\n"), "{text}");
        } else if cfg!(feature = "objective") {
            let line = format!("filed figures: {filed} of {filed} agree\n");
            assert!(text.ends_with(&line), "{text}");
        } else {
            assert!(!text.contains("differ"), "{text}");
        }
    }
}

#[test]
fn bad_sheets_end_as_they_say() {
    let mut statuses = Vec::new();
    for path in sheets("bad") {
        let first = fs::read_to_string(&path).unwrap();
        let first = first.lines().next().unwrap();
        let expected = first.strip_prefix("# expected: status ").unwrap();
        let (status, place) = expected.split_once(", ").unwrap();
        let output = sonde(&[path.to_str().unwrap(), "--json"]);
        let json = said(&output);
        assert_eq!(output.status.code(), status.parse().ok(), "{json}");
        assert_eq!(field(&json, "status"), status, "{json}");
        assert_eq!(format!("line {}", field(&json, "line")), place, "{json}");
        // In words, too, each names its line.
        let text = said(&sonde(&[path.to_str().unwrap()]));
        assert!(text.contains(&format!("{place}: ")), "{text}");
        statuses.push(output.status.code().unwrap());
    }
    for number in (1..=8).chain([10, 11]) {
        assert!(
            statuses.contains(&(10 + number)),
            "no sheet refused by {number}"
        );
    }
    assert!(statuses.contains(&1) && statuses.contains(&3));
}

/// In words and to programs.
#[test]
fn a_joint_is_told_the_range_of_its_kind() {
    for (sheet, words) in [
        (
            "joint",
            "joint 0 is 64.7, not within -64..64, the range of a continuous joint",
        ),
        (
            "turning_joint",
            "joint 0 is 64.00000000000001, not within -64..64, the range of a continuous joint",
        ),
        (
            "sliding_joint",
            "joint 1 is 8.000000000000002, not within -8..8, the range of a prismatic joint",
        ),
        (
            "history",
            "history block 3: joint 1 is 63.5, not within -8..8, the range of a prismatic joint",
        ),
    ] {
        let path = folder("bad").join(format!("refused_7_{sheet}.sheet"));
        let path = path.to_str().unwrap();
        for output in [sonde(&[path]), sonde(&[path, "--json"])] {
            let text = said(&output);
            assert!(text.contains(words), "{text}");
        }
    }
}

/// The lengths that the first line of the arms alone says, which are those of the
/// reference run's lists; in words, too, each stands by its list.
#[test]
fn arms_are_planned_as_they_say() {
    for path in sheets("arms") {
        let first = fs::read_to_string(&path).unwrap();
        let first = first.lines().next().unwrap();
        let expected = first.strip_prefix("# expected: ").unwrap();
        let path = path.to_str().unwrap();
        let [json, text] = [&["--sizes", path, "--json"][..], &["--sizes", path]].map(|words| {
            let output = sonde(words);
            assert_eq!(output.status.code(), Some(0));
            said(&output)
        });
        assert_eq!(field(&json, "outcome"), "\"planned\"");
        let strict = path.ends_with("_strict.sheet");
        assert_eq!(json.contains("\"goals\":\"strict\""), strict, "{json}");
        assert_eq!(
            text.contains("\n  goals            strict\n"),
            strict,
            "{text}"
        );
        for part in expected.split(", ") {
            let (name, count) = part.split_once(' ').unwrap();
            assert_eq!(field(&json, name), count, "{json}");
            let list = name.replace("entries", "record joints");
            assert_eq!(number(&text, &list), count, "{text}");
        }
        // Without limits there is a plan, and nothing that could be worked out.
        assert_eq!(sonde(&[path]).status.code(), Some(15));
    }
}

/// A fault in the arms or in the text is told as ever, one in anything else is
/// not looked at.
#[test]
fn sizing_looks_at_the_arms_alone() {
    for path in sheets("good").into_iter().chain(sheets("bad")) {
        let whole = sonde(&[path.to_str().unwrap(), "--json"]);
        let sizes = sonde(&["--sizes", path.to_str().unwrap(), "--json"]);
        let json = said(&sizes);
        match whole.status.code() {
            Some(2 | 3 | 11..=14 | 16) => {
                assert_eq!(sizes.status.code(), whole.status.code());
                assert_eq!(json, said(&whole));
            }
            _ => {
                assert_eq!(sizes.status.code(), Some(0), "{json}");
                assert_eq!(field(&json, "outcome"), "\"planned\"");
            }
        }
    }
}

/// Whose weights were in force is told in words, to programs and in the table.
#[cfg(feature = "objective")]
#[test]
fn weights_are_told() {
    let table = said(&sonde(&["--batch", folder("good").to_str().unwrap()]));
    let weights_at = table.find(" weights ").unwrap();
    let mut met = std::collections::BTreeSet::new();
    for path in sheets("good") {
        let sheet = fs::read_to_string(&path).unwrap();
        let has = |word: &str| sheet.lines().any(|line| line.starts_with(word));
        let from = match (has("goal "), has("weights ")) {
            (false, _) => "",
            (_, true) => "sheet",
            (_, false) => "built-in",
        };
        met.insert(from);
        let text = said(&sonde(&[path.to_str().unwrap()]));
        let json = said(&sonde(&[path.to_str().unwrap(), "--json"]));
        match from {
            "" => {
                assert!(!text.contains("\n  weights "), "{text}");
                assert_eq!(field(&json, "weights"), "null");
            }
            _ => {
                assert_eq!(number(&text, "weights "), from);
                assert_eq!(field(&json, "from"), format!("\"{from}\""));
            }
        }
        let name = path.file_name().unwrap().to_str().unwrap();
        let row = table.lines().find(|line| line.starts_with(name)).unwrap();
        let column = row.chars().skip(weights_at).take(8).collect::<String>();
        assert_eq!(column.trim(), from, "{row}");
    }
    assert_eq!(met.len(), 3, "a sheet of each kind");
}

/// The line of a good sheet that begins with this word.
#[cfg(feature = "objective")]
fn line_of(sheet: &str, word: &str) -> String {
    let text = fs::read_to_string(folder("good").join(sheet)).unwrap();
    let line = text.lines().find(|line| line.starts_with(word));
    line.unwrap().to_string()
}

/// A good sheet with another line in place of the one that begins with this word: the
/// figures that then differ, and those that are filed.
#[cfg(feature = "objective")]
fn differing(sheet: &str, word: &str, other: &str) -> (Vec<String>, Vec<String>) {
    let text = fs::read_to_string(folder("good").join(sheet)).unwrap();
    let figures = text.lines().filter_map(|line| line.strip_prefix("filed "));
    let figures = figures.map(|figure| figure.split(' ').next().unwrap().to_string());
    let name = format!("{word}{}{sheet}", other.len());
    let file = Path::new(env!("CARGO_TARGET_TMPDIR")).join(name);
    fs::write(&file, text.replacen(&line_of(sheet, word), other, 1)).unwrap();
    let output = sonde(&[file.to_str().unwrap()]);
    let said = said(&output);
    let differ = said.lines().filter(|line| line.starts_with("DIFFERS"));
    let differ: Vec<String> = differ
        .map(|line| line.rsplit(' ').next().unwrap().to_string())
        .collect();
    let status = i32::from(!differ.is_empty());
    assert_eq!(output.status.code(), Some(status), "{said}");
    (differ, figures.collect())
}

#[cfg(feature = "objective")]
fn of_objective(figure: &String) -> bool {
    figure == "objective" || figure.starts_with("slope.")
}

/// Four turns back the ring points where it did, to the decimals that are filed; by the
/// history, of which it seems to have left, the objective is another.
#[cfg(feature = "objective")]
#[test]
fn whole_turns_leave_the_azimuth() {
    let joints = line_of("slew_ring.sheet", "joints");
    let back = 38.4 - 4.0 * std::f64::consts::TAU;
    let other = joints.replace("38.4", &back.to_string());
    assert_ne!(other, joints);
    let (differ, _) = differing("slew_ring.sheet", "joints", &other);
    let differs = |figure: &str| differ.iter().any(|name| name == figure);
    assert!(!differs("boom.azimuth") && !differs("boom.inclination"));
    assert!(differs("objective"));
}

/// The filed objective and slopes are those of the weights: with others, and with
/// the built-in ones, they differ, and nothing else does.
#[cfg(feature = "objective")]
#[test]
fn weights_act_on_the_objective_alone() {
    for other in ["", "weights 1 1 1 1 1 1 1 1"] {
        let (differ, mut filed) = differing("granite.sheet", "weights", other);
        filed.retain(of_objective);
        assert_eq!(differ, filed);
    }
}

/// The filed objective and slopes are those of the strict list: with the other one,
/// named or not, they differ, and nothing else does.
#[cfg(feature = "objective")]
#[test]
fn strict_goals_act_on_the_objective_alone() {
    for sheet in ["surveyed_collar.sheet", "surveyed_pair.sheet"] {
        for other in ["", "goals tolerance"] {
            let (differ, mut filed) = differing(sheet, "goals", other);
            filed.retain(of_objective);
            assert_eq!(differ, filed);
        }
    }
    let (differ, _) = differing("collar_12.sheet", "joints", &{
        let joints = line_of("collar_12.sheet", "joints");
        format!("{joints}\ngoals tolerance")
    });
    assert!(differ.is_empty(), "named or not");
}

/// Other tolerances change nothing of a strict goal, and much of another.
#[cfg(feature = "objective")]
#[test]
fn strict_goals_look_at_no_tolerance() {
    for (sheet, strict) in [("surveyed_collar.sheet", true), ("collar_12.sheet", false)] {
        let goal = line_of(sheet, "goal ");
        let other = goal.replace(" 0 0 0.05 0.1 0.1 3.2", " 0.01 0.02 0 0 0.3 0");
        assert_ne!(other, goal);
        let (differ, mut filed) = differing(sheet, "goal ", &other);
        filed.retain(|figure| !strict && of_objective(figure));
        assert_eq!(differ, filed, "{sheet}");
    }
}

/// Which list serves is told in words, to programs and in the table where a sheet
/// says so, and a sheet that does not is told as if there were but one.
#[cfg(feature = "objective")]
#[test]
fn strict_goals_are_told() {
    let table = said(&sonde(&["--batch", folder("good").to_str().unwrap()]));
    let goals_at = table.find("     goals ").unwrap();
    let mut met = 0;
    for path in sheets("good") {
        let strict = fs::read_to_string(&path)
            .unwrap()
            .contains("\ngoals strict\n");
        let text = said(&sonde(&[path.to_str().unwrap()]));
        let json = said(&sonde(&[path.to_str().unwrap(), "--json"]));
        match strict {
            true => {
                assert_eq!(number(&text, "goals "), "strict");
                assert_eq!(field(&json, "goals"), "\"strict\"");
            }
            false => assert!(
                !text.contains("\n  goals ") && !json.contains("\"goals\""),
                "{text}"
            ),
        }
        met += usize::from(strict);
        let name = path.file_name().unwrap().to_str().unwrap();
        let row = table.lines().find(|line| line.starts_with(name)).unwrap();
        let column = row.chars().skip(goals_at).take(10).collect::<String>();
        assert_eq!(column.trim(), if strict { "strict" } else { "" }, "{row}");
    }
    assert!(met > 0, "a sheet with strict goals");
}

/// With another tool, and with none, everything that is filed differs but the
/// manipulability; with one that reaches elsewhere and turns the same, the rotation
/// and its two angles stay, too.
#[cfg(feature = "objective")]
#[test]
fn a_tool_acts_on_all_but_the_manipulability() {
    let turned = |figure: &String| {
        let part = figure.strip_prefix("boom.").unwrap_or_default();
        ["w", "i", "j", "k", "azimuth", "inclination"].contains(&part)
    };
    for (other, turns) in [
        ("", true),
        ("tool 0 0.1 0.9 0.8 0 0 0.6", true),
        ("tool 0 0.1 0.9 0.96 0 0.28 0", false),
    ] {
        let (differ, mut filed) = differing("sonde_on_flange.sheet", "tool", other);
        filed.retain(|figure| figure != "manipulability" && (turns || !turned(figure)));
        assert_eq!(differ, filed, "{other}");
    }
}

/// The numbers of a tool's line stand by their names in words and in the JSON.
fn tool_is_told(line: &str, text: &str, json: &str) {
    assert!(text.contains("; its end, the tool's tip\n"), "{text}");
    let rows = text.lines().skip_while(|row| !row.starts_with("  tool "));
    let rows: Vec<Vec<&str>> = rows.map(|row| row.split_whitespace().collect()).collect();
    let json = json.split("\"tool\":").nth(1).unwrap();
    let numbers: Vec<&str> = line.split_whitespace().collect();
    assert_eq!(numbers.len(), 7);
    for (at, name) in ["x", "y", "z", "w", "i", "j", "k"].into_iter().enumerate() {
        assert_eq!(rows[1 + at][..2], [name, numbers[at]], "{text}");
        let value = format!("\"{name}\":{{\"value\":{},", numbers[at]);
        assert!(json.contains(&value), "{json}");
    }
}

/// A chain's tool is told in words, to programs and in the table, and a sheet without
/// one is told as if there were none to be had.
#[test]
fn tools_are_told() {
    let table = said(&sonde(&["--batch", folder("good").to_str().unwrap()]));
    let tools_at = table.find("  tools ").unwrap();
    let mut met = 0;
    for path in sheets("good") {
        let sheet = fs::read_to_string(&path).unwrap();
        let lines = |word: &str| sheet.lines().filter(|line| line.starts_with(word)).count();
        let line = sheet.lines().find_map(|line| line.strip_prefix("tool "));
        let text = said(&sonde(&[path.to_str().unwrap()]));
        let json = said(&sonde(&[path.to_str().unwrap(), "--json"]));
        match line {
            Some(line) => tool_is_told(line, &text, &json),
            None => assert!(!text.contains("tool") && !json.contains("tool"), "{text}"),
        }
        met += usize::from(line.is_some());
        let name = path.file_name().unwrap().to_str().unwrap();
        let row = table.lines().find(|line| line.starts_with(name)).unwrap();
        let column = row.chars().skip(tools_at).take(7).collect::<String>();
        let expected = line.map_or(String::new(), |_| {
            format!("{}/{}", lines("tool "), lines("chain "))
        });
        assert_eq!(column.trim(), expected, "{row}");
    }
    assert!(met > 0, "a sheet with a tool");
}

/// Where no sheet has a tool or says by which list its goals count, the table has no
/// column for that.
#[test]
fn a_table_without_tools_and_lists_is_as_ever() {
    let table = said(&sonde(&["--batch", folder("bad").to_str().unwrap()]));
    let head = table.lines().next().unwrap();
    assert!(
        head.ends_with(" inclination  weights   filed  note"),
        "{head}"
    );
}

#[test]
fn a_folder_is_summed_up() {
    let good = sonde(&["--batch", folder("good").to_str().unwrap()]);
    assert_eq!(good.status.code(), Some(0));
    let count = sheets("good").len();
    let last = said(&good);
    let last = last.lines().last().unwrap().to_string();
    assert!(last.starts_with(&format!("{count} sheets: ")), "{last}");
    let bad = sonde(&["--batch", folder("bad").to_str().unwrap(), "--json"]);
    assert_eq!(bad.status.code(), Some(1));
    assert_eq!(said(&bad).lines().count(), sheets("bad").len() + 1);
    let none = sonde(&["--batch", folder("..").to_str().unwrap()]);
    assert_eq!(none.status.code(), Some(2));
}

#[test]
fn a_drawing_is_written() {
    let mut boxes = 0;
    for path in sheets("good") {
        let name = path.file_stem().unwrap().to_str().unwrap();
        let file = Path::new(env!("CARGO_TARGET_TMPDIR")).join(format!("{name}.svg"));
        let output = sonde(&[path.to_str().unwrap(), "--svg", file.to_str().unwrap()]);
        assert_eq!(output.status.code(), Some(0));
        let drawing = fs::read_to_string(&file).unwrap();
        assert!(drawing.starts_with("<svg ") && drawing.ends_with("</svg>\n"));
        assert!(drawing.contains("From above") && drawing.contains("From the side"));
        let sheet = fs::read_to_string(&path).unwrap();
        assert_eq!(drawing.contains(">flange, "), sheet.contains("\ntool "));
        // The box of a tolerance.
        let boxed = drawing.contains("stroke-dasharray=\"4 3\"");
        assert!(!boxed || !sheet.contains("\ngoals strict\n"));
        boxes += usize::from(boxed);
    }
    assert!(boxes > 0);
}

#[test]
fn what_cannot_be_used_is_told() {
    assert_eq!(sonde(&[]).status.code(), Some(2));
    assert_eq!(sonde(&["nowhere.sheet"]).status.code(), Some(2));
    assert_eq!(sonde(&["--batch", "nowhere"]).status.code(), Some(2));
    assert_eq!(sonde(&["--sizes"]).status.code(), Some(2));
    assert_eq!(sonde(&["--sizes", "nowhere.sheet"]).status.code(), Some(2));
    assert_eq!(sonde(&["--help"]).status.code(), Some(0));
}
