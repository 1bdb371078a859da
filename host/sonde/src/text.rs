//! The sheet's text. What each line may hold is in README.md. As little as
//! possible is judged here: lists of any length and numbers of any size go on
//! to the library, which refuses by number what it does not take.

use relaxed_ik::{ObjectiveList, Sheet, Tools};
use std::fmt;

/// A file larger than this is no sheet.
pub const MOST_BYTES: usize = 1 << 20;

const KINDS: [&str; 5] = [
    "fixed",
    "revolute",
    "continuous",
    "prismatic",
    "telescoping",
];
const AXES: [&str; 7] = ["none", "x", "y", "z", "-x", "-y", "-z"];
/// The lists of objectives by the words of a `goals` line.
const GOALS: [(&str, ObjectiveList); 2] = [
    ("tolerance", ObjectiveList::Tolerance),
    ("strict", ObjectiveList::Strict),
];
/// The parts of an end pose, in the library's order.
pub const PARTS: [&str; 7] = ["x", "y", "z", "w", "i", "j", "k"];

/// What is wrong with the text itself.
#[derive(Clone, Debug, PartialEq)]
pub struct TextFault {
    /// From 1; none if it is the file as a whole.
    pub line: Option<usize>,
    pub words: String,
}

impl fmt::Display for TextFault {
    fn fmt(&self, f: &mut fmt::Formatter) -> fmt::Result {
        match self.line {
            Some(line) => write!(f, "line {line}: {}", self.words),
            None => write!(f, "{}", self.words),
        }
    }
}

type Read<T> = Result<T, TextFault>;

fn fault<T>(line: usize, words: impl Into<String>) -> Read<T> {
    Err(TextFault {
        line: Some(line),
        words: words.into(),
    })
}

/// The numbers of one line.
#[derive(Clone, Debug, Default, PartialEq)]
pub struct Row {
    pub line: usize,
    pub numbers: Vec<f64>,
}

#[derive(Clone, Debug)]
pub struct Link {
    pub code: u16,
    pub row: Row,
}

impl Link {
    /// The word of its kind; none for a code beyond the last kind's.
    pub fn kind(&self) -> Option<&'static str> {
        KINDS.get(usize::from(self.code / 10)).copied()
    }
}

#[derive(Clone, Debug)]
pub struct Chain {
    pub line: usize,
    pub name: String,
    pub links: Vec<Link>,
    pub tool: Option<Row>,
}

impl Chain {
    pub fn joints(&self) -> usize {
        self.links.iter().filter(|link| link.code != 0).count()
    }
}

/// What a filed figure is of.
#[derive(Clone, Copy, Debug, PartialEq)]
pub enum Key {
    /// A chain and a part of its end pose.
    End(usize, usize),
    Azimuth(usize),
    Inclination(usize),
    Manipulability,
    Objective,
    Slope(usize),
}

/// A figure as it was filed.
#[derive(Clone, Debug, PartialEq)]
pub enum Figure {
    /// To the bit.
    Exact(f64),
    /// In degrees, to as many decimals as are written.
    Rounded { text: String, decimals: usize },
    /// An azimuth that there is none of.
    None,
}

#[derive(Clone, Debug)]
pub struct Filed {
    pub line: usize,
    pub name: String,
    pub key: Key,
    pub figure: Figure,
}

/// A sheet as it is written, with the lines it came from.
#[derive(Clone, Debug, Default)]
pub struct File {
    pub hole: String,
    pub chains: Vec<Chain>,
    pub limits: Vec<Row>,
    pub joints: Vec<Row>,
    pub history: Vec<Row>,
    pub goals: Vec<Row>,
    /// None for the built-in ones.
    pub weights: Option<Row>,
    /// None where the sheet picks none, and the tolerance list serves.
    pub list: Option<ObjectiveList>,
    pub filed: Vec<Filed>,
}

/// The lists as the library is lent them.
#[derive(Clone, Debug, Default)]
pub struct Lists {
    pub sizes: Vec<u16>,
    pub codes: Vec<u16>,
    pub floats: Vec<f64>,
    pub limits: Vec<f64>,
    pub joints: Vec<f64>,
    pub history: Vec<f64>,
    pub goals: Vec<f64>,
    pub weights: Vec<f64>,
    /// One a chain, empty for none.
    pub tools: Vec<Vec<f64>>,
    pub list: ObjectiveList,
}

impl Lists {
    pub fn sheet(&self) -> Sheet<'_> {
        Sheet {
            sizes: &self.sizes,
            codes: &self.codes,
            floats: &self.floats,
            limits: &self.limits,
        }
    }

    /// As the calls are lent them, by the number of a chain, of which a sheet that is
    /// taken has no more.
    pub fn tools(&self) -> Tools<'_> {
        std::array::from_fn(|chain| self.tools.get(chain).map_or(&[][..], Vec::as_slice))
    }
}

fn all(rows: &[Row]) -> Vec<f64> {
    rows.iter().flat_map(|row| row.numbers.clone()).collect()
}

impl File {
    /// Links in order, across chains.
    pub fn links(&self) -> impl Iterator<Item = (&Chain, usize, &Link)> {
        let numbered = |chain| links_of(chain).map(move |(at, link)| (chain, at, link));
        self.chains.iter().flat_map(numbered)
    }

    /// The sheet with its arms, by which list their goals count, and nothing else.
    pub fn arms(&self) -> Self {
        Self {
            hole: self.hole.clone(),
            chains: self.chains.clone(),
            list: self.list,
            ..Self::default()
        }
    }

    /// The word of the sheet's `goals` line.
    pub fn list_word(&self) -> Option<&'static str> {
        let mut known = GOALS.into_iter();
        known.find_map(|(word, list)| (Some(list) == self.list).then_some(word))
    }

    pub fn lists(&self) -> Lists {
        // A count beyond u16 is beyond what is taken, whatever it is.
        let short = |n: usize| u16::try_from(n).unwrap_or(u16::MAX);
        let mut sizes = vec![short(self.chains.len())];
        sizes.extend(self.chains.iter().map(|chain| short(chain.links.len())));
        let floats = self
            .links()
            .flat_map(|(_, _, link)| link.row.numbers.clone());
        Lists {
            sizes,
            codes: self.links().map(|(_, _, link)| link.code).collect(),
            floats: floats.collect(),
            limits: all(&self.limits),
            joints: all(&self.joints),
            history: all(&self.history),
            goals: all(&self.goals),
            weights: all(self.weights.as_slice()),
            tools: self
                .chains
                .iter()
                .map(|chain| all(chain.tool.as_slice()))
                .collect(),
            list: self.list.unwrap_or_default(),
        }
    }

    /// The tools that the sheet has, each with its chain and the chain's number.
    pub fn tools(&self) -> impl Iterator<Item = (usize, &Chain, &Row)> {
        let numbered = self.chains.iter().enumerate();
        numbered.filter_map(|(at, chain)| Some((at, chain, chain.tool.as_ref()?)))
    }

    /// A line too long whose neighbour is too short by as much: the library sees
    /// one list and could not tell.
    pub fn uneven(&self) -> Option<TextFault> {
        let links: Vec<&Row> = self.links().map(|(_, _, link)| &link.row).collect();
        let joints = self.chains.iter().map(Chain::joints).sum();
        let history: Vec<&Row> = self.history.iter().collect();
        let goals: Vec<&Row> = self.goals.iter().collect();
        let limits: Vec<&Row> = self.limits.iter().collect();
        for (what, rows, each, count) in [
            ("link", &links, 7, links.len()),
            ("limits", &limits, 2, joints),
            ("history", &history, joints, 4),
            ("goal", &goals, 13, self.chains.len()),
        ] {
            let total: usize = rows.iter().map(|row| row.numbers.len()).sum();
            let odd = rows.iter().find(|row| row.numbers.len() != each);
            if let (Some(row), true) = (odd, total == each * count) {
                let found = row.numbers.len();
                return Some(TextFault {
                    line: Some(row.line),
                    words: format!("a {what} line of {found} numbers, {each} are needed"),
                });
            }
        }
        None
    }
}

fn links_of(chain: &Chain) -> impl Iterator<Item = (usize, &Link)> {
    chain.links.iter().enumerate()
}

/// A decimal, or 0x and the 16 digits of the bits.
fn number(line: usize, word: &str) -> Read<f64> {
    if let Some(digits) = word.strip_prefix("0x") {
        return bits(line, digits);
    }
    match word.parse() {
        Ok(number) => Ok(number),
        Err(_) => fault(line, format!("not a number: {word}")),
    }
}

fn bits(line: usize, digits: &str) -> Read<f64> {
    let whole = digits.len() == 16 && digits.bytes().all(|b| b.is_ascii_hexdigit());
    match u64::from_str_radix(digits, 16) {
        Ok(bits) if whole => Ok(f64::from_bits(bits)),
        _ => fault(line, format!("not 16 hexadecimal digits: {digits}")),
    }
}

fn row(line: usize, words: &[&str]) -> Read<Row> {
    let numbers = words.iter().map(|word| number(line, word));
    Ok(Row {
        line,
        numbers: numbers.collect::<Read<_>>()?,
    })
}

fn link(line: usize, words: &[&str]) -> Read<Link> {
    let at = |list: &[&str], word: &str| list.iter().position(|known| *known == word);
    let (code, rest) = match words {
        ["code", code, rest @ ..] => match code.parse() {
            Ok(code) => (code, rest),
            Err(_) => return fault(line, format!("not a code from 0 to 65535: {code}")),
        },
        ["fixed", rest @ ..] => (0, rest),
        [kind, rest @ ..] => {
            let Some(kind_at) = at(&KINDS, kind) else {
                let known = KINDS.join(", ");
                return fault(
                    line,
                    format!("no kind of link: {kind} ({known}, or code N)"),
                );
            };
            let axis = rest.first().and_then(|word| at(&AXES, word));
            let Some(axis) = axis else {
                let found = rest.first().unwrap_or(&"nothing");
                let known = AXES.join(", ");
                return fault(line, format!("no axis after {kind}: {found} ({known})"));
            };
            ((10 * kind_at + axis) as u16, &rest[1..])
        }
        [] => return fault(line, "a link of no kind"),
    };
    Ok(Link {
        code,
        row: row(line, rest)?,
    })
}

fn limits(line: usize, words: &[&str]) -> Read<Row> {
    match words {
        ["free"] => Ok(Row {
            line,
            numbers: vec![-999.0, 999.0],
        }),
        _ => row(line, words),
    }
}

/// Which list of objectives is picked.
fn list(line: usize, words: &[&str]) -> Read<ObjectiveList> {
    let found = match words {
        [] => "nothing".to_string(),
        [word] => word.to_string(),
        [word, ..] => format!("{word} and more"),
    };
    if let Some((_, list)) = GOALS.into_iter().find(|(word, _)| *word == found) {
        return Ok(list);
    }
    let known = GOALS.map(|(word, _)| word).join(", ");
    let words = format!("no list of goals: {found} ({known}; a chain's own goal begins with goal)");
    fault(line, words)
}

/// A chain's name is one word of letters, digits, - and _.
fn chain_name(line: usize, words: &[&str], chains: &[Chain]) -> Read<String> {
    let [name] = words else {
        return fault(line, "a chain has a name of one word");
    };
    let plain = |c: char| c.is_alphanumeric() || c == '-' || c == '_';
    if !name.chars().all(plain) {
        return fault(line, format!("a name of letters, digits, - and _: {name}"));
    }
    if chains.iter().any(|chain| chain.name == *name) || *name == "slope" {
        return fault(line, format!("a name that is taken: {name}"));
    }
    Ok(name.to_string())
}

fn key(line: usize, name: &str, chains: &[Chain]) -> Read<Key> {
    match name {
        "manipulability" => return Ok(Key::Manipulability),
        "objective" => return Ok(Key::Objective),
        _ => {}
    }
    let unknown = || fault(line, format!("no figure that a sheet has: {name}"));
    let Some((of, part)) = name.split_once('.') else {
        return unknown();
    };
    if of == "slope" {
        return part.parse().map(Key::Slope).or_else(|_| unknown());
    }
    let Some(chain) = chains.iter().position(|chain| chain.name == of) else {
        return fault(line, format!("no chain named {of}"));
    };
    match part {
        "azimuth" => Ok(Key::Azimuth(chain)),
        "inclination" => Ok(Key::Inclination(chain)),
        _ => match PARTS.iter().position(|known| *known == part) {
            Some(part) => Ok(Key::End(chain, part)),
            None => unknown(),
        },
    }
}

/// An angle in degrees, with the decimals it is written to.
fn rounded(line: usize, word: &str) -> Read<Figure> {
    let (whole, decimals) = word.split_once('.').unwrap_or((word, ""));
    let digits = |text: &str| text.bytes().all(|b| b.is_ascii_digit());
    if whole.is_empty() || !digits(whole) || !digits(decimals) || decimals.len() > 9 {
        return fault(line, format!("not degrees with at most 9 decimals: {word}"));
    }
    Ok(Figure::Rounded {
        text: word.to_string(),
        decimals: decimals.len(),
    })
}

fn filed(line: usize, words: &[&str], chains: &[Chain]) -> Read<Filed> {
    let [name, figure @ ..] = words else {
        return fault(line, "filed, and nothing after it");
    };
    let key = key(line, name, chains)?;
    let figure = match (key, figure) {
        (Key::Azimuth(_), ["none"]) => Figure::None,
        (Key::Azimuth(_) | Key::Inclination(_), [degrees]) => rounded(line, degrees)?,
        (Key::Azimuth(_) | Key::Inclination(_), _) => {
            return fault(line, format!("{name} is filed in degrees, without bits"))
        }
        (_, [decimal, digits]) => {
            let (decimal, exact) = (number(line, decimal)?, bits(line, digits)?);
            if !same(decimal, exact) {
                let words = format!("{name}: the bits are those of {exact}, not of {decimal}");
                return fault(line, words);
            }
            Figure::Exact(exact)
        }
        _ => return fault(line, format!("{name} is filed as a decimal and its bits")),
    };
    Ok(Filed {
        line,
        name: name.to_string(),
        key,
        figure,
    })
}

/// Bit for bit, a NaN matching a NaN.
pub fn same(a: f64, b: f64) -> bool {
    a.to_bits() == b.to_bits() || a.is_nan() && b.is_nan()
}

/// Up to a # that starts the line or follows a space.
fn without_comment(line: &str) -> &str {
    let mut before = ' ';
    for (at, c) in line.char_indices() {
        if c == '#' && before.is_whitespace() {
            return &line[..at];
        }
        before = c;
    }
    line
}

pub fn parse(bytes: &[u8]) -> Read<File> {
    let whole = |words: String| TextFault { line: None, words };
    if bytes.len() > MOST_BYTES {
        return Err(whole(format!("over {MOST_BYTES} bytes: no sheet")));
    }
    let text = std::str::from_utf8(bytes).or_else(|e| {
        let before = &bytes[..e.valid_up_to()];
        let line = 1 + before.iter().filter(|&&b| b == b'\n').count();
        fault(line, "bytes that are no UTF-8 text")
    })?;
    let mut file = File::default();
    let mut started = false;
    let mut hole = None;
    for (at, text) in text.trim_start_matches('\u{feff}').lines().enumerate() {
        let line = at + 1;
        let text = without_comment(text);
        let words: Vec<&str> = text.split_whitespace().collect();
        let [word, rest @ ..] = &words[..] else {
            continue;
        };
        if !started {
            if words != ["sonde", "1"] {
                return fault(line, "the first line of a sheet is: sonde 1");
            }
            started = true;
            continue;
        }
        match *word {
            "hole" if hole.is_some() => return fault(line, "a second hole"),
            "hole" => hole = Some(rest.join(" ")),
            "chain" => {
                let name = chain_name(line, rest, &file.chains)?;
                file.chains.push(Chain {
                    line,
                    name,
                    links: Vec::new(),
                    tool: None,
                });
            }
            "link" => match file.chains.last_mut() {
                Some(chain) => chain.links.push(link(line, rest)?),
                None => return fault(line, "a link before the first chain"),
            },
            "tool" => match file.chains.last_mut() {
                Some(Chain {
                    name,
                    tool: Some(_),
                    ..
                }) => return fault(line, format!("a second tool of chain {name}")),
                Some(chain) => chain.tool = Some(row(line, rest)?),
                None => return fault(line, "a tool before the first chain"),
            },
            "limits" => file.limits.push(limits(line, rest)?),
            "joints" => file.joints.push(row(line, rest)?),
            "history" => file.history.push(row(line, rest)?),
            "goal" => file.goals.push(row(line, rest)?),
            "weights" if file.weights.is_some() => return fault(line, "a second line of weights"),
            "weights" => file.weights = Some(row(line, rest)?),
            "goals" if file.list.is_some() => return fault(line, "a second goals line"),
            "goals" => file.list = Some(list(line, rest)?),
            "filed" => {
                let filed = filed(line, rest, &file.chains)?;
                if file.filed.iter().any(|other| other.key == filed.key) {
                    return fault(line, format!("{} is filed a second time", filed.name));
                }
                file.filed.push(filed);
            }
            other => return fault(line, format!("no word that a sheet has: {other}")),
        }
    }
    if !started {
        return Err(whole("an empty sheet".to_string()));
    }
    file.hole = hole.unwrap_or_default();
    let of_goals = |filed: &&Filed| matches!(filed.key, Key::Objective | Key::Slope(_));
    if let (true, Some(filed)) = (file.goals.is_empty(), file.filed.iter().find(of_goals)) {
        let words = format!("{} is filed, and the sheet has no goal", filed.name);
        return fault(filed.line, words);
    }
    Ok(file)
}

#[cfg(test)]
mod tests {
    use super::*;

    const GOOD: &str = "\
# a comment
sonde 1
hole Borehole no. 7#2  # its name
chain mast
link revolute z  0 0 1  1 0 0 0
limits -3 3
link fixed  0 0 1  1 0 0 0
link prismatic -y  0 0 1  1 0 0 0
limits free
joints 0.5 0x3ff0000000000000
goal 0 0 1  1 0 0 0  0 0 0 0 0 0
weights 20 60 0.1 0.7 0.5 0.3 1 -0
filed mast.x 1.5 3ff8000000000000
filed mast.azimuth 90.00
filed slope.1 -0 8000000000000000
";

    fn told(text: &str) -> (Option<usize>, String) {
        let fault = parse(text.as_bytes()).unwrap_err();
        (fault.line, fault.words)
    }

    #[test]
    fn a_sheet_is_read() {
        let file = parse(GOOD.as_bytes()).unwrap();
        assert_eq!(file.hole, "Borehole no. 7#2");
        let lists = file.lists();
        assert_eq!(lists.sizes, [1, 3]);
        assert_eq!(lists.codes, [13, 0, 35]);
        assert_eq!(lists.limits, [-3.0, 3.0, -999.0, 999.0]);
        assert_eq!(lists.joints, [0.5, 1.0]);
        assert_eq!((lists.floats.len(), lists.goals.len()), (21, 13));
        assert_eq!(lists.weights, [20.0, 60.0, 0.1, 0.7, 0.5, 0.3, 1.0, -0.0]);
        let keys: Vec<Key> = file.filed.iter().map(|filed| filed.key).collect();
        assert_eq!(keys, [Key::End(0, 0), Key::Azimuth(0), Key::Slope(1)]);
        assert_eq!(file.filed[2].figure, Figure::Exact(-0.0));
        assert!(file.uneven().is_none());
    }

    /// Each kind's word with an axis's is a code of the lists.
    #[test]
    fn kinds_have_their_codes() {
        for (words, code) in [
            ("revolute none", 10),
            ("continuous x", 21),
            ("prismatic -z", 36),
            ("telescoping none", 40),
            ("telescoping z", 43),
            ("telescoping -z", 46),
        ] {
            let file = parse(GOOD.replace("prismatic -y", words).as_bytes()).unwrap();
            assert_eq!(file.lists().codes, [13, 0, code], "{words}");
        }
    }

    /// A tool is lent by the number of its chain, whichever others have none.
    #[test]
    fn a_tool_is_its_chains() {
        let two = GOOD.replace("joints", "chain jib\ntool 0 0 1  0 1 0 0\njoints");
        let file = parse(two.as_bytes()).unwrap();
        let found: Vec<_> = file
            .tools()
            .map(|(at, chain, _)| (at, &chain.name))
            .collect();
        assert_eq!(found, [(1, &"jib".to_string())]);
        let tool = [0.0, 0.0, 1.0, 0.0, 1.0, 0.0, 0.0];
        assert_eq!(file.lists().tools(), [&[][..], &tool, &[], &[]]);
    }

    /// Without a goals line it is the tolerance list, which may be named as well.
    #[test]
    fn a_list_of_objectives_is_picked() {
        for (line, word, list) in [
            ("", None, ObjectiveList::Tolerance),
            (
                "goals tolerance",
                Some("tolerance"),
                ObjectiveList::Tolerance,
            ),
            (
                "goals  strict # surveyed",
                Some("strict"),
                ObjectiveList::Strict,
            ),
        ] {
            let file = parse(format!("{GOOD}{line}\n").as_bytes()).unwrap();
            assert_eq!((file.list_word(), file.lists().list), (word, list));
            assert_eq!(file.arms().lists().list, list);
        }
    }

    /// Line ends of either kind, and a byte order mark.
    #[test]
    fn other_line_ends_are_read() {
        let text = format!("\u{feff}{}", GOOD.replace('\n', "\r\n"));
        assert_eq!(parse(text.as_bytes()).unwrap().chains[0].links.len(), 3);
    }

    #[test]
    fn faults_have_their_line() {
        for (good, bad, line, words) in [
            ("sonde 1", "sonde 2", 2, "the first line"),
            ("hole", "well", 3, "no word that a sheet has: well"),
            ("chain mast", "chain a mast", 4, "one word"),
            ("chain mast", "chain a.b", 4, "letters"),
            ("chain mast", "", 5, "before the first chain"),
            ("revolute z", "spherical z", 5, "no kind of link: spherical"),
            ("revolute z", "revolute w", 5, "no axis after revolute: w"),
            ("revolute z", "code 65536", 5, "not a code"),
            ("0 0 1  1", "0 0 l  1", 5, "not a number: l"),
            ("limits -3 3", "limits -3 ,3", 6, "not a number: ,3"),
            ("0x3ff0000000000000", "0x3ff", 10, "16 hexadecimal"),
            ("20 60", "20, 60", 12, "not a number: 20,"),
            ("20 60", "20\nweights 60", 13, "a second line of weights"),
            ("joints", "tool 0 0 ,5\njoints", 10, "not a number: ,5"),
            (
                "joints",
                "tool\ntool\njoints",
                11,
                "a second tool of chain mast",
            ),
            (
                "chain mast",
                "tool 0\nchain mast",
                4,
                "a tool before the first chain",
            ),
            (
                "weights",
                "goals loose\nweights",
                12,
                "no list of goals: loose (tolerance, strict;",
            ),
            ("weights", "goals\nweights", 12, "no list of goals: nothing"),
            ("goal 0 0", "goals 0 0", 11, "own goal begins with goal"),
            (
                "weights",
                "goals strict strict\nweights",
                12,
                "no list of goals: strict and more",
            ),
            (
                "weights",
                "goals strict\ngoals tolerance\nweights",
                13,
                "a second goals line",
            ),
            ("mast.x", "mast.v", 13, "no figure"),
            ("mast.x", "boom.x", 13, "no chain named boom"),
            ("1.5 3ff8", "1.25 3ff8", 13, "the bits are those of 1.5"),
            ("1.5 3ff8000000000000", "1.5", 13, "a decimal and its bits"),
            ("90.00", "90.00 4056800000000000", 14, "without bits"),
            ("90.00", "9e1", 14, "not degrees"),
            ("slope.1", "mast.x", 15, "a second time"),
        ] {
            let text = GOOD.replacen(good, bad, 1);
            assert_ne!(text, GOOD);
            let (found, said) = told(&text);
            assert_eq!(found, Some(line), "{said}");
            assert!(said.contains(words), "{said}");
        }
        assert_eq!(told("# nothing\n"), (None, "an empty sheet".to_string()));
        let (line, words) = told(&GOOD.replacen("goal", "#", 1));
        assert_eq!(line, Some(15));
        assert!(words.contains("has no goal"), "{words}");
    }

    #[test]
    fn what_is_no_text_is_told() {
        let fault = parse(b"sonde 1\nhole \xff\n").unwrap_err();
        assert_eq!(fault.line, Some(2));
        assert!(parse(&vec![b' '; MOST_BYTES + 1]).is_err());
    }

    /// Two faults that make up for each other in the list as a whole.
    #[test]
    fn uneven_lines_are_told() {
        let text = GOOD.replacen("1 0 0 0\nlimits", "1 0 0\nlimits", 1);
        let longer = text.replacen("link fixed", "link fixed 0", 1);
        let fault = parse(longer.as_bytes()).unwrap().uneven().unwrap();
        assert_eq!(fault.line, Some(5));
        // One alone is for the library to refuse.
        assert!(parse(text.as_bytes()).unwrap().uneven().is_none());
    }
}
