//! Writes the lines of a hole sheet, whose format is in `sonde`'s README. Lists
//! of any length and numbers of any size are written as they are, and come back
//! with the same bits. `sonde` has a reader of its own and shares nothing with
//! this.

#![forbid(unsafe_code)]

use std::fmt::Write as _;

const KINDS: [&str; 5] = [
    "fixed",
    "revolute",
    "continuous",
    "prismatic",
    "telescoping",
];
const AXES: [&str; 7] = ["none", "x", "y", "z", "-x", "-y", "-z"];
/// The parts of an end pose, in the order of the lists.
pub const PARTS: [&str; 7] = ["x", "y", "z", "w", "i", "j", "k"];

/// A longer decimal is written by its bits.
const LONGEST: usize = 24;

/// A decimal that comes back as the same bits, or 0x and the bits: of what is
/// not finite always, since a NaN has many.
pub fn number(v: f64) -> String {
    let decimal = v.to_string();
    if v.is_finite() && decimal.len() <= LONGEST {
        decimal
    } else {
        format!("0x{:016x}", v.to_bits())
    }
}

/// A code by kind and axis if it is listed, else by its number.
fn code_words(code: u16) -> String {
    let (kind, axis) = (usize::from(code / 10), usize::from(code % 10));
    match (KINDS.get(kind), AXES.get(axis)) {
        _ if code == 0 => KINDS[0].to_string(),
        (Some(kind), Some(axis)) if code >= 10 => format!("{kind} {axis}"),
        _ => format!("code {code}"),
    }
}

/// A sheet as far as it is written.
#[derive(Default)]
pub struct Text {
    text: String,
}

impl Text {
    pub fn finish(self) -> String {
        self.text
    }

    /// A line as it stands.
    pub fn line(&mut self, words: &str) {
        self.text.push_str(words.trim_end());
        self.text.push('\n');
    }

    /// Every line of the words as a comment.
    pub fn comment(&mut self, words: &str) {
        words
            .lines()
            .for_each(|line| self.line(&format!("# {line}")));
    }

    /// The line that a sheet begins with.
    pub fn start(&mut self) {
        self.line("sonde 1");
    }

    pub fn chain(&mut self, name: &str) {
        self.line(&format!("\nchain {name}"));
    }

    pub fn link(&mut self, code: u16, numbers: &[f64]) {
        self.placed(&format!("link {}", code_words(code)), numbers);
    }

    /// Of the chain that was begun last.
    pub fn tool(&mut self, numbers: &[f64]) {
        self.placed("tool", numbers);
    }

    /// Displacement and offset, or as many numbers as there are.
    fn placed(&mut self, words: &str, numbers: &[f64]) {
        let (displacement, offset) = numbers.split_at(numbers.len().min(3));
        let words = format!("{words:<18} {}   {}", row(displacement), row(offset));
        self.line(&words);
    }

    pub fn limits(&mut self, numbers: &[f64]) {
        match numbers {
            [-999.0, 999.0] => self.line("limits free"),
            _ => self.numbers("limits", numbers),
        }
    }

    /// Joints, a block of the history, a goal, or weights.
    pub fn numbers(&mut self, word: &str, numbers: &[f64]) {
        self.line(&format!("{word} {}", row(numbers)));
    }

    /// Picks the strict list of objectives; a sheet without this line has the
    /// tolerance list.
    pub fn strict_goals(&mut self) {
        self.line("goals strict");
    }

    /// A figure to the bit.
    pub fn filed(&mut self, name: &str, v: f64) {
        let _ = writeln!(self.text, "filed {name} {} {:016x}", number(v), v.to_bits());
    }
}

fn row(numbers: &[f64]) -> String {
    let words: Vec<String> = numbers.iter().copied().map(number).collect();
    words.join(" ")
}

#[cfg(test)]
mod tests {
    use super::*;

    #[test]
    fn bits_come_back() {
        let back = |word: &str| match word.strip_prefix("0x") {
            Some(digits) => u64::from_str_radix(digits, 16).unwrap(),
            None => word.parse::<f64>().unwrap().to_bits(),
        };
        for v in [0.0, -0.0, 0.1, -999.0, 5e-324, f64::MAX, f64::INFINITY] {
            assert_eq!(back(&number(v)), v.to_bits(), "{v}");
        }
        for bits in [0x7ff8_0000_0000_0000, 0xfff0_0000_0000_0001] {
            assert_eq!(back(&number(f64::from_bits(bits))), bits);
        }
        assert_eq!(number(-0.0), "-0");
        assert_eq!(number(5e-324), "0x0000000000000001");
    }

    #[test]
    fn codes_have_words_or_numbers() {
        for (code, words) in [
            (0, "fixed"),
            (10, "revolute none"),
            (26, "continuous -z"),
            (33, "prismatic z"),
            (1, "code 1"),
            (17, "code 17"),
            (37, "code 37"),
            (40, "telescoping none"),
            (46, "telescoping -z"),
            (47, "code 47"),
            (50, "code 50"),
            (65535, "code 65535"),
        ] {
            assert_eq!(code_words(code), words);
        }
    }

    #[test]
    fn lines_hold_any_count() {
        let mut text = Text::default();
        text.comment("two\nlines");
        text.start();
        text.chain("arm");
        text.link(13, &[0.0, 0.5, 1.0, 1.0]);
        text.link(0, &[]);
        text.tool(&[0.0, -0.5, 1.0, 1.0]);
        text.tool(&[]);
        text.limits(&[-999.0, 999.0]);
        text.limits(&[-999.0, 999.0, f64::NAN]);
        text.numbers("joints", &[]);
        text.strict_goals();
        text.filed("arm.x", -0.5);
        let expected = "\
# two
# lines
sonde 1

chain arm
link revolute z    0 0.5 1   1
link fixed
tool               0 -0.5 1   1
tool
limits free
limits -999 999 0x7ff8000000000000
joints
goals strict
filed arm.x -0.5 bfe0000000000000
";
        assert_eq!(text.finish(), expected);
    }
}
