//! The program run on a small repository: what it writes stands, and each way to be out of date is found.

use std::path::{Path, PathBuf};
use std::process::{Command, Output};
use std::sync::atomic::{AtomicUsize, Ordering};
use std::{env, fs, process};

/// A repository of three crates in a folder of its own, which goes with it.
struct Small(PathBuf);

impl Drop for Small {
    fn drop(&mut self) {
        let _ = fs::remove_dir_all(&self.0);
    }
}

const FILES: [(&str, &str); 17] = [
    ("crates.txt", "ground:\nstate_calls: ground\nexports staticlib: ground\n"),
    (
        "crates/ground/src/lib.rt",
        "#![tactic(auto)]\n// The ground.\nghost use Rattle.std.specs.Prelude.{◌≡◌};\nghost use Rattle.ground.specs.Twice.{twice};\n\n\
         pub fn double(x: u16) -> u16\n    ensures { result ≡ twice x }\n{\n    x + x\n}\n",
    ),
    ("crates/ground/specs/Lib.antt", "pub mod Twice\npub mod Rows\n"),
    (
        "crates/ground/specs/Twice.antt",
        "-- Twice a number.\nuse Rattle.std.specs.Prelude.{ℕ, ◌+◌}\n\n-- x and x\nunfoldable pub twice : ℕ → ℕ\ntwice x = x + x\n\n\
         unfoldable pub unused : ℕ\nunused = twice 1\n\npub law : twice 0 ≡ 0\nlaw = refl\n",
    ),
    (
        "crates/ground/specs/Rows.antt",
        "use Rattle.std.specs.Prelude.{ℕ}\nuse Rattle.ground.specs.Twice.{twice}\n\nabbrev pub row : ℕ → ℕ\nrow n = n\n\n\
         abbrev pub odd : ℕ\nodd = row 3\n\npub lowest : (x : ℕ) → IsLowest odd (twice x)\nlowest x = refl\n",
    ),
    (
        "crates/ground/must-fail/minus.edit",
        "calls: load\nfile: src/lib.rt\nold:     x + x\nnew:     x - x\n",
    ),
    (
        "crates/ground/must-fail/times.edit",
        "calls: load relaxed_ik_load\nfile: src/lib.rt\nold:     x + x\nnew:     x * x\n",
    ),
    (
        "crates/ground/must-fail/half.edit",
        "calls: relaxed_ik_load\nfile: src/lib.rt\nold:     x + x\nnew:     x / x\n",
    ),
    ("crates/state_calls/src/lib.rt", "pub mod state;\nmod inner;\n"),
    (
        "crates/state_calls/src/state.rt",
        "ghost use Rattle.std.specs.Prelude.{◌≡◌};\nghost use Rattle.ground.specs.Twice.{twice};\n\n// What is kept.\n#[derive(Clone, Copy)]\npub struct State {\n    pub kept: u16,\n}\n\n\
         // Doubles it.\npub fn load(state: State) -> u16\n    ensures number { result ≡ twice state.kept }\n{\n    ground::double(state.kept)\n}\n",
    ),
    ("crates/state_calls/src/inner.rt", "pub fn hidden() -> u16\n{\n    1\n}\n"),
    ("crates/exports/src/lib.rt", "pub mod arms;\n"),
    (
        "crates/exports/src/arms.rt",
        "ghost use Rattle.std.specs.Prelude.{◌≡◌};\nghost use Rattle.ground.specs.Twice.{twice};\n\n#[unsafe(no_mangle)]\npub extern \"C\" fn relaxed_ik_load(x: u16) -> u32\n    \
         ensures { result ≡ twice x }\n{\n    ground::double(x) as u32\n}\n",
    ),
    (
        "include/relaxed_ik.h",
        "/* Doubles. Lent: a number. Answers 0, 3. */\nuint32_t relaxed_ik_load(uint16_t x);\n",
    ),
    (
        "docs/DECISIONS.md",
        "# Decisions\n\n| Edit | The wrong program |\n|---|---|\n| ground/minus | nothing but 0 |\n| ground/times | the square |\n| ground/half | nothing but 1 |\n\n## What the must-fail edits rule out\n",
    ),
    (
        "docs/TRUST.md",
        "# Trust\n\n<!-- pages: sum -->\n<!-- pages: end -->\n<!-- pages: assumed -->\n<!-- pages: end -->\n\n\
         ## The definitions, file by file\n\n<!-- pages: files -->\n<!-- pages: end -->\n",
    ),
    (
        "docs/ARCHITECTURE.md",
        "# Architecture\n\n![crates](architecture.svg)\n\n<!-- pages: functions -->\n<!-- pages: end -->\n",
    ),
];

const README: &str =
    "# Small\n\n[`twice`](crates/ground/specs/Twice.antt#L5), [trust](docs/TRUST.md#trust)\n";

impl Small {
    fn new() -> Small {
        static COUNT: AtomicUsize = AtomicUsize::new(0);
        let number = COUNT.fetch_add(1, Ordering::Relaxed);
        let small = Small(env::temp_dir().join(format!("pages-{}-{number}", process::id())));
        FILES.iter().for_each(|(path, text)| small.put(path, text));
        small.put("README.md", README);
        let output = small.pages(&[]);
        assert!(output.status.success(), "{output:?}");
        small
    }

    fn put(&self, path: &str, text: &str) {
        let path = self.0.join(path);
        fs::create_dir_all(path.parent().unwrap_or(Path::new("."))).unwrap();
        fs::write(path, text).unwrap();
    }

    fn text(&self, path: &str) -> String {
        fs::read_to_string(self.0.join(path)).unwrap()
    }

    /// Changes one place of a file.
    fn change(&self, path: &str, old: &str, new: &str) {
        let text = self.text(path);
        assert_eq!(text.matches(old).count(), 1, "{old} in {path}");
        self.put(path, &text.replace(old, new));
    }

    fn pages(&self, options: &[&str]) -> Output {
        let mut command = Command::new(env!("CARGO_BIN_EXE_pages"));
        command.arg(&self.0).args(options).output().unwrap()
    }

    /// What `--check` says, and whether it found all good.
    fn check(&self) -> (bool, String) {
        let output = self.pages(&["--check"]);
        let said = String::from_utf8(output.stdout).unwrap();
        (output.status.success(), said)
    }

    /// `--check` fails and says so; where running the program mends it, it does.
    fn fails(&self, says: &str, mended: bool) {
        let (good, said) = self.check();
        assert!(!good && said.contains(says), "{says} is not in:\n{said}");
        let last = said.lines().last().unwrap_or("").to_string();
        assert!(
            last.ends_with(" failed") && !last.ends_with(" 0 failed"),
            "{last}"
        );
        self.pages(&[]);
        let (good, said) = self.check();
        assert_eq!(good, mended, "{said}");
    }
}

#[test]
fn what_is_written_stands() {
    let small = Small::new();
    let (good, said) = small.check();
    assert!(good, "{said}");
    assert!(said.trim_end().ends_with(" passed, 0 failed"), "{said}");
    let trust = small.text("docs/TRUST.md");
    assert!(
        trust.contains("the 2 public calls, 1 on floats and 1 exported"),
        "{trust}"
    );
    // `twice` and `State`: two and three lines. `unused` and Rows.antt's two are in no contract.
    assert!(
        trust.contains("**2 definitions and types of 5 lines in 2 files**"),
        "{trust}"
    );
    assert!(
        trust.contains("none of the other 3 definitions") && trust.contains("none of the 2 laws"),
        "{trust}"
    );
    assert!(
        trust.contains("| `Rattle.std.specs.Prelude` | `ℕ` `◌+◌` `◌≡◌` |"),
        "{trust}"
    );
    let architecture = small.text("docs/ARCHITECTURE.md");
    assert!(
        architecture.contains("3 crates with 4 functions"),
        "{architecture}"
    );
}

#[test]
fn a_call_has_its_contract_its_numbers_and_its_edits() {
    let small = Small::new();
    let calls = small.text("docs/CALLS.md");
    let row = |name: &str| {
        calls
            .lines()
            .find(|line| line.contains(name))
            .unwrap_or("")
            .to_string()
    };
    let load = row("[`load`]");
    for cell in [
        "[`load`](../crates/state_calls/src/state.rt#L11) | Doubles it. |",
        "| [0, 3](../crates/ground/specs/Rows.antt#L10) |",
        "| [number](../crates/state_calls/src/state.rt#L12) |",
        "| [`State`](../crates/state_calls/src/state.rt#L6), [`twice`](../crates/ground/specs/Twice.antt#L5) |",
        "| 2, 5 lines | [declaration](../include/relaxed_ik.h#L2) |",
        "[ground/minus](../crates/ground/must-fail/minus.edit \"nothing but 0\")",
    ] {
        assert!(load.contains(cell), "{cell} is not in {load}");
    }
    let exported = row("[`relaxed_ik_load`]");
    assert!(exported.contains("| Doubles. |"));
    assert!(
        !exported.contains("ground/minus"),
        "an edit stands where its own line says, whatever the call runs"
    );
    assert!(
        !calls.contains("hidden"),
        "a function of a private module is no call"
    );
}

#[test]
fn an_edit_names_its_calls() {
    let small = Small::new();
    let (good, said) = small.check();
    assert!(good, "{said}");
    let times = "crates/ground/must-fail/times.edit";
    small.change(times, "calls: load relaxed_ik_load", "calls: load");
    small.fails(
        "relaxed_ik_load: must-fail edits that change its answers: 1",
        false,
    );
    small.change(times, "calls: load", "calls: load relaxed_ik_load");
    let path = "crates/ground/must-fail/minus.edit";
    small.change(path, "calls: load", "calls: load relaxed_ik_load");
    small.fails("docs/CALLS.md: out of date", true);
    small.change(path, "calls: load", "calls: lod");
    small.fails("minus.edit: there is no public call lod", false);
    small.change(path, "calls: lod", "calls: load");
    small.change(path, "x + x", "x + y");
    small.fails("'    x + y' is not in crates/ground/src/lib.rt", false);
}

#[test]
fn a_broken_link_is_found() {
    let small = Small::new();
    small.put("README.md", &format!("{README}[a](docs/NOWHERE.md)\n"));
    small.fails(
        "README.md:4: [a](docs/NOWHERE.md): there is no such file",
        false,
    );
    small.put("README.md", &format!("{README}[a](docs/TRUST.md#no)\n"));
    small.fails("there is no heading '#no'", false);
    small.put(
        "README.md",
        &format!("{README}[`none`](crates/ground/specs/Twice.antt#L5)\n"),
    );
    small.fails("'none' is not declared there", false);
    small.put(
        "README.md",
        &format!("{README}[here](crates/ground/specs/Twice.antt#L5)\n"),
    );
    small.fails("a link to a line has the declared name", false);
}

#[test]
fn a_moved_line_is_found() {
    let small = Small::new();
    small.change(
        "crates/ground/specs/Twice.antt",
        "-- x and x\n",
        "-- x\n-- and x\n",
    );
    small.fails("docs/CALLS.md: out of date", true);
    assert!(small.text("README.md").contains("Twice.antt#L6"));
    small.change("include/relaxed_ik.h", "/* Doubles.", "\n/* Doubles.");
    small.fails("docs/CALLS.md: out of date", true);
}

#[test]
fn a_wrong_count_is_found() {
    let small = Small::new();
    small.change("docs/TRUST.md", "**2 definitions", "**1 definitions");
    small.fails("docs/TRUST.md: out of date", true);
    small.change(
        "crates/ground/specs/Twice.antt",
        "twice x = x + x",
        "twice x =\n    x + x",
    );
    small.fails("docs/TRUST.md: out of date", true);
    assert!(small.text("docs/TRUST.md").contains("of 6 lines"));
    small.change(
        "crates/ground/specs/Twice.antt",
        "    x + x",
        "    x + unused",
    );
    small.fails("docs/TRUST.md: out of date", true);
    assert!(small
        .text("docs/TRUST.md")
        .contains("**3 definitions and types of 8 lines"));
}

#[test]
fn the_header_is_held_to_the_theorem() {
    let small = Small::new();
    small.change("include/relaxed_ik.h", "Answers 0, 3.", "Answers 0 to 3.");
    small.fails(
        "relaxed_ik_load: the header says 0 to 3, the theorem 0, 3",
        false,
    );
}

#[test]
fn a_call_that_asks_something_is_found() {
    let small = Small::new();
    let ensures = "    ensures number";
    let asks = format!("    requires {{ twice state.kept ≡ 0 }}\n{ensures}");
    small.change("crates/state_calls/src/state.rt", ensures, &asks);
    small.fails("load has a 'requires'", false);
}

#[test]
fn a_new_crate_is_taken_in() {
    let small = Small::new();
    small.put(
        "crates.txt",
        "ground:\nstate_calls: ground\nexports staticlib: ground\nreplay: exports io libc\n",
    );
    small.put("crates/replay/src/main.rt", "// Runs.\nfn main() {\n}\n");
    small.fails("docs/architecture.svg: out of date", true);
    assert!(small.text("docs/architecture.svg").contains(">replay<"));
    assert!(small
        .text("docs/TRUST.md")
        .contains("`replay` needs the kit's `libc`, whose C functions have assumed contracts"));
    small.put(
        "crates.txt",
        "ground:\nstate_calls: ground\nexports staticlib: ground\nreplay: exports\n",
    );
    small.fails("docs/TRUST.md: out of date", true);
    assert!(small.text("docs/TRUST.md").contains("No crate needs a C"));
    let main = "// Runs.\nuse std::io;\nuse std::io::{Print, Read};\nfn main() {\n}\n";
    small.put("crates/replay/src/main.rt", main);
    small.fails("docs/TRUST.md: out of date", true);
    assert!(small
        .text("docs/TRUST.md")
        .contains("`replay` needs the kit's `std::io`, whose C functions have assumed contracts"));
}

#[test]
fn what_cannot_be_read_is_told() {
    let small = Small::new();
    small.change(
        "crates/ground/specs/Twice.antt",
        "twice x = x + x",
        "twice x = x + other",
    );
    small.fails(
        "crates/ground/specs/Twice.antt: no 'use' line brings 'other'",
        false,
    );
    small.change("crates/ground/specs/Twice.antt", "x + other", "x + x");
    small.change("docs/DECISIONS.md", "ground/minus", "ground/plus");
    small.fails(
        "docs/DECISIONS.md: there is no must-fail edit ground/plus",
        false,
    );
    let output = small.pages(&["--nothing"]);
    assert_eq!(output.status.code(), Some(2));
    assert!(String::from_utf8_lossy(&output.stderr).contains("unknown option: --nothing"));
}
