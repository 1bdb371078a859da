//! Holds the C header and the Rust declarations against the library's source:
//! names, types, their order and the parameters' names. Nothing else would notice
//! one that is wrong: a linker looks at names alone.

#![forbid(unsafe_code)]

mod parse;

use parse::Function;
use std::collections::BTreeMap;
use std::path::Path;
use std::process::ExitCode;
use std::{env, fs};

const USAGE: &str = "\
header [ROOT] [--source DIR] [--may-lack NAME,NAME..]

  ROOT        the repository (default: the folder it is run in)
  --source    the library's source (default: ROOT/crates/exports/src)
  --may-lack  names that the library need not have yet";

/// Where the library is declared for C and for Rust, a file or a folder.
const HEADER: &str = "include/relaxed_ik.h";
const RUST: &str = "host/relaxed_ik/src";

struct Options {
    root: String,
    source: Option<String>,
    may_lack: Vec<String>,
}

fn options(mut arguments: impl Iterator<Item = String>) -> Result<Options, String> {
    let mut options = Options {
        root: ".".to_string(),
        source: None,
        may_lack: Vec::new(),
    };
    while let Some(argument) = arguments.next() {
        let mut value = || {
            arguments
                .next()
                .ok_or_else(|| format!("{argument} needs a value"))
        };
        match argument.as_str() {
            "--source" => options.source = Some(value()?),
            "--may-lack" => options.may_lack = value()?.split(',').map(str::to_string).collect(),
            other if other.starts_with('-') => return Err(format!("unknown option: {other}")),
            _ => options.root = argument,
        }
    }
    Ok(options)
}

type Functions = BTreeMap<String, Function>;

/// The files of a folder with this ending, by name, or the one file.
fn texts(place: &Path, ending: &str) -> Result<Vec<(String, String)>, String> {
    let told = |error: std::io::Error| format!("{}: {error}", place.display());
    let mut paths = Vec::new();
    if place.is_dir() {
        for entry in fs::read_dir(place).map_err(told)? {
            let path = entry.map_err(told)?.path();
            if path.extension().is_some_and(|e| e == ending) {
                paths.push(path);
            }
        }
        paths.sort();
    } else {
        paths.push(place.to_path_buf());
    }
    let read = |path: std::path::PathBuf| {
        let text = fs::read_to_string(&path).map_err(|e| format!("{}: {e}", path.display()))?;
        Ok((path.display().to_string(), text))
    };
    paths.into_iter().map(read).collect()
}

/// All functions that `parse` finds in the texts. A name twice is a fault.
fn gather(
    texts: &[(String, String)],
    parse: fn(&str) -> Result<Vec<Function>, String>,
) -> Result<Functions, String> {
    let mut all = Functions::new();
    for (path, text) in texts {
        for function in parse(text).map_err(|fault| format!("{path}: {fault}"))? {
            let name = function.name.clone();
            if all.insert(name.clone(), function).is_some() {
                return Err(format!("{path}: {name} a second time"));
            }
        }
    }
    Ok(all)
}

/// What differs, name by name, and how many names agree.
fn hold(source: &Functions, declared: &Functions, may_lack: &[String]) -> (usize, Vec<String>) {
    let (mut same, mut faults) = (0, Vec::new());
    for (name, function) in declared {
        match source.get(name) {
            None if may_lack.contains(name) => println!("  {name}: not in the library yet"),
            None => faults.push(format!("{name} is declared and not in the library")),
            Some(own) if own == function => same += 1,
            Some(own) => faults.push(format!(
                "{name} differs\n    library:  {own}\n    declared: {function}"
            )),
        }
    }
    for name in source.keys().filter(|name| !declared.contains_key(*name)) {
        faults.push(format!("{name} is in the library and not declared"));
    }
    (same, faults)
}

fn run(options: &Options) -> Result<(usize, usize), String> {
    let root = Path::new(&options.root);
    let source = match &options.source {
        Some(source) => Path::new(source).to_path_buf(),
        None => root.join("crates/exports/src"),
    };
    let source = gather(&texts(&source, "rt")?, parse::rattle)?;
    if source.is_empty() {
        return Err("the library's source exports nothing".to_string());
    }
    let (mut passed, mut failed) = (0, 0);
    let mut report = |place: &str, (same, faults): (usize, Vec<String>)| {
        println!("{place}: {same} the same, {} faults", faults.len());
        faults.iter().for_each(|fault| println!("  {fault}"));
        passed += same;
        failed += faults.len();
    };
    let header = gather(&texts(&root.join(HEADER), "h")?, parse::c)?;
    report(HEADER, hold(&source, &header, &options.may_lack));
    let rust = gather(&texts(&root.join(RUST), "rs")?, parse::rust)?;
    report(RUST, hold(&source, &rust, &options.may_lack));
    Ok((passed, failed))
}

fn main() -> ExitCode {
    let options = match options(env::args().skip(1)) {
        Ok(options) => options,
        Err(message) => {
            eprintln!("{message}\n\n{USAGE}");
            return ExitCode::from(2);
        }
    };
    let (passed, failed) = run(&options).unwrap_or_else(|fault| {
        println!("{fault}");
        (0, 1)
    });
    println!("{passed} passed, {failed} failed");
    if failed == 0 {
        ExitCode::SUCCESS
    } else {
        ExitCode::FAILURE
    }
}

#[cfg(test)]
mod tests {
    use super::*;

    const SOURCE: &str = "
        #[unsafe(no_mangle)]
        pub extern \"C\" fn ik_pose(
            sizes: &[u8], // chains
            ends: &mut [u8],
        ) -> u32
            ensures number { result ≡ 0 }
        {
            0
        }

        fn inner(x: f64) -> f64 { x }

        #[unsafe(no_mangle)]
        pub extern \"C\" fn ik_b() -> f64 { 1.0 }";
    const HEADER: &str = "
        /* one; two */
        #define IK_B 3
        extern \"C\" {
        uint32_t ik_pose(const uint8_t *sizes, size_t sizes_length,
            uint8_t *ends, size_t ends_length);
        double ik_b(void); // a constant
        }";

    fn one(text: &str, parse: fn(&str) -> Result<Vec<Function>, String>) -> Functions {
        gather(&[("text".to_string(), text.to_string())], parse).unwrap()
    }

    fn faults(header: &str) -> Vec<String> {
        let declared = gather(&[("text".to_string(), header.to_string())], parse::c);
        match declared {
            Ok(declared) => hold(&one(SOURCE, parse::rattle), &declared, &[]).1,
            Err(fault) => vec![fault],
        }
    }

    #[test]
    fn the_same_is_the_same() {
        assert_eq!(one(SOURCE, parse::rattle).len(), 2);
        assert!(faults(HEADER).is_empty());
    }

    #[test]
    fn each_way_to_differ_is_told() {
        for (good, bad) in [
            ("ik_b(void)", "ik_c(void)"),
            ("double ik_b", "float ik_b"),
            ("uint32_t ik_pose", "uint16_t ik_pose"),
            ("const uint8_t *sizes", "uint8_t *sizes"),
            ("uint8_t *ends", "const uint8_t *ends"),
            ("sizes_length", "ends_count"),
            ("*ends", "*renewed"),
            ("(void)", "(double x)"),
            (", size_t ends_length", ""),
            ("double ik_b(void);", ""),
        ] {
            let header = HEADER.replacen(good, bad, 1);
            assert_ne!(header, HEADER);
            assert!(!faults(&header).is_empty(), "{good} as {bad}");
        }
    }

    #[test]
    fn rust_declarations_are_held_in_the_same_way() {
        let rust = "extern \"C\" { pub fn ik_pose(sizes: *const u8, sizes_length: usize, \
                    ends: *mut u8, ends_length: usize) -> u32; pub fn ik_b() -> f64; }";
        let source = one(SOURCE, parse::rattle);
        let faults = |rust: &str| hold(&source, &one(rust, parse::rust), &[]).1;
        assert!(faults(rust).is_empty());
        for (good, bad) in [
            ("*const", "*mut"),
            ("sizes_length", "length"),
            ("-> u32", "-> u16"),
            ("pub fn ik_b() -> f64;", ""),
        ] {
            let wrong = rust.replacen(good, bad, 1);
            assert_eq!(faults(&wrong).len(), 1, "{good} as {bad}");
        }
    }

    #[test]
    fn a_second_declaration_is_a_fault() {
        let text = |name: &str| {
            let text = "extern \"C\" { pub fn ik_b() -> f64; }";
            (name.to_string(), text.to_string())
        };
        assert!(gather(&[text("one")], parse::rust).is_ok());
        assert!(gather(&[text("one"), text("two")], parse::rust).is_err());
    }

    #[test]
    fn a_name_may_be_lacking_if_it_is_listed() {
        let header = HEADER.replace("double ik_b", "double ik_d(void); double ik_b");
        let (source, declared) = (one(SOURCE, parse::rattle), one(&header, parse::c));
        let listed = ["ik_d".to_string()];
        assert!(hold(&source, &declared, &listed).1.is_empty());
        assert_eq!(hold(&source, &declared, &[]).1.len(), 1);
    }

    #[test]
    fn options_are_read() {
        let read = |line: &str| options(line.split_whitespace().map(str::to_string));
        let options = read("here --source there --may-lack a,b").unwrap();
        assert_eq!(options.root, "here");
        assert_eq!(options.source.as_deref(), Some("there"));
        assert_eq!(options.may_lack, ["a", "b"]);
        assert!(read("--source").is_err());
        assert!(read("--nothing").is_err());
    }
}
