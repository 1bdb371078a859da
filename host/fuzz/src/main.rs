//! Writes cases to start from, and shows a case that was found.

#![forbid(unsafe_code)]

use compare::calls::Call;
use compare::draw::Draw;
use fuzz::input::Input;
use fuzz::mutate::drawn;
use std::path::Path;
use std::process::ExitCode;
use std::{env, fs};

const USAGE: &str = "\
fuzz seeds FOLDER COUNT SEED  writes so many cases a call into the folder
fuzz show FILE                prints the case in a file
(tools/fuzz builds the target and runs it)";

/// Cases as `compare` draws them, a file each.
fn seeds(folder: &Path, count: u64, seed: u64) -> Result<String, String> {
    fs::create_dir_all(folder).map_err(|e| format!("{}: {e}", folder.display()))?;
    let mut draw = Draw::new(seed);
    for call in Call::ALL {
        for number in 0..count {
            let file = folder.join(format!("{}_{number}", call.name()));
            fs::write(&file, drawn(call, &mut draw).bytes())
                .map_err(|e| format!("{}: {e}", file.display()))?;
        }
    }
    let all = count * Call::ALL.len() as u64;
    Ok(format!("{all} cases to start from"))
}

fn show(file: &Path) -> Result<String, String> {
    let bytes = fs::read(file).map_err(|e| format!("{}: {e}", file.display()))?;
    Ok(Input::read(&bytes).to_string())
}

fn number(text: &str) -> Result<u64, String> {
    text.parse()
        .map_err(|_| format!("not a whole number: {text}"))
}

fn run(arguments: &[&str]) -> Result<String, String> {
    match arguments {
        ["seeds", folder, count, seed] => seeds(Path::new(folder), number(count)?, number(seed)?),
        ["show", file] => show(Path::new(file)),
        _ => Err(USAGE.to_string()),
    }
}

fn main() -> ExitCode {
    let arguments: Vec<String> = env::args().skip(1).collect();
    let arguments: Vec<&str> = arguments.iter().map(String::as_str).collect();
    match run(&arguments) {
        Ok(text) => {
            println!("{text}");
            ExitCode::SUCCESS
        }
        Err(message) => {
            eprintln!("{message}");
            ExitCode::from(2)
        }
    }
}
