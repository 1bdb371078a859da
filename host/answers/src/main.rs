//! Writes the lists of the reference run's answers that `crates/replay` and
//! `crates/sequences` hold the proved code to. This program knows the published
//! files and the stand-in functions, and nothing of the proved library.

#![forbid(unsafe_code)]

mod arms;
mod cases;
mod damage;
mod leaves;
mod record;
mod sequences;
mod sizing;
mod strict;
mod strict_sequences;
mod telescoping;
mod tool_sequences;
mod tools;
mod turn_sequences;
mod turns;
mod weight_sequences;
mod weights;

use draw::Draw;
use record::Record;
use std::fs;
use std::path::Path;
use std::process::ExitCode;

const USAGE: &str = "\
answers FILE [--sequences] [--check | --damage KIND]

  FILE           the stored list
  --sequences    sequences of calls on the state, for crates/sequences, in
                 place of single calls, for crates/replay
  --check        writes nothing, and says whether the file is as it would be
                 written; the last line is 'N passed, M failed'
  --damage KIND  writes the list with damage: answers that differ, or a list
                 that is cut short, has an unknown call, has a byte behind its
                 last record or is too long: differ, short, unknown, behind,
                 long";

/// Another seed draws other cases.
const SEED: u64 = 7;

/// What is written: single calls, or sequences of calls on the state.
#[derive(Clone, Copy, PartialEq)]
enum Kind {
    Calls,
    Sequences,
}

fn records(kind: Kind) -> Vec<Record> {
    let mut draw = Draw::new(SEED);
    match kind {
        Kind::Calls => {
            let mut records = cases::all(&mut draw);
            records.extend(leaves::all(&mut draw));
            // What came later is behind all others, which keep their bytes.
            records.extend(sizing::all(&mut draw));
            records.extend(weights::all(&mut draw));
            records.extend(tools::all(&mut draw));
            records.extend(strict::all(&mut draw));
            records.extend(telescoping::all(&mut draw));
            records.extend(turns::all(&mut draw));
            records
        }
        Kind::Sequences => {
            let mut records = sequences::all(&mut draw);
            records.extend(weight_sequences::all(&mut draw));
            records.extend(tool_sequences::all(&mut draw));
            records.extend(strict_sequences::all(&mut draw));
            records.extend(strict_sequences::telescoping(&mut draw));
            records.extend(turn_sequences::all(&mut draw));
            records
        }
    }
}

fn write(path: &Path, bytes: &[u8]) -> Result<(), String> {
    fs::write(path, bytes).map_err(|error| format!("{}: {error}", path.display()))
}

fn write_list(path: &Path, kind: Kind) -> Result<String, String> {
    let records = records(kind);
    let bytes = record::stored(&records)?;
    write(path, &bytes)?;
    Ok(format!("{} records, {} bytes", records.len(), bytes.len()))
}

fn write_damaged(path: &Path, kind: Kind, damage: &str) -> Result<String, String> {
    let bytes = damage::damaged(records(kind), damage)?;
    write(path, &bytes)?;
    Ok(format!("{damage}: {} bytes", bytes.len()))
}

fn check(path: &Path, kind: Kind) -> Result<String, String> {
    let records = records(kind);
    if kind == Kind::Sequences {
        match sequences::counts(&records) {
            Ok(lines) => print!("{lines}"),
            Err(lines) => return Err(format!("{lines}\n0 passed, 1 failed")),
        }
    }
    let found = fs::read(path).map_err(|error| format!("{}: {error}", path.display()))?;
    if found == record::stored(&records)? {
        return Ok("1 passed, 0 failed".to_string());
    }
    println!("{}: not as it would be written", path.display());
    Err("0 passed, 1 failed".to_string())
}

fn main() -> ExitCode {
    let mut words = command_line::words();
    let all = words.len();
    words.retain(|word| word != "--sequences");
    let kind = match all - words.len() {
        0 => Kind::Calls,
        _ => Kind::Sequences,
    };
    let words: Vec<&str> = words.iter().map(String::as_str).collect();
    let done = match words[..] {
        [path] if !path.starts_with('-') => Some(write_list(Path::new(path), kind)),
        [path, "--check"] | ["--check", path] => Some(check(Path::new(path), kind)),
        [path, "--damage", damage] => Some(write_damaged(Path::new(path), kind, damage)),
        _ => None,
    };
    command_line::finish(USAGE, done)
}

#[cfg(test)]
mod tests {
    use super::*;
    use reference::tools::TOOLS;

    #[test]
    fn the_stored_lists_are_up_to_date() {
        for (kind, name) in [(Kind::Calls, "replay"), (Kind::Sequences, "sequences")] {
            let root = Path::new(env!("CARGO_MANIFEST_DIR")).join("../../crates");
            let found = fs::read(root.join(name).join("stdin")).unwrap_or_default();
            assert!(
                found == record::stored(&records(kind)).expect("a list"),
                "write crates/{name}/stdin again at the root"
            );
        }
    }

    /// What was stored before a change: records, bytes, their FNV-1a sum.
    type Before = [(Kind, usize, usize, u64); 2];

    const BEFORE_WEIGHTS: Before = [
        (Kind::Calls, 1126, 305_604, 0x052b_4a88_88d8_9df9),
        (Kind::Sequences, 1275, 363_994, 0x4480_a2d4_96b5_6c87),
    ];
    const BEFORE_TOOLS: Before = [
        (Kind::Calls, 1286, 379_584, 0xcaa5_624b_5967_e0cf),
        (Kind::Sequences, 1436, 391_684, 0x52e5_9b0b_7600_12f1),
    ];
    const BEFORE_STRICT: Before = [
        (Kind::Calls, 1452, 465_810, 0xaa8b_e5f2_c787_f1e8),
        (Kind::Sequences, 1592, 431_172, 0xb392_6ca0_3525_5e86),
    ];

    const BEFORE_TELESCOPING: Before = [
        (Kind::Calls, 1583, 509_889, 0xe80b_2428_ba5f_801a),
        (Kind::Sequences, 1740, 467_494, 0x5da1_dc08_55bb_ef23),
    ];

    const BEFORE_TURNS: Before = [
        (Kind::Calls, 1652, 549_771, 0x0f7e_b4f5_334f_e932),
        (Kind::Sequences, 1888, 505_554, 0x0a73_cc15_a8af_08ce),
    ];

    /// A turning joint's range ends at 64 where it ended at 8, and sine and cosine answer
    /// otherwise beyond 4.5.
    fn without_turns(kind: Kind, record: &mut Record) {
        let [beyond, before] = [64.0f64, 8.0].map(f64::next_up);
        for float in record
            .lists
            .iter_mut()
            .flat_map(|list| list.chunks_exact_mut(8))
        {
            for sign in [1.0, -1.0] {
                if *float == (sign * beyond).to_le_bytes() {
                    float.copy_from_slice(&(sign * before).to_le_bytes());
                }
            }
        }
        if kind == Kind::Calls {
            turns::undo(record);
        }
    }

    /// 47 stands for an unlisted code where 40 stood, which change 6 lists.
    fn with_forty(kind: Kind, record: &mut Record) {
        if kind == Kind::Calls && record.call == arms::Call::Sizing as u16 {
            let codes = &mut record.lists[arms::List::Codes as usize];
            for code in codes.chunks_exact_mut(2).filter(|code| *code == [47, 0]) {
                code[0] = 40;
            }
        }
    }

    fn without_pick(kind: Kind, record: &mut Record) {
        let place = match kind {
            Kind::Calls => strict::place(record),
            Kind::Sequences => sequences::pick_place(record),
        };
        if let Some(at) = place {
            assert!(record.lists.remove(at).is_empty());
        }
    }

    fn without_tools(kind: Kind, record: &mut Record) {
        // A call on the state is lent neither weights nor tools.
        if kind == Kind::Sequences {
            return;
        }
        if let Some(at) = tools::place(record) {
            let lists = record.lists.drain(at..at + TOOLS);
            assert!(lists.into_iter().all(|list| list.is_empty()));
        }
    }

    fn without_weights(kind: Kind, record: &mut Record) {
        if kind == Kind::Calls && weights::is_weighted(record) {
            assert!(record.lists.remove(arms::List::Weights as usize).is_empty());
        }
    }

    /// The older records without what they were given are the older file, byte for
    /// byte.
    #[test]
    fn older_records_keep_their_bytes() {
        type Without = fn(Kind, &mut Record);
        // The latest first.
        let changes: [(Before, Without); 5] = [
            (BEFORE_TURNS, without_turns),
            (BEFORE_TELESCOPING, with_forty),
            (BEFORE_STRICT, without_pick),
            (BEFORE_TOOLS, without_tools),
            (BEFORE_WEIGHTS, without_weights),
        ];
        for last in 1..=changes.len() {
            for (kind, count, length, sum) in changes[last - 1].0 {
                let mut older = records(kind);
                older.truncate(count);
                for (_, without) in &changes[..last] {
                    older.iter_mut().for_each(|record| without(kind, record));
                }
                let bytes = record::stored(&older).expect("a list");
                assert_eq!((bytes.len(), draw::fnv(&bytes)), (length, sum));
            }
        }
    }
}
