//! The plan of the lists that are written for a sheet's arms: in words, or as
//! JSON for programs.

use crate::report::{head_json, object, string, title, Problem, GOOD};
use crate::text::File;
use relaxed_ik::Plan;
use std::fmt::Write as _;

/// A sheet that was to be planned, whatever became of it.
pub struct Planned {
    pub path: String,
    pub result: Result<(File, Plan), Problem>,
}

impl Planned {
    pub fn status(&self) -> u8 {
        self.result.as_ref().map_or_else(Problem::status, |_| GOOD)
    }

    pub fn text(&self) -> String {
        let (file, plan) = match &self.result {
            Ok(done) => done,
            Err(problem) => return problem.text(&self.path),
        };
        let mut out = title(file, &self.path);
        let _ = writeln!(
            out,
            "\nframe lists, and the record of the one-block gradient"
        );
        for (name, count, kind, bytes) in lists(plan) {
            let bytes = count * bytes;
            let _ = writeln!(out, "  {name:<16} {count:>5} {kind:<6} {bytes:>6} bytes");
        }
        let _ = writeln!(out, "\n  {:<16} {:>5}", "objectives", plan.objectives);
        if let Some(word) = file.list_word() {
            let _ = writeln!(out, "  {:<16} {word}", "goals");
        }
        out.push_str(
            "\nA list of this length is never refused as too short; one with an element fewer is,\n\
             where nothing else is wrong.\n",
        );
        out
    }

    pub fn json(&self) -> String {
        let (file, plan) = match &self.result {
            Ok(done) => done,
            Err(problem) => return problem.json(&self.path),
        };
        let numbers = [
            ("positions", plan.positions.to_string()),
            ("rotations", plan.rotations.to_string()),
            ("objectives", plan.objectives.to_string()),
            ("entries", plan.entries.to_string()),
        ];
        let mut fields = head_json(&self.path, "planned", GOOD, None);
        fields.push(("hole", string(&file.hole)));
        fields.extend(file.list_word().map(|word| ("goals", string(word))));
        fields.push(("plan", object(&numbers)));
        object(&fields)
    }
}

/// Each list by its name, how many elements it has, what they are called, and the
/// bytes of one.
fn lists(plan: &Plan) -> [(&'static str, usize, &'static str, usize); 5] {
    let floats = |name, count| (name, count, "floats", size_of::<f64>());
    let u16s = |name, count| (name, count, "u16s", size_of::<u16>());
    [
        floats("positions", plan.positions),
        floats("rotations", plan.rotations),
        u16s("record joints", plan.entries),
        u16s("record links", plan.entries),
        floats("record poses", plan.pose_floats()),
    ]
}
