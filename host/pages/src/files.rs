//! Reading the repository's files, with the path in every message.

use std::fs;
use std::path::Path;

pub fn text(root: &Path, path: &str) -> Result<String, String> {
    fs::read_to_string(root.join(path)).map_err(|error| format!("{path}: {error}"))
}

/// The files of a folder with this ending, by name; none if there is no such folder.
pub fn below(root: &Path, folder: &str, ending: &str) -> Result<Vec<String>, String> {
    let place = root.join(folder);
    if !place.is_dir() {
        return Ok(Vec::new());
    }
    let told = |error: std::io::Error| format!("{folder}: {error}");
    let mut paths = Vec::new();
    for entry in fs::read_dir(&place).map_err(told)? {
        let path = entry.map_err(told)?.path();
        let name = path
            .file_name()
            .and_then(|name| name.to_str())
            .unwrap_or("")
            .to_string();
        if path.extension().is_some_and(|e| e == ending) {
            paths.push(format!("{folder}/{name}"));
        }
    }
    paths.sort();
    Ok(paths)
}
