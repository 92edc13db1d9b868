//! Each public call has an example in its documentation. That the examples run is a test of their own.

use std::fs;
use std::path::{Path, PathBuf};

/// Returns the sources at or below this path.
fn sources(path: &Path) -> Vec<PathBuf> {
    if path.is_dir() {
        let entries = fs::read_dir(path).expect("a folder of this package");
        let paths = entries.map(|entry| entry.expect("an entry").path());
        return paths.flat_map(|path| sources(&path)).collect();
    }
    vec![path.to_path_buf()]
}

/// Returns whether a call begins in this line that programs may make: a public function, or one of a public trait.
fn is_public(line: &str, in_trait: bool) -> bool {
    line.starts_with("pub fn ") || in_trait && line.starts_with("fn ")
}

/// Returns the names of the public calls, each with whether it has an example.
fn calls(text: &str) -> Vec<(&str, bool)> {
    let mut calls = Vec::new();
    let (mut documented, mut hidden) = (false, false);
    let mut in_trait = None;
    for line in text.lines() {
        let code = line.trim_start();
        let indent = line.len() - code.len();
        if code.starts_with("pub trait ") {
            in_trait = Some(indent);
        } else if code == "}" && in_trait == Some(indent) {
            in_trait = None;
        }
        if is_public(code, in_trait.is_some()) && !hidden {
            let name = code.split(['(', '<']).next().expect("a name");
            calls.push((name, documented));
        }
        let is_above = code.starts_with("///") || code.starts_with("#[");
        documented = is_above && (documented || code == "/// ```");
        hidden = is_above && (hidden || code == "#[doc(hidden)]");
    }
    calls
}

#[test]
fn each_public_call_has_an_example() {
    let mut count = 0;
    for path in sources(&Path::new(env!("CARGO_MANIFEST_DIR")).join("src")) {
        let text = fs::read_to_string(&path).expect("a source");
        for (name, documented) in calls(&text) {
            assert!(documented, "{}: {name} has no example", path.display());
            count += 1;
        }
    }
    assert!(count > 90, "{count} calls");
}
