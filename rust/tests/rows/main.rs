//! Asks this crate the rows of the repository's tables, `crates/bites_rows/data`, over bytes, and over texts too if the
//! haystack and the template are texts and the search does not begin within a character. Their README says what a row is.
//!
//! With a number N as argument, only one of N rows is asked: `cargo test --test rows -- 40`.

use std::collections::BTreeMap;
use std::path::{Path, PathBuf};
use std::process::ExitCode;
use std::{env, fs};

mod row;
mod surface;

use row::Row;

/// The calls of a table that no call of the crate answers.
const LEFT_OUT: [(&str, &str); 4] = [
    ("captures_full", "the crate has no groups of a whole match"),
    ("tree", "the crate returns no tree"),
    ("program", "the crate returns no compiled program"),
    ("table", "the crate makes a table when searches need it"),
];

#[derive(Default)]
struct Report {
    asked: BTreeMap<String, usize>,
    left_out: BTreeMap<&'static str, usize>,
    wrong: usize,
}

impl Report {
    fn ask(&mut self, row: &Row) {
        if let Some((_, reason)) = LEFT_OUT.iter().find(|(call, _)| row.call == *call) {
            return self.leave_out(reason);
        }
        let Ok(pattern) = std::str::from_utf8(&row.pattern) else {
            return self
                .leave_out("the pattern is not UTF-8, and a pattern of the crate is a text");
        };
        self.compare("bytes", row, surface::over_bytes(row, pattern));
        if let Some(answers) = surface::over_texts(row, pattern) {
            self.compare("texts", row, answers);
        }
    }

    fn leave_out(&mut self, reason: &'static str) {
        *self.left_out.entry(reason).or_default() += 1;
    }

    /// Asks a row in every way. Each must give the expected answer.
    fn compare(&mut self, surface: &str, row: &Row, answers: Vec<String>) {
        *self
            .asked
            .entry(format!("{surface}: {}", row.call))
            .or_default() += 1;
        if let Some(other) = answers.iter().find(|answer| **answer != row.wanted) {
            self.wrong += 1;
            println!(
                "{}: over {surface}: wanted {}, but got {other}",
                row.place, row.wanted
            );
        }
    }

    fn print(&self) {
        for (call, count) in &self.asked {
            println!("{call}: {count} asked");
        }
        for (reason, count) in &self.left_out {
            println!("left out: {count}, since {reason}");
        }
    }
}

fn tables() -> Vec<PathBuf> {
    let folder = Path::new(env!("CARGO_MANIFEST_DIR")).join("../crates/bites_rows/data");
    let entries = fs::read_dir(&folder).expect("the folder of the tables can be read");
    let mut paths: Vec<_> = entries
        .map(|entry| entry.expect("an entry").path())
        .collect();
    paths.retain(|path| path.extension().is_some_and(|extension| extension == "tsv"));
    paths.sort();
    paths
}

fn main() -> ExitCode {
    let every = env::args()
        .skip(1)
        .find_map(|word| word.parse().ok())
        .unwrap_or(1);
    let mut report = Report::default();
    for path in tables() {
        for row in row::read(&path).iter().step_by(every) {
            report.ask(row);
        }
    }
    report.print();
    let asked: usize = report.asked.values().sum();
    println!(
        "test result: {} passed; {} failed",
        asked - report.wrong,
        report.wrong
    );
    ExitCode::from(u8::from(report.wrong > 0 || asked == 0))
}
