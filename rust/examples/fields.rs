//! Writes the fields of a log in the common log format as comma-separated values, as the program `fields` of this
//! repository does. Each line of standard input that is not in the format is reported on standard error.

use regex_bites::Regex;
use std::io::{self, BufRead, Write};
use std::process::ExitCode;

const PATTERN: &str = r#"\A(?:(?<host>[^ "]+) (?<ident>[^ "]+) (?<user>[^ "]+) \[(?<time>[^\]"]+)\] "(?<request>[^"]*)" (?<status>[0-9]+) (?<size>[0-9-]+))\z"#;

// Returns how many lines are not in the format.
fn run() -> Result<u64, Box<dyn std::error::Error>> {
    let regex = Regex::new(PATTERN)?;
    let (mut input, mut out) = (io::stdin().lock(), io::BufWriter::new(io::stdout().lock()));
    let (mut line, mut number, mut bad) = (Vec::new(), 0, 0);
    while input.read_until(b'\n', &mut line)? > 0 {
        number += 1;
        let text = std::str::from_utf8(line.strip_suffix(b"\n").unwrap_or(&line));
        match text.ok().and_then(|text| regex.captures(text)) {
            Some(captures) => {
                let (_, fields) = captures.extract::<7>();
                writeln!(out, "\"{}\"", fields.join("\",\""))?;
            }
            None => {
                bad += 1;
                eprintln!("fields: line {number} is not in the common log format");
            }
        }
        line.clear();
    }
    out.flush()?;
    Ok(bad)
}

fn main() -> ExitCode {
    match run() {
        Ok(0) => ExitCode::SUCCESS,
        Ok(bad) => {
            let lines_are = if bad == 1 { "line is" } else { "lines are" };
            eprintln!("fields: {bad} {lines_are} not in the common log format");
            ExitCode::from(1)
        }
        Err(error) => {
            eprintln!("fields: {error}");
            ExitCode::from(2)
        }
    }
}
