//! Writes which route of a table serves each path of standard input: `routes TABLE`, as the program `routes` of this
//! repository does. A line of the table is a name, a space and a pattern. The first route that matches a whole path serves it.

use regex_bites::Regex;
use std::io::{self, BufRead, Write};
use std::process::ExitCode;

fn read_table(table: &str) -> Result<Vec<(&str, Regex)>, Box<dyn std::error::Error>> {
    let mut routes = Vec::new();
    for (number, line) in (1..).zip(table.lines()) {
        if line.trim().is_empty() || line.starts_with('#') {
            continue;
        }
        let (name, pattern) = line
            .split_once(' ')
            .ok_or_else(|| format!("line {number} of the table has no pattern"))?;
        // Between these ends a pattern matches exactly the whole text.
        routes.push((name, Regex::new(&format!(r"\A(?:{pattern})\z"))?));
    }
    Ok(routes)
}

fn run(table: &str) -> Result<(), Box<dyn std::error::Error>> {
    let table = std::fs::read_to_string(table)?;
    let routes = read_table(&table)?;
    let (mut input, mut out) = (io::stdin().lock(), io::BufWriter::new(io::stdout().lock()));
    let mut line = Vec::new();
    while input.read_until(b'\n', &mut line)? > 0 {
        // A path that is not UTF-8 has no route.
        let path = std::str::from_utf8(line.strip_suffix(b"\n").unwrap_or(&line)).ok();
        let served = path.and_then(|path| {
            let mut routes = routes.iter();
            routes.find_map(|(name, regex)| Some((name, regex.captures(path)?)))
        });
        match served {
            Some((name, captures)) => {
                write!(out, "{name}")?;
                for group in captures.iter().skip(1).flatten() {
                    write!(out, "\t{}", group.as_str())?;
                }
                writeln!(out)?;
            }
            None => writeln!(out, "-")?,
        }
        line.clear();
    }
    out.flush()?;
    Ok(())
}

fn main() -> ExitCode {
    let words: Vec<String> = std::env::args().skip(1).collect();
    let [table] = words.as_slice() else {
        eprintln!("usage: routes TABLE");
        return ExitCode::from(2);
    };
    match run(table) {
        Ok(()) => ExitCode::SUCCESS,
        Err(error) => {
            eprintln!("routes: {error}");
            ExitCode::from(2)
        }
    }
}
