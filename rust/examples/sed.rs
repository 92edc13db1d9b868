//! Writes each line of standard input with its matches replaced: `sed [-g] [-i] PATTERN TEMPLATE`, as the program `sed`
//! of this repository does. Without `-g` the first match of each line is replaced.

use regex_bites::bytes::RegexBuilder;
use std::io::{self, BufRead, ErrorKind, Write};
use std::process::ExitCode;

fn run(flags: &str, pattern: &str, template: &str) -> Result<(), Box<dyn std::error::Error>> {
    let regex = RegexBuilder::new(pattern)
        .case_insensitive(flags.contains('i'))
        .build()?;
    let limit = if flags.contains('g') { 0 } else { 1 };
    let (mut input, mut out) = (io::stdin().lock(), io::BufWriter::new(io::stdout().lock()));
    let mut line = Vec::new();
    while input.read_until(b'\n', &mut line)? > 0 {
        let text = line.strip_suffix(b"\n").unwrap_or(&line);
        out.write_all(&regex.replacen(text, limit, template.as_bytes()))?;
        out.write_all(&line[text.len()..])?;
        line.clear();
    }
    out.flush()?;
    Ok(())
}

fn main() -> ExitCode {
    let words: Vec<String> = std::env::args().skip(1).collect();
    let [flags @ .., pattern, template] = words.as_slice() else {
        eprintln!("usage: sed [-g] [-i] PATTERN TEMPLATE");
        return ExitCode::from(2);
    };
    match run(&flags.concat(), pattern, template) {
        Ok(()) => ExitCode::SUCCESS,
        Err(error) if is_closed(error.as_ref()) => ExitCode::SUCCESS,
        Err(error) => {
            eprintln!("sed: {error}");
            ExitCode::from(2)
        }
    }
}

// Returns whether nobody reads the output any more.
fn is_closed(error: &(dyn std::error::Error + 'static)) -> bool {
    error
        .downcast_ref::<io::Error>()
        .is_some_and(|error| error.kind() == ErrorKind::BrokenPipe)
}
