//! Cuts standard input into tokens: `tokens RULES`, as the program `tokens` of this repository does. A line of the rules
//! is a name, a space and a pattern. The longest match of any rule is a token, and of several such rules the first counts.

use regex_bites::bytes::{Regex, RegexBuilder};
use std::io::{self, Read, Write};
use std::process::ExitCode;

fn read_rules(rules: &str) -> Result<Vec<(&str, Regex)>, Box<dyn std::error::Error>> {
    let mut read = Vec::new();
    for (number, line) in (1..).zip(rules.lines()) {
        if line.trim().is_empty() || line.starts_with('#') {
            continue;
        }
        let (name, pattern) = line
            .split_once(' ')
            .ok_or_else(|| format!("line {number} of the table has no pattern"))?;
        let regex = RegexBuilder::new(pattern).leftmost_longest(true).build()?;
        read.push((name, regex));
    }
    Ok(read)
}

// Returns the bytes with each tab as `\t`, each line feed as `\n` and each backslash as `\\`.
fn escaped(text: &[u8]) -> Vec<u8> {
    let mut escaped = Vec::new();
    for byte in text {
        match byte {
            b'\\' => escaped.extend(br"\\"),
            b'\t' => escaped.extend(br"\t"),
            b'\n' => escaped.extend(br"\n"),
            _ => escaped.push(*byte),
        }
    }
    escaped
}

// Returns where the tokens stop, if that is before the end of the input: the line and the byte, both from 1.
fn run(rules: &str) -> Result<Option<(usize, usize)>, Box<dyn std::error::Error>> {
    let rules = std::fs::read_to_string(rules)?;
    let rules = read_rules(&rules)?;
    let mut text = Vec::new();
    io::stdin().lock().read_to_end(&mut text)?;
    let mut out = io::BufWriter::new(io::stdout().lock());
    let mut place = 0;
    loop {
        let (mut end, mut longest) = (place, None);
        for (name, regex) in &rules {
            if let Some(found) = regex.find_anchored_at(&text, place) {
                if found.end() > end {
                    end = found.end();
                    longest = Some(name);
                }
            }
        }
        let Some(name) = longest else {
            break;
        };
        out.write_all(&escaped(name.as_bytes()))?;
        out.write_all(b"\t")?;
        out.write_all(&escaped(&text[place..end]))?;
        out.write_all(b"\n")?;
        place = end;
    }
    out.flush()?;
    if place == text.len() {
        return Ok(None);
    }
    let feeds = text[..place].iter().filter(|byte| **byte == b'\n').count();
    Ok(Some((feeds + 1, place + 1)))
}

fn main() -> ExitCode {
    let words: Vec<String> = std::env::args().skip(1).collect();
    let [rules] = words.as_slice() else {
        eprintln!("usage: tokens RULES");
        return ExitCode::from(2);
    };
    match run(rules) {
        Ok(None) => ExitCode::SUCCESS,
        Ok(Some((line, byte))) => {
            eprintln!("tokens: no rule reads on line {line}, at byte {byte}");
            ExitCode::from(1)
        }
        Err(error) => {
            eprintln!("tokens: {error}");
            ExitCode::from(2)
        }
    }
}
