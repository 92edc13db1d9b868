//! Answers rows of tables with the Rust crate regex-bites, or one that has its names, over bytes: `peer < TABLE`.
//!
//! This repository neither has nor needs that crate. To compare with it, build this file as a program over the crate, and run
//! `tools/random --peer PROGRAM`. Rows with flags or calls that the crate does not have are not asked.

use regex_bites::bytes::{Captures, NoExpand, Regex, RegexBuilder};
use std::borrow::Cow;
use std::io::{self, BufRead};

fn unescaped(column: &str) -> Vec<u8> {
    let (mut bytes, mut rest) = (Vec::new(), column.as_bytes());
    while let Some((first, after)) = rest.split_first() {
        (rest, _) = match (first, after) {
            (b'\\', [b'x', high, low, left @ ..]) => {
                let digits = String::from_utf8(vec![*high, *low]).expect("two digits");
                (left, bytes.push(u8::from_str_radix(&digits, 16).expect("two digits")))
            }
            (b'\\', [b'\\', left @ ..]) => (left, bytes.push(b'\\')),
            _ => (after, bytes.push(*first)),
        };
    }
    bytes
}

fn escaped(bytes: &[u8]) -> String {
    let byte = |byte: &u8| match byte {
        b'\\' => "\\\\".into(),
        b' '..=b'~' => char::from(*byte).to_string(),
        other => format!("\\x{other:02X}"),
    };
    bytes.iter().map(byte).collect()
}

fn joined(parts: impl Iterator<Item = String>, separator: &str) -> String {
    let parts: Vec<String> = parts.collect();
    if parts.is_empty() { "none".into() } else { parts.join(separator) }
}

fn groups(captures: &Captures<'_>) -> String {
    let group = |group: Option<regex_bites::bytes::Match<'_>>| match group {
        Some(group) => format!("{}..{}", group.start(), group.end()),
        None => "-".into(),
    };
    captures.iter().map(group).collect::<Vec<_>>().join(" ")
}

fn pieces<'h>(haystack: &'h [u8], pieces: impl Iterator<Item = &'h [u8]>) -> String {
    let start = haystack.as_ptr() as usize;
    joined(pieces.map(|it| (it.as_ptr() as usize - start, it.len())).map(|(at, len)| format!("{at}..{}", at + len)), " ")
}

fn replaced(text: Cow<'_, [u8]>) -> String {
    match text {
        Cow::Borrowed(_) => "same".into(),
        Cow::Owned(new) => format!("new:{}", escaped(&new)),
    }
}

fn build(regex: &Regex) -> String {
    let least = regex.static_captures_len().map_or("-".into(), |len| len.to_string());
    let names = regex.capture_names().map(|name| escaped(name.unwrap_or("-").as_bytes()));
    format!("ok {} {least} {}", regex.captures_len(), names.collect::<Vec<_>>().join(","))
}

/// Returns the first match and its first groups that participated, as many as `static_captures_len` says.
fn extract(regex: &Regex, haystack: &[u8]) -> String {
    let Some((captures, count)) = regex.captures(haystack).zip(regex.static_captures_len()) else {
        return "none".into();
    };
    let parts = captures.iter().flatten().take(count).map(|part| format!("\"{}\"", escaped(part.as_bytes())));
    joined(parts, " ")
}

fn expand(regex: &Regex, haystack: &[u8], template: &[u8]) -> String {
    let mut text = Vec::new();
    match regex.captures(haystack) {
        Some(captures) => captures.expand(template, &mut text),
        None => return "same".into(),
    }
    format!("new:{}", escaped(&text))
}

fn replace_count(regex: &Regex, haystack: &[u8], limit: usize) -> String {
    let mut count = 0;
    replaced(regex.replacen(haystack, limit, |_: &Captures<'_>| {
        count += 1;
        count.to_string().into_bytes()
    }))
}

fn answer(columns: &[&str]) -> Option<String> {
    let [_, call, _, flags, _, _, pattern, haystack, argument, template, ..] = *columns else { return None };
    let (pattern, haystack, template) = (String::from_utf8(unescaped(pattern)).ok()?, unescaped(haystack), unescaped(template));
    let (haystack, argument) = (haystack.as_slice(), argument.parse().unwrap_or(0));
    let mut builder = RegexBuilder::new(&pattern);
    builder.case_insensitive(flags.contains('i')).multi_line(flags.contains('m')).dot_matches_new_line(flags.contains('s'));
    builder.swap_greed(flags.contains('U')).crlf(flags.contains('R')).ignore_whitespace(flags.contains('x'));
    let regex = match builder.build() {
        Ok(regex) => regex,
        Err(error) => return Some(format!("err: {error}")),
    };
    let span = |found: regex_bites::bytes::Match<'_>| format!("{}..{}", found.start(), found.end());
    Some(match call {
        "message" => "accepted".into(),
        "build" => build(&regex),
        "is" => (argument <= haystack.len() && regex.is_match_at(haystack, argument)).to_string(),
        "shortest" => joined(from(argument, haystack).and_then(|at| regex.shortest_match_at(haystack, at)).map(|end| end.to_string()).into_iter(), " "),
        "find_at" => joined(from(argument, haystack).and_then(|at| regex.find_at(haystack, at)).map(span).into_iter(), " "),
        "captures_at" | "captures_read" => joined(from(argument, haystack).and_then(|at| regex.captures_at(haystack, at)).map(|it| groups(&it)).into_iter(), " "),
        "find_iter" => joined(regex.find_iter(haystack).map(span), " "),
        "captures_iter" => joined(regex.captures_iter(haystack).map(|it| groups(&it)), "; "),
        "split" => pieces(haystack, regex.split(haystack)),
        "splitn" => pieces(haystack, regex.splitn(haystack, argument)),
        "extract" => extract(&regex, haystack),
        "expand" => expand(&regex, haystack, &template),
        "replace" | "replace_owned" => replaced(regex.replacen(haystack, argument, template.as_slice())),
        "replace_lit" => replaced(regex.replacen(haystack, argument, NoExpand(&template))),
        "replace_count" => replace_count(&regex, haystack, argument),
        _ => return None,
    })
}

/// Answers `none` for a start past the end, without asking the crate.
fn from(start: usize, haystack: &[u8]) -> Option<usize> {
    (start <= haystack.len()).then_some(start)
}

fn main() {
    for line in io::stdin().lock().lines() {
        let line = line.expect("a line");
        let mut columns: Vec<&str> = line.split('\t').collect();
        let answer = answer(&columns);
        if let (Some(answer), false) = (&answer, line.starts_with('#')) {
            columns[10] = answer;
        }
        println!("{}", columns.join("\t"));
    }
}
