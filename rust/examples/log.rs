//! Reads a log from standard input, or a small one of its own if a word is given, and writes what is in it.
//!
//! It is written for the API of the Rust crate regex-bites alone, so it builds with that crate too.

use regex_bites::{bytes, escape, Captures, Error, Regex, RegexBuilder};
use std::collections::BTreeMap;
use std::io::Read;

const SAMPLE: &str = "\
2024-02-29T23:59:58Z INFO  [web-1] GET /index.html 200 12ms user=ada@example.org
2024-02-29T23:59:59Z WARN  [web-2] GET /caf\u{e9}?q=\"na\u{ef}ve \\\"quoted\\\"\" 404 3ms user=-
# a comment, and a line that is none of these

2024-03-01T00:00:00Z ERROR [db-1] POST /orders/17 500 1843ms user=grace@example.com, user=bob@example.net
2024-03-01T00:00:01Z info  [web-1] GET /a/b/c 200 7ms user=ada@example.org
";

struct Extractor {
    line: Regex,
    user: Regex,
    slow: Regex,
    white: Regex,
}

impl Extractor {
    fn new() -> Result<Extractor, Error> {
        let line = RegexBuilder::new(
            r"
            ^(?<date>\d{4}-\d{2}-\d{2})T(?<time>[0-9:]{8})Z \s+
            (?<level>info|warn|error) \s+            # in either case
            \[(?<host>[a-z]+)-(?<number>\d+)\] \s+
            (?<method>[A-Z]+) \s+ (?<path>.+?) \s+ (?<status>\d{3}) \s+ (?<took>\d+)ms\b",
        )
        .ignore_whitespace(true)
        .case_insensitive(true)
        .build()?;
        Ok(Extractor {
            line,
            user: Regex::new(r"user=(?:(?<name>\w+)@(?<domain>[\w.]+)|-)")?,
            slow: Regex::new(r"\b\d{4,}ms\b")?,
            white: "[\t ]+".parse()?,
        })
    }

    fn entry(&self, line: &str) -> Option<String> {
        let captures = self.line.captures(line)?;
        let mut text = String::new();
        captures.expand(
            "$date $time ${host}#$number: $method $path -> $status",
            &mut text,
        );
        let took: u64 = captures["took"].parse().ok()?;
        let users: Vec<&str> = self
            .user
            .captures_iter(line)
            .filter_map(|user| user.name("name").map(|name| name.as_str()))
            .collect();
        let level = captures.name("level").map_or(0..0, |level| level.range());
        Some(format!(
            "{:<5} {text}, {took} ms, {users:?}",
            line[level].to_uppercase()
        ))
    }

    /// Returns the line with its users' names hidden, and with each run of spaces replaced by one space.
    fn hidden(&self, line: &str) -> String {
        let mut seen = 0;
        let hidden = self.user.replace_all(line, |user: &Captures<'_>| {
            seen += 1;
            let name = user
                .name("name")
                .map_or(0, |name| name.as_str().chars().count());
            format!("user={}{seen}", "*".repeat(name))
        });
        self.white.replace_all(&hidden, " ").into_owned()
    }
}

fn count_of_words(log: &[u8]) -> Result<BTreeMap<String, usize>, Error> {
    let word = bytes::Regex::new(r"[a-z]{3,}|\xC3")?;
    let mut counts = BTreeMap::new();
    for found in word.find_iter(log) {
        *counts
            .entry(String::from_utf8_lossy(found.as_bytes()).into_owned())
            .or_default() += 1;
    }
    counts.retain(|_, count| *count > 2);
    Ok(counts)
}

fn main() -> Result<(), Box<dyn std::error::Error>> {
    let mut log = SAMPLE.to_string();
    if std::env::args().len() < 2 {
        log.clear();
        std::io::stdin().read_to_string(&mut log)?;
    }
    let extractor = Extractor::new()?;
    let ends = Regex::new(r"\r?\n")?;
    for line in ends.split(&log).filter(|line| !line.is_empty()) {
        match extractor.entry(line) {
            Some(entry) => println!("{entry}\n      {}", extractor.hidden(line)),
            None => println!("other {line:?}"),
        }
        if let Some(slow) = extractor.slow.find(line) {
            println!("      slow: {} at {:?}", slow.as_str(), slow.range());
        }
    }
    println!("{:?}", count_of_words(log.as_bytes())?);
    let literal = Regex::new(&escape("/caf\u{e9}?q="))?;
    println!("{:?}", literal.find(&log));
    println!(
        "{:?}",
        extractor.line.capture_names().flatten().collect::<Vec<_>>()
    );
    println!(
        "{}",
        Regex::new(r"(\d+").expect_err("the group is left open")
    );
    Ok(())
}
