//! Sorts the lines of a log by the filters that match them, with the parts of each line that a person wants to see.

use regex::{bytes, Regex, RegexSet, RegexSetBuilder};
use std::collections::BTreeMap;

const LOG: &str = "\
2010-03-14T15:09:26 worker[17] ERROR disk /dev/sda1 is full
2010-03-14T15:09:27 worker[17] warning: retry 1 of 3
2010-03-14T15:10:02 web[4] GET /index.html 200
2010-03-14T15:10:05 web[4] GET /none 404
nothing that a filter knows
2010-03-14T15:11:40 cron[1] Warning: clock is 3 seconds off
";

/// The filters of this program, each with its name.
const FILTERS: [(&str, &str); 4] = [
    ("trouble", r"\b(?:error|warning)\b"),
    ("requests", r"\b(?:GET|POST) /\S*"),
    ("missing", r" 404$"),
    ("worker", r"^\S+ worker\[\d+\]"),
];

fn filters() -> Result<RegexSet, regex::Error> {
    RegexSetBuilder::new(FILTERS.map(|(_, pattern)| pattern))
        .case_insensitive(true)
        .size_limit(1 << 20)
        .dfa_size_limit(1 << 20)
        .build()
}

fn main() -> Result<(), Box<dyn std::error::Error>> {
    let set = filters()?;
    let entry = Regex::new(
        r"^(?P<day>\d{4}-\d{2}-\d{2})T(?<time>\S+) (?P<program>\w+)\[(?P<process>\d+)\] (?P<text>.*)$",
    )?;
    let mut lines = BTreeMap::<&str, Vec<String>>::new();
    for line in LOG.lines() {
        let matches = set.matches(line);
        if !matches.matched_any() {
            println!("no filter: {line}");
            continue;
        }
        let Some(captures) = entry.captures(line) else {
            continue;
        };
        let shown = format!(
            "{} {}/{}: {}",
            &captures["time"], &captures["program"], &captures["process"], &captures["text"]
        );
        for index in &matches {
            lines.entry(FILTERS[index].0).or_default().push(shown.clone());
        }
    }
    for (name, lines) in &lines {
        println!("{name}:");
        for line in lines {
            println!("  {line}");
        }
    }
    let rarest = set.patterns().last().map_or("", |pattern| pattern);
    println!("{} filters, the last one is {rarest}", set.len());
    let ends = bytes::RegexSet::new([r"\x00$", r"\n$"])?;
    let last: Vec<usize> = ends.matches(LOG.as_bytes()).into_iter().collect();
    println!("{last:?} {}", RegexSet::empty().is_match(LOG));
    Ok(())
}
