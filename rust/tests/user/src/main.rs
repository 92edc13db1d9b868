//! Reads lines of a log and writes how often each user asked and for how many bytes, with the addresses hidden.

use regex::{bytes, Captures, Regex, RegexBuilder};
use std::collections::BTreeMap;

const LOG: &str = "\
10.0.0.1 ada [14/Mar/2010] \"GET /index.html\" 200 512
10.0.0.2 bob [14/Mar/2010] \"GET /none\" 404 12
not a line of this log
10.0.0.1 ada [15/Mar/2010] \"POST /index.html\" 200 64
";

fn request() -> Result<Regex, regex::Error> {
    RegexBuilder::new(
        r#"^\S+ (?P<user>\w+) \[(?P<day>[^\]]+)\] "(get|post) (?P<path>\S+)" \d{3} (?P<size>\d+)$"#,
    )
    .case_insensitive(true)
    .multi_line(true)
    .unicode(true)
    .octal(false)
    .size_limit(1 << 20)
    .dfa_size_limit(1 << 20)
    .build()
}

fn main() -> Result<(), Box<dyn std::error::Error>> {
    let mut sizes = BTreeMap::<&str, (usize, u64)>::new();
    for line in request()?.captures_iter(LOG) {
        let user = line.name("user").map_or("", |user| user.as_str());
        let (requests, size) = sizes.entry(user).or_default();
        *requests += 1;
        *size += line["size"].parse::<u64>()?;
    }
    for (user, (requests, size)) in &sizes {
        println!("{user}: {requests} requests, {size} bytes");
    }
    let address = Regex::new(r"(\d+)\.(\d+)\.\d+\.\d+")?;
    let hidden = address.replacen(LOG, 1, |found: &Captures| {
        format!("{}.{}.x.x", &found[1], &found[2])
    });
    println!("{}", hidden.lines().next().unwrap_or_default());
    let number = bytes::Regex::new("[0-9]+")?;
    let mut locations = number.capture_locations();
    number.captures_read(&mut locations, LOG.as_bytes());
    println!("{:?}", locations.pos(0));
    Ok(())
}
