//! What `FROM_REGEX.md` says of this crate: each row of its tables is asked, and each that is asked is there.

use regex_bites::{bytes, Captures, Error, Regex, RegexBuilder};
use std::collections::BTreeMap;

const PAGE: &str = include_str!("../FROM_REGEX.md");

struct Table<'p> {
    section: &'p str,
    rows: Vec<Vec<&'p str>>,
}

/// Returns the tables whose first column has this heading, without their heads.
fn tables(first: &str) -> Vec<Table<'static>> {
    let mut tables = Vec::new();
    let mut section = "";
    let mut lines = PAGE.lines();
    while let Some(line) = lines.next() {
        if let Some(title) = line.trim_start_matches('#').strip_prefix(' ') {
            section = title;
        }
        if line.starts_with(&format!("| {first} |")) {
            let rows = lines.by_ref().skip(1).take_while(|row| !row.is_empty());
            let rows = rows.map(cells).collect();
            tables.push(Table { section, rows });
        }
    }
    assert!(!tables.is_empty(), "no table of {first}");
    tables
}

/// Returns the cells of a line of a table, without the marks of code.
fn cells(line: &str) -> Vec<&str> {
    let inside = line.trim_start_matches("| ").trim_end_matches('|');
    let cells = inside.split(" | ").map(str::trim);
    cells.map(|cell| cell.trim_matches('`')).collect()
}

/// Returns the bytes that a cell stands for, in which `\xFF` is a byte.
fn bytes_of(cell: &str) -> Vec<u8> {
    let mut parts = cell.split("\\x");
    let mut bytes = parts.next().expect("a part").as_bytes().to_vec();
    for part in parts {
        let byte = u8::from_str_radix(&part[..2], 16);
        bytes.push(byte.expect("two hexadecimal digits"));
        bytes.extend_from_slice(&part.as_bytes()[2..]);
    }
    bytes
}

macro_rules! answer {
    ($name:ident = $($path:ident)::+, $text:ty) => {
        /// Returns the offsets of all matches, or why the pattern is refused.
        fn $name(switch: &str, pattern: &str, haystack: &$text) -> String {
            let mut builder = $($path)::+::RegexBuilder::new(pattern);
            match switch {
                "" => &mut builder,
                "dfa_size_limit(0)" => builder.dfa_size_limit(0),
                "octal(false)" => builder.octal(false),
                "octal(true)" => builder.octal(true),
                "unicode(false)" => builder.unicode(false),
                "unicode(true)" => builder.unicode(true),
                other => panic!("no switch {other}"),
            };
            let regex = match builder.build() {
                Ok(regex) => regex,
                Err(error) => return format!("refused: {error}"),
            };
            let found = regex.find_iter(haystack).map(|found| format!("{:?}", found.range()));
            let found: Vec<String> = found.collect();
            if found.is_empty() { "none".into() } else { found.join(" ") }
        }
    };
}

answer!(over_texts = regex_bites, str);
answer!(over_bytes = regex_bites::bytes, [u8]);

/// Asks a row over texts or over byte strings, as the section says, or else over both.
fn ask(section: &str, switch: &str, pattern: &str, haystack: &str, here: &str) {
    let haystack = bytes_of(haystack);
    if !section.starts_with("Over byte strings") {
        let text = std::str::from_utf8(&haystack).expect("a text");
        let answer = over_texts(switch, pattern, text);
        assert_eq!(answer, here, "over texts: {switch} {pattern}");
    }
    if !section.starts_with("Over texts,") {
        let answer = over_bytes(switch, pattern, &haystack);
        assert_eq!(answer, here, "over byte strings: {switch} {pattern}");
    }
}

#[test]
fn patterns_match_as_the_page_says() {
    for table in tables("Pattern") {
        for row in table.rows {
            let [pattern, haystack, there, here] = row[..] else {
                panic!("{row:?}");
            };
            assert!(there.trim_matches('`') != here, "{pattern} does not differ");
            ask(table.section, "", pattern, haystack, here);
        }
    }
}

#[test]
fn switches_do_what_the_page_says() {
    for table in tables("Switch") {
        for row in table.rows {
            let [switch, pattern, haystack, _, here] = row[..] else {
                panic!("{row:?}");
            };
            ask(table.section, switch, pattern, haystack, here);
        }
    }
}

#[test]
fn the_default_of_the_nest_limit_is_that_of_the_page() {
    let [table] = &tables("Default of a limit")[..] else {
        panic!("more than one table");
    };
    let limit: usize = table.rows[0][2].parse().expect("a number");
    let nested = |depth| format!("{}a{}", "(".repeat(depth), ")".repeat(depth));
    assert!(Regex::new(&nested(limit)).is_ok());
    assert!(Regex::new(&nested(limit + 1)).is_err());
}

/// Returns each expression as a text, with its value.
macro_rules! calls {
    ($($call:expr;)*) => {
        [$((stringify!($call), $call.to_string())),*]
    };
}

#[test]
fn calls_return_what_the_page_says() {
    let calls = calls! {
        Regex::new("a(").unwrap_err().to_string();
        format!("{:?}", bytes::Regex::new("a").unwrap().find(b"a").unwrap());
        format!("{:?}", Regex::new("a").unwrap().find_at("a", 2));
        format!("{:?}", Regex::new("a+").unwrap().shortest_match("aaa"));
    };
    let packed = |text: &str| text.split_whitespace().collect::<String>();
    let answers: BTreeMap<String, String> = calls.map(|(call, value)| (packed(call), value)).into();
    let [table] = &tables("Call")[..] else {
        panic!("more than one table");
    };
    let rows = table
        .rows
        .iter()
        .map(|row| (packed(row[0]), row[2].to_string()));
    assert_eq!(rows.collect::<BTreeMap<_, _>>(), answers);
}

/// Names within types that this crate doesn't have. One that it had would come before the one of this trait, and have another type.
trait Missing {
    #[allow(non_upper_case_globals)]
    const Syntax: StandIn = StandIn;
    #[allow(non_upper_case_globals)]
    const CompiledTooBig: StandIn = StandIn;

    fn line_terminator(&mut self, _: u8) -> StandIn {
        StandIn
    }

    fn get_match(&self) -> StandIn {
        StandIn
    }
}

struct StandIn;

impl Missing for Error {}
impl Missing for RegexBuilder {}
impl Missing for bytes::RegexBuilder {}
impl Missing for Captures<'_> {}
impl Missing for bytes::Captures<'_> {}

const _: [StandIn; 2] = [Error::Syntax, Error::CompiledTooBig];
const _: fn(&mut RegexBuilder, u8) -> StandIn = RegexBuilder::line_terminator;
const _: fn(&mut bytes::RegexBuilder, u8) -> StandIn = bytes::RegexBuilder::line_terminator;
const _: fn(&Captures<'static>) -> StandIn = Captures::get_match;
const _: fn(&bytes::Captures<'static>) -> StandIn = bytes::Captures::get_match;

const MISSING_WITHIN: [&str; 4] = [
    "Error::Syntax",
    "Error::CompiledTooBig",
    "RegexBuilder::line_terminator",
    "Captures::get_match",
];

#[test]
fn the_names_that_the_page_lists_are_missing() {
    let mut missing = MISSING_WITHIN;
    let [table] = &tables("Name")[..] else {
        panic!("more than one table");
    };
    let mut listed: Vec<&str> = table.rows.iter().map(|row| row[0]).collect();
    missing.sort_unstable();
    listed.sort_unstable();
    assert_eq!(listed, missing);
}
