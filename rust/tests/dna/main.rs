//! The regex-dna programs of the Computer Language Benchmarks Game, in the six ways that are usual for the crate regex: with
//! threads or without, over texts or bytes, each code replaced in a pass of its own or all of them in one.
//!
//! Each counts the matches of nine variants, replaces each ambiguous code by its alternation, and writes the lengths before the
//! line ends were removed, after it and at the end. `PUBLISHED` is what the benchmark says of the input for 10,000. They build with
//! the Rust crate too.

mod input;

use input::input;
use regex_bites::{bytes, Captures, NoExpand, Regex};
use std::collections::BTreeMap;
use std::fmt::Write;
use std::sync::Arc;
use std::thread;

const PUBLISHED: &str = "\
agggtaaa|tttaccct 0
[cgt]gggtaaa|tttaccc[acg] 3
a[act]ggtaaa|tttacc[agt]t 9
ag[act]gtaaa|tttac[agt]ct 8
agg[act]taaa|ttta[agt]cct 10
aggg[acg]aaa|ttt[cgt]ccct 3
agggt[cgt]aa|tt[acg]accct 4
agggta[cgt]a|t[acg]taccct 3
agggtaa[cgt]|[acg]ttaccct 5

101745
100000
133640
";

const VARIANTS: [&str; 9] = [
    "agggtaaa|tttaccct",
    "[cgt]gggtaaa|tttaccc[acg]",
    "a[act]ggtaaa|tttacc[agt]t",
    "ag[act]gtaaa|tttac[agt]ct",
    "agg[act]taaa|ttta[agt]cct",
    "aggg[acg]aaa|ttt[cgt]ccct",
    "agggt[cgt]aa|tt[acg]accct",
    "agggta[cgt]a|t[acg]taccct",
    "agggtaa[cgt]|[acg]ttaccct",
];

const CODES: [(&str, &str); 11] = [
    ("B", "(c|g|t)"),
    ("D", "(a|g|t)"),
    ("H", "(a|c|t)"),
    ("K", "(g|t)"),
    ("M", "(a|c)"),
    ("N", "(a|c|g|t)"),
    ("R", "(a|g)"),
    ("S", "(c|g)"),
    ("V", "(a|c|g)"),
    ("W", "(a|t)"),
    ("Y", "(c|t)"),
];

fn regex(pattern: &str) -> Regex {
    Regex::new(pattern).expect("the pattern is accepted")
}

fn over_bytes(pattern: &str) -> bytes::Regex {
    bytes::Regex::new(pattern).expect("the pattern is accepted")
}

fn report(counts: impl IntoIterator<Item = usize>, lengths: [usize; 3]) -> String {
    let mut text = String::new();
    for (variant, count) in VARIANTS.iter().zip(counts) {
        writeln!(text, "{variant} {count}").expect("a text takes all");
    }
    let [before, after, end] = lengths;
    writeln!(text, "\n{before}\n{after}\n{end}").expect("a text takes all");
    text
}

/// One thread for each variant and one for the codes, over texts in an `Arc`.
#[test]
fn threads_over_texts() {
    let sequence = input();
    let before = sequence.len();
    let sequence = Arc::new(
        regex(">[^\n]*\n|\n")
            .replace_all(&sequence, "")
            .into_owned(),
    );
    let after = sequence.len();
    let own = Arc::clone(&sequence);
    let codes = thread::spawn(move || {
        let mut sequence = own.to_string();
        for (code, alternation) in CODES {
            sequence = regex(code).replace_all(&sequence, alternation).into_owned();
        }
        sequence.len()
    });
    let counts = VARIANTS.map(|variant| {
        let (own, variant) = (Arc::clone(&sequence), regex(variant));
        thread::spawn(move || variant.find_iter(&own).count())
    });
    let counts = counts.map(|count| count.join().expect("the thread ends"));
    let end = codes.join().expect("the thread ends");
    assert_eq!(report(counts, [before, after, end]), PUBLISHED);
}

/// Scoped threads over bytes that borrow the sequence and the regexes.
#[test]
fn scoped_threads_over_bytes() {
    let text = input().into_bytes();
    let sequence = over_bytes(">[^\n]*\n|\n")
        .replace_all(&text, &b""[..])
        .into_owned();
    let variants = VARIANTS.map(over_bytes);
    let codes = CODES.map(|(code, alternation)| (over_bytes(code), alternation.as_bytes()));
    let (counts, end) = thread::scope(|scope| {
        let count = |variant: &bytes::Regex| variant.find_iter(&sequence).count();
        let counts = variants
            .each_ref()
            .map(|variant| scope.spawn(move || count(variant)));
        let end = scope.spawn(|| {
            let mut sequence = sequence.clone();
            for (code, alternation) in &codes {
                sequence = code.replace_all(&sequence, *alternation).into_owned();
            }
            sequence.len()
        });
        let counts = counts.map(|count| count.join().expect("the thread ends"));
        (counts, end.join().expect("the thread ends"))
    });
    assert_eq!(report(counts, [text.len(), sequence.len(), end]), PUBLISHED);
}

/// One regex for all codes, in one pass by a closure that other threads' closures share the regex with.
#[test]
fn threads_with_all_codes_in_one_pass() {
    let text = input();
    let sequence = regex(">[^\n]*\n|\n").replace_all(&text, NoExpand(""));
    let code = regex("[BDHKMNRSVWY]");
    let alternations = BTreeMap::from(CODES);
    let replace = |part: &str| {
        let new = code.replace_all(part, |found: &Captures<'_>| alternations[&found[0]]);
        new.len()
    };
    let (end, counts) = thread::scope(|scope| {
        let counts = VARIANTS.map(|variant| {
            let sequence = &sequence;
            scope.spawn(move || regex(variant).captures_iter(sequence).count())
        });
        let (first, last) = sequence.split_at(sequence.len() / 2);
        let parts = [first, last].map(|part| scope.spawn(move || replace(part)));
        let end: usize = parts
            .into_iter()
            .map(|part| part.join().expect("the thread ends"))
            .sum();
        (
            end,
            counts.map(|count| count.join().expect("the thread ends")),
        )
    });
    assert_eq!(report(counts, [text.len(), sequence.len(), end]), PUBLISHED);
}

/// Only the replacement of what is not part of a sequence.
#[test]
fn replacement_alone() {
    let mut text = input();
    let before = text.len();
    text = regex(">[^\n]*\n|\n").replace_all(&text, "").into_owned();
    let lengths = format!("\n{before}\n{}\n", text.len());
    assert!(PUBLISHED.contains(&lengths), "{lengths}");
}

/// One thread, over texts.
#[test]
fn one_thread() {
    let mut text = input();
    let before = text.len();
    text = regex(">[^\n]*\n|\n").replace_all(&text, "").into_owned();
    let after = text.len();
    let counts = VARIANTS.map(|variant| regex(variant).find_iter(&text).count());
    for (code, alternation) in CODES {
        text = regex(code).replace_all(&text, alternation).into_owned();
    }
    assert_eq!(report(counts, [before, after, text.len()]), PUBLISHED);
}

/// One thread, over bytes, with all codes in one pass.
#[test]
fn one_thread_with_all_codes_in_one_pass() {
    let text = input().into_bytes();
    let sequence = over_bytes(">[^\n]*\n|\n").replace_all(&text, bytes::NoExpand(b""));
    let counts = VARIANTS.map(|variant| over_bytes(variant).find_iter(&sequence).count());
    let alternations: BTreeMap<&[u8], &str> =
        BTreeMap::from(CODES.map(|(code, alternation)| (code.as_bytes(), alternation)));
    let code = over_bytes("[BDHKMNRSVWY]");
    let end = code.replace_all(&sequence, |found: &bytes::Captures<'_>| {
        alternations[&found[0]]
    });
    assert_eq!(
        report(counts, [text.len(), sequence.len(), end.len()]),
        PUBLISHED
    );
}
