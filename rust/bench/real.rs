//! Times the Rust crate regex-bites and this one on what real programs do, in turn, in one program, which `run` builds.
//!
//!     real [RUNS] [WORD]
//!
//! Both crates do the jobs whose names contain WORD, and the best of RUNS runs counts. A row is the job, the time of each crate in µs,
//! and their ratio: above 1 this one is faster. Both must give the same result. The last row is the geometric mean of all ratios.

use std::env;
use std::hint::black_box;
use std::time::Instant;

/// A job returns a number, so that the results can be compared.
type Job = (String, Box<dyn FnMut() -> usize>);

/// The lines of a log. One in seven is a comment.
fn lines() -> Vec<String> {
    let methods = ["GET", "POST", "PUT", "DELETE"];
    let line = |i: usize| {
        if i % 7 == 3 {
            return format!("# comment line {i} with nothing that matches in it at all");
        }
        let (day, second, host, method) = (i % 28 + 1, i % 60, i % 9, methods[i % 4]);
        let (post, status, took, user) = (i * 7, 200 + i % 300, i % 1000, i % 50);
        format!(
            "2024-02-{day:02}T23:59:{second:02}Z INFO [web-{host}] {method} /users/{i}/posts/x{post} {status} {took}ms \
             user=u{user}@example.org"
        )
    };
    (0..2000).map(line).collect()
}

fn short() -> Vec<String> {
    let text = |i: usize| match i % 4 {
        0 => format!("user_{i}"),
        1 => format!("a-b-{i}"),
        2 => "nothing here".into(),
        _ => format!("{i}, {}", i * 3),
    };
    (0..5000).map(text).collect()
}

fn big() -> String {
    let words = [
        "the",
        "Sherlock",
        "Holmes",
        "walked",
        "into",
        "a",
        "dark",
        "room,",
        "and",
        "saw",
        "Watson",
        "reading",
        "1887-03-14",
        "john.doe@example.com",
        "harbour",
        "naïve",
        "résumé.",
        "\n",
    ];
    let mut draw = 88_172_645_463_325_252_u64;
    let mut text = String::new();
    while text.len() < 1 << 20 {
        draw ^= draw << 13;
        draw ^= draw >> 7;
        draw ^= draw << 17;
        text.push_str(words[(draw >> 20) as usize % words.len()]);
        text.push(' ');
    }
    text
}

const LOG: &str =
    r"^(\d{4}-\d\d-\d\d)T(\S+) (\w+) \[(\w+)-(\d+)\] (\w+) (\S+) (\d{3}) (\d+)ms user=(\S+)";
const NAMED: &str = r"^(?<date>\d{4}-\d\d-\d\d)T(\S+) (\w+) \[(\w+)-(\d+)\] (?<method>\w+) (\S+) (\d{3}) (\d+)ms user=(?<user>\S+)";
const LARGER: &str = r"(?:foo|bar|baz|\d{2,}[a-z]?|user|[A-F]{3})_?(\w+)?-?([ -~]{0,20})";

/// Defines the jobs of one crate.
macro_rules! side {
    ($name:ident) => {
        mod $name {
            use super::{big, black_box, lines, short, Job, LARGER, LOG, NAMED};
            use $name::{bytes, escape, Captures, NoExpand, Regex, RegexBuilder};

            fn regex(pattern: &str) -> Regex {
                Regex::new(pattern).expect("the pattern is accepted")
            }

            pub fn jobs() -> Vec<Job> {
                [
                    of_lines(),
                    of_short(),
                    of_replacing(),
                    of_compiling(),
                    of_big(),
                    of_replacing_big(),
                    of_anchors(),
                ]
                .into_iter()
                .flatten()
                .collect()
            }

            fn job(name: &str, work: impl FnMut() -> usize + 'static) -> Job {
                (name.to_string(), Box::new(work))
            }

            /// A job over all texts with a regex.
            fn over(
                name: &str,
                pattern: &str,
                texts: Vec<String>,
                work: impl Fn(&Regex, &str) -> usize + 'static,
            ) -> Job {
                let regex = regex(pattern);
                job(name, move || {
                    texts.iter().map(|text| work(&regex, text)).sum()
                })
            }

            fn of_lines() -> Vec<Job> {
                let locations = |name| {
                    let (regex, lines) = (regex(LOG), lines());
                    job(name, move || {
                        let mut locations = regex.capture_locations();
                        let found = lines
                            .iter()
                            .filter_map(|line| regex.captures_read(&mut locations, line));
                        found.map(|found| found.len()).sum()
                    })
                };
                vec![
                    over(
                        "lines: captures, 10 groups, read 4",
                        LOG,
                        lines(),
                        |regex, line| {
                            regex
                                .captures(line)
                                .map_or(0, |c| c[1].len() + c[4].len() + c[8].len() + c[10].len())
                        },
                    ),
                    over(
                        "lines: captures, read 3 by name",
                        NAMED,
                        lines(),
                        |regex, line| {
                            regex.captures(line).map_or(0, |c| {
                                c["date"].len() + c["method"].len() + c["user"].len()
                            })
                        },
                    ),
                    locations("lines: captures_read"),
                    over(
                        "lines: captures_iter, extract",
                        r"(\w+)=(\w+)",
                        lines(),
                        |regex, line| {
                            regex
                                .captures_iter(line)
                                .map(|c| c.extract())
                                .map(|(_, [a, b])| a.len() + b.len())
                                .sum()
                        },
                    ),
                    over(
                        "lines: is_match, not anchored",
                        r"POST /users/\d+",
                        lines(),
                        |regex, line| regex.is_match(line).into(),
                    ),
                    over("lines: is_match ^#", "^#", lines(), |regex, line| {
                        regex.is_match(line).into()
                    }),
                    over(
                        "lines: captures, anchored, none match",
                        r"^ERROR (\d+)",
                        lines(),
                        |regex, line| regex.captures(line).is_some().into(),
                    ),
                    over(
                        "lines: find at the end, $",
                        r"user=(\S+)$",
                        lines(),
                        |regex, line| regex.find(line).map_or(0, |found| found.len()),
                    ),
                ]
            }

            fn of_short() -> Vec<Job> {
                let expanded = |name| {
                    let (regex, texts) = (regex(r"(\w)(\w*)"), short());
                    job(name, move || {
                        let mut text = String::new();
                        let lengths = texts.iter().map(|haystack| {
                            text.clear();
                            if let Some(captures) = regex.captures(haystack) {
                                captures.expand("$2-$1", &mut text);
                            }
                            text.len()
                        });
                        lengths.sum()
                    })
                };
                let texts = short();
                vec![
                    over("short: find", r"\d+", short(), |regex, text| {
                        regex.find(text).map_or(0, |found| found.start())
                    }),
                    over(
                        "short: is_match, whole",
                        r"^[a-z_]\w*$",
                        short(),
                        |regex, text| regex.is_match(text).into(),
                    ),
                    over("short: split", "[-_, ]+", short(), |regex, text| {
                        regex.split(text).count()
                    }),
                    over(
                        "short: splitn 2, collected",
                        "[-_, ]+",
                        short(),
                        |regex, text| regex.splitn(text, 2).collect::<Vec<_>>().len(),
                    ),
                    expanded("short: captures and expand"),
                    job("short: escape", move || {
                        texts.iter().map(|text| escape(text).len()).sum()
                    }),
                ]
            }

            fn of_replacing() -> Vec<Job> {
                vec![
                    over(
                        "short: replace_all, literal",
                        "[-_, ]+",
                        short(),
                        |regex, text| regex.replace_all(text, " ").len(),
                    ),
                    over(
                        "short: replace_all, template",
                        r"(\d+)",
                        short(),
                        |regex, text| regex.replace_all(text, "<$1>").len(),
                    ),
                    over(
                        "short: replace, template",
                        r"(\d+)",
                        short(),
                        |regex, text| regex.replace(text, "<$1>").len(),
                    ),
                    over(
                        "short: replace_all, closure",
                        r"(\d+)",
                        short(),
                        |regex, text| {
                            regex
                                .replace_all(text, |c: &Captures<'_>| format!("<{}>", &c[1]))
                                .len()
                        },
                    ),
                    over(
                        "short: replace_all, NoExpand",
                        r"(\d+)",
                        short(),
                        |regex, text| regex.replace_all(text, NoExpand("$1")).len(),
                    ),
                    over(
                        "short: replace_all, nothing matches",
                        "xyz",
                        short(),
                        |regex, text| regex.replace_all(text, "<$1>").len(),
                    ),
                    over(
                        "short: replace_all, template, larger regex",
                        LARGER,
                        short(),
                        |regex, text| regex.replace_all(text, "<$1>").len(),
                    ),
                    over(
                        r"short: trim by ^\s+|\s+$",
                        r"^\s+|\s+$",
                        short(),
                        |regex, text| regex.replace_all(text, "").len(),
                    ),
                ]
            }

            /// Makes a regex of the pattern again and again.
            fn compiled(name: &str, times: usize, pattern: &str) -> Job {
                let pattern = pattern.to_string();
                job(name, move || {
                    (0..times)
                        .map(|_| regex(black_box(&pattern)).captures_len())
                        .sum()
                })
            }

            fn of_compiling() -> Vec<Job> {
                let date = r"^(\d{4})-(\d{2})-(\d{2})$";
                let words: Vec<String> = (0..60).map(|i| format!("word{i}x")).collect();
                let address = r"[a-z0-9._%+-]+@[a-z0-9.-]+\.[a-z]{2,24}";
                let ignoring_case = || {
                    let mut builder = RegexBuilder::new(black_box(address));
                    builder
                        .case_insensitive(true)
                        .build()
                        .expect("the pattern is accepted")
                };
                let (cloned, named) = (regex(NAMED), regex(NAMED));
                vec![
                    compiled(r"compile \w+", 2000, r"\w+"),
                    compiled("compile a date", 2000, date),
                    compiled("compile a log line, named", 1000, NAMED),
                    job("compile an address, i", move || {
                        (0..1000).map(|_| ignoring_case().captures_len()).sum()
                    }),
                    compiled("compile 60 words", 500, &words.join("|")),
                    compiled("compile [a-z]{1,200}", 500, "[a-z]{1,200}"),
                    job("compile and one short is_match", move || {
                        (0..2000)
                            .filter(|_| regex(black_box(date)).is_match("2024-01-02"))
                            .count()
                    }),
                    job("a refused pattern", || {
                        let refused = (0..2000)
                            .map(|_| Regex::new(black_box("a(b")).expect_err("it is refused"));
                        refused.map(|error| error.to_string().len()).sum()
                    }),
                    job("clone and drop", move || {
                        (0..20000).map(|_| cloned.clone().captures_len()).sum()
                    }),
                    job("capture_names", move || {
                        (0..20000)
                            .map(|_| named.capture_names().flatten().count())
                            .sum()
                    }),
                ]
            }

            fn of_big() -> Vec<Job> {
                let lines = |name| {
                    let (regex, text) = (
                        bytes::Regex::new("(?m)^.*Holmes.*$").expect("accepted"),
                        big(),
                    );
                    job(name, move || regex.find_iter(text.as_bytes()).count())
                };
                let all = |name, pattern| {
                    over(name, pattern, vec![big()], |regex, text| {
                        regex.find_iter(text).count()
                    })
                };
                vec![
                    all(r"big: find_iter \w+", r"\w+"),
                    all("big: find_iter of two names", "Sherlock|Watson"),
                    all("big: find_iter, i", "(?i)holmes|watson"),
                    over(
                        "big: captures_iter, dates",
                        r"(\d{4})-(\d\d)-(\d\d)",
                        vec![big()],
                        |regex, text| regex.captures_iter(text).map(|c| c[1].len()).sum(),
                    ),
                    all("big: find_iter, addresses", r"[\w.]+@[\w.]+"),
                    lines("big: bytes, lines with Holmes"),
                    over("big: split", r"\s+", vec![big()], |regex, text| {
                        regex.split(text).count()
                    }),
                    over("big: is_match, none", "zzz", vec![big()], |regex, text| {
                        regex.is_match(text).into()
                    }),
                ]
            }

            fn of_replacing_big() -> Vec<Job> {
                vec![
                    over(
                        "big: replace_all, template",
                        r"(\w+)@(\w+)",
                        vec![big()],
                        |regex, text| regex.replace_all(text, "$2 at $1").len(),
                    ),
                    over(
                        "big: replace_all, literal",
                        "Holmes",
                        vec![big()],
                        |regex, text| regex.replace_all(text, "H.").len(),
                    ),
                    over(
                        r"big: replace_all ^\w+\s",
                        r"^\w+\s",
                        vec![big()],
                        |regex, text| regex.replace_all(text, "").len(),
                    ),
                ]
            }

            fn of_anchors() -> Vec<Job> {
                vec![
                    over(
                        "big: is_match ^zzz, none",
                        "^zzz",
                        vec![big()],
                        |regex, text| regex.is_match(text).into(),
                    ),
                    over(
                        "big: captures ^, matches at 0",
                        r"^(\w+) (\w+)",
                        vec![big()],
                        |regex, text| regex.captures(text).map_or(0, |c| c[2].len()),
                    ),
                    over(r"big: find_iter \A#", r"\A#", vec![big()], |regex, text| {
                        regex.find_iter(text).count()
                    }),
                    over(
                        r"big: find_iter ^\w+ (one at 0)",
                        r"^\w+",
                        vec![big()],
                        |regex, text| regex.find_iter(text).count(),
                    ),
                    over(
                        "validate: ^date$ on 10 bytes",
                        r"^(\d{4})-(\d\d)-(\d\d)$",
                        dates(),
                        |regex, text| regex.is_match(text).into(),
                    ),
                    routes("routes: 40 anchored, the first that matches, paths of 28 bytes"),
                    lexer("lexer: 6 anchored rules over the rest, 4 KB", 4 << 10),
                    lexer("lexer: 6 anchored rules over the rest, 16 KB", 16 << 10),
                ]
            }

            fn dates() -> Vec<String> {
                let texts = ["2024-01-02", "2024-1-2", "not a date", ""];
                texts
                    .iter()
                    .cycle()
                    .take(2000)
                    .map(|text| text.to_string())
                    .collect()
            }

            fn routes(name: &str) -> Job {
                let route = |i| {
                    regex(&format!(
                        r"^/api/v1/thing{i}/(?<id>\d+)(?:/(?<rest>[^/]+))?$"
                    ))
                };
                let routes: Vec<Regex> = (0..40).map(route).collect();
                let paths: Vec<String> = (0..40)
                    .map(|i| format!("/api/v1/thing{i}/{}/part-{i}", i * 37))
                    .collect();
                job(name, move || {
                    let found = paths
                        .iter()
                        .filter_map(|path| routes.iter().find_map(|route| route.captures(path)));
                    found.map(|captures| captures["id"].len()).sum()
                })
            }

            fn lexer(name: &str, size: usize) -> Job {
                let rules = [
                    r"^\s+",
                    r"^[0-9]+(\.[0-9]+)?",
                    r"^(if|else|while|fn|let)\b",
                    r"^[A-Za-z_]\w*",
                    r#"^"[^"]*""#,
                    r"^.",
                ];
                let rules = rules.map(regex);
                let source: String = "let x1 = foo(12.5, \"abc\") + y;\n"
                    .chars()
                    .cycle()
                    .take(size)
                    .collect();
                job(name, move || {
                    let (mut offset, mut tokens) = (0, 0);
                    while offset < source.len() {
                        let token = rules.iter().find_map(|rule| rule.find(&source[offset..]));
                        offset += token.expect("the last rule takes any character").end();
                        tokens += 1;
                    }
                    tokens
                })
            }
        }
    };
}

side!(upstream);
side!(proved);

/// Returns the mean time of one call in µs.
fn time(job: &mut Job, times: usize) -> f64 {
    let start = Instant::now();
    for _ in 0..times {
        black_box((job.1)());
    }
    start.elapsed().as_secs_f64() * 1e6 / times as f64
}

/// Returns how many times a job is repeated in a run, so that the run takes a millisecond.
fn repeats(job: &mut Job) -> usize {
    ((1000.0 / time(job, 1)) as usize).clamp(1, 2000)
}

fn main() {
    let mut words = env::args().skip(1);
    let runs: usize = words
        .next()
        .map_or(15, |word| word.parse().expect("a number of runs"));
    let word = words.next().unwrap_or_default();
    println!("| Job | crate, µs | this, µs | ratio |\n|---|---|---|---|");
    let mut logarithms = Vec::new();
    for (mut of_crate, mut of_proved) in upstream::jobs().into_iter().zip(proved::jobs()) {
        if !of_crate.0.contains(&word) {
            continue;
        }
        assert_eq!((of_crate.1)(), (of_proved.1)(), "{}", of_crate.0);
        let times = (repeats(&mut of_crate), repeats(&mut of_proved));
        let mut best = (f64::INFINITY, f64::INFINITY);
        for _ in 0..runs {
            best.0 = best.0.min(time(&mut of_crate, times.0));
            best.1 = best.1.min(time(&mut of_proved, times.1));
            // A job that takes long is done once.
            if best.0 + best.1 > 3e5 {
                break;
            }
        }
        let ratio = best.0 / best.1;
        println!(
            "| {} | {:.1} | {:.1} | {ratio:.2} |",
            of_crate.0, best.0, best.1
        );
        logarithms.push(ratio.ln());
    }
    let mean = logarithms.iter().sum::<f64>() / logarithms.len() as f64;
    println!("geometric mean of {}: {:.2}", logarithms.len(), mean.exp());
}
