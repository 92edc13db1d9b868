//! Times the Rust crate regex-bites and this one on the same work, in turn, in one program, which `run` builds.
//!
//!     time [RUNS] [WORK]
//!
//! A row is the work, the best time of each crate in ms, and their ratio: above 1 this one is faster. Both must give the
//! same result. The last row is the geometric mean of the ratios of the searches.

use std::env;
use std::hint::black_box;
use std::process::ExitCode;
use std::time::Instant;

/// What is done with a haystack. Each kind of work returns a number, so that the results can be compared.
#[derive(Clone, Copy, PartialEq)]
enum Job {
    /// Counts all matches, over bytes.
    Matches,
    /// Counts all matches, over texts.
    TextMatches,
    /// Adds up the ends of the last group of each match.
    Groups,
    /// Does that with locations that are reused.
    Locations,
    /// Finds the first match of each line.
    Lines,
    /// Finds out whether anything matches.
    Is,
    /// Counts the pieces between matches.
    Pieces,
    /// Replaces each match by a template.
    Template,
    /// Replaces each match of each line by a template.
    TemplateLines,
    /// Replaces each match by what a closure returns.
    Closure,
    /// Makes the regex.
    Make,
}

struct Work {
    name: &'static str,
    job: Job,
    pattern: String,
    haystack: String,
    times: usize,
}

macro_rules! side {
    ($name:ident) => {
        fn $name(work: &Work) -> usize {
            use $name::bytes::{Captures, Regex};
            let make = || Regex::new(&work.pattern).expect("the pattern is accepted");
            let regex = make();
            let texts = $name::Regex::new(&work.pattern).expect("the pattern is accepted");
            let text = black_box(work.haystack.as_str());
            let bytes = text.as_bytes();
            let last = regex.captures_len() - 1;
            let mut sum = 0;
            for _ in 0..work.times {
                sum += match work.job {
                    Job::Matches => regex.find_iter(bytes).count(),
                    Job::TextMatches => texts.find_iter(text).count(),
                    Job::Groups => {
                        let ends = regex
                            .captures_iter(bytes)
                            .map(|captures| captures.get(last).map_or(0, |group| group.end()));
                        ends.sum()
                    }
                    Job::Locations => {
                        let (mut locations, mut from, mut ends) = (regex.capture_locations(), 0, 0);
                        while let Some(found) = regex.captures_read_at(&mut locations, bytes, from)
                        {
                            from = found.end();
                            ends += locations.get(last).map_or(0, |(_, end)| end);
                        }
                        ends
                    }
                    Job::Lines => text
                        .lines()
                        .map(|line| texts.find(line).map_or(0, |found| found.len()))
                        .sum(),
                    Job::Is => regex.is_match(bytes).into(),
                    Job::Pieces => regex.split(bytes).count(),
                    Job::Template => texts.replace_all(text, "$2 at ${1}").len(),
                    Job::TemplateLines => text
                        .lines()
                        .map(|line| texts.replace_all(line, "$2 at ${1}").len())
                        .sum(),
                    Job::Closure => {
                        let swapped = regex.replace_all(bytes, |captures: &Captures<'_>| {
                            [&captures[2], b"/", &captures[1]].concat()
                        });
                        swapped.len()
                    }
                    Job::Make => make().captures_len(),
                };
            }
            sum
        }
    };
}

side!(upstream);
side!(proved);

/// A generator of pseudorandom numbers, which are the same in each run.
struct Draw(u64);

impl Draw {
    fn below(&mut self, bound: usize) -> usize {
        self.0 ^= self.0 << 13;
        self.0 ^= self.0 >> 7;
        self.0 ^= self.0 << 17;
        (self.0 >> 20) as usize % bound
    }

    fn of<'a>(&mut self, words: &[&'a str]) -> &'a str {
        words[self.below(words.len())]
    }
}

const WORDS: [&str; 16] = [
    "stone", "a", "river", "falling", "over", "the", "winter", "green", "singing", "of", "boat",
    "and", "under", "it", "lantern", "by",
];
const WIDE: [&str; 8] = ["Straße", "été", "日本", "plain", "мир", "☃", "naïve", "𝒳𝒴"];

/// Returns at least `size` bytes of words of the list, with a rare word now and then, separated by spaces and ends of lines.
fn prose(words: &[&str], size: usize) -> String {
    let mut draw = Draw(size as u64);
    let mut text = String::new();
    while text.len() < size {
        text.push_str(if draw.below(300) == 0 {
            "Harbour"
        } else {
            draw.of(words)
        });
        text.push_str(draw.of(&[" ", " ", " ", " ", " ", ", ", ".\n"]));
    }
    text
}

fn log(size: usize) -> String {
    let mut draw = Draw(7);
    let mut text = String::new();
    while text.len() < size {
        let (month, day, took) = (1 + draw.below(12), 1 + draw.below(28), draw.below(9000));
        let level = draw.of(&["info", "warn", "error"]);
        let (user, host) = (draw.of(&WORDS), draw.below(50));
        text.push_str(&format!(
            "2024-{month:02}-{day:02} {level} {user}@host{host} took {took} ms\n"
        ));
    }
    text
}

fn works() -> Vec<Work> {
    let (prose, wide, log) = (prose(&WORDS, 1 << 20), prose(&WIDE, 1 << 18), log(1 << 19));
    let row = |name, job, pattern: &str, haystack: &str, times| Work {
        name,
        job,
        pattern: pattern.into(),
        haystack: haystack.into(),
        times,
    };
    let letters = "a".repeat(100_000);
    vec![
        row("literal", Job::Matches, "Harbour", &prose, 1),
        row("suffix", Job::Matches, "[a-z]+ing", &prose, 1),
        row("case", Job::Matches, "(?i)harbour|lantern", &prose, 1),
        row("dates", Job::Groups, r"(\d{4})-(\d\d)-(\d\d)", &log, 1),
        row("lines", Job::Lines, ".*", &log, 1),
        row("optional", Job::Is, "(?:a?){20}a{20}", &letters[..20], 1000),
        row("nested", Job::Is, "(a*)*b", &letters, 1),
        row("wide", Job::Matches, r"[^\s]+", &wide, 1),
        row("pieces", Job::Pieces, r"[ ,.\n]+", &prose, 1),
        row("template", Job::Template, r"(\w+)@(\w+)", &log, 1),
        row(
            "fields",
            Job::Locations,
            r"(\S+) (\w+) (\w+)@(\w+) took (\d+) ms",
            &log,
            1,
        ),
        row("texts", Job::TextMatches, r"\w+", &wide, 1),
        row(
            "template-lines",
            Job::TemplateLines,
            r"(\w+)@(\w+)",
            &log,
            1,
        ),
        row("closure", Job::Closure, r"(\w+)@(\w+)", &log, 1),
        row("make-repeated", Job::Make, r"\w{100}", "", 200),
        row(
            "make-choice",
            Job::Make,
            &prose[..2000].replace([' ', ',', '.', '\n'], "|"),
            "",
            200,
        ),
    ]
}

/// Returns how long the work takes in ms, and its result.
fn time(side: fn(&Work) -> usize, work: &Work) -> (f64, usize) {
    let start = Instant::now();
    let answer = black_box(side(work));
    (start.elapsed().as_secs_f64() * 1e3, answer)
}

fn main() -> ExitCode {
    let mut words = env::args().skip(1);
    let runs: usize = words
        .next()
        .map_or(7, |word| word.parse().expect("a number of runs"));
    let only = words.next();
    let (mut logarithms, mut differ) = (Vec::new(), false);
    for work in works() {
        if only.as_deref().is_some_and(|only| only != work.name) {
            continue;
        }
        let (mut best, mut best_proved) = (f64::INFINITY, f64::INFINITY);
        for _ in 0..runs {
            let (of_crate, of_proved) = (time(upstream, &work), time(proved, &work));
            best = best.min(of_crate.0);
            best_proved = best_proved.min(of_proved.0);
            differ |= of_crate.1 != of_proved.1;
        }
        let ratio = best / best_proved;
        println!(
            "{:16} crate {best:9.3} ms, this {best_proved:9.3} ms: {ratio:.2}",
            work.name
        );
        if work.job != Job::Make {
            logarithms.push(ratio.ln());
        }
    }
    let mean = logarithms.iter().sum::<f64>() / logarithms.len() as f64;
    println!(
        "geometric mean of {} searches: {:.2}",
        logarithms.len(),
        mean.exp()
    );
    if differ {
        println!("the answers differ");
    }
    ExitCode::from(u8::from(differ))
}
