//! Times sets of 5, 50 and 500 patterns: which of them match each line of a log, in one program, which `sets` builds.
//!
//!     sets [RUNS]
//!
//! A row is the number of patterns, what is done, and the best of RUNS times in µs: of this crate's `RegexSet`, of a loop over a list
//! of the Rust crate's `Regex`, and of the `RegexSet` of Rust's `regex`. Two ratios follow, of each of the others to this one: above 1
//! this one is faster. All must give the same result.

use std::env;
use std::hint::black_box;
use std::time::Instant;

/// The lines of a log, of some 90 bytes each.
fn lines() -> Vec<String> {
    let methods = ["GET", "POST", "PUT", "DELETE"];
    let line = |i: usize| {
        format!(
            "2024-02-{:02}T23:{:02}:{:02}Z INFO [web-{}] {} /users/{}/posts/x{} {} {}ms user=u{}@example.org",
            i % 28 + 1,
            i % 60,
            i * 7 % 60,
            i % 9,
            methods[i % 4],
            i * 31 % 700,
            i * 7,
            200 + i % 300,
            i % 1000,
            i % 50
        )
    };
    (0..200).map(line).collect()
}

/// So many patterns of the kinds that such sets have. Few of them match a line.
fn patterns(count: usize) -> Vec<String> {
    let pattern = |i: usize| match i % 5 {
        0 => format!(r"/users/{i}/posts"),
        1 => format!(r"\[web-{}\] (?:GET|PUT) ", i % 11),
        2 => format!(r" {}\d ", 20 + i % 30),
        3 => format!(r"user=u{}@", i % 70),
        _ => format!(r"^2024-02-{:02}T\d\d:{:02}", i % 31 + 1, i % 60),
    };
    (0..count).map(pattern).collect()
}

/// Returns the least time of a call, in µs, and what it returns.
fn best(runs: usize, mut work: impl FnMut() -> usize) -> (f64, usize) {
    let mut least = f64::INFINITY;
    let mut answer = 0;
    for _ in 0..runs {
        let start = Instant::now();
        answer = black_box(work());
        least = least.min(start.elapsed().as_secs_f64() * 1e6);
    }
    (least, answer)
}

fn show(count: usize, work: &str, times: [(f64, usize); 3]) {
    let [ours, looped, regex] = times;
    assert!(
        ours.1 == looped.1 && ours.1 == regex.1,
        "{count} {work}: {times:?}"
    );
    println!(
        "| {count} | {work} | {:.0} | {:.0} | {:.0} | {:.2} | {:.3} |",
        ours.0,
        looped.0,
        regex.0,
        looped.0 / ours.0,
        regex.0 / ours.0
    );
}

fn main() {
    let runs = env::args()
        .nth(1)
        .map_or(5, |word| word.parse().expect("a number of runs"));
    let lines = lines();
    for count in [5, 50, 500] {
        let patterns = patterns(count);
        let ours = proved::RegexSet::new(&patterns).expect("accepted");
        let looped: Vec<upstream::Regex> = patterns
            .iter()
            .map(|p| upstream::Regex::new(p).expect("accepted"))
            .collect();
        let regex = regex::RegexSet::new(&patterns).expect("accepted");
        let matches = [
            best(runs, || {
                lines.iter().map(|l| ours.matches(l).iter().count()).sum()
            }),
            best(runs, || {
                lines
                    .iter()
                    .map(|l| looped.iter().filter(|r| r.is_match(l)).count())
                    .sum()
            }),
            best(runs, || {
                lines.iter().map(|l| regex.matches(l).iter().count()).sum()
            }),
        ];
        show(count, "which match, 200 lines", matches);
        let is = [
            best(runs, || lines.iter().filter(|l| ours.is_match(l)).count()),
            best(runs, || {
                lines
                    .iter()
                    .filter(|l| looped.iter().any(|r| r.is_match(l)))
                    .count()
            }),
            best(runs, || lines.iter().filter(|l| regex.is_match(l)).count()),
        ];
        show(count, "whether any matches, 200 lines", is);
        let made = [
            best(runs, || {
                proved::RegexSet::new(&patterns).expect("accepted").len()
            }),
            best(runs, || {
                let made: Result<Vec<_>, _> =
                    patterns.iter().map(|p| upstream::Regex::new(p)).collect();
                made.expect("accepted").len()
            }),
            best(runs, || {
                regex::RegexSet::new(&patterns).expect("accepted").len()
            }),
        ];
        show(count, "making the set", made);
    }
}
