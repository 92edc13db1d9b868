//! Times calls on short haystacks, as programs make them for lines, paths and fields: of this crate and of Rust's `regex`, in turn in one
//! program, which `short` builds.
//!
//!     short [RUNS]
//!
//! A row is the call, the pattern, and the best of RUNS times in ns for each haystack, of this crate and of `regex`. A ratio above 1 says
//! that this crate is faster. Both must give the same result. The patterns name no class that means more than ASCII in `regex`.

use std::env;
use std::hint::black_box;
use std::time::Instant;

/// At how many depths of the stack runs are made.
const DEPTHS: usize = 8;

/// A call that both crates have.
#[derive(Clone, Copy)]
enum Call {
    IsMatch,
    Find,
    FindIter,
    Captures,
    CapturesRead,
    Split,
    ReplaceAll(&'static str),
}

impl Call {
    fn name(self) -> &'static str {
        match self {
            Call::IsMatch => "is_match",
            Call::Find => "find",
            Call::FindIter => "find_iter",
            Call::Captures => "captures",
            Call::CapturesRead => "captures_read",
            Call::Split => "split",
            Call::ReplaceAll(_) => "replace_all",
        }
    }
}

/// Writes a function that returns the calls of a crate with a pattern: from a haystack to a number that tells what was found.
macro_rules! calls_of {
    ($function:ident, $library:ident) => {
        fn $function(pattern: &str, call: Call) -> impl FnMut(&str) -> usize {
            let regex = $library::Regex::new(pattern).expect("accepted");
            let mut locations = regex.capture_locations();
            move |haystack| match call {
                Call::IsMatch => usize::from(regex.is_match(haystack)),
                Call::Find => regex.find(haystack).map_or(0, |found| found.end()),
                Call::FindIter => regex.find_iter(haystack).map(|found| found.end()).sum(),
                Call::Captures => regex
                    .captures(haystack)
                    .map_or(0, |groups| groups.get(1).map_or(0, |group| group.end())),
                Call::CapturesRead => regex
                    .captures_read(&mut locations, haystack)
                    .map_or(0, |found| found.end()),
                Call::Split => regex.split(haystack).map(str::len).max().unwrap_or(0),
                Call::ReplaceAll(by) => regex.replace_all(haystack, by).len(),
            }
        }
    };
}

calls_of!(calls_here, proved);
calls_of!(calls_of_regex, regex);

/// A sequence of numbers that look random, the same in each run.
struct Draw(u64);

impl Draw {
    /// Returns the next number below `end`.
    fn below(&mut self, end: u64) -> u64 {
        self.0 = self
            .0
            .wrapping_mul(6364136223846793005)
            .wrapping_add(1442695040888963407);
        (self.0 >> 33) % end
    }

    /// Returns the next word.
    fn word(&mut self) -> &'static str {
        let words = [
            "alpha", "beta", "gamma", "delta", "harbour", "error", "warn", "info", "user", "post",
        ];
        words[self.below(words.len() as u64) as usize]
    }

    fn date(&mut self) -> String {
        format!(
            "{:04}-{:02}-{:02}",
            2000 + self.below(30),
            1 + self.below(12),
            1 + self.below(28)
        )
    }

    /// A line of a log, of some 65 bytes.
    fn line(&mut self) -> String {
        format!(
            "{}T{:02}:{:02}:{:02}Z {} 10.0.{}.{} {} {} took {} ms",
            self.date(),
            self.below(24),
            self.below(60),
            self.below(60),
            ["error", "warn", "info"][self.below(3) as usize],
            self.below(256),
            self.below(256),
            self.word(),
            self.word(),
            self.below(5000)
        )
    }

    fn path(&mut self) -> String {
        match self.below(4) {
            0 => format!("/users/{}", self.below(10000)),
            1 => format!("/users/{}/posts/{}", self.below(10000), self.word()),
            2 => format!("/static/{}.css", self.word()),
            _ => format!("/{}/{}", self.word(), self.word()),
        }
    }

    fn address(&mut self) -> String {
        format!("{}.{}@{}.com", self.word(), self.word(), self.word())
    }

    /// Eight fields with commas between.
    fn fields(&mut self) -> String {
        let fields: Vec<&str> = (0..8).map(|_| self.word()).collect();
        fields.join(",")
    }

    fn pairs(&mut self) -> String {
        let pairs: Vec<String> = (0..3)
            .map(|_| format!("{}={}", self.word(), self.below(1000)))
            .collect();
        pairs.join(" ")
    }
}

/// Returns how many ns a haystack the work takes, and what it returns in sum.
fn time(haystacks: &[String], work: &mut impl FnMut(&str) -> usize) -> (f64, usize) {
    let start = Instant::now();
    let sum = haystacks.iter().map(|haystack| work(haystack)).sum();
    let time = start.elapsed().as_secs_f64() * 1e9;
    (time / haystacks.len() as f64, black_box(sum))
}

/// Does the work with so many frames more on the stack. Where the stack stands changes the time of a call by up to a half, for both
/// crates. So runs are made at several depths.
#[inline(never)]
fn at_depth(depth: usize, work: &mut dyn FnMut()) {
    let frame = black_box([0u8; 16]);
    if depth == 0 {
        work();
    } else {
        at_depth(depth - 1, work);
    }
    black_box(frame);
}

/// Writes a row, and returns the ratio.
fn compare(runs: usize, call: Call, pattern: &str, haystacks: &[String]) -> f64 {
    let (mut here, mut other) = (calls_here(pattern, call), calls_of_regex(pattern, call));
    let mut least = [f64::INFINITY; 2];
    for run in 0..runs {
        let mut ours = (0.0, 0);
        let mut theirs = (0.0, 0);
        at_depth(run % DEPTHS, &mut || {
            ours = time(haystacks, &mut here);
            theirs = time(haystacks, &mut other);
        });
        assert_eq!(ours.1, theirs.1, "{} of {pattern}", call.name());
        least = [least[0].min(ours.0), least[1].min(theirs.0)];
    }
    let ratio = least[1] / least[0];
    let pattern = pattern.replace('|', r"\|");
    println!(
        "| `{}` | `{pattern}` | {:.1} | {:.1} | {ratio:.2} |",
        call.name(),
        least[0],
        least[1]
    );
    ratio
}

fn main() {
    let runs = env::args()
        .nth(1)
        .map_or(30, |word| word.parse().expect("a number of runs"));
    let mut draw = Draw(12345);
    let mut texts = |text: fn(&mut Draw) -> String| -> Vec<String> {
        (0..2000).map(|_| text(&mut draw)).collect()
    };
    let lines = texts(Draw::line);
    let dates = texts(Draw::date);
    let paths = texts(Draw::path);
    let addresses = texts(Draw::address);
    let fields = texts(Draw::fields);
    let pairs = texts(Draw::pairs);
    let iso = r"^([0-9]{4})-([0-9]{2})-([0-9]{2})T([0-9]{2}):([0-9]{2}):([0-9]{2})";
    let date = r"^([0-9]{4})-([0-9]{2})-([0-9]{2})$";
    let whole = r"^([^ ]+) ([a-z]+) ([^ ]+) (.*) took ([0-9]+) ms$";
    let rows: [(Call, &str, &[String]); 24] = [
        (Call::IsMatch, "error", &lines),
        (Call::IsMatch, "took [0-9]{4} ms$", &lines),
        (Call::IsMatch, "^[0-9]{4}-", &lines),
        (Call::IsMatch, "zqx", &lines),
        (Call::IsMatch, date, &dates),
        (Call::IsMatch, r"^[a-z.+-]+@[a-z-]+\.[a-z.-]+$", &addresses),
        (Call::IsMatch, "^/users/[0-9]+$", &paths),
        (Call::Find, r"[0-9]+\.[0-9]+\.[0-9]+\.[0-9]+", &lines),
        (Call::Find, "[0-9]+ ms$", &lines),
        (Call::Find, "error|warn", &lines),
        (Call::Find, "[a-z]+", &fields),
        (Call::FindIter, "[a-z]+", &fields),
        (Call::FindIter, ",", &fields),
        (Call::FindIter, "[^ ]+", &lines),
        (Call::Captures, date, &dates),
        (Call::Captures, iso, &lines),
        (
            Call::Captures,
            r"^/users/([0-9]+)(?:/posts/([a-z]+))?$",
            &paths,
        ),
        (Call::Captures, "([a-z]+)=([0-9]+)", &pairs),
        (Call::CapturesRead, iso, &lines),
        (Call::CapturesRead, whole, &lines),
        (Call::Split, ",", &fields),
        (Call::Split, " +", &lines),
        (Call::ReplaceAll("#"), "[0-9]+", &lines),
        (Call::ReplaceAll("$2:$1"), "([a-z]+)=([0-9]+)", &pairs),
    ];
    let logs: f64 = rows
        .iter()
        .map(|(call, pattern, haystacks)| compare(runs, *call, pattern, haystacks).ln())
        .sum();
    println!(
        "| **geometric mean** | | | | **{:.2}** |",
        (logs / rows.len() as f64).exp()
    );
}
