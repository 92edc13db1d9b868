//! Times short searches by several threads at the same time: with one regex that they share, of this crate and of Rust's `regex`, and with
//! a clone for each, in turn in one program, which `threads` builds.
//!
//!     threads [CALLS]
//!
//! A row has how many threads there are, and nanoseconds a call of each of them, the best of nine runs: with the shared regex of this
//! crate, with clones of it, with the shared one of `regex`, and with clones of that.

use std::env;
use std::thread;
use std::time::Instant;

const RUNS: usize = 9;

const PATTERN: &str = "took [0-9]{4} ms$";

const LINE: &str = "2026-11-30T12:34:56Z info 10.0.12.34 holmes watson street took 1234 ms";

/// Returns the nanoseconds that a call takes, where so many threads make so many calls each at the same time. `searches` returns the
/// search of a thread.
fn time<S: Fn() -> bool + Send>(threads: usize, calls: usize, searches: impl Fn() -> S) -> f64 {
    let mut all: Vec<S> = (0..threads).map(|_| searches()).collect();
    let start = Instant::now();
    thread::scope(|scope| {
        for search in all.drain(..) {
            scope.spawn(move || assert!((0..calls).all(|_| search())));
        }
    });
    start.elapsed().as_nanos() as f64 / calls as f64
}

/// Returns the least time with one shared regex, and the least with a clone for each thread.
macro_rules! both {
    ($library:ident, $threads:expr, $calls:expr) => {{
        let regex = $library::Regex::new(PATTERN).expect("accepted");
        let shared = &regex;
        let mut least = (f64::MAX, f64::MAX);
        for _ in 0..RUNS {
            let of_one = time($threads, $calls, || move || shared.is_match(LINE));
            let of_clones = time($threads, $calls, || {
                let own = regex.clone();
                move || own.is_match(LINE)
            });
            least = (least.0.min(of_one), least.1.min(of_clones));
        }
        least
    }};
}

fn main() {
    let calls = env::args()
        .nth(1)
        .map_or(300_000, |calls| calls.parse().expect("a number of calls"));
    println!("| Threads | ns here, shared | with clones | ns of `regex`, shared | with clones |\n|---|---|---|---|---|");
    for threads in [1, 2, 4] {
        let here = both!(proved, threads, calls);
        let there = both!(regex, threads, calls);
        println!(
            "| {threads} | {:.0} | {:.0} | {:.0} | {:.0} |",
            here.0, here.1, there.0, there.1
        );
    }
}
