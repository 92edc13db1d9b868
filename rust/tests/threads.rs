//! Twelve threads search with one regex at the same time, and each must find what the haystack was made of. It has a `main` of
//! its own, so that a race detector sees few threads besides these. It builds with the Rust crate too.
//!
//! A number as argument is the number of rounds of each thread: `cargo test --test threads -- 100`.

use regex_bites::{bytes, Captures, Regex};
use std::env;
use std::sync::atomic::{AtomicUsize, Ordering};
use std::sync::Arc;
use std::thread;

/// More than the nine threads that search with one regex without a lock.
const THREADS: usize = 12;

struct Shared {
    pair: Regex,
    number: bytes::Regex,
    ready: AtomicUsize,
}

impl Shared {
    /// Returns once all threads are here.
    fn wait_for_all(&self) {
        self.ready.fetch_add(1, Ordering::SeqCst);
        while self.ready.load(Ordering::SeqCst) < THREADS {
            thread::yield_now();
        }
    }

    /// Makes each kind of search once. The haystack has the number twice, so the results are known.
    fn ask(&self, number: usize) {
        let text = format!("key{number}=value{number}; é");
        let digits = number.to_string().len();
        let found = self.pair.find(&text).expect("a match");
        assert_eq!(found.range(), 0..9 + 2 * digits);
        let captures = self.pair.captures(&text).expect("a match");
        assert_eq!(captures["value"], text[4 + digits..9 + 2 * digits]);
        assert_eq!(captures.get(1).map(|key| key.end()), Some(3 + digits));
        let swapped = self.pair.replace_all(&text, "$value=$1");
        assert_eq!(swapped, format!("value{number}=key{number}; é"));
        let removed = self.pair.replace(&text, |_: &Captures<'_>| "");
        assert_eq!(removed, "; é");
        let counted = self
            .number
            .find_iter(text.as_bytes())
            .map(|found| found.len());
        assert_eq!(counted.collect::<Vec<_>>(), [digits, digits]);
        assert_eq!(self.number.split(text.as_bytes()).count(), 3);
        assert!(!self.number.is_match(b"none"));
    }
}

fn main() {
    let words = env::args().skip(1);
    let rounds = words
        .filter_map(|word| word.parse().ok())
        .next()
        .unwrap_or(2000);
    let shared = Arc::new(Shared {
        pair: Regex::new(r"(\w+)=(?<value>\w+)").expect("accepted"),
        number: bytes::Regex::new(r"\d+").expect("accepted"),
        ready: AtomicUsize::new(0),
    });
    let threads = (0..THREADS).map(|thread| {
        let shared = Arc::clone(&shared);
        thread::spawn(move || {
            shared.wait_for_all();
            let own = shared.pair.clone();
            for round in 0..rounds {
                shared.ask(round * THREADS + thread);
                assert!(own.is_match("a=b"));
            }
        })
    });
    for thread in threads.collect::<Vec<_>>() {
        thread.join().expect("the thread ends");
    }
    println!("test result: ok. 1 passed; 0 failed");
}
