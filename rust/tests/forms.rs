//! The forms in which programs keep a regex and share it between threads, each as it is usually written. They build with
//! the Rust crate too.

// Newer than what the crate itself asks for.
#![allow(clippy::incompatible_msrv)]

use regex_bites::{bytes, Captures, Error, Match, Regex, RegexBuilder};
use std::cell::RefCell;
use std::collections::HashMap;
use std::future::Future;
use std::panic::{catch_unwind, RefUnwindSafe, UnwindSafe};
use std::pin::pin;
use std::sync::{mpsc, Arc, LazyLock, Mutex, OnceLock, RwLock};
use std::task::{Context, Poll, Waker};
use std::thread;

fn regex(pattern: &str) -> Regex {
    Regex::new(pattern).expect("the pattern is accepted")
}

/// Runs the work on a thread of its own.
fn on_a_thread<T: Send>(work: impl FnOnce() -> T + Send) -> T {
    thread::scope(|scope| scope.spawn(work).join().expect("the thread ends"))
}

fn is_shared<T: Send + Sync + UnwindSafe + RefUnwindSafe>() {}

macro_rules! all_types_are_shared {
    ($name:ident = $($path:ident)::+) => {
        #[test]
        fn $name() {
            use $($path)::+::*;
            is_shared::<Regex>();
            is_shared::<RegexBuilder>();
            is_shared::<Error>();
            is_shared::<Match<'static>>();
            is_shared::<Captures<'static>>();
            is_shared::<CaptureLocations>();
            is_shared::<CaptureNames<'static>>();
            is_shared::<SubCaptureMatches<'static, 'static>>();
            is_shared::<Matches<'static, 'static>>();
            is_shared::<CaptureMatches<'static, 'static>>();
            is_shared::<Split<'static, 'static>>();
            is_shared::<SplitN<'static, 'static>>();
            is_shared::<NoExpand<'static>>();
        }
    };
}

all_types_are_shared!(types_of_texts = regex_bites);
all_types_are_shared!(types_of_bytes = regex_bites::bytes);

static DATE: LazyLock<Regex> = LazyLock::new(|| regex(r"(\d{4})-(\d\d)"));

#[test]
fn form_1_a_lazy_static() {
    let month = on_a_thread(|| DATE.captures("on 2010-03").map(|date| date[2].to_string()));
    assert_eq!(month.as_deref(), Some("03"));
    assert!(DATE.is_match("2011-04"));
}

fn word() -> &'static Regex {
    static WORD: OnceLock<Regex> = OnceLock::new();
    WORD.get_or_init(|| regex(r"\w+"))
}

#[test]
fn form_2_a_function_with_a_once_lock() {
    let counts = ["a b", "c"].map(|text| on_a_thread(move || word().find_iter(text).count()));
    assert_eq!(counts, [2, 1]);
}

static KNOWN: Mutex<Option<HashMap<String, Regex>>> = Mutex::new(None);

/// Compiles each pattern once.
fn known(pattern: &str) -> Result<Regex, Error> {
    let mut known = KNOWN.lock().expect("no thread panicked");
    let known = known.get_or_insert_with(HashMap::new);
    if let Some(regex) = known.get(pattern) {
        return Ok(regex.clone());
    }
    let regex = Regex::new(pattern)?;
    known.insert(pattern.to_string(), regex.clone());
    Ok(regex)
}

#[test]
fn form_3_a_mutex_in_a_static() {
    let first = on_a_thread(|| known("a+")).expect("accepted");
    let again = known("a+").expect("accepted");
    assert_eq!(
        (first.find("baa").map(|found| found.end()), again.as_str()),
        (Some(3), "a+")
    );
    assert!(known("a(").is_err());
}

struct State {
    routes: Vec<(Regex, &'static str)>,
}

impl State {
    fn handler(&self, path: &str) -> Option<(&'static str, String)> {
        self.routes.iter().find_map(|(route, handler)| {
            let captures = route.captures(path)?;
            Some((*handler, captures["id"].to_string()))
        })
    }
}

#[test]
fn form_4_routes_in_an_arc() {
    let routes = vec![
        (regex(r"^/users/(?<id>\d+)$"), "user"),
        (regex(r"^/posts/(?<id>\w+)$"), "post"),
    ];
    let state = Arc::new(State { routes });
    let threads = ["/users/17", "/posts/x1", "/none"].map(|path| {
        let state = Arc::clone(&state);
        thread::spawn(move || state.handler(path))
    });
    let answers = threads.map(|thread| thread.join().expect("the thread ends"));
    let wanted = [Some(("user", "17")), Some(("post", "x1")), None];
    assert_eq!(
        answers,
        wanted.map(|pair| pair.map(|(name, id)| (name, id.to_string())))
    );
}

#[test]
fn form_5_a_regex_moved_into_a_thread() {
    let digits = regex(r"\d+");
    assert!(digits.is_match("1"));
    let own = digits.clone();
    let spawned = thread::spawn(move || own.replace_all("a1b22", "#").into_owned());
    assert_eq!(spawned.join().expect("the thread ends"), "a#b#");
    let spawned = thread::spawn(move || digits.split("a1b22c").count());
    assert_eq!(spawned.join().expect("the thread ends"), 3);
}

#[test]
fn form_6_captures_and_matches_sent_to_a_thread() {
    let (sender, receiver) = mpsc::channel::<(Captures<'static>, Option<Match<'static>>)>();
    let reader = thread::spawn(move || {
        let pairs = receiver.iter().map(|(captures, found)| {
            (captures["year"].to_string(), found.map(|found| found.len()))
        });
        pairs.collect::<Vec<_>>()
    });
    let year = regex(r"(?<year>\d{4})");
    for text in ["in 2010", "in 2011, in 2012"] {
        let captures = year.captures(text).expect("a match");
        sender
            .send((captures, year.find(text)))
            .expect("the reader reads");
    }
    drop((sender, year));
    let pairs = reader.join().expect("the thread ends");
    assert_eq!(pairs, [("2010".into(), Some(4)), ("2011".into(), Some(4))]);
}

async fn user_of(line: &str, user: Arc<Regex>) -> Option<String> {
    let captures = user.captures(line)?;
    pause().await;
    captures.get(1).map(|name| name.as_str().to_string())
}

/// Is pending once, so that what is alive at the `await` is kept in the future.
async fn pause() {
    let mut waited = false;
    std::future::poll_fn(|_| {
        if std::mem::replace(&mut waited, true) {
            Poll::Ready(())
        } else {
            Poll::Pending
        }
    })
    .await
}

#[test]
fn form_7_a_future_that_is_sent() {
    let user = Arc::new(regex(r"user=(\w+)"));
    let future: Box<dyn Future<Output = Option<String>> + Send> =
        Box::new(user_of("GET / user=ada", user));
    let name = on_a_thread(move || {
        let mut future = Box::into_pin(future);
        let mut context = Context::from_waker(Waker::noop());
        assert!(pin!(future.as_mut()).poll(&mut context).is_pending());
        future.as_mut().poll(&mut context)
    });
    assert_eq!(name, Poll::Ready(Some("ada".to_string())));
}

type Check = Box<dyn Fn(&str) -> bool + Send + Sync>;

#[test]
fn form_8_boxed_closures_that_are_shared() {
    let (digits, letters) = (regex(r"^\d+$"), regex("^[a-z]+$"));
    let checks: Vec<Check> = vec![
        Box::new(move |text| digits.is_match(text)),
        Box::new(move |text| letters.is_match(text)),
    ];
    let passed = |text: &str| checks.iter().map(|check| check(text)).collect::<Vec<_>>();
    let answers = ["17", "abc", "-"].map(|text| on_a_thread(|| passed(text)));
    assert_eq!(
        answers,
        [vec![true, false], vec![false, true], vec![false, false]]
    );
}

#[test]
fn form_9_one_regex_borrowed_by_scoped_threads() {
    let word = bytes::RegexBuilder::new(r"[a-z]+")
        .case_insensitive(true)
        .build()
        .expect("accepted");
    let text = b"One two\nthree\nFour five six\n";
    let counts: Vec<usize> = thread::scope(|scope| {
        let lines = text.split(|byte| *byte == b'\n');
        let threads: Vec<_> = lines
            .map(|line| scope.spawn(|| word.find_iter(line).count()))
            .collect();
        threads
            .into_iter()
            .map(|thread| thread.join().expect("the thread ends"))
            .collect()
    });
    assert_eq!(counts, [2, 1, 3, 0]);
}

thread_local! {
    static COMMA: Regex = regex(", *");
    static LINES: RefCell<Vec<String>> = const { RefCell::new(Vec::new()) };
}

#[test]
fn form_10_a_thread_local() {
    let count = |text: &'static str| {
        COMMA.with(|comma| comma.split(text).map(String::from).collect::<Vec<_>>())
    };
    assert_eq!(on_a_thread(|| count("a, b,c")), ["a", "b", "c"]);
    assert_eq!(count("d"), ["d"]);
}

#[derive(Clone, Debug)]
struct Rules {
    white: Regex,
    number: Option<bytes::Regex>,
}

#[test]
fn form_11_a_struct_behind_a_read_write_lock() {
    let number = bytes::Regex::new(r"\d").ok();
    let rules = RwLock::new(Rules {
        white: regex(r"\s+"),
        number,
    });
    let read = || {
        let rules = rules.read().expect("no thread panicked");
        rules.white.replace_all("a  b", " ").into_owned()
    };
    assert_eq!(on_a_thread(read), "a b");
    let own = rules.read().expect("no thread panicked").clone();
    on_a_thread(|| rules.write().expect("no thread panicked").white = regex("b"));
    assert_eq!((read().as_str(), own.white.as_str()), ("a   ", r"\s+"));
    assert!(own.number.is_some_and(|number| number.is_match(b"\xFF7")));
    assert!(format!("{rules:?}").contains("Regex(\"b\")"));
}

#[test]
fn form_12_an_iterator_finished_on_a_thread() {
    let word = regex(r"(\w)\w*");
    let text = "one two three";
    let (mut all, mut pieces) = (word.captures_iter(text), word.split(text));
    assert_eq!(
        all.next().map(|captures| captures[1].to_string()),
        Some("o".into())
    );
    assert_eq!(pieces.next(), Some(""));
    let rest = on_a_thread(|| {
        (
            all.map(|captures| captures[0].len()).sum::<usize>(),
            pieces.count(),
        )
    });
    assert_eq!(rest, (8, 3));
}

#[test]
fn form_13_errors_and_panics_over_threads() -> Result<(), Box<dyn std::error::Error + Send + Sync>>
{
    let refused = on_a_thread(|| RegexBuilder::new("a(").build());
    let error: Box<dyn std::error::Error + Send + Sync> = refused.expect_err("refused").into();
    assert_eq!(error.to_string(), "found open group without closing ')'");
    let letter = Regex::new("[a-z]")?;
    let asked = catch_unwind(|| {
        letter.replace_all("ab", |found: &Captures<'_>| match &found[0] {
            "a" => "A",
            _ => panic!("asked for b"),
        })
    });
    assert!(asked.is_err());
    assert_eq!(letter.replace_all("ab", "."), "..");
    Ok(())
}
