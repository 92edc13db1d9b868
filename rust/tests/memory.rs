//! Out of memory: each case runs in a process of its own, with so little memory that the engine is refused some. It has a `main` of
//! its own, since a test harness has threads besides, which may need memory while there is none.

use regex_bites::{RegexBuilder, RegexSet};
use std::env;
use std::os::unix::process::ExitStatusExt;
use std::process::{self, Command, Output};

/// What a process does, and how it must end.
struct Case {
    name: &'static str,
    work: fn(),
    /// Where standard error goes, as a redirection of the shell.
    redirection: &'static str,
    is_right: fn(&Output) -> bool,
}

const CASES: [Case; 5] = [
    Case {
        name: "a_build_answers_an_error",
        work: a_build_answers_an_error,
        redirection: "",
        is_right: succeeded,
    },
    Case {
        name: "a_search_ends_the_program",
        work: a_search_ends_the_program,
        redirection: "",
        is_right: |output| aborted(output) && says_why(output),
    },
    // Nothing can be written to this device. The program ends without a panic all the same.
    Case {
        name: "a_search_ends_the_program_without_standard_error",
        work: a_search_ends_the_program,
        redirection: "2> /dev/full",
        is_right: aborted,
    },
    Case {
        name: "a_table_without_memory_ends_nothing",
        work: a_table_without_memory_ends_nothing,
        redirection: "",
        is_right: succeeded,
    },
    Case {
        name: "a_table_is_shared_if_there_is_memory",
        work: a_table_is_shared_if_there_is_memory,
        redirection: "",
        is_right: succeeded,
    },
];

fn succeeded(output: &Output) -> bool {
    output.status.success()
}

fn aborted(output: &Output) -> bool {
    const SIGABRT: i32 = 6;
    output.status.signal() == Some(SIGABRT)
}

fn says_why(output: &Output) -> bool {
    String::from_utf8_lossy(&output.stderr).contains("regex-bites: out of memory")
}

/// The variable that tells a process which case it is.
const CASE: &str = "REGEX_BITES_MEMORY_CASE";

impl Case {
    /// Runs the case in a process with 200,000 KiB of address space.
    fn run(&self) -> Output {
        let line = format!("ulimit -v 200000; exec \"$0\" {}", self.redirection);
        Command::new("sh")
            .args(["-c", &line])
            .arg(env::current_exe().expect("the path of this program"))
            .env(CASE, self.name)
            .env("RUST_BACKTRACE", "0")
            .output()
            .expect("the case runs")
    }

    /// Runs the case, and prints and returns whether it ended as it must.
    fn passes(&self) -> bool {
        let output = self.run();
        let passes = (self.is_right)(&output);
        let word = if passes { "ok" } else { "FAILED" };
        println!("test {} ... {word}", self.name);
        if !passes {
            println!("{output:?}");
        }
        passes
    }
}

fn main() {
    if let Ok(name) = env::var(CASE) {
        let mut cases = CASES.iter();
        let case = cases.find(|case| case.name == name);
        return (case.expect("a case of this name").work)();
    }
    let passed = CASES.iter().filter(|case| case.passes()).count();
    let failed = CASES.len() - passed;
    let word = if failed == 0 { "ok" } else { "FAILED" };
    println!("test result: {word}. {passed} passed; {failed} failed");
    process::exit(i32::from(failed != 0));
}

/// Returns a builder of a pattern with this number of states.
fn builder(states: usize) -> RegexBuilder {
    let mut builder = RegexBuilder::new(&format!("a{{{states}}}"));
    builder.size_limit(usize::MAX);
    builder
}

fn a_build_answers_an_error() {
    let refused = builder(20_000_000).build().expect_err("no memory");
    assert_eq!(refused.to_string(), "out of memory");
    assert!(builder(10).build().is_ok());
}

fn a_search_ends_the_program() {
    let regex = builder(1_500_000)
        .build()
        .expect("a regex takes less than its searches do");
    regex.is_match("a");
}

/// Calls `work` while there is no memory at all.
fn without_memory(work: impl FnOnce()) {
    let mut blocks = Vec::<Vec<u8>>::with_capacity(1 << 18);
    let large = (11..28).map(|power| 1 << power);
    for size in (1..2048).chain(large).rev() {
        let mut block = Vec::new();
        while block.try_reserve_exact(size).is_ok() {
            assert!(
                blocks.len() < blocks.capacity(),
                "more memory than expected"
            );
            blocks.push(std::mem::take(&mut block));
        }
    }
    work();
}

/// A search goes on without a table, and a later one makes it.
fn a_table_without_memory_ends_nothing() {
    let text = "b".repeat(100_000);
    let regex = RegexBuilder::new("a+c").build().expect("accepted");
    let set = RegexSet::new(["a+c", "d"]).expect("accepted");
    // Each has what its searches need, and no table yet.
    assert!(regex.is_match("aac") && set.is_match("d"));
    without_memory(|| {
        assert!(!regex.is_match(&text) && !set.is_match(&text));
        assert!(!regex.is_full_match(&text) && regex.find_anchored_at("aac", 1).is_some());
    });
    assert_eq!((regex.table_size(), set.table_size()), (None, None));
    assert!(!regex.is_match(&text) && !set.is_match(&text));
    assert!(regex.table_size().is_some() && set.table_size().is_some());
}

/// So does a search that would take the table of another regex, which shares it.
fn a_table_is_shared_if_there_is_memory() {
    let text = "b".repeat(100_000);
    let regex = RegexBuilder::new("a+c").build().expect("accepted");
    let set = RegexSet::new(["a+c", "d"]).expect("accepted");
    let (regex_too, set_too) = (regex.clone(), set.clone());
    assert!(regex_too.is_match("aac") && set_too.is_match("d"));
    assert!(!regex.is_match(&text) && !set.is_match(&text));
    assert!(regex.table_size().is_some() && set.table_size().is_some());
    without_memory(|| {
        assert!(!regex_too.is_match(&text) && !set_too.is_match(&text));
        assert!(regex_too.is_match("aac") && set_too.is_match("d"));
    });
    assert!(!regex_too.is_match(&text) && !set_too.is_match(&text));
}
