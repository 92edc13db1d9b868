//! Sets of patterns, with answers that are worked out by hand.

use regex_bites::{bytes, Regex, RegexSet, RegexSetBuilder, SetMatches};
use std::panic::{RefUnwindSafe, UnwindSafe};
use std::thread;

fn is_shared<T: Send + Sync + UnwindSafe + RefUnwindSafe>() {}

macro_rules! types_are_shared {
    ($name:ident = $($path:ident)::+) => {
        #[test]
        fn $name() {
            use $($path)::+::*;
            is_shared::<RegexSet>();
            is_shared::<RegexSetBuilder>();
            is_shared::<SetMatches>();
            is_shared::<SetMatchesIter<'static>>();
            is_shared::<SetMatchesIntoIter>();
            is_shared::<TableSize>();
        }
    };
}

types_are_shared!(types_of_texts = regex_bites);
types_are_shared!(types_of_bytes = regex_bites::bytes);

/// Returns the numbers of the patterns that match.
fn numbers(matches: &SetMatches) -> Vec<usize> {
    matches.iter().collect()
}

#[test]
fn a_pattern_is_named_by_its_number() {
    let set = RegexSet::new(["foo", "^o+", "d$", "", "é"]).unwrap();
    assert_eq!(numbers(&set.matches("a food")), [0, 2, 3]);
    assert_eq!(numbers(&set.matches("ooé")), [1, 3, 4]);
    assert_eq!(numbers(&set.matches_at("ood", 1)), [2, 3]);
    assert_eq!(numbers(&set.matches_at("ood", 4)), []);
    assert!(set.is_match("") && !set.is_match_at("", 1));
    assert_eq!(set.patterns(), ["foo", "^o+", "d$", "", "é"]);
}

#[test]
fn matches_are_read_from_both_ends() {
    let set = RegexSet::new(["a", "b", "c", "d"]).unwrap();
    let matches = set.matches("dba");
    let mut left = matches.iter();
    assert_eq!(left.next_back(), Some(3));
    assert_eq!(left.next(), Some(0));
    assert_eq!(left.clone().next(), Some(1));
    assert_eq!(left.next_back(), Some(1));
    assert_eq!((left.next(), left.next_back()), (None, None));
    assert_eq!(
        matches.clone().into_iter().rev().collect::<Vec<_>>(),
        [3, 1, 0]
    );
    assert!(matches.matched(3) && !matches.matched(2));
    assert!(matches.matched_any() && !matches.matched_all());
    assert_eq!(format!("{matches:?}"), "SetMatches([0, 1, 3])");
    assert_eq!(format!("{set:?}"), r#"RegexSet(["a", "b", "c", "d"])"#);
}

#[test]
fn a_set_without_patterns_matches_nothing() {
    let set = RegexSet::empty();
    assert!(set.is_empty() && set.len() == 0 && !set.is_match("a"));
    let matches = set.matches("a");
    assert!(matches.len() == 0 && !matches.matched_any() && matches.matched_all());
}

#[test]
#[should_panic]
fn a_number_past_the_last_pattern_panics() {
    RegexSet::new(["a"]).unwrap().matches("a").matched(1);
}

#[test]
fn a_refusal_names_the_first_pattern() {
    let error = RegexSet::new(["a", "(b", ")"]).unwrap_err();
    assert_eq!(error.pattern_index(), Some(1));
    assert_eq!(error.to_string(), "found open group without closing ')'");
    let mut builder = RegexSetBuilder::new(["a", "b", "a.b"]);
    let error = builder.unicode(false).build().unwrap_err();
    assert_eq!(error.pattern_index(), Some(2));
    assert_eq!(Regex::new("(b").unwrap_err().pattern_index(), None);
}

#[test]
fn flags_are_those_of_all_patterns() {
    let mut builder = RegexSetBuilder::new(["^b$", "A"]);
    let set = builder
        .case_insensitive(true)
        .multi_line(true)
        .build()
        .unwrap();
    assert_eq!(numbers(&set.matches("a\nB\n")), [0, 1]);
    let set = builder.case_insensitive(false).build().unwrap();
    assert_eq!(numbers(&set.matches("a\nB\n")), []);
}

#[test]
fn bytes_need_not_be_utf8() {
    let set = bytes::RegexSet::new(["b", "^.b", "c"]).unwrap();
    assert_eq!(numbers(&set.matches(b"\xFFb")), [0, 1]);
}

/// Eight threads search with one set at the same time.
#[test]
fn threads_share_a_set() {
    let set = RegexSet::new(["[0-3]", "[4-7]", "x"]).unwrap();
    let answers = thread::scope(|scope| {
        let threads = [0, 1, 2, 3, 4, 5, 6, 7].map(|number: u32| {
            let set = &set;
            scope.spawn(move || {
                let text = number.to_string();
                (0..500).all(|_| numbers(&set.matches(&text)) == [number as usize / 4])
            })
        });
        threads.map(|thread| thread.join().unwrap())
    });
    assert_eq!(answers, [true; 8]);
}
