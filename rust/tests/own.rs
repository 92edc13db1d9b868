//! What differs from the Rust crate.

use regex_bites::{bytes, Regex, RegexBuilder, RegexSetBuilder};
use std::ops::Range;
use std::time::Duration;

#[test]
fn the_names_tell_how_many_they_are() {
    let regex = Regex::new("(?<a>x)(y)").expect("the pattern is accepted");
    let mut names = regex.capture_names();
    assert_eq!((names.len(), names.size_hint()), (3, (3, Some(3))));
    names.next();
    assert_eq!(names.len(), 2);
    let captures = regex.captures("xy").expect("a match");
    assert_eq!(captures.iter().len(), 3);
}

/// What looks like the name of a group may be another text, and a group that is repeated 0 times loses its name.
#[test]
fn names_are_those_of_groups_alone() {
    let names = |pattern: &str| {
        let regex = Regex::new(pattern).expect("accepted");
        let names = regex.capture_names().map(|name| name.map(String::from));
        names.collect::<Vec<_>>()
    };
    let named = |name: &str| Some(name.to_string());
    assert_eq!(names(r"\<a\>(b)"), [None, None]);
    assert_eq!(names("a?<b>(c)(?<d>e)"), [None, None, named("d")]);
    assert_eq!(
        names("(?<a>b?<a>)(?P<c>d?P<)"),
        [None, named("a"), named("c")]
    );
    assert_eq!(
        names("(?x)(?<a>b) # (?<c>d)\n( ?<e>f)"),
        [None, named("a"), named("e")]
    );
    assert_eq!(names("(?<a>b){0}(?<c>d)"), [None, None, named("c")]);
    assert_eq!(names("(?<a>b)?<>()"), [None, named("a"), None]);
    // More groups, and more names, than are looked up one by one.
    for count in [15, 16, 17, 31, 32, 33, 100] {
        let last = format!("{}(?<z>a)", "()".repeat(count));
        let wanted = (0..=count).map(|_| None).chain([named("z")]);
        assert_eq!(names(&last), wanted.collect::<Vec<_>>());
        assert_eq!(names(&"()".repeat(count)), vec![None; count + 1]);
        let all: String = (0..count).map(|i| format!("(?<n{i}>)()")).collect();
        let pairs = (0..count).flat_map(|i| [Some(format!("n{i}")), None]);
        assert_eq!(
            names(&all),
            [None].into_iter().chain(pairs).collect::<Vec<_>>()
        );
    }
}

/// Returns the processor time that this thread has taken, which other programs don't change as they do the time of a clock.
fn processor_time() -> Duration {
    #[repr(C)]
    struct Timespec {
        seconds: i64,
        nanoseconds: i64,
    }
    extern "C" {
        fn clock_gettime(clock: i32, time: *mut Timespec) -> i32;
    }
    const CLOCK_THREAD_CPUTIME_ID: i32 = 3;
    let mut time = Timespec {
        seconds: 0,
        nanoseconds: 0,
    };
    // SAFETY: this is the `timespec` of Linux on 64 bits, and the call writes no more than one.
    let status = unsafe { clock_gettime(CLOCK_THREAD_CPUTIME_ID, &mut time) };
    assert_eq!(status, 0);
    Duration::from_secs(time.seconds as u64) + Duration::from_nanos(time.nanoseconds as u64)
}

/// Returns the least processor time of some runs.
fn best_of(runs: usize, mut work: impl FnMut()) -> Duration {
    let times = (0..runs).map(|_| {
        let begin = processor_time();
        work();
        processor_time() - begin
    });
    times.min().expect("a run")
}

/// Making such a regex takes some 40 ms. If each name took time in proportion to the number of its group, it would take seconds.
#[test]
fn many_groups_take_little_time() {
    for last in ["", "<", "(?<a>)"] {
        let pattern = "()".repeat(80_000) + last;
        let time = best_of(3, || assert!(Regex::new(&pattern).is_ok()));
        assert!(time < Duration::from_millis(500), "{last}: {time:?}");
    }
}

/// As with Rust's `regex`. The Rust crate regex-bites takes slices and lists alone.
#[test]
fn arrays_of_bytes_are_templates() {
    let regex = bytes::Regex::new("(.)=(.)").expect("accepted");
    assert_eq!(
        regex.replace_all(b"\xFF=a b=c", b"$2=$1"),
        &b"a=\xFF c=b"[..]
    );
    assert_eq!(regex.replace(b"\xFF=a", *b"$1"), &b"\xFF"[..]);
    assert_eq!(regex.replace(b"\xFF=a", bytes::NoExpand(b"$1")), &b"$1"[..]);
}

#[test]
fn pieces_tell_how_many_they_may_be() {
    let comma = Regex::new(",").expect("accepted");
    let hints = |haystack: &str, limit: usize| {
        let mut pieces = comma.splitn(haystack, limit);
        let mut hints = vec![pieces.size_hint()];
        while pieces.next().is_some() {
            hints.push(pieces.size_hint());
        }
        hints
    };
    let (none, one) = ((0, Some(0)), (1, Some(1)));
    assert_eq!(hints("a,b", 0), [none]);
    assert_eq!(hints("a,b", 1), [one, none]);
    assert_eq!(hints("a,b,c", 2), [(1, Some(2)), one, none]);
    assert_eq!(hints("a,b", 4), [(1, Some(4)), (1, Some(3)), none]);
    assert_eq!(hints("", 3), [(1, Some(3)), none]);
}

#[test]
fn an_error_tells_the_place_that_it_is_about() {
    let offset = |pattern| Regex::new(pattern).expect_err("a refused pattern").offset();
    assert_eq!(offset("é+)"), Some(3));
    assert_eq!(offset("a{6,5}b"), Some(6));
    assert_eq!(offset("(?:a{1000}){1000}"), None);
    let tall = RegexBuilder::new("a|b").nest_limit(0).build();
    assert_eq!(tall.expect_err("a tree that is too tall").offset(), None);
}

#[test]
fn a_caret_stands_in_the_line_of_the_place() {
    let error = bytes::Regex::new("(?x)é\n  é*)b\nc").expect_err("a refused pattern");
    let text = format!("{error:?}");
    assert_eq!(
        text.lines().skip(2).take(5).collect::<Vec<_>>(),
        [
            "regex parse error:",
            "    (?x)é",
            "      é*)b",
            "        ^",
            "    c"
        ]
    );
}

#[test]
fn the_longest_match_may_be_asked_for() {
    let mut builder = RegexBuilder::new("a|ab");
    let found = |builder: &RegexBuilder| {
        let regex = builder.build().expect("the pattern is accepted");
        regex.find("ab").map(|found| found.end())
    };
    assert_eq!(found(&builder), Some(1));
    assert_eq!(found(builder.leftmost_longest(true)), Some(2));
}

#[test]
fn groups_that_are_repeated_0_times_may_be_kept() {
    let mut builder = RegexBuilder::new("(?<a>x){0}(?<b>y)");
    let names = |builder: &RegexBuilder| {
        let regex = builder.build().expect("the pattern is accepted");
        let names = regex.capture_names().map(|name| name.map(String::from));
        names.collect::<Vec<_>>()
    };
    assert_eq!(
        names(builder.keep_dropped_groups(true)),
        [None, Some("a".into()), Some("b".into())]
    );
}

/// The limits are those of no table, of tables that know a part, and of a whole one. Each word of the haystack is a match.
#[test]
fn a_table_is_made_once_searches_have_read_enough() {
    let text = "baa ".repeat(100);
    for limit in [0, 64, 512, 4096, 1 << 20] {
        let mut builder = RegexBuilder::new("b(a+)|c");
        let regex = builder.dfa_size_limit(limit).build().expect("accepted");
        assert!(regex.is_match(&text[..40]));
        assert_eq!(regex.table_size(), None);
        for _ in 0..4 {
            let starts = regex.captures_iter(&text).map(|found| {
                let group = found.get(1).expect("a group");
                assert_eq!(group.len(), 2);
                group.start()
            });
            assert!(starts.eq((0..100).map(|word| 4 * word + 1)));
        }
        assert_eq!(regex.clone().table_size(), regex.table_size());
        if limit == 0 {
            assert_eq!(regex.table_size(), None);
        }
        if limit == 1 << 20 {
            let size = regex.table_size().expect("a table");
            assert!(size.is_whole && size.lists > 1 && size.bytes > size.lists);
            assert!(format!("{size:?}").starts_with("TableSize { lists: "));
        }
    }
}

/// A table finds where the longest match begins.
#[test]
fn the_longest_match_is_found_with_a_table() {
    let mut builder = RegexBuilder::new("(sam|samwise)|[0-9]+");
    let regex = builder.leftmost_longest(true).build().expect("accepted");
    let text = "a samwise 42 ".repeat(100);
    for _ in 0..2 {
        let lens: Vec<usize> = regex.find_iter(&text).map(|found| found.len()).collect();
        assert_eq!(lens, [7, 2].repeat(100));
    }
    assert!(regex.table_size().expect("a table").is_whole);
    let groups = regex.captures(&text).expect("a match");
    assert_eq!(&groups[1], "samwise");
    assert!(regex.is_full_match("samwise") && !regex.is_full_match("samwise 4"));
    assert!(!regex.is_match("none") && regex.find("").is_none());
}

/// A lexer needs thread lists that other searches don't. They are made once searches at one offset have read enough.
#[test]
fn searches_at_one_offset_make_a_table_of_their_own() {
    let regex = Regex::new("(?i)holmes|watson").expect("accepted");
    let text = "a Watson ".repeat(100);
    assert_eq!(regex.find_iter(&text).count(), 100);
    let unanchored = regex.table_size().expect("a table");
    for start in 0..text.len() {
        let found = regex.find_anchored_at(&text, start);
        assert_eq!(
            found.map(|found| found.len()),
            (start % 9 == 2).then_some(6)
        );
    }
    let all = regex.table_size().expect("a table");
    assert!(unanchored.is_whole && all.is_whole);
    assert!(unanchored.lists < all.lists && unanchored.bytes < all.bytes);
    assert_eq!(regex.find_iter(&text).count(), 100);
    assert_eq!(regex.table_size(), Some(all));
}

/// So do searches for a match of the whole haystack, which begins at one offset.
#[test]
fn searches_of_whole_haystacks_make_a_table() {
    let route = Regex::new(r"/items/(\d+)(?:/(\w+))?").expect("accepted");
    for number in 100..150 {
        assert!(route.is_full_match(&format!("/items/{number}/edit")));
        assert!(!route.is_full_match(&format!("/items/{number}/")));
    }
    let size = route.table_size().expect("a table");
    assert!(size.is_whole);
}

/// All patterns of a set share the limit.
#[test]
fn tables_of_a_set_are_made_once_searches_have_read_enough() {
    let text = "baa ".repeat(100);
    for limit in [0, 64, 512, 4096, 1 << 20] {
        let mut builder = RegexSetBuilder::new(["b(a+)", "x", "a{2} "]);
        let set = builder.dfa_size_limit(limit).build().expect("accepted");
        assert!(set.is_match(&text[..40]));
        assert_eq!(set.table_size(), None);
        for _ in 0..20 {
            assert!(set.matches(&text).iter().eq([0, 2]));
        }
        assert_eq!(set.clone().table_size(), set.table_size());
        assert!(set.table_size().map_or(true, |size| size.bytes <= limit));
        assert!(limit < 1 << 20 || set.table_size().is_some_and(|size| size.is_whole));
    }
}

/// The expected groups are those that the Rust crate writes. It only has room for the first ones.
#[test]
fn locations_with_fewer_groups_take_the_first_ones() {
    let mut locations = Regex::new("a").expect("accepted").capture_locations();
    let regex = Regex::new("(b)(c)").expect("accepted");
    assert!(regex.captures_read(&mut locations, "x").is_none());
    assert_eq!((locations.len(), locations.get(0)), (1, None));
    let found = regex.captures_read(&mut locations, "abc").expect("a match");
    assert_eq!((found.start(), found.end()), (1, 3));
    assert_eq!((locations.get(0), locations.get(1)), (Some((1, 3)), None));
}

#[test]
fn locations_with_more_groups_keep_no_old_ones() {
    let pair = Regex::new("(b)(c)").expect("accepted");
    let mut locations = pair.capture_locations();
    assert!(pair.captures_read(&mut locations, "bc").is_some());
    let single = Regex::new("(d)").expect("accepted");
    assert!(single.captures_read(&mut locations, "x").is_none());
    assert_eq!(locations.get(2), Some((1, 2)));
    assert!(single.captures_read(&mut locations, "ad").is_some());
    let groups = [locations.get(0), locations.get(1), locations.get(2)];
    assert_eq!(groups, [Some((1, 2)), Some((1, 2)), None]);
}

/// From an offset within a character, the rest of that character is not UTF-8, so it can't be returned as a text.
#[test]
fn a_start_within_a_character_hands_out_no_text() {
    let regex = Regex::new(".").expect("accepted");
    let found = regex
        .find_at("☃", 1)
        .expect("a match of what is no character");
    assert_eq!(found.range(), 1..2);
    assert!(std::panic::catch_unwind(|| found.as_str()).is_err());
    let captures = regex
        .captures_at("☃", 1)
        .expect("a match of what is no character");
    let expanded = std::panic::AssertUnwindSafe(|| captures.expand("$0", &mut String::new()));
    assert!(std::panic::catch_unwind(expanded).is_err());
}

/// The calls that the Rust crate does not have, with their types.
mod added {
    type Finds<R, T, M> = fn(&R, T, usize) -> Option<M>;
    type Asks<R, T> = fn(&R, T) -> bool;
    type Sets<B, V> = fn(&mut B, V) -> &mut B;

    macro_rules! added {
        ($name:ident = $($path:ident)::+, $text:ty) => {
            #[test]
            fn $name() {
                use $($path)::+::{CaptureLocations, Captures, Match, Regex, RegexBuilder};
                let _: Finds<Regex, &'static $text, Match<'static>> = Regex::find_anchored_at;
                let _: Finds<Regex, &'static $text, Captures<'static>> = Regex::captures_anchored_at;
                let _: Asks<Regex, &$text> = Regex::is_full_match;
                let _: fn(&CaptureLocations, usize) -> Option<(usize, usize)> = CaptureLocations::pos;
                let _: Sets<RegexBuilder, usize> = RegexBuilder::dfa_size_limit;
                let _: Sets<RegexBuilder, bool> = RegexBuilder::octal;
                let _: Sets<RegexBuilder, bool> = RegexBuilder::unicode;
                let _: Sets<RegexBuilder, bool> = RegexBuilder::leftmost_longest;
                let _: Sets<RegexBuilder, bool> = RegexBuilder::keep_dropped_groups;
                let _: fn(&RegexBuilder) -> RegexBuilder = RegexBuilder::clone;
            }
        };
    }

    added!(over_texts = regex_bites, str);
    added!(over_bytes = regex_bites::bytes, [u8]);
}

fn regex(pattern: &str) -> Regex {
    Regex::new(pattern).expect("the pattern is accepted")
}

fn anchored(pattern: &str, haystack: &str, start: usize) -> Option<Range<usize>> {
    let found = regex(pattern).find_anchored_at(haystack, start);
    found.map(|found| found.range())
}

#[test]
fn a_match_begins_at_its_offset_or_there_is_none() {
    assert_eq!(anchored("b+", "abbc", 1), Some(1..3));
    assert_eq!(anchored("b+", "abbc", 0), None);
    assert_eq!(anchored("b+", "abbc", 3), None);
    assert_eq!(anchored("a|ab", "ab", 0), Some(0..1));
    assert_eq!(anchored("ab??", "ab", 0), Some(0..1));
    assert_eq!(anchored("b*", "ab", 2), Some(2..2));
    assert_eq!(anchored("b*", "ab", 3), None);
    assert_eq!(anchored("b*", "ab", usize::MAX), None);
    assert_eq!(anchored("é", "aé", 1), Some(1..3));
    let mut builder = RegexBuilder::new("a|ab");
    let longest = builder.leftmost_longest(true).build().expect("accepted");
    let found = longest.find_anchored_at("xab", 1);
    assert_eq!(found.map(|found| found.range()), Some(1..3));
}

#[test]
fn assertions_see_the_byte_before_the_offset() {
    assert_eq!(anchored(r"\bb", "ab", 1), None);
    assert_eq!(anchored(r"\bb", " b", 1), Some(1..2));
    assert_eq!(anchored(r"\Bb", "ab", 1), Some(1..2));
    assert_eq!(anchored("^b", "ab", 1), None);
    assert_eq!(anchored("(?m)^b", "\nb", 1), Some(1..2));
    assert!(regex(r"\bb").captures_anchored_at("ab", 1).is_none());
    assert!(regex(r"\bb").captures_anchored_at(" b", 1).is_some());
}

#[test]
fn the_groups_are_those_of_the_match_from_the_offset() {
    let pair = regex(r"(?<key>\w+)=(\w+)?(;)?");
    assert!(pair.captures_anchored_at("?k=v", 0).is_none());
    assert!(pair.captures_anchored_at("?k=v", 5).is_none());
    let captures = pair.captures_anchored_at("?k=v", 1).expect("a match");
    let ranges = captures
        .iter()
        .map(|group| group.map(|group| group.range()));
    assert_eq!(
        ranges.collect::<Vec<_>>(),
        [Some(1..4), Some(1..2), Some(3..4), None]
    );
    assert_eq!(&captures["key"], "k");
    let captures = pair.captures_anchored_at("?key=", 2).expect("a match");
    assert_eq!((&captures[0], &captures["key"]), ("ey=", "ey"));
    assert!(captures.get(2).is_none());
}

#[test]
fn a_path_is_matched_as_a_whole() {
    let route = regex(r"/items|/items/(\d+)(/edit)?");
    for path in ["/items", "/items/42", "/items/42/edit"] {
        assert!(route.is_full_match(path), "{path}");
    }
    for path in ["", "/", "/items/", "/items/42/", "//items", "/items\n"] {
        assert!(!route.is_full_match(path), "{path}");
    }
    assert!(regex("a*?").is_full_match("aaa"));
    assert!(regex("a|ab").is_full_match("ab") && !regex("a|ab").is_full_match("abb"));
    assert!(regex("").is_full_match("") && !regex("").is_full_match("a"));
    assert!(regex(".").is_full_match("☃"));
}

#[test]
fn byte_strings_have_the_same_searches() {
    let regex = bytes::Regex::new(r".(\w)").expect("accepted");
    let found = regex.find_anchored_at(b"a\xffb\xffc", 3).expect("a match");
    assert_eq!((found.range(), found.as_bytes()), (3..5, &b"\xffc"[..]));
    assert!(regex.find_anchored_at(b"a\xffb\xffc", 2).is_none());
    assert!(regex.find_anchored_at(b"a\xffb\xffc", 6).is_none());
    let captures = regex.captures_anchored_at(b"a\xffb", 1).expect("a match");
    assert_eq!(&captures[1], b"b");
    assert!(regex.captures_anchored_at(b"a\xffb", 0).is_none());
    assert!(regex.is_full_match(b"\xffb") && !regex.is_full_match(b"\xffbc"));
}

/// From an offset within a character, the rest of that character is searched as bytes that are not UTF-8, as in `find_at`.
#[test]
fn an_offset_within_a_character_gives_no_text() {
    let regex = regex(".");
    let found = regex.find_anchored_at("☃", 1).expect("a match");
    assert_eq!(
        Some(found.range()),
        regex.find_at("☃", 1).map(|m| m.range())
    );
    assert!(std::panic::catch_unwind(|| found.as_str()).is_err());
    assert!(regex.captures_anchored_at("☃", 1).is_some());
}

/// Cuts the text into tokens by the first rule that matches, each with the number of its rule.
fn tokens<'h>(rules: &[Regex], text: &'h str) -> Vec<(usize, &'h str)> {
    let mut tokens = Vec::new();
    let mut start = 0;
    while start < text.len() {
        let mut all = rules.iter().enumerate();
        let token =
            all.find_map(|(rule, regex)| Some((rule, regex.find_anchored_at(text, start)?)));
        let (rule, token) = token.expect("a rule that matches");
        tokens.push((rule, token.as_str()));
        start = token.end();
    }
    tokens
}

fn rules() -> [Regex; 3] {
    [r"\d+", r"[a-z]\w*", r"[^\w]"].map(regex)
}

#[test]
fn rules_cut_a_text_into_tokens() {
    let (number, name, sign) = (0, 1, 2);
    assert_eq!(
        tokens(&rules(), "x1=42+"),
        [(name, "x1"), (sign, "="), (number, "42"), (sign, "+")]
    );
}

/// Returns the least processor time of some runs, for a text of `count` tokens.
fn time_of_tokens(rules: &[Regex], count: usize) -> Duration {
    let text = "a ".repeat(count / 2);
    best_of(20, || assert_eq!(tokens(rules, &text).len(), count))
}

/// No token is a number. A search that read on until it found one would take 64 times as long for a text of 8 times the length.
#[test]
fn the_time_to_cut_a_text_is_linear_in_its_length() {
    let rules = rules();
    let (short, long) = (time_of_tokens(&rules, 1_000), time_of_tokens(&rules, 8_000));
    assert!(long < short * 24, "{short:?} and {long:?}");
}
