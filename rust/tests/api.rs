//! The public names of the Rust crate, each used as a program written for that crate may use it.

use regex_bites::{bytes, escape, CaptureLocations, Captures, Error, Match, NoExpand, Regex};
use regex_bites::{RegexBuilder, Replacer};
use std::borrow::Cow;
use std::ops::Range;
use std::panic::{catch_unwind, RefUnwindSafe, UnwindSafe};
use std::str::FromStr;

fn regex(pattern: &str) -> Regex {
    Regex::new(pattern).expect("the pattern is accepted")
}

fn over_bytes(pattern: &str) -> bytes::Regex {
    bytes::Regex::new(pattern).expect("the pattern is accepted")
}

#[test]
fn a_regex_is_made_of_texts_in_each_way() -> Result<(), Box<dyn std::error::Error + Send + Sync>> {
    let made = [
        Regex::new("a+")?,
        Regex::from_str("a+")?,
        "a+".parse()?,
        Regex::try_from("a+")?,
        Regex::try_from("a+".to_string())?,
        RegexBuilder::new("a+").build()?,
        regex("a+").clone(),
    ];
    for regex in made {
        assert_eq!(regex.as_str(), "a+");
        assert_eq!(regex.to_string(), "a+");
        assert_eq!(format!("{regex:?}"), "Regex(\"a+\")");
        assert!(regex.is_match("ba"));
    }
    assert_eq!(bytes::Regex::try_from("a+".to_string())?.as_str(), "a+");
    assert_eq!("a+".parse::<bytes::Regex>()?.to_string(), "a+");
    Ok(())
}

#[test]
fn an_error_tells_its_text() {
    let error: Error = Regex::new("a(b").expect_err("the pattern is refused");
    assert_eq!(error.to_string(), "found open group without closing ')'");
    let rule = "~".repeat(79);
    assert_eq!(
        format!("{error:?}"),
        format!(
            "Syntax(\n{rule}\nregex parse error:\n    a(b\n       ^\n\
            error: found open group without closing ')'\n{rule}\n)"
        )
    );
    assert_eq!(error.offset(), Some(3));
    assert_eq!(
        Err(error.clone()),
        RegexBuilder::new("a(b").build().map(|_| ())
    );
    let same: bytes::Error = bytes::Regex::new("a(b").expect_err("the pattern is refused");
    assert_eq!(same, error);
    assert_ne!(Regex::new("*").map(|_| ()), Err(error));
}

#[test]
fn each_setter_of_the_builder_is_seen() {
    type Setter = fn(&mut RegexBuilder) -> &mut RegexBuilder;
    let with = |pattern: &str, set: Setter, haystack: &str| {
        let regex = set(&mut RegexBuilder::new(pattern))
            .build()
            .expect("accepted");
        regex.find(haystack).map(|found| found.range())
    };
    assert_eq!(with("b", |b| b.case_insensitive(true), "aB"), Some(1..2));
    assert_eq!(
        with(
            "b",
            |b| b.case_insensitive(true).case_insensitive(false),
            "aB"
        ),
        None
    );
    assert_eq!(with("^b", |b| b.multi_line(true), "a\nb"), Some(2..3));
    assert_eq!(
        with("a.b", |b| b.dot_matches_new_line(true), "a\nb"),
        Some(0..3)
    );
    assert_eq!(with("(?m)^b", |b| b.crlf(true), "a\rb"), Some(2..3));
    assert_eq!(with("a+", |b| b.swap_greed(true), "aa"), Some(0..1));
    assert_eq!(
        with("a b # c", |b| b.ignore_whitespace(true), "ab"),
        Some(0..2)
    );
    let error = RegexBuilder::new("((a))")
        .nest_limit(1)
        .build()
        .expect_err("too deep");
    assert_eq!(error.to_string(), "pattern has too much nesting");
    let mut builder = bytes::RegexBuilder::new("a{100}");
    assert!(builder.size_limit(100).build().is_err());
    assert!(builder.size_limit(1 << 20).build().is_ok());
}

#[test]
fn a_match_tells_where_it_stands() {
    let found: Match<'_> = regex("é+").find("aéé").expect("a match");
    assert_eq!(
        (found.start(), found.end(), found.len(), found.is_empty()),
        (1, 5, 4, false)
    );
    assert_eq!((found.range(), found.as_str()), (1..5, "éé"));
    assert_eq!((Range::from(found), <&str>::from(found)), (1..5, "éé"));
    assert_eq!(
        format!("{found:?}"),
        "Match { start: 1, end: 5, string: \"éé\" }"
    );
    let copy = found;
    assert_eq!(copy, found);
    let empty = over_bytes("").find(b"\xFF").expect("a match");
    assert!(empty.is_empty());
    assert_eq!(
        format!("{empty:?}"),
        "Match { start: 0, end: 0, bytes: [] }"
    );
    assert_eq!(<&[u8]>::from(empty), b"");
}

/// What is found lives as long as the haystack, not as the regex.
#[test]
fn what_is_found_outlives_the_regex() {
    let haystack = String::from("on 2010-03-14");
    let (year, captures) = {
        let regex = regex(r"(?<year>\d{4})-(\d\d)");
        (
            regex.find(&haystack).map(|found| found.as_str()),
            regex.captures(&haystack),
        )
    };
    assert_eq!(year, Some("2010-03"));
    let captures = captures.expect("a match");
    assert_eq!((&captures["year"], &captures[2]), ("2010", "03"));
    assert_eq!(captures.name("year").map(|group| group.end()), Some(7));
}

#[test]
fn captures_tell_their_groups() {
    let regex = regex(r"(?<word>[a-z]+)(\d+)?(?<rest>!)?");
    let captures: Captures<'_> = regex.captures("  abc!").expect("a match");
    assert_eq!(captures.len(), 4);
    assert_eq!(captures.get(0).map(|group| group.range()), Some(2..6));
    assert_eq!(
        (captures.get(2), captures.get(9), captures.name("no")),
        (None, None, None)
    );
    let groups: Vec<_> = captures
        .iter()
        .map(|group| group.map(|part| part.as_str()))
        .collect();
    assert_eq!(groups, [Some("abc!"), Some("abc"), None, Some("!")]);
    assert_eq!(captures.iter().clone().count(), 4);
    assert_eq!(
        format!("{captures:?}"),
        r#"Captures({0: 2..6/"abc!", 1/"word": 2..5/"abc", 2: None, 3/"rest": 5..6/"!"})"#
    );
    let names: Vec<_> = regex.capture_names().collect();
    assert_eq!(names, [None, Some("word"), None, Some("rest")]);
    assert_eq!(
        (regex.captures_len(), regex.static_captures_len()),
        (4, None)
    );
}

#[test]
fn captures_expand_templates() {
    let captures = regex("(?<key>[a-z]+)=(.)")
        .captures("in k=v")
        .expect("a match");
    let mut text = String::from("> ");
    captures.expand("$2 ${key}$$ $none.${1}x $0", &mut text);
    assert_eq!(text, "> v k$ .kx k=v");
    let long = "$0".repeat(1000);
    let mut text = String::new();
    captures.expand(&long, &mut text);
    assert_eq!(text, "k=v".repeat(1000));
    let mut bytes = vec![0xFF];
    over_bytes("(.)")
        .captures(b"\xFE")
        .expect("a match")
        .expand(b"$1\xFD", &mut bytes);
    assert_eq!(bytes, [0xFF, 0xFE, 0xFD]);
}

#[test]
fn extract_answers_arrays() {
    let regex = regex(r"(\d{4})-(\d\d)");
    let (whole, [year, month]) = regex.captures("2010-03").expect("a match").extract();
    assert_eq!((whole, year, month), ("2010-03", "2010", "03"));
    let years: Vec<&str> = regex
        .captures_iter("2010-03 2011-04")
        .map(|c| c.extract::<2>().1[0])
        .collect();
    assert_eq!(years, ["2010", "2011"]);
}

#[test]
#[should_panic(expected = "no group at index '2'")]
fn an_absent_group_has_no_index() {
    let _ = &regex("(a)|(b)").captures("a").expect("a match")[2];
}

#[test]
#[should_panic(expected = "no group named 'b'")]
fn an_absent_group_has_no_name() {
    let _ = &over_bytes("(?<a>a)").captures(b"a").expect("a match")["b"];
}

#[test]
#[should_panic(expected = "asked for 2 groups, but must ask for 1")]
fn extract_asks_for_the_number_of_groups() {
    regex("(a)").captures("a").expect("a match").extract::<2>();
}

#[test]
#[should_panic(expected = "number of capture groups can vary in a match")]
fn extract_asks_for_a_static_number() {
    regex("(a)|b")
        .captures("b")
        .expect("a match")
        .extract::<1>();
}

#[test]
fn locations_are_used_again() {
    let regex = regex("(a)(b)?");
    let mut locations: CaptureLocations = regex.capture_locations();
    assert_eq!((locations.len(), locations.get(0)), (3, None));
    assert_eq!(
        regex
            .captures_read(&mut locations, "xab")
            .map(|found| found.range()),
        Some(1..3)
    );
    assert_eq!(
        (locations.get(0), locations.get(2), locations.get(3)),
        (Some((1, 3)), Some((2, 3)), None)
    );
    assert_eq!(regex.captures_read_at(&mut locations, "xab", 2), None);
    assert_eq!(locations.clone().get(2), Some((2, 3)));
    assert!(regex.captures_read_at(&mut locations, "xaba", 3).is_some());
    assert_eq!((locations.get(1), locations.get(2)), (Some((3, 4)), None));
    assert_eq!(locations.get(usize::MAX), None);
}

#[test]
fn starts_are_places_and_past_the_end_is_nothing() {
    let regex = regex(r"\bb");
    assert_eq!(regex.find_at("ab b", 1).map(|found| found.start()), Some(3));
    assert!(regex.is_match_at("ab b", 3) && !regex.is_match_at("ab b", 4));
    assert_eq!(regex.shortest_match_at("ab b", 0), Some(4));
    assert_eq!(
        (
            regex.find_at("b", 2),
            regex.shortest_match_at("b", usize::MAX)
        ),
        (None, None)
    );
    assert!(regex.captures_at("b", 2).is_none());
    assert_eq!(regex.shortest_match("b"), Some(1));
}

#[test]
fn iterators_go_through_all_matches() {
    let regex = regex("a*");
    let spans: Vec<_> = regex.find_iter("baa☃").map(|found| found.range()).collect();
    assert_eq!(spans, [0..0, 1..3, 6..6]);
    let mut all = regex.find_iter("a");
    assert_eq!(
        (all.next().map(|m| m.range()), all.next(), all.next()),
        (Some(0..1), None, None)
    );
    assert_eq!(regex.captures_iter("ba").count(), 2);
    let nested: usize = regex
        .find_iter("aab")
        .map(|_| regex.find_iter("ba").count())
        .sum();
    assert_eq!(nested, 4);
}

#[test]
fn pieces_stand_between_the_matches() {
    let comma = regex(", *");
    assert_eq!(
        comma.split("a, b,,c").collect::<Vec<_>>(),
        ["a", "b", "", "c"]
    );
    assert_eq!(comma.split("").collect::<Vec<_>>(), [""]);
    assert_eq!(comma.splitn("a, b,c", 2).collect::<Vec<_>>(), ["a", "b,c"]);
    assert_eq!(comma.splitn("a, b", 9).collect::<Vec<_>>(), ["a", "b"]);
    assert_eq!(comma.splitn("a", 0).next(), None);
    let regex = over_bytes("x");
    let mut pieces = regex.splitn(b"axb", 2);
    assert_eq!(
        (pieces.next(), pieces.next(), pieces.next()),
        (Some(&b"a"[..]), Some(&b"b"[..]), None)
    );
}

#[test]
fn replacers_are_templates_texts_and_closures() {
    let regex = regex("(?<first>[a-z])([a-z])");
    let swapped = ["$2$first".to_string()];
    assert_eq!(regex.replace("ab cd", "$2$1"), "ba cd");
    assert_eq!(regex.replace_all("ab cd", &swapped[0]), "ba dc");
    assert_eq!(regex.replace_all("ab cd", swapped[0].clone()), "ba dc");
    assert_eq!(regex.replace_all("ab cd", Cow::Borrowed("${2}_")), "b_ d_");
    assert_eq!(regex.replace_all("ab cd", &Cow::Borrowed("-")), "- -");
    assert_eq!(regex.replacen("ab cd ef", 2, NoExpand("$1")), "$1 $1 ef");
    assert_eq!(
        regex.replace_all("ab cd", |c: &Captures<'_>| c[0].to_uppercase()),
        "AB CD"
    );
    assert_eq!(regex.replace("ab", |_: &Captures<'_>| "$1"), "$1");
    assert!(matches!(
        regex.replace_all("1 2", "x"),
        Cow::Borrowed("1 2")
    ));
    assert!(matches!(
        regex.replace_all("1 2", "$0"),
        Cow::Borrowed("1 2")
    ));
    assert!(matches!(
        regex.replace_all("1 2", |_: &Captures<'_>| ""),
        Cow::Borrowed("1 2")
    ));
    assert!(matches!(regex.replace_all("ab", "$0"), Cow::Owned(text) if text == "ab"));
    let grown = regex.replace_all("ab", "$0".repeat(1000));
    assert_eq!(grown, "ab".repeat(1000));
}

#[test]
fn replacers_over_bytes() {
    let regex = over_bytes("(.)=(.)");
    assert_eq!(regex.replace_all(b"\xFF=a", &b"$2=$1"[..]), &b"a=\xFF"[..]);
    assert_eq!(regex.replace(b"\xFF=a", b"-".to_vec()), &b"-"[..]);
    assert_eq!(regex.replace(b"\xFF=a", &b"-".to_vec()), &b"-"[..]);
    assert_eq!(regex.replace(b"\xFF=a", bytes::NoExpand(b"$1")), &b"$1"[..]);
    assert_eq!(
        regex.replace(b"\xFF=a", |c: &bytes::Captures<'_>| c[1].to_vec()),
        &b"\xFF"[..]
    );
}

/// A replacer of the caller's own keeps its state when it is borrowed for each call.
#[test]
fn replacers_may_be_written() {
    struct Numbered(usize);
    impl Replacer for Numbered {
        fn replace_append(&mut self, caps: &Captures<'_>, dst: &mut String) {
            self.0 += 1;
            caps.expand("<$0", dst);
            dst.push_str(&self.0.to_string());
        }
    }
    let regex = regex("[a-z]");
    let mut numbered = Numbered(0);
    assert_eq!(regex.replace_all("a-b", numbered.by_ref()), "<a1-<b2");
    assert_eq!(
        regex.replacen("c-d-e", 2, &mut |c: &Captures<'_>| c[0].repeat(2)),
        "cc-dd-e"
    );
    assert_eq!(regex.replace_all("c", numbered), "<c3");
    assert_eq!("a".no_expansion(), Some(Cow::Borrowed("a")));
    assert_eq!("$a".no_expansion(), None);
    assert_eq!(
        NoExpand("$a").clone().no_expansion(),
        Some(Cow::Borrowed("$a"))
    );
}

#[test]
fn a_closure_may_search_with_the_regex_that_asks_it() {
    let regex = regex(r"\d+");
    let text = regex.replace_all("1 22 333", |c: &Captures<'_>| {
        regex
            .replace_all(&c[0], |d: &Captures<'_>| d[0].len().to_string())
            .into_owned()
    });
    assert_eq!(text, "1 2 3");
}

#[test]
fn a_panic_of_a_closure_leaves_the_regex_whole() {
    fn unwinds<T: UnwindSafe + RefUnwindSafe>(_: &T) {}
    let regex = regex("a");
    unwinds(&regex);
    let asked = catch_unwind(|| {
        regex
            .replace_all("a", |_: &Captures<'_>| -> &str { panic!("asked") })
            .len()
    });
    assert!(asked.is_err());
    assert_eq!(regex.replace_all("banana", "o"), "bonono");
}

#[test]
fn escaped_texts_match_themselves() {
    assert_eq!(escape("a.b-c"), r"a\.b\-c");
    let text = "1+1=(2)? [☃]";
    assert_eq!(
        regex(&escape(text)).find(text).map(|found| found.range()),
        Some(0..text.len())
    );
    assert_eq!(escape(""), "");
}

#[test]
fn empty_slices_and_patterns_are_taken() {
    let empty: &[u8] = &[];
    assert_eq!(
        over_bytes("").find(empty).map(|found| found.range()),
        Some(0..0)
    );
    assert_eq!(over_bytes("a").replace_all(empty, empty), empty);
    assert_eq!(over_bytes("").replace_all(b"ab", &b"-"[..]), &b"-a-b-"[..]);
    assert_eq!(
        String::from_utf8_lossy(&over_bytes("").replace_all(empty, empty)),
        ""
    );
}
