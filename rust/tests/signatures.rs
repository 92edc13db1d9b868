//! Each public name of the Rust crate with its type: it builds with that crate too.

use std::borrow::Cow;
use std::error::Error as StdError;
use std::fmt::{Debug, Display};
use std::iter::FusedIterator;
use std::ops::{Index, Range};
use std::str::FromStr;

fn shows<T: Debug>() {}
fn copies<T: Copy + Eq + Debug>() {}
fn clones<T: Clone + Debug>() {}
fn goes_on<T: FusedIterator + Debug>() {}
fn counts<T: ExactSizeIterator + FusedIterator + Clone + Debug>() {}
fn is_sent<T: Send + Sync + 'static>() {}

/// Compiles only if the value has the type.
macro_rules! types {
    ($($value:expr => $type:ty;)*) => {
        $(let _: $type = $value;)*
    };
}

macro_rules! signatures {
    ($name:ident = $($path:ident)::+, $text:ty, $owned:ty, $as_text:ident) => {
        #[test]
        fn $name() {
            use $($path)::+::*;
            types! {
                Regex::new => fn(&str) -> Result<Regex, regex_bites::Error>;
                Regex::is_match => fn(&Regex, &$text) -> bool;
                Regex::find => for<'h> fn(&Regex, &'h $text) -> Option<Match<'h>>;
                Regex::find_iter => for<'r, 'h> fn(&'r Regex, &'h $text) -> Matches<'r, 'h>;
                Regex::captures => for<'h> fn(&Regex, &'h $text) -> Option<Captures<'h>>;
                Regex::captures_iter => for<'r, 'h> fn(&'r Regex, &'h $text) -> CaptureMatches<'r, 'h>;
                Regex::split => for<'r, 'h> fn(&'r Regex, &'h $text) -> Split<'r, 'h>;
                Regex::splitn => for<'r, 'h> fn(&'r Regex, &'h $text, usize) -> SplitN<'r, 'h>;
                Regex::replace => for<'h> fn(&Regex, &'h $text, NoExpand<'static>) -> Cow<'h, $text>;
                Regex::replace_all => for<'h> fn(&Regex, &'h $text, &'static $text) -> Cow<'h, $text>;
                Regex::replacen => for<'h> fn(&Regex, &'h $text, usize, $owned) -> Cow<'h, $text>;
                Regex::shortest_match => fn(&Regex, &$text) -> Option<usize>;
                Regex::shortest_match_at => fn(&Regex, &$text, usize) -> Option<usize>;
                Regex::is_match_at => fn(&Regex, &$text, usize) -> bool;
                Regex::find_at => for<'h> fn(&Regex, &'h $text, usize) -> Option<Match<'h>>;
                Regex::captures_at => for<'h> fn(&Regex, &'h $text, usize) -> Option<Captures<'h>>;
                Regex::captures_read =>
                    for<'h> fn(&Regex, &mut CaptureLocations, &'h $text) -> Option<Match<'h>>;
                Regex::captures_read_at =>
                    for<'h> fn(&Regex, &mut CaptureLocations, &'h $text, usize) -> Option<Match<'h>>;
                Regex::as_str => fn(&Regex) -> &str;
                Regex::capture_names => for<'r> fn(&'r Regex) -> CaptureNames<'r>;
                Regex::captures_len => fn(&Regex) -> usize;
                Regex::static_captures_len => fn(&Regex) -> Option<usize>;
                Regex::capture_locations => fn(&Regex) -> CaptureLocations;
                Match::start => fn(&Match<'static>) -> usize;
                Match::end => fn(&Match<'static>) -> usize;
                Match::is_empty => fn(&Match<'static>) -> bool;
                Match::len => fn(&Match<'static>) -> usize;
                Match::range => fn(&Match<'static>) -> Range<usize>;
                Match::$as_text => fn(&Match<'static>) -> &'static $text;
                <&'static $text>::from => fn(Match<'static>) -> &'static $text;
                Range::<usize>::from => fn(Match<'static>) -> Range<usize>;
                Captures::get => fn(&Captures<'static>, usize) -> Option<Match<'static>>;
                Captures::name => fn(&Captures<'static>, &str) -> Option<Match<'static>>;
                Captures::extract::<2> => fn(&Captures<'static>) -> (&'static $text, [&'static $text; 2]);
                Captures::expand => fn(&Captures<'static>, &$text, &mut $owned);
                Captures::iter => for<'c> fn(&'c Captures<'static>) -> SubCaptureMatches<'c, 'static>;
                Captures::len => fn(&Captures<'static>) -> usize;
                <Captures as Index<usize>>::index => for<'c> fn(&'c Captures<'static>, usize) -> &'c $text;
                <Captures as Index<&'static str>>::index =>
                    for<'c> fn(&'c Captures<'static>, &'static str) -> &'c $text;
                CaptureLocations::get => fn(&CaptureLocations, usize) -> Option<(usize, usize)>;
                CaptureLocations::len => fn(&CaptureLocations) -> usize;
                <CaptureNames as Iterator>::next => fn(&mut CaptureNames<'static>) -> Option<Option<&'static str>>;
                <Matches as Iterator>::next => fn(&mut Matches<'static, 'static>) -> Option<Match<'static>>;
                <CaptureMatches as Iterator>::next =>
                    fn(&mut CaptureMatches<'static, 'static>) -> Option<Captures<'static>>;
                <Split as Iterator>::next => fn(&mut Split<'static, 'static>) -> Option<&'static $text>;
                <SplitN as Iterator>::next => fn(&mut SplitN<'static, 'static>) -> Option<&'static $text>;
                <SubCaptureMatches as Iterator>::next =>
                    fn(&mut SubCaptureMatches<'static, 'static>) -> Option<Option<Match<'static>>>;
                <NoExpand as Replacer>::replace_append => fn(&mut NoExpand<'static>, &Captures<'_>, &mut $owned);
                <NoExpand as Replacer>::no_expansion =>
                    for<'r> fn(&'r mut NoExpand<'static>) -> Option<Cow<'r, $text>>;
                <NoExpand as Replacer>::by_ref =>
                    for<'r> fn(&'r mut NoExpand<'static>) -> ReplacerRef<'r, NoExpand<'static>>;
                RegexBuilder::new => fn(&str) -> RegexBuilder;
                RegexBuilder::build => fn(&RegexBuilder) -> Result<Regex, regex_bites::Error>;
                RegexBuilder::case_insensitive => fn(&mut RegexBuilder, bool) -> &mut RegexBuilder;
                RegexBuilder::multi_line => fn(&mut RegexBuilder, bool) -> &mut RegexBuilder;
                RegexBuilder::dot_matches_new_line => fn(&mut RegexBuilder, bool) -> &mut RegexBuilder;
                RegexBuilder::crlf => fn(&mut RegexBuilder, bool) -> &mut RegexBuilder;
                RegexBuilder::swap_greed => fn(&mut RegexBuilder, bool) -> &mut RegexBuilder;
                RegexBuilder::ignore_whitespace => fn(&mut RegexBuilder, bool) -> &mut RegexBuilder;
                RegexBuilder::size_limit => fn(&mut RegexBuilder, usize) -> &mut RegexBuilder;
                RegexBuilder::nest_limit => fn(&mut RegexBuilder, u32) -> &mut RegexBuilder;
            }
            fn is_regex<T>()
            where
                T: Clone + Debug + Display + FromStr + TryFrom<String> + for<'p> TryFrom<&'p str>,
            {
            }
            fn replaces<T: Replacer>() {}
            is_regex::<Regex>();
            shows::<RegexBuilder>();
            copies::<Match<'static>>();
            shows::<Captures<'static>>();
            clones::<CaptureLocations>();
            clones::<NoExpand<'static>>();
            shows::<ReplacerRef<'static, $owned>>();
            goes_on::<Matches<'static, 'static>>();
            goes_on::<CaptureMatches<'static, 'static>>();
            goes_on::<Split<'static, 'static>>();
            goes_on::<SplitN<'static, 'static>>();
            counts::<CaptureNames<'static>>();
            counts::<SubCaptureMatches<'static, 'static>>();
            is_sent::<Match<'static>>();
            is_sent::<CaptureLocations>();
            is_sent::<RegexBuilder>();
            replaces::<&'static $text>();
            replaces::<$owned>();
            replaces::<&'static $owned>();
            replaces::<Cow<'static, $text>>();
            replaces::<&'static Cow<'static, $text>>();
            replaces::<ReplacerRef<'static, &'static $text>>();
            replaces::<fn(&Captures<'_>) -> $owned>();
        }
    };
}

signatures!(over_texts = regex_bites, str, String, as_str);
signatures!(over_bytes = regex_bites::bytes, [u8], Vec<u8>, as_bytes);

#[test]
fn the_rest_of_the_root() {
    types! {
        regex_bites::escape => fn(&str) -> String;
    }
    fn is_error<T: StdError + Clone + Eq + Debug + Display + Send + Sync + 'static>() {}
    is_error::<regex_bites::Error>();
    is_error::<regex_bites::bytes::Error>();
}

/// Each public name of sets in Rust's `regex`, with its type: it builds with that crate too.
macro_rules! set_signatures {
    ($name:ident = $($path:ident)::+, $text:ty) => {
        #[test]
        fn $name() {
            use $($path)::+::*;
            types! {
                RegexSet::new::<Vec<String>, String> => fn(Vec<String>) -> Result<RegexSet, regex_bites::Error>;
                RegexSet::new::<[&str; 2], &str> => fn([&'static str; 2]) -> Result<RegexSet, regex_bites::Error>;
                RegexSet::empty => fn() -> RegexSet;
                RegexSet::default => fn() -> RegexSet;
                RegexSet::is_match => fn(&RegexSet, &$text) -> bool;
                RegexSet::is_match_at => fn(&RegexSet, &$text, usize) -> bool;
                RegexSet::matches => fn(&RegexSet, &$text) -> SetMatches;
                RegexSet::matches_at => fn(&RegexSet, &$text, usize) -> SetMatches;
                RegexSet::len => fn(&RegexSet) -> usize;
                RegexSet::is_empty => fn(&RegexSet) -> bool;
                RegexSet::patterns => fn(&RegexSet) -> &[String];
                SetMatches::matched_any => fn(&SetMatches) -> bool;
                SetMatches::matched_all => fn(&SetMatches) -> bool;
                SetMatches::matched => fn(&SetMatches, usize) -> bool;
                SetMatches::len => fn(&SetMatches) -> usize;
                SetMatches::iter => for<'a> fn(&'a SetMatches) -> SetMatchesIter<'a>;
                <SetMatches as IntoIterator>::into_iter => fn(SetMatches) -> SetMatchesIntoIter;
                <&'static SetMatches as IntoIterator>::into_iter => fn(&'static SetMatches) -> SetMatchesIter<'static>;
                RegexSetBuilder::new::<&[&str], &&str> => fn(&'static [&'static str]) -> RegexSetBuilder;
                RegexSetBuilder::build => fn(&RegexSetBuilder) -> Result<RegexSet, regex_bites::Error>;
                RegexSetBuilder::case_insensitive => fn(&mut RegexSetBuilder, bool) -> &mut RegexSetBuilder;
                RegexSetBuilder::multi_line => fn(&mut RegexSetBuilder, bool) -> &mut RegexSetBuilder;
                RegexSetBuilder::dot_matches_new_line => fn(&mut RegexSetBuilder, bool) -> &mut RegexSetBuilder;
                RegexSetBuilder::crlf => fn(&mut RegexSetBuilder, bool) -> &mut RegexSetBuilder;
                RegexSetBuilder::swap_greed => fn(&mut RegexSetBuilder, bool) -> &mut RegexSetBuilder;
                RegexSetBuilder::ignore_whitespace => fn(&mut RegexSetBuilder, bool) -> &mut RegexSetBuilder;
                RegexSetBuilder::size_limit => fn(&mut RegexSetBuilder, usize) -> &mut RegexSetBuilder;
                RegexSetBuilder::dfa_size_limit => fn(&mut RegexSetBuilder, usize) -> &mut RegexSetBuilder;
                RegexSetBuilder::nest_limit => fn(&mut RegexSetBuilder, u32) -> &mut RegexSetBuilder;
                RegexSetBuilder::octal => fn(&mut RegexSetBuilder, bool) -> &mut RegexSetBuilder;
                RegexSetBuilder::unicode => fn(&mut RegexSetBuilder, bool) -> &mut RegexSetBuilder;
            }
            fn goes_both_ways<T: DoubleEndedIterator<Item = usize> + FusedIterator + Debug>() {}
            clones::<RegexSet>();
            clones::<RegexSetBuilder>();
            clones::<SetMatches>();
            clones::<SetMatchesIter<'static>>();
            goes_both_ways::<SetMatchesIter<'static>>();
            goes_both_ways::<SetMatchesIntoIter>();
            is_sent::<RegexSet>();
            is_sent::<SetMatches>();
        }
    };
}

set_signatures!(sets_over_texts = regex_bites, str);
set_signatures!(sets_over_bytes = regex_bites::bytes, [u8]);
