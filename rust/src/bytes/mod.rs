//! Searches of bytes that need not be UTF-8.
//!
//! The types and calls are those of the crate's root, except that haystacks, templates and matches are `&[u8]`. Patterns
//! are texts here too. Where a haystack is not UTF-8, each longest run of bytes that could begin a character and does not is
//! searched as U+FFFD, and matches have the bytes themselves.
//!
//! ```
//! use regex_bites::bytes::Regex;
//!
//! let re = Regex::new(r"key=(.*?);").unwrap();
//! let captures = re.captures(b"\xFFkey=\x80\x81;").unwrap();
//! assert_eq!(b"\x80\x81", &captures[1]);
//! ```

use crate::builder::regex_builder;
use crate::engine::{Engine, SetEngine, Settings, ABSENT};
use crate::sets::regex_set;
use crate::sys::{self, BitesSpan};
use std::borrow::Cow;
use std::fmt;
use std::str::FromStr;
use std::sync::Arc;

pub use crate::engine::TableSize;
pub use crate::error::Error;

mod captures;

mod iterators {
    crate::iterators::iterators!([u8]);
}

mod replacer {
    crate::replacer::replacer! {
        [u8], Vec<u8>, extend_from_slice,
        /// Replacement bytes that stand for themselves, even if they contain `$`.
    }

    // As Rust's `regex` has it, so that `b"text"` is a template.
    templates! {
        [u8], Vec<u8>;
        [const N: usize] [u8; N];
        ['a, const N: usize] &'a [u8; N];
    }
}

pub use captures::{CaptureLocations, Captures, Match};
pub use iterators::{CaptureMatches, CaptureNames, Matches, Split, SplitN, SubCaptureMatches};
pub use replacer::{NoExpand, Replacer, ReplacerRef};

/// A compiled pattern, which searches bytes.
///
/// Any number of threads may search with one regex at the same time, and none waits for another one's search. The first nine search
/// without a lock, but for the first search of each and the one in which it takes the table, and they don't slow each other down.
/// Further threads take a lock before and after each search. A clone shares the compiled pattern and has caches of its own, so nine
/// threads more search with it without a lock.
#[derive(Clone)]
pub struct Regex {
    engine: Engine,
}

impl fmt::Display for Regex {
    fn fmt(&self, f: &mut fmt::Formatter<'_>) -> fmt::Result {
        f.write_str(self.as_str())
    }
}

impl fmt::Debug for Regex {
    fn fmt(&self, f: &mut fmt::Formatter<'_>) -> fmt::Result {
        f.debug_tuple("Regex").field(&self.as_str()).finish()
    }
}

impl FromStr for Regex {
    type Err = Error;

    fn from_str(pattern: &str) -> Result<Regex, Error> {
        Regex::new(pattern)
    }
}

impl TryFrom<&str> for Regex {
    type Error = Error;

    fn try_from(pattern: &str) -> Result<Regex, Error> {
        Regex::new(pattern)
    }
}

impl TryFrom<String> for Regex {
    type Error = Error;

    fn try_from(pattern: String) -> Result<Regex, Error> {
        Regex::new(&pattern)
    }
}

/// What most programs use.
impl Regex {
    /// Compiles the pattern with no flag set and with the default limits. The error says why it is refused.
    ///
    /// ```
    /// use regex_bites::bytes::Regex;
    ///
    /// assert!(Regex::new(r"\d+").is_ok());
    /// assert!(Regex::new("a(").is_err());
    /// ```
    pub fn new(pattern: &str) -> Result<Regex, Error> {
        Regex::of(pattern, Settings::default())
    }

    /// Returns whether the pattern matches somewhere in the haystack.
    ///
    /// ```
    /// let digits = regex_bites::bytes::Regex::new(r"\d+").unwrap();
    /// assert!(digits.is_match(b"\xFF 42") && !digits.is_match(b"\xFF"));
    /// ```
    #[inline]
    pub fn is_match(&self, haystack: &[u8]) -> bool {
        self.is_match_at(haystack, 0)
    }

    /// Returns the leftmost match.
    ///
    /// ```
    /// let year = regex_bites::bytes::Regex::new(r"\d{4}").unwrap();
    /// assert_eq!(Some(3..7), year.find(b"in 2010").map(|found| found.range()));
    /// ```
    #[inline]
    pub fn find<'h>(&self, haystack: &'h [u8]) -> Option<Match<'h>> {
        self.find_at(haystack, 0)
    }

    /// Returns an iterator over all matches that do not overlap, from left to right.
    ///
    /// ```
    /// let word = regex_bites::bytes::Regex::new(r"\w+").unwrap();
    /// let starts: Vec<usize> = word.find_iter(b"one\xFF two").map(|found| found.start()).collect();
    /// assert_eq!([0, 5], starts[..]);
    /// ```
    #[inline]
    pub fn find_iter<'r, 'h>(&'r self, haystack: &'h [u8]) -> Matches<'r, 'h> {
        Matches::new(self, haystack)
    }

    /// Returns the groups of the leftmost match.
    ///
    /// ```
    /// let pair = regex_bites::bytes::Regex::new(r"(\w+)=(?<value>\w+)").unwrap();
    /// let captures = pair.captures(b"in k=v").unwrap();
    /// assert_eq!((&b"k"[..], &b"v"[..]), (&captures[1], &captures["value"]));
    /// ```
    #[inline]
    pub fn captures<'h>(&self, haystack: &'h [u8]) -> Option<Captures<'h>> {
        self.captures_at(haystack, 0)
    }

    /// Returns an iterator over the groups of each match that [`Regex::find_iter`] yields.
    ///
    /// ```
    /// let pair = regex_bites::bytes::Regex::new(r"(\w)=(\d)").unwrap();
    /// let keys: Vec<u8> = pair.captures_iter(b"a=1 b=2").map(|pair| pair[1][0]).collect();
    /// assert_eq!(b"ab", &keys[..]);
    /// ```
    #[inline]
    pub fn captures_iter<'r, 'h>(&'r self, haystack: &'h [u8]) -> CaptureMatches<'r, 'h> {
        CaptureMatches::new(self, haystack)
    }

    /// Returns an iterator over the pieces of the haystack before, between and after its matches, empty ones too.
    ///
    /// ```
    /// let comma = regex_bites::bytes::Regex::new(", *").unwrap();
    /// assert_eq!([&b"a"[..], b"b", b"", b"c"], comma.split(b"a, b,,c").collect::<Vec<_>>()[..]);
    /// ```
    #[inline]
    pub fn split<'r, 'h>(&'r self, haystack: &'h [u8]) -> Split<'r, 'h> {
        Split::new(self, haystack)
    }

    /// Like [`Regex::split`], but yields at most `limit` pieces. The last one is the rest of the haystack.
    ///
    /// ```
    /// let comma = regex_bites::bytes::Regex::new(", *").unwrap();
    /// assert_eq!([&b"a"[..], b"b, c"], comma.splitn(b"a, b, c", 2).collect::<Vec<_>>()[..]);
    /// ```
    #[inline]
    pub fn splitn<'r, 'h>(&'r self, haystack: &'h [u8], limit: usize) -> SplitN<'r, 'h> {
        SplitN::new(self.split(haystack), limit)
    }

    /// Returns the haystack with its first match replaced, or borrows it if nothing matches.
    ///
    /// ```
    /// let digits = regex_bites::bytes::Regex::new(r"\d+").unwrap();
    /// assert_eq!(digits.replace(b"a1 b2", &b"#"[..]), &b"a# b2"[..]);
    /// ```
    #[inline]
    pub fn replace<'h, R: Replacer>(&self, haystack: &'h [u8], rep: R) -> Cow<'h, [u8]> {
        self.replacen(haystack, 1, rep)
    }

    /// Returns the haystack with each match replaced, or borrows it if nothing matches.
    ///
    /// ```
    /// let date = regex_bites::bytes::Regex::new(r"(\d{4})-(\d\d)").unwrap();
    /// assert_eq!(date.replace_all(b"2010-03 2011-04", &b"$2/$1"[..]), &b"03/2010 04/2011"[..]);
    /// ```
    #[inline]
    pub fn replace_all<'h, R: Replacer>(&self, haystack: &'h [u8], rep: R) -> Cow<'h, [u8]> {
        self.replacen(haystack, 0, rep)
    }

    /// Returns the haystack with its first `limit` matches replaced, or all of them for 0. Borrows it if nothing matches.
    ///
    /// ```
    /// let digits = regex_bites::bytes::Regex::new(r"\d+").unwrap();
    /// assert_eq!(digits.replacen(b"a1 b2 c3", 2, &b"#"[..]), &b"a# b# c3"[..]);
    /// ```
    #[inline]
    pub fn replacen<'h, R: Replacer>(
        &self,
        haystack: &'h [u8],
        limit: usize,
        mut rep: R,
    ) -> Cow<'h, [u8]> {
        let new = if let Some(literal) = rep.no_expansion() {
            self.engine.replace_literal(haystack, limit, &literal)
        } else if let Some(template) = rep.__regex_bites_template() {
            self.engine.replace(haystack, limit, &template)
        } else {
            return self.replace_by(haystack, limit, &mut rep);
        };
        new.map_or(Cow::Borrowed(haystack), Cow::Owned)
    }

    /// Asks the replacer for each match in turn.
    fn replace_by<'h>(
        &self,
        haystack: &'h [u8],
        limit: usize,
        rep: &mut impl Replacer,
    ) -> Cow<'h, [u8]> {
        let mut matches = CaptureMatches::new(self, haystack);
        let Some(mut captures) = matches.next() else {
            return Cow::Borrowed(haystack);
        };
        let mut new = Vec::with_capacity(haystack.len());
        let mut last = 0;
        let mut count = 0;
        loop {
            let whole = captures.whole();
            new.extend_from_slice(&haystack[last..whole.start]);
            rep.replace_append(&captures, &mut new);
            last = whole.end;
            count += 1;
            if count == limit || !matches.read_next(&mut captures) {
                break;
            }
        }
        new.extend_from_slice(&haystack[last..]);
        Cow::Owned(new)
    }
}

/// Searches from an offset, in bytes. Assertions look at what stands before the offset too. A search from past the end finds
/// nothing.
impl Regex {
    /// Returns the least end of any match.
    ///
    /// ```
    /// let regex = regex_bites::bytes::Regex::new("a+").unwrap();
    /// assert_eq!(Some(2), regex.shortest_match(b"baaa"));
    /// ```
    #[inline]
    pub fn shortest_match(&self, haystack: &[u8]) -> Option<usize> {
        self.shortest_match_at(haystack, 0)
    }

    /// Returns the least end of any match that begins at or after `start`.
    ///
    /// ```
    /// let regex = regex_bites::bytes::Regex::new("a+").unwrap();
    /// assert_eq!(Some(3), regex.shortest_match_at(b"baaa", 2));
    /// ```
    #[inline]
    pub fn shortest_match_at(&self, haystack: &[u8], start: usize) -> Option<usize> {
        self.engine.shortest_match_at(haystack, start)
    }

    /// Returns whether a match begins at or after `start`.
    ///
    /// ```
    /// let word = regex_bites::bytes::Regex::new(r"\bin\b").unwrap();
    /// assert!(word.is_match_at(b"in or in", 2) && !word.is_match_at(b"in or within", 2));
    /// ```
    #[inline]
    pub fn is_match_at(&self, haystack: &[u8], start: usize) -> bool {
        self.engine.is_match_at(haystack, start)
    }

    /// Returns the leftmost match at or after `start`.
    ///
    /// ```
    /// let start = regex_bites::bytes::Regex::new("^a").unwrap();
    /// assert!(start.find_at(b"aa", 0).is_some());
    /// // At 1 there is no start of the haystack.
    /// assert!(start.find_at(b"aa", 1).is_none());
    /// ```
    #[inline]
    pub fn find_at<'h>(&self, haystack: &'h [u8], start: usize) -> Option<Match<'h>> {
        let span = self.engine.find_at(haystack, start)?;
        Some(Match::new(haystack, span))
    }

    /// Returns the groups of the leftmost match at or after `start`.
    ///
    /// ```
    /// let pair = regex_bites::bytes::Regex::new(r"(\w)=(\d)").unwrap();
    /// assert_eq!(b"b", &pair.captures_at(b"a=1 b=2", 1).unwrap()[1]);
    /// ```
    #[inline]
    pub fn captures_at<'h>(&self, haystack: &'h [u8], start: usize) -> Option<Captures<'h>> {
        let groups = self.engine.captures_at(haystack, start)?;
        Some(self.captures_of(haystack, groups))
    }

    /// Returns the leftmost match and writes its groups to `locs`, which is unchanged if nothing matches.
    ///
    /// Locations of another regex take as many groups as they have room for. Those that this regex has no group for become
    /// groups that did not participate.
    ///
    /// ```
    /// let pair = regex_bites::bytes::Regex::new(r"(\w)=(\d)").unwrap();
    /// let mut locations = pair.capture_locations();
    /// assert!(pair.captures_read(&mut locations, b"a=1").is_some());
    /// assert_eq!(Some((2, 3)), locations.get(2));
    /// ```
    #[inline]
    pub fn captures_read<'h>(
        &self,
        locs: &mut CaptureLocations,
        haystack: &'h [u8],
    ) -> Option<Match<'h>> {
        self.captures_read_at(locs, haystack, 0)
    }

    /// Like [`Regex::captures_read`], for the leftmost match at or after `start`.
    ///
    /// ```
    /// let pair = regex_bites::bytes::Regex::new(r"(\w)=(\d)").unwrap();
    /// let mut locations = pair.capture_locations();
    /// assert!(pair.captures_read_at(&mut locations, b"a=1 b=2", 1).is_some());
    /// assert_eq!(Some((4, 5)), locations.get(1));
    /// ```
    #[inline]
    pub fn captures_read_at<'h>(
        &self,
        locs: &mut CaptureLocations,
        haystack: &'h [u8],
        start: usize,
    ) -> Option<Match<'h>> {
        let groups = locs.groups_mut();
        let found = self.engine.captures_read_at(haystack, start, groups);
        found.then(|| Match::new(haystack, groups[0]))
    }
}

/// Searches that the Rust crate regex-bites doesn't have: from one offset alone, for lexers, and of a whole haystack, for
/// routers.
///
/// An offset counts bytes. Assertions look at what stands before it too. An offset past the end finds nothing.
impl Regex {
    /// Returns the match that begins at `start`.
    ///
    /// The search stops as soon as no match from `start` can go on. So a lexer that asks for one token after another doesn't
    /// read the rest of the haystack each time.
    ///
    /// ```
    /// let number = regex_bites::bytes::Regex::new(r"\d+").unwrap();
    /// assert_eq!(Some(1..3), number.find_anchored_at(b"+42", 1).map(|found| found.range()));
    /// assert_eq!(None, number.find_anchored_at(b"+42", 0));
    /// ```
    #[inline]
    pub fn find_anchored_at<'h>(&self, haystack: &'h [u8], start: usize) -> Option<Match<'h>> {
        let span = self.engine.find_anchored_at(haystack, start)?;
        Some(Match::new(haystack, span))
    }

    /// Returns the groups of the match that begins at `start`.
    ///
    /// ```
    /// let pair = regex_bites::bytes::Regex::new(r"(\w+)=(\w+)").unwrap();
    /// let (_, parts) = pair.captures_anchored_at(b"?k=v", 1).unwrap().extract();
    /// assert_eq!([b"k", b"v"], parts);
    /// ```
    #[inline]
    pub fn captures_anchored_at<'h>(
        &self,
        haystack: &'h [u8],
        start: usize,
    ) -> Option<Captures<'h>> {
        let groups = self.engine.captures_anchored_at(haystack, start)?;
        Some(self.captures_of(haystack, groups))
    }

    /// Returns whether the pattern matches the whole haystack, even if it prefers a shorter match.
    ///
    /// If the table finds a shorter match from the start first, a second search looks for the longest one without it. With
    /// [`leftmost_longest`](crate::bytes::RegexBuilder::leftmost_longest) one search by the table tells. So set that in a router, where
    /// many paths match in part.
    ///
    /// ```
    /// let route = regex_bites::bytes::Regex::new(r"/items|/items/\d+").unwrap();
    /// assert!(route.is_full_match(b"/items/42") && !route.is_full_match(b"/items/42/"));
    /// ```
    #[inline]
    pub fn is_full_match(&self, haystack: &[u8]) -> bool {
        self.engine.is_full_match(haystack)
    }
}

/// What is known of the pattern.
impl Regex {
    /// Returns the pattern.
    ///
    /// ```
    /// assert_eq!(r"\d+", regex_bites::bytes::Regex::new(r"\d+").unwrap().as_str());
    /// ```
    #[inline]
    pub fn as_str(&self) -> &str {
        self.engine.program().pattern()
    }

    /// Returns an iterator over the name of each group, or `None` for one without, from group 0 on.
    ///
    /// ```
    /// let date = regex_bites::bytes::Regex::new(r"(?<year>\d{4})-(\d\d)").unwrap();
    /// assert_eq!([None, Some("year"), None], date.capture_names().collect::<Vec<_>>()[..]);
    /// ```
    #[inline]
    pub fn capture_names(&self) -> CaptureNames<'_> {
        CaptureNames::new(self.engine.program().names())
    }

    /// Returns the number of groups, with group 0.
    ///
    /// ```
    /// assert_eq!(3, regex_bites::bytes::Regex::new("(a)(b)?").unwrap().captures_len());
    /// ```
    #[inline]
    pub fn captures_len(&self) -> usize {
        self.engine.program().captures_len()
    }

    /// Returns a lower bound on the groups that participate in any match, with group 0, if the pattern's form gives one. It gives none if
    /// the branches of an alternation have different numbers, as in `(a)|b`, or if a part with groups may be repeated 0 times, as in
    /// `(a)?b`.
    ///
    /// ```
    /// use regex_bites::bytes::Regex;
    ///
    /// assert_eq!(Some(2), Regex::new("(a)|(b)").unwrap().static_captures_len());
    /// assert_eq!(None, Regex::new("(a)|b").unwrap().static_captures_len());
    /// ```
    #[inline]
    pub fn static_captures_len(&self) -> Option<usize> {
        self.engine.program().static_captures_len()
    }

    /// Returns locations for the groups of this regex. No group participated yet.
    ///
    /// ```
    /// let locations = regex_bites::bytes::Regex::new("(a)").unwrap().capture_locations();
    /// assert_eq!((2, None), (locations.len(), locations.get(0)));
    /// ```
    #[inline]
    pub fn capture_locations(&self) -> CaptureLocations {
        CaptureLocations::new(vec![ABSENT; self.captures_len()])
    }
}

impl Regex {
    #[inline]
    fn captures_of<'h>(&self, haystack: &'h [u8], groups: Vec<BitesSpan>) -> Captures<'h> {
        let program = Arc::clone(self.engine.program());
        Captures::new(haystack, CaptureLocations::new(groups), program)
    }
}

regex_builder!();

regex_set!([u8]);
