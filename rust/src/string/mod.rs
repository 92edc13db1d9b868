//! Searches of texts.

use crate::builder::regex_builder;
use crate::engine::{Engine, SetEngine, Settings, ABSENT};
use crate::error::Error;
use crate::sets::regex_set;
use crate::sys::{self, BitesSpan};
use std::borrow::Cow;
use std::fmt;
use std::str::FromStr;
use std::sync::Arc;

mod captures;

mod iterators {
    crate::iterators::iterators!(str);
}

mod replacer {
    crate::replacer::replacer! {
        str, String, push_str,
        /// A replacement text that stands for itself, even if it contains `$`.
        ///
        /// ```
        /// let price = regex_bites::Regex::new(r"\d+").unwrap();
        /// assert_eq!("for $1", price.replace("for 20", regex_bites::NoExpand("$1")));
        /// ```
    }
}

pub use crate::engine::TableSize;
pub use captures::{CaptureLocations, Captures, Match};
pub use iterators::{CaptureMatches, CaptureNames, Matches, Split, SplitN, SubCaptureMatches};
pub use replacer::{NoExpand, Replacer, ReplacerRef};

/// A compiled pattern, which searches texts.
///
/// Any number of threads may search with one regex at the same time, and none waits for another one's search. The first nine search
/// without a lock, but for the first search of each and the one in which it takes the table, and they don't slow each other down.
/// Further threads take a lock before and after each search. A clone shares the compiled pattern and has caches of its own, so nine
/// threads more search with it without a lock.
#[derive(Clone)]
pub struct Regex {
    engine: Engine,
}

impl fmt::Display for Regex {
    fn fmt(&self, f: &mut fmt::Formatter<'_>) -> fmt::Result {
        f.write_str(self.as_str())
    }
}

impl fmt::Debug for Regex {
    fn fmt(&self, f: &mut fmt::Formatter<'_>) -> fmt::Result {
        f.debug_tuple("Regex").field(&self.as_str()).finish()
    }
}

impl FromStr for Regex {
    type Err = Error;

    fn from_str(pattern: &str) -> Result<Regex, Error> {
        Regex::new(pattern)
    }
}

impl TryFrom<&str> for Regex {
    type Error = Error;

    fn try_from(pattern: &str) -> Result<Regex, Error> {
        Regex::new(pattern)
    }
}

impl TryFrom<String> for Regex {
    type Error = Error;

    fn try_from(pattern: String) -> Result<Regex, Error> {
        Regex::new(&pattern)
    }
}

/// What most programs use.
impl Regex {
    /// Compiles the pattern with no flag set and with the default limits. The error says why it is refused.
    ///
    /// ```
    /// use regex_bites::Regex;
    ///
    /// assert!(Regex::new(r"\d+").is_ok());
    /// assert!(Regex::new("a(").is_err());
    /// ```
    pub fn new(pattern: &str) -> Result<Regex, Error> {
        Regex::of(pattern, Settings::default())
    }

    /// Returns whether the pattern matches somewhere in the haystack.
    ///
    /// ```
    /// let digits = regex_bites::Regex::new(r"\d+").unwrap();
    /// assert!(digits.is_match("in 2010") && !digits.is_match("never"));
    /// ```
    #[inline]
    pub fn is_match(&self, haystack: &str) -> bool {
        self.is_match_at(haystack, 0)
    }

    /// Returns the leftmost match.
    ///
    /// ```
    /// let year = regex_bites::Regex::new(r"\d{4}").unwrap();
    /// assert_eq!(Some(3..7), year.find("in 2010").map(|found| found.range()));
    /// ```
    #[inline]
    pub fn find<'h>(&self, haystack: &'h str) -> Option<Match<'h>> {
        self.find_at(haystack, 0)
    }

    /// Returns an iterator over all matches that do not overlap, from left to right.
    ///
    /// ```
    /// let word = regex_bites::Regex::new(r"\w+").unwrap();
    /// let words: Vec<&str> = word.find_iter("one, two").map(|found| found.as_str()).collect();
    /// assert_eq!(["one", "two"], words[..]);
    /// ```
    #[inline]
    pub fn find_iter<'r, 'h>(&'r self, haystack: &'h str) -> Matches<'r, 'h> {
        Matches::new(self, haystack)
    }

    /// Returns the groups of the leftmost match.
    ///
    /// ```
    /// let pair = regex_bites::Regex::new(r"(\w+)=(?<value>\w+)").unwrap();
    /// let captures = pair.captures("in k=v").unwrap();
    /// assert_eq!(("k", "v"), (&captures[1], &captures["value"]));
    /// ```
    #[inline]
    pub fn captures<'h>(&self, haystack: &'h str) -> Option<Captures<'h>> {
        self.captures_at(haystack, 0)
    }

    /// Returns an iterator over the groups of each match that [`Regex::find_iter`] yields.
    ///
    /// ```
    /// let pair = regex_bites::Regex::new(r"(\w)=(\d)").unwrap();
    /// let keys: Vec<String> = pair.captures_iter("a=1 b=2").map(|pair| pair[1].to_string()).collect();
    /// assert_eq!(["a", "b"], keys[..]);
    /// ```
    #[inline]
    pub fn captures_iter<'r, 'h>(&'r self, haystack: &'h str) -> CaptureMatches<'r, 'h> {
        CaptureMatches::new(self, haystack)
    }

    /// Returns an iterator over the pieces of the haystack before, between and after its matches, empty ones too.
    ///
    /// ```
    /// let comma = regex_bites::Regex::new(", *").unwrap();
    /// assert_eq!(["a", "b", "", "c"], comma.split("a, b,,c").collect::<Vec<_>>()[..]);
    /// ```
    #[inline]
    pub fn split<'r, 'h>(&'r self, haystack: &'h str) -> Split<'r, 'h> {
        Split::new(self, haystack)
    }

    /// Like [`Regex::split`], but yields at most `limit` pieces. The last one is the rest of the haystack.
    ///
    /// ```
    /// let comma = regex_bites::Regex::new(", *").unwrap();
    /// assert_eq!(["a", "b, c"], comma.splitn("a, b, c", 2).collect::<Vec<_>>()[..]);
    /// ```
    #[inline]
    pub fn splitn<'r, 'h>(&'r self, haystack: &'h str, limit: usize) -> SplitN<'r, 'h> {
        SplitN::new(self.split(haystack), limit)
    }

    /// Returns the haystack with its first match replaced, or borrows it if nothing matches.
    ///
    /// ```
    /// let digits = regex_bites::Regex::new(r"\d+").unwrap();
    /// assert_eq!("a# b2", digits.replace("a1 b2", "#"));
    /// ```
    #[inline]
    pub fn replace<'h, R: Replacer>(&self, haystack: &'h str, rep: R) -> Cow<'h, str> {
        self.replacen(haystack, 1, rep)
    }

    /// Returns the haystack with each match replaced, or borrows it if nothing matches.
    ///
    /// ```
    /// let date = regex_bites::Regex::new(r"(\d{4})-(\d\d)").unwrap();
    /// assert_eq!("03/2010 04/2011", date.replace_all("2010-03 2011-04", "$2/$1"));
    /// ```
    #[inline]
    pub fn replace_all<'h, R: Replacer>(&self, haystack: &'h str, rep: R) -> Cow<'h, str> {
        self.replacen(haystack, 0, rep)
    }

    /// Returns the haystack with its first `limit` matches replaced, or all of them for 0. Borrows it if nothing matches.
    ///
    /// ```
    /// let digits = regex_bites::Regex::new(r"\d+").unwrap();
    /// assert_eq!("a# b# c3", digits.replacen("a1 b2 c3", 2, "#"));
    /// ```
    #[inline]
    pub fn replacen<'h, R: Replacer>(
        &self,
        haystack: &'h str,
        limit: usize,
        mut rep: R,
    ) -> Cow<'h, str> {
        let new = if let Some(literal) = rep.no_expansion() {
            self.engine.replace_text_literal(haystack, limit, &literal)
        } else if let Some(template) = rep.__regex_bites_template() {
            self.engine.replace_text(haystack, limit, &template)
        } else {
            return self.replace_by(haystack, limit, &mut rep);
        };
        new.map_or(Cow::Borrowed(haystack), Cow::Owned)
    }

    /// Asks the replacer for each match in turn.
    fn replace_by<'h>(
        &self,
        haystack: &'h str,
        limit: usize,
        rep: &mut impl Replacer,
    ) -> Cow<'h, str> {
        let mut matches = CaptureMatches::new(self, haystack);
        let Some(mut captures) = matches.next() else {
            return Cow::Borrowed(haystack);
        };
        let mut new = String::with_capacity(haystack.len());
        let mut last = 0;
        let mut count = 0;
        loop {
            let whole = captures.whole();
            new.push_str(&haystack[last..whole.start]);
            rep.replace_append(&captures, &mut new);
            last = whole.end;
            count += 1;
            if count == limit || !matches.read_next(&mut captures) {
                break;
            }
        }
        new.push_str(&haystack[last..]);
        Cow::Owned(new)
    }
}

/// Searches from an offset, in bytes. Assertions look at what stands before the offset too. A search from past the end finds
/// nothing.
///
/// An offset should be the start of a character. From within a character, the rest of that character is searched as bytes that
/// are not UTF-8, and asking for the text of a match that begins or ends there panics.
impl Regex {
    /// Returns the least end of any match.
    ///
    /// ```
    /// let regex = regex_bites::Regex::new("a+").unwrap();
    /// assert_eq!(Some(2), regex.shortest_match("baaa"));
    /// ```
    #[inline]
    pub fn shortest_match(&self, haystack: &str) -> Option<usize> {
        self.shortest_match_at(haystack, 0)
    }

    /// Returns the least end of any match that begins at or after `start`.
    ///
    /// ```
    /// let regex = regex_bites::Regex::new("a+").unwrap();
    /// assert_eq!(Some(3), regex.shortest_match_at("baaa", 2));
    /// ```
    #[inline]
    pub fn shortest_match_at(&self, haystack: &str, start: usize) -> Option<usize> {
        self.engine.shortest_match_at(haystack.as_bytes(), start)
    }

    /// Returns whether a match begins at or after `start`.
    ///
    /// ```
    /// let word = regex_bites::Regex::new(r"\bin\b").unwrap();
    /// assert!(word.is_match_at("in or in", 2) && !word.is_match_at("in or within", 2));
    /// ```
    #[inline]
    pub fn is_match_at(&self, haystack: &str, start: usize) -> bool {
        self.engine.is_match_at(haystack.as_bytes(), start)
    }

    /// Returns the leftmost match at or after `start`.
    ///
    /// ```
    /// let start = regex_bites::Regex::new("^a").unwrap();
    /// assert!(start.find_at("aa", 0).is_some());
    /// // At 1 there is no start of the text.
    /// assert!(start.find_at("aa", 1).is_none());
    /// ```
    #[inline]
    pub fn find_at<'h>(&self, haystack: &'h str, start: usize) -> Option<Match<'h>> {
        let span = self.engine.find_at(haystack.as_bytes(), start)?;
        Some(Match::new(haystack, span))
    }

    /// Returns the groups of the leftmost match at or after `start`.
    ///
    /// ```
    /// let pair = regex_bites::Regex::new(r"(\w)=(\d)").unwrap();
    /// assert_eq!("b", &pair.captures_at("a=1 b=2", 1).unwrap()[1]);
    /// ```
    #[inline]
    pub fn captures_at<'h>(&self, haystack: &'h str, start: usize) -> Option<Captures<'h>> {
        let groups = self.engine.captures_at(haystack.as_bytes(), start)?;
        Some(self.captures_of(haystack, groups))
    }

    /// Returns the leftmost match and writes its groups to `locs`, which is unchanged if nothing matches.
    ///
    /// Locations of another regex take as many groups as they have room for. Those that this regex has no group for become
    /// groups that did not participate.
    ///
    /// ```
    /// let pair = regex_bites::Regex::new(r"(\w)=(\d)").unwrap();
    /// let mut locations = pair.capture_locations();
    /// assert!(pair.captures_read(&mut locations, "a=1").is_some());
    /// assert_eq!(Some((2, 3)), locations.get(2));
    /// ```
    #[inline]
    pub fn captures_read<'h>(
        &self,
        locs: &mut CaptureLocations,
        haystack: &'h str,
    ) -> Option<Match<'h>> {
        self.captures_read_at(locs, haystack, 0)
    }

    /// Like [`Regex::captures_read`], for the leftmost match at or after `start`.
    ///
    /// ```
    /// let pair = regex_bites::Regex::new(r"(\w)=(\d)").unwrap();
    /// let mut locations = pair.capture_locations();
    /// assert!(pair.captures_read_at(&mut locations, "a=1 b=2", 1).is_some());
    /// assert_eq!(Some((4, 5)), locations.get(1));
    /// ```
    #[inline]
    pub fn captures_read_at<'h>(
        &self,
        locs: &mut CaptureLocations,
        haystack: &'h str,
        start: usize,
    ) -> Option<Match<'h>> {
        let groups = locs.groups_mut();
        let found = self
            .engine
            .captures_read_at(haystack.as_bytes(), start, groups);
        found.then(|| Match::new(haystack, groups[0]))
    }
}

/// Searches that the Rust crate regex-bites doesn't have: from one offset alone, for lexers, and of a whole haystack, for
/// routers.
///
/// An offset counts bytes. Assertions look at what stands before it too. An offset past the end finds nothing.
///
/// An offset should be the start of a character, as it should for [`Regex::find_at`].
impl Regex {
    /// Returns the match that begins at `start`.
    ///
    /// The search stops as soon as no match from `start` can go on. So a lexer that asks for one token after another doesn't
    /// read the rest of the haystack each time.
    ///
    /// ```
    /// let number = regex_bites::Regex::new(r"\d+").unwrap();
    /// assert_eq!(Some(1..3), number.find_anchored_at("+42", 1).map(|found| found.range()));
    /// assert_eq!(None, number.find_anchored_at("+42", 0));
    /// ```
    #[inline]
    pub fn find_anchored_at<'h>(&self, haystack: &'h str, start: usize) -> Option<Match<'h>> {
        let span = self.engine.find_anchored_at(haystack.as_bytes(), start)?;
        Some(Match::new(haystack, span))
    }

    /// Returns the groups of the match that begins at `start`.
    ///
    /// ```
    /// let pair = regex_bites::Regex::new(r"(\w+)=(\w+)").unwrap();
    /// let (_, parts) = pair.captures_anchored_at("?k=v", 1).unwrap().extract();
    /// assert_eq!(["k", "v"], parts);
    /// ```
    #[inline]
    pub fn captures_anchored_at<'h>(
        &self,
        haystack: &'h str,
        start: usize,
    ) -> Option<Captures<'h>> {
        let groups = self
            .engine
            .captures_anchored_at(haystack.as_bytes(), start)?;
        Some(self.captures_of(haystack, groups))
    }

    /// Returns whether the pattern matches the whole haystack, even if it prefers a shorter match.
    ///
    /// If the table finds a shorter match from the start first, a second search looks for the longest one without it. With
    /// [`leftmost_longest`](crate::RegexBuilder::leftmost_longest) one search by the table tells. So set that in a router, where
    /// many paths match in part.
    ///
    /// ```
    /// let route = regex_bites::Regex::new(r"/items|/items/\d+").unwrap();
    /// assert!(route.is_full_match("/items/42") && !route.is_full_match("/items/42/"));
    /// ```
    #[inline]
    pub fn is_full_match(&self, haystack: &str) -> bool {
        self.engine.is_full_match(haystack.as_bytes())
    }
}

/// What is known of the pattern.
impl Regex {
    /// Returns the pattern.
    ///
    /// ```
    /// assert_eq!(r"\d+", regex_bites::Regex::new(r"\d+").unwrap().as_str());
    /// ```
    #[inline]
    pub fn as_str(&self) -> &str {
        self.engine.program().pattern()
    }

    /// Returns an iterator over the name of each group, or `None` for one without, from group 0 on.
    ///
    /// ```
    /// let date = regex_bites::Regex::new(r"(?<year>\d{4})-(\d\d)").unwrap();
    /// assert_eq!([None, Some("year"), None], date.capture_names().collect::<Vec<_>>()[..]);
    /// ```
    #[inline]
    pub fn capture_names(&self) -> CaptureNames<'_> {
        CaptureNames::new(self.engine.program().names())
    }

    /// Returns the number of groups, with group 0.
    ///
    /// ```
    /// assert_eq!(3, regex_bites::Regex::new("(a)(b)?").unwrap().captures_len());
    /// ```
    #[inline]
    pub fn captures_len(&self) -> usize {
        self.engine.program().captures_len()
    }

    /// Returns a lower bound on the groups that participate in any match, with group 0, if the pattern's form gives one. It gives none if
    /// the branches of an alternation have different numbers, as in `(a)|b`, or if a part with groups may be repeated 0 times, as in
    /// `(a)?b`.
    ///
    /// ```
    /// use regex_bites::Regex;
    ///
    /// assert_eq!(Some(2), Regex::new("(a)|(b)").unwrap().static_captures_len());
    /// assert_eq!(None, Regex::new("(a)|b").unwrap().static_captures_len());
    /// ```
    #[inline]
    pub fn static_captures_len(&self) -> Option<usize> {
        self.engine.program().static_captures_len()
    }

    /// Returns locations for the groups of this regex. No group participated yet.
    ///
    /// ```
    /// let locations = regex_bites::Regex::new("(a)").unwrap().capture_locations();
    /// assert_eq!((2, None), (locations.len(), locations.get(0)));
    /// ```
    #[inline]
    pub fn capture_locations(&self) -> CaptureLocations {
        CaptureLocations::new(vec![ABSENT; self.captures_len()])
    }
}

impl Regex {
    #[inline]
    fn captures_of<'h>(&self, haystack: &'h str, groups: Vec<BitesSpan>) -> Captures<'h> {
        let program = Arc::clone(self.engine.program());
        Captures::new(haystack, CaptureLocations::new(groups), program)
    }
}

regex_builder!();

regex_set!(str);
