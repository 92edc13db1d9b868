//! Matches and their groups.

use super::iterators::SubCaptureMatches;
use crate::engine::Program;
use crate::sys::{self, BitesSpan};
use std::fmt;
use std::ops::{Index, Range};
use std::sync::Arc;

/// A match, or a group of one, in its haystack.
///
/// ```
/// let found = regex_bites::Regex::new(r"\d+").unwrap().find("in 2010").unwrap();
/// assert_eq!((3, 7, "2010"), (found.start(), found.end(), found.as_str()));
/// ```
#[derive(Clone, Copy, Eq, PartialEq)]
pub struct Match<'h> {
    haystack: &'h str,
    start: usize,
    end: usize,
}

impl<'h> Match<'h> {
    #[inline]
    pub(super) fn new(haystack: &'h str, span: BitesSpan) -> Match<'h> {
        Match {
            haystack,
            start: span.start,
            end: span.end,
        }
    }

    /// Returns the offset of its first byte.
    ///
    /// ```
    /// let found = regex_bites::Regex::new("b").unwrap().find("aéb").unwrap();
    /// assert_eq!(3, found.start());
    /// ```
    #[inline]
    pub fn start(&self) -> usize {
        self.start
    }

    /// Returns the offset after its last byte.
    ///
    /// ```
    /// let found = regex_bites::Regex::new("é").unwrap().find("aéb").unwrap();
    /// assert_eq!(3, found.end());
    /// ```
    #[inline]
    pub fn end(&self) -> usize {
        self.end
    }

    /// Returns whether it has no byte.
    ///
    /// ```
    /// assert!(regex_bites::Regex::new("a*").unwrap().find("baa").unwrap().is_empty());
    /// ```
    #[inline]
    pub fn is_empty(&self) -> bool {
        self.start == self.end
    }

    /// Returns its length in bytes.
    ///
    /// ```
    /// assert_eq!(2, regex_bites::Regex::new("é").unwrap().find("aéb").unwrap().len());
    /// ```
    #[inline]
    pub fn len(&self) -> usize {
        self.end - self.start
    }

    /// Returns its range of offsets, in bytes.
    ///
    /// ```
    /// let found = regex_bites::Regex::new("a+").unwrap().find("baa").unwrap();
    /// assert_eq!(1..3, found.range());
    /// ```
    #[inline]
    pub fn range(&self) -> Range<usize> {
        self.start..self.end
    }

    /// Returns its text.
    ///
    /// ```
    /// assert_eq!("aa", regex_bites::Regex::new("a+").unwrap().find("baa").unwrap().as_str());
    /// ```
    ///
    /// # Panics
    ///
    /// If the search began within a character, and this begins or ends within one.
    #[inline]
    pub fn as_str(&self) -> &'h str {
        &self.haystack[self.range()]
    }
}

impl fmt::Debug for Match<'_> {
    fn fmt(&self, f: &mut fmt::Formatter<'_>) -> fmt::Result {
        f.debug_struct("Match")
            .field("start", &self.start)
            .field("end", &self.end)
            .field("string", &self.as_str())
            .finish()
    }
}

impl<'h> From<Match<'h>> for &'h str {
    fn from(found: Match<'h>) -> &'h str {
        found.as_str()
    }
}

impl From<Match<'_>> for Range<usize> {
    fn from(found: Match<'_>) -> Range<usize> {
        found.range()
    }
}

/// The groups of one match.
///
/// ```
/// let date = regex_bites::Regex::new(r"(?<year>\d{4})(-\d\d)?").unwrap();
/// let captures = date.captures("in 2010").unwrap();
/// assert_eq!("2010", &captures["year"]);
/// assert!(captures.get(2).is_none());
/// ```
pub struct Captures<'h> {
    haystack: &'h str,
    locations: CaptureLocations,
    program: Arc<Program>,
}

impl<'h> Captures<'h> {
    #[inline]
    pub(super) fn new(
        haystack: &'h str,
        locations: CaptureLocations,
        program: Arc<Program>,
    ) -> Captures<'h> {
        Captures {
            haystack,
            locations,
            program,
        }
    }

    /// Returns the group of this number, if there is one and it participated. Group 0 is the match.
    ///
    /// ```
    /// let captures = regex_bites::Regex::new("(a)|(b)").unwrap().captures("b").unwrap();
    /// assert!(captures.get(1).is_none());
    /// assert_eq!(0..1, captures.get(2).unwrap().range());
    /// ```
    #[inline]
    pub fn get(&self, i: usize) -> Option<Match<'h>> {
        let (start, end) = self.locations.get(i)?;
        Some(Match::new(self.haystack, BitesSpan { start, end }))
    }

    /// Returns the group of this name, if there is one and it participated.
    ///
    /// ```
    /// let captures = regex_bites::Regex::new(r"(?<year>\d{4})").unwrap().captures("in 2010").unwrap();
    /// assert_eq!("2010", captures.name("year").unwrap().as_str());
    /// assert!(captures.name("month").is_none());
    /// ```
    #[inline]
    pub fn name(&self, name: &str) -> Option<Match<'h>> {
        self.get(self.program.index_of(name)?)
    }

    /// Returns the text of the match, and the texts of the first `N` groups that participated.
    ///
    /// ```
    /// let date = regex_bites::Regex::new(r"(\d{4})-(\d\d)").unwrap();
    /// let (whole, [year, month]) = date.captures("on 2010-03").unwrap().extract();
    /// assert_eq!(("2010-03", "2010", "03"), (whole, year, month));
    /// ```
    ///
    /// # Panics
    ///
    /// If `N` is not [`Regex::static_captures_len`](super::Regex::static_captures_len) less 1.
    pub fn extract<const N: usize>(&self) -> (&'h str, [&'h str; N]) {
        let len = self.program.static_captures_len();
        let len = len.expect("number of capture groups can vary in a match") - 1;
        assert_eq!(N, len, "asked for {N} groups, but must ask for {len}");
        let mut parts = self.iter().flatten().map(|part| part.as_str());
        let mut next = || {
            parts
                .next()
                .expect("as many groups participate as the pattern says")
        };
        (next(), std::array::from_fn(|_| next()))
    }

    /// Appends what the template stands for: in it `$1`, `$name`, `${1}` and `${name}` are groups, and `$$` is a `$`. A group
    /// that does not exist or did not participate is the empty text.
    ///
    /// ```
    /// let captures = regex_bites::Regex::new(r"(?<key>\w)=(\d)").unwrap().captures("a=1").unwrap();
    /// let mut text = String::from("> ");
    /// captures.expand("$2, ${key}x, $$", &mut text);
    /// assert_eq!("> 1, ax, $", text);
    /// ```
    ///
    /// # Panics
    ///
    /// If the search began within a character, and a group in the template begins or ends within one.
    #[inline]
    pub fn expand(&self, replacement: &str, dst: &mut String) {
        let groups = self.locations.groups();
        self.program
            .expand_text(self.haystack, groups, replacement, dst);
    }

    /// Returns an iterator over all groups from group 0 on, with `None` for one that did not participate.
    ///
    /// ```
    /// let captures = regex_bites::Regex::new("(a)(b)?").unwrap().captures("a").unwrap();
    /// let there: Vec<bool> = captures.iter().map(|group| group.is_some()).collect();
    /// assert_eq!([true, true, false], there[..]);
    /// ```
    #[inline]
    pub fn iter<'c>(&'c self) -> SubCaptureMatches<'c, 'h> {
        SubCaptureMatches::new(self)
    }

    /// Returns the number of groups, with group 0.
    ///
    /// ```
    /// assert_eq!(3, regex_bites::Regex::new("(a)(b)?").unwrap().captures("a").unwrap().len());
    /// ```
    #[inline]
    #[allow(clippy::len_without_is_empty)]
    pub fn len(&self) -> usize {
        self.locations.len()
    }

    #[inline]
    pub(super) fn groups_mut(&mut self) -> &mut [BitesSpan] {
        self.locations.groups_mut()
    }

    #[inline]
    pub(super) fn whole(&self) -> BitesSpan {
        self.locations.groups()[0]
    }
}

/// A map from the number of each group, and its name, to its offsets and its text.
impl fmt::Debug for Captures<'_> {
    fn fmt(&self, f: &mut fmt::Formatter<'_>) -> fmt::Result {
        f.debug_tuple("Captures").field(&Groups(self)).finish()
    }
}

struct Groups<'c, 'h>(&'c Captures<'h>);

impl fmt::Debug for Groups<'_, '_> {
    fn fmt(&self, f: &mut fmt::Formatter<'_>) -> fmt::Result {
        let mut map = f.debug_map();
        for (group, name) in self.0.program.names().iter().enumerate() {
            let key = GroupKey(group, name.as_deref());
            match self.0.get(group) {
                Some(found) => map.entry(&key, &GroupText(found)),
                None => map.entry(&key, &None::<()>),
            };
        }
        map.finish()
    }
}

struct GroupKey<'c>(usize, Option<&'c str>);

impl fmt::Debug for GroupKey<'_> {
    fn fmt(&self, f: &mut fmt::Formatter<'_>) -> fmt::Result {
        match self.1 {
            Some(name) => write!(f, "{}/{:?}", self.0, name),
            None => write!(f, "{}", self.0),
        }
    }
}

struct GroupText<'h>(Match<'h>);

impl fmt::Debug for GroupText<'_> {
    fn fmt(&self, f: &mut fmt::Formatter<'_>) -> fmt::Result {
        let Range { start, end } = self.0.range();
        write!(f, "{start}..{end}/{:?}", self.0.as_str())
    }
}

impl Index<usize> for Captures<'_> {
    type Output = str;

    /// # Panics
    ///
    /// If there is no such group, or it did not participate.
    fn index(&self, i: usize) -> &str {
        match self.get(i) {
            Some(found) => found.as_str(),
            None => panic!("no group at index '{i}'"),
        }
    }
}

impl Index<&str> for Captures<'_> {
    type Output = str;

    /// # Panics
    ///
    /// If there is no such group, or it did not participate.
    fn index(&self, name: &str) -> &str {
        match self.name(name) {
            Some(found) => found.as_str(),
            None => panic!("no group named '{name}'"),
        }
    }
}

/// The offsets of a match's groups, which [`Regex::captures_read`](super::Regex::captures_read) writes. They can be reused.
///
/// ```
/// let pair = regex_bites::Regex::new(r"(\w+)=(\w+)").unwrap();
/// let mut locations = pair.capture_locations();
/// pair.captures_read(&mut locations, "in k=v").unwrap();
/// assert_eq!(Some((5, 6)), locations.get(2));
/// ```
#[derive(Clone, Debug)]
pub struct CaptureLocations(Vec<BitesSpan>);

impl CaptureLocations {
    #[inline]
    pub(super) fn new(groups: Vec<BitesSpan>) -> CaptureLocations {
        CaptureLocations(groups)
    }

    #[inline]
    pub(super) fn groups(&self) -> &[BitesSpan] {
        &self.0
    }

    #[inline]
    pub(super) fn groups_mut(&mut self) -> &mut [BitesSpan] {
        &mut self.0
    }

    /// Returns the start and the end of the group of this number, if there is one and it participated.
    ///
    /// ```
    /// let regex = regex_bites::Regex::new("(a)(b)?").unwrap();
    /// let mut locations = regex.capture_locations();
    /// assert!(regex.captures_read(&mut locations, "xa").is_some());
    /// assert_eq!((Some((1, 2)), None), (locations.get(1), locations.get(2)));
    /// ```
    #[inline]
    pub fn get(&self, i: usize) -> Option<(usize, usize)> {
        let span = self.0.get(i)?;
        (span.start != sys::NONE).then_some((span.start, span.end))
    }

    /// Returns what [`CaptureLocations::get`] returns. Rust's `regex` has it under this name too.
    ///
    /// ```
    /// let regex = regex_bites::Regex::new("a+").unwrap();
    /// let mut locations = regex.capture_locations();
    /// assert!(regex.captures_read(&mut locations, "baa").is_some());
    /// assert_eq!(Some((1, 3)), locations.pos(0));
    /// ```
    #[inline]
    pub fn pos(&self, i: usize) -> Option<(usize, usize)> {
        self.get(i)
    }

    /// Returns the number of groups, with group 0.
    ///
    /// ```
    /// assert_eq!(3, regex_bites::Regex::new("(a)(b)").unwrap().capture_locations().len());
    /// ```
    #[inline]
    #[allow(clippy::len_without_is_empty)]
    pub fn len(&self) -> usize {
        self.0.len()
    }
}
