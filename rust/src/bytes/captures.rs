//! Matches and their groups.

use super::iterators::SubCaptureMatches;
use crate::engine::Program;
use crate::sys::{self, BitesSpan};
use std::fmt;
use std::ops::{Index, Range};
use std::sync::Arc;

/// A match, or a group of one, in its haystack.
///
/// ```
/// let found = regex_bites::bytes::Regex::new(r"\d+").unwrap().find(b"\xFF 42").unwrap();
/// assert_eq!((2..4, &b"42"[..]), (found.range(), found.as_bytes()));
/// ```
#[derive(Clone, Copy, Eq, PartialEq)]
pub struct Match<'h> {
    haystack: &'h [u8],
    start: usize,
    end: usize,
}

impl<'h> Match<'h> {
    #[inline]
    pub(super) fn new(haystack: &'h [u8], span: BitesSpan) -> Match<'h> {
        Match {
            haystack,
            start: span.start,
            end: span.end,
        }
    }

    /// Returns the offset of its first byte.
    ///
    /// ```
    /// let found = regex_bites::bytes::Regex::new("b").unwrap().find(b"a\xFFb").unwrap();
    /// assert_eq!(2, found.start());
    /// ```
    #[inline]
    pub fn start(&self) -> usize {
        self.start
    }

    /// Returns the offset after its last byte.
    ///
    /// ```
    /// let found = regex_bites::bytes::Regex::new("b+").unwrap().find(b"abb").unwrap();
    /// assert_eq!(3, found.end());
    /// ```
    #[inline]
    pub fn end(&self) -> usize {
        self.end
    }

    /// Returns whether it has no byte.
    ///
    /// ```
    /// assert!(regex_bites::bytes::Regex::new("a*").unwrap().find(b"baa").unwrap().is_empty());
    /// ```
    #[inline]
    pub fn is_empty(&self) -> bool {
        self.start == self.end
    }

    /// Returns its length in bytes.
    ///
    /// ```
    /// assert_eq!(2, regex_bites::bytes::Regex::new("a+").unwrap().find(b"baa").unwrap().len());
    /// ```
    #[inline]
    pub fn len(&self) -> usize {
        self.end - self.start
    }

    /// Returns its range of offsets, in bytes.
    ///
    /// ```
    /// let found = regex_bites::bytes::Regex::new("a+").unwrap().find(b"baa").unwrap();
    /// assert_eq!(1..3, found.range());
    /// ```
    #[inline]
    pub fn range(&self) -> Range<usize> {
        self.start..self.end
    }

    /// Returns its bytes.
    ///
    /// ```
    /// assert_eq!(b"a\xFF", regex_bites::bytes::Regex::new("a.").unwrap().find(b"ba\xFF").unwrap().as_bytes());
    /// ```
    #[inline]
    pub fn as_bytes(&self) -> &'h [u8] {
        &self.haystack[self.range()]
    }
}

impl fmt::Debug for Match<'_> {
    fn fmt(&self, f: &mut fmt::Formatter<'_>) -> fmt::Result {
        f.debug_struct("Match")
            .field("start", &self.start)
            .field("end", &self.end)
            .field("bytes", &self.as_bytes())
            .finish()
    }
}

impl<'h> From<Match<'h>> for &'h [u8] {
    fn from(found: Match<'h>) -> &'h [u8] {
        found.as_bytes()
    }
}

impl From<Match<'_>> for Range<usize> {
    fn from(found: Match<'_>) -> Range<usize> {
        found.range()
    }
}

/// The groups of one match.
///
/// ```
/// let pair = regex_bites::bytes::Regex::new(r"(?<key>\w+)=").unwrap();
/// let captures = pair.captures(b"\xFF k=\xFE").unwrap();
/// assert_eq!(b"k", &captures["key"]);
/// ```
pub struct Captures<'h> {
    haystack: &'h [u8],
    locations: CaptureLocations,
    program: Arc<Program>,
}

impl<'h> Captures<'h> {
    #[inline]
    pub(super) fn new(
        haystack: &'h [u8],
        locations: CaptureLocations,
        program: Arc<Program>,
    ) -> Captures<'h> {
        Captures {
            haystack,
            locations,
            program,
        }
    }

    /// Returns the group of this number, if there is one and it participated. Group 0 is the match.
    ///
    /// ```
    /// let captures = regex_bites::bytes::Regex::new("(a)|(b)").unwrap().captures(b"b").unwrap();
    /// assert!(captures.get(1).is_none());
    /// assert_eq!(0..1, captures.get(2).unwrap().range());
    /// ```
    #[inline]
    pub fn get(&self, i: usize) -> Option<Match<'h>> {
        let (start, end) = self.locations.get(i)?;
        Some(Match::new(self.haystack, BitesSpan { start, end }))
    }

    /// Returns the group of this name, if there is one and it participated.
    ///
    /// ```
    /// let captures = regex_bites::bytes::Regex::new(r"(?<year>\d{4})").unwrap().captures(b"in 2010").unwrap();
    /// assert_eq!(b"2010", captures.name("year").unwrap().as_bytes());
    /// assert!(captures.name("month").is_none());
    /// ```
    #[inline]
    pub fn name(&self, name: &str) -> Option<Match<'h>> {
        self.get(self.program.index_of(name)?)
    }

    /// Returns the bytes of the match, and the bytes of the first `N` groups that participated.
    ///
    /// ```
    /// let date = regex_bites::bytes::Regex::new(r"(\d{4})-(\d\d)").unwrap();
    /// let (_, [year, month]) = date.captures(b"on 2010-03").unwrap().extract();
    /// assert_eq!((&b"2010"[..], &b"03"[..]), (year, month));
    /// ```
    ///
    /// # Panics
    ///
    /// If `N` is not [`Regex::static_captures_len`](super::Regex::static_captures_len) less 1.
    pub fn extract<const N: usize>(&self) -> (&'h [u8], [&'h [u8]; N]) {
        let len = self.program.static_captures_len();
        let len = len.expect("number of capture groups can vary in a match") - 1;
        assert_eq!(N, len, "asked for {N} groups, but must ask for {len}");
        let mut parts = self.iter().flatten().map(|part| part.as_bytes());
        let mut next = || {
            parts
                .next()
                .expect("as many groups participate as the pattern says")
        };
        (next(), std::array::from_fn(|_| next()))
    }

    /// Appends what the template stands for: in it `$1`, `$name`, `${1}` and `${name}` are groups, and `$$` is a `$`. A group
    /// that does not exist or did not participate is empty.
    ///
    /// ```
    /// let captures = regex_bites::bytes::Regex::new(r"(?<key>\w)=(\d)").unwrap().captures(b"a=1").unwrap();
    /// let mut bytes = b"\xFF".to_vec();
    /// captures.expand(b"$2, ${key}x, $$", &mut bytes);
    /// assert_eq!(b"\xFF1, ax, $", &bytes[..]);
    /// ```
    #[inline]
    pub fn expand(&self, replacement: &[u8], dst: &mut Vec<u8>) {
        let groups = self.locations.groups();
        self.program.expand(self.haystack, groups, replacement, dst);
    }

    /// Returns an iterator over all groups from group 0 on, with `None` for one that did not participate.
    ///
    /// ```
    /// let captures = regex_bites::bytes::Regex::new("(a)(b)?").unwrap().captures(b"a").unwrap();
    /// let there: Vec<bool> = captures.iter().map(|group| group.is_some()).collect();
    /// assert_eq!([true, true, false], there[..]);
    /// ```
    #[inline]
    pub fn iter<'c>(&'c self) -> SubCaptureMatches<'c, 'h> {
        SubCaptureMatches::new(self)
    }

    /// Returns the number of groups, with group 0.
    ///
    /// ```
    /// assert_eq!(3, regex_bites::bytes::Regex::new("(a)(b)?").unwrap().captures(b"a").unwrap().len());
    /// ```
    #[inline]
    #[allow(clippy::len_without_is_empty)]
    pub fn len(&self) -> usize {
        self.locations.len()
    }

    #[inline]
    pub(super) fn groups_mut(&mut self) -> &mut [BitesSpan] {
        self.locations.groups_mut()
    }

    #[inline]
    pub(super) fn whole(&self) -> BitesSpan {
        self.locations.groups()[0]
    }
}

/// A map from the number of each group, and its name, to its offsets and its bytes.
impl fmt::Debug for Captures<'_> {
    fn fmt(&self, f: &mut fmt::Formatter<'_>) -> fmt::Result {
        f.debug_tuple("Captures").field(&Groups(self)).finish()
    }
}

struct Groups<'c, 'h>(&'c Captures<'h>);

impl fmt::Debug for Groups<'_, '_> {
    fn fmt(&self, f: &mut fmt::Formatter<'_>) -> fmt::Result {
        let mut map = f.debug_map();
        for (group, name) in self.0.program.names().iter().enumerate() {
            let key = GroupKey(group, name.as_deref());
            match self.0.get(group) {
                Some(found) => map.entry(&key, &GroupBytes(found)),
                None => map.entry(&key, &None::<()>),
            };
        }
        map.finish()
    }
}

struct GroupKey<'c>(usize, Option<&'c str>);

impl fmt::Debug for GroupKey<'_> {
    fn fmt(&self, f: &mut fmt::Formatter<'_>) -> fmt::Result {
        match self.1 {
            Some(name) => write!(f, "{}/{:?}", self.0, name),
            None => write!(f, "{}", self.0),
        }
    }
}

struct GroupBytes<'h>(Match<'h>);

impl fmt::Debug for GroupBytes<'_> {
    fn fmt(&self, f: &mut fmt::Formatter<'_>) -> fmt::Result {
        let Range { start, end } = self.0.range();
        write!(f, "{start}..{end}/{:?}", self.0.as_bytes())
    }
}

impl Index<usize> for Captures<'_> {
    type Output = [u8];

    /// # Panics
    ///
    /// If there is no such group, or it did not participate.
    fn index(&self, i: usize) -> &[u8] {
        match self.get(i) {
            Some(found) => found.as_bytes(),
            None => panic!("no group at index '{i}'"),
        }
    }
}

impl Index<&str> for Captures<'_> {
    type Output = [u8];

    /// # Panics
    ///
    /// If there is no such group, or it did not participate.
    fn index(&self, name: &str) -> &[u8] {
        match self.name(name) {
            Some(found) => found.as_bytes(),
            None => panic!("no group named '{name}'"),
        }
    }
}

/// The offsets of a match's groups, which [`Regex::captures_read`](super::Regex::captures_read) writes. They can be reused.
///
/// ```
/// let pair = regex_bites::bytes::Regex::new(r"(\w+)=").unwrap();
/// let mut locations = pair.capture_locations();
/// pair.captures_read(&mut locations, b"\xFF k=\xFE").unwrap();
/// assert_eq!(Some((2, 3)), locations.get(1));
/// ```
#[derive(Clone, Debug)]
pub struct CaptureLocations(Vec<BitesSpan>);

impl CaptureLocations {
    #[inline]
    pub(super) fn new(groups: Vec<BitesSpan>) -> CaptureLocations {
        CaptureLocations(groups)
    }

    #[inline]
    pub(super) fn groups(&self) -> &[BitesSpan] {
        &self.0
    }

    #[inline]
    pub(super) fn groups_mut(&mut self) -> &mut [BitesSpan] {
        &mut self.0
    }

    /// Returns the start and the end of the group of this number, if there is one and it participated.
    ///
    /// ```
    /// let regex = regex_bites::bytes::Regex::new("(a)(b)?").unwrap();
    /// let mut locations = regex.capture_locations();
    /// assert!(regex.captures_read(&mut locations, b"xa").is_some());
    /// assert_eq!((Some((1, 2)), None), (locations.get(1), locations.get(2)));
    /// ```
    #[inline]
    pub fn get(&self, i: usize) -> Option<(usize, usize)> {
        let span = self.0.get(i)?;
        (span.start != sys::NONE).then_some((span.start, span.end))
    }

    /// Returns what [`CaptureLocations::get`] returns. Rust's `regex` has it under this name too.
    ///
    /// ```
    /// let regex = regex_bites::bytes::Regex::new("a+").unwrap();
    /// let mut locations = regex.capture_locations();
    /// assert!(regex.captures_read(&mut locations, b"baa").is_some());
    /// assert_eq!(Some((1, 3)), locations.pos(0));
    /// ```
    #[inline]
    pub fn pos(&self, i: usize) -> Option<(usize, usize)> {
        self.get(i)
    }

    /// Returns the number of groups, with group 0.
    ///
    /// ```
    /// assert_eq!(3, regex_bites::bytes::Regex::new("(a)(b)").unwrap().capture_locations().len());
    /// ```
    #[inline]
    #[allow(clippy::len_without_is_empty)]
    pub fn len(&self) -> usize {
        self.0.len()
    }
}
