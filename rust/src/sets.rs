//! Sets of patterns over texts and over bytes, which differ only in the type of the haystack, and what they share.

use std::iter::FusedIterator;
use std::{fmt, slice, vec};

/// Which patterns of a set match, as `RegexSet::matches` returns it.
///
/// ```
/// let set = regex_bites::RegexSet::new([r"\w+", r"\d+", "foo"]).unwrap();
/// let matches = set.matches("food");
/// assert!(matches.matched(0) && !matches.matched(1));
/// assert_eq!([0, 2], matches.iter().collect::<Vec<_>>()[..]);
/// ```
#[derive(Clone)]
pub struct SetMatches {
    // For each pattern 1 if it matches, else 0.
    matched: Vec<u8>,
}

impl SetMatches {
    pub(crate) fn new(matched: Vec<u8>) -> SetMatches {
        SetMatches { matched }
    }

    /// Returns whether any pattern matches.
    ///
    /// ```
    /// let set = regex_bites::RegexSet::new(["a", "b"]).unwrap();
    /// assert!(set.matches("b").matched_any() && !set.matches("c").matched_any());
    /// ```
    pub fn matched_any(&self) -> bool {
        self.matched.contains(&1)
    }

    /// Returns whether all patterns match.
    ///
    /// ```
    /// let set = regex_bites::RegexSet::new(["a", "b"]).unwrap();
    /// assert!(set.matches("ab").matched_all() && !set.matches("b").matched_all());
    /// ```
    pub fn matched_all(&self) -> bool {
        !self.matched.contains(&0)
    }

    /// Returns whether the pattern with this number matches. Patterns are numbered from 0 on.
    ///
    /// # Panics
    ///
    /// If the set has no pattern with this number.
    ///
    /// ```
    /// let set = regex_bites::RegexSet::new(["a", "b"]).unwrap();
    /// assert!(set.matches("b").matched(1));
    /// ```
    pub fn matched(&self, index: usize) -> bool {
        self.matched[index] == 1
    }

    /// Returns the number of patterns, whether they match or not.
    ///
    /// ```
    /// let set = regex_bites::RegexSet::new(["a", "b"]).unwrap();
    /// assert_eq!(2, set.matches("b").len());
    /// ```
    #[allow(clippy::len_without_is_empty)]
    pub fn len(&self) -> usize {
        self.matched.len()
    }

    /// Returns an iterator over the numbers of the patterns that match, in ascending order.
    ///
    /// ```
    /// let set = regex_bites::RegexSet::new(["a", "b", "c"]).unwrap();
    /// assert_eq!([0, 2], set.matches("ca").iter().collect::<Vec<_>>()[..]);
    /// ```
    pub fn iter(&self) -> SetMatchesIter<'_> {
        SetMatchesIter {
            entries: self.matched.iter(),
            next: 0,
        }
    }
}

impl fmt::Debug for SetMatches {
    fn fmt(&self, f: &mut fmt::Formatter<'_>) -> fmt::Result {
        f.write_str("SetMatches(")?;
        f.debug_list().entries(self).finish()?;
        f.write_str(")")
    }
}

impl IntoIterator for SetMatches {
    type IntoIter = SetMatchesIntoIter;
    type Item = usize;

    fn into_iter(self) -> SetMatchesIntoIter {
        SetMatchesIntoIter {
            entries: self.matched.into_iter(),
            next: 0,
        }
    }
}

impl<'a> IntoIterator for &'a SetMatches {
    type IntoIter = SetMatchesIter<'a>;
    type Item = usize;

    fn into_iter(self) -> SetMatchesIter<'a> {
        self.iter()
    }
}

/// Defines an iterator over the numbers of the entries that are 1.
macro_rules! numbers {
    ($(#[$doc:meta])* $name:ident$(<$life:lifetime>)?, $entries:ty) => {
        $(#[$doc])*
        #[derive(Clone, Debug)]
        pub struct $name$(<$life>)? {
            entries: $entries,
            // The number of the first entry that is left.
            next: usize,
        }

        impl$(<$life>)? Iterator for $name$(<$life>)? {
            type Item = usize;

            fn next(&mut self) -> Option<usize> {
                loop {
                    let entry = self.entries.next()?.eq(&1);
                    self.next += 1;
                    if entry {
                        return Some(self.next - 1);
                    }
                }
            }

            fn size_hint(&self) -> (usize, Option<usize>) {
                (0, self.entries.size_hint().1)
            }
        }

        impl$(<$life>)? DoubleEndedIterator for $name$(<$life>)? {
            fn next_back(&mut self) -> Option<usize> {
                loop {
                    let entry = self.entries.next_back()?.eq(&1);
                    if entry {
                        return Some(self.next + self.entries.len());
                    }
                }
            }
        }

        impl$(<$life>)? FusedIterator for $name$(<$life>)? {}
    };
}

numbers! {
    /// The numbers of the patterns that match, in ascending order, as [`SetMatches::iter`] returns them.
    SetMatchesIter<'a>, slice::Iter<'a, u8>
}

numbers! {
    /// The numbers of the patterns that match, in ascending order, of a [`SetMatches`] that is consumed.
    SetMatchesIntoIter, vec::IntoIter<u8>
}

/// Defines `RegexSet` and `RegexSetBuilder` over a haystack of this type.
macro_rules! regex_set {
    ($haystack:ty) => {
        pub use crate::sets::{SetMatches, SetMatchesIntoIter, SetMatchesIter};

        /// A set of patterns, whose searches return which of them match.
        ///
        /// A search looks for each pattern in turn, so its time is the sum of theirs. Once the set has its tables, most patterns that don't
        /// match are passed over by their literals, if there are four patterns or more and the haystack has at most 32 bytes for each and
        /// 2,048 in all. Any number of threads may search with one set at the same time.
        #[derive(Clone)]
        pub struct RegexSet {
            engine: SetEngine,
        }

        impl RegexSet {
            /// Compiles the patterns with no flag set and with the default limits. The error is that of the first pattern that is
            /// refused.
            ///
            /// ```
            /// let set = regex_bites::RegexSet::new(["foo", r"\d+"]).unwrap();
            /// assert!(set.is_match("in 2010"));
            /// ```
            pub fn new<I, S>(patterns: I) -> Result<RegexSet, Error>
            where
                S: AsRef<str>,
                I: IntoIterator<Item = S>,
            {
                RegexSetBuilder::new(patterns).build()
            }

            /// Returns the set without patterns, which matches nothing.
            ///
            /// ```
            /// assert!(!regex_bites::RegexSet::empty().is_match(""));
            /// ```
            pub fn empty() -> RegexSet {
                match RegexSet::new::<_, &str>([]) {
                    Ok(set) => set,
                    Err(_) => unreachable!("there is no pattern to refuse"),
                }
            }

            /// Returns whether any pattern matches somewhere in the haystack.
            ///
            /// ```
            /// let set = regex_bites::RegexSet::new(["foo", r"\d+"]).unwrap();
            /// assert!(set.is_match("a foo") && !set.is_match("a bar"));
            /// ```
            #[inline]
            pub fn is_match(&self, haystack: &$haystack) -> bool {
                self.is_match_at(haystack, 0)
            }

            /// Returns whether any pattern matches at or after this offset. Assertions see what is before it.
            ///
            /// ```
            /// let set = regex_bites::RegexSet::new(["^foo", r"\d+"]).unwrap();
            /// assert!(!set.is_match_at("1foo", 1));
            /// ```
            #[inline]
            pub fn is_match_at(&self, haystack: &$haystack, start: usize) -> bool {
                self.engine.is_match_at(haystack.as_ref(), start)
            }

            /// Returns which patterns match somewhere in the haystack.
            ///
            /// ```
            /// let set = regex_bites::RegexSet::new(["foo", "o+", "b"]).unwrap();
            /// let matches = set.matches("food");
            /// assert_eq!([0, 1], matches.into_iter().collect::<Vec<_>>()[..]);
            /// ```
            #[inline]
            pub fn matches(&self, haystack: &$haystack) -> SetMatches {
                self.matches_at(haystack, 0)
            }

            /// Returns which patterns match at or after this offset. Assertions see what is before it.
            ///
            /// ```
            /// let set = regex_bites::RegexSet::new([r"\bo", "o+"]).unwrap();
            /// assert_eq!([1], set.matches_at("foo", 1).into_iter().collect::<Vec<_>>()[..]);
            /// ```
            pub fn matches_at(&self, haystack: &$haystack, start: usize) -> SetMatches {
                let mut matched = vec![0; self.len()];
                self.engine
                    .matches_at(haystack.as_ref(), start, &mut matched);
                SetMatches::new(matched)
            }

            /// Returns the number of patterns.
            ///
            /// ```
            /// assert_eq!(2, regex_bites::RegexSet::new(["a", "b"]).unwrap().len());
            /// ```
            #[inline]
            pub fn len(&self) -> usize {
                self.patterns().len()
            }

            /// Returns whether the set has no patterns.
            ///
            /// ```
            /// assert!(regex_bites::RegexSet::empty().is_empty());
            /// ```
            #[inline]
            pub fn is_empty(&self) -> bool {
                self.patterns().is_empty()
            }

            /// Returns how large the tables of all patterns are together, or `None` before searches have made them, and if no
            /// pattern has one. A new set has none: searches make them once they have read some thousand bytes.
            ///
            /// ```
            /// let set = regex_bites::RegexSet::new(["a+", "b"]).unwrap();
            /// assert_eq!(None, set.table_size());
            /// assert!(!set.is_match(&"c".repeat(10_000)));
            /// assert!(set.table_size().is_some_and(|table| table.is_whole));
            /// ```
            pub fn table_size(&self) -> Option<TableSize> {
                self.engine.table_size()
            }

            /// Returns the patterns, in the order in which they were given.
            ///
            /// ```
            /// let set = regex_bites::RegexSet::new(["a+", "b"]).unwrap();
            /// assert_eq!(["a+", "b"], set.patterns()[..]);
            /// ```
            #[inline]
            pub fn patterns(&self) -> &[String] {
                self.engine.patterns()
            }
        }

        impl Default for RegexSet {
            fn default() -> RegexSet {
                RegexSet::empty()
            }
        }

        impl fmt::Debug for RegexSet {
            fn fmt(&self, f: &mut fmt::Formatter<'_>) -> fmt::Result {
                write!(f, "RegexSet({:?})", self.patterns())
            }
        }

        /// Builds a set of patterns with flags and limits, which are those of each pattern.
        ///
        /// ```
        /// let mut builder = regex_bites::RegexSetBuilder::new(["foo", "bar"]);
        /// let set = builder.case_insensitive(true).build().unwrap();
        /// assert!(set.is_match("FOO"));
        /// ```
        #[derive(Clone, Debug)]
        pub struct RegexSetBuilder {
            patterns: Vec<String>,
            settings: Settings,
            octal: bool,
            unicode: bool,
        }

        impl RegexSetBuilder {
            /// Returns a builder for the patterns with no flag set and with the default limits.
            ///
            /// ```
            /// let set = regex_bites::RegexSetBuilder::new(["a+", "b"]).build().unwrap();
            /// assert_eq!(2, set.len());
            /// ```
            pub fn new<I, S>(patterns: I) -> RegexSetBuilder
            where
                I: IntoIterator<Item = S>,
                S: AsRef<str>,
            {
                let patterns = patterns.into_iter();
                RegexSetBuilder {
                    patterns: patterns
                        .map(|pattern| pattern.as_ref().to_string())
                        .collect(),
                    settings: Settings::default(),
                    octal: false,
                    unicode: true,
                }
            }

            /// Compiles the patterns. The error is that of the first pattern that is refused.
            ///
            /// ```
            /// let error = regex_bites::RegexSetBuilder::new(["a", "(b"]).build().unwrap_err();
            /// assert_eq!("found open group without closing ')'", error.to_string());
            /// ```
            pub fn build(&self) -> Result<RegexSet, Error> {
                // First, since the engine takes an octal escape for a back reference.
                if self.octal && !self.patterns.is_empty() {
                    return Err(Error::of_switch(crate::error::Switch::Octal).in_set(0));
                }
                let engine = SetEngine::new(self.patterns.clone(), self.settings)?;
                if !self.unicode {
                    let skips_space = self.settings.has(sys::IGNORE_WHITESPACE);
                    for (number, pattern) in self.patterns.iter().enumerate() {
                        crate::unicode::check(pattern, skips_space)
                            .map_err(|error| error.in_set(number))?;
                    }
                }
                Ok(RegexSet { engine })
            }

            /// Sets the flag `i`: ASCII letters match in both cases.
            ///
            /// ```
            /// let mut builder = regex_bites::RegexSetBuilder::new(["abc"]);
            /// let set = builder.case_insensitive(true).build().unwrap();
            /// assert!(set.is_match("aBC"));
            /// ```
            pub fn case_insensitive(&mut self, yes: bool) -> &mut RegexSetBuilder {
                self.settings.set(sys::CASE_INSENSITIVE, yes);
                self
            }

            /// Sets the flag `m`: `^` and `$` hold at the ends of lines too.
            ///
            /// ```
            /// let mut builder = regex_bites::RegexSetBuilder::new(["^b$"]);
            /// let set = builder.multi_line(true).build().unwrap();
            /// assert!(set.is_match("a\nb\nc"));
            /// ```
            pub fn multi_line(&mut self, yes: bool) -> &mut RegexSetBuilder {
                self.settings.set(sys::MULTI_LINE, yes);
                self
            }

            /// Sets the flag `s`: `.` matches the ends of lines too.
            ///
            /// ```
            /// let mut builder = regex_bites::RegexSetBuilder::new(["a.b"]);
            /// let set = builder.dot_matches_new_line(true).build().unwrap();
            /// assert!(set.is_match("a\nb"));
            /// ```
            pub fn dot_matches_new_line(&mut self, yes: bool) -> &mut RegexSetBuilder {
                self.settings.set(sys::DOT_MATCHES_NEW_LINE, yes);
                self
            }

            /// Sets the flag `R`: CR, LF and CR LF end a line.
            ///
            /// ```
            /// let mut builder = regex_bites::RegexSetBuilder::new(["(?m)^b$"]);
            /// let set = builder.crlf(true).build().unwrap();
            /// assert!(set.is_match("a\r\nb\r\n"));
            /// ```
            pub fn crlf(&mut self, yes: bool) -> &mut RegexSetBuilder {
                self.settings.set(sys::CRLF, yes);
                self
            }

            /// Sets the flag `U`: `x*` prefers fewer repetitions and `x*?` prefers more. Which patterns match is the same either way.
            ///
            /// ```
            /// let mut builder = regex_bites::RegexSetBuilder::new(["a+"]);
            /// let set = builder.swap_greed(true).build().unwrap();
            /// assert!(set.is_match("aaa"));
            /// ```
            pub fn swap_greed(&mut self, yes: bool) -> &mut RegexSetBuilder {
                self.settings.set(sys::SWAP_GREED, yes);
                self
            }

            /// Sets the flag `x`: white space and comments in the patterns are skipped.
            ///
            /// ```
            /// let mut builder = regex_bites::RegexSetBuilder::new(["a b # two letters"]);
            /// let set = builder.ignore_whitespace(true).build().unwrap();
            /// assert!(set.is_match("ab"));
            /// ```
            pub fn ignore_whitespace(&mut self, yes: bool) -> &mut RegexSetBuilder {
                self.settings.set(sys::IGNORE_WHITESPACE, yes);
                self
            }

            /// Sets the limit on the size of each compiled pattern, roughly in bytes. The default is 10485760.
            ///
            /// ```
            /// let mut builder = regex_bites::RegexSetBuilder::new(["[a-z]{1000}"]);
            /// assert!(builder.build().is_ok());
            /// assert!(builder.size_limit(1000).build().is_err());
            /// ```
            pub fn size_limit(&mut self, limit: usize) -> &mut RegexSetBuilder {
                self.settings.set_size_limit(limit);
                self
            }

            /// Sets the limit on how deep each pattern is nested. The default is 50.
            ///
            /// ```
            /// let mut builder = regex_bites::RegexSetBuilder::new(["((a))"]);
            /// assert!(builder.build().is_ok());
            /// assert!(builder.nest_limit(1).build().is_err());
            /// ```
            pub fn nest_limit(&mut self, limit: u32) -> &mut RegexSetBuilder {
                self.settings.set_nest_limit(limit);
                self
            }

            /// Sets the limit on the bytes of all tables together that searches make once they have read some thousand bytes. Each
            /// pattern's table may take what those of the patterns before it leave. The default is 1048576. With 0 no table is
            /// made, and searches look for no literal first. The limit changes the time that searches take, and never what they return.
            ///
            /// ```
            /// let mut builder = regex_bites::RegexSetBuilder::new(["a+", "b"]);
            /// let set = builder.dfa_size_limit(0).build().unwrap();
            /// assert!(!set.is_match(&"c".repeat(10_000)));
            /// assert_eq!(None, set.table_size());
            /// ```
            pub fn dfa_size_limit(&mut self, limit: usize) -> &mut RegexSetBuilder {
                self.settings.set_dfa_size_limit(limit);
                self
            }

            /// Is for programs that were written for Rust's `regex`, as `octal` of the builder of one regex is: after `octal(true)` no
            /// pattern is built.
            ///
            /// ```
            /// let mut builder = regex_bites::RegexSetBuilder::new(["a+"]);
            /// assert!(builder.octal(false).build().is_ok());
            /// assert!(builder.octal(true).build().is_err());
            /// ```
            pub fn octal(&mut self, yes: bool) -> &mut RegexSetBuilder {
                self.octal = yes;
                self
            }

            /// Is for programs that were written for Rust's `regex`, as `unicode` of the builder of one regex is: with `false` the set
            /// is refused if the switch would change what a pattern matches.
            ///
            /// ```
            /// let build = |pattern| regex_bites::RegexSetBuilder::new([pattern]).unicode(false).build();
            /// assert!(build(r"(\w+)=(\d+)").is_ok() && build("a.b").is_err());
            /// ```
            pub fn unicode(&mut self, yes: bool) -> &mut RegexSetBuilder {
                self.unicode = yes;
                self
            }
        }
    };
}

pub(crate) use regex_set;
