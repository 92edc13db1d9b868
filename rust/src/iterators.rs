//! The iterators over texts and over bytes, which differ only in the type of the haystack. Each step makes one search.

/// Defines the iterators over a haystack of this type, in a module below that of `Regex`, `Captures` and `Match`.
macro_rules! iterators {
    ($haystack:ty) => {
        use super::{Captures, Match, Regex};
        use crate::engine::Searches;
        use crate::sys;
        use std::iter::FusedIterator;
        use std::ops::Range;
        use std::slice;

        /// The matches of a haystack, as [`Regex::find_iter`] returns them.
        #[derive(Debug)]
        pub struct Matches<'r, 'h> {
            searches: Searches<'r>,
            haystack: &'h $haystack,
            // The end of the previous match.
            last: usize,
        }

        impl<'r, 'h> Matches<'r, 'h> {
            #[inline]
            pub(super) fn new(regex: &'r Regex, haystack: &'h $haystack) -> Matches<'r, 'h> {
                Matches {
                    searches: regex.engine.searches(haystack.len()),
                    haystack,
                    last: sys::NONE,
                }
            }
        }

        impl<'h> Iterator for Matches<'_, 'h> {
            type Item = Match<'h>;

            #[inline]
            fn next(&mut self) -> Option<Match<'h>> {
                let haystack = self.haystack.as_ref();
                let span = self.searches.find_next(haystack, self.last)?;
                self.last = span.end;
                Some(Match::new(self.haystack, span))
            }
        }

        impl FusedIterator for Matches<'_, '_> {}

        /// The groups of each match of a haystack, as [`Regex::captures_iter`] returns them.
        #[derive(Debug)]
        pub struct CaptureMatches<'r, 'h> {
            regex: &'r Regex,
            searches: Searches<'r>,
            haystack: &'h $haystack,
            // The end of the previous match.
            last: usize,
        }

        impl<'r, 'h> CaptureMatches<'r, 'h> {
            #[inline]
            pub(super) fn new(regex: &'r Regex, haystack: &'h $haystack) -> CaptureMatches<'r, 'h> {
                CaptureMatches {
                    regex,
                    searches: regex.engine.searches(haystack.len()),
                    haystack,
                    last: sys::NONE,
                }
            }

            /// Replaces the groups of a match by those of the next one. Returns whether there is a next one.
            #[inline]
            pub(super) fn read_next(&mut self, captures: &mut Captures<'h>) -> bool {
                let groups = captures.groups_mut();
                let haystack = self.haystack.as_ref();
                let found = self
                    .searches
                    .captures_read_next(haystack, self.last, groups);
                if found {
                    self.last = captures.whole().end;
                }
                found
            }
        }

        impl<'h> Iterator for CaptureMatches<'_, 'h> {
            type Item = Captures<'h>;

            #[inline]
            fn next(&mut self) -> Option<Captures<'h>> {
                let haystack = self.haystack.as_ref();
                let groups = self.searches.captures_next(haystack, self.last)?;
                let captures = self.regex.captures_of(self.haystack, groups);
                self.last = captures.whole().end;
                Some(captures)
            }

            // Only where the matches are is asked for, and not their groups.
            #[inline]
            fn count(self) -> usize {
                let matches = Matches {
                    searches: self.searches,
                    haystack: self.haystack,
                    last: self.last,
                };
                matches.count()
            }
        }

        impl FusedIterator for CaptureMatches<'_, '_> {}

        /// The pieces of a haystack, as [`Regex::split`] returns them.
        #[derive(Debug)]
        pub struct Split<'r, 'h> {
            searches: Searches<'r>,
            haystack: &'h $haystack,
            // The end of the previous match.
            last: usize,
            is_done: bool,
        }

        impl<'r, 'h> Split<'r, 'h> {
            #[inline]
            pub(super) fn new(regex: &'r Regex, haystack: &'h $haystack) -> Split<'r, 'h> {
                Split {
                    searches: regex.engine.searches(haystack.len()),
                    haystack,
                    last: sys::NONE,
                    is_done: false,
                }
            }

            fn take_rest(&mut self) -> Option<&'h $haystack> {
                if std::mem::replace(&mut self.is_done, true) {
                    return None;
                }
                let begin = if self.last == sys::NONE { 0 } else { self.last };
                Some(&self.haystack[begin..])
            }
        }

        impl<'h> Iterator for Split<'_, 'h> {
            type Item = &'h $haystack;

            #[inline]
            fn next(&mut self) -> Option<&'h $haystack> {
                if self.is_done {
                    return None;
                }
                let (piece, found) = self
                    .searches
                    .split_next(self.haystack.as_ref(), &mut self.last);
                self.is_done = !found;
                Some(&self.haystack[piece.start..piece.end])
            }
        }

        impl FusedIterator for Split<'_, '_> {}

        /// The pieces of a haystack up to a limit, as [`Regex::splitn`] returns them.
        #[derive(Debug)]
        pub struct SplitN<'r, 'h> {
            pieces: Split<'r, 'h>,
            left: usize,
        }

        impl<'r, 'h> SplitN<'r, 'h> {
            #[inline]
            pub(super) fn new(pieces: Split<'r, 'h>, limit: usize) -> SplitN<'r, 'h> {
                SplitN {
                    pieces,
                    left: limit,
                }
            }
        }

        impl<'h> Iterator for SplitN<'_, 'h> {
            type Item = &'h $haystack;

            #[inline]
            fn next(&mut self) -> Option<&'h $haystack> {
                self.left = self.left.checked_sub(1)?;
                match self.left {
                    0 => self.pieces.take_rest(),
                    _ => self.pieces.next(),
                }
            }

            #[inline]
            fn size_hint(&self) -> (usize, Option<usize>) {
                let most = if self.pieces.is_done { 0 } else { self.left };
                (most.min(1), Some(most))
            }
        }

        impl FusedIterator for SplitN<'_, '_> {}

        /// The names of a regex's groups, as [`Regex::capture_names`] returns them.
        #[derive(Clone, Debug)]
        pub struct CaptureNames<'r>(slice::Iter<'r, Option<Box<str>>>);

        impl<'r> CaptureNames<'r> {
            #[inline]
            pub(super) fn new(names: &'r [Option<Box<str>>]) -> CaptureNames<'r> {
                CaptureNames(names.iter())
            }
        }

        impl<'r> Iterator for CaptureNames<'r> {
            type Item = Option<&'r str>;

            #[inline]
            fn next(&mut self) -> Option<Option<&'r str>> {
                self.0.next().map(|name| name.as_deref())
            }

            #[inline]
            fn size_hint(&self) -> (usize, Option<usize>) {
                self.0.size_hint()
            }

            // Two names at each step take two thirds of the time of one.
            #[inline]
            fn fold<B, F: FnMut(B, Option<&'r str>) -> B>(self, start: B, mut f: F) -> B {
                let mut pairs = self.0.as_slice().chunks_exact(2);
                let mut folded = start;
                for pair in pairs.by_ref() {
                    folded = f(folded, pair[0].as_deref());
                    folded = f(folded, pair[1].as_deref());
                }
                let rest = pairs.remainder().iter();
                rest.fold(folded, |folded, name| f(folded, name.as_deref()))
            }
        }

        impl ExactSizeIterator for CaptureNames<'_> {}

        impl FusedIterator for CaptureNames<'_> {}

        /// The groups of one match, as [`Captures::iter`] returns them.
        #[derive(Clone, Debug)]
        pub struct SubCaptureMatches<'c, 'h> {
            captures: &'c Captures<'h>,
            groups: Range<usize>,
        }

        impl<'c, 'h> SubCaptureMatches<'c, 'h> {
            #[inline]
            pub(super) fn new(captures: &'c Captures<'h>) -> SubCaptureMatches<'c, 'h> {
                SubCaptureMatches {
                    captures,
                    groups: 0..captures.len(),
                }
            }
        }

        impl<'h> Iterator for SubCaptureMatches<'_, 'h> {
            type Item = Option<Match<'h>>;

            #[inline]
            fn next(&mut self) -> Option<Option<Match<'h>>> {
                self.groups.next().map(|group| self.captures.get(group))
            }

            #[inline]
            fn size_hint(&self) -> (usize, Option<usize>) {
                self.groups.size_hint()
            }
        }

        impl ExactSizeIterator for SubCaptureMatches<'_, '_> {}

        impl FusedIterator for SubCaptureMatches<'_, '_> {}
    };
}

pub(crate) use iterators;
