//! The engine's calls, in safe Rust. All `unsafe` of this crate stands here, in `pool` and in `race`.
//!
//! Each call meets these requirements of the engine:
//!
//! - Its handles hold what the engine put there, or nothing. No other call uses them meanwhile, since they are borrowed
//!   exclusively.
//! - Each pointer with a length is one slice, or the spare room of a buffer. It lives until the call returns, and it is not
//!   null even if it is empty.
//! - What the call writes to is borrowed exclusively, so it overlaps nothing that the call reads.
#![allow(unsafe_code)]

use crate::error::Error;
use crate::pattern::Pattern;
use crate::pool::{with_locked, Pool, Taken};
use crate::race;
use crate::sys::{self, Bites, BitesCache, BitesSize, BitesSpan};
use handle::{Handle, Searcher};
use std::str;
use std::sync::{Arc, Mutex, OnceLock};
use table::{Reach, Tables};
use text::{append, give_up, made_text, text_of, written, SHORT};

mod handle;
mod sets;
mod table;
mod text;

pub(crate) use handle::Settings;
pub(crate) use sets::SetEngine;
pub use table::TableSize;
pub(crate) use text::{error_at, message};

/// A compiled regex, which any number of threads may read.
pub(crate) struct Program {
    handle: Mutex<Handle>,
    tables: Tables,
    pattern: Pattern,
    groups: usize,
    static_groups: OnceLock<Option<usize>>,
    names: Names,
}

/// The name of each group. The names are read when the regex is made, since taking a lock each time would cost as much as
/// going over a few names.
enum Names {
    /// This number of groups without names, at most the length of [`UNNAMED`].
    Unnamed(usize),
    Each(Vec<Option<Box<str>>>),
}

/// How many names are looked up one by one.
const FEW_NAMES: usize = 16;

/// Returns what may be the name of a group in a pattern: what stands behind `?<` or `?P<`, up to the next `>`.
fn possible_names(pattern: &str) -> impl Iterator<Item = &str> {
    pattern.match_indices('<').filter_map(|(at, _)| {
        let (before, behind) = (&pattern[..at], &pattern[at + 1..]);
        let opens = before.ends_with('?') || before.ends_with("?P");
        opens.then(|| behind.split('>').next().unwrap_or(behind))
    })
}

/// The names of groups that have none.
static UNNAMED: [Option<Box<str>>; 32] = [NO_NAME; 32];

// Each place of the array is a value of its own, for which the constant stands.
const NO_NAME: Option<Box<str>> = None;

impl Names {
    /// Reads the names of a regex of this pattern. Group 0 has none.
    ///
    /// A few names are found in the pattern, and the engine is asked which group has each. More are asked for group by group.
    fn read(pattern: &str, handle: &mut Handle, groups: usize) -> Names {
        let few: Vec<&str> = match groups {
            1 => Vec::new(),
            _ => possible_names(pattern).take(FEW_NAMES + 1).collect(),
        };
        if few.is_empty() && groups <= UNNAMED.len() {
            return Names::Unnamed(groups);
        }
        if few.len() > FEW_NAMES {
            return Names::Each((0..groups).map(|group| handle.name(group)).collect());
        }
        let mut names = vec![None; groups];
        for name in few {
            if let Some(group) = handle.index_of(name) {
                names[group] = Some(name.into());
            }
        }
        Names::Each(names)
    }

    #[inline]
    fn as_slice(&self) -> &[Option<Box<str>>] {
        match self {
            Names::Unnamed(groups) => &UNNAMED[..*groups],
            Names::Each(names) => names,
        }
    }
}

impl Program {
    #[inline]
    pub(crate) fn pattern(&self) -> &str {
        self.pattern.as_str()
    }

    #[inline]
    pub(crate) fn captures_len(&self) -> usize {
        self.groups
    }

    #[inline]
    pub(crate) fn static_captures_len(&self) -> Option<usize> {
        let read = || {
            let len = with_locked(&self.handle, Handle::static_groups);
            race::released(&self.static_groups);
            len
        };
        let len = *self.static_groups.get_or_init(read);
        race::acquired(&self.static_groups);
        len
    }

    /// Returns how large the table is, if it is made.
    pub(crate) fn table_size(&self) -> Option<TableSize> {
        self.tables.size()
    }

    #[inline]
    pub(crate) fn names(&self) -> &[Option<Box<str>>] {
        self.names.as_slice()
    }

    /// Returns the number of the group of this name, found in the list of names.
    pub(crate) fn index_of(&self, name: &str) -> Option<usize> {
        let mut names = self.names().iter();
        names.position(|known| known.as_deref() == Some(name))
    }

    /// Appends what the template stands for at a match with these groups.
    pub(crate) fn expand(
        &self,
        haystack: &[u8],
        groups: &[BitesSpan],
        template: &[u8],
        to: &mut Vec<u8>,
    ) {
        let (text, len) = (haystack.as_ptr(), haystack.len());
        let (spans, count) = (groups.as_ptr(), groups.len());
        let (by, by_len) = (template.as_ptr(), template.len());
        // SAFETY: the handle is borrowed exclusively, three pointers are of slices, and the last of spare room.
        let appended = with_locked(&self.handle, |handle| unsafe {
            append(to, by_len + 32, sys::DONE, |out, room| {
                let regex = &mut handle.0;
                sys::bites_expand(regex, text, len, spans, count, by, by_len, out, room)
            })
        });
        appended.unwrap_or_else(|code| give_up(code));
    }

    /// Like [`Program::expand`], over texts.
    ///
    /// # Panics
    ///
    /// If a group begins or ends within a character, and what the template stands for is not UTF-8.
    pub(crate) fn expand_text(
        &self,
        haystack: &str,
        groups: &[BitesSpan],
        template: &str,
        to: &mut String,
    ) {
        let is_border = |at: usize| at == sys::NONE || haystack.is_char_boundary(at);
        let are_texts = groups
            .iter()
            .all(|group| is_border(group.start) && is_border(group.end));
        let old = to.len();
        // SAFETY: what is appended is UTF-8 if the template and all groups are. Otherwise it is checked, and removed again if
        // it is not UTF-8. What unwinds before that check has appended nothing.
        let bytes = unsafe { to.as_mut_vec() };
        self.expand(haystack.as_bytes(), groups, template.as_bytes(), bytes);
        if !are_texts && str::from_utf8(&bytes[old..]).is_err() {
            bytes.truncate(old);
            panic!("a group begins or ends within a character");
        }
    }
}

/// A compiled regex with what its searches need. A clone shares the program and has searchers of its own.
pub(crate) struct Engine {
    program: Arc<Program>,
    searchers: Pool<Searcher>,
}

impl Clone for Engine {
    fn clone(&self) -> Engine {
        Engine {
            program: Arc::clone(&self.program),
            searchers: Pool::new(),
        }
    }
}

impl Engine {
    pub(crate) fn new(pattern: &str, settings: Settings) -> Result<Engine, Error> {
        let mut handle = Handle::new(pattern, settings)?;
        let groups = handle.groups();
        let program = Program {
            pattern: Pattern::new(pattern),
            groups,
            static_groups: OnceLock::new(),
            names: Names::read(pattern, &mut handle, groups),
            handle: Mutex::new(handle),
            tables: Tables::new(&settings),
        };
        Ok(Engine {
            program: Arc::new(program),
            searchers: Pool::new(),
        })
    }

    #[inline]
    pub(crate) fn program(&self) -> &Arc<Program> {
        &self.program
    }

    pub(crate) fn is_match_at(&self, haystack: &[u8], start: usize) -> bool {
        let (text, len) = (haystack.as_ptr(), haystack.len());
        // SAFETY: both handles are borrowed exclusively, and the haystack is a slice.
        self.search(Reach::rest(haystack, start), |regex, cache| unsafe {
            sys::bites_is_match_at(regex, cache, text, len, start)
        })
    }

    pub(crate) fn shortest_match_at(&self, haystack: &[u8], start: usize) -> Option<usize> {
        let (text, len) = (haystack.as_ptr(), haystack.len());
        let mut end = 0;
        // SAFETY: both handles are borrowed exclusively, the haystack is a slice, and `end` a local.
        let found = self.search(Reach::rest(haystack, start), |regex, cache| unsafe {
            sys::bites_shortest_match_at(regex, cache, text, len, start, &mut end)
        });
        found.then_some(end)
    }

    pub(crate) fn find_at(&self, haystack: &[u8], start: usize) -> Option<BitesSpan> {
        let (text, len) = (haystack.as_ptr(), haystack.len());
        let mut span = ABSENT;
        // SAFETY: both handles are borrowed exclusively, the haystack is a slice, and `span` a local.
        let found = self.search(Reach::rest(haystack, start), |regex, cache| unsafe {
            sys::bites_find_at(regex, cache, text, len, start, &mut span)
        });
        found.then_some(span)
    }

    pub(crate) fn find_anchored_at(&self, haystack: &[u8], start: usize) -> Option<BitesSpan> {
        let (text, len) = (haystack.as_ptr(), haystack.len());
        let mut span = ABSENT;
        // SAFETY: both handles are borrowed exclusively, the haystack is a slice, and `span` a local.
        let found = self.search(Reach::At, |regex, cache| unsafe {
            sys::bites_find_anchored_at(regex, cache, text, len, start, &mut span)
        });
        found.then_some(span)
    }

    pub(crate) fn is_full_match(&self, haystack: &[u8]) -> bool {
        let (text, len) = (haystack.as_ptr(), haystack.len());
        // SAFETY: both handles are borrowed exclusively, and the haystack is a slice.
        self.search(Reach::Whole(len), |regex, cache| unsafe {
            sys::bites_is_full_match(regex, cache, text, len)
        })
    }

    /// Returns the groups of the first match.
    pub(crate) fn captures_at(&self, haystack: &[u8], start: usize) -> Option<Vec<BitesSpan>> {
        let (text, len) = (haystack.as_ptr(), haystack.len());
        let count = self.program.captures_len();
        // SAFETY: both handles are borrowed exclusively, the haystack is a slice, and there is room for all groups. A match
        // writes each of them.
        self.with_searcher(Reach::rest(haystack, start), |own| unsafe {
            own.captures(count, |regex, cache, groups| {
                sys::bites_captures_at(regex, cache, text, len, start, groups, count).code
            })
        })
    }

    /// Returns the groups of the match that [`Engine::find_anchored_at`] returns.
    pub(crate) fn captures_anchored_at(
        &self,
        haystack: &[u8],
        start: usize,
    ) -> Option<Vec<BitesSpan>> {
        let (text, len) = (haystack.as_ptr(), haystack.len());
        let count = self.program.captures_len();
        // SAFETY: as in `captures_at`.
        self.with_searcher(Reach::At, |own| unsafe {
            own.captures(count, |regex, cache, groups| {
                sys::bites_captures_anchored_at(regex, cache, text, len, start, groups, count).code
            })
        })
    }

    /// Writes the groups of the first match, as many as `groups` has room for. `groups` is unchanged if nothing matches; a span
    /// that the regex has no group for becomes [`ABSENT`].
    pub(crate) fn captures_read_at(
        &self,
        haystack: &[u8],
        start: usize,
        groups: &mut [BitesSpan],
    ) -> bool {
        let own = self.program.captures_len();
        if groups.len() < own {
            return self.some_captures_read_at(haystack, start, groups);
        }
        let (text, len) = (haystack.as_ptr(), haystack.len());
        let (spans, count) = (groups.as_mut_ptr(), groups.len());
        // SAFETY: both handles are borrowed exclusively, and both pointers are of slices.
        let found = self.search(Reach::rest(haystack, start), |regex, cache| unsafe {
            sys::bites_captures_at(regex, cache, text, len, start, spans, count).code
        });
        if found {
            groups[own..].fill(ABSENT);
        }
        found
    }

    /// Like [`Engine::captures_read_at`], but `groups` has room for only some of the groups.
    #[cold]
    fn some_captures_read_at(
        &self,
        haystack: &[u8],
        start: usize,
        groups: &mut [BitesSpan],
    ) -> bool {
        let all = self.captures_at(haystack, start);
        if let Some(all) = &all {
            groups.copy_from_slice(&all[..groups.len()]);
        }
        all.is_some()
    }

    /// Returns whether a call finds a match that may search so far.
    #[inline]
    fn search(&self, reach: Reach, ask: impl FnOnce(&mut Bites, &mut BitesCache) -> u32) -> bool {
        self.with_searcher(reach, |own| own.search(ask))
    }

    #[inline]
    fn with_searcher<R>(&self, reach: Reach, work: impl FnOnce(&mut Searcher) -> R) -> R {
        self.searchers.with(
            || self.make_searcher(),
            |own| {
                own.count(reach, &self.program.tables);
                work(own)
            },
        )
    }

    /// Takes a searcher for all matches of a haystack of so many bytes.
    #[inline]
    pub(crate) fn searches(&self, bytes: usize) -> Searches<'_> {
        let mut own = self.searchers.take(|| self.make_searcher());
        own.value().count(Reach::From(bytes), &self.program.tables);
        let groups = self.program.captures_len();
        Searches { own, groups }
    }

    fn make_searcher(&self) -> Searcher {
        let program = &self.program;
        let (regex, bytes_left) = program.tables.share_either(&program.handle);
        Searcher::new(regex, bytes_left)
    }
}

/// Searches for one match after another.
#[derive(Debug)]
pub(crate) struct Searches<'r> {
    own: Taken<'r, Searcher>,
    /// The number of groups of the regex that `own` searches with.
    groups: usize,
}

impl Searches<'_> {
    /// Returns the match that comes after one that ends at `last`, or the first of all for [`sys::NONE`].
    #[inline]
    pub(crate) fn find_next(&mut self, haystack: &[u8], last: usize) -> Option<BitesSpan> {
        let (text, len) = (haystack.as_ptr(), haystack.len());
        let mut span = ABSENT;
        // SAFETY: both handles are borrowed exclusively, the haystack is a slice, and `span` a local.
        let found = self.own.value().search(|regex, cache| unsafe {
            sys::bites_find_next(regex, cache, text, len, last, &mut span)
        });
        found.then_some(span)
    }

    /// Returns the next piece between matches, and whether it is before a match, whose end `last` then is. It begins as
    /// [`sys::NONE`].
    #[inline]
    pub(crate) fn split_next(&mut self, haystack: &[u8], last: &mut usize) -> (BitesSpan, bool) {
        let (text, len) = (haystack.as_ptr(), haystack.len());
        let mut piece = ABSENT;
        // SAFETY: both handles are borrowed exclusively, the haystack is a slice, and the rest is borrowed exclusively too.
        let found = self.own.value().search(|regex, cache| unsafe {
            sys::bites_split_next(regex, cache, text, len, last, &mut piece)
        });
        (piece, found)
    }

    /// Returns the groups of the match that [`Searches::find_next`] returns.
    pub(crate) fn captures_next(&mut self, haystack: &[u8], last: usize) -> Option<Vec<BitesSpan>> {
        let (text, len) = (haystack.as_ptr(), haystack.len());
        let count = self.groups;
        // SAFETY: as in `Engine::captures_at`, and `groups` is the number of groups of the regex that `own` searches with.
        unsafe {
            self.own.value().captures(count, |regex, cache, groups| {
                sys::bites_captures_next(regex, cache, text, len, last, groups, count).code
            })
        }
    }

    /// Writes the groups of the match that [`Searches::find_next`] returns to `groups`, which has room for all of them.
    pub(crate) fn captures_read_next(
        &mut self,
        haystack: &[u8],
        last: usize,
        groups: &mut [BitesSpan],
    ) -> bool {
        let (text, len) = (haystack.as_ptr(), haystack.len());
        let (spans, count) = (groups.as_mut_ptr(), groups.len());
        // SAFETY: both handles are borrowed exclusively, and both pointers are of slices.
        self.own.value().search(|regex, cache| unsafe {
            sys::bites_captures_next(regex, cache, text, len, last, spans, count).code
        })
    }
}

impl Engine {
    /// Returns the haystack with its first `limit` matches replaced by what the template stands for, or all for 0; `None` if
    /// nothing matches.
    #[inline]
    pub(crate) fn replace(
        &self,
        haystack: &[u8],
        limit: usize,
        template: &[u8],
    ) -> Option<Vec<u8>> {
        // The name of a group takes two bytes at least.
        let room = room_for(haystack, limit, template, template.len() / 2);
        self.replace_by(sys::bites_replace, haystack, limit, template, room)
    }

    /// Like [`Engine::replace`], by a text that stands for itself.
    #[inline]
    pub(crate) fn replace_literal(
        &self,
        haystack: &[u8],
        limit: usize,
        text: &[u8],
    ) -> Option<Vec<u8>> {
        let room = room_for(haystack, limit, text, 0);
        self.replace_by(sys::bites_replace_literal, haystack, limit, text, room)
    }

    /// Like [`Engine::replace`], over texts.
    #[inline]
    pub(crate) fn replace_text(
        &self,
        haystack: &str,
        limit: usize,
        template: &str,
    ) -> Option<String> {
        let new = self.replace(haystack.as_bytes(), limit, template.as_bytes())?;
        // SAFETY: the haystack and the template are UTF-8, and a search from its start finds whole characters.
        Some(unsafe { made_text(new) })
    }

    /// Like [`Engine::replace_literal`], over texts.
    #[inline]
    pub(crate) fn replace_text_literal(
        &self,
        haystack: &str,
        limit: usize,
        text: &str,
    ) -> Option<String> {
        let new = self.replace_literal(haystack.as_bytes(), limit, text.as_bytes())?;
        // SAFETY: as in `replace_text`.
        Some(unsafe { made_text(new) })
    }

    fn replace_by(
        &self,
        call: ReplaceCall,
        haystack: &[u8],
        limit: usize,
        template: &[u8],
        room: usize,
    ) -> Option<Vec<u8>> {
        let (text, len) = (haystack.as_ptr(), haystack.len());
        let (by, by_len) = (template.as_ptr(), template.len());
        let mut searches = self.searches(len);
        let own = searches.own.value();
        // Before much memory is asked for, a match is looked for, which the replacement then finds again.
        if limit == 0 && room >= LARGE && !own.is_match(haystack) {
            return None;
        }
        let (regex, cache) = (&mut own.regex.0, &mut own.cache);
        // SAFETY: both handles are borrowed exclusively, two pointers are of slices, and the last of a buffer.
        let new = unsafe {
            written(room, sys::MATCH, |out, room| {
                call(regex, cache, text, len, limit, by, by_len, out, room)
            })
        };
        match new {
            Ok(new) => Some(new),
            Err(sys::NO_MATCH) => None,
            Err(code) => give_up(code),
        }
    }
}

/// To ask for so much memory, and to write to it, takes longer than to search as many bytes.
const LARGE: usize = 128 << 10;

/// Returns room for the haystack with its first `limit` matches replaced by a template that names at most this number of groups:
/// the greatest length that this can have, if it is not far above that of the haystack. With less room the engine would have to
/// be asked a second time where a replacement makes the text grow.
fn room_for(haystack: &[u8], limit: usize, template: &[u8], groups: usize) -> usize {
    let len = haystack.len();
    // An empty match may stand before each byte and at the end.
    let matches = match limit {
        0 => len.saturating_add(1),
        limit => limit.min(len.saturating_add(1)),
    };
    let pieces = template.len().saturating_mul(matches);
    // The texts of one group in all matches don't overlap.
    let most = len
        .saturating_mul(groups.saturating_add(1))
        .saturating_add(pieces);
    most.min(len.saturating_mul(16).saturating_add(SHORT))
}

/// A group that did not participate.
pub(crate) const ABSENT: BitesSpan = BitesSpan {
    start: sys::NONE,
    end: sys::NONE,
};

type ReplaceCall = unsafe extern "C" fn(
    *mut Bites,
    *mut BitesCache,
    *const u8,
    usize,
    usize,
    *const u8,
    usize,
    *mut u8,
    usize,
) -> BitesSize;

/// Returns the text with a backslash before each special character.
pub(crate) fn escape(text: &str) -> String {
    let (from, len) = (text.as_ptr(), text.len());
    // SAFETY: the text is a slice, and `out` and `room` are a buffer.
    let escaped = unsafe {
        written(len.saturating_mul(2), sys::DONE, |out, room| {
            sys::bites_escape(from, len, out, room)
        })
    };
    match escaped {
        Ok(escaped) => text_of(escaped),
        Err(code) => give_up(code),
    }
}

#[cfg(test)]
mod tests {
    use super::{room_for, Engine, Settings};
    use crate::sys;

    /// Where a replacement makes the text grow the engine is asked once.
    #[test]
    fn there_is_room_for_a_text_that_grows() {
        for (pattern, template, groups) in
            [("x*", "<$0>", 1), ("x*", "--", 0), ("(a+)|", "$0$1 ", 2)]
        {
            let engine = Engine::new(pattern, Settings::default()).expect("accepted");
            for haystack in ["", "b", "axa", "a☃b", &"a".repeat(9), &"ab".repeat(3000)] {
                for limit in [0, 1, 3] {
                    let (haystack, template) = (haystack.as_bytes(), template.as_bytes());
                    let new = engine.replace(haystack, limit, template).expect("a match");
                    assert!(new.len() <= room_for(haystack, limit, template, groups));
                }
            }
        }
    }

    /// Major, minor and patch of this crate, as the library numbers them.
    #[test]
    fn the_library_has_the_version_of_the_crate() {
        let version = env!("CARGO_PKG_VERSION");
        let numbers = version
            .split(['.', '+'])
            .filter_map(|part| part.parse().ok());
        let wanted = numbers.fold(0, |number: u32, part: u32| number << 8 | part);
        // SAFETY: nothing is handed over.
        assert_eq!(unsafe { sys::bites_version() }, wanted);
    }
}
