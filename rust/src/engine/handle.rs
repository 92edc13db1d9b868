//! Handles of the engine, which are freed with what holds them.

use super::table::{BytesLeft, Reach, Tables};
use super::text::{give_up, text_of, written};
use crate::error::Error;
use crate::sys::{self, Bites, BitesCache, BitesSpan};
use std::mem;

/// The flags and limits of a pattern.
#[derive(Clone, Copy, Debug)]
pub(crate) struct Settings {
    pub(super) flags: u32,
    pub(super) size_limit: usize,
    pub(super) nest_limit: u32,
    pub(super) dfa_size_limit: usize,
}

impl Settings {
    pub(crate) fn set(&mut self, flag: u32, yes: bool) {
        self.flags = if yes {
            self.flags | flag
        } else {
            self.flags & !flag
        };
    }

    pub(crate) fn has(&self, flag: u32) -> bool {
        self.flags & flag != 0
    }

    pub(crate) fn set_size_limit(&mut self, limit: usize) {
        self.size_limit = limit;
    }

    pub(crate) fn set_nest_limit(&mut self, limit: u32) {
        self.nest_limit = limit;
    }

    pub(crate) fn set_dfa_size_limit(&mut self, limit: usize) {
        self.dfa_size_limit = limit;
    }
}

impl Default for Settings {
    fn default() -> Settings {
        Settings {
            flags: 0,
            size_limit: sys::SIZE_LIMIT,
            nest_limit: sys::NEST_LIMIT,
            dfa_size_limit: sys::DFA_SIZE_LIMIT,
        }
    }
}

/// A handle of a regex, which is freed with it.
pub(super) struct Handle(pub(super) Bites);

// SAFETY: the header says that a handle may go to another thread.
unsafe impl Send for Handle {}

impl Handle {
    pub(super) fn new(pattern: &str, settings: Settings) -> Result<Handle, Error> {
        let mut handle = Handle::empty();
        let Settings {
            flags,
            size_limit,
            nest_limit,
            dfa_size_limit: _,
        } = settings;
        let (text, len) = (pattern.as_ptr(), pattern.len());
        // SAFETY: the pattern is a text, and the handle an empty local.
        let code =
            unsafe { sys::bites_new(text, len, flags, size_limit, nest_limit, &mut handle.0) };
        match code {
            sys::DONE => Ok(handle),
            code => Err(Error::new(code).about(pattern, settings)),
        }
    }

    pub(super) fn empty() -> Handle {
        Handle(Bites::EMPTY)
    }

    pub(super) fn groups(&mut self) -> usize {
        // SAFETY: the handle is borrowed exclusively.
        unsafe { sys::bites_captures_len(&mut self.0) }
    }

    pub(super) fn static_groups(&mut self) -> Option<usize> {
        // SAFETY: the handle is borrowed exclusively.
        match unsafe { sys::bites_static_captures_len(&mut self.0) } {
            0 => None,
            len => Some(len),
        }
    }

    pub(super) fn name(&mut self, group: usize) -> Option<Box<str>> {
        // SAFETY: the handle is borrowed exclusively, and `out` and `room` are a buffer.
        let name = unsafe {
            written(32, sys::DONE, |out, room| {
                sys::bites_group_name(&mut self.0, group, out, room)
            })
        };
        match name {
            Ok(name) => Some(text_of(name).into_boxed_str()),
            Err(sys::NO_NAME) => None,
            Err(code) => give_up(code),
        }
    }

    /// Returns the number of the group of this name, if there is one.
    pub(super) fn index_of(&mut self, name: &str) -> Option<usize> {
        let (text, len) = (name.as_ptr(), name.len());
        // SAFETY: the handle is borrowed exclusively, and the name is a text.
        let answer = unsafe { sys::bites_group_index(&mut self.0, text, len) };
        match answer.code {
            sys::DONE => Some(answer.size),
            sys::NO_NAME => None,
            code => give_up(code),
        }
    }
}

impl Drop for Handle {
    fn drop(&mut self) {
        // SAFETY: the handle is borrowed exclusively, and nobody uses it after this.
        unsafe { sys::bites_free(&mut self.0) }
    }
}

/// What one thread at a time searches with: a handle of its own and a cache.
pub(super) struct Searcher {
    pub(super) regex: Handle,
    pub(super) cache: BitesCache,
    /// Empty memory for the groups of a match. The next search that finds one returns it.
    spare: Vec<BitesSpan>,
    bytes_left: BytesLeft,
}

// SAFETY: the header says that handles may go to another thread.
unsafe impl Send for Searcher {}

impl Searcher {
    #[inline(never)]
    pub(super) fn new(mut regex: Handle, bytes_left: BytesLeft) -> Searcher {
        let mut cache = BitesCache::EMPTY;
        // SAFETY: the handle is borrowed exclusively, and the cache an empty local.
        let code = unsafe { sys::bites_cache_new(&mut regex.0, &mut cache) };
        match code {
            sys::DONE => Searcher {
                regex,
                cache,
                spare: Vec::new(),
                bytes_left,
            },
            code => give_up(code),
        }
    }
}

impl Searcher {
    /// Counts what may be searched next, and takes a table if that is enough. The cache fits it too.
    #[inline]
    pub(super) fn count(&mut self, reach: Reach, tables: &Tables) {
        tables.count(reach, &mut self.bytes_left, &mut self.regex);
    }

    /// Returns whether the call finds a match.
    #[inline]
    pub(super) fn search(&mut self, ask: impl FnOnce(&mut Bites, &mut BitesCache) -> u32) -> bool {
        match ask(&mut self.regex.0, &mut self.cache) {
            sys::MATCH => true,
            sys::NO_MATCH => false,
            code => give_up(code),
        }
    }

    /// Returns whether there is a match anywhere.
    #[cold]
    pub(super) fn is_match(&mut self, haystack: &[u8]) -> bool {
        let (text, len) = (haystack.as_ptr(), haystack.len());
        // SAFETY: both handles are borrowed exclusively, and the haystack is a slice.
        self.search(|regex, cache| unsafe { sys::bites_is_match(regex, cache, text, len) })
    }

    /// Returns the groups of the match that the call finds. A call that finds none leaves their memory to the next one.
    ///
    /// # Safety
    ///
    /// A call that finds a match writes `count` groups.
    #[inline]
    pub(super) unsafe fn captures(
        &mut self,
        count: usize,
        ask: impl FnOnce(&mut Bites, &mut BitesCache, *mut BitesSpan) -> u32,
    ) -> Option<Vec<BitesSpan>> {
        self.spare.reserve_exact(count);
        let room = self.spare.as_mut_ptr();
        if !self.search(|regex, cache| ask(regex, cache, room)) {
            return None;
        }
        let mut groups = mem::take(&mut self.spare);
        // SAFETY: there is room for `count` groups, and the caller says that they are written.
        unsafe { groups.set_len(count) };
        Some(groups)
    }
}

impl Drop for Searcher {
    fn drop(&mut self) {
        // SAFETY: the cache is borrowed exclusively, and nobody uses it after this.
        unsafe { sys::bites_cache_free(&mut self.cache) }
    }
}
