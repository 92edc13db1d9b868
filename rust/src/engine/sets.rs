//! The engine's calls about sets of patterns, in safe Rust.

use super::handle::Settings;
use super::table::{Prepared, TableSize, WithTable, BYTES_BEFORE_OF_SET};
use super::text::{done, give_up};
use crate::error::Error;
use crate::pool::Pool;
use crate::sys::{self, BitesSet, BitesTable};
use std::sync::{Arc, Mutex};

/// A handle of a set, which is freed with it.
struct SetHandle(BitesSet);

// SAFETY: the header says that a handle may go to another thread.
unsafe impl Send for SetHandle {}

impl SetHandle {
    fn new(patterns: &[String], settings: Settings) -> Result<SetHandle, Error> {
        let mut handle = SetHandle(BitesSet::EMPTY);
        let Settings {
            flags,
            size_limit,
            nest_limit,
            dfa_size_limit: _,
        } = settings;
        let all = patterns.concat();
        let mut end = 0;
        let ends = patterns.iter().map(|pattern| {
            end += pattern.len();
            end
        });
        let ends: Vec<usize> = ends.collect();
        let (text, len) = (all.as_ptr(), all.len());
        let (offsets, count) = (ends.as_ptr(), ends.len());
        // SAFETY: the patterns are a text, the ends a slice, and the handle an empty local.
        let answer = unsafe {
            sys::bites_set_new(
                text,
                len,
                offsets,
                count,
                flags,
                size_limit,
                nest_limit,
                &mut handle.0,
            )
        };
        match answer.code {
            sys::DONE => Ok(handle),
            code => {
                let refused = patterns.get(answer.size).map_or("", String::as_str);
                let error = Error::of_pattern(code, answer.size);
                Err(error.about(refused, settings))
            }
        }
    }

    /// Returns another handle of the same, with tables of at most so many bytes together, or `None` if there is no memory for it.
    /// Its searches look for literals first.
    fn prepared(&mut self, limit: usize) -> Option<SetHandle> {
        let mut handle = SetHandle(BitesSet::EMPTY);
        // SAFETY: both handles are borrowed exclusively, and are two.
        let code = unsafe { sys::bites_set_prepare(&mut self.0, limit, &mut handle.0) };
        done(code).then_some(handle)
    }
}

impl WithTable for SetHandle {
    fn share(&mut self) -> Option<SetHandle> {
        let mut handle = SetHandle(BitesSet::EMPTY);
        // SAFETY: both handles are borrowed exclusively, and are two.
        let code = unsafe { sys::bites_set_clone(&mut self.0, &mut handle.0) };
        done(code).then_some(handle)
    }

    fn table_size(&mut self) -> BitesTable {
        let mut size = BitesTable::NONE;
        // SAFETY: the handle is borrowed exclusively, and the size is a local.
        unsafe { sys::bites_set_table_size(&mut self.0, &mut size) };
        size
    }
}

impl Drop for SetHandle {
    fn drop(&mut self) {
        // SAFETY: the handle is borrowed exclusively, and nobody uses it after this.
        unsafe { sys::bites_set_free(&mut self.0) }
    }
}

/// What a set shares with its clones.
struct Programs {
    handle: Mutex<SetHandle>,
    prepared: Prepared<SetHandle>,
    patterns: Vec<String>,
}

/// What one thread at a time searches with.
struct SetSearcher {
    set: SetHandle,
    /// After how many bytes it asks for the tables; `None` if it has them, or never asks.
    bytes_left: Option<usize>,
}

/// A compiled set with what its searches need. A clone shares the programs and has searchers of its own.
pub(crate) struct SetEngine {
    programs: Arc<Programs>,
    searchers: Pool<SetSearcher>,
}

impl Clone for SetEngine {
    fn clone(&self) -> SetEngine {
        SetEngine {
            programs: Arc::clone(&self.programs),
            searchers: Pool::new(),
        }
    }
}

impl SetEngine {
    pub(crate) fn new(patterns: Vec<String>, settings: Settings) -> Result<SetEngine, Error> {
        let handle = SetHandle::new(&patterns, settings)?;
        let programs = Programs {
            handle: Mutex::new(handle),
            prepared: Prepared::new(
                settings.dfa_size_limit,
                BYTES_BEFORE_OF_SET,
                SetHandle::prepared,
            ),
            patterns,
        };
        Ok(SetEngine {
            programs: Arc::new(programs),
            searchers: Pool::new(),
        })
    }

    #[inline]
    pub(crate) fn patterns(&self) -> &[String] {
        &self.programs.patterns
    }

    /// Returns how large the tables are together, if they are made.
    pub(crate) fn table_size(&self) -> Option<TableSize> {
        self.programs.prepared.size()
    }

    pub(crate) fn is_match_at(&self, haystack: &[u8], start: usize) -> bool {
        let (text, len) = (haystack.as_ptr(), haystack.len());
        // SAFETY: the handle is borrowed exclusively, and the haystack is a slice.
        let code = self.with_set(len.saturating_sub(start), |set| unsafe {
            sys::bites_set_is_match_at(set, text, len, start)
        });
        found(code)
    }

    /// Writes for each pattern whether it matches at or after `start`: 1 or 0. Returns whether any does. There is an entry for
    /// each pattern.
    pub(crate) fn matches_at(&self, haystack: &[u8], start: usize, matched: &mut [u8]) -> bool {
        let (text, len) = (haystack.as_ptr(), haystack.len());
        let (out, room) = (matched.as_mut_ptr(), matched.len());
        // SAFETY: the handle is borrowed exclusively, and both pointers are of slices.
        let answer = self.with_set(len.saturating_sub(start), |set| unsafe {
            sys::bites_set_matches_at(set, text, len, start, out, room)
        });
        found(answer.code)
    }

    /// Calls `work`, which may search so many bytes.
    #[inline]
    fn with_set<R>(&self, bytes: usize, work: impl FnOnce(&mut BitesSet) -> R) -> R {
        let Programs {
            handle, prepared, ..
        } = &*self.programs;
        let make = || {
            let (set, bytes_left) = prepared.share_either(handle);
            SetSearcher { set, bytes_left }
        };
        self.searchers.with(make, |own| {
            prepared.count(bytes, &mut own.bytes_left, &mut own.set);
            work(&mut own.set.0)
        })
    }
}

fn found(code: u32) -> bool {
    match code {
        sys::MATCH => true,
        sys::NO_MATCH => false,
        code => give_up(code),
    }
}
