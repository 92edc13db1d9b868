//! What `c/bites.h` declares, in the same order. The header says what each call returns, and what its caller must do.

use std::ffi::c_void;
use std::ptr;

pub(crate) const DONE: u32 = 0;
pub(crate) const NO_MEMORY: u32 = 58;
pub(crate) const MATCH: u32 = 100;
pub(crate) const NO_MATCH: u32 = 101;
/// No handle of this crate is empty when it is used.
#[allow(dead_code)]
pub(crate) const EMPTY_HANDLE: u32 = 103;
pub(crate) const TOO_SMALL: u32 = 105;
pub(crate) const NO_NAME: u32 = 106;
/// Only searches of a regex over texts return this.
#[allow(dead_code)]
pub(crate) const NOT_BORDER: u32 = 108;

pub(crate) const CASE_INSENSITIVE: u32 = 1;
pub(crate) const MULTI_LINE: u32 = 2;
pub(crate) const DOT_MATCHES_NEW_LINE: u32 = 4;
pub(crate) const CRLF: u32 = 8;
pub(crate) const SWAP_GREED: u32 = 16;
pub(crate) const IGNORE_WHITESPACE: u32 = 32;
pub(crate) const LEFTMOST_LONGEST: u32 = 64;
pub(crate) const KEEP_DROPPED_GROUPS: u32 = 128;
/// The texts of this crate are UTF-8 already, so no regex is made with this.
#[allow(dead_code)]
pub(crate) const TEXT: u32 = 256;

pub(crate) const SIZE_LIMIT: usize = 10_485_760;
pub(crate) const NEST_LIMIT: u32 = 50;
pub(crate) const DFA_SIZE_LIMIT: usize = 1_048_576;

/// Both offsets of a group that did not participate, and the end of the previous match if there is none.
pub(crate) const NONE: usize = usize::MAX;

/// `bites`: a compiled regex, or nothing.
#[repr(C)]
pub(crate) struct Bites {
    at: *mut c_void,
}

impl Bites {
    pub(crate) const EMPTY: Bites = Bites {
        at: ptr::null_mut(),
    };
}

/// `bites_cache`: the memory that searches need, or nothing.
#[repr(C)]
pub(crate) struct BitesCache {
    at: *mut c_void,
}

impl BitesCache {
    pub(crate) const EMPTY: BitesCache = BitesCache {
        at: ptr::null_mut(),
    };
}

/// `bites_set`: the compiled patterns of a set with the memory that their searches need, or nothing.
#[repr(C)]
pub(crate) struct BitesSet {
    at: *mut c_void,
}

impl BitesSet {
    pub(crate) const EMPTY: BitesSet = BitesSet {
        at: ptr::null_mut(),
    };
}

/// `bites_span`: the span of a match or of a group.
#[repr(C)]
#[derive(Clone, Copy, Debug)]
pub(crate) struct BitesSpan {
    pub(crate) start: usize,
    pub(crate) end: usize,
}

/// `bites_size`: a code and a size.
#[repr(C)]
#[derive(Clone, Copy)]
pub(crate) struct BitesSize {
    pub(crate) code: u32,
    pub(crate) size: usize,
}

/// `bites_table`: how large a table is.
#[repr(C)]
#[derive(Clone, Copy)]
pub(crate) struct BitesTable {
    pub(crate) lists: usize,
    pub(crate) bytes: usize,
    pub(crate) is_whole: u32,
}

impl BitesTable {
    pub(crate) const NONE: BitesTable = BitesTable {
        lists: 0,
        bytes: 0,
        is_whole: 0,
    };
}

extern "C" {
    /// Only a test asks for this.
    #[allow(dead_code)]
    pub(crate) fn bites_version() -> u32;

    pub(crate) fn bites_new(
        pattern: *const u8,
        len: usize,
        flags: u32,
        size_limit: usize,
        nest_limit: u32,
        out: *mut Bites,
    ) -> u32;

    pub(crate) fn bites_error_at(
        pattern: *const u8,
        len: usize,
        flags: u32,
        nest_limit: u32,
        offset: *mut usize,
    ) -> u32;

    pub(crate) fn bites_clone(regex: *mut Bites, out: *mut Bites) -> u32;

    pub(crate) fn bites_free(regex: *mut Bites);

    pub(crate) fn bites_prepare(regex: *mut Bites, dfa_size_limit: usize, out: *mut Bites) -> u32;

    pub(crate) fn bites_prepare_unanchored(
        regex: *mut Bites,
        dfa_size_limit: usize,
        out: *mut Bites,
    ) -> u32;

    pub(crate) fn bites_table_size(regex: *mut Bites, out: *mut BitesTable) -> u32;

    pub(crate) fn bites_cache_new(regex: *mut Bites, out: *mut BitesCache) -> u32;

    pub(crate) fn bites_cache_free(cache: *mut BitesCache);

    pub(crate) fn bites_is_match(
        regex: *mut Bites,
        cache: *mut BitesCache,
        haystack: *const u8,
        len: usize,
    ) -> u32;

    pub(crate) fn bites_is_match_at(
        regex: *mut Bites,
        cache: *mut BitesCache,
        haystack: *const u8,
        len: usize,
        start: usize,
    ) -> u32;

    pub(crate) fn bites_shortest_match_at(
        regex: *mut Bites,
        cache: *mut BitesCache,
        haystack: *const u8,
        len: usize,
        start: usize,
        end: *mut usize,
    ) -> u32;

    pub(crate) fn bites_find_at(
        regex: *mut Bites,
        cache: *mut BitesCache,
        haystack: *const u8,
        len: usize,
        start: usize,
        out: *mut BitesSpan,
    ) -> u32;

    pub(crate) fn bites_find_anchored_at(
        regex: *mut Bites,
        cache: *mut BitesCache,
        haystack: *const u8,
        len: usize,
        start: usize,
        out: *mut BitesSpan,
    ) -> u32;

    pub(crate) fn bites_is_full_match(
        regex: *mut Bites,
        cache: *mut BitesCache,
        haystack: *const u8,
        len: usize,
    ) -> u32;

    pub(crate) fn bites_find_next(
        regex: *mut Bites,
        cache: *mut BitesCache,
        haystack: *const u8,
        len: usize,
        last: usize,
        out: *mut BitesSpan,
    ) -> u32;

    pub(crate) fn bites_split_next(
        regex: *mut Bites,
        cache: *mut BitesCache,
        haystack: *const u8,
        len: usize,
        last: *mut usize,
        piece: *mut BitesSpan,
    ) -> u32;

    pub(crate) fn bites_captures_at(
        regex: *mut Bites,
        cache: *mut BitesCache,
        haystack: *const u8,
        len: usize,
        start: usize,
        groups: *mut BitesSpan,
        count: usize,
    ) -> BitesSize;

    pub(crate) fn bites_captures_anchored_at(
        regex: *mut Bites,
        cache: *mut BitesCache,
        haystack: *const u8,
        len: usize,
        start: usize,
        groups: *mut BitesSpan,
        count: usize,
    ) -> BitesSize;

    pub(crate) fn bites_captures_next(
        regex: *mut Bites,
        cache: *mut BitesCache,
        haystack: *const u8,
        len: usize,
        last: usize,
        groups: *mut BitesSpan,
        count: usize,
    ) -> BitesSize;

    pub(crate) fn bites_captures_len(regex: *mut Bites) -> usize;

    pub(crate) fn bites_static_captures_len(regex: *mut Bites) -> usize;

    pub(crate) fn bites_group_name(
        regex: *mut Bites,
        group: usize,
        name: *mut u8,
        len: usize,
    ) -> BitesSize;

    pub(crate) fn bites_group_index(regex: *mut Bites, name: *const u8, len: usize) -> BitesSize;

    pub(crate) fn bites_escape(text: *const u8, len: usize, out: *mut u8, room: usize)
        -> BitesSize;

    pub(crate) fn bites_replace(
        regex: *mut Bites,
        cache: *mut BitesCache,
        haystack: *const u8,
        len: usize,
        limit: usize,
        template: *const u8,
        template_len: usize,
        out: *mut u8,
        room: usize,
    ) -> BitesSize;

    pub(crate) fn bites_replace_literal(
        regex: *mut Bites,
        cache: *mut BitesCache,
        haystack: *const u8,
        len: usize,
        limit: usize,
        text: *const u8,
        text_len: usize,
        out: *mut u8,
        room: usize,
    ) -> BitesSize;

    pub(crate) fn bites_expand(
        regex: *mut Bites,
        haystack: *const u8,
        len: usize,
        groups: *const BitesSpan,
        count: usize,
        template: *const u8,
        template_len: usize,
        out: *mut u8,
        room: usize,
    ) -> BitesSize;

    pub(crate) fn bites_set_new(
        patterns: *const u8,
        len: usize,
        ends: *const usize,
        count: usize,
        flags: u32,
        size_limit: usize,
        nest_limit: u32,
        out: *mut BitesSet,
    ) -> BitesSize;

    pub(crate) fn bites_set_clone(set: *mut BitesSet, out: *mut BitesSet) -> u32;

    pub(crate) fn bites_set_free(set: *mut BitesSet);

    pub(crate) fn bites_set_prepare(
        set: *mut BitesSet,
        dfa_size_limit: usize,
        out: *mut BitesSet,
    ) -> u32;

    pub(crate) fn bites_set_table_size(set: *mut BitesSet, out: *mut BitesTable) -> u32;

    /// A set of this crate has its patterns, so nothing calls this.
    #[allow(dead_code)]
    pub(crate) fn bites_set_len(set: *mut BitesSet) -> BitesSize;

    pub(crate) fn bites_set_is_match_at(
        set: *mut BitesSet,
        haystack: *const u8,
        len: usize,
        start: usize,
    ) -> u32;

    pub(crate) fn bites_set_matches_at(
        set: *mut BitesSet,
        haystack: *const u8,
        len: usize,
        start: usize,
        matched: *mut u8,
        room: usize,
    ) -> BitesSize;

    pub(crate) fn bites_error_text(code: u32, text: *mut u8, len: usize) -> usize;
    /// An error of this crate allocates its text, so it asks for the text without a NUL.
    #[allow(dead_code)]
    pub(crate) fn bites_message(code: u32, text: *mut u8, room: usize) -> usize;
}
