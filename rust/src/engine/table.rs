//! The table of a regex, and the tables of a set, which searches make once they have read enough. Searches that find no memory for
//! it go on without.

use super::handle::{Handle, Settings};
use super::text::{done, give_up};
use crate::pool::with_locked;
use crate::race;
use crate::sys::{self, BitesTable};
use std::sync::atomic::{AtomicU8, Ordering};
use std::sync::{Mutex, OnceLock};

/// After how many bytes a thread asks for the table of a regex. To make the table of a common pattern takes about as long as to search
/// so many bytes without it. A pattern whose table is large takes longer.
pub(super) const BYTES_BEFORE: usize = 512;

/// The same for all tables of a set. For 5, 50 and 500 patterns (`bench/sets.rs`), to make them took as long as to search 2,000 to
/// 5,000 bytes without them.
pub(super) const BYTES_BEFORE_OF_SET: usize = 4096;

/// How many bytes a search for a match at one offset counts for. It reads no further than a match can go.
const LEXEME: usize = 16;

/// How large a table is, or all tables of a set together.
#[derive(Clone, Copy, Debug, PartialEq, Eq)]
#[non_exhaustive]
pub struct TableSize {
    /// The number of its lists of threads.
    pub lists: usize,
    /// The number of bytes that it takes.
    pub bytes: usize,
    /// Whether it knows all that a search can come to. For a set: whether each pattern has a table that does.
    pub is_whole: bool,
}

/// The state while no thread has asked for the table.
const NOT_ASKED: u8 = 0;

/// The state while a thread makes the table.
const ASKED: u8 = 1;

/// The state once there is a handle with the table.
const MADE: u8 = 2;

/// A handle of a regex or of a set, which may have a table.
pub(super) trait WithTable: Sized {
    /// Returns another handle of the same, with the same table, or `None` if there is no memory for it.
    fn share(&mut self) -> Option<Self>;

    /// Like [`WithTable::share`], but aborts the program if there is no memory.
    fn share_or_give_up(&mut self) -> Self {
        self.share().unwrap_or_else(|| give_up(sys::NO_MEMORY))
    }

    /// Returns how large the table is: all zeros if there is none.
    fn table_size(&mut self) -> BitesTable;
}

/// The handle of a regex or of a set with its table, once there is one.
pub(super) struct Prepared<H> {
    limit: usize,
    /// After how many bytes of haystacks the table is asked for.
    bytes_before: usize,
    /// Returns another handle of the same, with a table of at most so many bytes, or `None` if there is no memory for it. Its
    /// searches look for a literal first.
    prepare: fn(&mut H, usize) -> Option<H>,
    /// [`NOT_ASKED`], [`ASKED`] or [`MADE`].
    state: AtomicU8,
    handle: OnceLock<Mutex<H>>,
}

impl<H: WithTable> Prepared<H> {
    /// A table of at most so many bytes, which this function makes after so many bytes of haystacks.
    pub(super) const fn new(
        limit: usize,
        bytes_before: usize,
        prepare: fn(&mut H, usize) -> Option<H>,
    ) -> Prepared<H> {
        Prepared {
            limit,
            bytes_before,
            prepare,
            state: AtomicU8::new(NOT_ASKED),
            handle: OnceLock::new(),
        }
    }

    /// Returns a handle with the table if that is made, and else another one of `plain`; and after how many bytes of haystacks the
    /// table is asked for, or `None` if never.
    pub(super) fn share_either(&self, plain: &Mutex<H>) -> (H, Option<usize>) {
        match self.share() {
            Some(handle) => (handle, None),
            None => (with_locked(plain, H::share_or_give_up), self.bytes_before()),
        }
    }

    /// Returns after how many bytes of haystacks the table is asked for, or `None` if never.
    fn bytes_before(&self) -> Option<usize> {
        (self.limit != 0).then_some(self.bytes_before)
    }

    /// Counts so many bytes that may be searched next, of the bytes that are left before the table is asked for. If they are
    /// enough, the handle becomes one with the table, unless another thread makes it meanwhile.
    #[inline]
    pub(super) fn count(&self, bytes: usize, bytes_left: &mut Option<usize>, handle: &mut H) {
        let Some(left) = *bytes_left else {
            return;
        };
        *bytes_left = Some(left.saturating_sub(bytes));
        if bytes >= left {
            self.share_or_make(bytes_left, handle);
        }
    }

    /// Returns the handle with the table, if that is made.
    fn made(&self) -> Option<&Mutex<H>> {
        if self.state.load(Ordering::Acquire) != MADE {
            return None;
        }
        race::acquired(&self.handle);
        self.handle.get()
    }

    /// Returns another handle with the table, if that is made and there is memory for the handle.
    fn share(&self) -> Option<H> {
        with_locked(self.made()?, H::share)
    }

    /// Replaces the handle by one with the table. The first thread that asks makes the table. All others go on without it
    /// meanwhile. If there is no memory for it, the thread goes on without it too, and asks again after as many bytes as before.
    #[cold]
    fn share_or_make(&self, bytes_left: &mut Option<usize>, handle: &mut H) {
        let claim =
            self.state
                .compare_exchange(NOT_ASKED, ASKED, Ordering::Relaxed, Ordering::Relaxed);
        if claim.is_ok() {
            self.make(handle);
            *bytes_left = self.bytes_before();
        }
        if let Some(shared) = self.share() {
            *handle = shared;
            *bytes_left = None;
        }
    }

    /// Makes the table if there is memory for it. Only the thread that set the state to [`ASKED`] calls this.
    fn make(&self, plain: &mut H) {
        let Some(made) = (self.prepare)(plain, self.limit) else {
            self.state.store(NOT_ASKED, Ordering::Relaxed);
            return;
        };
        // No other thread sets it.
        let _ = self.handle.set(Mutex::new(made));
        race::released(&self.handle);
        self.state.store(MADE, Ordering::Release);
    }

    /// Returns how large the table is, if it is made.
    pub(super) fn size(&self) -> Option<TableSize> {
        let size = with_locked(self.made()?, H::table_size);
        (size.lists != 0).then_some(TableSize {
            lists: size.lists,
            bytes: size.bytes,
            is_whole: size.is_whole != 0,
        })
    }
}

/// What a search reads at most, by which it counts for a table.
#[derive(Clone, Copy)]
pub(super) enum Reach {
    /// So many bytes, for matches that begin at an offset or later.
    From(usize),
    /// A haystack of so many bytes, for a match that is the whole of it.
    Whole(usize),
    /// What a match at one offset takes.
    At,
}

impl Reach {
    /// What a search reads of the haystack for matches that begin at an offset or later.
    #[inline]
    pub(super) fn rest(haystack: &[u8], start: usize) -> Reach {
        Reach::From(haystack.len().saturating_sub(start))
    }
}

/// After how many bytes of haystacks each table is asked for; `None` if it is there, or never.
#[derive(Clone, Copy)]
pub(super) struct BytesLeft {
    unanchored: Option<usize>,
    all: Option<usize>,
}

/// The tables of a regex: one for matches that begin at an offset or later, and one that serves searches for a match at one offset and
/// of the whole haystack too. Most programs need the first alone, which takes less time and memory. The longest match needs the second.
pub(super) struct Tables {
    unanchored: Prepared<Handle>,
    all: Prepared<Handle>,
    /// Whether searches are for the longest match. Once its offset is known, it is searched for at that offset.
    is_longest: bool,
}

impl Tables {
    /// Tables of at most so many bytes each.
    pub(super) fn new(settings: &Settings) -> Tables {
        let limit = settings.dfa_size_limit;
        Tables {
            unanchored: Prepared::new(limit, BYTES_BEFORE, Handle::prepared_unanchored),
            all: Prepared::new(limit, BYTES_BEFORE, Handle::prepared),
            is_longest: settings.flags & sys::LEFTMOST_LONGEST != 0,
        }
    }

    /// Returns a handle with the best table that is made, or else another one of `plain`, and after how many bytes the others are
    /// asked for.
    pub(super) fn share_either(&self, plain: &Mutex<Handle>) -> (Handle, BytesLeft) {
        if let Some(handle) = self.all.share() {
            let none = BytesLeft {
                unanchored: None,
                all: None,
            };
            return (handle, none);
        }
        let (handle, unanchored) = self.unanchored.share_either(plain);
        let all = self.all.bytes_before();
        (handle, BytesLeft { unanchored, all })
    }

    /// Counts what may be searched next, as [`Prepared::count`] does.
    #[inline]
    pub(super) fn count(&self, reach: Reach, left: &mut BytesLeft, handle: &mut Handle) {
        match reach {
            Reach::From(_) if left.unanchored.is_none() => {}
            Reach::From(bytes) if self.is_longest => self.count_all(bytes, left, handle),
            Reach::From(bytes) => {
                let table = match self.all.made() {
                    Some(_) => &self.all,
                    None => &self.unanchored,
                };
                table.count(bytes, &mut left.unanchored, handle);
            }
            Reach::Whole(bytes) => self.count_all(bytes, left, handle),
            Reach::At => self.count_all(LEXEME, left, handle),
        }
    }

    /// Counts so many bytes of searches that the table for all searches serves.
    #[inline]
    fn count_all(&self, bytes: usize, left: &mut BytesLeft, handle: &mut Handle) {
        self.all.count(bytes, &mut left.all, handle);
        if left.all.is_none() {
            left.unanchored = None;
        }
    }

    /// Returns how large the table for all searches is, or else that for searches from an offset on, if one is made.
    pub(super) fn size(&self) -> Option<TableSize> {
        self.all.size().or_else(|| self.unanchored.size())
    }
}

impl Handle {
    /// Returns another handle of the same, with a table of at most so many bytes, or `None` if there is no memory for it. Its
    /// searches look for a literal first.
    fn prepared(&mut self, limit: usize) -> Option<Handle> {
        let mut handle = Handle::empty();
        // SAFETY: both handles are borrowed exclusively, and are two.
        let code = unsafe { sys::bites_prepare(&mut self.0, limit, &mut handle.0) };
        done(code).then_some(handle)
    }

    /// Like [`Handle::prepared`], but the table serves only searches for matches that begin at an offset or later.
    fn prepared_unanchored(&mut self, limit: usize) -> Option<Handle> {
        let mut handle = Handle::empty();
        // SAFETY: both handles are borrowed exclusively, and are two.
        let code = unsafe { sys::bites_prepare_unanchored(&mut self.0, limit, &mut handle.0) };
        done(code).then_some(handle)
    }
}

impl WithTable for Handle {
    fn share(&mut self) -> Option<Handle> {
        let mut handle = Handle::empty();
        // SAFETY: both handles are borrowed exclusively, and are two.
        let code = unsafe { sys::bites_clone(&mut self.0, &mut handle.0) };
        done(code).then_some(handle)
    }

    fn table_size(&mut self) -> BitesTable {
        let mut size = BitesTable::NONE;
        // SAFETY: the handle is borrowed exclusively, and the size is a local.
        unsafe { sys::bites_table_size(&mut self.0, &mut size) };
        size
    }
}

#[cfg(test)]
mod tests {
    use super::{Prepared, WithTable};
    use crate::sys::BitesTable;
    use std::sync::Mutex;

    /// A handle whose calls find memory as its list says, the last entry first.
    struct Fake {
        has_table: bool,
        has_memory: Vec<bool>,
    }

    impl Fake {
        fn another(&mut self, has_table: bool) -> Option<Fake> {
            let has_memory = self.has_memory.pop().unwrap_or(true);
            has_memory.then(|| Fake {
                has_table,
                has_memory: self.has_memory.clone(),
            })
        }

        fn prepared(&mut self, _: usize) -> Option<Fake> {
            self.another(true)
        }
    }

    impl WithTable for Fake {
        fn share(&mut self) -> Option<Fake> {
            self.another(self.has_table)
        }

        fn table_size(&mut self) -> BitesTable {
            BitesTable::NONE
        }
    }

    /// Whether there is a table after each search of 4 bytes, where the table is asked for after 8.
    fn tables(has_memory: &[bool]) -> Vec<bool> {
        let prepared = Prepared::new(1, 8, Fake::prepared);
        let has_memory = has_memory.iter().rev().copied().collect();
        let mut handle = Fake {
            has_table: false,
            has_memory,
        };
        let mut bytes_left = prepared.bytes_before();
        let searches = (0..6).map(|_| {
            prepared.count(4, &mut bytes_left, &mut handle);
            assert_eq!(bytes_left.is_none(), handle.has_table);
            handle.has_table
        });
        searches.collect()
    }

    #[test]
    fn without_memory_for_a_table_it_is_asked_for_again() {
        let (no, yes) = (false, true);
        assert_eq!(tables(&[]), [no, yes, yes, yes, yes, yes]);
        // The table is not made at first.
        assert_eq!(tables(&[no]), [no, no, no, yes, yes, yes]);
        assert_eq!(tables(&[no, no]), [no, no, no, no, no, yes]);
        // It is made, and then not shared at first.
        assert_eq!(tables(&[yes, no]), [no, no, no, yes, yes, yes]);
    }

    /// Another search then makes the table.
    #[test]
    fn a_refused_table_is_left_to_others() {
        let prepared = Prepared::new(1, 8, Fake::prepared);
        let plain = |has_memory| Fake {
            has_table: false,
            has_memory: vec![has_memory],
        };
        let (mut one, mut other) = (plain(false), plain(true));
        let mut left = [prepared.bytes_before(); 2];
        prepared.count(8, &mut left[0], &mut one);
        prepared.count(8, &mut left[1], &mut other);
        assert_eq!((one.has_table, other.has_table), (false, true));
        assert_eq!(left, [Some(8), None]);
        // What is made later is made with the table.
        let (later, bytes_left) = prepared.share_either(&Mutex::new(plain(true)));
        assert_eq!((later.has_table, bytes_left), (true, None));
    }
}
