//! Values that searches need exclusively, such as caches, handed to one thread at a time.
//!
//! The thread that asks first owns the first place. Each of the next eight threads owns a place too. These places are made when the
//! second thread asks. An owner takes the value of its place without a lock. Further threads take values from lists, each behind a
//! `Mutex`, and so does a search within a search. A value is made if none is free, so no thread waits for another one's search.
//!
//! What an owner writes at each search stands in cache lines of its place. All threads read who owns which place, which is written
//! once. So the owners don't slow each other down.
#![allow(unsafe_code)]

use crate::race;
use std::cell::{Cell, UnsafeCell};
use std::fmt;
use std::panic::{RefUnwindSafe, UnwindSafe};
use std::sync::atomic::{AtomicU8, AtomicUsize, Ordering};
use std::sync::{Mutex, OnceLock, PoisonError};

/// Values of one type, each used by one thread at a time.
pub(crate) struct Pool<T> {
    /// The owner of the first place.
    owner: Owner,
    first: Place<T>,
    /// The places of other threads, made when the second thread asks.
    others: OnceLock<Box<Others<T>>>,
}

impl<T> Pool<T> {
    pub(crate) const fn new() -> Pool<T> {
        Pool {
            owner: Owner::NOBODY,
            first: Place::EMPTY,
            others: OnceLock::new(),
        }
    }

    /// Calls `work` with a value that nobody else uses, made by `make` if none is free.
    #[inline]
    pub(crate) fn with<R>(&self, make: impl FnOnce() -> T, work: impl FnOnce(&mut T) -> R) -> R {
        let place = self.place_of(this_thread());
        // `work` stands in both branches, so that the compiler knows in each of them which value it has.
        match place.as_ref().and_then(OwnPlace::take_free) {
            Some(mut own) => work(own.value()),
            None => work(self.take_another(place, make).value()),
        }
    }

    /// Takes a value that nobody else uses, made by `make` if none is free, until it is dropped.
    #[inline]
    pub(crate) fn take(&self, make: impl FnOnce() -> T) -> Taken<'_, T> {
        let place = self.place_of(this_thread());
        match place.as_ref().and_then(OwnPlace::take_free) {
            Some(own) => Taken::Own(own),
            None => self.take_another(place, make),
        }
    }

    /// Returns the place of this thread, which has this number. Returns `None` if other threads own all places.
    #[inline]
    fn place_of(&self, thread: usize) -> Option<OwnPlace<'_, T>> {
        if self.owner.is(thread) {
            return Some(OwnPlace(&self.first));
        }
        self.another_place_of(thread)
    }

    /// Like [`Pool::place_of`], for a thread that doesn't own the first place yet.
    #[inline(never)]
    fn another_place_of(&self, thread: usize) -> Option<OwnPlace<'_, T>> {
        if self.owner.is_or_becomes(thread) {
            return Some(OwnPlace(&self.first));
        }
        self.others().place_of(thread)
    }

    /// Takes a value where that of the place of this thread is not free, or where this thread has no place.
    #[inline(never)]
    fn take_another<'p>(
        &'p self,
        place: Option<OwnPlace<'p, T>>,
        make: impl FnOnce() -> T,
    ) -> Taken<'p, T> {
        match place {
            Some(place) => place.take_another(make),
            None => self.others().take(this_thread(), make),
        }
    }

    fn others(&self) -> &Others<T> {
        let others = self.others.get_or_init(|| {
            let others = Box::new(Others::new());
            race::released(&self.others);
            others
        });
        race::acquired(&self.others);
        others
    }
}

impl<T> fmt::Debug for Pool<T> {
    fn fmt(&self, f: &mut fmt::Formatter<'_>) -> fmt::Result {
        f.debug_struct("Pool").finish_non_exhaustive()
    }
}

/// How many places there are besides the first, a power of 2.
const PLACES: usize = 8;

/// All places but the first, and the owner of each.
struct Others<T> {
    owners: [Owner; PLACES],
    places: [Place<T>; PLACES],
}

impl<T> Others<T> {
    fn new() -> Others<T> {
        Others {
            owners: [Owner::NOBODY; PLACES],
            places: [Place::EMPTY; PLACES],
        }
    }

    /// Returns the place of this thread, which has this number. Returns `None` if other threads own all of these places.
    fn place_of(&self, thread: usize) -> Option<OwnPlace<'_, T>> {
        let mut places = places_from(home_of(thread));
        let own = places.find(|place| self.owners[*place].is_or_becomes(thread))?;
        Some(OwnPlace(&self.places[own]))
    }

    /// Takes a value for a thread without a place. The list of its home comes first. The others are looked at only if it is empty.
    fn take(&self, thread: usize, make: impl FnOnce() -> T) -> Taken<'_, T> {
        let home = home_of(thread);
        let free = places_from(home).find_map(|place| self.places[place].list.pop());
        self.places[home].list.lend(free.unwrap_or_else(make))
    }
}

/// Returns the home of the thread of this number, which is the place that it looks at first. The numbers of threads often differ in few
/// bits, so all bits count.
fn home_of(thread: usize) -> usize {
    let mixed = (thread as u64).wrapping_mul(0x9E37_79B9_7F4A_7C15);
    (mixed >> 32) as usize % PLACES
}

/// Returns all places but the first, beginning with this one.
fn places_from(home: usize) -> impl Iterator<Item = usize> {
    (home..home + PLACES).map(|place| place % PLACES)
}

/// The number of the thread that owns a place, or 0 until one does. It is written once.
struct Owner(AtomicUsize);

impl Owner {
    // Each entry of an array is a value of its own, for which the constant stands.
    #[allow(clippy::declare_interior_mutable_const)]
    const NOBODY: Owner = Owner(AtomicUsize::new(0));

    #[inline]
    fn is(&self, thread: usize) -> bool {
        self.0.load(Ordering::Relaxed) == thread
    }

    /// Returns whether this thread is the owner, or becomes it because there is none.
    fn is_or_becomes(&self, thread: usize) -> bool {
        let relaxed = Ordering::Relaxed;
        match self.0.load(relaxed) {
            0 => self.0.compare_exchange(0, thread, relaxed, relaxed).is_ok(),
            owner => owner == thread,
        }
    }
}

/// A value, which the owner takes without a lock, and a list of further values. No two places share a cache line.
#[repr(align(64))]
struct Place<T> {
    /// [`MISSING`], [`FREE`] or [`IN_USE`].
    state: AtomicU8,
    value: UnsafeCell<Option<T>>,
    list: List<T>,
}

/// The state until the owner asks for the value the first time.
const MISSING: u8 = 0;

/// The state while nobody uses the value.
const FREE: u8 = 1;

/// The state while the value is made or used.
const IN_USE: u8 = 2;

// SAFETY: the value is reached through one `Own` at a time. Only the owner makes these, and each after it changed the state to `IN_USE`.
// An `Own` gives the value back by a release store, which the owner's next load acquires. So a value moves between threads, for which
// it is `Send`, and is never shared by two.
unsafe impl<T: Send> Sync for Place<T> {}

// A search that panics gives its value back or drops it, and a value is whole between two calls of the engine.
impl<T: UnwindSafe> UnwindSafe for Place<T> {}
impl<T: UnwindSafe> RefUnwindSafe for Place<T> {}

impl<T> Place<T> {
    // As for `Owner`.
    #[allow(clippy::declare_interior_mutable_const)]
    const EMPTY: Place<T> = Place {
        state: AtomicU8::new(MISSING),
        value: UnsafeCell::new(None),
        list: List(Mutex::new(Vec::new())),
    };
}

/// A place that this thread owns. It goes to no other thread.
struct OwnPlace<'p, T>(&'p Place<T>);

impl<'p, T> OwnPlace<'p, T> {
    /// Takes the value if it is free.
    #[inline]
    fn take_free(&self) -> Option<Own<'p, T>> {
        let state = &self.0.state;
        if state.load(Ordering::Acquire) != FREE {
            return None;
        }
        // The owner alone changes a state that is not `IN_USE`, and this thread is the owner.
        state.store(IN_USE, Ordering::Relaxed);
        race::acquired(state);
        Some(Own(self.0))
    }

    /// Takes the value if it is missing, which makes it, and otherwise one of the list or one that is made.
    fn take_another(&self, make: impl FnOnce() -> T) -> Taken<'p, T> {
        let Place { state, value, list } = self.0;
        if state.load(Ordering::Relaxed) != MISSING {
            return list.lend(list.pop().unwrap_or_else(make));
        }
        // If `make` panics, the state stays so, and the owner uses the list from then on.
        state.store(IN_USE, Ordering::Relaxed);
        let made = make();
        // SAFETY: this thread owns the place and changed the state from `MISSING`, so there is no `Own` of it yet.
        unsafe { *value.get() = Some(made) };
        Taken::Own(Own(self.0))
    }
}

/// Values that nobody uses, in a cache line apart from the value of the place.
#[repr(align(64))]
struct List<T>(Mutex<Vec<T>>);

impl<T> List<T> {
    fn pop(&self) -> Option<T> {
        with_locked(&self.0, Vec::pop)
    }

    /// Lends a value, which goes to this list afterwards.
    fn lend(&self, value: T) -> Taken<'_, T> {
        Taken::Listed(Listed {
            list: self,
            value: Some(value),
        })
    }
}

/// Calls `work` with what the lock holds, which no panic leaves in pieces.
pub(crate) fn with_locked<T, R>(lock: &Mutex<T>, work: impl FnOnce(&mut T) -> R) -> R {
    let mut held = lock.lock().unwrap_or_else(PoisonError::into_inner);
    race::acquired(lock);
    let answer = work(&mut held);
    race::released(lock);
    answer
}

/// A value of a pool, which goes back there when this is dropped.
pub(crate) enum Taken<'p, T> {
    Own(Own<'p, T>),
    Listed(Listed<'p, T>),
}

impl<T> Taken<'_, T> {
    #[inline]
    pub(crate) fn value(&mut self) -> &mut T {
        match self {
            Taken::Own(own) => own.value(),
            Taken::Listed(listed) => listed.value(),
        }
    }
}

impl<T> fmt::Debug for Taken<'_, T> {
    fn fmt(&self, f: &mut fmt::Formatter<'_>) -> fmt::Result {
        f.debug_struct("Taken").finish_non_exhaustive()
    }
}

/// The value of a place, whose state is `IN_USE` until this is dropped. There is one for a place at a time.
pub(crate) struct Own<'p, T>(&'p Place<T>);

impl<T> Own<'_, T> {
    #[inline]
    fn value(&mut self) -> &mut T {
        // SAFETY: this is the only `Own` of the place, and it is borrowed exclusively.
        match unsafe { &mut *self.0.value.get() } {
            Some(value) => value,
            None => unreachable!("the value is made before it is taken"),
        }
    }
}

impl<T> Drop for Own<'_, T> {
    #[inline]
    fn drop(&mut self) {
        race::released(&self.0.state);
        self.0.state.store(FREE, Ordering::Release);
    }
}

/// A value of a list, which goes back there when this is dropped.
pub(crate) struct Listed<'p, T> {
    list: &'p List<T>,
    value: Option<T>,
}

// SAFETY: the value is reached through an exclusive borrow alone.
unsafe impl<T: Send> Sync for Listed<'_, T> {}

impl<T> Listed<'_, T> {
    #[inline]
    fn value(&mut self) -> &mut T {
        match &mut self.value {
            Some(value) => value,
            None => unreachable!("a value is there until it is given back"),
        }
    }
}

impl<T> Drop for Listed<'_, T> {
    #[inline(never)]
    fn drop(&mut self) {
        with_locked(&self.list.0, |free| free.extend(self.value.take()));
    }
}

/// The number of this thread, which no other living thread has: the address of a variable of its own.
///
/// A later thread may get the number of one that has ended, and then owns what that one owned.
#[inline]
fn this_thread() -> usize {
    thread_local! {
        static HERE: Cell<u8> = const { Cell::new(0) };
    }
    HERE.with(|here| here.as_ptr() as usize)
}

#[cfg(test)]
mod tests {
    use super::{home_of, with_locked, Others, Pool, PLACES};
    use std::panic::{catch_unwind, AssertUnwindSafe};
    use std::sync::atomic::{AtomicUsize, Ordering};
    use std::sync::{Barrier, Mutex};
    use std::thread;

    #[test]
    fn one_thread_uses_one_value() {
        let pool = Pool::new();
        for round in 1..4 {
            let count = pool.with(
                || 0,
                |value| {
                    *value += 1;
                    *value
                },
            );
            assert_eq!(count, round);
        }
    }

    #[test]
    fn a_call_within_a_call_gets_another_value() {
        let pool = Pool::new();
        for _ in 0..2 {
            let both = pool.with(
                || 1,
                |outer| {
                    let inner = pool.with(|| 2, |inner| *inner);
                    (*outer, inner)
                },
            );
            assert_eq!(both, (1, 2));
        }
    }

    #[test]
    fn a_panic_gives_the_value_back() {
        let pool = Pool::new();
        pool.with(|| 1, |_| ());
        let asked = catch_unwind(AssertUnwindSafe(|| pool.with(|| 2, |_| panic!("asked"))));
        assert!(asked.is_err());
        assert_eq!(pool.with(|| 3, |value| *value), 1);
    }

    #[test]
    fn a_value_goes_back_from_another_thread() {
        let pool = Pool::new();
        let mut taken = pool.take(|| 1);
        thread::scope(|scope| {
            scope.spawn(move || *taken.value() += 1);
        });
        assert_eq!(pool.with(|| 3, |value| *value), 2);
    }

    /// How many threads own a place.
    const OWNERS: usize = PLACES + 1;

    /// Returns what each of so many threads returns, which live at the same time.
    fn at_the_same_time<R: Send>(threads: usize, work: impl Fn() -> R + Sync) -> Vec<R> {
        let all_are_done = Barrier::new(threads);
        let until_all_are_done = || {
            let answer = work();
            all_are_done.wait();
            answer
        };
        thread::scope(|scope| {
            let threads: Vec<_> = (0..threads)
                .map(|_| scope.spawn(until_all_are_done))
                .collect();
            let answers = threads.into_iter().map(|thread| thread.join());
            answers
                .map(|answer| answer.expect("the thread ends"))
                .collect()
        })
    }

    /// More threads than places, in one call each at the same time, use one value each. Later ones use these again.
    #[test]
    fn no_two_threads_use_one_value() {
        const THREADS: usize = OWNERS + 7;
        let (pool, made, barrier) = (Pool::new(), AtomicUsize::new(0), Barrier::new(THREADS));
        let make = || made.fetch_add(1, Ordering::Relaxed);
        let mut used = at_the_same_time(THREADS, || {
            pool.with(make, |value| {
                barrier.wait();
                *value
            })
        });
        used.sort_unstable();
        assert!(used.into_iter().eq(0..THREADS));
        let turn = Mutex::new(());
        at_the_same_time(2 * THREADS, || {
            with_locked(&turn, |()| {
                pool.with(make, |value| assert!(*value < THREADS))
            });
        });
        assert_eq!(made.load(Ordering::Relaxed), THREADS);
    }

    /// The threads that own no place share one value.
    #[test]
    fn threads_that_ask_in_turn_make_few_values() {
        let (pool, made, turn) = (Pool::new(), AtomicUsize::new(0), Mutex::new(()));
        let make = || made.fetch_add(1, Ordering::Relaxed);
        at_the_same_time(4 * OWNERS, || {
            with_locked(&turn, |()| pool.with(make, |_| ()));
        });
        assert_eq!(made.load(Ordering::Relaxed), OWNERS + 1);
    }

    #[test]
    fn an_owner_finds_its_values_again() {
        let (pool, made, barrier) = (Pool::new(), AtomicUsize::new(0), Barrier::new(OWNERS));
        let make = || made.fetch_add(1, Ordering::Relaxed);
        let outer_and_inner = || pool.with(make, |outer| (*outer, pool.with(make, |inner| *inner)));
        at_the_same_time(OWNERS, || {
            let first = outer_and_inner();
            for _ in 0..10 {
                barrier.wait();
                assert_eq!(outer_and_inner(), first);
            }
        });
        assert_eq!(made.load(Ordering::Relaxed), 2 * OWNERS);
    }

    #[test]
    fn one_thread_makes_no_other_places() {
        let pool = Pool::new();
        for _ in 0..2 {
            pool.with(|| 1, |_| pool.with(|| 2, |_| ()));
        }
        assert!(pool.others.get().is_none());
        thread::scope(|scope| {
            scope.spawn(|| pool.with(|| 3, |value| assert_eq!(*value, 3)));
        });
        assert!(pool.others.get().is_some());
    }

    /// No thread reads the cache lines of another one's place to find its own.
    #[test]
    fn places_have_cache_lines_of_their_own() {
        fn line<F>(field: &F) -> usize {
            field as *const F as usize / 64
        }
        let pool = Pool::<u8>::new();
        let others = Others::<u8>::new();
        let read = [
            line(&pool.owner),
            line(&pool.others),
            line(&others.owners[0]),
            line(&others.owners[PLACES - 1]),
        ];
        let places = others.places.iter().chain([&pool.first]);
        let mut written: Vec<_> = places
            .flat_map(|place| {
                assert_eq!(line(&place.state), line(&place.value));
                [line(&place.state), line(&place.list)]
            })
            .collect();
        written.sort_unstable();
        written.dedup();
        assert_eq!(written.len(), 2 * OWNERS);
        assert!(read.iter().all(|line| !written.contains(line)));
    }

    /// Threads get numbers that are the same but for few bits.
    #[test]
    fn threads_have_different_homes() {
        for step in [64, 4096, 0x20_1000, 0x80_0000, 0x80_1000] {
            let homes = (0..64).map(|thread| home_of(0x7f12_3456_7000 + thread * step));
            let mut counts = [0; PLACES];
            homes.for_each(|home| counts[home] += 1);
            let most = counts.into_iter().max();
            assert!(most.is_some_and(|most| most <= 16), "{step:x}: {counts:?}");
        }
    }
}
