//! How much memory calls ask for on the side of Rust: an allocator counts the bytes that each thread asks for.

use regex_bites::{bytes, Regex};
use std::alloc::{GlobalAlloc, Layout, System};
use std::cell::Cell;

struct Counting;

thread_local! {
    static REQUESTED: Cell<usize> = const { Cell::new(0) };
}

// SAFETY: the system's allocator does all that is asked for.
unsafe impl GlobalAlloc for Counting {
    unsafe fn alloc(&self, layout: Layout) -> *mut u8 {
        REQUESTED.with(|bytes| bytes.set(bytes.get() + layout.size()));
        // SAFETY: as the caller says.
        unsafe { System.alloc(layout) }
    }

    unsafe fn dealloc(&self, block: *mut u8, layout: Layout) {
        // SAFETY: as the caller says.
        unsafe { System.dealloc(block, layout) }
    }
}

#[global_allocator]
static ALLOCATOR: Counting = Counting;

/// Returns how many bytes `work` asks for once the regex has a cache and a table.
fn requested(work: impl Fn()) -> usize {
    work();
    let before = REQUESTED.with(Cell::get);
    work();
    REQUESTED.with(Cell::get) - before
}

/// Where nothing matches. Else there is no bound but the length of the text.
#[test]
fn a_replacement_of_nothing_asks_for_little_memory() {
    let (regex, over_bytes) = (Regex::new("(b)c"), bytes::Regex::new("(b)c"));
    let (regex, over_bytes) = (regex.expect("accepted"), over_bytes.expect("accepted"));
    for len in [0, 10, 100, 1000, 10_000, 100_000, 1_000_000] {
        let text = "ab ".repeat(len / 3);
        let most = if (101..100_000).contains(&len) {
            128 << 10
        } else {
            1
        };
        for template in ["-", "a longer text", "<$1$0>"] {
            let over_texts = requested(|| assert_eq!(regex.replace_all(&text, template), text));
            let over_bytes = requested(|| {
                let replaced = over_bytes.replace_all(text.as_bytes(), template.as_bytes());
                assert_eq!(replaced, text.as_bytes());
            });
            assert!(
                over_texts < most && over_bytes < most,
                "{len} bytes, {template}"
            );
        }
    }
}

#[test]
fn matches_are_counted_without_their_groups() {
    let regex = Regex::new("(a)(b)?").expect("accepted");
    let text = "a ab ".repeat(100);
    let requested = requested(|| assert_eq!(regex.captures_iter(&text).count(), 200));
    assert_eq!(requested, 0);
    let mut rest = regex.captures_iter(&text);
    assert!(rest.next().is_some() && rest.next().is_some());
    assert_eq!(rest.count(), 198);
    let empty = Regex::new("x*").expect("accepted");
    assert_eq!(empty.captures_iter("axb").count(), 3);
    let over_bytes = bytes::Regex::new("(a)|(b)").expect("accepted");
    assert_eq!(over_bytes.captures_iter(b"a\xffb").count(), 2);
}
