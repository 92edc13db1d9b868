//! Texts that the engine writes, and the messages of its errors.

use super::handle::Settings;
use crate::sys::{self, BitesSize};
use std::io::{self, Write};
use std::mem::MaybeUninit;
use std::slice;
use std::sync::OnceLock;

/// The size of the buffer for texts that are probably short.
pub(super) const SHORT: usize = 4096;

/// Returns what a call of the engine writes, probably at most `guess` bytes. It calls once more if the call needs more room. A
/// short text goes through a buffer on the stack, so that nothing is allocated if there is no text. Memory that the text does not
/// fill is given back.
///
/// # Safety
///
/// If the call returns `wanted`, it wrote as many bytes as it says.
#[inline]
pub(super) unsafe fn written(
    guess: usize,
    wanted: u32,
    mut ask: impl FnMut(*mut u8, usize) -> BitesSize,
) -> Result<Vec<u8>, u32> {
    let mut room = guess;
    if guess <= SHORT {
        let mut short = [MaybeUninit::<u8>::uninit(); SHORT];
        let BitesSize { code, size } = ask(short.as_mut_ptr().cast(), SHORT);
        if code == wanted {
            // SAFETY: the first `size` bytes of the buffer are written.
            let text = unsafe { slice::from_raw_parts(short.as_ptr().cast(), size) };
            return Ok(text.to_vec());
        }
        if code != sys::TOO_SMALL {
            return Err(code);
        }
        room = size;
    }
    let mut text = Vec::new();
    // A guess may be far too much. If there is no memory for it, the call says how much it needs.
    let _ = text.try_reserve_exact(room);
    // SAFETY: as the caller says.
    unsafe { append(&mut text, 0, wanted, ask) }?;
    text.shrink_to_fit();
    Ok(text)
}

/// Appends what a call of the engine writes, into at least `room` bytes. It calls once more if the call needs more room.
///
/// # Safety
///
/// As for [`written`].
pub(super) unsafe fn append(
    to: &mut Vec<u8>,
    room: usize,
    wanted: u32,
    mut ask: impl FnMut(*mut u8, usize) -> BitesSize,
) -> Result<(), u32> {
    to.reserve(room);
    loop {
        let spare = to.spare_capacity_mut();
        let BitesSize { code, size } = ask(spare.as_mut_ptr().cast(), spare.len());
        if code == wanted {
            // SAFETY: the first `size` bytes of the spare room are written.
            unsafe { to.set_len(to.len() + size) };
            return Ok(());
        }
        if code != sys::TOO_SMALL {
            return Err(code);
        }
        to.reserve(size);
    }
}

/// Returns the message of an error's number, which the engine is asked for once.
pub(crate) fn message(code: u32) -> &'static str {
    // Each place of the array is a value of its own, for which the constant stands.
    #[allow(clippy::declare_interior_mutable_const)]
    const UNKNOWN: OnceLock<String> = OnceLock::new();
    static TEXTS: [OnceLock<String>; sys::NO_MEMORY as usize + 1] =
        [UNKNOWN; sys::NO_MEMORY as usize + 1];
    let text = TEXTS.get(code as usize).map(|text| {
        text.get_or_init(|| {
            let mut text = vec![0; text_into(code, &mut [])];
            text_into(code, &mut text);
            text_of(text)
        })
    });
    text.map_or("", String::as_str)
}

/// Returns the number of bytes before the place that the message of a refused pattern is about, if it is about one.
pub(crate) fn error_at(pattern: &str, settings: Settings) -> Option<usize> {
    let mut offset = sys::NONE;
    let (text, len) = (pattern.as_ptr(), pattern.len());
    let Settings {
        flags, nest_limit, ..
    } = settings;
    // SAFETY: the pattern is a text, and the offset a local.
    unsafe { sys::bites_error_at(text, len, flags, nest_limit, &mut offset) };
    (offset != sys::NONE).then_some(offset)
}

/// Writes as much of the message of an error's number as there is room for. Returns the length of the whole message.
fn text_into(code: u32, text: &mut [u8]) -> usize {
    // SAFETY: the pointer is of a slice of this length.
    unsafe { sys::bites_error_text(code, text.as_mut_ptr(), text.len()) }
}

/// Returns these bytes as a text. They are UTF-8, since all that the engine read is UTF-8.
pub(super) fn text_of(bytes: Vec<u8>) -> String {
    String::from_utf8(bytes).expect("the engine writes UTF-8 where all that it reads is UTF-8")
}

/// Returns these bytes as a text, without checking them.
///
/// # Safety
///
/// The engine made them from UTF-8 only, so it is proved that they are UTF-8.
#[inline]
pub(super) unsafe fn made_text(bytes: Vec<u8>) -> String {
    debug_assert!(std::str::from_utf8(&bytes).is_ok());
    // SAFETY: as the caller says.
    unsafe { String::from_utf8_unchecked(bytes) }
}

/// Returns whether a call made what it was asked for, or found no memory for it.
pub(super) fn done(code: u32) -> bool {
    match code {
        sys::DONE => true,
        sys::NO_MEMORY => false,
        code => give_up(code),
    }
}

/// Aborts the program, as the collections of `std` do when they are out of memory, since no signature here can return that.
/// Nothing unwinds, even if standard error is closed.
#[cold]
pub(super) fn give_up(code: u32) -> ! {
    let mut text = [0; 64];
    let len = text_into(code, &mut text).min(text.len());
    let text = String::from_utf8_lossy(&text[..len]);
    // The program ends either way, so a message that can't be written is ignored.
    let _ = writeln!(io::stderr(), "regex-bites: {text} ({code})");
    std::process::abort()
}
