//! Tells the race detector helgrind what one thread passes to another, since it doesn't know the locks of `std`. Without
//! `--cfg helgrind` these calls do nothing.
#![allow(unsafe_code)]

/// Tells that this thread releases what this object guards. It comes right before another thread can take it.
#[inline(always)]
pub(crate) fn released<T>(_object: &T) {
    #[cfg(helgrind)]
    request(0x4847_0121, _object as *const T as u64);
}

/// Tells that this thread acquired what this object guards.
#[inline(always)]
pub(crate) fn acquired<T>(_object: &T) {
    #[cfg(helgrind)]
    request(0x4847_0122, _object as *const T as u64);
}

#[cfg(helgrind)]
fn request(number: u64, object: u64) {
    let words = [number, object, 0, 0, 0, 0];
    // SAFETY: the rotations give `rdi` its value again, and the exchange changes nothing; valgrind takes the row of them for a
    // request, and reads the words.
    unsafe {
        std::arch::asm!(
            "rol rdi, 3",
            "rol rdi, 13",
            "rol rdi, 61",
            "rol rdi, 51",
            "xchg rbx, rbx",
            in("rax") words.as_ptr(),
            inout("rdx") 0_u64 => _,
        );
    }
}
