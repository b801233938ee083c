//! The heap functions that the archive asks for, over Rust's global allocator.

extern crate alloc;

use alloc::alloc::{alloc, dealloc, realloc, Layout};
use core::ptr::NonNull;

/// What an allocation answers: whether there was memory, and a pointer, which is never null.
#[repr(C)]
struct Tried {
    ok: bool,
    at: *mut u8,
}

/// Before each block stands its length, since the archive does not say it when it gives the block back. Blocks are
/// aligned to as many bytes; the archive asks for no more.
const HEADER: usize = 16;

/// A block of so many bytes, with its header.
fn layout(bytes: usize) -> Option<Layout> {
    Layout::from_size_align(bytes.checked_add(HEADER)?, HEADER).ok()
}

/// What is answered for a block that starts at `start` with its header, where it is not null.
unsafe fn tried(start: *mut u8, bytes: usize) -> Tried {
    if start.is_null() {
        return refused();
    }
    start.cast::<usize>().write(bytes);
    Tried {
        ok: true,
        at: start.add(HEADER),
    }
}

fn refused() -> Tried {
    Tried {
        ok: false,
        at: NonNull::dangling().as_ptr(),
    }
}

/// The start of a block that the archive knows by `at`, and its layout.
unsafe fn block(at: *mut u8) -> (*mut u8, Layout) {
    let start = at.sub(HEADER);
    let bytes = start.cast::<usize>().read();
    (
        start,
        Layout::from_size_align_unchecked(bytes + HEADER, HEADER),
    )
}

#[no_mangle]
unsafe extern "C" fn rattle_alloc(bytes: usize, _align: usize) -> Tried {
    match layout(bytes) {
        Some(layout) => tried(alloc(layout), bytes),
        None => refused(),
    }
}

#[no_mangle]
unsafe extern "C" fn rattle_realloc(
    at: *mut u8,
    _kept: usize,
    bytes: usize,
    _align: usize,
) -> Tried {
    let (start, old) = block(at);
    match layout(bytes) {
        Some(new) => tried(realloc(start, old, new.size()), bytes),
        None => refused(),
    }
}

#[no_mangle]
unsafe extern "C" fn rattle_dealloc(at: *mut u8) {
    let (start, old) = block(at);
    dealloc(start, old);
}
