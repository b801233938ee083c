//! The heap functions of the feature `std-heap`, over a global allocator that counts its bytes and refuses one
//! allocation.
#![cfg(feature = "std-heap")]

use std::alloc::{GlobalAlloc, Layout, System};
use std::cell::Cell;

use l4map::{Access, Database, Error, Fpage, Item, Limits, Page, Rights, Space};

thread_local! {
    /// How many bytes this thread has taken and not given back.
    static LIVE: Cell<usize> = const { Cell::new(0) };
    /// How many allocations of this thread are done before one is refused.
    static UNTIL_REFUSED: Cell<usize> = const { Cell::new(usize::MAX) };
}

/// Whether this allocation is refused.
fn is_refused() -> bool {
    let left = UNTIL_REFUSED.get();
    UNTIL_REFUSED.set(left.wrapping_sub(1));
    left == 0
}

struct Counting;

#[global_allocator]
static HEAP: Counting = Counting;

// SAFETY: all is done by the system's allocator, but for an allocation that is refused.
unsafe impl GlobalAlloc for Counting {
    unsafe fn alloc(&self, layout: Layout) -> *mut u8 {
        if is_refused() {
            return std::ptr::null_mut();
        }
        LIVE.set(LIVE.get().wrapping_add(layout.size()));
        System.alloc(layout)
    }

    unsafe fn dealloc(&self, at: *mut u8, layout: Layout) {
        LIVE.set(LIVE.get().wrapping_sub(layout.size()));
        System.dealloc(at, layout);
    }

    unsafe fn realloc(&self, at: *mut u8, layout: Layout, bytes: usize) -> *mut u8 {
        if is_refused() {
            return std::ptr::null_mut();
        }
        LIVE.set(LIVE.get().wrapping_sub(layout.size()).wrapping_add(bytes));
        System.realloc(at, layout, bytes)
    }
}

/// Maps all pages of space 0 to space 1, and page 5 on to 40 pages of space 2; writes to the first and takes them back.
/// Notes are asked for, so that they take memory too.
fn work() -> Result<Rights, Error> {
    let limits = Limits {
        spaces: 3,
        bits: 18,
        frames: 64,
    };
    let mut database = Database::new(limits)?;
    database.note_changes(true)?;
    let (window, page) = (
        Fpage::complete(Rights::NONE),
        Fpage::page(Page(5), Rights::ALL),
    );
    let all = Item::map(Fpage::complete(Rights::ALL), Page(0));
    database.send(Space(0), Space(1), window, &[all])?;
    for target in 0..40 {
        database.send(Space(1), Space(2), window, &[Item::map(page, Page(target))])?;
    }
    database.access(Space(2), 0, Access::Write)?;
    let status = database.flush_page(Space(1), page)?;
    assert_eq!(database.changes()?.count(), 1 + 40);
    assert_eq!(database.mappings()?.count(), 64 + 63);
    Ok(status)
}

#[test]
fn a_halted_database_tells_nothing() {
    let limits = Limits {
        spaces: 2,
        bits: 18,
        frames: 64,
    };
    let mut database = Database::new(limits).unwrap();
    let all = Item::map(Fpage::complete(Rights::ALL), Page(0));
    UNTIL_REFUSED.set(0);
    let sent = database.send(Space(0), Space(1), Fpage::complete(Rights::NONE), &[all]);
    UNTIL_REFUSED.set(usize::MAX);
    assert_eq!(sent, Err(Error::Halted));
    assert_eq!(database.changes().err(), Some(Error::Halted));
    assert_eq!(database.note_changes(true), Err(Error::Halted));
}

#[test]
fn each_allocation_is_refused_in_turn_and_all_is_given_back() {
    let before = LIVE.get();
    let mut told = (0, 0);
    for allocation in 0.. {
        UNTIL_REFUSED.set(allocation);
        let outcome = work();
        let was_refused = UNTIL_REFUSED.replace(usize::MAX) > allocation;
        assert_eq!(LIVE.get(), before, "allocation {allocation}");
        match outcome {
            Err(Error::NoMemory) => told.0 += 1,
            Err(Error::Halted) => told.1 += 1,
            outcome => assert_eq!(outcome, Ok(Rights::READ | Rights::WRITE)),
        }
        if !was_refused {
            assert_eq!(outcome, Ok(Rights::READ | Rights::WRITE));
            break;
        }
    }
    assert!(told.0 > 0 && told.1 > 0, "{told:?}");
}
