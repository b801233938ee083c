//! The mapping database of an L4 microkernel: which space holds which page, with which rights, and from whom the page
//! came. The database is proved correct; this crate is a safe interface to its C library, and is not itself proved.
//!
//! A pager gets a page from space 0 and passes it on, without the right to write; then it gives the page up, and its
//! client has lost it too:
//!
//! ```
//! use l4map::{Access, Database, Fpage, Item, Limits, Page, Rights, Space};
//!
//! const SIGMA0: Space = Space(0);
//! const PAGER: Space = Space(1);
//! const CLIENT: Space = Space(2);
//!
//! # fn main() -> Result<(), l4map::Error> {
//! let mut database = Database::new(Limits { spaces: 3, bits: 18, frames: 2 })?;
//! let window = Fpage::complete(Rights::NONE);
//! let page = Fpage::page(Page(0), Rights::ALL);
//!
//! let counts = database.send(SIGMA0, PAGER, window, &[Item::map(page, Page(0))])?;
//! assert_eq!(counts.linked, 1);
//! let to_read = page.with_rights(Rights::READ | Rights::EXECUTE);
//! database.send(PAGER, CLIENT, window, &[Item::map(to_read, Page(4))])?;
//!
//! assert!(database.access(CLIENT, 0x4abc, Access::Read)?);
//! assert!(!database.access(CLIENT, 0x4abc, Access::Write)?);
//!
//! // The pager gives its page up: what was seen of it comes back.
//! assert_eq!(database.flush_page(PAGER, page)?, Rights::READ);
//! assert_eq!(database.mappings()?.count(), 2);
//! # Ok(())
//! # }
//! ```
//!
//! # The heap
//!
//! The database takes its memory from three functions, `rattle_alloc`, `rattle_realloc` and `rattle_dealloc`, which the
//! feature `std-heap` defines over Rust's global allocator. It is on by default. A kernel that turns it off defines
//! them itself, as `heap.rs` of this crate does; each is called on the thread that makes the call, and a block may be
//! given back on another one. Nothing else of this crate asks for memory, and it does without `std`.

#![no_std]
#![warn(missing_docs)]

#[cfg(test)]
extern crate std;

mod changes;
mod database;
mod error;
#[cfg(feature = "std-heap")]
mod heap;
mod mappings;
mod raw;
mod rights;
mod words;

pub use changes::{Change, Changes, TableEntry};
pub use database::{version, Access, Counts, Database, Entry, Limits};
pub use error::Error;
pub use mappings::{Mapping, Mappings};
pub use rights::Rights;
pub use words::{Fpage, Item, Page, Place, Space};
