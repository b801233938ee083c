use core::cell::UnsafeCell;
use core::fmt;
use core::ptr::null_mut;

use crate::changes::Changes;
use crate::mappings::{Mappings, Which};
use crate::raw;
use crate::{Error, Fpage, Item, Page, Place, Rights, Space};

/// How much a database is for.
#[derive(Clone, Copy, Debug, PartialEq, Eq)]
pub struct Limits {
    /// How many spaces there are: 2 to 512.
    pub spaces: u32,
    /// Each space has `2^bits` bytes: 18 to 32.
    pub bits: u32,
    /// How many frames there are: 1 to the number of pages of a space.
    pub frames: u32,
}

/// A kind of access.
#[derive(Clone, Copy, Debug, PartialEq, Eq)]
pub enum Access {
    /// To read.
    Read,
    /// To write.
    Write,
    /// To execute.
    Execute,
}

impl Access {
    /// The right that an access of this kind needs.
    pub const fn needs(self) -> Rights {
        match self {
            Access::Read => Rights::READ,
            Access::Write => Rights::WRITE,
            Access::Execute => Rights::EXECUTE,
        }
    }
}

/// How many pages of a send had which outcome.
///
/// ```
/// use l4map::{Counts, Database, Fpage, Item, Limits, Page, Rights, Space};
///
/// # fn main() -> Result<(), l4map::Error> {
/// let mut database = Database::new(Limits { spaces: 2, bits: 18, frames: 3 })?;
/// let window = Fpage::complete(Rights::NONE);
///
/// // Of the first four pages space 0 holds three.
/// let read = Item::map(Fpage::pages(Page(0), 4, Rights::READ).unwrap(), Page(0));
/// let counts = database.send(Space(0), Space(1), window, &[read])?;
/// assert_eq!(counts, Counts { absent: 1, linked: 3, ..Counts::default() });
///
/// // Space 1 has page 0 already, and gets the right to write it too.
/// let write = Item::map(Fpage::page(Page(0), Rights::WRITE), Page(0));
/// let counts = database.send(Space(0), Space(1), window, &[write])?;
/// assert_eq!(counts, Counts { extended: 1, ..Counts::default() });
/// # Ok(())
/// # }
/// ```
#[derive(Clone, Copy, Debug, Default, PartialEq, Eq)]
pub struct Counts {
    /// The sender does not hold the page.
    pub absent: u32,
    /// The sender's page has none of the rights that the item asks for.
    pub norights: u32,
    /// The receiver's page is one from which the sender's page derives; nothing is done.
    pub origin: u32,
    /// The sender's page was gone before its turn: it came from a receiver's page that the item replaces. What the pair
    /// was to replace is gone too.
    pub lost: u32,
    /// The receiver's page derives directly from the sender's already, and gained the rights.
    pub extended: u32,
    /// The receiver now holds the page.
    pub linked: u32,
}

/// What a page holds.
#[derive(Clone, Copy, Debug, PartialEq, Eq)]
pub struct Entry {
    /// Which frame.
    pub frame: u32,
    /// Which kinds of access it allows.
    pub rights: Rights,
    /// Which kinds of access it has seen since its status was cleared.
    pub status: Rights,
}

/// A mapping database.
///
/// At the start space 0 holds page `i` as frame `i` with all rights, for each `i` below the number of frames, and
/// nothing else is held.
///
/// A database may go to another thread, but two may not use it at once, not even to look at it: it is `Send` and not
/// `Sync`. Threads or processors share it under a lock:
///
/// ```
/// use l4map::{Database, Fpage, Item, Limits, Page, Rights, Space};
/// use std::sync::Mutex;
/// use std::thread;
///
/// # fn main() -> Result<(), l4map::Error> {
/// let database = Mutex::new(Database::new(Limits { spaces: 3, bits: 18, frames: 1 })?);
/// let window = Fpage::complete(Rights::NONE);
/// let item = Item::map(Fpage::page(Page(0), Rights::READ), Page(7));
/// thread::scope(|threads| {
///     for space in [Space(1), Space(2)] {
///         let database = &database;
///         threads.spawn(move || database.lock().unwrap().send(Space(0), space, window, &[item]));
///     }
/// });
/// assert_eq!(database.into_inner().unwrap().mappings()?.count(), 3);
/// # Ok(())
/// # }
/// ```
///
/// Without a lock that is not compiled:
///
/// ```compile_fail,E0277
/// fn may_be_shared<T: Sync>() {}
/// may_be_shared::<l4map::Database>();
/// ```
pub struct Database {
    handle: UnsafeCell<raw::Handle>,
}

// SAFETY: nothing in the archive is bound to a thread: it has no variables, neither of a thread nor of the program, and
// takes no lock. What a database has are blocks of the program's heap, to which its handle alone leads, and the heap
// functions may be called on any thread. The handle is not copied out of its database, and that is not `Sync`: so one
// thread at a time makes calls. All this is trusted; that there are no variables is tested.
unsafe impl Send for Database {}

impl Database {
    /// Makes a database.
    ///
    /// # Errors
    ///
    /// [`Error::BadLimits`], and [`Error::NoMemory`].
    pub fn new(limits: Limits) -> Result<Database, Error> {
        let mut handle = raw::Handle { at: null_mut() };
        // SAFETY: the handle is empty.
        Error::check(unsafe {
            raw::l4map_new(&mut handle, limits.spaces, limits.bits, limits.frames)
        })?;
        Ok(Database {
            handle: UnsafeCell::new(handle),
        })
    }

    /// Maps or grants pages of the space `from` to pages of the space `to` within its window, item after item.
    ///
    /// # Errors
    ///
    /// The first that fits: [`Error::Halted`]; [`Error::BadCall`] without items or with more than 31; of the window and
    /// then of each item in order [`Error::NotAnItem`], [`Error::BadSize`], [`Error::Misaligned`] or
    /// [`Error::OutOfSpace`]; [`Error::NoSuchSpace`]; [`Error::SameSpace`]; [`Error::NoWindow`]. [`Error::Halted`] too
    /// where memory runs out.
    pub fn send(
        &mut self,
        from: Space,
        to: Space,
        window: Fpage,
        items: &[Item],
    ) -> Result<Counts, Error> {
        let mut reply = raw::SendReply::default();
        let words = items.as_ptr().cast::<u32>();
        // SAFETY: an `Item` is two words; the words and the reply are lent for the call, and apart from one another.
        Error::check(unsafe {
            raw::l4map_send(
                self.handle.get(),
                from.0,
                to.0,
                window.word(),
                words,
                2 * items.len(),
                &mut reply,
            )
        })?;
        Ok(Counts {
            absent: reply.absent,
            norights: reply.norights,
            origin: reply.origin,
            lost: reply.lost,
            extended: reply.extended,
            linked: reply.linked,
        })
    }

    /// Takes the rights of each fpage from all that derives from its pages. Each comes back with a status in place of
    /// its rights: what was seen of its pages and of all that derives from them. That status is cleared.
    ///
    /// ```
    /// use l4map::{Access, Database, Fpage, Item, Limits, Page, Rights, Space};
    ///
    /// # fn main() -> Result<(), l4map::Error> {
    /// let mut database = Database::new(Limits { spaces: 2, bits: 18, frames: 1 })?;
    /// let page = Fpage::page(Page(0), Rights::ALL);
    /// database.send(Space(0), Space(1), Fpage::complete(Rights::NONE), &[Item::map(page, Page(0))])?;
    /// database.access(Space(1), 0, Access::Write)?;
    ///
    /// let mut fpages = [page.with_rights(Rights::WRITE)];
    /// database.unmap(Space(0), &mut fpages)?;
    /// assert_eq!(fpages[0].rights(), Rights::READ | Rights::WRITE);
    /// assert!(!database.access(Space(1), 0, Access::Write)?);
    /// assert!(database.access(Space(0), 0, Access::Write)?);
    /// # Ok(())
    /// # }
    /// ```
    ///
    /// # Errors
    ///
    /// The first that fits: [`Error::Halted`]; [`Error::BadControl`] without fpages or with more than 64; of each fpage
    /// in order [`Error::BadSize`], [`Error::Misaligned`] or [`Error::OutOfSpace`]; [`Error::NoSuchSpace`].
    /// [`Error::Halted`] too where memory runs out. The fpages are as they were then.
    pub fn unmap(&mut self, space: Space, fpages: &mut [Fpage]) -> Result<(), Error> {
        self.revoke(space, 0, fpages)
    }

    /// As [`unmap`](Database::unmap), and the pages of the space itself lose the rights too.
    ///
    /// # Errors
    ///
    /// Those of [`unmap`](Database::unmap).
    pub fn flush(&mut self, space: Space, fpages: &mut [Fpage]) -> Result<(), Error> {
        self.revoke(space, FLUSH, fpages)
    }

    /// [`unmap`](Database::unmap) of one fpage, which answers its status.
    ///
    /// # Errors
    ///
    /// Those of [`unmap`](Database::unmap).
    pub fn unmap_page(&mut self, space: Space, mut fpage: Fpage) -> Result<Rights, Error> {
        self.unmap(space, core::slice::from_mut(&mut fpage))?;
        Ok(fpage.rights())
    }

    /// [`flush`](Database::flush) of one fpage, which answers its status.
    ///
    /// # Errors
    ///
    /// Those of [`unmap`](Database::unmap).
    pub fn flush_page(&mut self, space: Space, mut fpage: Fpage) -> Result<Rights, Error> {
        self.flush(space, core::slice::from_mut(&mut fpage))?;
        Ok(fpage.rights())
    }

    fn revoke(&mut self, space: Space, flush: u32, fpages: &mut [Fpage]) -> Result<(), Error> {
        let words = fpages.as_mut_ptr().cast::<u32>();
        let control = control(fpages.len()) + flush;
        // SAFETY: an `Fpage` is a word; the words are lent for the call.
        Error::check(unsafe {
            raw::l4map_unmap(self.handle.get(), space.0, control, words, fpages.len())
        })
    }

    /// Takes all pages from a space, as where it is deleted, and all that derives from them. Answers the status of all
    /// these, which also goes to the pages from which they came. The space may be used again.
    ///
    /// ```
    /// use l4map::{Access, Database, Fpage, Item, Limits, Page, Rights, Space};
    ///
    /// # fn main() -> Result<(), l4map::Error> {
    /// let mut database = Database::new(Limits { spaces: 3, bits: 18, frames: 2 })?;
    /// let window = Fpage::complete(Rights::NONE);
    /// let pages = Fpage::pages(Page(0), 2, Rights::ALL).unwrap();
    /// database.send(Space(0), Space(1), window, &[Item::map(pages, Page(0))])?;
    /// database.send(Space(1), Space(2), window, &[Item::map(pages, Page(0))])?;
    /// database.access(Space(2), 0x1000, Access::Write)?;
    ///
    /// assert_eq!(database.clear(Space(1))?, Rights::READ | Rights::WRITE);
    /// assert_eq!(database.mappings()?.count(), 2);
    /// # Ok(())
    /// # }
    /// ```
    ///
    /// # Errors
    ///
    /// The first that fits: [`Error::Halted`]; [`Error::NoSuchSpace`]. [`Error::Halted`] too where memory runs out.
    pub fn clear(&mut self, space: Space) -> Result<Rights, Error> {
        let mut status = 0;
        // SAFETY: the status is lent for the call.
        Error::check(unsafe { raw::l4map_clear(self.handle.get(), space.0, &mut status) })?;
        Ok(Rights::from_bits(status))
    }

    /// Accesses the page of an address, in bytes. Whether the access was made: the status of the page then says so.
    /// Otherwise it is a fault, and nothing changes.
    ///
    /// # Errors
    ///
    /// The first that fits: [`Error::Halted`]; [`Error::NoSuchSpace`]; [`Error::OutOfSpace`]. [`Error::Halted`] too
    /// where memory runs out.
    pub fn access(&mut self, space: Space, address: u32, access: Access) -> Result<bool, Error> {
        let mut made = 0;
        // SAFETY: what is made is lent for the call.
        Error::check(unsafe {
            raw::l4map_access(
                self.handle.get(),
                space.0,
                address,
                access.needs().bits(),
                &mut made,
            )
        })?;
        Ok(made == 1)
    }

    /// What a page holds, if it holds something.
    ///
    /// ```
    /// use l4map::{Access, Database, Entry, Limits, Page, Place, Rights, Space};
    ///
    /// # fn main() -> Result<(), l4map::Error> {
    /// let mut database = Database::new(Limits { spaces: 2, bits: 18, frames: 3 })?;
    /// database.access(Space(0), 0x2abc, Access::Read)?;
    ///
    /// let page_2 = Place { space: Space(0), page: Page(2) };
    /// let read = Entry { frame: 2, rights: Rights::ALL, status: Rights::READ };
    /// assert_eq!(database.entry(page_2)?, Some(read));
    /// assert_eq!(database.entry(Place { page: Page(3), ..page_2 })?, None);
    /// # Ok(())
    /// # }
    /// ```
    ///
    /// # Errors
    ///
    /// The first that fits: [`Error::Halted`]; [`Error::NoSuchSpace`]; [`Error::OutOfSpace`].
    pub fn entry(&self, place: Place) -> Result<Option<Entry>, Error> {
        let mut reply = raw::EntryReply::default();
        // SAFETY: the reply is lent for the call, and no other call runs: this thread makes one at a time, and no other
        // has the database too, since it is not `Sync`.
        Error::check(unsafe {
            raw::l4map_entry(self.handle.get(), place.space.0, place.page.0, &mut reply)
        })?;
        Ok((reply.held == 1).then(|| Entry {
            frame: reply.frame,
            rights: Rights::from_bits(reply.rights),
            status: Rights::from_bits(reply.status),
        }))
    }

    /// From which page a page came, if it is held and came from another.
    ///
    /// ```
    /// use l4map::{Database, Fpage, Item, Limits, Page, Place, Rights, Space};
    ///
    /// # fn main() -> Result<(), l4map::Error> {
    /// let mut database = Database::new(Limits { spaces: 2, bits: 18, frames: 1 })?;
    /// let item = Item::map(Fpage::page(Page(0), Rights::ALL), Page(9));
    /// database.send(Space(0), Space(1), Fpage::complete(Rights::NONE), &[item])?;
    ///
    /// let root = Place { space: Space(0), page: Page(0) };
    /// assert_eq!(database.origin(Place { space: Space(1), page: Page(9) })?, Some(root));
    /// assert_eq!(database.origin(root)?, None);
    /// # Ok(())
    /// # }
    /// ```
    ///
    /// # Errors
    ///
    /// The first that fits: [`Error::Halted`]; [`Error::NoSuchSpace`]; [`Error::OutOfSpace`].
    pub fn origin(&self, place: Place) -> Result<Option<Place>, Error> {
        let mut reply = raw::OriginReply::default();
        // SAFETY: as in `entry`.
        Error::check(unsafe {
            raw::l4map_origin(self.handle.get(), place.space.0, place.page.0, &mut reply)
        })?;
        Ok((reply.known == 1).then(|| place_of(reply.space, reply.page)))
    }

    /// Every mapping, by rising place.
    ///
    /// # Errors
    ///
    /// [`Error::Halted`].
    pub fn mappings(&self) -> Result<Mappings<'_>, Error> {
        self.mappings_from(place_of(0, 0))
    }

    /// Every mapping at or behind a page, by rising place. A page past the end of its space stands for the start of the
    /// next space; past the last space there are no mappings.
    ///
    /// ```
    /// use l4map::{Database, Limits, Page, Place, Space};
    ///
    /// # fn main() -> Result<(), l4map::Error> {
    /// let database = Database::new(Limits { spaces: 2, bits: 18, frames: 5 })?;
    /// assert_eq!(database.mappings_from(Place { space: Space(0), page: Page(3) })?.count(), 2);
    /// # Ok(())
    /// # }
    /// ```
    ///
    /// # Errors
    ///
    /// [`Error::Halted`].
    pub fn mappings_from(&self, place: Place) -> Result<Mappings<'_>, Error> {
        Mappings::from(self, Which::All, place)
    }

    /// Every mapping of a space, by rising page.
    ///
    /// # Errors
    ///
    /// [`Error::Halted`]; [`Error::NoSuchSpace`].
    pub fn mappings_of(&self, space: Space) -> Result<Mappings<'_>, Error> {
        let page = Page(0);
        Mappings::from(self, Which::OfSpace, Place { space, page })
    }

    /// The mapping of a page, if it is held, and every one that derives from it, in whatever space, by rising place:
    /// those that came from the page, and those that came from such a page in turn.
    ///
    /// ```
    /// use l4map::{Database, Fpage, Item, Limits, Page, Place, Rights, Space};
    ///
    /// # fn main() -> Result<(), l4map::Error> {
    /// let mut database = Database::new(Limits { spaces: 2, bits: 18, frames: 2 })?;
    /// let all = Fpage::complete(Rights::ALL);
    /// database.send(Space(0), Space(1), all, &[Item::map(all, Page(0))])?;
    /// let root = Place { space: Space(0), page: Page(1) };
    /// assert_eq!(database.mappings_below(root)?.count(), 2);
    /// # Ok(())
    /// # }
    /// ```
    ///
    /// # Errors
    ///
    /// [`Error::Halted`]; [`Error::NoSuchSpace`] and [`Error::OutOfSpace`], where there is no such page.
    pub fn mappings_below(&self, place: Place) -> Result<Mappings<'_>, Error> {
        Mappings::from(self, Which::Below(place), place_of(0, 0))
    }

    /// Says whether calls note which pages they change, from the next call on. At the start they do not. What was noted
    /// is forgotten.
    ///
    /// Notes take 12 bytes for each page that a call notes; the next call uses that memory again.
    ///
    /// # Errors
    ///
    /// [`Error::Halted`].
    pub fn note_changes(&mut self, on: bool) -> Result<(), Error> {
        // SAFETY: the handle is this database's own, and no other call runs.
        Error::check(unsafe { raw::l4map_note_changes(self.handle.get(), on.into()) })
    }

    /// What the last send, unmap, clear or access changed, if that was noted: every page whose frame or rights it
    /// changed, in whatever space, with what the page holds now. Each page that comes was held before the call or is held
    /// now. It may hold what it held before, and may come more than once, with the same entry.
    ///
    /// A kernel asks for notes once. It reads the changes after each call that was done, and makes each in its page
    /// tables. After a call that was refused it has nothing to do.
    ///
    /// # Errors
    ///
    /// [`Error::Halted`].
    pub fn changes(&self) -> Result<Changes<'_>, Error> {
        Changes::of(self)
    }

    /// Writes the changes from number `from` on to `some`, and tells how many they are.
    pub(crate) fn read_changes(
        &self,
        from: usize,
        some: &mut [raw::Change],
    ) -> Result<usize, Error> {
        let mut count = 0;
        // SAFETY: both are lent for the call, and apart from one another; the rest as in `entry`.
        Error::check(unsafe {
            raw::l4map_changes(
                self.handle.get(),
                from,
                some.as_mut_ptr(),
                some.len(),
                &mut count,
            )
        })?;
        Ok(count)
    }

    /// Writes the first mappings of these at or behind a page to `some`, and tells how many they are.
    pub(crate) fn read_mappings(
        &self,
        which: Which,
        from: Place,
        some: &mut [raw::Mapping],
    ) -> Result<usize, Error> {
        let (db, space, page) = (self.handle.get(), from.space.0, from.page.0);
        let (at, n) = (some.as_mut_ptr(), some.len());
        let mut count = 0;
        // SAFETY: both are lent for the call, and apart from one another; the rest as in `entry`.
        Error::check(unsafe {
            match which {
                Which::All => raw::l4map_mappings(db, space, page, at, n, &mut count),
                Which::OfSpace => raw::l4map_space_mappings(db, space, page, at, n, &mut count),
                Which::Below(above) => {
                    let (above_space, above_page) = (above.space.0, above.page.0);
                    raw::l4map_below(db, above_space, above_page, space, page, at, n, &mut count)
                }
            }
        })?;
        Ok(count)
    }
}

impl Drop for Database {
    fn drop(&mut self) {
        // SAFETY: no call runs.
        unsafe { raw::l4map_free(self.handle.get()) }
    }
}

impl fmt::Debug for Database {
    fn fmt(&self, f: &mut fmt::Formatter<'_>) -> fmt::Result {
        f.debug_struct("Database").finish_non_exhaustive()
    }
}

/// The version of the interface of the archive that was linked. This package is written for version 3.
///
/// ```
/// assert_eq!(l4map::version(), 3);
/// ```
pub fn version() -> u32 {
    // SAFETY: nothing is lent for the call.
    unsafe { raw::l4map_version() }
}

/// The bit of a control word by which a space's own pages lose the rights too.
const FLUSH: u32 = 1 << 6;

/// The control word for so many fpage words; where there are none, or more than 64, one that names another number.
fn control(n: usize) -> u32 {
    if (1..=64).contains(&n) {
        n as u32 - 1
    } else {
        0
    }
}

/// A place by its two numbers, which are those of a place of a database.
pub(crate) fn place_of(space: u32, page: u32) -> Place {
    Place {
        space: Space(space as u16),
        page: Page(page),
    }
}

#[cfg(test)]
mod tests {
    use super::{Access, Counts, Database, Entry, Limits};
    use crate::{Error, Fpage, Item, Page, Place, Rights, Space};
    use std::{thread, vec};

    const WINDOW: Fpage = Fpage::complete(Rights::NONE);

    fn small() -> Database {
        let limits = Limits {
            spaces: 3,
            bits: 18,
            frames: 32,
        };
        Database::new(limits).unwrap()
    }

    fn place(space: u16, page: u32) -> Place {
        Place {
            space: Space(space),
            page: Page(page),
        }
    }

    #[test]
    fn limits_that_are_not_served() {
        for (spaces, bits, frames) in [
            (1, 18, 1),
            (513, 18, 1),
            (2, 17, 1),
            (2, 33, 1),
            (2, 18, 0),
            (2, 18, 65),
            (2, 32, 1_048_577),
        ] {
            let limits = Limits {
                spaces,
                bits,
                frames,
            };
            assert_eq!(Database::new(limits).unwrap_err(), Error::BadLimits);
        }
    }

    #[test]
    fn the_start() {
        let database = small();
        let root = Entry {
            frame: 31,
            rights: Rights::ALL,
            status: Rights::NONE,
        };
        assert_eq!(database.entry(place(0, 31)), Ok(Some(root)));
        assert_eq!(database.entry(place(0, 32)), Ok(None));
        assert_eq!(database.origin(place(0, 31)), Ok(None));
        assert_eq!(database.entry(place(3, 64)), Err(Error::NoSuchSpace));
        assert_eq!(database.origin(place(2, 64)), Err(Error::OutOfSpace));
    }

    /// The send of tests/c/calls.c in which each outcome has a number of its own.
    #[test]
    fn outcomes_of_a_send() {
        let mut database = small();
        let (low, high) = (Space(0), Space(1));
        let pages = |first, pages| Fpage::pages(Page(first), pages, Rights::ALL).unwrap();
        let mut send = |from, to, items: &[Item]| database.send(from, to, WINDOW, items).unwrap();
        send(low, high, &[Item::map(pages(0, 32), Page(0))]);
        send(
            low,
            high,
            &[
                Item::map(pages(5, 1), Page(40)),
                Item::map(pages(7, 1), Page(41)),
            ],
        );
        send(
            high,
            low,
            &[Item::map(pages(0, 4).with_rights(Rights::READ), Page(32))],
        );
        let counts = send(
            high,
            low,
            &[
                Item::map(pages(48, 16), Page(0)),
                Item::map(pages(8, 8).with_rights(Rights::NONE), Page(0)),
                Item::map(pages(0, 2), Page(0)),
                Item::map(pages(40, 2), Page(4)),
                Item::map(pages(0, 4), Page(32)),
                Item::map(pages(16, 16), Page(48)),
            ],
        );
        let wanted = Counts {
            absent: 16,
            norights: 8,
            origin: 2,
            lost: 1,
            extended: 4,
            linked: 17,
        };
        assert_eq!(counts, wanted);
        assert_eq!(database.origin(place(0, 5)), Ok(Some(place(1, 41))));
        assert_eq!(database.entry(place(0, 4)), Ok(None));
    }

    #[test]
    fn a_grant_moves_the_page() {
        let mut database = small();
        let page = Fpage::page(Page(3), Rights::READ);
        let counts = database
            .send(Space(0), Space(2), WINDOW, &[Item::grant(page, Page(9))])
            .unwrap();
        assert_eq!(counts.linked, 1);
        let granted = Entry {
            frame: 3,
            rights: Rights::READ,
            status: Rights::NONE,
        };
        assert_eq!(database.entry(place(2, 9)), Ok(Some(granted)));
        assert_eq!(database.entry(place(0, 3)), Ok(None));
    }

    #[test]
    fn refusals_of_a_send() {
        let mut database = small();
        let good = Item::map(Fpage::page(Page(0), Rights::ALL), Page(0));
        let item = |fpage| Item::from_words([8, fpage]);
        for (from, to, window, items, why) in [
            (9, 9, 0xb7, vec![], Error::BadCall),
            (9, 9, 0xb7, vec![good; 32], Error::BadCall),
            (9, 9, 0xb7, vec![Item::from_words([0, 0])], Error::BadSize),
            (9, 9, 0x10d0, vec![good], Error::Misaligned),
            (
                9,
                9,
                0,
                vec![good, Item::from_words([4, 0xc7])],
                Error::NotAnItem,
            ),
            (9, 9, 0, vec![item(0xb7)], Error::BadSize),
            (9, 9, 0, vec![item(0x10d7)], Error::Misaligned),
            (9, 9, 0, vec![item(0x400c7)], Error::OutOfSpace),
            (9, 9, 0, vec![good], Error::NoSuchSpace),
            (1, 1, 0, vec![good], Error::SameSpace),
            (0, 1, 0, vec![good; 31], Error::NoWindow),
        ] {
            let refused = database.send(Space(from), Space(to), Fpage::from_word(window), &items);
            assert_eq!(refused, Err(why));
        }
        assert_eq!(database.mappings().unwrap().count(), 32);
    }

    #[test]
    fn an_unmap_reports_and_a_flush_takes() {
        let mut database = small();
        let (page, all) = (Fpage::page(Page(0), Rights::ALL), Space(0));
        database
            .send(all, Space(1), WINDOW, &[Item::map(page, Page(6))])
            .unwrap();
        assert_eq!(database.access(Space(1), 0x6fff, Access::Execute), Ok(true));
        assert_eq!(database.access(Space(1), 0x7000, Access::Read), Ok(false));
        let mut fpages = [
            page.with_rights(Rights::NONE),
            Fpage::page(Page(1), Rights::NONE),
        ];
        database.unmap(all, &mut fpages).unwrap();
        assert_eq!(fpages.map(Fpage::word), [0xc5, 0x10c0]);
        assert_eq!(
            database.unmap_page(all, page.with_rights(Rights::EXECUTE)),
            Ok(Rights::NONE)
        );
        assert_eq!(
            database.access(Space(1), 0x6000, Access::Execute),
            Ok(false)
        );
        assert_eq!(database.access(Space(1), 0x6000, Access::Write), Ok(true));
        let own = Fpage::complete(Rights::ALL);
        assert_eq!(
            database.flush_page(Space(1), own),
            Ok(Rights::READ | Rights::WRITE)
        );
        assert_eq!(database.entry(place(1, 6)), Ok(None));
        assert_eq!(
            database.entry(place(0, 0)).unwrap().unwrap().rights,
            Rights::ALL
        );
    }

    #[test]
    fn refusals_of_an_unmap() {
        let mut database = small();
        for (space, words, why) in [
            (9, vec![], Error::BadControl),
            (9, vec![0; 65], Error::BadControl),
            (9, vec![0; 128], Error::BadControl),
            (9, vec![0xc7, 0x57], Error::BadSize),
            (9, vec![0x10d7], Error::Misaligned),
            (9, vec![0x400c7], Error::OutOfSpace),
            (3, vec![0xc7; 64], Error::NoSuchSpace),
        ] {
            let given: vec::Vec<_> = words.into_iter().map(Fpage::from_word).collect();
            let mut fpages = given.clone();
            assert_eq!(database.unmap(Space(space), &mut fpages), Err(why));
            assert_eq!(database.flush(Space(space), &mut fpages), Err(why));
            assert_eq!(fpages, given);
        }
        assert_eq!(database.unmap(Space(0), &mut [Fpage::NIL; 64]), Ok(()));
    }

    #[test]
    fn a_clear_takes_all_pages_from_a_space() {
        let mut database = small();
        for (from, page) in [(0, 5), (1, 0)] {
            let item = Item::map(Fpage::page(Page(page), Rights::ALL), Page(0));
            database
                .send(Space(from), Space(from + 1), WINDOW, &[item])
                .unwrap();
        }
        assert_eq!(database.access(Space(2), 0, Access::Write), Ok(true));
        assert_eq!(database.clear(Space(3)), Err(Error::NoSuchSpace));
        let seen = Rights::READ | Rights::WRITE;
        assert_eq!(database.clear(Space(1)), Ok(seen));
        assert_eq!(database.clear(Space(1)), Ok(Rights::NONE));
        assert_eq!(database.entry(place(2, 0)), Ok(None));
        assert_eq!(database.entry(place(0, 5)).unwrap().unwrap().status, seen);
        assert_eq!(database.mappings().unwrap().count(), 32);
    }

    #[test]
    fn refusals_of_an_access() {
        let mut database = small();
        assert_eq!(
            database.access(Space(3), 0x40000, Access::Read),
            Err(Error::NoSuchSpace)
        );
        assert_eq!(
            database.access(Space(2), 0x40000, Access::Read),
            Err(Error::OutOfSpace)
        );
        assert_eq!(database.access(Space(0), 0x1ffff, Access::Write), Ok(true));
    }

    /// The last address is 0xffffffff. The mapping of its page is the sixteenth, the last of those that are asked for
    /// at once.
    #[test]
    fn the_last_page_of_the_largest_space() {
        let limits = Limits {
            spaces: 2,
            bits: 32,
            frames: 15,
        };
        let mut database = Database::new(limits).unwrap();
        let (root, last) = (place(0, 0), place(1, 1_048_575));
        let rights = Rights::READ | Rights::WRITE;
        let item = Item::map(Fpage::page(root.page, rights), last.page);
        let counts = database.send(Space(0), Space(1), WINDOW, &[item]).unwrap();
        assert_eq!(counts.linked, 1);
        assert_eq!(
            database.access(Space(1), 0xffff_f123, Access::Write),
            Ok(true)
        );
        assert_eq!(
            database.access(Space(1), 0xffff_efff, Access::Read),
            Ok(false)
        );
        assert_eq!(database.origin(last), Ok(Some(root)));
        assert_eq!(database.entry(place(1, 1_048_574)), Ok(None));
        assert_eq!(database.entry(place(1, 1_048_576)), Err(Error::OutOfSpace));
        let held: vec::Vec<_> = database.mappings().unwrap().map(|m| m.place).collect();
        assert_eq!((held.len(), held[15]), (16, last));
        let all = Fpage::pages(Page(0), 1_048_576, Rights::WRITE).unwrap();
        assert_eq!(database.unmap_page(Space(0), all), Ok(rights));
        assert_eq!(database.entry(last).unwrap().unwrap().rights, Rights::READ);
        let past = Fpage::from_word(0x217);
        assert_eq!(database.unmap_page(Space(0), past), Err(Error::OutOfSpace));
    }

    #[test]
    fn a_database_goes_to_another_thread_and_back() {
        let (mut database, page) = (small(), Fpage::page(Page(4), Rights::READ));
        let item = Item::map(page, Page(6));
        database.send(Space(0), Space(1), WINDOW, &[item]).unwrap();
        let there = thread::spawn(move || {
            assert_eq!(database.access(Space(1), 0x6000, Access::Read), Ok(true));
            let item = Item::map(Fpage::page(Page(6), Rights::READ), Page(8));
            database.send(Space(1), Space(2), WINDOW, &[item]).unwrap();
            database
        });
        let mut database = there.join().unwrap();
        assert_eq!(database.origin(place(2, 8)), Ok(Some(place(1, 6))));
        assert_eq!(database.unmap_page(Space(0), page), Ok(Rights::READ));
        assert_eq!(database.mappings().unwrap().count(), 32);
        thread::spawn(move || drop(database)).join().unwrap();
    }

    #[test]
    fn two_databases_are_apart() {
        let (mut one, other) = (small(), small());
        one.flush_page(Space(0), Fpage::complete(Rights::ALL))
            .unwrap();
        assert_eq!(one.mappings().unwrap().count(), 0);
        assert_eq!(other.mappings().unwrap().count(), 32);
    }
}
