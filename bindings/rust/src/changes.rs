use core::fmt;

use crate::database::place_of;
use crate::raw;
use crate::{Database, Error, Place, Rights};

/// What a page table says of a page that is held.
#[derive(Clone, Copy, Debug, PartialEq, Eq)]
pub struct TableEntry {
    /// Which frame the page holds.
    pub frame: u32,
    /// Which kinds of access it allows.
    pub rights: Rights,
}

/// A page that a call noted, and what it holds now.
#[derive(Clone, Copy, Debug, PartialEq, Eq)]
pub struct Change {
    /// The page.
    pub place: Place,
    /// Its frame and rights, if it holds something; otherwise its entry goes.
    pub entry: Option<TableEntry>,
}

impl From<&raw::Change> for Change {
    fn from(told: &raw::Change) -> Change {
        Change {
            place: place_of(told.space, told.page),
            entry: (told.held == 1).then(|| TableEntry {
                frame: told.frame,
                rights: Rights::from_bits(told.rights),
            }),
        }
    }
}

/// How many changes are asked for at once.
const SOME: usize = 32;

/// What the last call changed, page by page. It takes no memory but its own.
///
/// ```
/// use l4map::{Database, Fpage, Item, Limits, Page, Place, Rights, Space, TableEntry};
/// use std::collections::HashMap;
///
/// /// The page tables of a kernel.
/// type Tables = HashMap<Place, TableEntry>;
///
/// fn follow(tables: &mut Tables, database: &Database) -> Result<(), l4map::Error> {
///     for change in database.changes()? {
///         match change.entry {
///             Some(entry) => tables.insert(change.place, entry),
///             None => tables.remove(&change.place),
///         };
///     }
///     Ok(())
/// }
///
/// # fn main() -> Result<(), l4map::Error> {
/// let mut database = Database::new(Limits { spaces: 3, bits: 18, frames: 1 })?;
/// let mut tables = Tables::new();
/// database.note_changes(true)?;
///
/// let (window, page) = (Fpage::complete(Rights::NONE), Fpage::page(Page(0), Rights::READ));
/// database.send(Space(0), Space(1), window, &[Item::map(page, Page(0))])?;
/// follow(&mut tables, &database)?;
/// database.send(Space(1), Space(2), window, &[Item::map(page, Page(4))])?;
/// follow(&mut tables, &database)?;
/// let client = Place { space: Space(2), page: Page(4) };
/// assert_eq!(tables[&client], TableEntry { frame: 0, rights: Rights::READ });
///
/// // The page is taken from space 1, and so from space 2.
/// database.flush_page(Space(1), page)?;
/// follow(&mut tables, &database)?;
/// assert!(tables.is_empty());
/// # Ok(())
/// # }
/// ```
pub struct Changes<'a> {
    database: &'a Database,
    some: [raw::Change; SOME],
    /// The number of the first of `some`.
    first: usize,
    count: usize,
    given: usize,
}

impl<'a> Changes<'a> {
    /// All of a database.
    pub(crate) fn of(database: &'a Database) -> Result<Changes<'a>, Error> {
        let mut some = [raw::Change::default(); SOME];
        let count = database.read_changes(0, &mut some)?;
        Ok(Changes {
            database,
            some,
            first: 0,
            count,
            given: 0,
        })
    }

    /// Asks for those behind the last one, if there may be more.
    fn go_on(&mut self) {
        if self.count == SOME {
            self.first += SOME;
            // It is not refused: the database is lent, so that nothing can have halted it.
            let more = self.database.read_changes(self.first, &mut self.some);
            self.count = more.unwrap_or(0);
            self.given = 0;
        }
    }
}

impl Iterator for Changes<'_> {
    type Item = Change;

    fn next(&mut self) -> Option<Change> {
        if self.given == self.count {
            self.go_on();
        }
        let change = self.some[..self.count].get(self.given)?;
        self.given += 1;
        Some(change.into())
    }
}

impl fmt::Debug for Changes<'_> {
    fn fmt(&self, f: &mut fmt::Formatter<'_>) -> fmt::Result {
        f.debug_struct("Changes").finish_non_exhaustive()
    }
}
