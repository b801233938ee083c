use core::fmt;

use crate::database::place_of;
use crate::raw;
use crate::{Database, Error, Place, Rights};

/// What a page holds, and from which page it came.
#[derive(Clone, Copy, Debug, PartialEq, Eq)]
pub struct Mapping {
    /// The page.
    pub place: Place,
    /// Which frame it holds.
    pub frame: u32,
    /// Which kinds of access it allows.
    pub rights: Rights,
    /// Which kinds of access it has seen since its status was cleared.
    pub status: Rights,
    /// The page from which it came; a root came from none.
    pub origin: Option<Place>,
}

impl From<&raw::Mapping> for Mapping {
    fn from(told: &raw::Mapping) -> Mapping {
        Mapping {
            place: place_of(told.space, told.page),
            frame: told.frame,
            rights: Rights::from_bits(told.rights),
            status: Rights::from_bits(told.status),
            origin: (told.has_origin == 1).then(|| place_of(told.origin_space, told.origin_page)),
        }
    }
}

/// How many mappings are asked for at once.
const SOME: usize = 16;

/// The mappings of a database, by rising place. It takes no memory but its own.
///
/// ```
/// use l4map::{Database, Limits, Rights};
///
/// # fn main() -> Result<(), l4map::Error> {
/// let database = Database::new(Limits { spaces: 2, bits: 18, frames: 2 })?;
/// for mapping in database.mappings()? {
///     assert_eq!(mapping.rights, Rights::ALL);
///     assert_eq!(mapping.place.page.0, mapping.frame);
///     assert_eq!(mapping.origin, None);
/// }
/// # Ok(())
/// # }
/// ```
pub struct Mappings<'a> {
    database: &'a Database,
    some: [raw::Mapping; SOME],
    count: usize,
    given: usize,
    which: Which,
}

/// Which mappings are told.
#[derive(Clone, Copy)]
pub(crate) enum Which {
    All,
    /// Those of the space where the listing starts.
    OfSpace,
    /// That of a page, and those that derive from it.
    Below(Place),
}

impl<'a> Mappings<'a> {
    /// Those of a database at or behind a page.
    pub(crate) fn from(
        database: &'a Database,
        which: Which,
        place: Place,
    ) -> Result<Mappings<'a>, Error> {
        let mut some = [raw::Mapping::default(); SOME];
        let count = database.read_mappings(which, place, &mut some)?;
        Ok(Mappings {
            database,
            some,
            count,
            given: 0,
            which,
        })
    }

    /// Asks for those behind the last one, if there may be more.
    fn go_on(&mut self) {
        if self.count == SOME {
            let last = self.some[SOME - 1];
            let behind = place_of(last.space, last.page + 1);
            // It is not refused: the database is lent, so that nothing can have halted it.
            let more = self
                .database
                .read_mappings(self.which, behind, &mut self.some);
            self.count = more.unwrap_or(0);
            self.given = 0;
        }
    }
}

impl Iterator for Mappings<'_> {
    type Item = Mapping;

    fn next(&mut self) -> Option<Mapping> {
        if self.given == self.count {
            self.go_on();
        }
        let mapping = Mapping::from(self.some[..self.count].get(self.given)?);
        self.given += 1;
        Some(mapping)
    }
}

impl fmt::Debug for Mappings<'_> {
    fn fmt(&self, f: &mut fmt::Formatter<'_>) -> fmt::Result {
        f.debug_struct("Mappings").finish_non_exhaustive()
    }
}

#[cfg(test)]
mod tests {
    use super::Mapping;
    use crate::{Access, Database, Error, Fpage, Item, Limits, Page, Place, Rights, Space};
    use std::vec::Vec;

    /// The pages 0 to 32 of space 0, of which so many are held, and the same in space 1.
    fn held_twice(frames: u32) -> (Database, Vec<Mapping>) {
        let limits = Limits {
            spaces: 2,
            bits: 18,
            frames,
        };
        let mut database = Database::new(limits).unwrap();
        let (all, some) = (Fpage::complete(Rights::ALL), Rights::READ | Rights::EXECUTE);
        let item = Item::map(all.with_rights(some), Page(0));
        database.send(Space(0), Space(1), all, &[item]).unwrap();
        let place = |space, page| Place {
            space: Space(space),
            page: Page(page),
        };
        let root = |page| Mapping {
            place: place(0, page),
            frame: page,
            rights: Rights::ALL,
            status: Rights::NONE,
            origin: None,
        };
        let mapped = |page| Mapping {
            place: place(1, page),
            rights: some,
            origin: Some(place(0, page)),
            ..root(page)
        };
        let wanted = (0..frames)
            .map(root)
            .chain((0..frames).map(mapped))
            .collect();
        (database, wanted)
    }

    #[test]
    fn mappings_by_rising_place() {
        for frames in [1, 7, 8, 9, 16, 32, 64] {
            let (database, wanted) = held_twice(frames);
            assert_eq!(database.mappings().unwrap().collect::<Vec<_>>(), wanted);
        }
    }

    #[test]
    fn mappings_from_a_page_on() {
        let (database, wanted) = held_twice(32);
        for (space, page, before) in [
            (0, 0, 0),
            (0, 31, 31),
            (0, 32, 32),
            (0, u32::MAX, 32),
            (1, 0, 32),
            (1, 31, 63),
            (1, 32, 64),
            (2, 0, 64),
            (u16::MAX, u32::MAX, 64),
        ] {
            let start = Place {
                space: Space(space),
                page: Page(page),
            };
            let told: Vec<_> = database.mappings_from(start).unwrap().collect();
            assert_eq!(told, wanted[before..], "{start}");
        }
    }

    #[test]
    fn mappings_of_one_space() {
        for frames in [1, 8, 9, 16, 32, 64] {
            let (database, wanted) = held_twice(frames);
            let half = frames as usize;
            for (space, of) in [(0, &wanted[..half]), (1, &wanted[half..])] {
                let mut mappings = database.mappings_of(Space(space)).unwrap();
                assert_eq!(mappings.by_ref().collect::<Vec<_>>(), of);
                assert_eq!(mappings.next(), None);
            }
            let refused = database.mappings_of(Space(2)).map(|_| ());
            assert_eq!(refused, Err(Error::NoSuchSpace));
        }
    }

    #[test]
    fn mappings_below_a_page() {
        let (mut database, wanted) = held_twice(3);
        let (all, place) = (Fpage::complete(Rights::ALL), |mapping: usize| {
            wanted[mapping].place
        });
        let below = |database: &Database, place| {
            let mappings = database.mappings_below(place).unwrap();
            mappings.map(|m| m.place).collect::<Vec<_>>()
        };
        // Page 1 of space 0 gives to page 1 of space 1, and that to pages 40 to 59 of space 0, one by one.
        for page in 40..60 {
            let item = Item::map(Fpage::page(Page(1), Rights::READ), Page(page));
            database.send(Space(1), Space(0), all, &[item]).unwrap();
        }
        let further = (40..60).map(|page| Place {
            space: Space(0),
            page: Page(page),
        });
        let further: Vec<_> = further.collect();
        assert_eq!(
            below(&database, place(4)),
            [further.clone(), [place(4)].to_vec()].concat()
        );
        assert_eq!(
            below(&database, place(1)),
            [[place(1)].to_vec(), further.clone(), [place(4)].to_vec()].concat()
        );
        assert_eq!(below(&database, place(0)), [place(0), place(3)]);
        assert_eq!(below(&database, further[0]), [further[0]]);
        let past = Place {
            space: Space(1),
            page: Page(64),
        };
        let refused = database.mappings_below(past).map(|_| ());
        assert_eq!(refused, Err(Error::OutOfSpace));
    }

    #[test]
    fn a_mapping_tells_its_status() {
        let (mut database, mut wanted) = held_twice(1);
        database.access(Space(1), 0, Access::Execute).unwrap();
        wanted[1].status = Rights::READ | Rights::EXECUTE;
        assert_eq!(database.mappings().unwrap().collect::<Vec<_>>(), wanted);
    }

    #[test]
    fn the_end_stays_the_end() {
        let (database, _) = held_twice(8);
        let mut mappings = database.mappings().unwrap();
        assert_eq!(mappings.by_ref().count(), 16);
        assert_eq!(mappings.next(), None);
        assert_eq!(mappings.next(), None);
    }
}
