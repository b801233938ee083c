//! What calls note of the pages that they change, as a kernel reads it. Each wanted entry is worked out by hand.
#![cfg(feature = "std-heap")]

use std::collections::BTreeMap;

use l4map::{
    Access, Change, Database, Error, Fpage, Item, Limits, Page, Place, Rights, Space, TableEntry,
};

const WINDOW: Fpage = Fpage::complete(Rights::NONE);
const SPACES: u16 = 3;
const PAGES: u32 = 64;

/// Three spaces of 64 pages, of which the first holds all frames, and notes are asked for.
fn noting() -> Database {
    let limits = Limits {
        spaces: SPACES.into(),
        bits: 18,
        frames: PAGES,
    };
    let mut database = Database::new(limits).unwrap();
    database.note_changes(true).unwrap();
    database
}

fn place(space: u16, page: u32) -> Place {
    Place {
        space: Space(space),
        page: Page(page),
    }
}

fn held(space: u16, page: u32, frame: u32, rights: Rights) -> Change {
    Change {
        place: place(space, page),
        entry: Some(TableEntry { frame, rights }),
    }
}

fn gone(space: u16, page: u32) -> Change {
    Change {
        place: place(space, page),
        entry: None,
    }
}

/// Maps a page of a space to a page of the next space.
fn map(database: &mut Database, from: u16, page: u32, to_page: u32, rights: Rights) {
    let item = Item::map(Fpage::page(Page(page), rights), Page(to_page));
    let counts = database.send(Space(from), Space(from + 1), WINDOW, &[item]);
    assert_eq!(counts.unwrap().linked, 1);
}

/// What is told, by rising place; a page that is told twice with one entry comes once.
fn told(database: &Database) -> Vec<Change> {
    let mut told: Vec<_> = database.changes().unwrap().collect();
    told.sort_by_key(|change| change.place);
    told.dedup();
    told
}

#[test]
fn a_send_tells_the_page_with_frame_and_rights() {
    let mut database = noting();
    let read_execute = Rights::READ | Rights::EXECUTE;
    map(&mut database, 0, 3, 9, Rights::ALL);
    assert_eq!(told(&database), [held(1, 9, 3, Rights::ALL)]);
    map(&mut database, 1, 9, 40, read_execute);
    assert_eq!(told(&database), [held(2, 40, 3, read_execute)]);
}

#[test]
fn a_grant_tells_both_pages() {
    let mut database = noting();
    let item = Item::grant(Fpage::page(Page(5), Rights::ALL), Page(8));
    database.send(Space(0), Space(2), WINDOW, &[item]).unwrap();
    assert_eq!(told(&database), [gone(0, 5), held(2, 8, 5, Rights::ALL)]);
}

#[test]
fn a_chain_that_loses_its_page_is_told() {
    let mut database = noting();
    map(&mut database, 0, 3, 9, Rights::ALL);
    map(&mut database, 1, 9, 40, Rights::READ);
    let page = Fpage::page(Page(3), Rights::ALL);
    database.flush_page(Space(0), page).unwrap();
    assert_eq!(told(&database), [gone(0, 3), gone(1, 9), gone(2, 40)]);
}

#[test]
fn a_clear_tells_what_derives_from_the_space() {
    let mut database = noting();
    map(&mut database, 0, 3, 9, Rights::ALL);
    map(&mut database, 1, 9, 40, Rights::READ);
    database.clear(Space(1)).unwrap();
    assert_eq!(told(&database), [gone(1, 9), gone(2, 40)]);
}

/// The changes are read 32 at once.
#[test]
fn all_changes_are_told_at_and_beside_the_length_of_a_part() {
    let one = Item::map(Fpage::page(Page(7), Rights::READ), Page(63));
    for (pages, more) in [(1, 0), (16, 1), (32, 0), (32, 1), (64, 0)] {
        let mut database = noting();
        let run = Fpage::pages(Page(0), pages, Rights::READ).unwrap();
        let items = [Item::map(run, Page(0)), one];
        let sent = database.send(Space(0), Space(1), WINDOW, &items[..1 + more]);
        assert_eq!(sent.unwrap().linked, pages + more as u32);
        let mut wanted: Vec<_> = (0..pages).map(|p| held(1, p, p, Rights::READ)).collect();
        wanted.extend((more == 1).then(|| held(1, 63, 7, Rights::READ)));
        assert_eq!(told(&database), wanted);
    }
}

#[test]
fn the_end_stays_the_end() {
    let mut database = noting();
    let all = Item::map(Fpage::pages(Page(0), 32, Rights::ALL).unwrap(), Page(0));
    database.send(Space(0), Space(1), WINDOW, &[all]).unwrap();
    let mut changes = database.changes().unwrap();
    assert_eq!(changes.by_ref().count(), 32);
    assert_eq!(changes.next(), None);
    assert_eq!(changes.next(), None);
}

#[test]
fn nothing_is_told_where_notes_are_not_asked_for() {
    let mut database = noting();
    map(&mut database, 0, 3, 9, Rights::ALL);
    assert_eq!(told(&database).len(), 1);
    database.note_changes(false).unwrap();
    assert_eq!(told(&database), []);
    map(&mut database, 0, 4, 10, Rights::ALL);
    assert_eq!(told(&database), []);
    database.note_changes(true).unwrap();
    assert_eq!(told(&database), []);
    map(&mut database, 0, 5, 11, Rights::ALL);
    assert_eq!(told(&database), [held(1, 11, 5, Rights::ALL)]);
}

#[test]
fn an_access_changes_no_table() {
    let mut database = noting();
    map(&mut database, 0, 3, 9, Rights::READ);
    assert_eq!(database.access(Space(1), 0x9000, Access::Read), Ok(true));
    assert_eq!(told(&database), []);
}

/// It leaves no notes, or those of the call before, whose entries are still right.
#[test]
fn a_refused_call_tells_nothing_new() {
    let mut database = noting();
    let item = Item::map(Fpage::page(Page(3), Rights::ALL), Page(9));
    for (from, to, window, why) in [
        (1, 1, WINDOW, Error::SameSpace),
        (0, 1, Fpage::from_word(0xb7), Error::BadSize),
    ] {
        map(&mut database, 0, 3, 9, Rights::ALL);
        let before = told(&database);
        assert_eq!(
            database.send(Space(from), Space(to), window, &[item]),
            Err(why)
        );
        let after = told(&database);
        assert!(after.is_empty() || after == before, "{after:?}");
        database.clear(Space(1)).unwrap();
    }
}

/// The package is written for this version of the header.
#[test]
fn the_version_of_the_archive() {
    assert_eq!(l4map::version(), 3);
}

/// Numbers that look random: xorshift.
struct Chance(u32);

impl Chance {
    fn below(&mut self, n: u32) -> u32 {
        self.0 ^= self.0 << 13;
        self.0 ^= self.0 >> 17;
        self.0 ^= self.0 << 5;
        self.0 % n
    }

    fn space(&mut self) -> u16 {
        self.below(SPACES.into()) as u16
    }

    fn fpage(&mut self) -> Fpage {
        let pages = 1 << self.below(4);
        let first = self.below(PAGES / pages) * pages;
        Fpage::pages(Page(first), pages, Rights::from_bits(self.below(8))).unwrap()
    }

    fn item(&mut self) -> Item {
        let (fpage, base) = (self.fpage(), self.below(PAGES));
        match self.below(4) {
            0 => Item::grant(fpage, Page(base)),
            _ => Item::map(fpage, Page(base)),
        }
    }

    /// Makes a call of any kind.
    fn call(&mut self, database: &mut Database) -> Result<(), Error> {
        let number = self.space();
        let space = Space(number);
        match self.below(16) {
            0 => database.clear(space).map(|_| ()),
            1 => database
                .access(space, 4096 * self.below(PAGES), Access::Read)
                .map(|_| ()),
            2 => database.unmap(space, &mut [self.fpage(), self.fpage()]),
            3 => database.flush_page(space, self.fpage()).map(|_| ()),
            _ => {
                let to = Space((number + 1 + self.below(2) as u16) % SPACES);
                let items = [self.item(), self.item()];
                database.send(space, to, WINDOW, &items).map(|_| ())
            }
        }
    }
}

/// A table that the changes alone keep is that of what is held, after each of 50 calls of 40 databases; and no page is told
/// that is in neither of two tables.
#[test]
fn tables_follow_the_changes() {
    let (mut chance, mut most) = (Chance(2_463_534_242), 0);
    for _ in 0..40 {
        let mut database = noting();
        let root = |page| {
            (
                place(0, page),
                TableEntry {
                    frame: page,
                    rights: Rights::ALL,
                },
            )
        };
        let mut table: BTreeMap<_, _> = (0..PAGES).map(root).collect();
        for _ in 0..50 {
            let before = table.clone();
            chance.call(&mut database).unwrap();
            for change in database.changes().unwrap() {
                let held = before.contains_key(&change.place) || change.entry.is_some();
                assert!(held, "{} came and went", change.place);
                match change.entry {
                    Some(entry) => table.insert(change.place, entry),
                    None => table.remove(&change.place),
                };
            }
            let wanted = database.mappings().unwrap().map(|m| {
                let (frame, rights) = (m.frame, m.rights);
                (m.place, TableEntry { frame, rights })
            });
            assert_eq!(table, wanted.collect());
            most = most.max(database.changes().unwrap().count());
        }
    }
    assert!(most > 32, "no call changed more than {most} pages");
}
