use core::fmt;

use crate::Rights;

const PAGE_BITS: u32 = 12;
const PAGE_BYTES: u32 = 1 << PAGE_BITS;

/// How many pages a space has at most: those of all addresses of 32 bits.
const PAGES: u32 = 1 << (u32::BITS - PAGE_BITS);

/// An address space, by its number from 0.
#[derive(Clone, Copy, Debug, PartialEq, Eq, PartialOrd, Ord, Hash)]
pub struct Space(pub u16);

/// A page of a space, by its number from 0: page `i` has the addresses from `4096 * i` on. The largest space has the
/// pages 0 to 1,048,575.
///
/// ```
/// use l4map::Page;
///
/// assert_eq!(Page::at(0x5abc), Page(5));
/// assert_eq!(Page(5).address(), 0x5000);
/// ```
#[derive(Clone, Copy, Debug, PartialEq, Eq, PartialOrd, Ord, Hash)]
pub struct Page(pub u32);

impl Page {
    /// The page that has an address.
    pub const fn at(address: u32) -> Page {
        Page(address / PAGE_BYTES)
    }

    /// The first address of the page.
    ///
    /// # Panics
    ///
    /// If the page is not below 2^20: the addresses of the largest space have 32 bits.
    pub const fn address(self) -> u32 {
        assert!(self.0 < PAGES, "pages are 0 to 1,048,575");
        self.0 * PAGE_BYTES
    }
}

/// The number.
impl fmt::Display for Page {
    fn fmt(&self, f: &mut fmt::Formatter<'_>) -> fmt::Result {
        self.0.fmt(f)
    }
}

/// A page of one of the spaces.
#[derive(Clone, Copy, Debug, PartialEq, Eq, PartialOrd, Ord, Hash)]
pub struct Place {
    /// The space.
    pub space: Space,
    /// The page of the space.
    pub page: Page,
}

/// The space and the page, as `2:4`.
impl fmt::Display for Place {
    fn fmt(&self, f: &mut fmt::Formatter<'_>) -> fmt::Result {
        write!(f, "{}:{}", self.space.0, self.page)
    }
}

/// A run of pages and a set of rights, as a word of 32 bits: the number of pages is a power of two, and the first page
/// a multiple of that number.
///
/// ```
/// use l4map::{Fpage, Page, Rights};
///
/// let fpage = Fpage::pages(Page(4), 4, Rights::ALL).unwrap();
/// assert_eq!(fpage.word(), 0x40e7);
/// assert_eq!(Fpage::page(Page(5), Rights::READ | Rights::WRITE).word(), 0x50c6);
/// assert_eq!(Fpage::complete(Rights::READ).word(), 0x14);
/// ```
#[repr(transparent)]
#[derive(Clone, Copy, Debug, PartialEq, Eq, Hash)]
pub struct Fpage(u32);

impl Fpage {
    /// No page.
    pub const NIL: Fpage = Fpage(0);

    /// One page.
    ///
    /// # Panics
    ///
    /// If the page is not below 2^20: the addresses of the largest space have 32 bits.
    pub const fn page(page: Page, rights: Rights) -> Fpage {
        Fpage(page.address() + (PAGE_BITS << 4) + rights.bits())
    }

    /// So many pages from a first one on, if that is an fpage of the largest space, which has 2^20 pages.
    pub const fn pages(first: Page, pages: u32, rights: Rights) -> Option<Fpage> {
        if !pages.is_power_of_two() || first.0 % pages != 0 || pages > PAGES || first.0 >= PAGES {
            return None;
        }
        let size = PAGE_BITS + pages.trailing_zeros();
        Some(Fpage(first.address() + (size << 4) + rights.bits()))
    }

    /// All pages of the space.
    pub const fn complete(rights: Rights) -> Fpage {
        Fpage((1 << 4) + rights.bits())
    }

    /// Any word; a call refuses those that are no fpages of its space.
    pub const fn from_word(word: u32) -> Fpage {
        Fpage(word)
    }

    /// The word.
    pub const fn word(self) -> u32 {
        self.0
    }

    /// The rights; in the answer of an unmap the status.
    pub const fn rights(self) -> Rights {
        Rights::from_bits(self.0)
    }

    /// The same pages with other rights.
    pub const fn with_rights(self, rights: Rights) -> Fpage {
        Fpage(self.0 & !7 | rights.bits())
    }
}

/// What a send sends, as two words: an fpage of the sender, and where it goes in the receiver's window.
///
/// ```
/// use l4map::{Fpage, Item, Page, Rights};
///
/// let fpage = Fpage::page(Page(5), Rights::READ | Rights::WRITE);
/// assert_eq!(Item::map(fpage, Page(9)).words(), [0x9008, 0x50c6]);
/// assert_eq!(Item::grant(fpage, Page(0)).words(), [0xa, 0x50c6]);
/// ```
#[repr(transparent)]
#[derive(Clone, Copy, Debug, PartialEq, Eq, Hash)]
pub struct Item([u32; 2]);

impl Item {
    /// Maps the fpage to the page `base` of the receiver, or where that page lies in the larger of fpage and window.
    ///
    /// # Panics
    ///
    /// If `base` is not below 2^20.
    pub const fn map(fpage: Fpage, base: Page) -> Item {
        Item([base.address() + 8, fpage.word()])
    }

    /// Grants the fpage: the sender holds it no longer.
    ///
    /// # Panics
    ///
    /// If `base` is not below 2^20.
    pub const fn grant(fpage: Fpage, base: Page) -> Item {
        Item([base.address() + 10, fpage.word()])
    }

    /// Any two words; a send refuses those that are no item.
    pub const fn from_words(words: [u32; 2]) -> Item {
        Item(words)
    }

    /// The two words.
    pub const fn words(self) -> [u32; 2] {
        self.0
    }
}

#[cfg(test)]
mod tests {
    use super::{Fpage, Item, Page, Place, Space};
    use crate::Rights;
    use std::string::ToString;

    #[test]
    fn words_of_fpages() {
        for (fpage, word) in [
            (Some(Fpage::NIL), 0),
            (Some(Fpage::complete(Rights::ALL)), 0x17),
            (Some(Fpage::page(Page(0), Rights::ALL)), 0xc7),
            (Some(Fpage::page(Page(4095), Rights::NONE)), 0xfff0c0),
            (Some(Fpage::page(Page(1_048_575), Rights::ALL)), 0xfffff0c7),
            (Fpage::pages(Page(0), 1, Rights::READ), 0xc4),
            (Fpage::pages(Page(0), 2, Rights::ALL), 0xd7),
            (Fpage::pages(Page(0), 32, Rights::ALL), 0x117),
            (Fpage::pages(Page(2048), 2048, Rights::WRITE), 0x800172),
            (Fpage::pages(Page(1_048_575), 1, Rights::NONE), 0xfffff0c0),
            (
                Fpage::pages(Page(524_288), 524_288, Rights::WRITE),
                0x800001f2,
            ),
            (Fpage::pages(Page(0), 1_048_576, Rights::READ), 0x204),
        ] {
            assert_eq!(fpage.map(Fpage::word), Some(word));
        }
    }

    #[test]
    fn no_fpages() {
        assert_eq!(Fpage::pages(Page(0), 0, Rights::ALL), None);
        assert_eq!(Fpage::pages(Page(0), 3, Rights::ALL), None);
        assert_eq!(Fpage::pages(Page(2), 4, Rights::ALL), None);
        assert_eq!(Fpage::pages(Page(1_048_576), 1, Rights::ALL), None);
        assert_eq!(Fpage::pages(Page(1_048_576), 1_048_576, Rights::ALL), None);
        assert_eq!(Fpage::pages(Page(0), 2_097_152, Rights::ALL), None);
        assert_eq!(Fpage::pages(Page(1 << 31), 1 << 31, Rights::ALL), None);
    }

    #[test]
    fn rights_of_fpages() {
        let fpage = Fpage::from_word(0x50c6);
        assert_eq!(fpage.rights(), Rights::READ | Rights::WRITE);
        assert_eq!(fpage.with_rights(Rights::EXECUTE).word(), 0x50c1);
    }

    #[test]
    fn words_of_items() {
        let fpage = Fpage::page(Page(1), Rights::READ);
        assert_eq!(Item::map(fpage, Page(4095)).words(), [0xfff008, 0x10c4]);
        assert_eq!(
            Item::map(fpage, Page(1_048_575)).words(),
            [0xfffff008, 0x10c4]
        );
        assert_eq!(Item::grant(fpage, Page(3)).words(), [0x300a, 0x10c4]);
        assert_eq!(
            Item::grant(fpage, Page(1_048_575)).words(),
            [0xfffff00a, 0x10c4]
        );
        assert_eq!(Item::from_words([4, 5]).words(), [4, 5]);
    }

    #[test]
    #[should_panic(expected = "pages are 0 to 1,048,575")]
    fn no_page_without_an_address() {
        let _ = Fpage::page(Page(1_048_576), Rights::ALL);
    }

    #[test]
    #[should_panic(expected = "pages are 0 to 1,048,575")]
    fn no_page_to_map_to_without_an_address() {
        let _ = Item::map(Fpage::NIL, Page(1_048_576));
    }

    #[test]
    #[should_panic(expected = "pages are 0 to 1,048,575")]
    fn no_page_to_grant_to_without_an_address() {
        let _ = Item::grant(Fpage::NIL, Page(u32::MAX));
    }

    #[test]
    fn places_are_told_by_space_and_page() {
        let place = Place {
            space: Space(2),
            page: Page(4),
        };
        assert_eq!(place.to_string(), "2:4");
        assert!(
            place
                > Place {
                    space: Space(1),
                    page: Page(5)
                }
        );
    }
}
