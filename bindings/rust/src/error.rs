use core::fmt;

/// Why a call was refused. A refused call changes nothing, but the one that answers [`Error::Halted`] first.
///
/// ```
/// use l4map::{Database, Error, Fpage, Item, Limits, Page, Rights, Space};
///
/// # fn main() -> Result<(), l4map::Error> {
/// let mut database = Database::new(Limits { spaces: 2, bits: 18, frames: 1 })?;
/// let (window, item) = (Fpage::complete(Rights::NONE), Item::map(Fpage::page(Page(0), Rights::ALL), Page(0)));
///
/// let refused = database.send(Space(0), Space(2), window, &[item]).unwrap_err();
/// assert_eq!(refused, Error::NoSuchSpace);
/// assert_eq!(format!("{refused:?}: {refused}"), "NoSuchSpace: no such space");
/// # Ok(())
/// # }
/// ```
#[derive(Clone, Copy, Debug, PartialEq, Eq, Hash)]
#[non_exhaustive]
pub enum Error {
    /// An fpage's size field is 2 to 11, or it is 0 or 1 and there is a base.
    BadSize,
    /// An fpage's base is no multiple of its size.
    Misaligned,
    /// A page, an address or an fpage ends past the end of its space.
    OutOfSpace,
    /// The first word of an item is neither a map item's nor a grant item's.
    NotAnItem,
    /// An unmap has no fpages, or more than 64.
    BadControl,
    /// A space is named that there is not.
    NoSuchSpace,
    /// Sender and receiver are one space.
    SameSpace,
    /// The receiver's window is nil.
    NoWindow,
    /// A send has no items, or more than 31.
    BadCall,
    /// The limits are not served.
    BadLimits,
    /// Memory for a new database was refused.
    NoMemory,
    /// This call, or one before, ran out of memory. What was held is gone, and the database of no more use.
    Halted,
}

impl Error {
    /// What a code of `l4map.h` says: nothing was refused, or why.
    ///
    /// # Panics
    ///
    /// At a code that the handle of a [`Database`](crate::Database) never answers.
    pub(crate) fn check(code: u32) -> Result<(), Error> {
        Err(match code {
            0 => return Ok(()),
            1 => Error::BadSize,
            2 => Error::Misaligned,
            3 => Error::OutOfSpace,
            4 => Error::NotAnItem,
            5 => Error::BadControl,
            6 => Error::NoSuchSpace,
            7 => Error::SameSpace,
            8 => Error::NoWindow,
            9 => Error::BadCall,
            10 => Error::BadLimits,
            11 => Error::NoMemory,
            12 => Error::Halted,
            _ => unreachable!("code {code} of a handle that holds a database"),
        })
    }
}

impl fmt::Display for Error {
    fn fmt(&self, f: &mut fmt::Formatter<'_>) -> fmt::Result {
        f.write_str(match self {
            Error::BadSize => "an fpage has a bad size",
            Error::Misaligned => "an fpage is misaligned",
            Error::OutOfSpace => "past the end of the space",
            Error::NotAnItem => "not an item",
            Error::BadControl => "an unmap takes 1 to 64 fpages",
            Error::NoSuchSpace => "no such space",
            Error::SameSpace => "sender and receiver are one space",
            Error::NoWindow => "the window is nil",
            Error::BadCall => "a send takes 1 to 31 items",
            Error::BadLimits => "the limits are not served",
            Error::NoMemory => "no memory for a new database",
            Error::Halted => "the database ran out of memory and is halted",
        })
    }
}

impl core::error::Error for Error {}

#[cfg(test)]
mod tests {
    use super::Error;
    use std::string::ToString;

    #[test]
    fn codes_are_those_of_the_header() {
        assert_eq!(Error::check(0), Ok(()));
        let told: std::vec::Vec<_> = (1..=12)
            .map(|code| Error::check(code).unwrap_err())
            .collect();
        assert_eq!(
            told,
            [
                Error::BadSize,
                Error::Misaligned,
                Error::OutOfSpace,
                Error::NotAnItem,
                Error::BadControl,
                Error::NoSuchSpace,
                Error::SameSpace,
                Error::NoWindow,
                Error::BadCall,
                Error::BadLimits,
                Error::NoMemory,
                Error::Halted,
            ]
        );
        assert_eq!(
            Error::SameSpace.to_string(),
            "sender and receiver are one space"
        );
    }
}
