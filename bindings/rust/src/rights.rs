use core::fmt;
use core::ops::{BitAnd, BitOr, Sub};

/// A set of the rights to read, to write and to execute; also the status of a page, which kinds of access it has seen.
///
/// ```
/// use l4map::Rights;
///
/// let rights = Rights::READ | Rights::WRITE;
/// assert!(rights.contains(Rights::READ));
/// assert_eq!(rights - Rights::READ, Rights::WRITE);
/// assert_eq!(rights & Rights::EXECUTE, Rights::NONE);
/// assert_eq!(rights.to_string(), "rw-");
/// ```
#[derive(Clone, Copy, Debug, Default, PartialEq, Eq, Hash)]
pub struct Rights(u32);

impl Rights {
    /// No right.
    pub const NONE: Rights = Rights(0);
    /// To execute.
    pub const EXECUTE: Rights = Rights(1);
    /// To write.
    pub const WRITE: Rights = Rights(2);
    /// To read.
    pub const READ: Rights = Rights(4);
    /// All three.
    pub const ALL: Rights = Rights(7);

    /// The set of a number in which read is 4, write 2 and execute 1. Higher bits are left out.
    pub const fn from_bits(bits: u32) -> Rights {
        Rights(bits & 7)
    }

    /// The number of a set: read is 4, write 2 and execute 1, added up.
    pub const fn bits(self) -> u32 {
        self.0
    }

    /// Whether there is none.
    pub const fn is_empty(self) -> bool {
        self.0 == 0
    }

    /// Whether all of `other` are in the set.
    pub const fn contains(self, other: Rights) -> bool {
        self.0 & other.0 == other.0
    }
}

/// What is in either.
impl BitOr for Rights {
    type Output = Rights;

    fn bitor(self, other: Rights) -> Rights {
        Rights(self.0 | other.0)
    }
}

/// What is in both.
impl BitAnd for Rights {
    type Output = Rights;

    fn bitand(self, other: Rights) -> Rights {
        Rights(self.0 & other.0)
    }
}

/// What is in the first alone.
impl Sub for Rights {
    type Output = Rights;

    fn sub(self, other: Rights) -> Rights {
        Rights(self.0 & !other.0)
    }
}

/// Three letters or dashes, as `r-x`.
impl fmt::Display for Rights {
    fn fmt(&self, f: &mut fmt::Formatter<'_>) -> fmt::Result {
        let letter = |right, letter| if self.contains(right) { letter } else { '-' };
        write!(
            f,
            "{}{}{}",
            letter(Rights::READ, 'r'),
            letter(Rights::WRITE, 'w'),
            letter(Rights::EXECUTE, 'x')
        )
    }
}

#[cfg(test)]
mod tests {
    use super::Rights;
    use std::string::ToString;

    #[test]
    fn sets_of_rights() {
        assert_eq!((Rights::READ | Rights::EXECUTE).bits(), 5);
        assert_eq!(Rights::from_bits(14), Rights::READ | Rights::WRITE);
        assert_eq!(Rights::ALL - Rights::WRITE, Rights::from_bits(5));
        assert_eq!(Rights::from_bits(6) & Rights::from_bits(3), Rights::WRITE);
        assert!(Rights::ALL.contains(Rights::NONE));
        assert!(!Rights::READ.contains(Rights::ALL));
        assert!(Rights::NONE.is_empty());
        assert!(!Rights::EXECUTE.is_empty());
    }

    #[test]
    fn letters_of_rights() {
        assert_eq!(Rights::NONE.to_string(), "---");
        assert_eq!(Rights::from_bits(5).to_string(), "r-x");
        assert_eq!(Rights::from_bits(2).to_string(), "-w-");
        assert_eq!(Rights::ALL.to_string(), "rwx");
    }
}
