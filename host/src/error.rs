//! The refusals, by their numbers.
use std::error::Error;
use std::fmt;
use std::io;

/// Why a call was refused. The numbers and their order are those of R15 in docs/RULES.md.
///
/// A refused call leaves the instance as it was, but for the mounts that R15 names: there the counter may have moved and
/// nodes may have been made.
///
/// ```
/// use galdovar::VfsError;
///
/// assert_eq!(VfsError::NoEnt.code(), 1);
/// assert_eq!(VfsError::NoEnt.errno(), Some(2));
/// assert_eq!(VfsError::Full.errno(), None);
/// assert_eq!(VfsError::Full.to_string(), "FULL (5): every index from 1 to 255 is held");
/// ```
#[derive(Clone, Copy, Debug, PartialEq, Eq, Hash)]
#[non_exhaustive]
pub enum VfsError {
    /// 1: a node or a name is unknown, or a number belongs to an index that nothing is mounted at. Errno 2.
    NoEnt,
    /// 2: a path is not UTF-8 or has no leading `/`, or a name is not allowed. Errno 22.
    Inval,
    /// 3: the path of a mount has over 4,096 bytes, or one of its names over 255.
    TooLong,
    /// 4: a largest number or a root number is above 2^56 − 1.
    Inode,
    /// 5: every index from 1 to 255 is held.
    Full,
    /// 6: the tree has no room for the nodes that are needed.
    NoRoom,
    /// 7: nothing is mounted at the path, or the slot of its mount is empty.
    NotFound,
    /// 8: a restored mount names index 0, which is the tree itself.
    BadIndex,
    /// 9: a start of the id mapping and its range sum to more than 2^32 − 1.
    BadMap,
    /// 10: saved bytes break their layout.
    BadSave,
    /// 11: a restore into an instance that has a node besides the root, or a mount.
    NotFresh,
    /// 12: the capacity is outside 1 to 1,024, the storage is too short or damaged, or too few bytes were lent for a save.
    Small,
    /// 13: option bits outside the mask of known bits.
    BadOpt,
    /// A number that this crate does not know. The library that it is meant for answers none.
    Other(u32),
}

impl VfsError {
    /// The refusal of an answer number; none for 0, which is "done".
    pub(crate) fn of(code: u32) -> Option<VfsError> {
        Some(match code {
            0 => return None,
            1 => VfsError::NoEnt,
            2 => VfsError::Inval,
            3 => VfsError::TooLong,
            4 => VfsError::Inode,
            5 => VfsError::Full,
            6 => VfsError::NoRoom,
            7 => VfsError::NotFound,
            8 => VfsError::BadIndex,
            9 => VfsError::BadMap,
            10 => VfsError::BadSave,
            11 => VfsError::NotFresh,
            12 => VfsError::Small,
            13 => VfsError::BadOpt,
            code => VfsError::Other(code),
        })
    }

    /// Done for answer number 0, else the refusal.
    pub(crate) fn done(code: u32) -> Result<(), VfsError> {
        match VfsError::of(code) {
            None => Ok(()),
            Some(e) => Err(e),
        }
    }

    /// The number of the refusal, 1 to 13; for `Other` the number itself.
    pub fn code(self) -> u32 {
        match self {
            VfsError::NoEnt => 1,
            VfsError::Inval => 2,
            VfsError::TooLong => 3,
            VfsError::Inode => 4,
            VfsError::Full => 5,
            VfsError::NoRoom => 6,
            VfsError::NotFound => 7,
            VfsError::BadIndex => 8,
            VfsError::BadMap => 9,
            VfsError::BadSave => 10,
            VfsError::NotFresh => 11,
            VfsError::Small => 12,
            VfsError::BadOpt => 13,
            VfsError::Other(code) => code,
        }
    }

    /// The errno for the kernel, where the rules give one: 2 for NOENT, 22 for INVAL.
    pub fn errno(self) -> Option<i32> {
        match self {
            VfsError::NoEnt => Some(2),
            VfsError::Inval => Some(22),
            _ => None,
        }
    }

    /// Its name in the rules, and what it means.
    fn words(self) -> (&'static str, &'static str) {
        match self {
            VfsError::NoEnt => ("NOENT", "no such node, name or mount"),
            VfsError::Inval => ("INVAL", "a path or a name that is not allowed"),
            VfsError::TooLong => ("TOOLONG", "a path over 4,096 bytes or a name over 255"),
            VfsError::Inode => ("INODE", "a number above 2^56 - 1"),
            VfsError::Full => ("FULL", "every index from 1 to 255 is held"),
            VfsError::NoRoom => ("NOROOM", "no room for the nodes that are needed"),
            VfsError::NotFound => ("NOTFOUND", "nothing is mounted there"),
            VfsError::BadIndex => ("BADINDEX", "index 0 is the tree itself"),
            VfsError::BadMap => ("BADMAP", "a start plus the range is above 2^32 - 1"),
            VfsError::BadSave => ("BADSAVE", "the saved bytes break their layout"),
            VfsError::NotFresh => ("NOTFRESH", "the instance has nodes or mounts already"),
            VfsError::Small => ("SMALL", "too few bytes, or storage that is damaged"),
            VfsError::BadOpt => ("BADOPT", "option bits outside the known mask"),
            VfsError::Other(_) => ("unknown", "a refusal that this crate does not know"),
        }
    }
}

impl fmt::Display for VfsError {
    fn fmt(&self, f: &mut fmt::Formatter<'_>) -> fmt::Result {
        let (name, what) = self.words();
        write!(f, "{} ({}): {}", name, self.code(), what)
    }
}

impl Error for VfsError {}

/// With the errno where there is one, so that a file system server can answer it.
///
/// ```
/// use galdovar::VfsError;
/// use std::io;
///
/// assert_eq!(io::Error::from(VfsError::NoEnt).raw_os_error(), Some(2));
/// assert_eq!(io::Error::from(VfsError::BadSave).kind(), io::ErrorKind::Other);
/// ```
impl From<VfsError> for io::Error {
    fn from(e: VfsError) -> io::Error {
        match e.errno() {
            Some(errno) => io::Error::from_raw_os_error(errno),
            None => io::Error::new(io::ErrorKind::Other, e),
        }
    }
}

/// A refused search for an index, or a refused mount: why, and how many indexes were visited.
///
/// The count is 0 where a mount was refused before the search, and 257 where every index is held.
#[derive(Clone, Copy, Debug, PartialEq, Eq, Hash)]
pub struct Refused {
    /// Why.
    pub error: VfsError,
    /// How many indexes the search visited.
    pub count: u32,
}

impl Refused {
    pub(crate) fn of(code: u32, count: u32) -> Result<(), Refused> {
        VfsError::done(code).map_err(|error| Refused { error, count })
    }
}

impl fmt::Display for Refused {
    fn fmt(&self, f: &mut fmt::Formatter<'_>) -> fmt::Result {
        write!(f, "{} ({} indexes visited)", self.error, self.count)
    }
}

impl Error for Refused {
    fn source(&self) -> Option<&(dyn Error + 'static)> {
        Some(&self.error)
    }
}

impl From<Refused> for VfsError {
    fn from(r: Refused) -> VfsError {
        r.error
    }
}

impl From<Refused> for io::Error {
    fn from(r: Refused) -> io::Error {
        r.error.into()
    }
}
