//! Three kinds of number, each a type of its own, and the tag of a backend.
use crate::error::VfsError;
use crate::sys;
use std::fmt;

/// The index of a mount, 1 to 255; 0 is the tree itself.
pub type VfsIndex = u8;

/// The largest number of a node or of a backend's file: 2^56 − 1.
pub const VFS_MAX_INO: u64 = (1 << 56) - 1;

/// The number of the tree's root.
pub const ROOT_ID: NodeNumber = NodeNumber(1);

/// A full inode number, as the kernel sees it: index × 2^56 + number.
///
/// ```
/// use galdovar::VfsInode;
///
/// let kept = VfsInode(3 * (1 << 56) + 42);
/// assert_eq!(kept.fs_idx(), 3);
/// assert_eq!(kept.ino(), 42);
/// assert!(!kept.is_pseudo_fs());
/// ```
#[derive(Clone, Copy, Debug, PartialEq, Eq, PartialOrd, Ord, Hash)]
pub struct VfsInode(pub u64);

impl VfsInode {
    /// The index: the top 8 bits.
    pub const fn fs_idx(self) -> VfsIndex {
        (self.0 >> 56) as u8
    }

    /// The number under that index: the low 56 bits.
    pub const fn ino(self) -> u64 {
        self.0 & VFS_MAX_INO
    }

    /// Whether it is a number of the tree itself.
    pub const fn is_pseudo_fs(self) -> bool {
        self.fs_idx() == 0
    }
}

impl From<u64> for VfsInode {
    fn from(n: u64) -> VfsInode {
        VfsInode(n)
    }
}

impl From<VfsInode> for u64 {
    fn from(n: VfsInode) -> u64 {
        n.0
    }
}

impl fmt::Display for VfsInode {
    fn fmt(&self, f: &mut fmt::Formatter<'_>) -> fmt::Result {
        self.0.fmt(f)
    }
}

/// The number of a node of the tree. It becomes a full number by [`NodeNumber::to_inode`].
#[derive(Clone, Copy, Debug, PartialEq, Eq, PartialOrd, Ord, Hash)]
pub struct NodeNumber(pub u64);

impl NodeNumber {
    /// The full number, under index 0.
    ///
    /// ```
    /// use galdovar::{NodeNumber, VfsError, VfsInode};
    ///
    /// assert_eq!(NodeNumber(2).to_inode(), Ok(VfsInode(2)));
    /// assert_eq!(NodeNumber(1 << 56).to_inode(), Err(VfsError::Inode));
    /// ```
    pub fn to_inode(self) -> Result<VfsInode, VfsError> {
        convert_inode(0, BackendNumber(self.0))
    }
}

impl fmt::Display for NodeNumber {
    fn fmt(&self, f: &mut fmt::Formatter<'_>) -> fmt::Result {
        self.0.fmt(f)
    }
}

/// A number that a backend gave to a file of its own. It becomes a full number by [`convert_inode`].
#[derive(Clone, Copy, Debug, PartialEq, Eq, PartialOrd, Ord, Hash)]
pub struct BackendNumber(pub u64);

impl fmt::Display for BackendNumber {
    fn fmt(&self, f: &mut fmt::Formatter<'_>) -> fmt::Result {
        self.0.fmt(f)
    }
}

/// What stands for a backend in the tables. The host chooses it, and keeps the map from tag to backend.
#[derive(Clone, Copy, Debug, PartialEq, Eq, PartialOrd, Ord, Hash)]
pub struct Tag(pub u32);

impl Tag {
    /// The tag of an answer, where its field `has_…` says that there is one.
    pub(crate) fn told(has: u32, tag: u32) -> Option<Tag> {
        if has == 0 {
            None
        } else {
            Some(Tag(tag))
        }
    }
}

impl fmt::Display for Tag {
    fn fmt(&self, f: &mut fmt::Formatter<'_>) -> fmt::Result {
        self.0.fmt(f)
    }
}

/// The full number of a backend's number under an index: 0 for number 0, INODE above 2^56 − 1.
///
/// ```
/// use galdovar::{convert_inode, BackendNumber, VfsError, VfsInode};
///
/// assert_eq!(convert_inode(4, BackendNumber(1)), Ok(VfsInode(288_230_376_151_711_745)));
/// assert_eq!(convert_inode(4, BackendNumber(0)), Ok(VfsInode(0)));
/// assert_eq!(convert_inode(4, BackendNumber(1 << 56)), Err(VfsError::Inode));
/// ```
pub fn convert_inode(fs_idx: VfsIndex, number: BackendNumber) -> Result<VfsInode, VfsError> {
    let a = sys::convert_inode(fs_idx, number.0);
    VfsError::done(a.code)?;
    Ok(VfsInode(a.inode))
}
