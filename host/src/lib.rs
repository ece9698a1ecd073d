//! Galdovar for a Rust host: a tree of mounted file systems, and the inode numbers that it hands out.
//!
//! The calls are proved functions of the static library `gateway`, written in Rattle. This crate declares them, owns the
//! bytes that an instance lives in, and turns numbers into Rust's enums and errors. What each call answers is said in
//! docs/RULES.md; R15 there is the table of refusals.
//!
//! ```
//! use galdovar::{convert_inode, Backend, BackendNumber, Tag, Vfs, VfsError, VfsOptions};
//!
//! # fn main() -> Result<(), VfsError> {
//! let mut vfs = Vfs::new(64, 0, &VfsOptions::new())?;
//!
//! // The limits of a laboratory are mounted, and a session keeps the number of a file in them.
//! let bern = vfs.mount(Backend::new(Tag(7)), "/labs/bern")?;
//! let kept = convert_inode(bern.fs_idx, BackendNumber(42))?;
//! assert!(vfs.route(kept).is_ok());
//!
//! // Tightened limits are mounted over them: the number that was kept is not there any more.
//! let tighter = vfs.mount(Backend::new(Tag(8)), "/labs/bern")?;
//! assert_eq!(tighter.replaced, Some(Tag(7)));
//! assert_eq!(vfs.route(kept), Err(VfsError::NoEnt));
//! # Ok(())
//! # }
//! ```
//!
//! An index comes round again. So a gateway whose sessions keep numbers gives a stamp along with each, and judges by it:
//! README.md of this crate, "Kept numbers".
#![deny(unsafe_code)]
#![warn(missing_docs)]

mod error;
mod exports;
mod indexes;
mod listing;
mod numbers;
mod options;
#[allow(unsafe_code)]
mod sys;
mod vfs;

pub use error::{Refused, VfsError};
pub use indexes::{Allocated, Indexes};
pub use listing::{DirEntries, DirEntry};
pub use numbers::{
    convert_inode, BackendNumber, NodeNumber, Tag, VfsIndex, VfsInode, ROOT_ID, VFS_MAX_INO,
};
pub use options::{map_back, map_out, IdMapping, VfsOptions};
pub use vfs::{
    storage_for, Backend, Entry, Ids, Mounted, RestoredMount, Rootfs, Route, Unmounted, Vfs,
    DIR_MODE, MAX_NODES, MAX_SAVED,
};

/// The check of one path component: `.`, `..`, a `/` or a byte 0 is INVAL. The empty name passes.
///
/// ```
/// use galdovar::{validate_path_component, VfsError};
///
/// assert_eq!(validate_path_component("limits"), Ok(()));
/// assert_eq!(validate_path_component(".."), Err(VfsError::Inval));
/// ```
pub fn validate_path_component(name: impl AsRef<[u8]>) -> Result<(), VfsError> {
    VfsError::done(sys::validate_path_component(name.as_ref()).code)
}

/// The code of the README, run with the tests.
#[cfg(doctest)]
#[doc = include_str!("../README.md")]
struct Readme;
