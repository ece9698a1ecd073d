//! Stands for `src/abi/fuse_abi_linux.rs`: of the records and constants of Linux `fuse.h`, those that the two files
//! and `api/filesystem/mod.rs` name. `ROOT_ID` and the bits are those of `fuse.h`.

use std::cell::Cell;
use std::ops::BitOr;

pub use libc::{ino64_t, stat64};

/// `FUSE_ROOT_ID` of `fuse.h`.
pub const ROOT_ID: u64 = 1;

/// `std::io::Error::other`, for compilers older than 1.74, which do not offer it. Newer ones take their own.
pub trait OtherError {
    fn other<E>(error: E) -> std::io::Error
    where
        E: Into<Box<dyn std::error::Error + Send + Sync>>;
}

impl OtherError for std::io::Error {
    fn other<E>(error: E) -> std::io::Error
    where
        E: Into<Box<dyn std::error::Error + Send + Sync>>,
    {
        std::io::Error::new(std::io::ErrorKind::Other, error)
    }
}

thread_local! {
    static KNOWN: Cell<u64> = Cell::new(u64::MAX);
}

/// The set of option bits, as the crate `bitflags` makes it. Which bits are known is set from outside, since the port
/// is given them at creation.
#[derive(Clone, Copy, PartialEq, Eq, Debug)]
pub struct FsOptions(u64);

impl FsOptions {
    pub const ASYNC_READ: FsOptions = FsOptions(1);
    pub const ATOMIC_O_TRUNC: FsOptions = FsOptions(1 << 3);
    pub const BIG_WRITES: FsOptions = FsOptions(1 << 5);
    pub const HAS_IOCTL_DIR: FsOptions = FsOptions(1 << 11);
    pub const AUTO_INVAL_DATA: FsOptions = FsOptions(1 << 12);
    pub const DO_READDIRPLUS: FsOptions = FsOptions(1 << 13);
    pub const READDIRPLUS_AUTO: FsOptions = FsOptions(1 << 14);
    pub const ASYNC_DIO: FsOptions = FsOptions(1 << 15);
    pub const WRITEBACK_CACHE: FsOptions = FsOptions(1 << 16);
    pub const ZERO_MESSAGE_OPEN: FsOptions = FsOptions(1 << 17);
    pub const PARALLEL_DIROPS: FsOptions = FsOptions(1 << 18);
    pub const MAX_PAGES: FsOptions = FsOptions(1 << 22);
    pub const CACHE_SYMLINKS: FsOptions = FsOptions(1 << 23);
    pub const ZERO_MESSAGE_OPENDIR: FsOptions = FsOptions(1 << 24);
    pub const EXPLICIT_INVAL_DATA: FsOptions = FsOptions(1 << 25);
    pub const HANDLE_KILLPRIV_V2: FsOptions = FsOptions(1 << 28);
    pub const PERFILE_DAX: FsOptions = FsOptions(1 << 33);

    /// Sets the bits that `from_bits` knows.
    pub fn set_known(mask: u64) {
        KNOWN.with(|k| k.set(mask));
    }

    pub const fn empty() -> FsOptions {
        FsOptions(0)
    }

    pub fn bits(&self) -> u64 {
        self.0
    }

    pub fn is_empty(&self) -> bool {
        self.0 == 0
    }

    pub fn from_bits(bits: u64) -> Option<FsOptions> {
        if bits & !KNOWN.with(|k| k.get()) == 0 {
            Some(FsOptions(bits))
        } else {
            None
        }
    }
}

impl BitOr for FsOptions {
    type Output = FsOptions;
    fn bitor(self, other: FsOptions) -> FsOptions {
        FsOptions(self.0 | other.0)
    }
}

#[derive(Clone, Copy, Debug)]
pub struct OpenOptions(pub u32);

#[derive(Clone, Copy, Debug)]
pub struct SetattrValid(pub u32);

#[derive(Clone, Copy, Debug, Default)]
pub struct Attr {
    pub ino: u64,
    pub size: u64,
    pub blocks: u64,
    pub atime: u64,
    pub mtime: u64,
    pub ctime: u64,
    pub atimensec: u32,
    pub mtimensec: u32,
    pub ctimensec: u32,
    pub mode: u32,
    pub nlink: u32,
    pub uid: u32,
    pub gid: u32,
    pub rdev: u32,
    pub blksize: u32,
    pub flags: u32,
}

impl Attr {
    pub fn with_flags(st: stat64, flags: u32) -> Attr {
        Attr {
            ino: st.st_ino,
            size: st.st_size as u64,
            blocks: st.st_blocks as u64,
            mode: st.st_mode,
            uid: st.st_uid,
            gid: st.st_gid,
            blksize: st.st_blksize as u32,
            flags,
            ..Default::default()
        }
    }
}

impl From<Attr> for stat64 {
    fn from(attr: Attr) -> stat64 {
        // SAFETY: a record of plain numbers, for which zeros are values.
        let mut st: stat64 = unsafe { std::mem::zeroed() };
        st.st_ino = attr.ino;
        st.st_mode = attr.mode;
        st.st_uid = attr.uid;
        st.st_gid = attr.gid;
        st.st_size = attr.size as _;
        st.st_blocks = attr.blocks as _;
        st.st_blksize = attr.blksize as _;
        st
    }
}

#[derive(Clone, Copy, Debug, Default)]
pub struct EntryOut {
    pub nodeid: u64,
    pub generation: u64,
    pub entry_valid: u64,
    pub attr_valid: u64,
    pub entry_valid_nsec: u32,
    pub attr_valid_nsec: u32,
    pub attr: Attr,
}

#[derive(Clone, Copy, Debug, Default)]
pub struct FileLock {
    pub start: u64,
    pub end: u64,
    pub type_: u32,
    pub pid: u32,
}

#[derive(Clone, Copy, Debug, Default)]
pub struct InHeader {
    pub uid: u32,
    pub gid: u32,
    pub pid: u32,
}
