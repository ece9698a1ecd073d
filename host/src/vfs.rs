//! An instance: its storage, and the calls on it.
use crate::error::{Refused, VfsError};
use crate::numbers::{BackendNumber, NodeNumber, Tag, VfsIndex, VfsInode, VFS_MAX_INO};
use crate::options::VfsOptions;
use crate::sys;
use std::fmt;

/// The largest node capacity of an instance, the root counted.
pub const MAX_NODES: usize = 1024;

/// The mode of a directory with all permissions, which entries of the tree have.
pub const DIR_MODE: u32 = 16895;

/// How many bytes the longest saved state has.
pub const MAX_SAVED: usize = STATE_END + LONGEST_RECORD * (MAX_NODES - 1);

/// The bytes of an instance besides those of its nodes, and those of one node.
const TABLES: usize = 8192;
const NODE: usize = 512;

/// The bytes of options and trailer of a saved state, and those of a node's record with the longest name.
const STATE_END: usize = 32 + 24;
const LONGEST_RECORD: usize = 18 + 255;

/// How many bytes an instance of a node capacity takes.
///
/// ```
/// assert_eq!(galdovar::storage_for(64), 40_960);
/// ```
pub const fn storage_for(nodes: usize) -> usize {
    nodes.saturating_mul(NODE).saturating_add(TABLES)
}

/// What a mount brings: the backend's tag, and the numbers of its root.
///
/// ```
/// use galdovar::{Backend, BackendNumber, Tag};
///
/// let b = Backend { uid: 1000, gid: 1000, ..Backend::new(Tag(7)) };
/// assert_eq!(b.root, BackendNumber(1));
/// ```
#[derive(Clone, Copy, Debug, PartialEq, Eq, Hash)]
pub struct Backend {
    /// The tag by which the host knows the backend.
    pub tag: Tag,
    /// The number of its root directory.
    pub root: BackendNumber,
    /// The largest number that it gives to a file.
    pub largest: u64,
    /// The user id of its root.
    pub uid: u32,
    /// The group id of its root.
    pub gid: u32,
    /// The mode of its root.
    pub mode: u32,
}

impl Backend {
    /// A backend with root number 1, every number up to [`VFS_MAX_INO`], ids 0 and [`DIR_MODE`].
    pub const fn new(tag: Tag) -> Backend {
        Backend { tag, root: BackendNumber(1), largest: VFS_MAX_INO, uid: 0, gid: 0, mode: DIR_MODE }
    }
}

/// What a mount answers.
#[derive(Clone, Copy, Debug, PartialEq, Eq, Hash)]
pub struct Mounted {
    /// The index that the mount got, 1 to 255.
    pub fs_idx: VfsIndex,
    /// How many indexes the search visited.
    pub count: u32,
    /// The tag that the slot of the mount before held; none where there was no mount, or its slot was empty.
    pub replaced: Option<Tag>,
}

/// What a restored mount answers.
#[derive(Clone, Copy, Debug, PartialEq, Eq, Hash)]
pub struct RestoredMount {
    /// The tag that the slot of the mount before held; none where there was no mount, or its slot was empty.
    pub replaced: Option<Tag>,
    /// The tag that another mount had in the slot of this index, and has no more.
    pub displaced: Option<Tag>,
}

/// What an unmount answers.
#[derive(Clone, Copy, Debug, PartialEq, Eq, Hash)]
pub struct Unmounted {
    /// The node that it stood on.
    pub node: NodeNumber,
    /// That node's parent.
    pub parent: NodeNumber,
    /// The tag that is free now; none where the slot was empty already.
    pub released: Option<Tag>,
}

/// What a root query finds.
#[derive(Clone, Copy, Debug, PartialEq, Eq, Hash)]
pub struct Rootfs {
    /// The tag of the backend mounted there.
    pub tag: Tag,
    /// Its index.
    pub fs_idx: VfsIndex,
}

/// Where a full number goes.
#[derive(Clone, Copy, Debug, PartialEq, Eq, Hash)]
pub enum Route {
    /// To the tree itself: [`Vfs::lookup`] and [`Vfs::readdir`] answer for this node, if it lives.
    Tree(NodeNumber),
    /// To a backend.
    Backend {
        /// Its tag.
        tag: Tag,
        /// Its index.
        fs_idx: VfsIndex,
        /// Its own number for the file.
        number: BackendNumber,
    },
}

/// What a lookup finds.
#[derive(Clone, Copy, Debug, PartialEq, Eq, Hash)]
pub struct Entry {
    /// The full number.
    pub inode: VfsInode,
    /// The mode.
    pub mode: u32,
    /// The user id, mapped.
    pub uid: u32,
    /// The group id, mapped.
    pub gid: u32,
    /// The block size: 4,096 for a directory of the tree, 0 for a mounted root.
    pub blksize: u32,
}

/// User and group id after mapping.
#[derive(Clone, Copy, Debug, PartialEq, Eq, Hash)]
pub struct Ids {
    /// The user id.
    pub uid: u32,
    /// The group id.
    pub gid: u32,
}

/// One instance, with the storage that it lives in.
///
/// Calls that change it take `&mut self`, the others `&self`, and it is `Send` and `Sync`: behind an
/// [`RwLock`](std::sync::RwLock) many readers may ask at once. All that it knows stands in its bytes, so a clone is an
/// instance of its own.
///
/// Every call but [`Vfs::create`] answers [`VfsError::Small`] where the storage breaks the layout rule. Storage that
/// [`Vfs::new`] made and that only these calls changed never does.
///
/// ```
/// use galdovar::{Backend, Tag, Vfs, VfsOptions};
///
/// # fn main() -> Result<(), galdovar::VfsError> {
/// let mut vfs = Vfs::new(64, 0, &VfsOptions::new())?;
/// let m = vfs.mount(Backend::new(Tag(7)), "/labs/bern")?;
/// assert_eq!(m.fs_idx, 1);
/// assert_eq!(vfs.get_rootfs("/labs/bern")?.unwrap().tag, Tag(7));
/// assert_eq!(vfs.umount("/labs/bern")?.released, Some(Tag(7)));
/// # Ok(())
/// # }
/// ```
#[derive(Clone)]
pub struct Vfs {
    storage: Box<[u8]>,
}

impl Vfs {
    /// A new instance with room for `nodes` nodes, the root counted, in storage of its own.
    ///
    /// `known` is the mask of option bits that the host knows. Refused: SMALL for a capacity outside 1 to 1,024, BADOPT
    /// for option bits outside the mask, BADMAP where a start of the mapping plus its range is above 2^32 − 1.
    ///
    /// ```
    /// use galdovar::{IdMapping, Vfs, VfsError, VfsOptions};
    ///
    /// let opts = VfsOptions { in_opts: 0b100, ..VfsOptions::new() };
    /// assert!(Vfs::new(64, 0b111, &opts).is_ok());
    /// assert_eq!(Vfs::new(64, 0b011, &opts).unwrap_err(), VfsError::BadOpt);
    /// assert_eq!(Vfs::new(1025, 0b111, &opts).unwrap_err(), VfsError::Small);
    ///
    /// let opts = VfsOptions { id_mapping: IdMapping::new(u32::MAX, 0, 1), ..VfsOptions::new() };
    /// assert_eq!(Vfs::new(64, 0, &opts).unwrap_err(), VfsError::BadMap);
    /// ```
    pub fn new(nodes: usize, known: u64, options: &VfsOptions) -> Result<Vfs, VfsError> {
        let mut vfs = Vfs::from_bytes(vec![0; storage_for(nodes.min(MAX_NODES))]);
        vfs.create(nodes, known, options)?;
        Ok(vfs)
    }

    /// Makes a new instance in the storage at hand, whatever it held. A refusal leaves every byte of it.
    ///
    /// ```
    /// use galdovar::{storage_for, Vfs, VfsError, VfsOptions};
    ///
    /// let mut vfs = Vfs::from_bytes(vec![255; storage_for(64)]);
    /// assert_eq!(vfs.create(65, 0, &VfsOptions::new()), Err(VfsError::Small));
    /// assert_eq!(vfs.create(64, 0, &VfsOptions::new()), Ok(()));
    /// assert_eq!(vfs.initialized(), Ok(false));
    /// ```
    pub fn create(
        &mut self,
        nodes: usize,
        known: u64,
        options: &VfsOptions,
    ) -> Result<(), VfsError> {
        VfsError::done(sys::create(&mut self.storage, nodes, known, options).code)
    }

    /// Takes bytes for the storage of an instance, whatever they are, and does not look at them.
    ///
    /// They may come from [`Vfs::into_bytes`], be copied from shared memory that something else wrote to, or come from a
    /// test. Every call but [`Vfs::create`] answers SMALL on bytes that break the layout rule. Behind a good header every
    /// pattern of bytes stands for some tables, and calls answer by these.
    ///
    /// ```
    /// use galdovar::{Vfs, VfsError};
    ///
    /// let vfs = Vfs::from_bytes(vec![0; 40_960]);
    /// assert_eq!(vfs.path_walk("/"), Err(VfsError::Small));
    /// ```
    pub fn from_bytes(storage: Vec<u8>) -> Vfs {
        Vfs { storage: storage.into_boxed_slice() }
    }

    /// The bytes of the storage. docs/LAYOUT.md says where each number stands.
    pub fn as_bytes(&self) -> &[u8] {
        &self.storage
    }

    /// The storage itself. [`Vfs::from_bytes`] goes on with it.
    ///
    /// ```
    /// use galdovar::{Backend, Tag, Vfs, VfsOptions};
    ///
    /// # fn main() -> Result<(), galdovar::VfsError> {
    /// let mut vfs = Vfs::new(64, 0, &VfsOptions::new())?;
    /// vfs.mount(Backend::new(Tag(7)), "/a")?;
    /// let moved = Vfs::from_bytes(vfs.into_bytes());
    /// assert_eq!(moved.get_rootfs("/a")?.unwrap().tag, Tag(7));
    /// # Ok(())
    /// # }
    /// ```
    pub fn into_bytes(self) -> Vec<u8> {
        self.storage.into_vec()
    }

    /// From now on a done unmount also removes its node; the root always stays. Nothing unsets this.
    ///
    /// Then unmount what is mounted below a path before the path itself. Else what stands below stays mounted where no
    /// path reaches it, and its numbers still lead into it.
    ///
    /// ```
    /// use galdovar::{Backend, Tag, Vfs, VfsOptions};
    ///
    /// # fn main() -> Result<(), galdovar::VfsError> {
    /// let mut vfs = Vfs::new(64, 0, &VfsOptions::new())?;
    /// vfs.set_remove_pseudo_root()?;
    /// vfs.mount(Backend::new(Tag(7)), "/a")?;
    /// vfs.umount("/a")?;
    /// assert_eq!(vfs.path_walk("/a")?, None);
    /// # Ok(())
    /// # }
    /// ```
    pub fn set_remove_pseudo_root(&mut self) -> Result<(), VfsError> {
        VfsError::done(sys::set_remove_pseudo_root(&mut self.storage).code)
    }

    /// Whether a state whose `in_opts` is not 0 was restored: false for a new instance.
    ///
    /// ```
    /// use galdovar::{Vfs, VfsOptions};
    ///
    /// # fn main() -> Result<(), galdovar::VfsError> {
    /// let opts = VfsOptions { in_opts: 1, ..VfsOptions::new() };
    /// let old = Vfs::new(64, 1, &opts)?;
    /// let mut new = Vfs::new(64, 1, &opts)?;
    /// assert!(!new.initialized()?);
    /// new.restore_from_bytes(&old.save_to_bytes()?)?;
    /// assert!(new.initialized()?);
    /// # Ok(())
    /// # }
    /// ```
    pub fn initialized(&self) -> Result<bool, VfsError> {
        let a = sys::initialized(&self.storage);
        VfsError::done(a.code)?;
        Ok(a.initialized != 0)
    }

    /// The options as they stand: those of creation, or of the state restored last.
    ///
    /// ```
    /// use galdovar::{IdMapping, Vfs, VfsOptions};
    ///
    /// # fn main() -> Result<(), galdovar::VfsError> {
    /// let opts = VfsOptions { no_open: true, id_mapping: IdMapping::new(0, 1000, 10), ..VfsOptions::new() };
    /// assert_eq!(Vfs::new(1, 0, &opts)?.options()?, opts);
    /// # Ok(())
    /// # }
    /// ```
    pub fn options(&self) -> Result<VfsOptions, VfsError> {
        let a = sys::options(&self.storage);
        VfsError::done(a.code)?;
        Ok(VfsOptions::of(&a))
    }

    /// User and group id by the mapping of creation: out to the client, or back from it.
    ///
    /// ```
    /// use galdovar::{Ids, IdMapping, Vfs, VfsOptions};
    ///
    /// # fn main() -> Result<(), galdovar::VfsError> {
    /// let opts = VfsOptions { id_mapping: IdMapping::new(0, 1000, 10), ..VfsOptions::new() };
    /// let vfs = Vfs::new(1, 0, &opts)?;
    /// assert_eq!(vfs.remap_attr_id(true, 3, 77)?, Ids { uid: 1003, gid: 77 });
    /// assert_eq!(vfs.remap_attr_id(false, 1003, 77)?, Ids { uid: 3, gid: 77 });
    /// # Ok(())
    /// # }
    /// ```
    pub fn remap_attr_id(
        &self,
        map_internal_to_external: bool,
        uid: u32,
        gid: u32,
    ) -> Result<Ids, VfsError> {
        let a = sys::remap_attr_id(&self.storage, map_internal_to_external, uid, gid);
        VfsError::done(a.code)?;
        Ok(Ids { uid: a.uid, gid: a.gid })
    }

    /// Mounts a backend at a path, and makes the nodes that the path needs. A mount that stood there is replaced.
    ///
    /// Refused, in this order: SMALL, TOOLONG, INVAL (not UTF-8), INODE (largest number), NOROOM, FULL, INVAL (no leading
    /// `/`), INODE (root number). From FULL on the counter has moved.
    ///
    /// ```
    /// use galdovar::{Backend, Refused, Tag, Vfs, VfsError, VfsOptions};
    ///
    /// # fn main() -> Result<(), VfsError> {
    /// let mut vfs = Vfs::new(64, 0, &VfsOptions::new())?;
    /// assert_eq!(vfs.mount(Backend::new(Tag(7)), "/a")?.fs_idx, 1);
    ///
    /// let over = vfs.mount(Backend::new(Tag(8)), "/a")?;
    /// assert_eq!((over.fs_idx, over.replaced), (2, Some(Tag(7))));
    ///
    /// let refused = vfs.mount(Backend::new(Tag(9)), "a").unwrap_err();
    /// assert_eq!(refused, Refused { error: VfsError::Inval, count: 1 });
    /// # Ok(())
    /// # }
    /// ```
    pub fn mount(&mut self, backend: Backend, path: impl AsRef<[u8]>) -> Result<Mounted, Refused> {
        let a = sys::mount(&mut self.storage, path.as_ref(), &backend);
        Refused::of(a.code, a.count)?;
        Ok(Mounted {
            fs_idx: a.fs_idx as u8,
            count: a.count,
            replaced: Tag::told(a.has_replaced, a.replaced),
        })
    }

    /// Mounts a backend at a path under the index that it had before. The counter does not move.
    ///
    /// Numbers that were kept of another mount at that index lead into this one at once. So a host whose sessions keep
    /// numbers draws a new stamp for the index, unless it puts back what had it: README.md of this crate, "Kept numbers".
    ///
    /// Refused, in this order: SMALL, TOOLONG, INVAL (not UTF-8), BADINDEX, INODE (largest number), NOROOM, INVAL (no
    /// leading `/`), INODE (root number).
    ///
    /// ```
    /// use galdovar::{Backend, Tag, Vfs, VfsError, VfsOptions};
    ///
    /// # fn main() -> Result<(), VfsError> {
    /// let mut vfs = Vfs::new(64, 0, &VfsOptions::new())?;
    /// vfs.restore_mount(Backend::new(Tag(7)), 9, "/a")?;
    /// let other = vfs.restore_mount(Backend::new(Tag(8)), 9, "/b")?;
    /// assert_eq!((other.replaced, other.displaced), (None, Some(Tag(7))));
    /// assert_eq!(vfs.restore_mount(Backend::new(Tag(9)), 0, "/c"), Err(VfsError::BadIndex));
    /// # Ok(())
    /// # }
    /// ```
    pub fn restore_mount(
        &mut self,
        backend: Backend,
        fs_idx: VfsIndex,
        path: impl AsRef<[u8]>,
    ) -> Result<RestoredMount, VfsError> {
        let a = sys::restore_mount(&mut self.storage, fs_idx, path.as_ref(), &backend);
        VfsError::done(a.code)?;
        Ok(RestoredMount {
            replaced: Tag::told(a.has_replaced, a.replaced),
            displaced: Tag::told(a.has_displaced, a.displaced),
        })
    }

    /// Takes the mount off the node that the path leads to, and frees its index.
    ///
    /// Refused: SMALL, INVAL for the path, NOTFOUND where the path leads nowhere or nothing is mounted.
    ///
    /// ```
    /// use galdovar::{Backend, NodeNumber, Tag, Vfs, VfsError, VfsOptions};
    ///
    /// # fn main() -> Result<(), VfsError> {
    /// let mut vfs = Vfs::new(64, 0, &VfsOptions::new())?;
    /// vfs.mount(Backend::new(Tag(7)), "/a/b")?;
    /// let gone = vfs.umount("/a/b")?;
    /// assert_eq!((gone.node, gone.parent), (NodeNumber(3), NodeNumber(2)));
    /// assert_eq!(gone.released, Some(Tag(7)));
    /// assert_eq!(vfs.umount("/a/b"), Err(VfsError::NotFound));
    /// # Ok(())
    /// # }
    /// ```
    pub fn umount(&mut self, path: impl AsRef<[u8]>) -> Result<Unmounted, VfsError> {
        let a = sys::umount(&mut self.storage, path.as_ref());
        VfsError::done(a.code)?;
        Ok(Unmounted {
            node: NodeNumber(a.node),
            parent: NodeNumber(a.parent),
            released: Tag::told(a.has_released, a.released),
        })
    }

    /// What is mounted where a path leads; none where it leads nowhere or nothing is mounted.
    ///
    /// Refused: SMALL, INVAL for the path, NOTFOUND where the slot of the mount is empty.
    ///
    /// ```
    /// use galdovar::{Backend, Rootfs, Tag, Vfs, VfsOptions};
    ///
    /// # fn main() -> Result<(), galdovar::VfsError> {
    /// let mut vfs = Vfs::new(64, 0, &VfsOptions::new())?;
    /// vfs.mount(Backend::new(Tag(7)), "/a/b")?;
    /// assert_eq!(vfs.get_rootfs("/a/b")?, Some(Rootfs { tag: Tag(7), fs_idx: 1 }));
    /// assert_eq!(vfs.get_rootfs("/a")?, None);
    /// # Ok(())
    /// # }
    /// ```
    pub fn get_rootfs(&self, path: impl AsRef<[u8]>) -> Result<Option<Rootfs>, VfsError> {
        let a = sys::get_rootfs(&self.storage, path.as_ref());
        VfsError::done(a.code)?;
        if a.has_backend == 0 {
            return Ok(None);
        }
        Ok(Some(Rootfs { tag: Tag(a.tag), fs_idx: a.fs_idx as u8 }))
    }

    /// The node that a path leads to, from the root; none where a name is missing.
    ///
    /// Refused: SMALL, INVAL for a path that is not UTF-8 or has no leading `/`.
    ///
    /// ```
    /// use galdovar::{Backend, NodeNumber, Tag, Vfs, VfsError, VfsOptions};
    ///
    /// # fn main() -> Result<(), VfsError> {
    /// let mut vfs = Vfs::new(64, 0, &VfsOptions::new())?;
    /// vfs.mount(Backend::new(Tag(7)), "/a/b")?;
    /// assert_eq!(vfs.path_walk("/a//./b")?, Some(NodeNumber(3)));
    /// assert_eq!(vfs.path_walk("/a/c")?, None);
    /// assert_eq!(vfs.path_walk("a"), Err(VfsError::Inval));
    /// # Ok(())
    /// # }
    /// ```
    pub fn path_walk(&self, path: impl AsRef<[u8]>) -> Result<Option<NodeNumber>, VfsError> {
        let a = sys::path_walk(&self.storage, path.as_ref());
        VfsError::done(a.code)?;
        Ok(if a.has_node == 0 { None } else { Some(NodeNumber(a.node)) })
    }

    /// Where a full number goes: to the tree, to a backend, or NOENT where nothing is mounted at its index.
    ///
    /// An index comes round again, so this does not say whether a number that was kept was handed out for the mount that
    /// is there now. The host tells by a stamp for each index: README.md of this crate, "Kept numbers".
    ///
    /// ```
    /// use galdovar::{convert_inode, Backend, BackendNumber, Route, Tag, Vfs, VfsError, VfsOptions};
    ///
    /// # fn main() -> Result<(), VfsError> {
    /// let mut vfs = Vfs::new(64, 0, &VfsOptions::new())?;
    /// let m = vfs.mount(Backend::new(Tag(7)), "/a")?;
    /// let kept = convert_inode(m.fs_idx, BackendNumber(42))?;
    /// let there = Route::Backend { tag: Tag(7), fs_idx: 1, number: BackendNumber(42) };
    /// assert_eq!(vfs.route(kept)?, there);
    /// vfs.mount(Backend::new(Tag(8)), "/a")?;
    /// assert_eq!(vfs.route(kept), Err(VfsError::NoEnt));
    /// # Ok(())
    /// # }
    /// ```
    pub fn route(&self, inode: VfsInode) -> Result<Route, VfsError> {
        let a = sys::route(&self.storage, inode.0);
        VfsError::done(a.code)?;
        if a.to_backend == 0 {
            return Ok(Route::Tree(NodeNumber(a.number)));
        }
        Ok(Route::Backend {
            tag: Tag(a.tag),
            fs_idx: a.fs_idx as u8,
            number: BackendNumber(a.number),
        })
    }

    /// What a directory of the tree has by a name: the root entry of the mount on it, or the directory itself.
    ///
    /// Refused: SMALL, NOENT for an unknown parent, INVAL for a name with byte 0 or not UTF-8, NOENT for an unknown name.
    ///
    /// ```
    /// use galdovar::{Backend, Tag, Vfs, VfsError, VfsInode, VfsOptions, ROOT_ID};
    ///
    /// # fn main() -> Result<(), VfsError> {
    /// let mut vfs = Vfs::new(64, 0, &VfsOptions::new())?;
    /// vfs.mount(Backend::new(Tag(7)), "/a/b")?;
    /// let a = vfs.path_walk("/a")?.unwrap();
    /// assert_eq!(vfs.lookup(ROOT_ID, "a")?.inode, VfsInode(2));
    /// assert_eq!(vfs.lookup(a, "b")?.inode, VfsInode((1 << 56) + 1));
    /// assert_eq!(vfs.lookup(a, "c"), Err(VfsError::NoEnt));
    /// # Ok(())
    /// # }
    /// ```
    pub fn lookup(&self, parent: NodeNumber, name: impl AsRef<[u8]>) -> Result<Entry, VfsError> {
        let a = sys::lookup(&self.storage, parent.0, name.as_ref());
        VfsError::done(a.code)?;
        Ok(Entry {
            inode: VfsInode(a.inode),
            mode: a.mode,
            uid: a.uid,
            gid: a.gid,
            blksize: a.blksize,
        })
    }

    /// Lists the children of a node from an offset on into `out`, and answers how many bytes it wrote: whole records
    /// only, within `size` and `out`. [`DirEntries`](crate::DirEntries) reads them.
    ///
    /// Refused: SMALL, NOENT for an unknown node where `size` is not 0.
    ///
    /// ```
    /// use galdovar::{Backend, DirEntries, Tag, Vfs, VfsOptions, ROOT_ID};
    ///
    /// # fn main() -> Result<(), galdovar::VfsError> {
    /// let mut vfs = Vfs::new(64, 0, &VfsOptions::new())?;
    /// vfs.mount(Backend::new(Tag(7)), "/bern")?;
    /// vfs.mount(Backend::new(Tag(8)), "/oslo")?;
    /// let mut out = [0; 4096];
    /// let written = vfs.readdir(ROOT_ID, 4096, 0, &mut out)?;
    /// let names: Vec<_> = DirEntries::new(&out[..written]).map(|e| e.name).collect();
    /// assert_eq!(names, [b"bern", b"oslo"]);
    /// # Ok(())
    /// # }
    /// ```
    pub fn readdir(
        &self,
        node: NodeNumber,
        size: u32,
        offset: u64,
        out: &mut [u8],
    ) -> Result<usize, VfsError> {
        let a = sys::readdir(&self.storage, node.0, size, offset, out);
        VfsError::done(a.code)?;
        Ok(a.written as usize)
    }

    /// The state of the instance as bytes: the tree, the next number, the counter and the options. Mounts are not saved.
    ///
    /// ```
    /// use galdovar::{Backend, Tag, Vfs, VfsOptions};
    ///
    /// # fn main() -> Result<(), galdovar::VfsError> {
    /// let mut vfs = Vfs::new(64, 0, &VfsOptions::new())?;
    /// vfs.mount(Backend::new(Tag(7)), "/a")?;
    /// let saved = vfs.save_to_bytes()?;
    ///
    /// let mut next = Vfs::new(64, 0, &VfsOptions::new())?;
    /// next.restore_from_bytes(&saved)?;
    /// next.restore_mount(Backend::new(Tag(7)), 1, "/a")?;
    /// assert_eq!(next.save_to_bytes()?, saved);
    /// # Ok(())
    /// # }
    /// ```
    pub fn save_to_bytes(&self) -> Result<Vec<u8>, VfsError> {
        let mut out = vec![0; self.longest_save()];
        let written = self.save_into(&mut out)?;
        out.truncate(written);
        out.shrink_to_fit();
        Ok(out)
    }

    /// Saves the state at the start of `out`, and answers how many bytes it wrote. SMALL where `out` has too few, and
    /// then `out` is as it was. [`MAX_SAVED`] bytes are always enough.
    ///
    /// ```
    /// use galdovar::{Vfs, VfsError, VfsOptions};
    ///
    /// # fn main() -> Result<(), VfsError> {
    /// let vfs = Vfs::new(64, 0, &VfsOptions::new())?;
    /// assert_eq!(vfs.save_into(&mut [0; 55]), Err(VfsError::Small));
    /// assert_eq!(vfs.save_into(&mut [0; 56])?, 56);
    /// # Ok(())
    /// # }
    /// ```
    pub fn save_into(&self, out: &mut [u8]) -> Result<usize, VfsError> {
        let a = sys::save_to_bytes(&self.storage, out);
        VfsError::done(a.code)?;
        Ok(a.written as usize)
    }

    /// Takes over a saved state: its tree, next number, counter and options. The mounts are then made again, each by
    /// [`Vfs::restore_mount`], before any new one: README.md of this crate, "Around a restart".
    ///
    /// Refused, in this order, with nothing changed: SMALL, NOTFRESH, BADSAVE, BADOPT, NOROOM. The cost grows with the
    /// square of the records, so a host that does not trust the bytes refuses what is longer than [`MAX_SAVED`].
    ///
    /// ```
    /// use galdovar::{Vfs, VfsError, VfsOptions};
    ///
    /// # fn main() -> Result<(), VfsError> {
    /// let mut vfs = Vfs::new(64, 0, &VfsOptions::new())?;
    /// assert_eq!(vfs.restore_from_bytes(b"no state"), Err(VfsError::BadSave));
    /// # Ok(())
    /// # }
    /// ```
    pub fn restore_from_bytes(&mut self, bytes: &[u8]) -> Result<(), VfsError> {
        VfsError::done(sys::restore_from_bytes(&mut self.storage, bytes).code)
    }

    /// The longest state that storage of this length can hold, with a record for each node besides the root.
    fn longest_save(&self) -> usize {
        let nodes = self.storage.len().saturating_sub(TABLES) / NODE;
        STATE_END + LONGEST_RECORD * (nodes.clamp(1, MAX_NODES) - 1)
    }
}

impl fmt::Debug for Vfs {
    fn fmt(&self, f: &mut fmt::Formatter<'_>) -> fmt::Result {
        f.debug_struct("Vfs").field("bytes", &self.storage.len()).finish_non_exhaustive()
    }
}

/// An instance can be sent to another thread and shared with it, and so can an allocator.
const _: () = {
    const fn send_and_sync<T: Send + Sync>() {}
    send_and_sync::<Vfs>();
    send_and_sync::<crate::Indexes>();
};
