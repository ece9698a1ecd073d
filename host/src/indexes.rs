//! An allocator of indexes by itself, without an instance.
use crate::error::Refused;
use crate::exports::FsIndexes;
use crate::numbers::{Tag, VfsIndex};
use crate::sys;
use std::fmt;

/// What [`Indexes::allocate_in`] found.
#[derive(Clone, Copy, Debug, PartialEq, Eq, Hash)]
pub struct Allocated {
    /// The index, 1 to 255.
    pub fs_idx: VfsIndex,
    /// How many indexes were visited, this one included.
    pub count: u32,
}

/// The 256 slots and the counter of the index search, kept by the host.
///
/// An instance has slots and a counter of its own; this is for a host that hands out numbers of this kind elsewhere.
///
/// ```
/// use galdovar::{Indexes, Tag};
///
/// let mut indexes = Indexes::new();
/// assert_eq!(indexes.allocate_in(Tag(7)).unwrap().fs_idx, 1);
/// assert_eq!(indexes.free(1), Some(Tag(7)));
/// // An index that was freed does not come back before the others had their turn.
/// assert_eq!(indexes.allocate_in(Tag(8)).unwrap().fs_idx, 2);
/// ```
#[derive(Clone)]
pub struct Indexes {
    table: Box<FsIndexes>,
}

impl Indexes {
    /// 256 empty slots, and counter 1.
    pub fn new() -> Indexes {
        Indexes::with_counter(1)
    }

    /// 256 empty slots, and a given counter: the index that the next search visits first.
    pub fn with_counter(next_super: u8) -> Indexes {
        let table = FsIndexes { used: [0; 256], tags: [0; 256], next_super };
        Indexes { table: Box::new(table) }
    }

    /// Puts the tag into the first free slot from the counter on, going round, and moves the counter behind it. FULL
    /// where all from 1 to 255 are held: then the counter alone moves, by one.
    pub fn allocate_in(&mut self, tag: Tag) -> Result<Allocated, Refused> {
        let a = sys::allocate_in(&mut self.table, tag.0);
        Refused::of(a.code, a.count)?;
        Ok(Allocated { fs_idx: a.fs_idx as u8, count: a.count })
    }

    /// Holds a slot for a tag, and answers the tag that it held before.
    pub fn hold(&mut self, fs_idx: VfsIndex, tag: Tag) -> Option<Tag> {
        let before = self.tag(fs_idx);
        self.table.used[usize::from(fs_idx)] = 1;
        self.table.tags[usize::from(fs_idx)] = tag.0;
        before
    }

    /// Empties a slot, and answers the tag that it held.
    pub fn free(&mut self, fs_idx: VfsIndex) -> Option<Tag> {
        let before = self.tag(fs_idx);
        self.table.used[usize::from(fs_idx)] = 0;
        self.table.tags[usize::from(fs_idx)] = 0;
        before
    }

    /// The tag in a slot, or none where it is empty.
    pub fn tag(&self, fs_idx: VfsIndex) -> Option<Tag> {
        let at = usize::from(fs_idx);
        Tag::told(u32::from(self.table.used[at]), self.table.tags[at])
    }

    /// The counter: the index that the next search visits first.
    pub fn next_super(&self) -> u8 {
        self.table.next_super
    }
}

impl Default for Indexes {
    fn default() -> Indexes {
        Indexes::new()
    }
}

impl fmt::Debug for Indexes {
    fn fmt(&self, f: &mut fmt::Formatter<'_>) -> fmt::Result {
        let held = (0..=255).filter_map(|k| self.tag(k).map(|t| (k, t.0)));
        f.debug_struct("Indexes")
            .field("held", &held.collect::<Vec<_>>())
            .field("next_super", &self.next_super())
            .finish()
    }
}
