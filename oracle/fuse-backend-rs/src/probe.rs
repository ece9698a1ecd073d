//! What the probes of `api/vfs/sync_io.rs` give. Nothing in the crate corresponds to it.

use std::sync::Arc;

use crate::api::filesystem::Entry;
use crate::api::{BackFileSystem, VfsIndex};

/// Where a full number is routed: to the tree with a number, or to a backend with its index and a number.
pub enum RoutedTo {
    Tree(u64),
    Backend(Arc<BackFileSystem>, VfsIndex, u64),
}

/// What stands on a node: its number, the mount's index, the root number, and the stored root entry.
pub struct MountProbe {
    pub node: u64,
    pub fs_idx: VfsIndex,
    pub ino: u64,
    pub root_entry: Entry,
}
