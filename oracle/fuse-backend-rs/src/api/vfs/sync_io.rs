//! Stands for `src/api/vfs/sync_io.rs`, the dispatch of requests, which is not in the text given. In its place are
//! probes: as a child of `vfs` this module may use what is private there, so the two files are asked as they are.

use super::*;
use crate::probe::{MountProbe, RoutedTo};

impl Vfs {
    pub fn probe_counter(&self) -> u8 {
        self.next_super.load(Ordering::SeqCst)
    }

    /// Shows each slot that is held, with its index.
    pub fn probe_slots(&self, show: &mut dyn FnMut(usize, &BackFileSystem)) {
        for (k, slot) in self.superblocks.load().iter().enumerate() {
            if let Some(fs) = slot {
                show(k, fs);
            }
        }
    }

    pub fn probe_slot(&self, fs_idx: VfsIndex) -> Option<ArcBackFs> {
        self.superblocks.load()[fs_idx as usize].clone()
    }

    pub fn probe_mounts(&self) -> Vec<MountProbe> {
        let probe = |(node, m): (&u64, &Arc<MountPointData>)| MountProbe {
            node: *node,
            fs_idx: m.fs_idx,
            ino: m.ino,
            root_entry: m.root_entry,
        };
        self.mountpoints.load().iter().map(probe).collect()
    }

    pub fn probe_removes(&self) -> bool {
        self.remove_pseudo_root
    }

    pub fn probe_mapping(&self) -> Option<(u32, u32, u32)> {
        self.id_mapping
    }

    /// The bytes of the tree alone, as its own save gives them.
    pub fn probe_tree(&self) -> Vec<u8> {
        self.root.save_to_bytes().unwrap()
    }

    /// Puts the slots as given, for searches from any tables.
    pub fn probe_set_slots(&self, slots: Vec<Option<ArcBackFs>>) {
        self.superblocks.store(Arc::new(slots));
    }

    pub fn probe_set_counter(&self, counter: u8) {
        self.next_super.store(counter, Ordering::SeqCst);
    }

    pub fn probe_allocate(&self) -> Result<VfsIndex> {
        self.allocate_fs_idx()
    }

    pub fn probe_walk(&self, path: &str) -> Result<Option<u64>> {
        self.root.path_walk(path)
    }

    pub fn probe_route(&self, full: u64) -> Result<RoutedTo> {
        let (fs, inode) = self.get_real_rootfs(VfsInode::from(full))?;
        Ok(match fs {
            Left(_) => RoutedTo::Tree(inode.ino()),
            Right(fs) => RoutedTo::Backend(fs, inode.fs_idx(), inode.ino()),
        })
    }

    /// Whether to a backend, and the number there or in the tree; the backend is let go of. For timing.
    pub fn probe_route_alone(&self, full: u64) -> Result<(bool, u64)> {
        let (fs, inode) = self.get_real_rootfs(VfsInode::from(full))?;
        match fs {
            Left(_) => Ok((false, inode.ino())),
            Right(_) => Ok((true, inode.ino())),
        }
    }

    pub fn probe_lookup(&self, node: u64, name: &CStr) -> Result<Entry> {
        self.lookup_pseudo(&self.root, VfsInode::from(node), &Context::new(), name)
    }

    pub fn probe_readdir(
        &self,
        node: u64,
        size: u32,
        offset: u64,
        add_entry: &mut dyn FnMut(DirEntry) -> Result<usize>,
    ) -> Result<()> {
        self.root.readdir(&Context::new(), node, 0, size, offset, add_entry)
    }

    pub fn probe_convert(&self, fs_idx: VfsIndex, number: u64) -> Result<u64> {
        self.convert_inode(fs_idx, number)
    }

    /// The ids by the mapping in force, out or back.
    pub fn probe_remap(&self, outward: bool, uid: u32, gid: u32) -> (u32, u32) {
        let mut attr = Entry::default().attr;
        attr.st_uid = uid;
        attr.st_gid = gid;
        self.remap_attr_id(outward, &mut attr);
        (attr.st_uid, attr.st_gid)
    }
}
