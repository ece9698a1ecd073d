//! The Rust as one side: its own calls where it has them, its private functions by way of the probes, and its errors
//! turned into the refusal numbers of R15.

use std::any::Any;
use std::ffi::CString;
use std::io;
use std::sync::{Arc, Mutex};

use fuse_backend_rs::api::filesystem::{Entry, FileSystem, FsOptions};
use fuse_backend_rs::api::vfs::VfsError;
use fuse_backend_rs::api::{validate_path_component, BackFileSystem, BackendFileSystem, Vfs, VfsOptions};
use fuse_backend_rs::probe::RoutedTo;

use crate::house::{tree_from_shim, State};
use crate::side::{maybe, Answer, Backend, Creation, Mount, Options, Side, Tables};
use crate::side::{BADOPT, BADSAVE, FULL, INODE, INVAL, NOENT, NOTFOUND};

/// What became of backends during a call: the tags destroyed, and the tags of those that nobody holds any more.
#[derive(Default)]
struct Fates {
    destroyed: Vec<u32>,
    dropped: Vec<u32>,
}

/// A backend that is a tag and the numbers of its mount request, and tells its fate.
struct Tagged {
    request: Backend,
    fates: Arc<Mutex<Fates>>,
}

impl Drop for Tagged {
    fn drop(&mut self) {
        self.fates.lock().unwrap().dropped.push(self.request.tag);
    }
}

impl FileSystem for Tagged {
    type Inode = u64;
    type Handle = u64;

    fn destroy(&self) {
        self.fates.lock().unwrap().destroyed.push(self.request.tag);
    }
}

/// The root entry that a backend brings to its mount, and its largest number.
pub fn root_entry(b: &Backend) -> (Entry, u64) {
    let mut entry = Entry { inode: b.root, ..Default::default() };
    entry.attr.st_ino = b.root;
    entry.attr.st_uid = b.uid;
    entry.attr.st_gid = b.gid;
    entry.attr.st_mode = b.mode;
    (entry, b.largest)
}

impl BackendFileSystem for Tagged {
    fn mount(&self) -> io::Result<(Entry, u64)> {
        Ok(root_entry(&self.request))
    }

    fn as_any(&self) -> &dyn Any {
        self
    }
}

fn tag_of(fs: &BackFileSystem) -> u32 {
    fs.as_any().downcast_ref::<Tagged>().unwrap().request.tag
}

/// The refusal number of an error of the Rust's `io`: an errno, or else the one about numbers that are too big.
fn code_of(e: &io::Error) -> u64 {
    match e.raw_os_error() {
        Some(2) => NOENT,
        Some(22) => INVAL,
        _ => INODE,
    }
}

pub struct RustSide {
    pub vfs: Vfs,
    known: u64,
    fates: Arc<Mutex<Fates>>,
}

fn options_of(o: &VfsOptions) -> Options {
    Options {
        in_opts: o.in_opts.bits(),
        out_opts: o.out_opts.bits(),
        mapping: o.id_mapping,
        flags: o.no_readdir as u8
            | (o.seal_size as u8) << 1
            | (o.no_open as u8) << 2
            | (o.no_opendir as u8) << 3
            | (o.no_writeback as u8) << 4
            | (o.killpriv_v2 as u8) << 5,
    }
}

impl RustSide {
    pub fn new() -> RustSide {
        RustSide { vfs: Vfs::default(), known: u64::MAX, fates: Default::default() }
    }

    fn backend(&self, request: Backend) -> BackFileSystem {
        *self.fates.lock().unwrap() = Fates::default();
        Box::new(Tagged { request, fates: self.fates.clone() })
    }

    fn slot(&self, index: u8) -> Option<u32> {
        self.vfs.probe_slot(index).map(|fs| tag_of(&fs))
    }

    /// The nodes that have a mount, each with the mount's index and the tag in its slot.
    fn mounted(&self) -> Vec<(u64, u8, Option<u32>)> {
        let mounts = self.vfs.probe_mounts();
        mounts.iter().map(|m| (m.node, m.fs_idx, self.slot(m.fs_idx))).collect()
    }

    /// The numbers of a directory's children, as its listing shows them.
    fn children(&self, parent: u64) -> Vec<u64> {
        let mut below = Vec::new();
        let listed = self.vfs.probe_readdir(parent, u32::MAX, 0, &mut |entry| {
            below.push(entry.ino);
            Ok(1)
        });
        listed.unwrap();
        below
    }

    /// Of the mounts that stood before a mount on a path, the one on the same node. The path leads there by now, also where
    /// the mount made some of its names.
    fn found(&self, path: &str, mounted: &[(u64, u8, Option<u32>)]) -> Option<(u64, u8, Option<u32>)> {
        let node = self.vfs.probe_walk(path).unwrap().unwrap();
        mounted.iter().find(|m| m.0 == node).cloned()
    }

    /// Holds the tags that a mount pushed out against the backends that the Rust let go of meanwhile.
    fn check_dropped(&self, tags: &[Option<u32>]) {
        let mut dropped = self.fates.lock().unwrap().dropped.clone();
        let mut told: Vec<u32> = tags.iter().filter_map(|t| *t).collect();
        dropped.sort();
        told.sort();
        assert_eq!(dropped, told, "the backends dropped are not those told");
    }

    /// A search from a counter: the index found or none, the count of indexes visited, and the counter after. Nothing is
    /// put into the slot.
    pub fn allocate(&mut self, counter: u8) -> (Option<u8>, u64, u8) {
        self.vfs.probe_set_counter(counter);
        let found = self.vfs.probe_allocate().ok();
        (found, self.visited(counter, found.is_none()), self.vfs.probe_counter())
    }

    /// How many indexes a search visited: the way of the counter, which is one round and one more where it found none.
    fn visited(&self, before: u8, full: bool) -> u64 {
        let way = self.vfs.probe_counter().wrapping_sub(before) as u64;
        match (full, way) {
            (true, _) => 256 + way,
            (false, 0) => 256,
            (false, _) => way,
        }
    }
}

impl Side for RustSide {
    fn create(&mut self, c: &Creation) -> Answer {
        FsOptions::set_known(c.known);
        let known = |bits| FsOptions::from_bits(bits).expect("known option bits");
        let (in_opts, out_opts) = (known(c.in_opts), known(c.out_opts));
        self.known = c.known;
        self.vfs = Vfs::new(VfsOptions {
            no_readdir: c.flags & 1 != 0,
            seal_size: c.flags & 2 != 0,
            no_open: c.flags & 4 != 0,
            no_opendir: c.flags & 8 != 0,
            no_writeback: c.flags & 16 != 0,
            killpriv_v2: c.flags & 32 != 0,
            in_opts,
            out_opts,
            id_mapping: c.mapping,
        });
        Answer::of(&[0])
    }

    fn set_remove_pseudo_root(&mut self) -> Answer {
        self.vfs.set_remove_pseudo_root();
        Answer::of(&[0])
    }

    fn mount(&mut self, path: &[u8], b: Backend) -> Answer {
        let path = match std::str::from_utf8(path) {
            Ok(path) => path,
            Err(_) => return Answer::refused(INVAL, 5),
        };
        let mounted = self.mounted();
        let before = self.vfs.probe_counter();
        let fs = self.backend(b);
        let (code, index) = match self.vfs.mount(fs, path) {
            Ok(index) => (0, index),
            Err(VfsError::InodeIndex(_)) => return Answer::refused(INODE, 5),
            Err(VfsError::FsIndex(_)) => (FULL, 0),
            Err(VfsError::Mount(e)) => (code_of(&e), 0),
            Err(e) => panic!("mount: {}", e),
        };
        let count = self.visited(before, code == FULL);
        if code != 0 {
            return Answer::of(&[code, 0, count, 0, 0]);
        }
        let replaced = self.found(path, &mounted).and_then(|m| m.2);
        self.check_dropped(&[replaced]);
        let [has, tag] = maybe(replaced);
        Answer::of(&[0, index as u64, count, has, tag])
    }

    fn restore_mount(&mut self, index: u8, path: &[u8], b: Backend) -> Answer {
        let path = match std::str::from_utf8(path) {
            Ok(path) => path,
            Err(_) => return Answer::refused(INVAL, 5),
        };
        let mounted = self.mounted();
        let held = self.slot(index);
        let fs = self.backend(b);
        if let Err(e) = self.vfs.restore_mount(fs, index, path) {
            return Answer::refused(code_of(&e), 5);
        }
        let old = self.found(path, &mounted);
        let replaced = old.and_then(|m| m.2);
        let displaced = if old.map(|m| m.1) == Some(index) { None } else { held };
        self.check_dropped(&[replaced, displaced]);
        let [has_replaced, replaced] = maybe(replaced);
        let [has_displaced, displaced] = maybe(displaced);
        Answer::of(&[0, has_replaced, replaced, has_displaced, displaced])
    }

    fn umount(&mut self, path: &[u8]) -> Answer {
        let path = match std::str::from_utf8(path) {
            Ok(path) => path,
            Err(_) => return Answer::refused(INVAL, 5),
        };
        *self.fates.lock().unwrap() = Fates::default();
        match self.vfs.umount(path) {
            Ok((node, parent)) => {
                let [has, tag] = maybe(self.fates.lock().unwrap().destroyed.first().cloned());
                Answer::of(&[0, node, parent, has, tag])
            }
            Err(VfsError::PathWalk(e)) => Answer::refused(code_of(&e), 5),
            Err(VfsError::NotFound(_)) => Answer::refused(NOTFOUND, 5),
            Err(e) => panic!("umount: {}", e),
        }
    }

    fn get_rootfs(&mut self, path: &[u8]) -> Answer {
        let path = match std::str::from_utf8(path) {
            Ok(path) => path,
            Err(_) => return Answer::refused(INVAL, 4),
        };
        match self.vfs.get_rootfs(path) {
            Ok(None) => Answer::of(&[0, 0, 0, 0]),
            Ok(Some((fs, index))) => Answer::of(&[0, 1, tag_of(&fs) as u64, index as u64]),
            Err(VfsError::PathWalk(e)) => Answer::refused(code_of(&e), 4),
            Err(VfsError::NotFound(_)) => Answer::refused(NOTFOUND, 4),
            Err(e) => panic!("get_rootfs: {}", e),
        }
    }

    fn path_walk(&mut self, path: &[u8]) -> Answer {
        let path = match std::str::from_utf8(path) {
            Ok(path) => path,
            Err(_) => return Answer::refused(INVAL, 3),
        };
        match self.vfs.probe_walk(path) {
            Ok(None) => Answer::of(&[0, 0, 0]),
            Ok(Some(node)) => Answer::of(&[0, 1, node]),
            Err(e) => Answer::refused(code_of(&e), 3),
        }
    }

    fn route(&mut self, full: u64) -> Answer {
        match self.vfs.probe_route(full) {
            Ok(RoutedTo::Tree(node)) => Answer::of(&[0, 0, 0, 0, node]),
            Ok(RoutedTo::Backend(fs, index, number)) => Answer::of(&[0, 1, tag_of(&fs) as u64, index as u64, number]),
            Err(e) => Answer::refused(code_of(&e), 5),
        }
    }

    fn lookup(&mut self, node: u64, name: &[u8]) -> Answer {
        let name = CString::new(name).expect("a name without byte 0");
        match self.vfs.probe_lookup(node, &name) {
            Ok(e) => Answer::of(&[
                0,
                e.inode,
                e.attr.st_mode as u64,
                e.attr.st_uid as u64,
                e.attr.st_gid as u64,
                e.attr.st_blksize as u64,
            ]),
            Err(e) => Answer::refused(code_of(&e), 6),
        }
    }

    fn readdir(&mut self, node: u64, size: u32, offset: u64, room: usize) -> Answer {
        let limit = room.min(size as usize);
        let mut out: Vec<u8> = Vec::new();
        let listed = self.vfs.probe_readdir(node, size, offset, &mut |entry| {
            let len = (24 + entry.name.len() + 7) / 8 * 8;
            if out.len() + len > limit {
                return Ok(0);
            }
            let end = out.len() + len;
            out.extend_from_slice(&entry.ino.to_le_bytes());
            out.extend_from_slice(&entry.offset.to_le_bytes());
            out.extend_from_slice(&(entry.name.len() as u32).to_le_bytes());
            out.extend_from_slice(&entry.type_.to_le_bytes());
            out.extend_from_slice(entry.name);
            out.resize(end, 0);
            Ok(len)
        });
        match listed {
            Ok(()) => Answer::of(&[0, out.len() as u64]).with(out),
            Err(e) => Answer::refused(code_of(&e), 2).with(Vec::new()),
        }
    }

    fn convert_inode(&mut self, index: u8, number: u64) -> Answer {
        match self.vfs.probe_convert(index, number) {
            Ok(full) => Answer::of(&[0, full]),
            Err(e) => Answer::refused(code_of(&e), 2),
        }
    }

    fn remap_attr_id(&mut self, outward: bool, uid: u32, gid: u32) -> Answer {
        let (uid, gid) = self.vfs.probe_remap(outward, uid, gid);
        Answer::of(&[0, uid as u64, gid as u64])
    }

    fn validate_path_component(&mut self, name: &[u8]) -> Answer {
        let name = CString::new(name).expect("a name without byte 0");
        match validate_path_component(&name) {
            Ok(()) => Answer::of(&[0]),
            Err(e) => Answer::of(&[code_of(&e)]),
        }
    }

    fn save_to_bytes(&mut self) -> Answer {
        let saved = self.vfs.save_to_bytes().unwrap();
        let bytes = State::from_shim(&saved).unwrap().to_house();
        Answer::of(&[0, bytes.len() as u64]).with(bytes)
    }

    fn restore_from_bytes(&mut self, bytes: &[u8]) -> Answer {
        let state = match State::from_house(bytes) {
            Some(state) => state,
            None => return Answer::of(&[BADSAVE]),
        };
        FsOptions::set_known(self.known);
        match self.vfs.restore_from_bytes(&mut state.to_shim()) {
            Ok(()) => Answer::of(&[0]),
            Err(VfsError::Persist(text)) if text.contains("VfsOptions") => Answer::of(&[BADOPT]),
            Err(_) => Answer::of(&[BADSAVE]),
        }
    }

    fn settings(&mut self) -> Answer {
        let o = options_of(&self.vfs.options());
        Answer::of(&[
            0,
            self.vfs.initialized() as u64,
            o.in_opts,
            o.out_opts,
            o.flags as u64,
            o.mapping.0 as u64,
            o.mapping.1 as u64,
            o.mapping.2 as u64,
        ])
    }

    fn tables(&self) -> Tables {
        let (next, nodes) = tree_from_shim(&self.vfs.probe_tree()).unwrap();
        let parents = std::iter::once(1).chain(nodes.iter().map(|n| n.number));
        let children = parents.map(|p| (p, self.children(p))).collect();
        let mut mounts: Vec<Mount> = self
            .vfs
            .probe_mounts()
            .iter()
            .map(|m| Mount {
                node: m.node,
                index: m.fs_idx,
                root: m.ino,
                uid: m.root_entry.attr.st_uid,
                gid: m.root_entry.attr.st_gid,
                mode: m.root_entry.attr.st_mode,
            })
            .collect();
        mounts.sort_by_key(|m| m.node);
        let mut slots = vec![None; 256];
        self.vfs.probe_slots(&mut |k, fs| slots[k] = Some(tag_of(fs)));
        Tables {
            nodes,
            children,
            next,
            counter: self.vfs.probe_counter(),
            slots,
            mounts,
            options: options_of(&self.vfs.options()),
            mapping: self.vfs.probe_mapping(),
            initialized: self.vfs.initialized(),
            removes: self.vfs.probe_removes(),
        }
    }

    fn set_slots(&mut self, slots: &[Option<u32>], counter: u8) {
        let request = |tag| Backend { tag, root: 1, largest: 1, uid: 0, gid: 0, mode: 0 };
        let slots = slots.iter().map(|tag| tag.map(|tag| Arc::new(self.backend(request(tag))))).collect();
        self.vfs.probe_set_slots(slots);
        self.vfs.probe_set_counter(counter);
    }
}
