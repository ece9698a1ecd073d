//! The eight lines and the five edges that the rules work out (R153 to R158).
mod common;

use common::{backend, fresh};
use galdovar::{
    Allocated, Backend, BackendNumber, Indexes, NodeNumber, Refused, Route, Tag, Vfs, VfsError,
    VfsInode, ROOT_ID, VFS_MAX_INO,
};

fn mount(vfs: &mut Vfs, path: &str, tag: u32) -> (u32, u8, u32) {
    match vfs.mount(backend(tag), path) {
        Ok(m) => (0, m.fs_idx, m.count),
        Err(r) => (r.error.code(), 0, r.count),
    }
}

fn umount(vfs: &mut Vfs, path: &str) -> (u32, u64, u64) {
    match vfs.umount(path) {
        Ok(u) => (0, u.node.0, u.parent.0),
        Err(e) => (e.code(), 0, 0),
    }
}

#[test]
fn the_eight_lines() {
    let mut vfs = fresh(64);
    assert_eq!(vfs.path_walk("/a"), Ok(None));
    assert_eq!(mount(&mut vfs, "/a/b", 7), (0, 1, 1));
    assert_eq!(mount(&mut vfs, "a", 8), (2, 0, 1));
    assert_eq!(mount(&mut vfs, "/a/b", 9), (0, 3, 1));
    assert_eq!(umount(&mut vfs, "/a/b"), (0, 3, 2));
    assert_eq!(umount(&mut vfs, "/a/b"), (7, 0, 0));
    assert_eq!(mount(&mut vfs, "/c/../a", 7), (0, 4, 1));
    assert_eq!(vfs.route(VfsInode(1)), Ok(Route::Tree(ROOT_ID)));
    assert_eq!(vfs.lookup(ROOT_ID, "a").unwrap().inode, VfsInode(288_230_376_151_711_745));
}

/// All slots from 1 to 255 held but one, and the counter.
fn all_but(free: u8, counter: u8) -> Indexes {
    let mut indexes = Indexes::with_counter(counter);
    for k in 1..=255 {
        if k != free {
            indexes.hold(k, Tag(u32::from(k)));
        }
    }
    indexes
}

#[test]
fn counter_255_and_only_1_free() {
    let mut indexes = all_but(1, 255);
    assert_eq!(indexes.allocate_in(Tag(9)), Ok(Allocated { fs_idx: 1, count: 3 }));
    assert_eq!((indexes.next_super(), indexes.tag(1)), (2, Some(Tag(9))));
}

#[test]
fn counter_0_and_only_255_free() {
    let mut indexes = all_but(255, 0);
    assert_eq!(indexes.allocate_in(Tag(9)), Ok(Allocated { fs_idx: 255, count: 256 }));
    assert_eq!((indexes.next_super(), indexes.tag(255)), (0, Some(Tag(9))));
}

#[test]
fn counter_255_and_all_held() {
    let mut indexes = all_but(0, 255);
    let full = Refused { error: VfsError::Full, count: 257 };
    assert_eq!(indexes.allocate_in(Tag(9)), Err(full));
    assert_eq!((indexes.next_super(), indexes.tag(0)), (0, None));
}

#[test]
fn root_number_at_its_limit() {
    let mut vfs = fresh(64);
    let at = |root: u64| Backend { root: BackendNumber(root), ..Backend::new(Tag(7)) };
    assert_eq!(vfs.mount(at(VFS_MAX_INO), "/a").unwrap().fs_idx, 1);
    assert_eq!(vfs.lookup(ROOT_ID, "a").unwrap().inode, VfsInode((1 << 56) + VFS_MAX_INO));
    let refused = Refused { error: VfsError::Inode, count: 1 };
    assert_eq!(vfs.mount(at(VFS_MAX_INO + 1), "/b"), Err(refused));
    assert_eq!(vfs.path_walk("/b"), Ok(Some(NodeNumber(3))));
}

#[test]
fn capacity_of_one_node() {
    let mut vfs = fresh(1);
    assert_eq!(mount(&mut vfs, "/a", 7), (6, 0, 0));
    assert_eq!(mount(&mut vfs, "/", 7), (0, 1, 1));
}
