//! Every call done, and refused with every number that it can give.
mod common;

use common::{backend, crowded, fresh};
use galdovar::*;
use std::error::Error;
use std::io;

const KNOWN: u64 = 0b1111;

fn told() -> VfsOptions {
    VfsOptions {
        no_readdir: true,
        no_open: true,
        killpriv_v2: true,
        in_opts: 0b1000,
        out_opts: 0b0101,
        id_mapping: IdMapping::new(10, 1000, 5),
        ..VfsOptions::new()
    }
}

fn refused(error: VfsError, count: u32) -> Result<Mounted, Refused> {
    Err(Refused { error, count })
}

/// A call that must leave every byte of the storage as it was.
fn leaves<T>(vfs: &mut Vfs, call: impl FnOnce(&mut Vfs) -> T) -> T {
    let before = vfs.as_bytes().to_vec();
    let answer = call(vfs);
    assert!(vfs.as_bytes() == &before[..], "the storage changed");
    answer
}

#[test]
fn creation() {
    let vfs = Vfs::new(64, KNOWN, &told()).unwrap();
    assert_eq!(vfs.as_bytes().len(), storage_for(64));
    assert_eq!(vfs.options(), Ok(told()));
    assert_eq!(vfs.initialized(), Ok(false));
    assert_eq!(vfs.path_walk("/"), Ok(Some(ROOT_ID)));
    assert!(Vfs::new(1, 0, &VfsOptions::new()).is_ok());
    assert!(Vfs::new(MAX_NODES, 0, &VfsOptions::new()).is_ok());
    for nodes in [0, MAX_NODES + 1, usize::MAX] {
        assert_eq!(Vfs::new(nodes, KNOWN, &told()).unwrap_err(), VfsError::Small);
    }
    assert_eq!(Vfs::new(64, 0b0111, &told()).unwrap_err(), VfsError::BadOpt);
    assert_eq!(Vfs::new(64, 0b1110, &told()).unwrap_err(), VfsError::BadOpt);
    let wide = |m| Vfs::new(64, 0, &VfsOptions { id_mapping: m, ..VfsOptions::new() });
    assert!(wide(IdMapping::new(u32::MAX, u32::MAX, 0)).is_ok());
    assert!(wide(IdMapping::new(u32::MAX - 1, 0, 1)).is_ok());
    assert_eq!(wide(IdMapping::new(u32::MAX, 0, 1)).unwrap_err(), VfsError::BadMap);
    assert_eq!(wide(IdMapping::new(0, u32::MAX, 1)).unwrap_err(), VfsError::BadMap);
}

#[test]
fn every_flag_by_itself() {
    let none = VfsOptions::new();
    let each = [
        VfsOptions { no_readdir: true, ..none },
        VfsOptions { seal_size: true, ..none },
        VfsOptions { no_open: true, ..none },
        VfsOptions { no_opendir: true, ..none },
        VfsOptions { no_writeback: true, ..none },
        VfsOptions { killpriv_v2: true, ..none },
    ];
    for (bit, o) in each.iter().enumerate() {
        let vfs = Vfs::new(1, 0, o).unwrap();
        assert_eq!(vfs.options(), Ok(*o));
        assert_eq!(vfs.save_to_bytes().unwrap()[28], 1 << bit);
    }
}

#[test]
fn creation_in_storage_at_hand() {
    let mut vfs = Vfs::from_bytes(vec![0xa5; storage_for(4)]);
    leaves(&mut vfs, |v| assert_eq!(v.create(5, KNOWN, &told()), Err(VfsError::Small)));
    leaves(&mut vfs, |v| assert_eq!(v.create(0, KNOWN, &told()), Err(VfsError::Small)));
    leaves(&mut vfs, |v| assert_eq!(v.create(4, 0, &told()), Err(VfsError::BadOpt)));
    let bad = VfsOptions { id_mapping: IdMapping::new(0, 1, u32::MAX), ..VfsOptions::new() };
    leaves(&mut vfs, |v| assert_eq!(v.create(4, 0, &bad), Err(VfsError::BadMap)));
    assert_eq!(vfs.create(3, KNOWN, &told()), Ok(()));
    assert_eq!(vfs.mount(backend(7), "/a/b").unwrap().fs_idx, 1);
    assert_eq!(vfs.mount(backend(7), "/c"), refused(VfsError::NoRoom, 0));
    assert!(vfs.as_bytes()[storage_for(3)..].iter().all(|b| *b == 0xa5));
    assert_eq!(vfs.create(4, 0, &VfsOptions::new()), Ok(()));
    assert_eq!(vfs.path_walk("/a"), Ok(None));
}

#[test]
fn mounts() {
    let mut vfs = fresh(8);
    let m = vfs.mount(backend(0), "/a/b").unwrap();
    assert_eq!(m, Mounted { fs_idx: 1, count: 1, replaced: None });
    let m = vfs.mount(backend(8), b"/a/b/".as_slice()).unwrap();
    assert_eq!(m, Mounted { fs_idx: 2, count: 1, replaced: Some(Tag(0)) });
    let long = "x".repeat(256);
    let max = "x".repeat(255);
    leaves(&mut vfs, |v| assert_eq!(v.mount(backend(9), &long), refused(VfsError::TooLong, 0)));
    let path = "/".repeat(4097);
    leaves(&mut vfs, |v| assert_eq!(v.mount(backend(9), path), refused(VfsError::TooLong, 0)));
    leaves(&mut vfs, |v| assert_eq!(v.mount(backend(9), b"/\xff"), refused(VfsError::Inval, 0)));
    let big = Backend { largest: VFS_MAX_INO + 1, ..backend(9) };
    leaves(&mut vfs, |v| assert_eq!(v.mount(big, "/a"), refused(VfsError::Inode, 0)));
    let deep = "/1/2/3/4/5/6";
    leaves(&mut vfs, |v| assert_eq!(v.mount(backend(9), deep), refused(VfsError::NoRoom, 0)));
    assert_eq!(vfs.mount(backend(9), "a"), refused(VfsError::Inval, 1));
    let far = Backend { root: BackendNumber(VFS_MAX_INO + 1), ..backend(9) };
    assert_eq!(vfs.mount(far, "/made"), refused(VfsError::Inode, 1));
    assert!(vfs.path_walk("/made").unwrap().is_some());
    assert_eq!(vfs.get_rootfs("/made"), Ok(None));
    assert_eq!(vfs.mount(backend(9), format!("/{}", max)).unwrap().fs_idx, 5);
    assert_eq!(vfs.mount(backend(10), "/".repeat(4096)).unwrap().fs_idx, 6);
}

#[test]
fn a_full_table() {
    let mut vfs = crowded();
    assert_eq!(vfs.mount(backend(999), "/0"), refused(VfsError::Full, 257));
    assert_eq!(vfs.mount(backend(999), "no slash"), refused(VfsError::Full, 257));
    assert_eq!(vfs.umount("/9").unwrap().released, Some(Tag(9)));
    let m = vfs.mount(backend(999), "/0").unwrap();
    assert_eq!(m, Mounted { fs_idx: 10, count: 9, replaced: Some(Tag(0)) });
}

#[test]
fn restored_mounts() {
    let mut vfs = fresh(4);
    let none = RestoredMount { replaced: None, displaced: None };
    assert_eq!(vfs.restore_mount(backend(7), 200, "/a"), Ok(none));
    let again = vfs.restore_mount(backend(8), 200, "/a").unwrap();
    assert_eq!(again, RestoredMount { replaced: Some(Tag(7)), displaced: None });
    let other = vfs.restore_mount(backend(9), 200, "/b").unwrap();
    assert_eq!(other, RestoredMount { replaced: None, displaced: Some(Tag(8)) });
    vfs.restore_mount(backend(10), 201, "/a").unwrap();
    vfs.restore_mount(backend(11), 202, "/b").unwrap();
    let both = vfs.restore_mount(backend(12), 202, "/a").unwrap();
    assert_eq!(both, RestoredMount { replaced: Some(Tag(10)), displaced: Some(Tag(11)) });

    let mut no = |b: Backend, i: u8, path: &[u8], e: VfsError| {
        leaves(&mut vfs, |v| assert_eq!(v.restore_mount(b, i, path), Err(e)));
    };
    let big = Backend { largest: VFS_MAX_INO + 1, ..backend(9) };
    no(big, 0, &[b'x'; 256], VfsError::TooLong);
    no(big, 0, b"\xff", VfsError::Inval);
    no(big, 0, b"/a", VfsError::BadIndex);
    no(big, 9, b"/a/b/c/d", VfsError::Inode);
    no(backend(9), 9, b"/a/b/c/d", VfsError::NoRoom);
    no(backend(9), 9, b"a/b/c/d", VfsError::Inval);
    let far = Backend { root: BackendNumber(VFS_MAX_INO + 1), ..backend(9) };
    assert_eq!(vfs.restore_mount(far, 9, "/made"), Err(VfsError::Inode));
    assert!(vfs.path_walk("/made").unwrap().is_some());
    assert_eq!(vfs.mount(backend(13), "/made").unwrap().fs_idx, 1);
}

#[test]
fn unmounts() {
    let mut vfs = fresh(8);
    vfs.mount(backend(0), "/a/b").unwrap();
    leaves(&mut vfs, |v| assert_eq!(v.umount("a/b"), Err(VfsError::Inval)));
    leaves(&mut vfs, |v| assert_eq!(v.umount(b"/\x80"), Err(VfsError::Inval)));
    leaves(&mut vfs, |v| assert_eq!(v.umount("/x"), Err(VfsError::NotFound)));
    leaves(&mut vfs, |v| assert_eq!(v.umount("/a"), Err(VfsError::NotFound)));
    let done = |released| Unmounted { node: NodeNumber(3), parent: NodeNumber(2), released };
    assert_eq!(vfs.umount("/a/b"), Ok(done(Some(Tag(0)))));
    assert_eq!(vfs.umount("/a/b"), Err(VfsError::NotFound));
    assert_eq!(vfs.path_walk("/a/b"), Ok(Some(NodeNumber(3))));

    vfs.restore_mount(backend(5), 9, "/a/b").unwrap();
    vfs.restore_mount(backend(6), 9, "/c").unwrap();
    assert_eq!(vfs.umount("/c").unwrap().released, Some(Tag(6)));
    assert_eq!(vfs.get_rootfs("/a/b"), Err(VfsError::NotFound));
    assert_eq!(vfs.umount("/a/b"), Ok(done(None)));

    vfs.mount(backend(7), "/").unwrap();
    let root = Unmounted { node: ROOT_ID, parent: ROOT_ID, released: Some(Tag(7)) };
    assert_eq!(vfs.umount("/"), Ok(root));
}

#[test]
fn removal_of_the_node() {
    let mut vfs = fresh(8);
    vfs.set_remove_pseudo_root().unwrap();
    vfs.mount(backend(7), "/a").unwrap();
    vfs.mount(backend(8), "/a/b").unwrap();
    let b = vfs.path_walk("/a/b").unwrap().unwrap();
    vfs.umount("/a").unwrap();
    assert_eq!(vfs.path_walk("/a"), Ok(None));
    assert_eq!(vfs.lookup(b, "..").unwrap().inode, VfsInode(2));
    let saved = vfs.save_to_bytes().unwrap();
    assert_eq!(fresh(8).restore_from_bytes(&saved), Err(VfsError::BadSave));
    vfs.mount(backend(9), "/").unwrap();
    vfs.umount("/").unwrap();
    assert_eq!(vfs.path_walk("/"), Ok(Some(ROOT_ID)));
}

#[test]
fn root_queries() {
    let mut vfs = fresh(8);
    vfs.mount(backend(0), "/a/b").unwrap();
    assert_eq!(vfs.get_rootfs("/a/b"), Ok(Some(Rootfs { tag: Tag(0), fs_idx: 1 })));
    assert_eq!(vfs.get_rootfs("/a"), Ok(None));
    assert_eq!(vfs.get_rootfs("/x"), Ok(None));
    assert_eq!(vfs.get_rootfs(""), Err(VfsError::Inval));
    assert_eq!(vfs.get_rootfs(b"/\xff"), Err(VfsError::Inval));
    vfs.restore_mount(backend(6), 1, "/c").unwrap();
    vfs.umount("/c").unwrap();
    assert_eq!(vfs.get_rootfs("/a/b"), Err(VfsError::NotFound));
}

#[test]
fn walks() {
    let mut vfs = fresh(8);
    vfs.mount(backend(7), "/a/b").unwrap();
    assert_eq!(vfs.path_walk("/"), Ok(Some(NodeNumber(1))));
    assert_eq!(vfs.path_walk("/../a/./b/.."), Ok(Some(NodeNumber(2))));
    assert_eq!(vfs.path_walk("/a/x/.."), Ok(None));
    assert_eq!(vfs.path_walk(format!("/{}", "a".repeat(5000))), Ok(None));
    assert_eq!(vfs.path_walk("a"), Err(VfsError::Inval));
    assert_eq!(vfs.path_walk(b"/a/\xed\xa0\x80"), Err(VfsError::Inval));
}

#[test]
fn routes() {
    let mut vfs = fresh(8);
    vfs.mount(backend(0), "/a").unwrap();
    let inside = convert_inode(1, BackendNumber(42)).unwrap();
    let there = Route::Backend { tag: Tag(0), fs_idx: 1, number: BackendNumber(42) };
    assert_eq!(vfs.route(inside), Ok(there));
    assert_eq!(vfs.route(VfsInode(2)), Ok(Route::Tree(NodeNumber(2))));
    assert_eq!(vfs.route(VfsInode(77)), Ok(Route::Tree(NodeNumber(77))));
    assert_eq!(vfs.route(VfsInode(2 << 56)), Err(VfsError::NoEnt));
    assert_eq!(vfs.route(VfsInode(u64::MAX)), Err(VfsError::NoEnt));
    let rooted = Backend { root: BackendNumber(5), ..backend(9) };
    vfs.mount(rooted, "/").unwrap();
    let root = Route::Backend { tag: Tag(9), fs_idx: 2, number: BackendNumber(5) };
    assert_eq!(vfs.route(VfsInode(1)), Ok(root));
    vfs.restore_mount(backend(6), 2, "/c").unwrap();
    vfs.umount("/c").unwrap();
    assert_eq!(vfs.route(VfsInode(1)), Err(VfsError::NoEnt));
}

#[test]
fn lookups() {
    let opts = VfsOptions { id_mapping: IdMapping::new(0, 1000, 10), ..VfsOptions::new() };
    let mut vfs = Vfs::new(8, 0, &opts).unwrap();
    let b = Backend { root: BackendNumber(3), uid: 5, gid: 50, mode: 0o40750, ..backend(7) };
    vfs.mount(b, "/a/b").unwrap();
    let a = NodeNumber(2);
    let dir = |n| Entry { inode: VfsInode(n), mode: DIR_MODE, uid: 1000, gid: 1000, blksize: 4096 };
    assert_eq!(vfs.lookup(ROOT_ID, "a"), Ok(dir(2)));
    assert_eq!(vfs.lookup(a, "."), Ok(dir(2)));
    assert_eq!(vfs.lookup(a, ".."), Ok(dir(1)));
    let root =
        Entry { inode: VfsInode((1 << 56) + 3), mode: 0o40750, uid: 1005, gid: 50, blksize: 0 };
    assert_eq!(vfs.lookup(a, "b"), Ok(root));
    assert_eq!(vfs.lookup(NodeNumber(3), "."), Ok(root));
    assert_eq!(vfs.lookup(a, "x"), Err(VfsError::NoEnt));
    assert_eq!(vfs.lookup(a, ""), Err(VfsError::NoEnt));
    assert_eq!(vfs.lookup(ROOT_ID, "a/b"), Err(VfsError::NoEnt));
    assert_eq!(vfs.lookup(a, b"b\0"), Err(VfsError::Inval));
    assert_eq!(vfs.lookup(a, b"\xc0\x80"), Err(VfsError::Inval));
    assert_eq!(vfs.lookup(NodeNumber(99), b"b\0"), Err(VfsError::NoEnt));
}

#[test]
fn listings() {
    let mut vfs = fresh(16);
    for (k, name) in ["bern", "oslo", "porto-norte", "z"].iter().enumerate() {
        vfs.mount(backend(k as u32), format!("/{}", name)).unwrap();
    }
    let list = |size: u32, offset: u64, out: &mut [u8]| vfs.readdir(ROOT_ID, size, offset, out);
    let mut out = [0xee; 256];
    assert_eq!(list(4096, 0, &mut out), Ok(136));
    assert!(out[136..].iter().all(|b| *b == 0xee));
    let all: Vec<_> = DirEntries::new(&out[..136]).collect();
    let entry = |node, offset, name| DirEntry { node: NodeNumber(node), offset, kind: 0, name };
    let expected: [DirEntry; 4] = [
        entry(2, 1, &b"bern"[..]),
        entry(3, 2, b"oslo"),
        entry(4, 3, b"porto-norte"),
        entry(5, 4, b"z"),
    ];
    assert_eq!(all, expected);
    // From an offset on; whole records within the size; whole records within the buffer.
    assert_eq!(list(4096, 2, &mut out), Ok(72));
    assert_eq!(DirEntries::new(&out[..72]).next().unwrap().name, b"porto-norte");
    assert_eq!(list(71, 0, &mut out), Ok(64));
    assert_eq!(list(4096, 0, &mut out[..103]), Ok(64));
    assert_eq!(list(4096, 0, &mut []), Ok(0));
    assert_eq!(list(4096, 4, &mut out), Ok(0));
    assert_eq!(list(4096, u64::MAX, &mut out), Ok(0));
    let mut kept = [0xee; 64];
    assert_eq!(vfs.readdir(NodeNumber(99), 4096, 0, &mut kept), Err(VfsError::NoEnt));
    assert_eq!(kept, [0xee; 64]);
    assert_eq!(vfs.readdir(NodeNumber(99), 0, 0, &mut kept), Ok(0));
}

#[test]
fn records_that_are_cut() {
    let mut record = [0; 32];
    record[16] = 4;
    record[24..28].copy_from_slice(b"bern");
    assert_eq!(DirEntries::new(&record).count(), 1);
    assert_eq!(DirEntries::new(&record[..28]).count(), 1);
    assert_eq!(DirEntries::new(&record[..27]).count(), 0);
    assert_eq!(DirEntries::new(&record[..23]).count(), 0);
    record[19] = 255;
    assert_eq!(DirEntries::new(&record).count(), 0);
}

#[test]
fn saving() {
    let mut vfs = Vfs::new(8, KNOWN, &told()).unwrap();
    assert_eq!(vfs.save_to_bytes().unwrap().len(), 56);
    vfs.mount(backend(7), "/a/bc").unwrap();
    let saved = vfs.save_to_bytes().unwrap();
    assert_eq!(saved.len(), 56 + 19 + 20);
    let mut out = vec![0xee; saved.len() + 5];
    assert_eq!(vfs.save_into(&mut out), Ok(saved.len()));
    assert_eq!((&out[..saved.len()], &out[saved.len()..]), (&saved[..], &[0xee; 5][..]));
    let mut short = vec![0xee; saved.len() - 1];
    assert_eq!(vfs.save_into(&mut short), Err(VfsError::Small));
    assert!(short.iter().all(|b| *b == 0xee));
}

#[test]
fn the_longest_state() {
    let mut vfs = fresh(MAX_NODES);
    let name = |k: usize| format!("{:0>255}", k);
    for first in (0..MAX_NODES - 1).step_by(16) {
        let mut path = String::new();
        for k in first..(first + 16).min(MAX_NODES - 1) {
            path += &format!("/{}/..", name(k));
        }
        // Pieces of at most 4,096 bytes: fifteen names, then the last.
        let (a, b) = path.split_at(path.len().min(15 * 259));
        vfs.mount(backend(1), a).unwrap();
        vfs.mount(backend(1), format!("/{}", b)).unwrap();
    }
    assert_eq!(vfs.mount(backend(1), "/more"), refused(VfsError::NoRoom, 0));
    let saved = vfs.save_to_bytes().unwrap();
    assert_eq!(saved.len(), MAX_SAVED);
    let mut next = fresh(MAX_NODES);
    assert_eq!(next.restore_from_bytes(&saved), Ok(()));
    assert_eq!(next.save_to_bytes().unwrap(), saved);
    assert_eq!(fresh(MAX_NODES - 1).restore_from_bytes(&saved), Err(VfsError::NoRoom));
}

#[test]
fn restoring() {
    let mut vfs = Vfs::new(8, KNOWN, &told()).unwrap();
    vfs.mount(backend(7), "/a/b").unwrap();
    vfs.mount(backend(8), "/c").unwrap();
    let saved = vfs.save_to_bytes().unwrap();

    let mut next = Vfs::new(4, KNOWN, &VfsOptions::new()).unwrap();
    assert_eq!(next.restore_from_bytes(&saved), Ok(()));
    assert_eq!(next.options(), Ok(told()));
    assert_eq!(next.initialized(), Ok(true));
    assert_eq!(next.path_walk("/a/b"), Ok(Some(NodeNumber(3))));
    assert_eq!(next.get_rootfs("/a/b"), Ok(None));
    assert_eq!(next.save_to_bytes().unwrap(), saved);
    // The mapping in force stays that of creation.
    assert_eq!(next.remap_attr_id(true, 10, 10), Ok(Ids { uid: 10, gid: 10 }));
    assert_eq!(next.mount(backend(9), "/c").unwrap().fs_idx, 3);

    leaves(&mut next, |v| assert_eq!(v.restore_from_bytes(&saved), Err(VfsError::NotFresh)));
    let mut mounted = fresh(8);
    mounted.mount(backend(7), "/").unwrap();
    leaves(&mut mounted, |v| assert_eq!(v.restore_from_bytes(b""), Err(VfsError::NotFresh)));
    let mut few = fresh(8);
    leaves(&mut few, |v| assert_eq!(v.restore_from_bytes(&saved), Err(VfsError::BadOpt)));
    let mut narrow = Vfs::new(3, KNOWN, &VfsOptions::new()).unwrap();
    leaves(&mut narrow, |v| assert_eq!(v.restore_from_bytes(&saved), Err(VfsError::NoRoom)));
    let mut other = Vfs::new(8, KNOWN, &VfsOptions::new()).unwrap();
    for cut in 0..saved.len() {
        leaves(&mut other, |v| {
            assert_eq!(v.restore_from_bytes(&saved[..cut]), Err(VfsError::BadSave))
        });
    }
    let mut version = saved.clone();
    version[saved.len() - 7] = 2;
    leaves(&mut other, |v| assert_eq!(v.restore_from_bytes(&version), Err(VfsError::BadSave)));
}

#[test]
fn ids() {
    let vfs = Vfs::new(1, KNOWN, &told()).unwrap();
    assert_eq!(vfs.remap_attr_id(true, 10, 14), Ok(Ids { uid: 1000, gid: 1004 }));
    assert_eq!(vfs.remap_attr_id(true, 9, 15), Ok(Ids { uid: 9, gid: 15 }));
    assert_eq!(vfs.remap_attr_id(false, 1000, 1005), Ok(Ids { uid: 10, gid: 1005 }));
    let m = IdMapping::new(500, 20, 5);
    assert_eq!([499, 500, 504, 505].map(|id| map_out(m, id)), [499, 20, 24, 505]);
    assert_eq!([19, 20, 24, 25].map(|id| map_back(m, id)), [19, 500, 504, 25]);
    let none = IdMapping::new(1, 2, 0);
    assert_eq!((map_out(none, 1), map_back(none, 2)), (1, 2));
}

#[test]
fn conversion_and_component_check() {
    assert_eq!(convert_inode(255, BackendNumber(VFS_MAX_INO)), Ok(VfsInode(u64::MAX)));
    assert_eq!(convert_inode(255, BackendNumber(0)), Ok(VfsInode(0)));
    assert_eq!(convert_inode(0, BackendNumber(7)), Ok(VfsInode(7)));
    assert_eq!(convert_inode(1, BackendNumber(VFS_MAX_INO + 1)), Err(VfsError::Inode));
    assert_eq!(convert_inode(1, BackendNumber(u64::MAX)), Err(VfsError::Inode));
    for good in [&b""[..], b"...", b"a", b"\xff", &[b'x'; 300]] {
        assert_eq!(validate_path_component(good), Ok(()));
    }
    for bad in [&b"."[..], b"..", b"/", b"a/b", b"\0", b"a\0"] {
        assert_eq!(validate_path_component(bad), Err(VfsError::Inval));
    }
}

#[test]
fn an_allocator_by_itself() {
    let mut indexes = Indexes::new();
    for k in 1..=255 {
        let found = indexes.allocate_in(Tag(u32::from(k) - 1));
        assert_eq!(found, Ok(Allocated { fs_idx: k, count: 1 }));
    }
    assert_eq!((indexes.tag(0), indexes.tag(1), indexes.next_super()), (None, Some(Tag(0)), 0));
    let full = Refused { error: VfsError::Full, count: 257 };
    assert_eq!(indexes.allocate_in(Tag(9)), Err(full));
    assert_eq!(indexes.next_super(), 1);
    assert_eq!(indexes.free(4), Some(Tag(3)));
    assert_eq!(indexes.free(4), None);
    assert_eq!(indexes.hold(5, Tag(50)), Some(Tag(4)));
    assert_eq!(indexes.allocate_in(Tag(9)), Ok(Allocated { fs_idx: 4, count: 4 }));
}

#[test]
fn storage_that_is_too_short_is_small_everywhere() {
    let mut cut = fresh(2).into_bytes();
    cut.pop();
    for bytes in [Vec::new(), vec![0; storage_for(2)], cut] {
        let mut vfs = Vfs::from_bytes(bytes);
        let small = VfsError::Small;
        let before = vfs.as_bytes().to_vec();
        assert_eq!(vfs.set_remove_pseudo_root(), Err(small));
        assert_eq!(vfs.initialized(), Err(small));
        assert_eq!(vfs.options(), Err(small));
        assert_eq!(vfs.remap_attr_id(true, 1, 2), Err(small));
        assert_eq!(vfs.mount(backend(1), [b'x'; 300]), refused(small, 0));
        assert_eq!(vfs.restore_mount(backend(1), 0, "x"), Err(small));
        assert_eq!(vfs.umount("x"), Err(small));
        assert_eq!(vfs.get_rootfs("x"), Err(small));
        assert_eq!(vfs.path_walk("x"), Err(small));
        assert_eq!(vfs.route(VfsInode(1)), Err(small));
        assert_eq!(vfs.lookup(ROOT_ID, "\0"), Err(small));
        assert_eq!(vfs.readdir(ROOT_ID, 0, 0, &mut []), Err(small));
        assert_eq!(vfs.save_to_bytes(), Err(small));
        assert_eq!(vfs.restore_from_bytes(b""), Err(small));
        assert_eq!(vfs.create(3, 0, &VfsOptions::new()), Err(small));
        assert!(vfs.as_bytes() == &before[..]);
    }
}

#[test]
fn errors_in_words_and_numbers() {
    let all = [
        VfsError::NoEnt,
        VfsError::Inval,
        VfsError::TooLong,
        VfsError::Inode,
        VfsError::Full,
        VfsError::NoRoom,
        VfsError::NotFound,
        VfsError::BadIndex,
        VfsError::BadMap,
        VfsError::BadSave,
        VfsError::NotFresh,
        VfsError::Small,
        VfsError::BadOpt,
    ];
    for (k, e) in all.iter().enumerate() {
        let code = k as u32 + 1;
        assert_eq!(e.code(), code);
        assert!(e.to_string().contains(&format!("({})", code)), "{}", e);
        let errno = [None, Some(2), Some(22)].get(k + 1).copied().flatten();
        assert_eq!(e.errno(), errno);
        assert_eq!(io::Error::from(*e).raw_os_error(), errno);
    }
    let r = Refused { error: VfsError::Full, count: 257 };
    assert_eq!(r.to_string(), "FULL (5): every index from 1 to 255 is held (257 indexes visited)");
    assert_eq!(r.source().unwrap().to_string(), VfsError::Full.to_string());
    assert_eq!(VfsError::from(r), VfsError::Full);
}
