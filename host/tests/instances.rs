//! Instances do not mix: not side by side, not copied, not when their storage is moved.
mod common;

use common::{backend, fresh, Random};
use galdovar::{NodeNumber, Tag, Vfs, VfsError, VfsOptions};
use std::sync::{Arc, RwLock};
use std::thread;

/// One of a list of calls, by a number; what it answers is written out.
fn step(vfs: &mut Vfs, n: u64) -> String {
    let path = format!("/{}/{}", n % 3, n / 3 % 4);
    match n / 12 % 6 {
        0 | 1 => format!("{:?}", vfs.mount(backend(n as u32), path)),
        2 => format!("{:?}", vfs.restore_mount(backend(n as u32), n as u8, path)),
        3 => format!("{:?}", vfs.umount(path)),
        4 => format!("{:?}", vfs.get_rootfs(path)),
        _ => format!("{:?}", vfs.lookup(NodeNumber(n % 20), "1")),
    }
}

#[test]
fn calls_in_turn_answer_as_calls_alone() {
    let mut random = Random(42);
    let calls: Vec<(u64, u64)> = (0..4000).map(|_| (random.below(2), random.next() >> 9)).collect();
    let alone = |which: u64| {
        let mut vfs = fresh(16);
        let told: Vec<_> =
            calls.iter().filter(|c| c.0 == which).map(|c| step(&mut vfs, c.1)).collect();
        (told, vfs.into_bytes())
    };
    let mut both = [fresh(16), fresh(16)];
    let mut told = [Vec::new(), Vec::new()];
    for (which, n) in &calls {
        let k = *which as usize;
        told[k].push(step(&mut both[k], *n));
    }
    for (k, vfs) in both.iter().enumerate() {
        let (expected, bytes) = alone(k as u64);
        assert_eq!(told[k], expected);
        assert!(vfs.as_bytes() == &bytes[..]);
    }
}

#[test]
fn storage_moved_and_swapped() {
    let (mut one, mut two) = (fresh(8), fresh(8));
    one.mount(backend(1), "/one").unwrap();
    two.mount(backend(2), "/two").unwrap();
    two.mount(backend(3), "/two").unwrap();
    // Each goes on in bytes that stand elsewhere now.
    let (a, b) = (one.into_bytes(), two.into_bytes());
    let mut two = Vfs::from_bytes(b.to_vec());
    let mut one = Vfs::from_bytes(a.to_vec());
    drop((a, b));
    assert_eq!(one.get_rootfs("/one").unwrap().unwrap().tag, Tag(1));
    assert_eq!(one.path_walk("/two"), Ok(None));
    assert_eq!(one.mount(backend(4), "/x").unwrap().fs_idx, 2);
    assert_eq!(two.mount(backend(5), "/x").unwrap().fs_idx, 3);
    std::mem::swap(&mut one, &mut two);
    assert_eq!(one.get_rootfs("/two").unwrap().unwrap().tag, Tag(3));
    assert_eq!(two.get_rootfs("/x").unwrap().unwrap().tag, Tag(4));
}

#[test]
fn storage_lent_first_to_one_and_then_to_another() {
    let mut one = fresh(8);
    one.mount(backend(1), "/one").unwrap();
    one.set_remove_pseudo_root().unwrap();
    let mut two = Vfs::from_bytes(one.into_bytes());
    two.create(8, 0, &VfsOptions::new()).unwrap();
    assert_eq!(two.path_walk("/one"), Ok(None));
    assert_eq!(two.mount(backend(2), "/two").unwrap().fs_idx, 1);
    assert_eq!(two.umount("/two").unwrap().node, NodeNumber(2));
    assert_eq!(two.path_walk("/two"), Ok(Some(NodeNumber(2))));
}

#[test]
fn a_clone_is_an_instance_of_its_own() {
    let mut one = fresh(8);
    one.mount(backend(1), "/a").unwrap();
    let mut two = one.clone();
    two.umount("/a").unwrap();
    assert_eq!(one.get_rootfs("/a").unwrap().unwrap().tag, Tag(1));
    assert_eq!(two.get_rootfs("/a"), Ok(None));
    assert_eq!(one.mount(backend(2), "/a").unwrap().replaced, Some(Tag(1)));
    assert_eq!(two.mount(backend(3), "/a").unwrap().replaced, None);
}

#[test]
fn saved_bytes_of_one_in_the_other() {
    let mut one = fresh(8);
    one.mount(backend(1), "/a/b").unwrap();
    let mut two = fresh(8);
    two.restore_from_bytes(&one.save_to_bytes().unwrap()).unwrap();
    one.mount(backend(2), "/c").unwrap();
    assert_eq!(two.path_walk("/c"), Ok(None));
    assert_eq!(two.umount("/a/b"), Err(VfsError::NotFound));
}

#[test]
fn many_readers_and_a_writer() {
    let shared = Arc::new(RwLock::new(fresh(64)));
    shared.write().unwrap().mount(backend(1), "/stays").unwrap();
    let readers: Vec<_> = (0..3)
        .map(|_| {
            let shared = Arc::clone(&shared);
            thread::spawn(move || {
                for _ in 0..300 {
                    let vfs = shared.read().unwrap();
                    assert_eq!(vfs.get_rootfs("/stays").unwrap().unwrap().tag, Tag(1));
                    let moved = vfs.get_rootfs("/moves").unwrap();
                    assert!(moved.map_or(true, |m| m.tag.0 >= 100));
                }
            })
        })
        .collect();
    for k in 100..400 {
        shared.write().unwrap().mount(backend(k), "/moves").unwrap();
    }
    for r in readers {
        r.join().unwrap();
    }
    assert_eq!(shared.read().unwrap().get_rootfs("/moves").unwrap().unwrap().tag, Tag(399));
}
