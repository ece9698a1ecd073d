//! Damaged storage is refused or answered, and nothing ends in a fault.
mod common;

use common::{backend, fresh, is_laid, Random};
use galdovar::{storage_for, Backend, BackendNumber, NodeNumber, Tag, Vfs, VfsError, VfsInode};

/// Bytes past the end of an instance, which no call may change.
const BEHIND: usize = 64;

const NAMES: [&[u8]; 6] = [b"a", b"..", b".", b"", b"\xff", b"x/y"];
const PATHS: [&[u8]; 6] = [b"/", b"/a/b", b"/a/../c", b"a", b"/\xff", b"/new/er"];

/// Makes every call. Storage against the layout rule is SMALL in each and stays as it is; other storage is answered, and
/// still keeps the rule.
fn every_call(bytes: &[u8], random: &mut Random) {
    let mut vfs = Vfs::from_bytes(bytes.to_vec());
    let laid = is_laid(bytes);
    every_reader(&vfs, laid, random);
    assert!(vfs.as_bytes() == bytes, "a reader changed the storage");
    every_writer(&mut vfs, laid, random);
    assert!(laid || vfs.as_bytes() == bytes, "storage that was refused has changed");
    let end = bytes.len() - BEHIND;
    assert!(vfs.as_bytes()[end..] == bytes[end..], "bytes behind the instance changed");
}

fn every_reader(vfs: &Vfs, laid: bool, random: &mut Random) {
    let name = NAMES[random.below(6) as usize];
    let path = PATHS[random.below(6) as usize];
    let node = NodeNumber(random.below(8));
    let small = [
        vfs.initialized().err(),
        vfs.options().err(),
        vfs.remap_attr_id(true, random.next() as u32, 0).err(),
        vfs.path_walk(path).err(),
        vfs.get_rootfs(path).err(),
        vfs.route(VfsInode(random.below(256) << 56 | node.0)).err(),
        vfs.lookup(node, name).err(),
        vfs.readdir(node, 4096, random.below(4), &mut [0; 4096]).err(),
        vfs.save_to_bytes().err(),
    ]
    .map(|e| e == Some(VfsError::Small));
    assert_eq!(small, [!laid; 9], "the calls that read");
}

fn every_writer(vfs: &mut Vfs, laid: bool, random: &mut Random) {
    let path = PATHS[random.below(6) as usize];
    let b = Backend {
        tag: Tag(random.next() as u32),
        root: BackendNumber(random.below(9)),
        ..backend(0)
    };
    let nothing = fresh(1).save_to_bytes().unwrap();
    for call in [random.below(5), random.below(5), 0, 1, 2, 3, 4] {
        let error = match call {
            0 => vfs.mount(b, path).err().map(|r| r.error),
            1 => vfs.restore_mount(b, random.next() as u8, path).err(),
            2 => vfs.umount(path).err(),
            3 => vfs.set_remove_pseudo_root().err(),
            _ => vfs.restore_from_bytes(&nothing).err(),
        };
        assert_eq!(error == Some(VfsError::Small), !laid, "call {} that writes", call);
        assert_eq!(is_laid(vfs.as_bytes()), laid, "call {} left the layout rule", call);
    }
}

/// The storage of an instance with some mounts, and bytes behind it.
fn used(nodes: usize) -> Vec<u8> {
    let mut vfs = fresh(nodes);
    for (k, path) in ["/a", "/a/b", "/c", "/a/b"].iter().enumerate() {
        let _ = vfs.mount(backend(k as u32), path);
    }
    let mut bytes = vfs.into_bytes();
    bytes.extend([0x5a; BEHIND]);
    bytes
}

#[test]
fn every_byte_of_the_header_changed() {
    let mut random = Random(7);
    let good = used(8);
    every_call(&good, &mut random);
    let mut refused = 0;
    for at in 0..256 {
        let old = good[at];
        for new in [0, 1, 2, 63, 64, 127, 128, 255, old ^ 1, old ^ 128, old.wrapping_add(1)] {
            let mut bytes = good.clone();
            bytes[at] = new;
            refused += u32::from(!is_laid(&bytes));
            every_call(&bytes, &mut random);
        }
    }
    assert!(refused > 300, "{} were refused", refused);
}

#[test]
fn random_bytes_behind_a_good_header() {
    let mut random = Random(11);
    for nodes in [1, 2, 5, 16, 64] {
        for _ in 0..120 {
            let mut bytes = used(nodes);
            let end = storage_for(nodes);
            random.fill(&mut bytes[84..end]);
            // As many rows as fit, so that all of them are read.
            let live = random.below(nodes as u64);
            bytes[16..24].copy_from_slice(&live.to_le_bytes());
            bytes[81] = random.next() as u8;
            // Small numbers in half of the runs, so that rows meet each other.
            if random.below(2) == 0 {
                for row in bytes[8192..8192 + 16 * nodes].chunks_mut(8) {
                    let number = random.below(8);
                    row.copy_from_slice(&number.to_le_bytes());
                }
            }
            assert!(is_laid(&bytes));
            every_call(&bytes, &mut random);
        }
    }
}

#[test]
fn random_bytes() {
    let mut random = Random(13);
    for _ in 0..200 {
        let mut bytes = vec![0; storage_for(4) + BEHIND];
        random.fill(&mut bytes);
        every_call(&bytes, &mut random);
        bytes[..8].copy_from_slice(b"GALDOVAR");
        every_call(&bytes, &mut random);
    }
}

#[test]
fn storage_cut_short() {
    let good = used(8);
    let mut random = Random(17);
    for length in [BEHIND, 8191, 8192, storage_for(8) - 1, storage_for(8)] {
        every_call(&good[..length], &mut random);
    }
}

#[test]
fn saved_bytes_damaged() {
    let mut vfs = fresh(8);
    vfs.mount(backend(1), "/a/b").unwrap();
    vfs.mount(backend(2), "/c").unwrap();
    let saved = vfs.save_to_bytes().unwrap();
    let mut refused = 0;
    for at in 0..saved.len() {
        for new in [0, 1, 2, 47, 128, 255, saved[at] ^ 1, saved[at] ^ 64] {
            let mut bytes = saved.clone();
            bytes[at] = new;
            let mut next = fresh(8);
            let before = next.as_bytes().to_vec();
            match next.restore_from_bytes(&bytes) {
                // What is accepted is what a save writes.
                Ok(()) => assert_eq!(next.save_to_bytes().unwrap(), bytes),
                Err(_) => {
                    refused += 1;
                    assert!(next.as_bytes() == &before[..]);
                }
            }
        }
    }
    assert!(refused > 400, "{} were refused", refused);
    let mut random = Random(19);
    for length in 0..300 {
        let mut bytes = vec![0; length];
        random.fill(&mut bytes);
        assert_eq!(fresh(8).restore_from_bytes(&bytes), Err(VfsError::BadSave));
    }
}
