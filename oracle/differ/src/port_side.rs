//! The port as the other side: the C-style calls of the crate `gateway`, and the tables read off the lent bytes as
//! docs/LAYOUT.md lays them out. Behind the bytes that an instance takes, and in lent output, stands a pattern that no
//! call may touch.

use crate::house::TAIL;
use crate::side::{Answer, Backend, Creation, Mount, Node, Options, Side, Tables, MAX_INO};

/// The declarations that the crate for a Rust host has, in its own format. `oracle/run` copies them to where this path leads
/// from the build.
#[rustfmt::skip]
#[path = "../../../host/src/exports.rs"]
pub mod exports;

/// What stands where no call may write.
const PATTERN: u8 = 0xa5;

/// Bytes of the pattern behind an instance.
const BEHIND: usize = 64;

/// Where the counter stands, and where the occupancy and the tags of the slots begin (docs/LAYOUT.md).
pub const COUNTER: usize = 81;
const SLOTS: usize = 256;
const TAGS: usize = 512;

/// The bytes that a saved record takes at most (R120).
const RECORD: usize = 18 + 255;

pub struct PortSide {
    /// The bytes of the instance, and the pattern behind them.
    pub bytes: Vec<u8>,
    /// The mapping that it was made with.
    mapping: (u32, u32, u32),
}

/// The bytes that an instance takes (R20).
fn size(capacity: usize) -> usize {
    512 * capacity + 8192
}

fn number(bytes: &[u8], at: usize, width: usize) -> u64 {
    bytes[at..at + width].iter().rev().fold(0, |n, b| n << 8 | *b as u64)
}

/// The bytes that a call wrote, of lent output that held the pattern.
fn written(out: &[u8], len: u64) -> Vec<u8> {
    let (front, rest) = out.split_at(len as usize);
    assert!(rest.iter().all(|b| *b == PATTERN), "bytes behind what was written are changed");
    front.to_vec()
}

impl PortSide {
    pub fn new() -> PortSide {
        PortSide { bytes: Vec::new(), mapping: (0, 0, 0) }
    }

    fn lent(&mut self) -> (*mut u8, usize) {
        (self.bytes.as_mut_ptr(), self.bytes.len())
    }

    /// An allocator to be lent, with those tags in its slots.
    pub fn indexes(slots: &[Option<u32>], counter: u8) -> exports::FsIndexes {
        let mut t = exports::FsIndexes { used: [0; 256], tags: [0; 256], next_super: counter };
        for (k, slot) in slots.iter().enumerate() {
            t.used[k] = slot.is_some() as u8;
            t.tags[k] = slot.unwrap_or(0);
        }
        t
    }

    /// The index found or none, the count, and the counter after, of one step of the lent allocator.
    pub fn allocate(slots: &[Option<u32>], counter: u8, tag: u32) -> (Option<u8>, u64, u8) {
        let mut t = PortSide::indexes(slots, counter);
        let before = (t.used, t.tags);
        // SAFETY: the struct is laid out as the call declares it, and is lent for the call alone.
        let step = unsafe { exports::galdovar_allocate_in(&mut t, tag) };
        let found = if step.code == 0 { Some(step.fs_idx as u8) } else { None };
        for k in 0..256 {
            let expected = if found == Some(k as u8) { (1, tag) } else { (before.0[k], before.1[k]) };
            assert_eq!((t.used[k], t.tags[k]), expected, "slot {} after a step", k);
        }
        (found, step.count as u64, t.next_super)
    }

    /// The node in a row.
    fn node(&self, i: usize, capacity: usize) -> Node {
        let b = &self.bytes;
        let low = |at: usize| number(b, at, 8) & MAX_INO;
        let len = b[8192 + 24 * capacity + 8 * i] as usize;
        let head = len.saturating_sub(7);
        let at = 8192 + 44 * capacity + 248 * i;
        let tail = 8192 + 24 * capacity + 8 * i + 1;
        let mut name = b[at..at + head].to_vec();
        name.extend_from_slice(&b[tail..tail + len - head]);
        Node { number: low(8192 + 8 * i), parent: low(8192 + 8 * capacity + 8 * i), name }
    }

    /// The mapping in force, which stands at byte 56, or that of the options, at 68.
    fn mapping_at(&self, at: usize) -> (u32, u32, u32) {
        let word = |k: usize| number(&self.bytes, at + 4 * k, 4) as u32;
        (word(0), word(1), word(2))
    }

    /// The mount in a cell, with the ids mapped once, as the Rust stores them.
    fn mount_in(&self, node: u64, cell: usize, uid: usize, gid: usize, mode: usize) -> Option<Mount> {
        let b = &self.bytes;
        let (internal, external, range) = self.mapping_at(56);
        let mapped = |id: u32| match id >= internal && id - internal < range {
            true => id - internal + external,
            false => id,
        };
        let full = number(b, cell, 8);
        match full >> 56 {
            0 => None,
            index => Some(Mount {
                node,
                index: index as u8,
                root: full & MAX_INO,
                uid: mapped(number(b, uid, 4) as u32),
                gid: mapped(number(b, gid, 4) as u32),
                mode: number(b, mode, 4) as u32,
            }),
        }
    }

    /// The mounts of the root and of the nodes in their rows.
    fn mounts(&self, nodes: &[Node], capacity: usize) -> Vec<Mount> {
        let mut mounts: Vec<Mount> = self.mount_in(1, 88, 96, 100, 104).into_iter().collect();
        for (i, n) in nodes.iter().enumerate() {
            mounts.extend(self.mount_in(
                n.number,
                8192 + 16 * capacity + 8 * i,
                8192 + 32 * capacity + 4 * i,
                8192 + 36 * capacity + 4 * i,
                8192 + 40 * capacity + 4 * i,
            ));
        }
        mounts
    }

    /// No call: puts a tag into a slot, or empties it.
    pub fn set_slot(&mut self, index: u8, tag: Option<u32>) {
        let at = TAGS + 4 * index as usize;
        self.bytes[SLOTS + index as usize] = tag.is_some() as u8;
        self.bytes[at..at + 4].copy_from_slice(&tag.unwrap_or(0).to_le_bytes());
    }
}

impl Side for PortSide {
    fn create(&mut self, c: &Creation) -> Answer {
        self.bytes.clear();
        self.bytes.resize(size(c.capacity as usize) + BEHIND, PATTERN);
        let (at, len) = self.lent();
        self.mapping = c.mapping;
        let (internal, external, range) = c.mapping;
        // SAFETY: here and below, each slice is lent with its own length, and none overlaps another.
        let a = unsafe {
            exports::galdovar_create(
                at,
                len,
                c.capacity as usize,
                c.known,
                c.in_opts,
                c.out_opts,
                c.flags,
                internal,
                external,
                range,
            )
        };
        Answer::of(&[a.code as u64])
    }

    fn set_remove_pseudo_root(&mut self) -> Answer {
        let (at, len) = self.lent();
        Answer::of(&[unsafe { exports::galdovar_set_remove_pseudo_root(at, len) }.code as u64])
    }

    fn mount(&mut self, path: &[u8], b: Backend) -> Answer {
        let (at, len) = self.lent();
        let a = unsafe {
            exports::galdovar_mount(at, len, path.as_ptr(), path.len(), b.tag, b.root, b.largest, b.uid, b.gid, b.mode)
        };
        Answer::of(&[a.code as u64, a.fs_idx as u64, a.count as u64, a.has_replaced as u64, a.replaced as u64])
    }

    fn restore_mount(&mut self, index: u8, path: &[u8], b: Backend) -> Answer {
        let (at, len) = self.lent();
        let a = unsafe {
            exports::galdovar_restore_mount(
                at,
                len,
                index,
                path.as_ptr(),
                path.len(),
                b.tag,
                b.root,
                b.largest,
                b.uid,
                b.gid,
                b.mode,
            )
        };
        Answer::of(&[
            a.code as u64,
            a.has_replaced as u64,
            a.replaced as u64,
            a.has_displaced as u64,
            a.displaced as u64,
        ])
    }

    fn umount(&mut self, path: &[u8]) -> Answer {
        let (at, len) = self.lent();
        let a = unsafe { exports::galdovar_umount(at, len, path.as_ptr(), path.len()) };
        Answer::of(&[a.code as u64, a.node, a.parent, a.has_released as u64, a.released as u64])
    }

    fn get_rootfs(&mut self, path: &[u8]) -> Answer {
        let (at, len) = self.lent();
        let a = unsafe { exports::galdovar_get_rootfs(at, len, path.as_ptr(), path.len()) };
        Answer::of(&[a.code as u64, a.has_backend as u64, a.tag as u64, a.fs_idx as u64])
    }

    fn path_walk(&mut self, path: &[u8]) -> Answer {
        let (at, len) = self.lent();
        let a = unsafe { exports::galdovar_path_walk(at, len, path.as_ptr(), path.len()) };
        Answer::of(&[a.code as u64, a.has_node as u64, a.node])
    }

    fn route(&mut self, full: u64) -> Answer {
        let (at, len) = self.lent();
        let a = unsafe { exports::galdovar_route(at, len, full) };
        Answer::of(&[a.code as u64, a.to_backend as u64, a.tag as u64, a.fs_idx as u64, a.number])
    }

    fn lookup(&mut self, node: u64, name: &[u8]) -> Answer {
        let (at, len) = self.lent();
        let a = unsafe { exports::galdovar_lookup(at, len, node, name.as_ptr(), name.len()) };
        Answer::of(&[a.code as u64, a.inode, a.mode as u64, a.uid as u64, a.gid as u64, a.blksize as u64])
    }

    fn readdir(&mut self, node: u64, size: u32, offset: u64, room: usize) -> Answer {
        let mut out = vec![PATTERN; room];
        let (at, len) = self.lent();
        let a = unsafe { exports::galdovar_readdir(at, len, node, size, offset, out.as_mut_ptr(), room) };
        Answer::of(&[a.code as u64, a.written]).with(written(&out, a.written))
    }

    fn convert_inode(&mut self, index: u8, number: u64) -> Answer {
        let a = unsafe { exports::galdovar_convert_inode(index, number) };
        Answer::of(&[a.code as u64, a.inode])
    }

    fn remap_attr_id(&mut self, outward: bool, uid: u32, gid: u32) -> Answer {
        let (at, len) = self.lent();
        let a = unsafe { exports::galdovar_remap_attr_id(at, len, uid, gid, outward as u32) };
        let (internal, external, range) = self.mapping;
        let given = match outward {
            true => unsafe { exports::galdovar_map_out(internal, external, range, uid) },
            false => unsafe { exports::galdovar_map_back(internal, external, range, uid) },
        };
        assert_eq!(given, a.uid, "an id by a given mapping, and by the same mapping in force");
        Answer::of(&[a.code as u64, a.uid as u64, a.gid as u64])
    }

    fn validate_path_component(&mut self, name: &[u8]) -> Answer {
        Answer::of(&[unsafe { exports::galdovar_validate_path_component(name.as_ptr(), name.len()) }.code as u64])
    }

    fn save_to_bytes(&mut self) -> Answer {
        let nodes = number(&self.bytes, 16, 8) as usize;
        let mut out = vec![PATTERN; RECORD * nodes + TAIL + BEHIND];
        let (at, len) = self.lent();
        let a = unsafe { exports::galdovar_save_to_bytes(at, len, out.as_mut_ptr(), out.len()) };
        Answer::of(&[a.code as u64, a.written]).with(written(&out, a.written))
    }

    fn restore_from_bytes(&mut self, bytes: &[u8]) -> Answer {
        let (at, len) = self.lent();
        let a = unsafe { exports::galdovar_restore_from_bytes(at, len, bytes.as_ptr(), bytes.len()) };
        Answer::of(&[a.code as u64])
    }

    fn settings(&mut self) -> Answer {
        let (at, len) = self.lent();
        let i = unsafe { exports::galdovar_initialized(at, len) };
        let o = unsafe { exports::galdovar_options(at, len) };
        Answer::of(&[
            (i.code | o.code) as u64,
            i.initialized as u64,
            o.in_opts,
            o.out_opts,
            o.flags as u64,
            o.internal as u64,
            o.external as u64,
            o.range as u64,
        ])
    }

    fn tables(&self) -> Tables {
        let b = &self.bytes;
        let capacity = number(b, 8, 8) as usize;
        assert!(b[size(capacity)..].iter().all(|b| *b == PATTERN), "bytes behind the instance are changed");
        let count = number(b, 16, 8) as usize;
        let nodes: Vec<Node> = (0..count).map(|i| self.node(i, capacity)).collect();
        let children = std::iter::once(1)
            .chain(nodes.iter().map(|n| n.number))
            .map(|p| (p, nodes.iter().filter(|n| n.parent == p).map(|n| n.number).collect()))
            .collect();
        let mounts = self.mounts(&nodes, capacity);
        Tables {
            nodes,
            children,
            next: number(b, 24, 8),
            counter: b[COUNTER],
            slots: (0..256)
                .map(|k| if b[SLOTS + k] == 0 { None } else { Some(number(b, TAGS + 4 * k, 4) as u32) })
                .collect(),
            mounts,
            options: Options {
                in_opts: number(b, 40, 8),
                out_opts: number(b, 48, 8),
                mapping: self.mapping_at(68),
                flags: b[80],
            },
            mapping: Some(self.mapping_at(56)).filter(|m| m.2 != 0),
            initialized: b[83] != 0,
            removes: b[82] != 0,
        }
    }

    fn set_slots(&mut self, slots: &[Option<u32>], counter: u8) {
        self.bytes[COUNTER] = counter;
        for (k, tag) in slots.iter().enumerate() {
            self.set_slot(k as u8, *tag);
        }
    }
}
