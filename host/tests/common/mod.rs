//! What the tests share: instances, backends, random numbers, and the layout rule.
#![allow(dead_code)]
use galdovar::{Backend, Tag, Vfs, VfsOptions};

/// A new instance of a capacity, without options.
pub fn fresh(nodes: usize) -> Vfs {
    Vfs::new(nodes, 0, &VfsOptions::new()).expect("a capacity within the limits")
}

/// A backend by its tag, as a session mounts it.
pub fn backend(tag: u32) -> Backend {
    Backend { largest: 1000, ..Backend::new(Tag(tag)) }
}

/// An instance of 1,024 nodes in which every index is held, by mounts on `/0` to `/254`. The counter is at 0.
pub fn crowded() -> Vfs {
    let mut vfs = fresh(1024);
    for k in 0..255 {
        vfs.mount(backend(k), format!("/{}", k)).expect("an index is free");
    }
    vfs
}

/// Random numbers that are the same in each run.
pub struct Random(pub u64);

impl Random {
    pub fn next(&mut self) -> u64 {
        self.0 ^= self.0 << 13;
        self.0 ^= self.0 >> 7;
        self.0 ^= self.0 << 17;
        self.0
    }

    pub fn below(&mut self, limit: u64) -> u64 {
        (self.next() >> 11) % limit
    }

    pub fn fill(&mut self, bytes: &mut [u8]) {
        for b in bytes {
            *b = self.next() as u8;
        }
    }
}

/// A little-endian number of up to eight bytes.
pub fn number(bytes: &[u8]) -> u64 {
    bytes.iter().rev().fold(0, |n, b| n << 8 | u64::from(*b))
}

/// The layout rule, as docs/LAYOUT.md words it.
pub fn is_laid(s: &[u8]) -> bool {
    if s.len() < 8192 || &s[..8] != b"GALDOVAR" {
        return false;
    }
    let word = |at: usize| number(&s[at..at + 8]);
    let start = |at: usize| number(&s[at..at + 4]);
    let nodes = word(8);
    let range = start(64);
    (1..=1024).contains(&nodes)
        && s.len() as u64 >= 512 * nodes + 8192
        && word(16) < nodes
        && (2..=1 << 56).contains(&word(24))
        && word(40) & !word(32) == 0
        && word(48) & !word(32) == 0
        && s[80] < 64
        && start(56) + range < 1 << 32
        && start(60) + range < 1 << 32
}
