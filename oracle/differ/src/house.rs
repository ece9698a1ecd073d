//! Saved state in the layout of R119 to R123 of docs/RULES.md, and in the layout of the shims `versionize` and
//! `dbs-snapshot`, which the Rust writes here.

use crate::side::{Node, Options};

/// The bytes of the trailer, and those of the options and the trailer together (R121, R123).
const TRAILER: usize = 24;
pub const TAIL: usize = 32 + TRAILER;

#[derive(Clone, Debug, PartialEq, Eq)]
pub struct State {
    pub nodes: Vec<Node>,
    pub options: Options,
    pub next: u64,
    pub counter: u8,
}

/// Reads fields from the front of some bytes.
struct Reader<'a>(&'a [u8]);

impl<'a> Reader<'a> {
    fn bytes(&mut self, len: usize) -> Option<&'a [u8]> {
        if self.0.len() < len {
            return None;
        }
        let (front, rest) = self.0.split_at(len);
        self.0 = rest;
        Some(front)
    }

    fn number(&mut self, width: usize) -> Option<u64> {
        Some(self.bytes(width)?.iter().rev().fold(0, |n, b| n << 8 | *b as u64))
    }
}

impl State {
    /// The bytes of R119 to R123, the nodes as they stand in the list.
    pub fn to_house(&self) -> Vec<u8> {
        let mut out = Vec::new();
        for n in &self.nodes {
            out.extend_from_slice(&n.number.to_le_bytes());
            out.extend_from_slice(&n.parent.to_le_bytes());
            out.extend_from_slice(&(n.name.len() as u16).to_le_bytes());
            out.extend_from_slice(&n.name);
        }
        let offset = out.len() as u32;
        let o = &self.options;
        out.extend_from_slice(&o.in_opts.to_le_bytes());
        out.extend_from_slice(&o.out_opts.to_le_bytes());
        out.extend_from_slice(&o.mapping.0.to_le_bytes());
        out.extend_from_slice(&o.mapping.1.to_le_bytes());
        out.extend_from_slice(&o.mapping.2.to_le_bytes());
        out.extend_from_slice(&[o.flags, 0, 0, 0]);
        out.extend_from_slice(&offset.to_le_bytes());
        out.extend_from_slice(&(self.nodes.len() as u32).to_le_bytes());
        out.extend_from_slice(&self.next.to_le_bytes());
        out.extend_from_slice(&[self.counter, 1, 0, 0, 0, 0, 0, 0]);
        out
    }

    /// The state that the bytes spell, where their frame holds: lengths, offset, count, version, zeros, flags, and names
    /// that a Rust string can hold. What the numbers and names mean is not judged.
    pub fn from_house(bytes: &[u8]) -> Option<State> {
        if bytes.len() < TAIL {
            return None;
        }
        let mut r = Reader(&bytes[bytes.len() - TRAILER..]);
        let offset = r.number(4)? as usize;
        let count = r.number(4)?;
        let next = r.number(8)?;
        let counter = r.number(1)? as u8;
        if offset != bytes.len() - TAIL || r.number(7)? != 1 {
            return None;
        }
        let mut r = Reader(&bytes[..offset]);
        let mut nodes = Vec::new();
        while !r.0.is_empty() {
            let number = r.number(8)?;
            let parent = r.number(8)?;
            let len = r.number(2)? as usize;
            let name = r.bytes(len)?.to_vec();
            std::str::from_utf8(&name).ok()?;
            nodes.push(Node { number, parent, name });
        }
        let mut r = Reader(&bytes[offset..]);
        let options = Options {
            in_opts: r.number(8)?,
            out_opts: r.number(8)?,
            mapping: (r.number(4)? as u32, r.number(4)? as u32, r.number(4)? as u32),
            flags: r.number(1)? as u8,
        };
        if r.number(3)? != 0 || options.flags > 63 || nodes.len() as u64 != count {
            return None;
        }
        Some(State { nodes, options, next, counter })
    }

    /// The bytes that the Rust takes, by way of the shims.
    pub fn to_shim(&self) -> Vec<u8> {
        let mut tree = Vec::new();
        tree.extend_from_slice(&self.next.to_le_bytes());
        tree.extend_from_slice(&(self.nodes.len() as u64).to_le_bytes());
        for n in &self.nodes {
            tree.extend_from_slice(&n.number.to_le_bytes());
            tree.extend_from_slice(&n.parent.to_le_bytes());
            tree.extend_from_slice(&(n.name.len() as u64).to_le_bytes());
            tree.extend_from_slice(&n.name);
        }
        let o = &self.options;
        let mut out = Vec::new();
        out.extend_from_slice(&o.in_opts.to_le_bytes());
        out.extend_from_slice(&o.out_opts.to_le_bytes());
        out.extend_from_slice(&[o.flags & 1, o.flags >> 1 & 1]);
        out.extend_from_slice(&o.mapping.0.to_le_bytes());
        out.extend_from_slice(&o.mapping.1.to_le_bytes());
        out.extend_from_slice(&o.mapping.2.to_le_bytes());
        out.extend((2..6).map(|bit| o.flags >> bit & 1));
        out.extend_from_slice(&(tree.len() as u64).to_le_bytes());
        out.extend_from_slice(&tree);
        out.push(self.counter);
        out
    }

    /// The state in the bytes that the Rust saved, the nodes by number: the Rust writes them in the order of a hash map.
    pub fn from_shim(bytes: &[u8]) -> Option<State> {
        let mut r = Reader(bytes);
        let in_opts = r.number(8)?;
        let out_opts = r.number(8)?;
        let mut flags = r.number(1)? | r.number(1)? << 1;
        let mapping = (r.number(4)? as u32, r.number(4)? as u32, r.number(4)? as u32);
        for bit in 2..6 {
            flags |= r.number(1)? << bit;
        }
        let len = r.number(8)? as usize;
        let (next, nodes) = tree_from_shim(r.bytes(len)?)?;
        let counter = r.number(1)? as u8;
        let options = Options { in_opts, out_opts, mapping, flags: flags as u8 };
        Some(State { nodes, options, next, counter })
    }
}

/// The next number and the nodes, by number, in the bytes that the Rust's tree saved.
pub fn tree_from_shim(bytes: &[u8]) -> Option<(u64, Vec<Node>)> {
    let mut r = Reader(bytes);
    let next = r.number(8)?;
    let count = r.number(8)?;
    let mut nodes = Vec::new();
    for _ in 0..count {
        let number = r.number(8)?;
        let parent = r.number(8)?;
        let len = r.number(8)? as usize;
        nodes.push(Node { number, parent, name: r.bytes(len)?.to_vec() });
    }
    nodes.sort_by_key(|n| n.number);
    Some((next, nodes))
}
