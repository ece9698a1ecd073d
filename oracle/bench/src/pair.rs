//! One instance on both sides, made by the same calls, with every answer and the whole tables compared.

use std::any::Any;
use std::ffi::CString;
use std::io;

use fuse_backend_rs::api::filesystem::{Entry, FileSystem};
use fuse_backend_rs::api::{BackFileSystem, BackendFileSystem};

use crate::port_side::PortSide;
use crate::rust_side::{root_entry, RustSide};
use crate::side::{Answer, Backend, Call, Creation, Side};

/// What is mounted: a tag with a root of number 1.
pub fn backend(tag: u32) -> Backend {
    Backend { tag, root: 1, largest: 1000, uid: 0, gid: 0, mode: 0o40755 }
}

/// A backend of the Rust that does nothing but bring the numbers of its root.
pub struct Light(pub Backend);

impl FileSystem for Light {
    type Inode = u64;
    type Handle = u64;
}

impl BackendFileSystem for Light {
    fn mount(&self) -> io::Result<(Entry, u64)> {
        Ok(root_entry(&self.0))
    }

    fn as_any(&self) -> &dyn Any {
        self
    }
}

pub fn light() -> BackFileSystem {
    Box::new(Light(backend(7)))
}

pub struct Pair {
    pub rust: RustSide,
    pub port: PortSide,
}

impl Pair {
    /// A new instance of 1,024 nodes, with a mapping.
    pub fn new() -> Pair {
        let mut pair = Pair { rust: RustSide::new(), port: PortSide::new() };
        pair.both(&Pair::creation());
        pair
    }

    pub fn creation() -> Call {
        Call::New(Creation {
            capacity: 1024,
            known: u64::MAX,
            in_opts: 0,
            out_opts: 0,
            flags: 0,
            mapping: (0, 1000, 65536),
        })
    }

    /// The call on both sides. Their answers must be equal.
    pub fn both(&mut self, call: &Call) -> Answer {
        let rust = self.rust.perform(call);
        let port = self.port.perform(call);
        assert_eq!(rust, port, "the sides answer differently: {:?}", call);
        rust
    }

    /// The same, and the call must be done.
    pub fn done(&mut self, call: &Call) -> Answer {
        let answer = self.both(call);
        assert_eq!(answer.code(), 0, "refused: {:?}", call);
        answer
    }

    pub fn mount(&mut self, path: &str) -> Answer {
        self.done(&Call::Mount(path.into(), backend(7)))
    }

    pub fn umount(&mut self, path: &str) -> Answer {
        self.done(&Call::Umount(path.into()))
    }

    /// Makes the nodes of a path that are not there, and leaves no mount.
    pub fn make(&mut self, path: &str) {
        self.mount(path);
        self.umount(path);
    }

    pub fn check(&self) {
        assert_eq!(self.rust.tables(), self.port.tables(), "the tables differ");
    }

    /// So many nodes in the root.
    pub fn flat(nodes: usize) -> Pair {
        let mut pair = Pair::new();
        for k in 0..nodes {
            pair.make(&format!("/{}", name(k)));
        }
        pair.check();
        pair
    }

    /// 1,000 nodes: 40 directories in the root, one after the other, each with 24 nodes in it.
    pub fn sites() -> Pair {
        let mut pair = Pair::new();
        for site in 0..40 {
            for k in 0..24 {
                pair.make(&format!("/{}/{}", site_name(site), name(k)));
            }
        }
        pair.check();
        pair
    }

    /// So many nodes in the root, and behind them a chain of nodes, each in the one before.
    pub fn chain(nodes: usize, depth: usize) -> Pair {
        let mut pair = Pair::flat(nodes);
        pair.make(&chain_path(depth));
        pair.check();
        pair
    }
}

/// The name of the k-th node of a directory: 15 bytes.
pub fn name(k: usize) -> String {
    format!("laboratory-{:04}", k)
}

/// Names that end alike: 22 bytes, of which the last 15 are the same.
pub fn alike(k: usize) -> String {
    format!("lab{:04}-----tolerances", k)
}

pub fn site_name(k: usize) -> String {
    format!("site-{:02}", k)
}

pub fn chain_path(depth: usize) -> String {
    (0..depth).map(|k| format!("/level-{:02}", k)).collect()
}

pub fn c_string(name: &str) -> CString {
    CString::new(name).unwrap()
}
