//! Ten wrong ports, each the port with one slip laid over a call: the lent bytes, the request or the answer are changed
//! as the slip would change them. The prover builds no wrong port, so the slips stand here. Each is to be found by the
//! random calls.

use crate::compare::Compare;
use crate::port_side::{PortSide, COUNTER};
use crate::side::{Answer, Backend, Creation, Side, Tables, FULL, INODE, INVAL};

#[derive(Clone, Copy, PartialEq)]
pub enum Slip {
    AllFull,
    AlwaysOne,
    RestartAtOne,
    IdleCounter,
    FirstCallOnly,
    InventedCount,
    CounterPutBack,
    OldFreedFirst,
    FoldedPath,
    NoentBeforeSize,
}

const SLIPS: [(Slip, &str); 10] = [
    (Slip::AllFull, "every mount answers FULL"),
    (Slip::AlwaysOne, "index 1 is always handed out"),
    (Slip::RestartAtOne, "the search restarts at 1"),
    (Slip::IdleCounter, "the counter does not move"),
    (Slip::FirstCallOnly, "the search is right on the first mount only, then restarts at 1"),
    (Slip::InventedCount, "the count is always 1"),
    (Slip::CounterPutBack, "the counter is put back after row 6 or 7"),
    (Slip::OldFreedFirst, "the old index is freed before the search"),
    (Slip::FoldedPath, "`x/..` is folded away before the mount walk"),
    (Slip::NoentBeforeSize, "a listing tests NOENT before size 0"),
];

pub struct Slipped {
    port: PortSide,
    slip: Slip,
    mounts: u64,
}

/// A path without its `x/..`.
fn folded(path: &[u8]) -> Vec<u8> {
    let mut parts: Vec<&[u8]> = Vec::new();
    for part in path.split(|b| *b == b'/') {
        match part {
            b".." if parts.last().map_or(false, |last| !last.is_empty()) => {
                parts.pop();
            }
            b"" | b"." if !parts.is_empty() => {}
            _ => parts.push(part),
        }
    }
    match &parts[..] {
        [b""] => b"/".to_vec(),
        _ => parts.join(&b'/'),
    }
}

impl Slipped {
    /// A mount that frees the index of the old mount first, and is right in all else.
    fn mount_freed(&mut self, path: &[u8], b: Backend) -> Answer {
        let walked = self.port.path_walk(path);
        let tables = self.port.tables();
        let old = tables.mounts.iter().find(|m| m.node == walked.numbers[2]).map(|m| m.index);
        let index = match old {
            Some(index) => index,
            None => return self.port.mount(path, b),
        };
        let held = tables.slots[index as usize];
        self.port.set_slot(index, None);
        let mut answer = self.port.mount(path, b);
        if answer.code() != 0 {
            self.port.set_slot(index, held);
        } else if let Some(tag) = held {
            answer.numbers[3] = 1;
            answer.numbers[4] = tag as u64;
        }
        answer
    }
}

impl Side for Slipped {
    fn create(&mut self, c: &Creation) -> Answer {
        self.mounts = 0;
        self.port.create(c)
    }

    fn mount(&mut self, path: &[u8], b: Backend) -> Answer {
        self.mounts += 1;
        let before = self.port.bytes[COUNTER];
        match self.slip {
            Slip::AllFull => return Answer::of(&[FULL, 0, 257, 0, 0]),
            Slip::AlwaysOne => {
                self.port.set_slot(1, None);
                self.port.bytes[COUNTER] = 1;
            }
            Slip::RestartAtOne => self.port.bytes[COUNTER] = 1,
            Slip::FirstCallOnly if self.mounts > 1 => self.port.bytes[COUNTER] = 1,
            _ => {}
        }
        let mut answer = match self.slip {
            Slip::FoldedPath => self.port.mount(&folded(path), b),
            Slip::OldFreedFirst => self.mount_freed(path, b),
            _ => self.port.mount(path, b),
        };
        let refused = answer.code() == INVAL || answer.code() == INODE;
        match self.slip {
            Slip::IdleCounter => self.port.bytes[COUNTER] = before,
            Slip::CounterPutBack if refused => self.port.bytes[COUNTER] = before,
            Slip::InventedCount if answer.code() == 0 => answer.numbers[2] = 1,
            _ => {}
        }
        answer
    }

    fn readdir(&mut self, node: u64, size: u32, offset: u64, room: usize) -> Answer {
        let size = if self.slip == Slip::NoentBeforeSize { size.max(1) } else { size };
        self.port.readdir(node, size, offset, room)
    }

    fn set_remove_pseudo_root(&mut self) -> Answer {
        self.port.set_remove_pseudo_root()
    }

    fn restore_mount(&mut self, index: u8, path: &[u8], b: Backend) -> Answer {
        self.port.restore_mount(index, path, b)
    }

    fn umount(&mut self, path: &[u8]) -> Answer {
        self.port.umount(path)
    }

    fn get_rootfs(&mut self, path: &[u8]) -> Answer {
        self.port.get_rootfs(path)
    }

    fn path_walk(&mut self, path: &[u8]) -> Answer {
        self.port.path_walk(path)
    }

    fn route(&mut self, full: u64) -> Answer {
        self.port.route(full)
    }

    fn lookup(&mut self, node: u64, name: &[u8]) -> Answer {
        self.port.lookup(node, name)
    }

    fn convert_inode(&mut self, index: u8, number: u64) -> Answer {
        self.port.convert_inode(index, number)
    }

    fn remap_attr_id(&mut self, outward: bool, uid: u32, gid: u32) -> Answer {
        self.port.remap_attr_id(outward, uid, gid)
    }

    fn validate_path_component(&mut self, name: &[u8]) -> Answer {
        self.port.validate_path_component(name)
    }

    fn save_to_bytes(&mut self) -> Answer {
        self.port.save_to_bytes()
    }

    fn restore_from_bytes(&mut self, bytes: &[u8]) -> Answer {
        self.port.restore_from_bytes(bytes)
    }

    fn settings(&mut self) -> Answer {
        self.port.settings()
    }

    fn tables(&self) -> Tables {
        self.port.tables()
    }

    fn set_slots(&mut self, slots: &[Option<u32>], counter: u8) {
        self.port.set_slots(slots, counter)
    }
}

/// Runs random calls on each wrong port up to the first difference; whether each was found.
pub fn run(seed: u64, most: u64) -> bool {
    let mut all = true;
    for (slip, what) in SLIPS.iter() {
        let port = Slipped { port: PortSide::new(), slip: *slip, mounts: 0 };
        let mut c = Compare::new(port);
        c.quiet = true;
        c.random(seed, most);
        all &= c.different > 0;
        match c.different {
            0 => println!("{}: not found in {} calls", what, c.equal),
            _ => println!("{}: found at call {}", what, c.equal + 1),
        }
    }
    all
}
