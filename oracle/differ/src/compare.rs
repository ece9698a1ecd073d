//! Both sides on the same calls: every answer is held against the other's, and after every call the whole tables.

use crate::chance::Chance;
use crate::directed::{self, node};
use crate::expected;
use crate::house::State;
use crate::port_side::PortSide;
use crate::random::Random;
use crate::record::{changes, learn, make};
use crate::rust_side::RustSide;
use crate::side::{Answer, Call, Creation, Options, Side, Tables};
use crate::text::{call_text, line};

pub struct Compare<P> {
    rust: RustSide,
    port: P,
    /// The calls since the last new instance, without those before the last that can change nothing.
    trail: Vec<Call>,
    pub equal: u64,
    pub different: u64,
    /// Differences that docs/DIFFERENCES.md explains.
    pub explained: u64,
    /// Nothing is printed, and random calls end at the first difference.
    pub quiet: bool,
}

impl<P: Side> Compare<P> {
    pub fn new(port: P) -> Compare<P> {
        Compare { rust: RustSide::new(), port, trail: Vec::new(), equal: 0, different: 0, explained: 0, quiet: false }
    }

    fn differs(&mut self, what: &str, rust: String, port: String) {
        self.different += 1;
        if self.quiet || self.different > 3 {
            return;
        }
        println!("different {} at the last of these calls:", what);
        for call in &self.trail {
            println!("  {}", call_text(call));
        }
        println!("  the Rust: {}\n  the port: {}", rust, port);
    }

    fn follow(&mut self, call: &Call) {
        match call {
            Call::New(_) => self.trail.clear(),
            _ if self.trail.last().map_or(false, |last| !changes(last)) => {
                self.trail.pop();
            }
            _ => {}
        }
        self.trail.push(call.clone());
    }

    /// One call on both sides; the Rust's answer, and its tables after it.
    fn call(&mut self, call: &Call) -> (Answer, Tables) {
        self.follow(call);
        let rust = self.rust.perform(call);
        let port = self.port.perform(call);
        let mut same = rust == port;
        if !same {
            self.differs("answer", line(call, &rust), line(call, &port));
        }
        let (r, p) = (self.rust.tables(), self.port.tables());
        if r != p {
            if same {
                self.differs("tables", format!("{:?}", r), format!("{:?}", p));
            }
            same = false;
        }
        if same {
            self.equal += 1;
        }
        (rust, r)
    }

    /// The calls of the recorded list.
    pub fn recorded(&mut self, seed: u64, calls: usize) {
        make(seed, calls, &mut |call| self.call(call));
    }

    /// Random calls, 300 on an instance, up to the number given.
    pub fn random(&mut self, seed: u64, calls: u64) {
        let mut chance = Chance::new(seed);
        let mut done = 0;
        while done < calls {
            if !self.quiet && done % 500_000 < 300 {
                println!("after {} random calls: {} equal, {} different", done, self.equal, self.different);
            }
            let capacity = *chance.random.pick(&[1, 2, 6, 16, 16, 32, 32, 64, 64, 1024]);
            let mut call = chance.creation(capacity);
            for _ in 0..300 {
                let (answer, tables) = self.call(&call);
                if self.quiet && self.different > 0 {
                    return;
                }
                learn(&mut chance, &call, &answer);
                call = chance.call(&tables);
                done += 1;
            }
        }
    }

    /// The index search from tables with one slot empty, then from random ones, each with every counter. In every tenth
    /// of them a mount makes the same search on both sides' own tables.
    pub fn searches(&mut self, seed: u64, tables: u64) {
        let mut random = Random::new(seed);
        for k in 0..tables {
            let empty_in = 1 + random.below(40);
            let mut slots: Vec<Option<u32>> = match k {
                0..=255 => vec![Some(7); 256],
                _ => (0..256).map(|_| if random.below(40) < empty_in { None } else { Some(9) }).collect(),
            };
            if k < 256 {
                slots[k as usize] = None;
            }
            if k % 10 == 0 {
                self.searches_by_mount(&slots);
            }
            self.rust.set_slots(&slots, 0);
            for counter in 0..=255 {
                let rust = self.rust.allocate(counter);
                let port = PortSide::allocate(&slots, counter, 5);
                if rust == port {
                    self.equal += 1;
                } else {
                    self.differs("search", format!("{:?}", rust), format!("{:?}", port));
                }
            }
        }
    }

    /// A mount on a new instance with those slots, from every counter.
    fn searches_by_mount(&mut self, slots: &[Option<u32>]) {
        for counter in 0..=255 {
            self.call(&directed::new(1, (0, 0, 0)));
            self.rust.set_slots(slots, counter);
            self.port.set_slots(slots, counter);
            self.call(&directed::mount(b"/", 3));
        }
    }

    /// Every path of up to that many bytes over `/ . a b`: a walk and a root query on a small tree, and a mount on a new
    /// instance.
    pub fn paths(&mut self, longest: u32) {
        for len in 0..=longest {
            let count = 4_u64.pow(len);
            let path = |k: u64| (0..len).map(|at| b"/.ab"[(k >> (2 * at) & 3) as usize]).collect::<Vec<u8>>();
            for call in &directed::small_tree() {
                self.call(call);
            }
            for k in 0..count {
                self.call(&Call::Walk(path(k)));
                self.call(&Call::Rootfs(path(k)));
            }
            for k in 0..count {
                self.call(&directed::new(16, (0, 0, 0)));
                self.call(&directed::mount(&path(k), 1));
            }
        }
    }

    /// A directory with names of every length around a word's end, listed at every offset with every size and with every
    /// room, up to past its last record.
    pub fn listings(&mut self) {
        self.call(&directed::new(16, (0, 0, 0)));
        for (tag, len) in [1_usize, 6, 7, 8, 9, 15, 16, 17].iter().enumerate() {
            let path: Vec<u8> = b"/".iter().cloned().chain((0..*len).map(|k| b'a' + k as u8)).collect();
            self.call(&directed::mount(&path, tag as u32));
        }
        for offset in 0..=9 {
            for bytes in 0..=360 {
                self.call(&Call::List { node: 1, size: bytes, offset, room: 4096 });
                self.call(&Call::List { node: 1, size: 4096, offset, room: bytes as usize });
            }
        }
    }

    /// Every two bytes behind a slash; every first byte with up to three next bytes around each limit. The longest are
    /// looked up too, changed so that no byte is 0.
    pub fn utf8(&mut self) {
        let edges = [0x00, 0x2f, 0x61, 0x7f, 0x80, 0x8f, 0x90, 0x9f, 0xa0, 0xbf, 0xc0, 0xc2, 0xe0, 0xf0, 0xff];
        self.call(&directed::new(16, (0, 0, 0)));
        for first in 0..=255 {
            self.call(&Call::Walk(vec![b'/', first]));
            for second in 0..=255 {
                self.call(&Call::Walk(vec![b'/', first, second]));
            }
            for second in edges.iter() {
                for third in edges.iter() {
                    self.call(&Call::Walk(vec![b'/', first, *second, *third]));
                    for fourth in edges.iter() {
                        self.call(&Call::Walk(vec![b'/', first, *second, *third, *fourth]));
                        self.call(&Call::Lookup(1, vec![first.max(1), *second | 1, *third | 1, *fourth | 1]));
                    }
                }
            }
        }
    }

    /// Every change of one byte of some saved states, restored. Where no expected difference explains it, the two must agree.
    pub fn changed_states(&mut self) {
        let options = Options { in_opts: 5, out_opts: 9, mapping: (1, 2, 3), flags: 9 };
        let states = [
            State { nodes: vec![], options, next: 2, counter: 7 },
            State { nodes: vec![node(2, 1, b"a")], options, next: 3, counter: 0 },
            State {
                nodes: vec![node(2, 1, b"a"), node(4, 1, b"b"), node(5, 4, b"\xc3\xa9x"), node(300, 2, b"..a")],
                options,
                next: 70_000,
                counter: 255,
            },
        ];
        let new =
            Call::New(Creation { capacity: 16, known: 0xffff, in_opts: 0, out_opts: 0, flags: 0, mapping: (0, 0, 0) });
        for state in states.iter() {
            let bytes = state.to_house();
            for at in 0..bytes.len() {
                for change in 0..=255 {
                    let mut bytes = bytes.clone();
                    bytes[at] ^= change;
                    self.call(&new);
                    self.restore(bytes);
                }
            }
        }
    }

    fn restore(&mut self, state: Vec<u8>) {
        let call = &Call::Restore(state);
        self.follow(call);
        let rust = self.rust.perform(call);
        let port = self.port.perform(call);
        if expected::explains(call, &rust, &port) {
            self.explained += 1;
        } else if rust != port {
            self.differs("answer", line(call, &rust), line(call, &port));
        } else if port.code() == 0 && self.rust.tables() != self.port.tables() {
            let (r, p) = (self.rust.tables(), self.port.tables());
            self.differs("tables", format!("{:?}", r), format!("{:?}", p));
        } else {
            self.equal += 1;
        }
    }
}
