//! Random calls on an instance, guided by its tables, and within the limits in which the two sides must agree: room for
//! every node, paths and names not too long, mappings that fit, indexes from 1, states that the rules accept.

use crate::house::State;
use crate::random::Random;
use crate::side::{Backend, Call, Creation, Node, Options, Tables, DIR_MODE, MAX_INO};

const NAMES: [&[u8]; 14] = [
    b"a",
    b"b",
    b"c",
    b"d",
    b"ab",
    b"...",
    b".a",
    b"a b",
    b"a\0",
    "\u{e9}".as_bytes(),
    "\u{20ac}x".as_bytes(),
    "\u{1f4c1}".as_bytes(),
    b"seventeen-letters",
    b"twenty-four-letters-long",
];

const NOT_UTF8: [&[u8]; 8] = [
    b"\x80",
    b"\xc0\xaf",
    b"\xe0\x9f\x80",
    b"\xed\xa0\x80",
    b"\xf0\x8f\x80\x80",
    b"\xf4\x90\x80\x80",
    b"\xe2\x82",
    b"\xff",
];

pub struct Chance {
    pub random: Random,
    /// Full numbers that some answer gave, of every age.
    kept: Vec<u64>,
    /// Bytes that some save gave.
    states: Vec<Vec<u8>>,
    capacity: u64,
    known: u64,
    tags: u32,
}

impl Chance {
    pub fn new(seed: u64) -> Chance {
        Chance { random: Random::new(seed), kept: vec![1], states: Vec::new(), capacity: 64, known: u64::MAX, tags: 0 }
    }

    /// Keeps what an answer gave, for later calls.
    pub fn keep(&mut self, full: u64) {
        if self.kept.len() < 400 {
            self.kept.push(full);
        } else {
            let at = self.random.below(400) as usize;
            self.kept[at] = full;
        }
    }

    pub fn keep_state(&mut self, bytes: Vec<u8>) {
        if self.states.len() < 20 {
            self.states.push(bytes);
        } else {
            let at = self.random.below(20) as usize;
            self.states[at] = bytes;
        }
    }

    fn mapping(&mut self) -> (u32, u32, u32) {
        let r = &mut self.random;
        match r.below(6) {
            0 | 1 => (0, 0, 0),
            2 => (r.below(20) as u32, r.below(20) as u32, 1 + r.below(20) as u32),
            3 => (1000, 0, 1 + r.below(65536) as u32),
            4 => {
                let range = 1 + r.below(1 << 20) as u32;
                (u32::MAX - range, r.below(1 << 20) as u32, range)
            }
            _ => {
                let range = r.below(1 << 31) as u32;
                (r.below(1 << 31) as u32, r.below(1 << 31) as u32, range)
            }
        }
    }

    pub fn creation(&mut self, capacity: u64) -> Call {
        self.kept = vec![1];
        self.capacity = capacity;
        self.known = match self.random.below(3) {
            0 => u64::MAX,
            1 => 0x3_7fff_ffff,
            _ => self.random.next(),
        };
        Call::New(Creation {
            capacity,
            known: self.known,
            in_opts: if self.random.one_in(2) { 0 } else { self.random.next() & self.known },
            out_opts: self.random.next() & self.known,
            flags: self.random.below(64) as u8,
            mapping: self.mapping(),
        })
    }

    fn name(&mut self) -> Vec<u8> {
        match self.random.below(60) {
            0 => vec![b'n'; 1 + self.random.below(255) as usize],
            1 => vec![b'm'; 255],
            _ => {
                let few = if self.random.one_in(3) { NAMES.len() } else { 4 };
                self.random.pick(&NAMES[..few]).to_vec()
            }
        }
    }

    /// The path of a live node. Where an ancestor was removed it is the rest of one, which leads elsewhere or nowhere.
    fn path_of(&self, t: &Tables, number: u64) -> (Vec<u8>, bool) {
        let mut path = Vec::new();
        let mut at = number;
        while let Some(n) = t.nodes.iter().find(|n| n.number == at) {
            let mut longer = b"/".to_vec();
            longer.extend_from_slice(&n.name);
            longer.extend_from_slice(&path);
            path = longer;
            at = n.parent;
        }
        if path.is_empty() {
            path.push(b'/');
        }
        (path, at == 1)
    }

    fn path(&mut self, t: &Tables) -> Vec<u8> {
        if !t.mounts.is_empty() && self.random.one_in(3) {
            let node = self.random.pick(&t.mounts).node;
            return self.path_of(t, node).0;
        }
        if !t.nodes.is_empty() && self.random.one_in(4) {
            let node = self.random.pick(&t.nodes).number;
            return self.path_of(t, node).0;
        }
        if self.random.one_in(40) {
            return b"/".to_vec();
        }
        let mut path = Vec::new();
        for _ in 0..1 + self.random.below(5) {
            path.push(b'/');
            match self.random.below(14) {
                0 => path.push(b'/'),
                1 => path.push(b'.'),
                2 | 3 => path.extend_from_slice(b".."),
                _ => {
                    let name = self.name();
                    path.extend_from_slice(&name);
                }
            }
        }
        match self.random.below(40) {
            0 => path.push(b'/'),
            1 => path = path[1..].to_vec(),
            2 => path.clear(),
            3 => path.extend_from_slice(b"/."),
            4 => {
                let bad = *self.random.pick(&NOT_UTF8);
                path.extend_from_slice(bad);
            }
            _ => {}
        }
        path
    }

    /// A path with room for all its names.
    fn mount_path(&mut self, t: &Tables) -> Vec<u8> {
        let path = self.path(t);
        let parts = path.split(|b| *b == b'/').count() as u64;
        let live = t.nodes.len() as u64 + 1;
        let long = path.split(|b| *b == b'/').any(|part| part.len() > 255);
        if live + parts > self.capacity || t.next + parts > MAX_INO + 1 || long {
            match t.nodes.last().map(|n| self.path_of(t, n.number)) {
                Some((path, true)) => path,
                _ => b"/".to_vec(),
            }
        } else {
            path
        }
    }

    fn id(&mut self, m: (u32, u32, u32)) -> u32 {
        let near = [0, m.0, m.1, m.0.wrapping_add(m.2), m.1.wrapping_add(m.2), u32::MAX];
        match self.random.below(3) {
            0 => self.random.next() as u32,
            1 => self.random.pick(&near).wrapping_add(self.random.below(5) as u32).wrapping_sub(2),
            _ => self.random.below(70000) as u32,
        }
    }

    fn backend(&mut self, t: &Tables) -> Backend {
        self.tags += 1;
        Backend {
            tag: if self.random.one_in(20) { *self.random.pick(&[0, u32::MAX]) } else { self.tags },
            root: match self.random.below(12) {
                0 => 0,
                1 => MAX_INO,
                2 => MAX_INO + 1,
                3 => self.random.next(),
                4 | 5 => self.random.below(1 << 56),
                _ => 1,
            },
            largest: match self.random.below(20) {
                0 => MAX_INO,
                1 => MAX_INO + 1,
                2 => u64::MAX,
                _ => 1000,
            },
            uid: self.id(t.options.mapping),
            gid: self.id(t.options.mapping),
            mode: if self.random.one_in(2) { DIR_MODE } else { self.random.next() as u32 },
        }
    }

    /// The number of a node: a live one, one that was, one that will be, or none.
    fn node(&mut self, t: &Tables) -> u64 {
        match self.random.below(10) {
            0 => 1,
            1 => self.random.below(t.next + 2),
            2 => self.random.below(1 << 56),
            3 => self.kept[self.random.below(self.kept.len() as u64) as usize] & MAX_INO,
            _ if t.nodes.is_empty() => 1,
            _ => self.random.pick(&t.nodes).number,
        }
    }

    fn lookup_name(&mut self, t: &Tables, node: u64) -> Vec<u8> {
        let below: Vec<&Node> = t.nodes.iter().filter(|n| n.parent == node).collect();
        let fits = |name: Vec<u8>| if name.contains(&0) { b"a".to_vec() } else { name };
        match self.random.below(12) {
            0 => b".".to_vec(),
            1 | 2 => b"..".to_vec(),
            3 => Vec::new(),
            4 => self.random.pick(&NOT_UTF8).to_vec(),
            5 => b"a/b".to_vec(),
            _ if below.is_empty() => fits(self.name()),
            6 => fits(self.name()),
            _ => fits(self.random.pick(&below).name.clone()),
        }
    }

    /// A state that the rules accept: numbers rise, parents come before, names are sound and unique under a parent.
    fn state(&mut self) -> Vec<u8> {
        let mut nodes: Vec<Node> = Vec::new();
        let mut number = 1;
        for _ in 0..self.random.below(8).min(self.capacity - 1) {
            number += 1 + self.random.below(3);
            let parent = match self.random.below(nodes.len() as u64 + 1) {
                0 => 1,
                k => nodes[k as usize - 1].number,
            };
            let name = self.name();
            if nodes.iter().any(|n| n.parent == parent && n.name == name) {
                continue;
            }
            nodes.push(Node { number, parent, name });
        }
        let unknown = self.random.one_in(6);
        let mask = if unknown { u64::MAX } else { self.known };
        State {
            nodes,
            options: Options {
                in_opts: if self.random.one_in(3) { 0 } else { self.random.next() & mask },
                out_opts: self.random.next() & mask,
                mapping: (self.random.next() as u32, self.random.next() as u32, self.random.next() as u32),
                flags: self.random.below(64) as u8,
            },
            next: number + 1 + self.random.below(4),
            counter: self.random.next() as u8,
        }
        .to_house()
    }

    fn is_fresh(t: &Tables) -> bool {
        t.nodes.is_empty() && t.mounts.is_empty()
    }

    /// The bytes of a save are a state that a restore of the rules accepts, if every parent is present and they fit.
    fn fits(&self, bytes: &[u8]) -> bool {
        match State::from_house(bytes) {
            Some(s) => {
                (s.nodes.len() as u64) < self.capacity
                    && s.nodes.iter().all(|n| n.parent == 1 || s.nodes.iter().any(|p| p.number == n.parent))
            }
            None => false,
        }
    }

    fn restore(&mut self) -> Call {
        if !self.states.is_empty() && self.random.one_in(2) {
            let bytes = self.random.pick(&self.states).clone();
            if self.fits(&bytes) {
                return Call::Restore(bytes);
            }
        }
        Call::Restore(self.state())
    }

    fn restore_mount(&mut self, t: &Tables) -> Call {
        let path = self.mount_path(t);
        let index = match t.mounts.is_empty() || self.random.one_in(2) {
            true => 1 + self.random.below(255) as u8,
            false => self.random.pick(&t.mounts).index,
        };
        Call::RestoreMount(index, path, self.backend(t))
    }

    fn route(&mut self) -> Call {
        Call::Route(match self.random.below(6) {
            0 => self.random.next(),
            1 => (self.random.below(256) << 56) + self.random.below(3),
            _ => self.kept[self.random.below(self.kept.len() as u64) as usize],
        })
    }

    fn list(&mut self, t: &Tables) -> Call {
        let node = self.node(t);
        let size = match self.random.below(4) {
            0 => 0,
            1 => u32::MAX,
            _ => self.random.below(200) as u32,
        };
        let offset = match self.random.below(8) {
            0 => u64::MAX,
            1 => self.random.next(),
            _ => self.random.below(4),
        };
        let room = if self.random.one_in(2) { 4096 } else { self.random.below(200) as usize };
        Call::List { node, size, offset, room }
    }

    fn convert(&mut self) -> Call {
        let index = self.random.next() as u8;
        let number = match self.random.below(4) {
            0 => self.random.next(),
            1 => MAX_INO + self.random.below(2),
            2 => 0,
            _ => self.random.below(1 << 56),
        };
        Call::Convert(index, number)
    }

    pub fn call(&mut self, t: &Tables) -> Call {
        if Chance::is_fresh(t) && self.random.one_in(8) {
            return self.restore();
        }
        match self.random.below(100) {
            0..=24 => {
                let path = self.mount_path(t);
                Call::Mount(path, self.backend(t))
            }
            25..=31 => self.restore_mount(t),
            32..=44 => Call::Umount(self.path(t)),
            45..=50 => Call::Rootfs(self.path(t)),
            51..=55 => Call::Walk(self.path(t)),
            56..=65 => self.route(),
            66..=78 => {
                let node = self.node(t);
                Call::Lookup(node, self.lookup_name(t, node))
            }
            79..=87 => self.list(t),
            88 => self.convert(),
            89..=91 => Call::Out(self.id(t.options.mapping), self.id(t.options.mapping)),
            92..=94 => Call::Back(self.id(t.options.mapping), self.id(t.options.mapping)),
            95 => Call::Component(self.lookup_name(t, 1)),
            96 | 97 => Call::Save,
            99 if self.random.one_in(6) => Call::Remove,
            _ => Call::Settings,
        }
    }
}
