//! The lines of the table: for each, an instance on both sides, the answers compared, and then the call timed.

use std::ffi::CString;

use fuse_backend_rs::api::filesystem::FsOptions;
use fuse_backend_rs::api::{BackFileSystem, Vfs, VfsOptions};

use crate::clock::{measure, opaque, plain, prepared, spent, Batch};
use crate::house::State;
use crate::pair::{alike, backend, c_string, chain_path, light, name, site_name, Pair};
use crate::port_side::exports::*;
use crate::port_side::PortSide;
use crate::side::{Call, Side, SMALL};

/// The panel of the plot that a line is in, and its number of nodes there.
type Plot = Option<(&'static str, usize)>;

/// A measured line: nanoseconds of both sides, and the least ratio that is wanted, 0 for none.
pub struct Line {
    pub name: String,
    pub goal: f64,
    pub rust: Option<f64>,
    pub port: f64,
    pub plot: Plot,
}

/// The lines so far, who is told of each, and the text that a line must have to be measured, where not all are.
pub struct Table<'a> {
    pub lines: Vec<Line>,
    pub tell: &'a mut dyn FnMut(&Line),
    pub only: Option<String>,
}

const SIZES: [usize; 3] = [10, 100, 1000];

// SAFETY of every call of the port in this file: a slice is lent with its own length, none overlaps another of the call,
// and the bytes live as long as the closure that lends them.

fn lent(port: &PortSide) -> (*const u8, usize) {
    (port.bytes.as_ptr(), port.bytes.len())
}

fn lent_mut(port: &mut PortSide) -> (*mut u8, usize) {
    (port.bytes.as_mut_ptr(), port.bytes.len())
}

impl<'a> Table<'a> {
    fn push(&mut self, line: Line) {
        (self.tell)(&line);
        self.lines.push(line);
    }

    fn wants(&self, name: &str) -> bool {
        self.only.as_ref().map_or(true, |only| name.contains(only.as_str()))
    }

    fn line(&mut self, name: &str, goal: f64, plot: Plot, rust: Batch, port: Batch) {
        if self.wants(name) {
            let times = measure(&mut [rust, port]);
            self.push(Line { name: name.to_string(), goal, rust: Some(times[0]), port: times[1], plot });
        }
    }

    /// A call that only the port has.
    fn alone(&mut self, name: &str, port: Batch) {
        if self.wants(name) {
            let times = measure(&mut [port]);
            self.push(Line { name: name.to_string(), goal: 0.0, rust: None, port: times[0], plot: None });
        }
    }

    pub fn all(&mut self) {
        self.conversion();
        self.routes();
        self.lookups();
        self.small_directory();
        self.walks();
        self.mounts();
        self.allocations();
        self.states();
        self.listings();
        self.layout_test();
    }

    fn conversion(&mut self) {
        let mut pair = Pair::new();
        pair.done(&Call::Convert(3, 77));
        let vfs = &pair.rust.vfs;
        self.line(
            "conversion",
            1.0,
            None,
            plain(|| vfs.probe_convert(opaque(3), opaque(77))),
            plain(|| unsafe { galdovar_convert_inode(opaque(3), opaque(77)) }),
        );
    }

    fn route(&mut self, name: &str, goal: f64, pair: &mut Pair, full: u64) {
        pair.both(&Call::Route(full));
        let vfs = &pair.rust.vfs;
        let (at, len) = lent(&pair.port);
        self.line(
            name,
            goal,
            None,
            plain(|| vfs.probe_route_alone(opaque(full))),
            plain(|| unsafe { galdovar_route(at, len, opaque(full)) }),
        );
    }

    fn routes(&mut self) {
        let mut pair = Pair::flat(10);
        let index = pair.mount(&format!("/{}", name(9))).numbers[1];
        pair.check();
        self.route("route to a backend", 5.0, &mut pair, index << 56 | 5);
        self.route("route to the tree", 1.0, &mut pair, 5);
        self.route("route to an empty index", 5.0, &mut pair, (index + 1) << 56 | 5);
        pair.mount("/");
        pair.check();
        self.route("route of the mounted root", 5.0, &mut pair, 1);
    }

    fn lookup(&mut self, title: &str, goal: f64, plot: Plot, pair: &mut Pair, node: u64, name: &str) {
        pair.both(&Call::Lookup(node, name.into()));
        let vfs = &pair.rust.vfs;
        let (at, len) = lent(&pair.port);
        let c_name: CString = c_string(name);
        let bytes = name.as_bytes();
        self.line(
            title,
            goal,
            plot,
            plain(|| vfs.probe_lookup(opaque(node), opaque(&c_name))),
            plain(|| unsafe { galdovar_lookup(at, len, opaque(node), opaque(bytes.as_ptr()), opaque(bytes.len())) }),
        );
    }

    fn lookups(&mut self) {
        for n in SIZES {
            let mut pair = Pair::flat(n);
            let last = name(n - 1);
            let of = |what: &str| format!("lookup {}, {} children", what, n);
            self.lookup(&of("of the last"), 5.0, Some(("lookup of the last child", n)), &mut pair, 1, &last);
            self.lookup(&of("of a missing one"), 5.0, Some(("lookup of a missing child", n)), &mut pair, 1, &name(n));
            pair.mount(&format!("/{}", last));
            pair.check();
            self.lookup(&of("of the last, mounted"), 5.0, None, &mut pair, 1, &last);
        }
        let mut pair = Pair::new();
        for k in 0..1000 {
            pair.make(&format!("/{}", alike(k)));
        }
        pair.check();
        self.lookup("lookup of the last, 1000 children, names that end alike", 0.0, None, &mut pair, 1, &alike(999));
    }

    fn small_directory(&mut self) {
        let mut pair = Pair::sites();
        for (site, which) in [(0, "first"), (20, "21st"), (39, "last")] {
            let node = pair.done(&Call::Walk(format!("/{}", site_name(site)).into())).numbers[2];
            let title = format!("lookup of the last of 24 in the {} directory, tree of 40 x 25", which);
            self.lookup(&title, 5.0, None, &mut pair, node, &name(23));
        }
        for n in SIZES {
            let mut pair = Pair::flat(n - 10);
            for k in 0..9 {
                pair.make(&format!("/{}/{}", site_name(0), name(k)));
            }
            pair.check();
            let node = pair.done(&Call::Walk(format!("/{}", site_name(0)).into())).numbers[2];
            let title = format!("lookup of the last of 9 in a directory made last, tree of {}", n);
            self.lookup(&title, 5.0, Some(("lookup in a directory of 9", n)), &mut pair, node, &name(8));
        }
    }

    fn walk(&mut self, title: &str, goal: f64, pair: &mut Pair, path: &str) {
        pair.done(&Call::Walk(path.into()));
        let vfs = &pair.rust.vfs;
        let (at, len) = lent(&pair.port);
        let bytes = path.as_bytes();
        self.line(
            title,
            goal,
            None,
            plain(|| vfs.probe_walk(opaque(path))),
            plain(|| unsafe { galdovar_path_walk(at, len, opaque(bytes.as_ptr()), opaque(bytes.len())) }),
        );
    }

    fn walks(&mut self) {
        for (others, goal, tree) in [(0, 5.0, "tree of 16"), (984, 0.0, "tree of 1000, 984 made before")] {
            let mut pair = Pair::chain(others, 16);
            for depth in [1, 4, 16] {
                self.walk(&format!("walk of depth {}, {}", depth, tree), goal, &mut pair, &chain_path(depth));
            }
        }
    }

    fn mount_umount(&mut self, title: &str, plot: Plot, pair: &mut Pair, path: &str) {
        pair.make(path);
        pair.check();
        let vfs = &pair.rust.vfs;
        let (at, len) = lent_mut(&mut pair.port);
        let b = backend(7);
        let bytes = path.as_bytes();
        let rust: Batch = Box::new(|calls| {
            let mut ready: Vec<BackFileSystem> = (0..calls).map(|_| light()).collect();
            let start = spent();
            while let Some(fs) = ready.pop() {
                opaque(&vfs.mount(fs, opaque(path)).unwrap());
                opaque(&vfs.umount(opaque(path)).unwrap());
            }
            spent() - start
        });
        let port: Batch = Box::new(|calls| {
            let start = spent();
            for _ in 0..calls {
                let p = opaque(bytes.as_ptr());
                let m = unsafe { galdovar_mount(at, len, p, bytes.len(), b.tag, b.root, b.largest, b.uid, b.gid, b.mode) };
                let u = unsafe { galdovar_umount(at, len, p, bytes.len()) };
                assert_eq!(m.code | u.code, 0);
            }
            spent() - start
        });
        self.line(title, 5.0, plot, rust, port);
    }

    fn mounts(&mut self) {
        for n in SIZES {
            let mut pair = Pair::flat(n);
            let last = format!("/{}", name(n - 1));
            let title = format!("mount + umount, node kept, {} nodes", n);
            self.mount_umount(&title, Some(("mount + umount, node kept", n)), &mut pair, &last);
        }
        for n in SIZES {
            let mut pair = Pair::flat(n);
            pair.done(&Call::Remove);
            let path = format!("/{}", name(n));
            let title = format!("mount + umount, node made and removed, {} nodes", n);
            self.mount_umount(&title, Some(("mount + umount, node made", n)), &mut pair, &path);
        }
    }

    fn allocation(&mut self, title: &str, slots: &[Option<u32>], counter: u8, visited: u64) {
        let mut pair = Pair::new();
        pair.rust.set_slots(slots, counter);
        let answer = pair.rust.allocate(counter);
        assert_eq!(answer, PortSide::allocate(slots, counter, 7));
        assert_eq!(answer.1, visited);
        pair.rust.set_slots(slots, counter);
        let mut t = Box::new(PortSide::indexes(slots, counter));
        let vfs = &pair.rust.vfs;
        self.line(
            title,
            5.0,
            None,
            plain(|| vfs.probe_allocate()),
            plain(|| {
                let step = unsafe { galdovar_allocate_in(&mut *t, opaque(7)) };
                if step.code == 0 {
                    t.used[step.fs_idx as usize & 255] = 0;
                }
                step
            }),
        );
    }

    fn allocations(&mut self) {
        let mut slots = vec![None; 256];
        self.allocation("allocation, 1 visited", &slots, 1, 1);
        for slot in slots.iter_mut().skip(1) {
            *slot = Some(3);
        }
        self.allocation("allocation, full", &slots, 1, 257);
        slots[9] = None;
        self.allocation("allocation, 256 visited", &slots, 10, 256);
    }

    fn save(&mut self, title: &str, plot: Plot, pair: &mut Pair) {
        let mut out = vec![0; pair.done(&Call::Save).numbers[1] as usize];
        let vfs = &pair.rust.vfs;
        let (at, len) = lent(&pair.port);
        self.line(
            title,
            5.0,
            plot,
            plain(|| vfs.save_to_bytes().unwrap()),
            plain(|| unsafe { galdovar_save_to_bytes(at, len, opaque(out.as_mut_ptr()), out.len()) }),
        );
    }

    fn restore(&mut self, title: &str, goal: f64, plot: Plot, pair: &mut Pair) {
        let saved = pair.done(&Call::Save).bytes.unwrap();
        let mut shim = State::from_house(&saved).unwrap().to_shim();
        let mut fresh = Pair::new();
        fresh.done(&Call::Restore(saved.clone()));
        fresh.check();
        let (at, len) = lent_mut(&mut fresh.port);
        FsOptions::set_known(u64::MAX);
        self.line(
            title,
            goal,
            plot,
            prepared(|| Vfs::new(VfsOptions::default()), |vfs| vfs.restore_from_bytes(opaque(&mut shim)).unwrap()),
            prepared(
                || unsafe { galdovar_create(at, len, 1024, u64::MAX, 0, 0, 0, 0, 1000, 65536) },
                |_| unsafe { galdovar_restore_from_bytes(at, len, opaque(saved.as_ptr()), saved.len()) },
            ),
        );
    }

    fn states(&mut self) {
        for n in SIZES {
            let mut pair = Pair::flat(n);
            self.save(&format!("save, {} flat", n), Some(("save, flat", n)), &mut pair);
        }
        let mut sites = Pair::sites();
        self.save("save, 40 x 25", None, &mut sites);
        for n in SIZES {
            let mut pair = Pair::flat(n);
            self.restore(&format!("restore, {} flat", n), 5.0, Some(("restore, flat", n)), &mut pair);
        }
        self.restore("restore, 40 x 25", 2.0, None, &mut sites);
    }

    fn listing(&mut self, n: usize) {
        let mut pair = Pair::flat(n);
        let room = 40 * n;
        let call = Call::List { node: 1, size: u32::MAX, offset: 0, room };
        assert_eq!(pair.done(&call).numbers[1], room as u64);
        let vfs = &pair.rust.vfs;
        let (at, len) = lent(&pair.port);
        let mut rust_out = vec![0; room];
        let mut port_out = vec![0; room];
        self.line(
            &format!("listing of {}", n),
            5.0,
            Some(("listing", n)),
            plain(|| {
                let mut end = 0;
                let out = opaque(&mut rust_out[..]);
                vfs.probe_readdir(opaque(1), u32::MAX, 0, &mut |entry| {
                    let len = (24 + entry.name.len() + 7) / 8 * 8;
                    if out.len() - end < len {
                        return Ok(0);
                    }
                    let record = &mut out[end..end + len];
                    record[..8].copy_from_slice(&entry.ino.to_le_bytes());
                    record[8..16].copy_from_slice(&entry.offset.to_le_bytes());
                    record[16..20].copy_from_slice(&(entry.name.len() as u32).to_le_bytes());
                    record[20..24].copy_from_slice(&entry.type_.to_le_bytes());
                    record[24..24 + entry.name.len()].copy_from_slice(entry.name);
                    record[24 + entry.name.len()..].fill(0);
                    end += len;
                    Ok(len)
                })
                .map(|_| end)
            }),
            plain(|| unsafe {
                galdovar_readdir(at, len, opaque(1), u32::MAX, 0, opaque(port_out.as_mut_ptr()), port_out.len())
            }),
        );
    }

    fn listings(&mut self) {
        for n in SIZES {
            self.listing(n);
        }
    }

    /// The port's cheapest call without the test, the cheapest with it, and the same refused at three of its tests.
    fn layout_test(&mut self) {
        let mut pair = Pair::flat(10);
        pair.done(&Call::Settings);
        let vfs = &pair.rust.vfs;
        let (at, len) = lent(&pair.port);
        self.alone(
            "no layout test: an id by a given mapping",
            plain(|| unsafe { galdovar_map_out(0, 1000, 65536, opaque(5)) }),
        );
        self.line(
            "layout test and one byte: the query of `initialized`",
            0.0,
            None,
            plain(|| opaque(vfs).initialized()),
            plain(|| unsafe { galdovar_initialized(opaque(at), opaque(len)) }),
        );
        let of = |bytes: &[u8]| unsafe { galdovar_initialized(bytes.as_ptr(), bytes.len()) }.code as u64;
        let short = vec![0; 8191];
        let mut unmarked = pair.port.bytes.clone();
        unmarked[0] ^= 1;
        let mut mapped = pair.port.bytes.clone();
        mapped[60..64].copy_from_slice(&u32::MAX.to_le_bytes());
        for (title, bytes) in [
            ("refused SMALL at the first test: 8,191 bytes", short),
            ("refused SMALL at the second test: the mark", unmarked),
            ("refused SMALL at the last test: the mapping", mapped),
        ] {
            assert_eq!(of(&bytes), SMALL);
            let (at, len) = (bytes.as_ptr(), bytes.len());
            self.alone(title, plain(|| unsafe { galdovar_initialized(opaque(at), opaque(len)) }));
        }
    }
}
