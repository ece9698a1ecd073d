//! Calls chosen one by one: the rules' own examples, the edges, and small inputs in full. Each list begins with a new
//! instance and stays within the limits in which the two sides must agree.

use crate::house::State;
use crate::side::{Backend, Call, Creation, Node, Options, DIR_MODE, MAX_INO};

pub fn new(capacity: u64, mapping: (u32, u32, u32)) -> Call {
    Call::New(Creation { capacity, known: u64::MAX, in_opts: 0, out_opts: 0, flags: 0, mapping })
}

fn backend(tag: u32) -> Backend {
    Backend { tag, root: 1, largest: 1000, uid: 0, gid: 0, mode: DIR_MODE }
}

pub fn mount(path: &[u8], tag: u32) -> Call {
    Call::Mount(path.to_vec(), backend(tag))
}

pub fn restore_mount(index: u8, path: &[u8], tag: u32) -> Call {
    Call::RestoreMount(index, path.to_vec(), backend(tag))
}

fn umount(path: &[u8]) -> Call {
    Call::Umount(path.to_vec())
}

pub fn walk(path: &[u8]) -> Call {
    Call::Walk(path.to_vec())
}

fn rootfs(path: &[u8]) -> Call {
    Call::Rootfs(path.to_vec())
}

fn look(node: u64, name: &[u8]) -> Call {
    Call::Lookup(node, name.to_vec())
}

fn full(index: u64, number: u64) -> Call {
    Call::Route((index << 56) + number)
}

/// The eight lines of R153, with what follows from them.
fn session() -> Vec<Call> {
    vec![
        new(64, (0, 0, 0)),
        walk(b"/a"),
        mount(b"/a/b", 7),
        mount(b"a", 8),
        mount(b"/a/b", 9),
        umount(b"/a/b"),
        umount(b"/a/b"),
        mount(b"/c/../a", 7),
        Call::Route(1),
        look(1, b"a"),
        full(4, 1),
        full(1, 1),
        Call::Save,
        Call::Settings,
    ]
}

/// The index search at the edges of R154 to R156: all slots filled, the counter turned by refused mounts.
fn indexes() -> Vec<Call> {
    let name = |k: u32| format!("/{}", k).into_bytes();
    let mut calls = vec![new(1024, (0, 0, 0))];
    calls.extend((1..=255).map(|k| mount(&name(k), 1000 + k)));
    calls.push(Call::Save);
    calls.extend((0..255).map(|k| mount(b"/1", 2000 + k)));
    calls.push(mount(b"no slash", 1));
    calls.push(umount(b"/1"));
    calls.push(mount(b"/1", 3001));
    calls.push(umount(b"/255"));
    calls.push(mount(b"/255", 3255));
    calls.push(mount(b"/7", 3007));
    for k in [1, 2, 100, 254, 255].iter() {
        calls.push(umount(&name(*k)));
    }
    for k in 0..12 {
        calls.push(mount(if k % 2 == 0 { b"/2" } else { b"/9" }, 4000 + k));
    }
    calls.push(Call::Save);
    for k in 1..=255 {
        calls.push(full(k, 1));
    }
    calls
}

/// Rows 2, 3, 6 and 7 of both mounts, and the numbers at their limits.
fn rows() -> Vec<Call> {
    let with = |root: u64, largest: u64| Backend { root, largest, ..backend(5) };
    let mut calls = vec![new(64, (0, 0, 0))];
    for path in [&b"/a"[..], b"", b"a", b".", b"/", b"/b/../c", b"/\xff", b"\xc3"].iter() {
        for root in [0, 1, MAX_INO, MAX_INO + 1, u64::MAX].iter() {
            for largest in [0, MAX_INO, MAX_INO + 1].iter() {
                calls.push(Call::Mount(path.to_vec(), with(*root, *largest)));
                calls.push(Call::RestoreMount(200, path.to_vec(), with(*root, *largest)));
            }
        }
        calls.push(Call::Save);
        calls.push(Call::Route(1));
        calls.push(look(1, b"a"));
        calls.push(look(1, b"."));
    }
    calls
}

/// Paths of every form but the longest.
const FORMS: [&[u8]; 42] = [
    b"/",
    b"//",
    b"/.",
    b"/..",
    b"/../..",
    b"/./.",
    b"/a",
    b"/a/",
    b"//a",
    b"/a//b",
    b"/a/./b",
    b"/a/b/..",
    b"/a/b/../b",
    b"/a/b/c/../../..",
    b"/x",
    b"/x/..",
    b"/x/../a",
    b"/x/../x/y",
    b"/...",
    b"/a/...",
    b"/.a",
    b"/a.",
    b"/a/..b",
    b"",
    b".",
    b"..",
    b"a",
    b"./a",
    b"../a",
    b"\0",
    b"/\0",
    b"/a\0b",
    b"/ ",
    b"/a/ b",
    b"/\n",
    b"/a/b/c/",
    b"/a/b/c/d",
    b"/A",
    b"\xff/",
    b"/a/\x80",
    b"/a\xcc",
    "/\u{e9}/\u{20ac}".as_bytes(),
];

/// Paths of every form on a small tree, in every call that takes one.
fn paths() -> Vec<Call> {
    let long = [&b"/"[..], &[b'n'; 255][..]].concat();
    let deep = b"/p/..".iter().cycle().take(4095).cloned().chain(*b"/").collect::<Vec<u8>>();
    let mut calls = vec![new(64, (0, 0, 0)), mount(b"/a/b/c", 1), mount(b"/a", 2)];
    let mut forms = FORMS.to_vec();
    forms.push(&long);
    forms.push(&deep);
    for path in &forms {
        calls.push(walk(path));
        calls.push(rootfs(path));
    }
    for path in &forms {
        calls.push(mount(path, 9));
        calls.push(rootfs(path));
        calls.push(walk(path));
        calls.push(umount(path));
        calls.push(umount(path));
    }
    calls.push(Call::Save);
    calls
}

/// A new instance with a few nodes whose names are made of `a`, `b` and `.`.
pub fn small_tree() -> Vec<Call> {
    vec![new(64, (0, 0, 0)), mount(b"/a/b", 1), mount(b"/b/..a", 2), mount(b"/a/a/a", 3)]
}

/// Every walk along a path of up to four bytes over `/ . a b`, and of five that begins with a slash.
fn short_paths() -> Vec<Call> {
    let mut calls = small_tree();
    let mut last: Vec<Vec<u8>> = vec![Vec::new()];
    for len in 0..=5 {
        for path in &last {
            if len < 5 || path[0] == b'/' {
                calls.push(walk(path));
            }
        }
        let longer = |path: &Vec<u8>| b"/.ab".iter().map(|b| [&path[..], &[*b][..]].concat()).collect::<Vec<Vec<u8>>>();
        last = last.iter().flat_map(longer).collect();
    }
    calls
}

/// Every first byte of UTF-8 with next bytes around each limit of table 3-7, whole, cut short and followed.
fn utf8() -> Vec<Call> {
    let edges = [0x00, 0x2f, 0x7f, 0x80, 0x8f, 0x90, 0x9f, 0xa0, 0xbf, 0xc0, 0xff];
    let mut calls = vec![new(64, (0, 0, 0))];
    for first in 0x80..=0xff_u8 {
        calls.push(walk(&[b'/', first]));
        if first == 0xc1 || first == 0xc2 || first == 0xdf || first >= 0xe0 {
            for second in edges.iter() {
                calls.push(walk(&[b'/', first, *second]));
            }
        }
        if first >= 0xe0 && first < 0xf6 {
            for second in [0x7f, 0x80, 0x8f, 0x90, 0x9f, 0xa0, 0xbf, 0xc0].iter() {
                for third in [0x7f, 0x80, 0xbf, 0xc0].iter() {
                    calls.push(walk(&[b'/', first, *second, *third]));
                    if first >= 0xf0 {
                        calls.push(walk(&[b'/', first, *second, *third, 0x80]));
                        calls.push(walk(&[b'/', first, *second, *third, 0xc0]));
                    }
                }
            }
        }
    }
    calls
}

/// Listings at every size and offset around the records' ends, with room of every size.
fn listings() -> Vec<Call> {
    let mut calls = vec![new(64, (0, 0, 0))];
    for (k, name) in
        [&b"/a"[..], b"/12345678", b"/123456789", b"/a/b", b"/\xc3\xa9", b"/16-letters-long"].iter().enumerate()
    {
        calls.push(mount(name, k as u32));
    }
    let list = |node, size, offset, room| Call::List { node, size, offset, room };
    for size in 0..=180 {
        calls.push(list(1, size, 0, 4096));
    }
    for offset in [0, 1, 2, 3, 4, 5, 6, 7, 1 << 32, u64::MAX - 1, u64::MAX].iter() {
        for size in [0, 1, 31, 32, 33, 64, 72, 4096, u32::MAX].iter() {
            calls.push(list(1, *size, *offset, 4096));
        }
    }
    for room in 0..=80 {
        calls.push(list(1, 4096, 2, room));
    }
    for node in [0, 2, 3, 5, 6, 7, 8, 9, MAX_INO].iter() {
        for size in [0, 1, 4096].iter() {
            calls.push(list(*node, *size, 0, 4096));
        }
    }
    calls.push(Call::Remove);
    calls.push(umount(b"/12345678"));
    calls.push(list(1, 4096, 0, 4096));
    calls.push(mount(b"/12345678", 77));
    calls.push(list(1, 4096, 0, 4096));
    calls
}

/// Names to look up, of every kind.
const LOOKED: [&[u8]; 16] =
    [b"a", b"b", b"c", b"d", b"e", b"f", b"x", b"", b".", b"..", b"...", b"a/b", b"/", b"\xc3\xa9", b"\xc3", b"\xff"];

/// Lookups by every kind of name, with a mapping, in directories that live, were removed, or never were.
fn lookups() -> Vec<Call> {
    let owned = |uid, gid| Backend { uid, gid, ..backend(3) };
    let mut calls = vec![
        new(64, (0, 1000, 500)),
        Call::Mount(b"/a/b".to_vec(), owned(0, 499)),
        Call::Mount(b"/a/c".to_vec(), owned(500, 1000)),
        mount(b"/a/b/d/e", 8),
        mount(b"/a/b/f", 9),
        restore_mount(77, b"/\xc3\xa9", 10),
    ];
    for round in 0..3 {
        for node in (0..10).chain([MAX_INO].iter().cloned()) {
            for name in LOOKED.iter() {
                calls.push(look(node, name));
            }
        }
        match round {
            0 => {
                calls.push(Call::Remove);
                calls.push(umount(b"/a/b"));
                calls.push(Call::Mount(b"/".to_vec(), owned(1, 2)));
            }
            _ => {
                calls.push(mount(b"/a/b", 11));
                calls.push(umount(b"/"));
                calls.push(umount(b"/a/c"));
            }
        }
    }
    calls.push(Call::Save);
    calls
}

/// Mounts on the root, and over one another.
fn mounts_on_the_root() -> Vec<Call> {
    vec![
        new(64, (0, 0, 0)),
        Call::Route(1),
        mount(b"/", 1),
        Call::Route(1),
        Call::Route(2),
        Call::Mount(b"/".to_vec(), Backend { root: 55, ..backend(2) }),
        Call::Route(1),
        full(1, 1),
        full(2, 7),
        rootfs(b"/"),
        look(1, b"."),
        look(1, b".."),
        umount(b"/"),
        umount(b"/"),
        Call::Route(1),
        full(2, 7),
    ]
}

/// Two nodes on one index.
fn mounts_on_one_index() -> Vec<Call> {
    vec![
        restore_mount(9, b"/a", 3),
        restore_mount(9, b"/b", 4),
        rootfs(b"/a"),
        rootfs(b"/b"),
        restore_mount(9, b"/b", 5),
        restore_mount(10, b"/b", 6),
        rootfs(b"/a"),
        look(1, b"a"),
        full(9, 1),
        mount(b"/a", 7),
        rootfs(b"/a"),
        restore_mount(10, b"/a", 8),
        umount(b"/b"),
        rootfs(b"/a"),
        umount(b"/a"),
        restore_mount(255, b"/c", 0),
        rootfs(b"/c"),
        restore_mount(255, b"/c", 0),
        umount(b"/c"),
    ]
}

/// Mounts whose nodes are removed with them.
fn mounts_removed() -> Vec<Call> {
    vec![
        Call::Remove,
        mount(b"/d/e", 1),
        mount(b"/d", 2),
        umount(b"/d"),
        walk(b"/d/e"),
        rootfs(b"/d/e"),
        look(6, b".."),
        Call::Save,
        mount(b"/d/e", 3),
        umount(b"/d/e"),
        walk(b"/d"),
        mount(b"/", 4),
        umount(b"/"),
        walk(b"/"),
        Call::Save,
    ]
}

/// All of these on one instance.
fn mounts() -> Vec<Call> {
    [mounts_on_the_root(), mounts_on_one_index(), mounts_removed()].concat()
}

/// Ids out and back by the mappings' edges.
fn ids() -> Vec<Call> {
    let mut calls = Vec::new();
    let mappings = [
        (0, 0, 0),
        (5, 9, 0),
        (0, 1, 65536),
        (10, 0, 5),
        (0, 10, 5),
        (10, 12, 5),
        (u32::MAX - 1, 0, 1),
        (0, u32::MAX - 7, 7),
        (1 << 31, 0, (1 << 31) - 1),
        (0, 0, u32::MAX),
    ];
    for (internal, external, range) in mappings.iter().cloned() {
        calls.push(new(1, (internal, external, range)));
        calls.push(Call::Settings);
        let mut near = Vec::new();
        for edge in [0, internal, external, internal + range, external + range].iter() {
            near.extend_from_slice(&[edge.wrapping_sub(1), *edge, edge.wrapping_add(1)]);
        }
        for pair in near.windows(2) {
            calls.push(Call::Out(pair[0], pair[1]));
            calls.push(Call::Back(pair[0], pair[1]));
        }
    }
    calls
}

/// Names for the component check.
const COMPONENTS: [&[u8]; 17] = [
    b"",
    b".",
    b"..",
    b"...",
    b"a",
    b"/",
    b"a/",
    b"/a",
    b"a/b",
    b".a",
    b"..a",
    b"a.",
    b"./",
    b"../",
    b"\xff",
    b".\xff",
    &[b'x'; 300],
];

/// Conversion and component check, which need no instance.
fn pure() -> Vec<Call> {
    let mut calls = vec![new(1, (0, 0, 0))];
    for index in [0, 1, 2, 127, 128, 254, 255].iter() {
        for number in [0, 1, 2, 1 << 55, MAX_INO - 1, MAX_INO, MAX_INO + 1, u64::MAX].iter() {
            calls.push(Call::Convert(*index, *number));
        }
    }
    calls.extend(COMPONENTS.iter().map(|n| Call::Component(n.to_vec())));
    calls
}

pub fn node(number: u64, parent: u64, name: &[u8]) -> Node {
    Node { number, parent, name: name.to_vec() }
}

/// With and without options outside the mask, and the numbers at their end.
fn state_list() -> Vec<State> {
    let options = Options { in_opts: 5, out_opts: 9, mapping: (u32::MAX, 7, u32::MAX), flags: 63 };
    let tree = vec![node(2, 1, b"a"), node(5, 2, b"b"), node(9, 1, b"c"), node(10, 5, b"a")];
    vec![
        State { nodes: vec![], options: Options::default(), next: 2, counter: 1 },
        State { nodes: vec![], options, next: 2, counter: 0 },
        State { nodes: vec![], options: Options { in_opts: 0, ..options }, next: 77, counter: 255 },
        State { nodes: tree.clone(), options, next: 11, counter: 200 },
        State { nodes: tree, options: Options { out_opts: 16, ..options }, next: 11, counter: 3 },
        State { nodes: vec![node(MAX_INO - 1, 1, b"z")], options, next: MAX_INO, counter: 3 },
        State { nodes: vec![node(MAX_INO, 1, &[b'z'; 255])], options, next: MAX_INO + 1, counter: 3 },
    ]
}

/// States saved and restored.
fn states() -> Vec<Call> {
    let mut calls = Vec::new();
    for state in state_list() {
        calls.extend(vec![
            Call::New(Creation { capacity: 64, known: 15, in_opts: 1, out_opts: 2, flags: 4, mapping: (0, 10, 3) }),
            Call::Settings,
            Call::Restore(state.to_house()),
            Call::Settings,
            Call::Save,
            Call::Out(1, 2),
            walk(b"/a/b/a"),
            walk(b"/c/../a/b/.."),
            rootfs(b"/a"),
            look(5, b".."),
            look(MAX_INO - 1, b"."),
            look(MAX_INO, b"."),
            Call::List { node: 1, size: 4096, offset: 0, room: 4096 },
            mount(b"/", 1),
        ]);
        if state.next <= MAX_INO {
            calls.extend(vec![
                mount(b"/a", 2),
                look(1, b"a"),
                umount(b"/a"),
                look(1, b"a"),
                Call::List { node: 1, size: 4096, offset: 0, room: 4096 },
                Call::Save,
            ]);
        }
    }
    calls
}

pub fn lists() -> Vec<Vec<Call>> {
    vec![
        session(),
        indexes(),
        rows(),
        paths(),
        short_paths(),
        utf8(),
        listings(),
        lookups(),
        mounts(),
        ids(),
        pure(),
        states(),
    ]
}
