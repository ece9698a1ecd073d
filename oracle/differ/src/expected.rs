//! All that is expected to differ, by docs/DIFFERENCES.md: the smallest input of each difference that a run can show, run on the
//! Rust; and which different answers of the two sides are such a difference. All other calls keep to what must be equal.

use std::panic::{catch_unwind, AssertUnwindSafe};

use crate::directed::{mount, new, node, restore_mount, walk};
use crate::house::State;
use crate::rust_side::RustSide;
use crate::side::{Answer, Call, Creation, Node, Options, Side, BADSAVE, MAX_INO};
use crate::text::{call_text, line};

fn restore(nodes: Vec<Node>, next: u64) -> Call {
    Call::Restore(State { nodes, options: Options::default(), next, counter: 1 }.to_house())
}

fn look(name: &[u8]) -> Call {
    Call::Lookup(1, name.to_vec())
}

/// Each difference that a run can show: its number in docs/DIFFERENCES.md, and the calls.
fn inputs() -> Vec<(u32, Vec<Call>)> {
    let fresh = || new(64, (0, 0, 0));
    let masked =
        |known| Call::New(Creation { capacity: 64, known, in_opts: 0, out_opts: 0, flags: 0, mapping: (0, 0, 0) });
    let unknown = State {
        nodes: vec![node(2, 9, b"a")],
        options: Options { in_opts: 2, ..Options::default() },
        next: 3,
        counter: 1,
    };
    let long = [&b"/"[..], &[b'a'; 256][..]].concat();
    let root = |path: &[u8]| Call::Rootfs(path.to_vec());
    vec![
        (1, vec![fresh(), mount(&long, 1)]),
        (2, vec![new(1, (0, 0, 0)), mount(b"/a", 1)]),
        (3, vec![fresh(), restore(vec![], MAX_INO + 1), mount(b"/a", 1), Call::Umount(b"/a".to_vec()), look(b"a")]),
        (4, vec![fresh(), restore_mount(0, b"/a", 7), look(b"a"), Call::Route(1)]),
        (5, vec![new(64, (u32::MAX, 0, 1)), Call::Out(u32::MAX, 0)]),
        (6, vec![fresh(), mount(b"/a", 1), restore(vec![], 2), walk(b"/a")]),
        (9, vec![masked(1), Call::Restore(unknown.to_house()), Call::Settings]),
        (10, vec![fresh(), restore(vec![node(2, 1, b"a"), node(3, 9, b"b")], 4), root(b"/a"), mount(b"/c", 1)]),
        (11, vec![fresh(), restore(vec![node(3, 1, b"a"), node(2, 1, b"b")], 4), walk(b"/a"), walk(b"/b")]),
        (12, vec![fresh(), restore(vec![node(0, 1, b"a")], 2), walk(b"/a")]),
        (12, vec![fresh(), restore(vec![node(1, 1, b"a")], 2), walk(b"/a"), walk(b"/")]),
        (12, vec![fresh(), restore(vec![node(2, 1, b"a"), node(2, 1, b"b")], 3), walk(b"/a"), walk(b"/b")]),
        (13, vec![fresh(), restore(vec![node(2, 2, b"a")], 3), walk(b"/a"), Call::Lookup(2, b"a".to_vec())]),
        (14, vec![fresh(), restore(vec![node(2, 1, b"")], 3), look(b"")]),
        (15, vec![fresh(), restore(vec![node(2, 1, b"a"), node(3, 1, b"a")], 4), walk(b"/a")]),
        (16, vec![fresh(), restore(vec![node(2, 1, b"a")], 2), mount(b"/b", 1), walk(b"/a"), walk(b"/b")]),
        (17, vec![new(1, (0, 0, 0)), restore(vec![node(2, 1, b"a")], 3), walk(b"/a")]),
        (27, vec![fresh(), restore(vec![node(0, 1, b"a")], 2), look(b"a")]),
    ]
}

pub fn show() {
    std::panic::set_hook(Box::new(|_| {}));
    for (number, calls) in inputs() {
        let mut rust = RustSide::new();
        for call in &calls {
            match catch_unwind(AssertUnwindSafe(|| rust.perform(call))) {
                Ok(answer) => println!("{}: {}", number, line(call, &answer)),
                Err(_) => println!("{}: {} panics", number, call_text(call)),
            }
        }
    }
}

/// Whether one of R129 (g) to (k) holds, which the Rust does not ask: numbers, next number, parents, names, twins.
fn is_faulty(state: &State) -> bool {
    let numbers = |k: usize| state.nodes[k].number;
    let rising = (1..state.nodes.len()).all(|k| numbers(k - 1) < numbers(k));
    let from_two = state.nodes.first().map_or(true, |n| n.number >= 2);
    let above = state.nodes.iter().all(|n| n.number < state.next);
    let next = above && state.next >= 2 && state.next <= MAX_INO + 1;
    let parents = state
        .nodes
        .iter()
        .enumerate()
        .all(|(k, n)| n.parent == 1 || state.nodes[..k].iter().any(|earlier| earlier.number == n.parent));
    let names = state.nodes.iter().all(|n| {
        let name = &n.name[..];
        !name.is_empty() && name.len() <= 255 && !name.contains(&b'/') && name != b"." && name != b".."
    });
    let twins = state
        .nodes
        .iter()
        .enumerate()
        .any(|(k, n)| state.nodes[..k].iter().any(|earlier| earlier.parent == n.parent && earlier.name == n.name));
    !rising || !from_two || !next || !parents || !names || twins
}

/// Whether different answers to a call are a difference of docs/DIFFERENCES.md, 11 to 16: to a state of which one of R129 (g) to
/// (k) holds the port says BADSAVE, and the Rust accepts it, or refuses the options first (9).
pub fn explains(call: &Call, rust: &Answer, port: &Answer) -> bool {
    match call {
        Call::Restore(bytes) => {
            port.code() == BADSAVE
                && rust.code() != BADSAVE
                && State::from_house(bytes).map_or(false, |state| is_faulty(&state))
        }
        _ => false,
    }
}
