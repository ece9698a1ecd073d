//! Writes the recorded list: the directed calls, then random ones, each with the Rust's answer.

use std::io::Write;

use crate::chance::Chance;
use crate::directed;
use crate::rust_side::RustSide;
use crate::side::{Answer, Call, Side, Tables};
use crate::text::line;

/// No line is longer. Calls that change nothing are left out where theirs would be.
const LONGEST: usize = 12_000;

/// What later calls may use of an answer: full numbers, and saved bytes.
pub fn learn(chance: &mut Chance, call: &Call, answer: &Answer) {
    if answer.code() != 0 {
        return;
    }
    match call {
        Call::Mount(_, b) => chance.keep((answer.numbers[1] << 56) + b.root),
        Call::RestoreMount(index, _, b) => chance.keep(((*index as u64) << 56) + b.root),
        Call::Lookup(..) => chance.keep(answer.numbers[1]),
        Call::Save => chance.keep_state(answer.bytes.clone().unwrap()),
        _ => {}
    }
}

/// Makes the calls of the list, in its order: the directed ones, then random ones up to the number given. `perform` gives
/// the Rust's answer and its tables after the call.
pub fn make(seed: u64, calls: usize, perform: &mut dyn FnMut(&Call) -> (Answer, Tables)) {
    let mut made = 0;
    for list in directed::lists() {
        for call in &list {
            perform(call);
            made += 1;
        }
    }
    let mut chance = Chance::new(seed);
    for instance in 0.. {
        if made >= calls {
            return;
        }
        let capacity = [64, 16, 1024, 6, 300][instance % 5];
        let mut call = chance.creation(capacity);
        for _ in 0..120 {
            let (answer, tables) = perform(&call);
            assert!((tables.nodes.len() as u64) < capacity, "a node more than the port has room for");
            learn(&mut chance, &call, &answer);
            call = chance.call(&tables);
            made += 1;
        }
    }
}

/// Writes the list; how many lines it has.
pub fn record(seed: u64, calls: usize, out: &mut dyn Write) -> std::io::Result<usize> {
    let mut rust = RustSide::new();
    let mut lines = Vec::new();
    make(seed, calls, &mut |call| {
        let answer = rust.perform(call);
        let text = line(call, &answer);
        assert!(text.len() <= LONGEST || !changes(call));
        if text.len() <= LONGEST {
            lines.push(text);
        }
        (answer, rust.tables())
    });
    for text in &lines {
        writeln!(out, "{}", text)?;
    }
    Ok(lines.len())
}

/// Whether a call may change the tables, so that none after it can do without it.
pub fn changes(call: &Call) -> bool {
    match call {
        Call::New(_) | Call::Remove | Call::Mount(..) | Call::RestoreMount(..) => true,
        Call::Umount(_) | Call::Restore(_) => true,
        _ => false,
    }
}
