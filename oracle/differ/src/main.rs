//! Asks the Rust, records its answers, and holds them against the port's.
//!   differ record SEED CALLS FILE    writes the recorded list
//!   differ differences               runs the inputs of docs/DIFFERENCES.md on the Rust
//!   differ compare SEED CALLS        runs both sides
//!   differ random SEED CALLS         runs both sides on random calls alone
//!   differ slips SEED CALLS          runs wrong ports, each up to the first difference
//! The last three need the port linked in.

#![cfg_attr(not(port), allow(dead_code))]

mod chance;
#[cfg(port)]
mod compare;
mod directed;
mod expected;
mod house;
#[cfg(port)]
mod port_side;
mod random;
mod record;
mod rust_side;
mod side;
#[cfg(port)]
mod slips;
mod text;

use std::fs::File;
use std::io::BufWriter;

/// Both sides on the chosen calls and then on random ones; whether no answer differs.
#[cfg(port)]
fn compare(seed: u64, calls: u64) -> bool {
    let mut c = compare::Compare::new(port_side::PortSide::new());
    c.recorded(1, 9000);
    println!("the calls of the recorded list: {} equal", c.equal);
    c.searches(seed, 1000);
    println!("and searches: {} equal", c.equal);
    c.utf8();
    println!("and UTF-8: {} equal", c.equal);
    c.paths(9);
    println!("and paths: {} equal", c.equal);
    c.changed_states();
    println!("and changed states: {} equal, {} explained", c.equal, c.explained);
    c.listings();
    println!("and listings: {} equal", c.equal);
    random(&mut c, seed, calls)
}

/// Both sides on random calls; whether no answer of the run differs.
#[cfg(port)]
fn random(c: &mut compare::Compare<port_side::PortSide>, seed: u64, calls: u64) -> bool {
    c.random(seed, calls);
    println!("{} answers equal, {} different", c.equal, c.different);
    c.different == 0
}

/// A run with the port, by its name; whether it went as it should.
#[cfg(port)]
fn run(what: &str, seed: u64, calls: u64) -> bool {
    println!("seed {}", seed);
    match what {
        "compare" => compare(seed, calls),
        "random" => random(&mut compare::Compare::new(port_side::PortSide::new()), seed, calls),
        _ => slips::run(seed, calls),
    }
}

#[cfg(not(port))]
fn run(_: &str, _: u64, _: u64) -> bool {
    eprintln!("the port is not linked in: set GALDOVAR_LIB_DIR to the folder of libgateway.a and build again");
    std::process::exit(2);
}

fn main() {
    let arguments: Vec<String> = std::env::args().skip(1).collect();
    let number = |k: usize| arguments.get(k).and_then(|a| a.parse::<u64>().ok());
    match (arguments.get(0).map(|a| a.as_str()), number(1), number(2), arguments.get(3)) {
        (Some("record"), Some(seed), Some(calls), Some(file)) => {
            let mut out = BufWriter::new(File::create(file).expect("the file cannot be written"));
            let lines = record::record(seed, calls as usize, &mut out).expect("the file cannot be written");
            println!("seed {}: {} calls recorded in {}", seed, lines, file);
        }
        (Some("differences"), None, None, None) => expected::show(),
        (Some(what @ ("compare" | "random" | "slips")), Some(seed), Some(calls), None) => {
            std::process::exit(if run(what, seed, calls) { 0 } else { 1 });
        }
        _ => {
            eprintln!("usage: differ compare SEED CALLS | random SEED CALLS | slips SEED CALLS | record SEED CALLS FILE | differences");
            std::process::exit(2);
        }
    }
}
