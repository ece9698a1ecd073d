//! Times the Rust and the port on the same calls, in one run, and prints a table.
//!   bench                  the table
//!   bench FILE.svg         the table, and how cost grows, as a plot
//!   bench - TEXT           the lines that have the text

#![allow(dead_code)]

#[path = "../../differ/src/house.rs"]
mod house;
#[path = "../../differ/src/port_side.rs"]
mod port_side;
#[path = "../../differ/src/rust_side.rs"]
mod rust_side;
#[path = "../../differ/src/side.rs"]
mod side;

mod clock;
mod lines;
mod pair;
mod plot;

use lines::{Line, Table};

fn print(line: &Line) {
    let number = |n: f64| if n < 100.0 { format!("{:.1}", n) } else { format!("{:.0}", n) };
    let (rust, ratio) = match line.rust {
        Some(rust) => (number(rust), format!("{:.2}", rust / line.port)),
        None => (String::new(), String::new()),
    };
    let goal = if line.goal > 0.0 { line.goal.to_string() } else { String::new() };
    println!("| {} | {} | {} | {} | {} |", line.name, rust, number(line.port), ratio, goal);
}

fn main() {
    let arguments: Vec<String> = std::env::args().skip(1).collect();
    println!("{}, {}, {}", env!("BENCH_COMPILER"), std::env::consts::ARCH, std::env::consts::OS);
    println!(
        "Nanoseconds of one call, the lowest of {} batches of each side by turns. No buffer is cleared before a timed call.",
        clock::ROUNDS
    );
    println!();
    println!("| line | Rust | port | ratio | goal |");
    println!("|---|---|---|---|---|");
    let mut table = Table { lines: Vec::new(), tell: &mut print, only: arguments.get(1).cloned() };
    table.all();
    if let Some(file) = arguments.get(0).filter(|f| *f != "-") {
        std::fs::write(file, plot::draw(&table.lines)).expect("the plot cannot be written");
    }
}
