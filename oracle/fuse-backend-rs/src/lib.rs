//! Stands for the crate's `src/lib.rs`: the modules that the two files need, and no transport, no passthrough, no
//! overlay. The macros of `log` are in scope as there.

#![allow(unused_imports, dead_code, unstable_name_collisions)]

#[macro_use]
extern crate log;

pub mod abi;
pub mod api;
pub mod file_traits;
pub mod probe;
