//! Stands for `src/common/file_traits.rs`: the name that `api/filesystem/mod.rs` imports. Nothing here reads a file.

pub trait FileReadWriteVolatile {}
