//! Stands for `src/api/server`: the module that `api/mod.rs` declares. No request is served here.
