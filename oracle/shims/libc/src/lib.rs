//! Stands for the crate `libc`: of Linux's numbers and records, those that the Rust names. The values are those of
//! `errno.h` and `stat.h` on Linux.

#![allow(non_camel_case_types)]

pub type ino64_t = u64;
pub type uid_t = u32;
pub type gid_t = u32;
pub type pid_t = i32;

pub const ENOENT: i32 = 2;
pub const EINVAL: i32 = 22;
pub const ENOSYS: i32 = 38;

pub const S_IFDIR: u32 = 0o040000;
pub const S_IRWXU: u32 = 0o700;
pub const S_IRWXG: u32 = 0o070;
pub const S_IRWXO: u32 = 0o007;

/// Of the record that `stat` fills, the fields that have a use here.
#[repr(C)]
#[derive(Clone, Copy, Debug)]
pub struct stat64 {
    pub st_ino: ino64_t,
    pub st_mode: u32,
    pub st_uid: uid_t,
    pub st_gid: gid_t,
    pub st_size: i64,
    pub st_blksize: i64,
    pub st_blocks: i64,
}
