//! Stands for `src/api/filesystem/sync_io.rs`: of the trait `FileSystem`, the methods that the two files define or
//! call, with the signatures that they use.

use std::ffi::CStr;
use std::io;
use std::time::Duration;

use super::{Context, DirEntry, Entry, FsOptions};
use crate::abi::fuse_abi::stat64;

fn no_such_call<T>() -> io::Result<T> {
    Err(io::Error::from_raw_os_error(libc::ENOSYS))
}

pub trait FileSystem {
    type Inode: From<u64> + Into<u64>;
    type Handle: From<u64> + Into<u64>;

    fn init(&self, _capable: FsOptions) -> io::Result<FsOptions> {
        Ok(FsOptions::empty())
    }

    fn destroy(&self) {}

    fn lookup(&self, _ctx: &Context, _parent: Self::Inode, _name: &CStr) -> io::Result<Entry> {
        no_such_call()
    }

    fn getattr(
        &self,
        _ctx: &Context,
        _inode: Self::Inode,
        _handle: Option<Self::Handle>,
    ) -> io::Result<(stat64, Duration)> {
        no_such_call()
    }

    fn readdir(
        &self,
        _ctx: &Context,
        _inode: Self::Inode,
        _handle: Self::Handle,
        _size: u32,
        _offset: u64,
        _add_entry: &mut dyn FnMut(DirEntry) -> io::Result<usize>,
    ) -> io::Result<()> {
        no_such_call()
    }

    fn readdirplus(
        &self,
        _ctx: &Context,
        _inode: Self::Inode,
        _handle: Self::Handle,
        _size: u32,
        _offset: u64,
        _add_entry: &mut dyn FnMut(DirEntry, Entry) -> io::Result<usize>,
    ) -> io::Result<()> {
        no_such_call()
    }

    fn access(&self, _ctx: &Context, _inode: Self::Inode, _mask: u32) -> io::Result<()> {
        no_such_call()
    }
}
