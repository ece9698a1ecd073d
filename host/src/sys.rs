//! The functions of the static library made safe. All `unsafe` of the crate stands in this file.
//!
//! The library is proved to read and write within the lengths that it is given and nowhere else, on every input, and to
//! return from every call. It keeps no address after it has returned. What is left to this file is said at each `unsafe`
//! block: that the pointers and lengths are those of live slices, and that what is written overlaps nothing else.
use crate::exports::*;
use crate::options::{IdMapping, VfsOptions};
use crate::Backend;

pub fn create(storage: &mut [u8], n: usize, known: u64, o: &VfsOptions) -> CodeAnswer {
    let m = o.id_mapping;
    // SAFETY: pointer and length are those of one slice, which is lent mutably for the whole call.
    unsafe {
        galdovar_create(
            storage.as_mut_ptr(),
            storage.len(),
            n,
            known,
            o.in_opts,
            o.out_opts,
            o.flags(),
            m.internal,
            m.external,
            m.range,
        )
    }
}

pub fn set_remove_pseudo_root(storage: &mut [u8]) -> CodeAnswer {
    // SAFETY: pointer and length are those of one slice, which is lent mutably for the whole call.
    unsafe { galdovar_set_remove_pseudo_root(storage.as_mut_ptr(), storage.len()) }
}

pub fn initialized(storage: &[u8]) -> InitializedAnswer {
    // SAFETY: pointer and length are those of one slice, which is lent for the whole call.
    unsafe { galdovar_initialized(storage.as_ptr(), storage.len()) }
}

pub fn options(storage: &[u8]) -> OptionsAnswer {
    // SAFETY: pointer and length are those of one slice, which is lent for the whole call.
    unsafe { galdovar_options(storage.as_ptr(), storage.len()) }
}

pub fn remap_attr_id(storage: &[u8], outward: bool, uid: u32, gid: u32) -> IdsAnswer {
    // SAFETY: pointer and length are those of one slice, which is lent for the whole call.
    unsafe { galdovar_remap_attr_id(storage.as_ptr(), storage.len(), uid, gid, u32::from(outward)) }
}

pub fn mount(storage: &mut [u8], path: &[u8], b: &Backend) -> MountAnswer {
    // SAFETY: each pointer goes with the length of its own slice; `storage` is lent mutably, so it overlaps nothing else.
    unsafe {
        galdovar_mount(
            storage.as_mut_ptr(),
            storage.len(),
            path.as_ptr(),
            path.len(),
            b.tag.0,
            b.root.0,
            b.largest,
            b.uid,
            b.gid,
            b.mode,
        )
    }
}

pub fn restore_mount(
    storage: &mut [u8],
    fs_idx: u8,
    path: &[u8],
    b: &Backend,
) -> RestoreMountAnswer {
    // SAFETY: each pointer goes with the length of its own slice; `storage` is lent mutably, so it overlaps nothing else.
    unsafe {
        galdovar_restore_mount(
            storage.as_mut_ptr(),
            storage.len(),
            fs_idx,
            path.as_ptr(),
            path.len(),
            b.tag.0,
            b.root.0,
            b.largest,
            b.uid,
            b.gid,
            b.mode,
        )
    }
}

pub fn umount(storage: &mut [u8], path: &[u8]) -> UmountAnswer {
    // SAFETY: each pointer goes with the length of its own slice; `storage` is lent mutably, so it overlaps nothing else.
    unsafe { galdovar_umount(storage.as_mut_ptr(), storage.len(), path.as_ptr(), path.len()) }
}

pub fn get_rootfs(storage: &[u8], path: &[u8]) -> RootfsAnswer {
    // SAFETY: each pointer goes with the length of its own slice; both are lent for the whole call and only read.
    unsafe { galdovar_get_rootfs(storage.as_ptr(), storage.len(), path.as_ptr(), path.len()) }
}

pub fn route(storage: &[u8], inode: u64) -> RouteAnswer {
    // SAFETY: pointer and length are those of one slice, which is lent for the whole call.
    unsafe { galdovar_route(storage.as_ptr(), storage.len(), inode) }
}

pub fn path_walk(storage: &[u8], path: &[u8]) -> WalkAnswer {
    // SAFETY: each pointer goes with the length of its own slice; both are lent for the whole call and only read.
    unsafe { galdovar_path_walk(storage.as_ptr(), storage.len(), path.as_ptr(), path.len()) }
}

pub fn lookup(storage: &[u8], parent: u64, name: &[u8]) -> LookupAnswer {
    // SAFETY: each pointer goes with the length of its own slice; both are lent for the whole call and only read.
    unsafe { galdovar_lookup(storage.as_ptr(), storage.len(), parent, name.as_ptr(), name.len()) }
}

pub fn readdir(storage: &[u8], node: u64, size: u32, offset: u64, out: &mut [u8]) -> WroteAnswer {
    // SAFETY: each pointer goes with the length of its own slice; `out` is lent mutably, so it overlaps nothing else.
    unsafe {
        galdovar_readdir(
            storage.as_ptr(),
            storage.len(),
            node,
            size,
            offset,
            out.as_mut_ptr(),
            out.len(),
        )
    }
}

pub fn save_to_bytes(storage: &[u8], out: &mut [u8]) -> WroteAnswer {
    // SAFETY: each pointer goes with the length of its own slice; `out` is lent mutably, so it overlaps nothing else.
    unsafe { galdovar_save_to_bytes(storage.as_ptr(), storage.len(), out.as_mut_ptr(), out.len()) }
}

pub fn restore_from_bytes(storage: &mut [u8], bytes: &[u8]) -> CodeAnswer {
    // SAFETY: each pointer goes with the length of its own slice; `storage` is lent mutably, so it overlaps nothing else.
    unsafe {
        galdovar_restore_from_bytes(
            storage.as_mut_ptr(),
            storage.len(),
            bytes.as_ptr(),
            bytes.len(),
        )
    }
}

pub fn convert_inode(fs_idx: u8, number: u64) -> InodeAnswer {
    // SAFETY: only numbers are passed, and every number has an answer.
    unsafe { galdovar_convert_inode(fs_idx, number) }
}

pub fn map_out(m: IdMapping, id: u32) -> u32 {
    // SAFETY: only numbers are passed, and every number has an answer.
    unsafe { galdovar_map_out(m.internal, m.external, m.range, id) }
}

pub fn map_back(m: IdMapping, id: u32) -> u32 {
    // SAFETY: only numbers are passed, and every number has an answer.
    unsafe { galdovar_map_back(m.internal, m.external, m.range, id) }
}

pub fn validate_path_component(name: &[u8]) -> CodeAnswer {
    // SAFETY: pointer and length are those of one slice, which is lent for the whole call.
    unsafe { galdovar_validate_path_component(name.as_ptr(), name.len()) }
}

pub fn allocate_in(t: &mut FsIndexes, tag: u32) -> AllocateAnswer {
    // SAFETY: `FsIndexes` is laid out as the header says, every pattern of it has a meaning, and `t` is lent mutably.
    unsafe { galdovar_allocate_in(t, tag) }
}
