//! The functions of the static library and their answers, as `crates/gateway/galdovar.h` declares them. The oracle's programs
//! take this file too.

#[repr(C)]
pub struct CodeAnswer {
    pub code: u32,
}

#[repr(C)]
pub struct InitializedAnswer {
    pub code: u32,
    pub initialized: u32,
}

#[repr(C)]
pub struct OptionsAnswer {
    pub code: u32,
    pub flags: u32,
    pub in_opts: u64,
    pub out_opts: u64,
    pub internal: u32,
    pub external: u32,
    pub range: u32,
}

#[repr(C)]
pub struct MountAnswer {
    pub code: u32,
    pub fs_idx: u32,
    pub count: u32,
    pub has_replaced: u32,
    pub replaced: u32,
}

#[repr(C)]
pub struct RestoreMountAnswer {
    pub code: u32,
    pub has_replaced: u32,
    pub replaced: u32,
    pub has_displaced: u32,
    pub displaced: u32,
}

#[repr(C)]
pub struct UmountAnswer {
    pub code: u32,
    pub has_released: u32,
    pub node: u64,
    pub parent: u64,
    pub released: u32,
}

#[repr(C)]
pub struct RootfsAnswer {
    pub code: u32,
    pub has_backend: u32,
    pub tag: u32,
    pub fs_idx: u32,
}

#[repr(C)]
pub struct WalkAnswer {
    pub code: u32,
    pub has_node: u32,
    pub node: u64,
}

#[repr(C)]
pub struct RouteAnswer {
    pub code: u32,
    pub to_backend: u32,
    pub tag: u32,
    pub fs_idx: u32,
    pub number: u64,
}

#[repr(C)]
pub struct LookupAnswer {
    pub code: u32,
    pub mode: u32,
    pub inode: u64,
    pub uid: u32,
    pub gid: u32,
    pub blksize: u32,
}

#[repr(C)]
pub struct WroteAnswer {
    pub code: u32,
    pub written: u64,
}

#[repr(C)]
pub struct IdsAnswer {
    pub code: u32,
    pub uid: u32,
    pub gid: u32,
}

#[repr(C)]
pub struct InodeAnswer {
    pub code: u32,
    pub inode: u64,
}

/// The allocator that a host lends: a slot is held where its byte of `used` is not 0.
#[repr(C)]
#[derive(Clone)]
pub struct FsIndexes {
    pub used: [u8; 256],
    pub tags: [u32; 256],
    pub next_super: u8,
}

#[repr(C)]
pub struct AllocateAnswer {
    pub code: u32,
    pub fs_idx: u32,
    pub count: u32,
}

extern "C" {
    pub fn galdovar_create(
        storage: *mut u8,
        storage_len: usize,
        n: usize,
        known: u64,
        in_opts: u64,
        out_opts: u64,
        flags: u8,
        internal: u32,
        external: u32,
        range: u32,
    ) -> CodeAnswer;
    pub fn galdovar_set_remove_pseudo_root(storage: *mut u8, storage_len: usize) -> CodeAnswer;
    pub fn galdovar_initialized(storage: *const u8, storage_len: usize) -> InitializedAnswer;
    pub fn galdovar_options(storage: *const u8, storage_len: usize) -> OptionsAnswer;
    pub fn galdovar_remap_attr_id(
        storage: *const u8,
        storage_len: usize,
        uid: u32,
        gid: u32,
        outward: u32,
    ) -> IdsAnswer;
    pub fn galdovar_mount(
        storage: *mut u8,
        storage_len: usize,
        path: *const u8,
        path_len: usize,
        tag: u32,
        root: u64,
        largest: u64,
        uid: u32,
        gid: u32,
        mode: u32,
    ) -> MountAnswer;
    pub fn galdovar_restore_mount(
        storage: *mut u8,
        storage_len: usize,
        fs_idx: u8,
        path: *const u8,
        path_len: usize,
        tag: u32,
        root: u64,
        largest: u64,
        uid: u32,
        gid: u32,
        mode: u32,
    ) -> RestoreMountAnswer;
    pub fn galdovar_umount(
        storage: *mut u8,
        storage_len: usize,
        path: *const u8,
        path_len: usize,
    ) -> UmountAnswer;
    pub fn galdovar_get_rootfs(
        storage: *const u8,
        storage_len: usize,
        path: *const u8,
        path_len: usize,
    ) -> RootfsAnswer;
    pub fn galdovar_route(storage: *const u8, storage_len: usize, inode: u64) -> RouteAnswer;
    pub fn galdovar_path_walk(
        storage: *const u8,
        storage_len: usize,
        path: *const u8,
        path_len: usize,
    ) -> WalkAnswer;
    pub fn galdovar_lookup(
        storage: *const u8,
        storage_len: usize,
        parent: u64,
        name: *const u8,
        name_len: usize,
    ) -> LookupAnswer;
    pub fn galdovar_readdir(
        storage: *const u8,
        storage_len: usize,
        node: u64,
        size: u32,
        offset: u64,
        out: *mut u8,
        out_len: usize,
    ) -> WroteAnswer;
    pub fn galdovar_save_to_bytes(
        storage: *const u8,
        storage_len: usize,
        out: *mut u8,
        out_len: usize,
    ) -> WroteAnswer;
    pub fn galdovar_restore_from_bytes(
        storage: *mut u8,
        storage_len: usize,
        bytes: *const u8,
        bytes_len: usize,
    ) -> CodeAnswer;
    pub fn galdovar_convert_inode(fs_idx: u8, number: u64) -> InodeAnswer;
    pub fn galdovar_map_out(internal: u32, external: u32, range: u32, id: u32) -> u32;
    pub fn galdovar_map_back(internal: u32, external: u32, range: u32, id: u32) -> u32;
    pub fn galdovar_validate_path_component(name: *const u8, name_len: usize) -> CodeAnswer;
    pub fn galdovar_allocate_in(t: *mut FsIndexes, tag: u32) -> AllocateAnswer;
}
