//! What both sides of a comparison can be asked, and what they answer: the Rust on one side, the port on the other.
//! An answer begins with the refusal number of docs/RULES.md, R15; the fields are those of R16 and in the order given
//! at each method.

/// The refusal numbers of R15 that are named in these programs; `SMALL` by `bench` alone.
pub const NOENT: u64 = 1;
pub const INVAL: u64 = 2;
pub const INODE: u64 = 4;
pub const FULL: u64 = 5;
pub const NOTFOUND: u64 = 7;
pub const BADSAVE: u64 = 10;
#[allow(dead_code)]
pub const SMALL: u64 = 12;
pub const BADOPT: u64 = 13;

/// The largest number of a node or of a backend's file (R5).
pub const MAX_INO: u64 = (1 << 56) - 1;

/// The mode of a directory with all permissions (R13).
pub const DIR_MODE: u32 = 16895;

/// The known option bits, the options and the node capacity of a new instance (R26, R27).
#[derive(Clone, Debug)]
pub struct Creation {
    pub capacity: u64,
    pub known: u64,
    pub in_opts: u64,
    pub out_opts: u64,
    pub flags: u8,
    pub mapping: (u32, u32, u32),
}

/// What a mount request brings besides its path (R3).
#[derive(Clone, Copy, Debug)]
pub struct Backend {
    pub tag: u32,
    pub root: u64,
    pub largest: u64,
    pub uid: u32,
    pub gid: u32,
    pub mode: u32,
}

/// One call, with all that it takes.
#[derive(Clone, Debug)]
pub enum Call {
    New(Creation),
    Remove,
    Mount(Vec<u8>, Backend),
    RestoreMount(u8, Vec<u8>, Backend),
    Umount(Vec<u8>),
    Rootfs(Vec<u8>),
    Walk(Vec<u8>),
    Route(u64),
    Lookup(u64, Vec<u8>),
    List { node: u64, size: u32, offset: u64, room: usize },
    Convert(u8, u64),
    Out(u32, u32),
    Back(u32, u32),
    Component(Vec<u8>),
    Save,
    Restore(Vec<u8>),
    Settings,
}

/// The numbers of an answer, and the bytes that it wrote, where the call writes any.
#[derive(Clone, Debug, PartialEq, Eq)]
pub struct Answer {
    pub numbers: Vec<u64>,
    pub bytes: Option<Vec<u8>>,
}

impl Answer {
    pub fn of(numbers: &[u64]) -> Answer {
        Answer { numbers: numbers.to_vec(), bytes: None }
    }

    /// A refusal: the number and zeros (R16).
    pub fn refused(code: u64, fields: usize) -> Answer {
        let mut numbers = vec![0; fields];
        numbers[0] = code;
        Answer { numbers, bytes: None }
    }

    pub fn with(mut self, bytes: Vec<u8>) -> Answer {
        self.bytes = Some(bytes);
        self
    }

    pub fn code(&self) -> u64 {
        self.numbers[0]
    }
}

/// Two numbers for a tag that may be none: 1 and the tag, or 0 and 0.
pub fn maybe(tag: Option<u32>) -> [u64; 2] {
    match tag {
        Some(tag) => [1, tag as u64],
        None => [0, 0],
    }
}

/// A node: its number, its parent's number, its name.
#[derive(Clone, Debug, PartialEq, Eq)]
pub struct Node {
    pub number: u64,
    pub parent: u64,
    pub name: Vec<u8>,
}

/// What stands on a node, with the ids of the stored root entry.
#[derive(Clone, Debug, PartialEq, Eq)]
pub struct Mount {
    pub node: u64,
    pub index: u8,
    pub root: u64,
    pub uid: u32,
    pub gid: u32,
    pub mode: u32,
}

/// The options as they stand (R27, R34).
#[derive(Clone, Copy, Debug, Default, PartialEq, Eq)]
pub struct Options {
    pub in_opts: u64,
    pub out_opts: u64,
    pub mapping: (u32, u32, u32),
    pub flags: u8,
}

/// The whole tables of an instance.
#[derive(Clone, Debug, PartialEq, Eq)]
pub struct Tables {
    /// The live nodes besides the root, by number.
    pub nodes: Vec<Node>,
    /// The numbers of the children of the root and of each live node, in their order.
    pub children: Vec<(u64, Vec<u64>)>,
    pub next: u64,
    pub counter: u8,
    pub slots: Vec<Option<u32>>,
    /// By node.
    pub mounts: Vec<Mount>,
    pub options: Options,
    /// The mapping in force (R34), or none where its range is 0.
    pub mapping: Option<(u32, u32, u32)>,
    pub initialized: bool,
    pub removes: bool,
}

/// One side. Each method is one call on the instance that the last `create` made.
pub trait Side {
    /// Code.
    fn create(&mut self, c: &Creation) -> Answer;
    /// Code.
    fn set_remove_pseudo_root(&mut self) -> Answer;
    /// Code, index, count, has replaced, replaced.
    fn mount(&mut self, path: &[u8], b: Backend) -> Answer;
    /// Code, has replaced, replaced, has displaced, displaced.
    fn restore_mount(&mut self, index: u8, path: &[u8], b: Backend) -> Answer;
    /// Code, node, parent, has released, released.
    fn umount(&mut self, path: &[u8]) -> Answer;
    /// Code, has backend, tag, index.
    fn get_rootfs(&mut self, path: &[u8]) -> Answer;
    /// Code, has node, node.
    fn path_walk(&mut self, path: &[u8]) -> Answer;
    /// Code, to a backend, tag, index, number.
    fn route(&mut self, full: u64) -> Answer;
    /// Code, full number, mode, uid, gid, block size.
    fn lookup(&mut self, node: u64, name: &[u8]) -> Answer;
    /// Code, bytes written; and the bytes.
    fn readdir(&mut self, node: u64, size: u32, offset: u64, room: usize) -> Answer;
    /// Code, full number.
    fn convert_inode(&mut self, index: u8, number: u64) -> Answer;
    /// Code, uid, gid.
    fn remap_attr_id(&mut self, outward: bool, uid: u32, gid: u32) -> Answer;
    /// Code.
    fn validate_path_component(&mut self, name: &[u8]) -> Answer;
    /// Code, bytes written; and the bytes, in the layout of R119 to R123.
    fn save_to_bytes(&mut self) -> Answer;
    /// Code.
    fn restore_from_bytes(&mut self, bytes: &[u8]) -> Answer;
    /// Code, initialized, in_opts, out_opts, flags, internal, external, range.
    fn settings(&mut self) -> Answer;

    fn tables(&self) -> Tables;

    /// No call: puts tags into the slots, and the counter, so that a call finds any tables.
    fn set_slots(&mut self, slots: &[Option<u32>], counter: u8);

    fn perform(&mut self, call: &Call) -> Answer {
        match call {
            Call::New(c) => self.create(c),
            Call::Remove => self.set_remove_pseudo_root(),
            Call::Mount(path, b) => self.mount(path, *b),
            Call::RestoreMount(index, path, b) => self.restore_mount(*index, path, *b),
            Call::Umount(path) => self.umount(path),
            Call::Rootfs(path) => self.get_rootfs(path),
            Call::Walk(path) => self.path_walk(path),
            Call::Route(full) => self.route(*full),
            Call::Lookup(node, name) => self.lookup(*node, name),
            Call::List { node, size, offset, room } => self.readdir(*node, *size, *offset, *room),
            Call::Convert(index, number) => self.convert_inode(*index, *number),
            Call::Out(uid, gid) => self.remap_attr_id(true, *uid, *gid),
            Call::Back(uid, gid) => self.remap_attr_id(false, *uid, *gid),
            Call::Component(name) => self.validate_path_component(name),
            Call::Save => self.save_to_bytes(),
            Call::Restore(bytes) => self.restore_from_bytes(bytes),
            Call::Settings => self.settings(),
        }
    }
}
