//! The options of an instance, and the mapping of user and group ids.
use crate::exports::OptionsAnswer;
use crate::sys;

/// One range of ids: those from `internal` on, `range` of them, stand outside from `external` on. Range 0 is no mapping.
#[derive(Clone, Copy, Debug, Default, PartialEq, Eq, Hash)]
pub struct IdMapping {
    /// The first id inside.
    pub internal: u32,
    /// The first id outside.
    pub external: u32,
    /// How many ids.
    pub range: u32,
}

impl IdMapping {
    /// A mapping of `range` ids, from `internal` on inside and from `external` on outside.
    pub const fn new(internal: u32, external: u32, range: u32) -> IdMapping {
        IdMapping { internal, external, range }
    }
}

/// Out by a given mapping: an id in the internal range moves to the external one, any other stays.
///
/// ```
/// use galdovar::{map_back, map_out, IdMapping};
///
/// let m = IdMapping::new(0, 1000, 10);
/// assert_eq!(map_out(m, 3), 1003);
/// assert_eq!(map_out(m, 10), 10);
/// assert_eq!(map_back(m, map_out(m, 3)), 3);
/// ```
pub fn map_out(mapping: IdMapping, id: u32) -> u32 {
    sys::map_out(mapping, id)
}

/// Back by a given mapping: an id in the external range moves to the internal one, any other stays.
///
/// ```
/// use galdovar::{map_back, IdMapping};
///
/// assert_eq!(map_back(IdMapping::new(500, 20, 5), 24), 504);
/// ```
pub fn map_back(mapping: IdMapping, id: u32) -> u32 {
    sys::map_back(mapping, id)
}

/// The options of an instance: those of the file system protocol as bits, six flags, and a mapping of ids.
///
/// The names are those of the Rust. The flags are kept and saved; what they ask for is the host's to do. There is no
/// `Default`: that of the Rust has flags and option bits on.
#[derive(Clone, Copy, Debug, PartialEq, Eq, Hash)]
pub struct VfsOptions {
    /// A listing through the host shows no entries.
    pub no_readdir: bool,
    /// Requests that change a file's size are refused by the host.
    pub seal_size: bool,
    /// No open requests.
    pub no_open: bool,
    /// No opendir requests.
    pub no_opendir: bool,
    /// No writeback cache.
    pub no_writeback: bool,
    /// The second form of killpriv.
    pub killpriv_v2: bool,
    /// Option bits that came in from the client.
    pub in_opts: u64,
    /// Option bits returned to the client.
    pub out_opts: u64,
    /// The mapping of user and group ids.
    pub id_mapping: IdMapping,
}

impl VfsOptions {
    /// No option bits, no flags, no mapping.
    // A `default` would mean something else than that of the Rust.
    #[allow(clippy::new_without_default)]
    pub const fn new() -> VfsOptions {
        VfsOptions {
            no_readdir: false,
            seal_size: false,
            no_open: false,
            no_opendir: false,
            no_writeback: false,
            killpriv_v2: false,
            in_opts: 0,
            out_opts: 0,
            id_mapping: IdMapping::new(0, 0, 0),
        }
    }

    pub(crate) fn flags(&self) -> u8 {
        u8::from(self.no_readdir)
            | u8::from(self.seal_size) << 1
            | u8::from(self.no_open) << 2
            | u8::from(self.no_opendir) << 3
            | u8::from(self.no_writeback) << 4
            | u8::from(self.killpriv_v2) << 5
    }

    pub(crate) fn of(a: &OptionsAnswer) -> VfsOptions {
        let flag = |bit: u32| a.flags >> bit & 1 == 1;
        VfsOptions {
            no_readdir: flag(0),
            seal_size: flag(1),
            no_open: flag(2),
            no_opendir: flag(3),
            no_writeback: flag(4),
            killpriv_v2: flag(5),
            in_opts: a.in_opts,
            out_opts: a.out_opts,
            id_mapping: IdMapping::new(a.internal, a.external, a.range),
        }
    }
}
