//! The records of a listing, read back.
use crate::numbers::NodeNumber;

/// One child of a directory, as a listing tells it.
#[derive(Clone, Copy, Debug, PartialEq, Eq, Hash)]
pub struct DirEntry<'a> {
    /// The child's own node number, whether or not something is mounted on it.
    pub node: NodeNumber,
    /// The offset from which a next listing goes on behind this child.
    pub offset: u64,
    /// The type field of the record, always 0.
    pub kind: u32,
    /// The name.
    pub name: &'a [u8],
}

/// The records that [`readdir`](crate::Vfs::readdir) wrote, one after another.
///
/// It ends at the first record whose head or name is cut.
#[derive(Clone, Debug)]
pub struct DirEntries<'a> {
    rest: &'a [u8],
}

impl<'a> DirEntries<'a> {
    /// Reads the bytes of a listing: those that `readdir` said it wrote.
    pub fn new(listed: &'a [u8]) -> DirEntries<'a> {
        DirEntries { rest: listed }
    }
}

const HEAD: usize = 24;

impl<'a> Iterator for DirEntries<'a> {
    type Item = DirEntry<'a>;

    fn next(&mut self) -> Option<DirEntry<'a>> {
        let head = self.rest.get(..HEAD)?;
        let length = number(&head[16..20]) as usize;
        let name = self.rest[HEAD..].get(..length)?;
        let whole = (HEAD + length + 7) / 8 * 8;
        self.rest = self.rest.get(whole..).unwrap_or(&[]);
        Some(DirEntry {
            node: NodeNumber(number(&head[0..8])),
            offset: number(&head[8..16]),
            kind: number(&head[20..24]) as u32,
            name,
        })
    }
}

/// A little-endian number of up to eight bytes.
fn number(bytes: &[u8]) -> u64 {
    bytes.iter().rev().fold(0, |n, b| n << 8 | u64::from(*b))
}
