//! Stands for the crate `dbs-snapshot`: a value written by `versionize` and read back, with no head, no version and no
//! sum around it. It is no witness for the bytes or the errors of the real crate.

use std::io::{Read, Write};

use versionize::{VersionMap, Versionize, VersionizeError};

#[derive(Debug)]
pub enum Error {
    Versionize(VersionizeError),
}

pub struct Snapshot {
    map: VersionMap,
    version: u16,
}

impl Snapshot {
    pub fn new(map: VersionMap, version: u16) -> Snapshot {
        Snapshot { map, version }
    }

    pub fn save<W: Write, T: Versionize>(&mut self, to: &mut W, value: &T) -> Result<(), Error> {
        value.serialize(to, &self.map, self.version).map_err(Error::Versionize)
    }

    pub fn load<R: Read, T: Versionize>(from: &mut R, _len: usize, map: VersionMap) -> Result<(T, u16), Error> {
        let version = map.latest_version();
        T::deserialize(from, &map, version).map(|value| (value, version)).map_err(Error::Versionize)
    }
}
