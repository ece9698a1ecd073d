//! Stands for the crate `versionize`: a trait that writes a value into bytes and reads it back, with a map of type
//! versions that is carried and not asked. The layout is our own: numbers little-endian, a bool as one byte, a string
//! and a list with their length (u64) in front. It is no witness for the bytes or the errors of the real crate.

use std::any::TypeId;
use std::io::{Read, Write};

#[derive(Debug)]
pub enum VersionizeError {
    Deserialize(String),
    Serialize(String),
}

pub type VersionizeResult<T> = Result<T, VersionizeError>;

#[derive(Clone, Debug, Default)]
pub struct VersionMap {
    types: Vec<(TypeId, u16)>,
}

impl VersionMap {
    pub fn new() -> VersionMap {
        VersionMap::default()
    }

    pub fn set_type_version(&mut self, id: TypeId, version: u16) -> &mut VersionMap {
        self.types.push((id, version));
        self
    }

    pub fn latest_version(&self) -> u16 {
        1
    }
}

pub trait Versionize {
    fn serialize<W: Write>(&self, to: &mut W, map: &VersionMap, version: u16) -> VersionizeResult<()>;

    fn deserialize<R: Read>(from: &mut R, map: &VersionMap, version: u16) -> VersionizeResult<Self>
    where
        Self: Sized;

    fn type_id() -> TypeId
    where
        Self: 'static,
    {
        TypeId::of::<Self>()
    }
}

fn too_few<E>(_: E) -> VersionizeError {
    VersionizeError::Deserialize("too few bytes".to_string())
}

/// So many bytes; room is made ahead for as many as a name has, and not for any length that the bytes claim.
fn take<R: Read>(from: &mut R, len: u64) -> VersionizeResult<Vec<u8>> {
    if len <= 256 {
        let mut bytes = vec![0; len as usize];
        return from.read_exact(&mut bytes).map(|_| bytes).map_err(too_few);
    }
    let mut bytes = Vec::new();
    match from.take(len).read_to_end(&mut bytes) {
        Ok(n) if n as u64 == len => Ok(bytes),
        _ => Err(too_few(())),
    }
}

macro_rules! number {
    ($t:ty, $width:expr) => {
        impl Versionize for $t {
            fn serialize<W: Write>(&self, to: &mut W, _: &VersionMap, _: u16) -> VersionizeResult<()> {
                to.write_all(&self.to_le_bytes()).map_err(|e| VersionizeError::Serialize(e.to_string()))
            }

            fn deserialize<R: Read>(from: &mut R, _: &VersionMap, _: u16) -> VersionizeResult<$t> {
                let mut bytes = [0; $width];
                from.read_exact(&mut bytes).map_err(too_few)?;
                Ok(<$t>::from_le_bytes(bytes))
            }
        }
    };
}

number!(u8, 1);
number!(u32, 4);
number!(u64, 8);

impl Versionize for bool {
    fn serialize<W: Write>(&self, to: &mut W, map: &VersionMap, version: u16) -> VersionizeResult<()> {
        (*self as u8).serialize(to, map, version)
    }

    fn deserialize<R: Read>(from: &mut R, map: &VersionMap, version: u16) -> VersionizeResult<bool> {
        Ok(u8::deserialize(from, map, version)? != 0)
    }
}

impl Versionize for String {
    fn serialize<W: Write>(&self, to: &mut W, map: &VersionMap, version: u16) -> VersionizeResult<()> {
        (self.len() as u64).serialize(to, map, version)?;
        to.write_all(self.as_bytes()).map_err(|e| VersionizeError::Serialize(e.to_string()))
    }

    fn deserialize<R: Read>(from: &mut R, map: &VersionMap, version: u16) -> VersionizeResult<String> {
        let len = u64::deserialize(from, map, version)?;
        String::from_utf8(take(from, len)?).map_err(|e| VersionizeError::Deserialize(e.to_string()))
    }
}

impl<T: Versionize> Versionize for Vec<T> {
    fn serialize<W: Write>(&self, to: &mut W, map: &VersionMap, version: u16) -> VersionizeResult<()> {
        (self.len() as u64).serialize(to, map, version)?;
        for item in self {
            item.serialize(to, map, version)?;
        }
        Ok(())
    }

    fn deserialize<R: Read>(from: &mut R, map: &VersionMap, version: u16) -> VersionizeResult<Vec<T>> {
        let len = u64::deserialize(from, map, version)?;
        let mut items = Vec::new();
        for _ in 0..len {
            items.push(T::deserialize(from, map, version)?);
        }
        Ok(items)
    }
}
