//! Stand-in for deku: decoding of records by the attributes that the Rust's four files use, and no others.
//!
//! Our reading of them: a magic is compared first; fields follow in order; numbers are little-endian where an attribute says so and the
//! machine's otherwise; an id that is no variant refuses the record; a field whose condition is false takes no bytes; bytes that are left
//! over don't matter.
//!
//! The error names what was wrong, so that the host can tell document 01's numbers apart.

extern crate self as deku;

pub use deku_derive::{DekuRead, DekuWrite};

pub mod prelude {
    pub use crate::{DekuContainerRead, DekuRead, DekuWrite};
}

pub mod ctx {
    #[derive(Clone, Copy, Debug, PartialEq, Eq)]
    pub enum Endian {
        Little,
        Big,
    }

    impl Endian {
        pub const NATIVE: Endian = if cfg!(target_endian = "little") { Endian::Little } else { Endian::Big };
    }
}

use core::fmt;
use ctx::Endian;

#[derive(Debug, Clone, Copy, PartialEq, Eq)]
pub enum DekuError {
    /// The record ended.
    Incomplete,
    Magic,
    /// An id that is no variant, with the enum's name and the field's.
    Id { kind: &'static str, field: &'static str },
}

impl fmt::Display for DekuError {
    fn fmt(&self, f: &mut fmt::Formatter<'_>) -> fmt::Result {
        match self {
            DekuError::Incomplete => write!(f, "incomplete"),
            DekuError::Magic => write!(f, "magic"),
            DekuError::Id { kind, field } => write!(f, "id {kind} {field}"),
        }
    }
}

impl DekuError {
    /// Used by the derive: an id's error learns the field that it stood in.
    #[doc(hidden)]
    pub fn in_field(self, name: &'static str) -> DekuError {
        match self {
            DekuError::Id { kind, .. } => DekuError::Id { kind, field: name },
            other => other,
        }
    }
}

/// What is left of the record.
pub struct Cursor<'a>(&'a [u8]);

impl<'a> Cursor<'a> {
    #[inline]
    pub fn take(&mut self, n: usize) -> Result<&'a [u8], DekuError> {
        if self.0.len() < n {
            return Err(DekuError::Incomplete);
        }
        let (front, rest) = self.0.split_at(n);
        self.0 = rest;
        Ok(front)
    }

    #[inline]
    pub fn magic(&mut self, magic: &[u8]) -> Result<(), DekuError> {
        if self.take(magic.len())? == magic { Ok(()) } else { Err(DekuError::Magic) }
    }

    #[inline]
    fn array<const N: usize>(&mut self) -> Result<[u8; N], DekuError> {
        let mut bytes = [0; N];
        bytes.copy_from_slice(self.take(N)?);
        Ok(bytes)
    }
}

/// A value that is read from the cursor; the derive makes it for structs and enums.
pub trait Decode: Sized {
    fn decode(cursor: &mut Cursor<'_>, endian: Endian) -> Result<Self, DekuError>;
}

impl Decode for u8 {
    #[inline]
    fn decode(cursor: &mut Cursor<'_>, _: Endian) -> Result<u8, DekuError> {
        Ok(cursor.array::<1>()?[0])
    }
}

impl Decode for u16 {
    #[inline]
    fn decode(cursor: &mut Cursor<'_>, endian: Endian) -> Result<u16, DekuError> {
        let bytes = cursor.array()?;
        Ok(if endian == Endian::Little { u16::from_le_bytes(bytes) } else { u16::from_be_bytes(bytes) })
    }
}

impl Decode for u32 {
    #[inline]
    fn decode(cursor: &mut Cursor<'_>, endian: Endian) -> Result<u32, DekuError> {
        let bytes = cursor.array()?;
        Ok(if endian == Endian::Little { u32::from_le_bytes(bytes) } else { u32::from_be_bytes(bytes) })
    }
}

impl<const N: usize> Decode for [u8; N] {
    #[inline]
    fn decode(cursor: &mut Cursor<'_>, _: Endian) -> Result<[u8; N], DekuError> {
        cursor.array()
    }
}

/// Made only under a condition, which the derive tests first.
impl<T: Decode> Decode for Option<T> {
    #[inline]
    fn decode(cursor: &mut Cursor<'_>, endian: Endian) -> Result<Option<T>, DekuError> {
        Ok(Some(T::decode(cursor, endian)?))
    }
}

/// `count = "n"`: so many bytes, in a vector.
pub trait Counted: Sized {
    fn counted(cursor: &mut Cursor<'_>, n: usize) -> Result<Self, DekuError>;
}

impl Counted for Vec<u8> {
    #[inline]
    fn counted(cursor: &mut Cursor<'_>, n: usize) -> Result<Vec<u8>, DekuError> {
        Ok(cursor.take(n)?.to_vec())
    }
}

impl Counted for Option<Vec<u8>> {
    #[inline]
    fn counted(cursor: &mut Cursor<'_>, n: usize) -> Result<Option<Vec<u8>>, DekuError> {
        Ok(Some(cursor.take(n)?.to_vec()))
    }
}

pub trait DekuContainerRead: Decode {
    /// The bytes, from bit 0 of the first one; the rest comes back with the value.
    #[inline]
    fn from_bytes(input: (&[u8], usize)) -> Result<((&[u8], usize), Self), DekuError> {
        assert!(input.1 == 0, "the stand-in reads whole bytes");
        let mut cursor = Cursor(input.0);
        let value = Self::decode(&mut cursor, Endian::NATIVE)?;
        Ok(((cursor.0, 0), value))
    }
}

impl<T: Decode> DekuContainerRead for T {}
