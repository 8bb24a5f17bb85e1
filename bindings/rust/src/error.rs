//! Why a call gives nothing.

use std::fmt;

/// Why a call gives nothing.
#[derive(Clone, Copy, Debug, PartialEq, Eq)]
pub enum Error {
    /// No prefix of the input is a table.
    Malformed,
    /// Bytes come after the table.
    TrailingBytes,
    /// This id was given, and is no index of the table, or values of its type lead to one that is none.
    NoSuchType(u32),
    /// This id is reached from the given ones, and is no index of the table.
    Dangling(u32),
    /// An allocation of the library failed.
    OutOfMemory,
    /// The input is metadata of this version, which is none of 14, 15 and 16.
    Version(u8),
    /// The text is no JSON.
    NoJson,
    /// Values of a type are neither read nor written: `char`, `u256`, `i256`, bit sequences, and compact types that are no unsigned integer of
    /// up to 128 bits.
    Unsupported,
    /// The value is more than 128 deep.
    TooDeep,
    /// No prefix of the bytes is a value of the type.
    MalformedValue,
    /// Bytes come after the value.
    TrailingValue,
    /// The JSON is no value of the type.
    Mismatch,
}

impl Error {
    /// What a status and its count say.
    pub(crate) fn of(status: u8, count: usize) -> Result<(), Error> {
        Err(match status {
            0 => return Ok(()),
            1 => Error::Malformed,
            2 => Error::TrailingBytes,
            3 => Error::NoSuchType(count as u32),
            4 => Error::Dangling(count as u32),
            5 => Error::OutOfMemory,
            7 => Error::Version(count as u8),
            9 => Error::NoJson,
            10 => Error::Unsupported,
            11 => Error::TooDeep,
            12 => Error::MalformedValue,
            13 => Error::TrailingValue,
            14 => Error::Mismatch,
            other => unreachable!("the library has no status {other} here"),
        })
    }
}

impl fmt::Display for Error {
    fn fmt(&self, f: &mut fmt::Formatter<'_>) -> fmt::Result {
        match self {
            Error::Malformed => f.write_str("the bytes are no table"),
            Error::TrailingBytes => f.write_str("there are bytes after the table"),
            Error::NoSuchType(id) => write!(f, "no such type {id}"),
            Error::Dangling(id) => write!(f, "dangling id {id}"),
            Error::OutOfMemory => f.write_str("out of memory"),
            Error::Version(version) => write!(f, "metadata of version {version} is not known"),
            Error::NoJson => f.write_str("the text is no JSON"),
            Error::Unsupported => f.write_str("values of the type are neither read nor written"),
            Error::TooDeep => f.write_str("the value is more than 128 deep"),
            Error::MalformedValue => f.write_str("the bytes are no value of the type"),
            Error::TrailingValue => f.write_str("there are bytes after the value"),
            Error::Mismatch => f.write_str("the JSON is no value of the type"),
        }
    }
}

impl std::error::Error for Error {}
