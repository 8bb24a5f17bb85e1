//! Tables of types: read, pruned, searched, and values read and written by them.
//!
//! A table is the SCALE encoding of a list of type descriptions, as a node's metadata holds it. An id of a type is its index in the table,
//! counted from 0. Each call reads the table anew and keeps nothing. The library that answers is written in Rattle and proved; this crate
//! hands slices on to it, and its own code is not proved.
//!
//! ```
//! let table = [8, 0, 0, 0, 2, 4, 0, 4, 0, 0, 5, 5, 0]; // of Vec<u32>, and of u32
//! scale_info_calls::check(&table)?;
//! assert_eq!(scale_info_calls::prune(&table, &[1])?, [4, 0, 0, 0, 5, 5, 0]);
//! assert_eq!(scale_info_calls::value(&table, 0, &[8, 1, 0, 0, 0, 2, 0, 0, 0])?, "[1,2]");
//! assert_eq!(scale_info_calls::encode(&table, 0, "[1,2]")?, [8, 1, 0, 0, 0, 2, 0, 0, 0]);
//! # Ok::<(), scale_info_calls::Error>(())
//! ```

mod error;
mod ffi;

pub use error::Error;

/// Finds that the input is one table, with nothing after it.
///
/// # Errors
///
/// [`Error::Malformed`] and [`Error::TrailingBytes`].
pub fn check(input: &[u8]) -> Result<(), Error> {
    // SAFETY: the pointer and the length are those of one slice, which is borrowed for the call.
    let status = unsafe { ffi::scale_info_ffi_check(input.as_ptr(), input.len()) };
    Error::of(status, 0)
}

/// The table of what these ids reach, in depth-first order of discovery from the ids in ascending order, each once.
///
/// # Errors
///
/// [`Error::NoSuchType`] and [`Error::Dangling`], and those of a table: [`Error::Malformed`], [`Error::TrailingBytes`] and
/// [`Error::OutOfMemory`].
pub fn prune(input: &[u8], ids: &[u32]) -> Result<Vec<u8>, Error> {
    // SAFETY: each pointer and its length are those of one slice, and a `&mut` overlaps nothing.
    with_room(input.len(), |room: &mut [u8], count| unsafe {
        let (ids, ids_length) = (ids.as_ptr(), ids.len());
        ffi::scale_info_ffi_prune(
            input.as_ptr(),
            input.len(),
            ids,
            ids_length,
            room.as_mut_ptr(),
            room.len(),
            count,
        )
    })
}

/// The table as compact JSON text.
///
/// # Errors
///
/// Those of a table, as of [`prune`].
pub fn json(input: &[u8]) -> Result<String, Error> {
    // SAFETY: as in `prune`.
    let text = with_room(input.len().saturating_mul(2), |room, count| unsafe {
        ffi::scale_info_ffi_json(
            input.as_ptr(),
            input.len(),
            room.as_mut_ptr(),
            room.len(),
            count,
        )
    })?;
    Ok(text_of(text))
}

/// The table without the docs of its types, fields and variants.
///
/// # Errors
///
/// Those of a table, as of [`prune`].
pub fn strip(input: &[u8]) -> Result<Vec<u8>, Error> {
    // SAFETY: as in `prune`.
    with_room(input.len(), |room, count| unsafe {
        ffi::scale_info_ffi_strip(
            input.as_ptr(),
            input.len(),
            room.as_mut_ptr(),
            room.len(),
            count,
        )
    })
}

/// The table of a node's metadata of version 14, 15 or 16, or of an input that is a table and nothing else; each also as a text of hexadecimal
/// digits.
///
/// # Errors
///
/// [`Error::Version`], and those of a table, as of [`prune`].
pub fn table(input: &[u8]) -> Result<Vec<u8>, Error> {
    // SAFETY: as in `prune`.
    with_room(input.len(), |room, count| unsafe {
        ffi::scale_info_ffi_table(
            input.as_ptr(),
            input.len(),
            room.as_mut_ptr(),
            room.len(),
            count,
        )
    })
}

/// The ids, ascending, of the types with this path, as `sp_core::crypto::AccountId32`; none, where no type has it.
///
/// # Errors
///
/// Those of a table, as of [`prune`].
pub fn find(input: &[u8], path: &str) -> Result<Vec<u32>, Error> {
    // SAFETY: as in `prune`.
    with_room(4, |room, count| unsafe {
        let (path, path_length) = (path.as_ptr(), path.len());
        ffi::scale_info_ffi_find(
            input.as_ptr(),
            input.len(),
            path,
            path_length,
            room.as_mut_ptr(),
            room.len(),
            count,
        )
    })
}

/// The type as Rust declares it, with its docs, without a line feed at its end.
///
/// # Errors
///
/// [`Error::NoSuchType`], and those of a table, as of [`prune`].
pub fn describe(input: &[u8], id: u32) -> Result<String, Error> {
    // SAFETY: as in `prune`.
    let text = with_room(256, |room, count| unsafe {
        ffi::scale_info_ffi_describe(
            input.as_ptr(),
            input.len(),
            id,
            room.as_mut_ptr(),
            room.len(),
            count,
        )
    })?;
    Ok(text_of(text))
}

/// The JSON text of the bytes as one value of the type.
///
/// A table can ask for much text from few bytes: for as many as 4294967295 values that take none.
///
/// # Errors
///
/// [`Error::NoSuchType`], [`Error::Unsupported`], [`Error::TooDeep`], [`Error::MalformedValue`] and [`Error::TrailingValue`], and those of a
/// table, as of [`prune`].
pub fn value(input: &[u8], id: u32, bytes: &[u8]) -> Result<String, Error> {
    // SAFETY: as in `prune`.
    let text = with_room(bytes.len().saturating_mul(4), |room, count| unsafe {
        let (bytes, bytes_length) = (bytes.as_ptr(), bytes.len());
        ffi::scale_info_ffi_value(
            input.as_ptr(),
            input.len(),
            id,
            bytes,
            bytes_length,
            room.as_mut_ptr(),
            room.len(),
            count,
        )
    })?;
    Ok(text_of(text))
}

/// The encoding of the value of the type that the JSON text gives.
///
/// # Errors
///
/// [`Error::NoSuchType`], [`Error::NoJson`], [`Error::Unsupported`], [`Error::TooDeep`] and [`Error::Mismatch`], and those of a table, as of
/// [`prune`].
pub fn encode(input: &[u8], id: u32, json: &str) -> Result<Vec<u8>, Error> {
    // SAFETY: as in `prune`.
    with_room(json.len(), |room, count| unsafe {
        let (json, json_length) = (json.as_ptr(), json.len());
        ffi::scale_info_ffi_encode(
            input.as_ptr(),
            input.len(),
            id,
            json,
            json_length,
            room.as_mut_ptr(),
            room.len(),
            count,
        )
    })
}

/// What differs first between a type of one table and one of another; `None`, where they are the same, whatever ids they have.
///
/// # Errors
///
/// [`Error::NoSuchType`] and [`Error::Dangling`], and those of a table, as of [`prune`], of either.
pub fn difference(
    first: &[u8],
    id: u32,
    second: &[u8],
    other: u32,
) -> Result<Option<String>, Error> {
    // SAFETY: as in `prune`.
    let text = with_room(256, |room, count| unsafe {
        let (second, second_length) = (second.as_ptr(), second.len());
        let (room, room_length) = (room.as_mut_ptr(), room.len());
        ffi::scale_info_ffi_same(
            first.as_ptr(),
            first.len(),
            id,
            second,
            second_length,
            other,
            room,
            room_length,
            count,
        )
    })?;
    Ok(if text.is_empty() {
        None
    } else {
        Some(text_of(text))
    })
}

/// What changed between two tables, by the paths of their types: a line for each path, `- PATH` where only the old table has it, `+ PATH`
/// where only the new one has it, and `~ PATH` where both have it and the types are not the same.
///
/// Docs count: give both tables as [`strip`] returns them where they should not.
///
/// # Errors
///
/// [`Error::Dangling`], and those of a table, as of [`prune`], of either.
pub fn changes(old: &[u8], new: &[u8]) -> Result<String, Error> {
    // SAFETY: as in `prune`.
    let text = with_room(1024, |room, count| unsafe {
        let (new, new_length) = (new.as_ptr(), new.len());
        ffi::scale_info_ffi_changes(
            old.as_ptr(),
            old.len(),
            new,
            new_length,
            room.as_mut_ptr(),
            room.len(),
            count,
        )
    })?;
    Ok(text_of(text))
}

/// The text that bytes of the library are.
fn text_of(bytes: Vec<u8>) -> String {
    String::from_utf8(bytes).expect("the library's texts are UTF-8")
}

/// Calls with so much room, and once more with the room that is wanted.
fn with_room<T: Clone + Default>(
    first: usize,
    call: impl Fn(&mut [T], &mut usize) -> u8,
) -> Result<Vec<T>, Error> {
    let mut room = vec![T::default(); first];
    loop {
        let mut count = 0;
        let status = call(&mut room, &mut count);
        if status == ffi::NO_ROOM {
            room = vec![T::default(); count];
            continue;
        }
        Error::of(status, count)?;
        room.truncate(count);
        return Ok(room);
    }
}
