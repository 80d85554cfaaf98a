//! Calls of the library: buffers that grow, and statuses as results.

use crate::{Error, Result};
use jdoc_sys as sys;
use std::ffi::c_char;

/// The output arguments of a call that writes bytes: a buffer, its size, and the length of the result.
pub(crate) struct Out {
    pub at: *mut u8,
    pub size: usize,
    pub len: *mut usize,
}

impl Out {
    pub fn text(&self) -> *mut c_char {
        self.at.cast()
    }
}

/// The room that a call gets at first, besides the length of its input.
const ROOM: usize = 64;

/// Makes a call that writes bytes, again if its buffer was too small. `None`: there is no result.
pub(crate) fn bytes(room: usize, mut call: impl FnMut(Out) -> u32) -> Result<Option<Vec<u8>>> {
    let mut out: Vec<u8> = Vec::with_capacity(room + ROOM);
    loop {
        let mut len = 0;
        match call(Out { at: out.as_mut_ptr(), size: out.capacity(), len: &mut len }) {
            sys::JDOC_OK => {
                // SAFETY: that many bytes were written, into this capacity.
                unsafe { out.set_len(len) };
                return Ok(Some(out));
            }
            sys::JDOC_NONE => return Ok(None),
            sys::JDOC_BUFFER_TOO_SMALL => out.reserve_exact(len),
            status => return Err(Error::of(status)),
        }
    }
}

/// Makes a call that writes bytes and has a result if it does not fail.
pub(crate) fn all_bytes(room: usize, call: impl FnMut(Out) -> u32) -> Result<Vec<u8>> {
    bytes(room, call).map(always)
}

/// Makes a call that writes one value. `None`: there is no result.
pub(crate) fn one<T: Default>(call: impl FnOnce(*mut T) -> u32) -> Result<Option<T>> {
    let mut value = T::default();
    match call(&mut value) {
        sys::JDOC_OK => Ok(Some(value)),
        sys::JDOC_NONE => Ok(None),
        status => Err(Error::of(status)),
    }
}

/// Makes a call that writes a Boolean.
pub(crate) fn truth(call: impl FnOnce(*mut u8) -> u32) -> Result<bool> {
    one(call).map(always).map(|truth| truth == 1)
}

/// Makes a call that only has a status.
pub(crate) fn done(status: u32) -> Result<()> {
    match status {
        sys::JDOC_OK => Ok(()),
        status => Err(Error::of(status)),
    }
}

/// The result of a call that never returns `JDOC_NONE`.
pub(crate) fn always<T>(result: Option<T>) -> T {
    result.expect("this call always has a result")
}

/// A pointer to a string in C.
pub(crate) fn at(text: &[u8]) -> *const c_char {
    text.as_ptr().cast()
}

/// Strings or documents one after the other, and the offsets between them.
pub(crate) struct Column {
    pub bytes: Vec<u8>,
    pub offsets: Vec<u64>,
}

impl Column {
    pub fn of<'a>(rows: impl IntoIterator<Item = &'a [u8]>) -> Column {
        let mut column = Column { bytes: Vec::new(), offsets: vec![0] };
        for row in rows {
            column.bytes.extend_from_slice(row);
            column.offsets.push(column.bytes.len() as u64);
        }
        column
    }

    pub fn of_names<'a>(names: impl IntoIterator<Item = &'a str>) -> Column {
        Column::of(names.into_iter().map(str::as_bytes))
    }
}
