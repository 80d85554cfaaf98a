//! JSON text, by the reader and writer of all bindings (jdoc_text.h): numbers are exact, and neither recurses.

use crate::call::done;
use crate::{from_slice, Error, OwnedJsonb, RawJsonb, Result, Value};
use jdoc_sys as sys;
use std::ffi::c_void;
use std::fmt;
use std::mem::MaybeUninit;
use std::ptr;
use std::str::FromStr;

extern "C" {
    fn realloc(piece: *mut c_void, size: usize) -> *mut c_void;
    fn free(piece: *mut c_void);
}

const HEAP: sys::jdoc_heap = sys::jdoc_heap { resize: Some(realloc), release: Some(free) };

/// A tape of events, freed at the end.
struct Tape(sys::jdoc_tape);

impl Tape {
    fn new() -> Tape {
        let mut tape = MaybeUninit::zeroed();
        // SAFETY: a struct of zeros is valid, and the call sets it up.
        unsafe {
            sys::jdoc_tape_init(tape.as_mut_ptr(), HEAP, 0);
            Tape(tape.assume_init())
        }
    }

    /// Reads JSON text and writes its document.
    fn document(&mut self, text: &[u8]) -> Result<OwnedJsonb> {
        let at = text.as_ptr().cast();
        // SAFETY: the slice is a pointer and its length, and the buffer has the size of the document.
        unsafe {
            done(sys::jdoc_read_text(&mut self.0, at, text.len()))?;
            let size = sys::jdoc_tape_size(&mut self.0);
            let mut out = Vec::with_capacity(size);
            done(sys::jdoc_write_read(&mut self.0, at, text.len(), out.as_mut_ptr()))?;
            out.set_len(size);
            Ok(OwnedJsonb::new(out))
        }
    }
}

impl Drop for Tape {
    fn drop(&mut self) {
        // SAFETY: the tape was set up, and nothing uses it any more.
        unsafe { sys::jdoc_tape_free(&mut self.0) }
    }
}

/// Text that is being written, freed at the end.
struct Buffer(sys::jdoc_buffer);

impl Drop for Buffer {
    fn drop(&mut self) {
        // SAFETY: the bytes are a piece of the heap, or null.
        unsafe { free(self.0.bytes.cast()) }
    }
}

impl FromStr for OwnedJsonb {
    type Err = Error;

    /// Reads JSON text.
    ///
    /// # Errors
    ///
    /// `InvalidJson`, `UnsupportedNumber` (no 128-bit decimal equals a number), `ObjectDuplicateKey`, `NotUtf8` (an
    /// escape is half of a surrogate pair), `TooLarge`.
    fn from_str(text: &str) -> Result<OwnedJsonb> {
        Tape::new().document(text.as_bytes())
    }
}

impl RawJsonb<'_> {
    /// Returns the document as JSON text, without spaces.
    ///
    /// # Errors
    ///
    /// `InvalidJsonType`: the document is or contains an extension value.
    pub fn to_json(&self) -> Result<String> {
        let bytes = self.as_bytes();
        let mut out = Buffer(sys::jdoc_buffer { heap: HEAP, bytes: ptr::null_mut(), len: 0, size: 0 });
        // SAFETY: the slice is a pointer and its length, and the buffer has `len` bytes of a document that was checked.
        unsafe {
            done(sys::jdoc_write_text(&mut out.0, bytes.as_ptr(), bytes.len(), 0))?;
            let text = std::slice::from_raw_parts(out.0.bytes.cast::<u8>(), out.0.len);
            Ok(String::from_utf8_lossy(text).into_owned())
        }
    }
}

/// Writes JSON text. Bytes that do not decode, and extension values, are an error of formatting, on which `to_string`
/// panics.
impl fmt::Display for RawJsonb<'_> {
    fn fmt(&self, f: &mut fmt::Formatter<'_>) -> fmt::Result {
        f.pad(&self.to_json().map_err(|_| fmt::Error)?)
    }
}

/// Writes JSON text, as a `RawJsonb`.
impl fmt::Display for OwnedJsonb {
    fn fmt(&self, f: &mut fmt::Formatter<'_>) -> fmt::Result {
        self.as_raw().fmt(f)
    }
}

/// Returns the byte at which JSON text is an error of `parse_value`, or `None` if a document is read from it. `TooDeep`
/// has no position.
///
/// # Panics
///
/// If an allocation fails.
///
/// ```
/// # use jsonb_paths::json_text_error_position;
/// assert_eq!(json_text_error_position(b"{\"a\":1,}"), Some(7));
/// assert_eq!(json_text_error_position(b"{\"a\":1}"), None);
/// ```
pub fn json_text_error_position(buf: &[u8]) -> Option<usize> {
    let mut tape = Tape::new();
    match tape.document(buf) {
        Ok(_) => None,
        Err(Error::OutOfMemory) => panic!("an allocation failed"),
        Err(_) => Some(tape.0.at),
    }
}

/// Reads JSON text and decodes it.
///
/// # Errors
///
/// As of the text of an `OwnedJsonb`, and `TooDeep` as `from_slice`.
pub fn parse_value(buf: &[u8]) -> Result<Value<'static>> {
    let document = Tape::new().document(buf)?;
    from_slice(document.as_ref())?.into_static()
}

/// Returns a document as JSON text. `RawJsonb::to_json` returns an error instead of a panic.
///
/// # Panics
///
/// If the bytes do not decode, or contain an extension value.
pub fn to_string(value: &[u8]) -> String {
    RawJsonb::new(value).to_json().expect("the document is JSON")
}
