//! Documents, borrowed and owned.

use crate::call::{all_bytes, at, done, Column, Out};
use crate::{Error, Number, Result};
use jdoc_sys as sys;

/// A borrowed document. The bytes need not decode; `check` decides that.
#[derive(Clone, Copy, Debug)]
pub struct RawJsonb<'a>(&'a [u8]);

/// An owned document. `==` compares bytes; two documents are equal by value if and only if their `equality_key`s are
/// equal.
#[derive(Clone, Debug, PartialEq, Eq)]
pub struct OwnedJsonb(Vec<u8>);

impl<'a> RawJsonb<'a> {
    /// Borrows bytes, unchecked.
    pub fn new(bytes: &'a [u8]) -> RawJsonb<'a> {
        RawJsonb(bytes)
    }

    /// Returns the bytes.
    pub fn as_bytes(&self) -> &'a [u8] {
        self.0
    }

    /// Returns the number of bytes.
    pub fn len(&self) -> usize {
        self.0.len()
    }

    /// Returns `true` if there are no bytes, which are not a document.
    pub fn is_empty(&self) -> bool {
        self.0.is_empty()
    }

    /// Decodes the document like `from_slice`.
    pub fn to_value(&self) -> Result<crate::Value<'a>> {
        crate::from_slice(self.0)
    }

    /// Returns `Ok` if and only if the bytes decode.
    pub fn check(&self) -> Result<()> {
        // SAFETY: the slice is a pointer and its length.
        done(unsafe { sys::jdoc_check(self.0.as_ptr(), self.0.len()) })
    }

    /// A copy of the document.
    pub fn to_owned(&self) -> OwnedJsonb {
        OwnedJsonb(self.0.to_vec())
    }

    pub(crate) fn find(&self, mut call: impl FnMut(*const u8, usize, Out) -> u32) -> Result<Option<OwnedJsonb>> {
        let found = crate::call::bytes(self.0.len(), |out| call(self.0.as_ptr(), self.0.len(), out))?;
        Ok(found.map(OwnedJsonb))
    }

    pub(crate) fn make(&self, mut call: impl FnMut(*const u8, usize, Out) -> u32) -> Result<OwnedJsonb> {
        all_bytes(self.0.len(), |out| call(self.0.as_ptr(), self.0.len(), out)).map(OwnedJsonb)
    }
}

// SAFETY of all calls: a slice is a pointer and its length, and an `Out` is a buffer of its size.
impl OwnedJsonb {
    /// Takes ownership of the bytes, unchecked.
    pub fn new(bytes: Vec<u8>) -> OwnedJsonb {
        OwnedJsonb(bytes)
    }

    /// Borrows the document, for the functions of a `RawJsonb`.
    pub fn as_raw(&self) -> RawJsonb<'_> {
        RawJsonb(&self.0)
    }

    /// Consumes the document and returns its bytes.
    pub fn to_vec(self) -> Vec<u8> {
        self.0
    }

    /// Creates a null.
    pub fn from_null() -> Result<OwnedJsonb> {
        all_bytes(0, |out| unsafe { sys::jdoc_from_null(out.at, out.size, out.len) }).map(OwnedJsonb)
    }

    /// Creates a Boolean.
    pub fn from_bool(value: bool) -> Result<OwnedJsonb> {
        all_bytes(0, |out| unsafe { sys::jdoc_from_bool(value, out.at, out.size, out.len) }).map(OwnedJsonb)
    }

    /// Creates a number. A zero is stored as an integer.
    pub fn from_number(value: &Number) -> Result<OwnedJsonb> {
        let (high, low, scale) = value.parts();
        let call = |out: Out| unsafe {
            match *value {
                Number::Int64(value) => sys::jdoc_from_i64(value, out.at, out.size, out.len),
                Number::UInt64(value) => sys::jdoc_from_u64(value, out.at, out.size, out.len),
                _ => sys::jdoc_from_decimal(high, low, scale, out.at, out.size, out.len),
            }
        };
        all_bytes(0, call).map(OwnedJsonb)
    }

    /// Creates a string.
    pub fn from_text(text: &str) -> Result<OwnedJsonb> {
        let (start, len) = (at(text.as_bytes()), text.len());
        all_bytes(len, |out| unsafe { sys::jdoc_from_str(start, len, out.at, out.size, out.len) }).map(OwnedJsonb)
    }

    /// Creates an array of documents.
    pub fn array_of<'a>(documents: impl IntoIterator<Item = RawJsonb<'a>>) -> Result<OwnedJsonb> {
        let c = Column::of(documents.into_iter().map(|document| document.0));
        let call = |out: Out| unsafe {
            let (bytes, offsets) = (c.bytes.as_ptr(), c.offsets.as_ptr());
            sys::jdoc_array_from_column(bytes, c.bytes.len(), offsets, c.offsets.len(), out.at, out.size, out.len)
        };
        all_bytes(c.bytes.len(), call).map(OwnedJsonb)
    }

    /// Creates an object of keys and documents, in any order.
    ///
    /// # Errors
    ///
    /// `ObjectDuplicateKey`: a key occurs twice.
    pub fn object_of<'a>(members: impl IntoIterator<Item = (&'a str, RawJsonb<'a>)>) -> Result<OwnedJsonb> {
        let (keys, values): (Vec<&str>, Vec<&[u8]>) = members.into_iter().map(|(key, value)| (key, value.0)).unzip();
        let (k, v) = (Column::of_names(keys), Column::of(values));
        let call = |out: Out| unsafe {
            sys::jdoc_object_from_columns(
                at(&k.bytes),
                k.bytes.len(),
                k.offsets.as_ptr(),
                k.offsets.len(),
                v.bytes.as_ptr(),
                v.bytes.len(),
                v.offsets.as_ptr(),
                v.offsets.len(),
                out.at,
                out.size,
                out.len,
            )
        };
        all_bytes(k.bytes.len() + v.bytes.len(), call).map(OwnedJsonb)
    }
}

impl AsRef<[u8]> for OwnedJsonb {
    fn as_ref(&self) -> &[u8] {
        &self.0
    }
}

impl AsRef<[u8]> for RawJsonb<'_> {
    fn as_ref(&self) -> &[u8] {
        self.0
    }
}

impl TryFrom<&crate::Value<'_>> for OwnedJsonb {
    type Error = Error;

    fn try_from(value: &crate::Value<'_>) -> Result<OwnedJsonb> {
        value.to_document()
    }
}
