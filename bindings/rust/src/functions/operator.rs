//! Functions on any documents.

use crate::call::{all_bytes, always, one, truth, Column};
use crate::children::Node;
use crate::{OwnedJsonb, RawJsonb, Result};
use jdoc_sys as sys;
use std::cmp::Ordering;

/// The names of the types, by the numbers of jdoc.h.
const KINDS: [&str; 12] = [
    "NULL_VALUE",
    "BOOLEAN",
    "INTEGER",
    "DECIMAL",
    "STRING",
    "BINARY",
    "DATE",
    "TIMESTAMP",
    "TIMESTAMP_TZ",
    "INTERVAL",
    "ARRAY",
    "OBJECT",
];

impl RawJsonb<'_> {
    /// The type of the root, a `JDOC_KIND_..`.
    pub(crate) fn kind(&self) -> Result<sys::jdoc_kind> {
        let (d, n) = (self.as_bytes().as_ptr(), self.as_bytes().len());
        one(|kind: *mut u8| unsafe { sys::jdoc_type(d, n, kind) }).map(always).map(sys::jdoc_kind::from)
    }

    /// Returns the name of the root's type, such as `"INTEGER"`.
    pub fn type_of(&self) -> Result<&'static str> {
        self.kind().map(|kind| KINDS[kind as usize])
    }

    /// Returns `true` if the document contains the other, as PostgreSQL's `@>`.
    pub fn contains(&self, other: &RawJsonb) -> Result<bool> {
        let (d, n) = (self.as_bytes().as_ptr(), self.as_bytes().len());
        let (at, len) = (other.as_bytes().as_ptr(), other.as_bytes().len());
        truth(|truth| unsafe { sys::jdoc_contains(d, n, at, len, truth) })
    }

    /// Returns the order of the documents; without extension values it is that of their sortable keys. Does not
    /// allocate.
    pub fn compare(&self, other: &RawJsonb) -> Result<Ordering> {
        let (d, n) = (self.as_bytes().as_ptr(), self.as_bytes().len());
        let (at, len) = (other.as_bytes().as_ptr(), other.as_bytes().len());
        let order = one(|order: *mut i32| unsafe { sys::jdoc_compare(d, n, at, len, order) }).map(always)?;
        Ok(order.cmp(&0))
    }

    /// Returns `true` if `func` is true of any string or key. Checks the whole document.
    pub fn traverse_check_string(&self, func: impl Fn(&[u8]) -> bool) -> Result<bool> {
        let mut unvisited = vec![Node::root(*self)?];
        while let Some(node) = unvisited.pop() {
            let is_string = node.kind() == sys::JDOC_EVENT_STRING;
            if is_string && func(node.bytes()) || node.key().is_some_and(|key| func(key.as_bytes())) {
                return Ok(true);
            }
            unvisited.extend(node.children());
        }
        Ok(false)
    }

    /// Returns the members of two objects, with the other's value if both have a key; otherwise both arrays joined;
    /// a document that is not an array counts as an array of one element.
    pub fn concat(&self, other: &RawJsonb) -> Result<OwnedJsonb> {
        let (at, len) = (other.as_bytes().as_ptr(), other.as_bytes().len());
        self.make(|d, n, out| unsafe { sys::jdoc_concat(d, n, at, len, out.at, out.size, out.len) })
    }

    /// Returns the document without the members whose value is null, at every depth.
    pub fn strip_nulls(&self) -> Result<OwnedJsonb> {
        self.make(|d, n, out| unsafe { sys::jdoc_strip_nulls(d, n, out.at, out.size, out.len) })
    }

    /// Returns the sortable key: bytes that compare as the documents do, if neither contains an extension value.
    ///
    /// # Errors
    ///
    /// `TooDeep`: an item is nested deeper than 255.
    pub fn convert_to_comparable(&self) -> Result<Vec<u8>> {
        self.sortable_key(false)
    }

    /// Returns the sortable key with wide depths, which is not comparable with the other.
    ///
    /// # Errors
    ///
    /// `TooDeep`: an item is nested deeper than 65,535.
    pub fn convert_to_comparable_wide(&self) -> Result<Vec<u8>> {
        self.sortable_key(true)
    }

    fn sortable_key(&self, wide: bool) -> Result<Vec<u8>> {
        self.make(|d, n, out| unsafe { sys::jdoc_sort_key(d, n, wide, out.at, out.size, out.len) })
            .map(OwnedJsonb::to_vec)
    }

    /// Returns bytes that two documents share if and only if they are equal by value.
    pub fn equality_key(&self) -> Result<Vec<u8>> {
        self.make(|d, n, out| unsafe { sys::jdoc_equality_key(d, n, out.at, out.size, out.len) })
            .map(OwnedJsonb::to_vec)
    }
}

/// Returns the composite key of values, of which `None` is missing: bytes that compare as the lists of the values do,
/// without extension values.
///
/// # Errors
///
/// `TooDeep`: an item is nested deeper than 255.
pub fn composite_key(values: &[Option<RawJsonb<'_>>]) -> Result<Vec<u8>> {
    key_of_values(values, false)
}

/// Returns the composite key with wide depths, which is not comparable with the other.
///
/// # Errors
///
/// `TooDeep`: an item is nested deeper than 65,535.
pub fn composite_key_wide(values: &[Option<RawJsonb<'_>>]) -> Result<Vec<u8>> {
    key_of_values(values, true)
}

fn key_of_values(values: &[Option<RawJsonb<'_>>], wide: bool) -> Result<Vec<u8>> {
    let c = Column::of(values.iter().map(|value| value.as_ref().map_or(&[][..], |it| it.as_bytes())));
    let (bytes, offsets) = (c.bytes.as_ptr(), c.offsets.as_ptr());
    all_bytes(c.bytes.len(), |out| unsafe {
        sys::jdoc_composite_key(bytes, c.bytes.len(), offsets, c.offsets.len(), wide, out.at, out.size, out.len)
    })
}
