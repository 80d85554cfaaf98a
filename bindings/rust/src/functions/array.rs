//! Functions on arrays. In the four set functions, a root that is not an array counts as an array of one element.

use crate::call::{one, truth};
use crate::children::Node;
use crate::{OwnedJsonb, RawJsonb, Result};
use jdoc_sys as sys;

impl RawJsonb<'_> {
    /// Returns the number of elements; `None` if the root is not an array.
    pub fn array_length(&self) -> Result<Option<usize>> {
        let (d, n) = (self.as_bytes().as_ptr(), self.as_bytes().len());
        if !self.is_array()? {
            return Ok(None);
        }
        one(|len| unsafe { sys::jdoc_len(d, n, len) })
    }

    /// Returns each element as a document; `None` if the root is not an array. Checks the whole document.
    pub fn array_values(&self) -> Result<Option<Vec<OwnedJsonb>>> {
        let root = Node::root(*self)?;
        Ok(root.is_array().then(|| root.children().map(Node::to_document).collect()))
    }

    /// Returns the first of each group of elements that are equal by value.
    pub fn array_distinct(&self) -> Result<OwnedJsonb> {
        self.make(|d, n, out| unsafe { sys::jdoc_array_distinct(d, n, out.at, out.size, out.len) })
    }

    /// Returns the elements that both arrays have, each as often as both have it.
    pub fn array_intersection(&self, other: &RawJsonb) -> Result<OwnedJsonb> {
        let (at, len) = (other.as_bytes().as_ptr(), other.as_bytes().len());
        self.make(|d, n, out| unsafe { sys::jdoc_array_intersection(d, n, at, len, out.at, out.size, out.len) })
    }

    /// Returns the elements that are not in the intersection.
    pub fn array_except(&self, other: &RawJsonb) -> Result<OwnedJsonb> {
        let (at, len) = (other.as_bytes().as_ptr(), other.as_bytes().len());
        self.make(|d, n, out| unsafe { sys::jdoc_array_except(d, n, at, len, out.at, out.size, out.len) })
    }

    /// Returns `true` if the intersection has an element.
    pub fn array_overlap(&self, other: &RawJsonb) -> Result<bool> {
        let (d, n) = (self.as_bytes().as_ptr(), self.as_bytes().len());
        let (at, len) = (other.as_bytes().as_ptr(), other.as_bytes().len());
        truth(|truth| unsafe { sys::jdoc_array_overlap(d, n, at, len, truth) })
    }

    /// Returns the array with a value before a position, which counts from the end if it is negative.
    pub fn array_insert(&self, pos: i32, new_val: &RawJsonb) -> Result<OwnedJsonb> {
        let (at, len) = (new_val.as_bytes().as_ptr(), new_val.as_bytes().len());
        self.make(|d, n, out| unsafe { sys::jdoc_array_insert(d, n, at, len, pos, out.at, out.size, out.len) })
    }
}
