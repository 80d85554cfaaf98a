//! Functions on objects.

use crate::call::{at, Column};
use crate::children::Node;
use crate::{OwnedJsonb, RawJsonb, Result};
use jdoc_sys as sys;
use std::collections::BTreeSet;

impl RawJsonb<'_> {
    /// Returns an array of the keys; `None` if the root is not an object. Checks the whole document.
    pub fn object_keys(&self) -> Result<Option<OwnedJsonb>> {
        let root = Node::root(*self)?;
        if !root.is_object() {
            return Ok(None);
        }
        let keys: Vec<OwnedJsonb> =
            root.children().filter_map(|it| it.key()).map(OwnedJsonb::from_text).collect::<Result<_>>()?;
        OwnedJsonb::array_of(keys.iter().map(OwnedJsonb::as_raw)).map(Some)
    }

    /// Returns each key with its value; `None` if the root is not an object. Checks the whole document.
    pub fn object_each(&self) -> Result<Option<Vec<(String, OwnedJsonb)>>> {
        let root = Node::root(*self)?;
        let members = || root.children().filter_map(|it| Some((it.key()?.to_string(), it.to_document()))).collect();
        Ok(root.is_object().then(members))
    }

    /// Returns the object with a member added, or replaced if `update_flag`.
    ///
    /// # Errors
    ///
    /// `InvalidObject`: the root is not an object. `ObjectDuplicateKey`: the key exists and `update_flag` is `false`.
    pub fn object_insert(&self, new_key: &str, new_val: &RawJsonb, update_flag: bool) -> Result<OwnedJsonb> {
        let (value, value_len) = (new_val.as_bytes().as_ptr(), new_val.as_bytes().len());
        let (key, key_len) = (at(new_key.as_bytes()), new_key.len());
        self.make(|d, n, out| unsafe {
            sys::jdoc_object_insert(d, n, value, value_len, key, key_len, update_flag, out.at, out.size, out.len)
        })
    }

    /// Returns the members whose keys are not among `keys`.
    ///
    /// # Errors
    ///
    /// `InvalidObject`: the root is not an object.
    pub fn object_delete(&self, keys: &BTreeSet<&str>) -> Result<OwnedJsonb> {
        let c = Column::of_names(keys.iter().copied());
        let (names, offsets) = (at(&c.bytes), c.offsets.as_ptr());
        self.make(|d, n, out| unsafe {
            sys::jdoc_object_delete(d, n, names, c.bytes.len(), offsets, c.offsets.len(), out.at, out.size, out.len)
        })
    }

    /// Returns the members whose keys are among `keys`.
    ///
    /// # Errors
    ///
    /// `InvalidObject`: the root is not an object.
    pub fn object_pick(&self, keys: &BTreeSet<&str>) -> Result<OwnedJsonb> {
        let c = Column::of_names(keys.iter().copied());
        let (names, offsets) = (at(&c.bytes), c.offsets.as_ptr());
        self.make(|d, n, out| unsafe {
            sys::jdoc_object_pick(d, n, names, c.bytes.len(), offsets, c.offsets.len(), out.at, out.size, out.len)
        })
    }
}
