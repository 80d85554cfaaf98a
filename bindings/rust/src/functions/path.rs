//! Functions that take an index, a name, a key path or a JSON path.

use crate::call::{at, truth, Column};
use crate::children::Node;
use crate::keypath::text_of;
use crate::{JsonPath, KeyPath, KeyPaths, OwnedJsonb, RawJsonb, Result, Selector, Value};
use jdoc_sys as sys;
use std::borrow::Cow;

impl<'d> RawJsonb<'d> {
    /// Returns the element of an array; `None` if there is none or the root is not an array.
    pub fn get_by_index(&self, index: usize) -> Result<Option<OwnedJsonb>> {
        self.find(|d, n, out| unsafe { sys::jdoc_get_by_index(d, n, index, out.at, out.size, out.len) })
    }

    /// Returns the value of a key; with `ignore_case`, if the exact key is missing, of the first key that is equal if
    /// the case of ASCII letters is ignored. `None` if there is none or the root is not an object.
    pub fn get_by_name(&self, name: &str, ignore_case: bool) -> Result<Option<OwnedJsonb>> {
        let (name, len) = (at(name.as_bytes()), name.len());
        self.find(|d, n, out| unsafe { sys::jdoc_get_by_name(d, n, name, len, ignore_case, out.at, out.size, out.len) })
    }

    /// Returns the value at a key path; `None` if there is none.
    ///
    /// # Errors
    ///
    /// `InvalidKeyPath`: a name is empty, so that the path has no text. `get_by_name` takes an empty name.
    pub fn get_by_keypath<'a, I: Iterator<Item = &'a KeyPath<'a>>>(&self, keypaths: I) -> Result<Option<OwnedJsonb>> {
        let path = text_of(keypaths);
        let (path, len) = (at(path.as_bytes()), path.len());
        self.find(|d, n, out| unsafe { sys::jdoc_get_by_keypath(d, n, path, len, out.at, out.size, out.len) })
    }

    /// Returns each item that a path selects as a document, in order, with repeats.
    ///
    /// # Errors
    ///
    /// `InvalidJsonPath`: the path cannot be evaluated on the document. `Arithmetic`: an operation has no result.
    pub fn select_by_path<'a>(&self, json_path: &'a JsonPath<'a>) -> Result<Vec<OwnedJsonb>> {
        Selector::new(*self).select_values(json_path)
    }

    /// Returns an array of all items that a path selects. Errors: as `select_by_path`.
    pub fn select_array_by_path<'a>(&self, json_path: &'a JsonPath<'a>) -> Result<OwnedJsonb> {
        Selector::new(*self).select_array(json_path)
    }

    /// Returns the first item that a path selects. Errors: as `select_by_path`.
    pub fn select_first_by_path<'a>(&self, json_path: &'a JsonPath<'a>) -> Result<Option<OwnedJsonb>> {
        Selector::new(*self).select_first(json_path)
    }

    /// Returns the only item that a path selects, or an array of several. Errors: as `select_by_path`.
    pub fn select_value_by_path<'a>(&self, json_path: &'a JsonPath<'a>) -> Result<Option<OwnedJsonb>> {
        Selector::new(*self).select_value(json_path)
    }

    /// Returns `true` if a path selects an item. Errors: as `select_by_path`.
    pub fn path_exists<'a>(&self, json_path: &'a JsonPath<'a>) -> Result<bool> {
        Selector::new(*self).exists(json_path)
    }

    /// Returns the result of a predicate; `None` if it is unknown or the path is not a predicate. Errors: as
    /// `select_by_path`.
    pub fn path_match<'a>(&self, json_path: &'a JsonPath<'a>) -> Result<Option<bool>> {
        Selector::new(*self).predicate_match(json_path)
    }

    /// Returns the array without an element, counted from the end if the index is negative.
    ///
    /// # Errors
    ///
    /// `InvalidJsonType`: the root is not an array.
    pub fn delete_by_index(&self, index: i32) -> Result<OwnedJsonb> {
        self.make(|d, n, out| unsafe { sys::jdoc_delete_by_index(d, n, index, out.at, out.size, out.len) })
    }

    /// Returns the object without a key, or the array without the strings that are equal to the name.
    ///
    /// # Errors
    ///
    /// `InvalidJsonType`: the root is neither.
    pub fn delete_by_name(&self, name: &str) -> Result<OwnedJsonb> {
        let (name, len) = (at(name.as_bytes()), name.len());
        self.make(|d, n, out| unsafe { sys::jdoc_delete_by_name(d, n, name, len, out.at, out.size, out.len) })
    }

    /// Returns the document without the value at a key path; unchanged if there is none.
    ///
    /// # Errors
    ///
    /// `InvalidJsonType`: the root is null, a Boolean, a number or a string. `InvalidKeyPath`: a name is empty.
    pub fn delete_by_keypath<'a, I: Iterator<Item = &'a KeyPath<'a>>>(&self, keypath: I) -> Result<OwnedJsonb> {
        let path = text_of(keypath);
        let (path, len) = (at(path.as_bytes()), path.len());
        self.make(|d, n, out| unsafe { sys::jdoc_delete_by_keypath(d, n, path, len, out.at, out.size, out.len) })
    }

    /// Returns `true` if each name is a key of an object, a string in an array, or equal to a string.
    pub fn exists_all_keys<'a, I: Iterator<Item = &'a str>>(&self, keys: I) -> Result<bool> {
        let (d, n, c) = (self.as_bytes().as_ptr(), self.as_bytes().len(), Column::of_names(keys));
        let (names, offsets) = (at(&c.bytes), c.offsets.as_ptr());
        truth(|it| unsafe { sys::jdoc_exists_all_keys(d, n, names, c.bytes.len(), offsets, c.offsets.len(), it) })
    }

    /// Returns `true` if one of the names is a key of an object, a string in an array, or equal to a string.
    pub fn exists_any_keys<'a, I: Iterator<Item = &'a str>>(&self, keys: I) -> Result<bool> {
        let (d, n, c) = (self.as_bytes().as_ptr(), self.as_bytes().len(), Column::of_names(keys));
        let (names, offsets) = (at(&c.bytes), c.offsets.as_ptr());
        truth(|it| unsafe { sys::jdoc_exists_any_keys(d, n, names, c.bytes.len(), offsets, c.offsets.len(), it) })
    }

    /// Returns each leaf with its key path, in stored order: scalars, empty arrays and empty objects below the root.
    /// With `ignore_array` every array is a leaf, and a root that is an array has none. Checks the whole document.
    ///
    /// # Errors
    ///
    /// `TooDeep`: with `ignore_array`, an array is nested deeper than `from_slice` allows.
    pub fn extract_scalar_key_values(&self, ignore_array: bool) -> Result<Vec<(KeyPaths<'d>, Value<'d>)>> {
        let root = Node::root(*self)?;
        let mut leaves = Vec::new();
        if root.is_array() && ignore_array {
            return Ok(leaves);
        }
        let mut paths = Vec::new();
        let mut levels = vec![root.children().enumerate()];
        while let Some(level) = levels.last_mut() {
            let Some((index, node)) = level.next() else {
                levels.pop();
                paths.pop();
                continue;
            };
            paths.push(node.key().map_or(KeyPath::Index(index as i32), |key| KeyPath::Name(Cow::Borrowed(key))));
            let mut children = node.children().enumerate().peekable();
            if node.is_array() && ignore_array || children.peek().is_none() {
                leaves.push((KeyPaths { paths: paths.clone() }, Value::of_node(node)?));
                paths.pop();
            } else {
                levels.push(node.children().enumerate());
            }
        }
        Ok(leaves)
    }
}
