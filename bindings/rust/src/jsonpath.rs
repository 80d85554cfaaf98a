//! JSON paths, parsed once, and the Selector, which evaluates them (docs/PATHS.md).

use crate::call::{all_bytes, at, bytes, done, one, truth, Out};
use crate::children::Node;
use crate::{Error, OwnedJsonb, RawJsonb, Result};
use jdoc_sys as sys;
use std::cell::{Cell, UnsafeCell};
use std::fmt;
use std::ptr;

/// A JSON path, such as `$.phones[*]?(@.type == "home")`, as the library parsed it. It prints as its text.
///
/// It can be sent to another thread, and used by one at a time: a path is not `Sync`, because calls on one path must
/// not overlap.
///
/// ```compile_fail
/// fn shared<T: Sync>() {}
/// shared::<jsonb_paths::JsonPath<'static>>();
/// ```
///
/// ```
/// fn sent<T: Send>() {}
/// sent::<jsonb_paths::JsonPath<'static>>();
/// ```
pub struct JsonPath<'a> {
    text: &'a str,
    path: UnsafeCell<sys::jdoc_path>,
    /// The limit that the path has in the library.
    limit: Cell<u64>,
}

// SAFETY: the library lets another thread use and free a path after an ordering, and every way to send a value is one.
// Without `Sync`, calls on the path cannot overlap.
unsafe impl Send for JsonPath<'_> {}

/// Parses a JSON path.
///
/// # Errors
///
/// `InvalidJsonPath`: the text is not one.
pub fn parse_json_path(input: &[u8]) -> Result<JsonPath<'_>> {
    let text = std::str::from_utf8(input).map_err(|_| Error::InvalidJsonPath)?;
    let mut path = sys::jdoc_path { at: ptr::null_mut(), is_there: false };
    // SAFETY: the slice is a pointer and its length, and a struct of zeros contains no path.
    done(unsafe { sys::jdoc_path_read(at(input), input.len(), &mut path) })?;
    Ok(JsonPath { text, path: UnsafeCell::new(path), limit: Cell::new(u64::MAX) })
}

/// Returns the byte at which text is not a JSON path (docs/PATHS.md), or `None` if it is one.
///
/// # Errors
///
/// `OutOfMemory`.
///
/// ```
/// # use jsonb_paths::json_path_error_position;
/// assert_eq!(json_path_error_position(b"$.price > 9.99"), Ok(Some(11)));
/// assert_eq!(json_path_error_position(b"$.price > 9"), Ok(None));
/// ```
pub fn json_path_error_position(input: &[u8]) -> Result<Option<usize>> {
    // SAFETY: the slice is a pointer and its length.
    one(|position| unsafe { sys::jdoc_path_error_position(at(input), input.len(), position) })
}

impl<'a> JsonPath<'a> {
    /// The text that was parsed.
    pub fn text(&self) -> &'a str {
        self.text
    }

    /// Returns `true` if the path is one expression, such as `$.a == 1` or `$.a + 1`, and not a list of steps.
    pub fn is_predicate(&self) -> bool {
        // No bytes are not a document, which only an expression reads: another path is unknown on any bytes.
        Selector::new(RawJsonb::new(&[])).predicate_match(self).is_err()
    }
}

impl Drop for JsonPath<'_> {
    fn drop(&mut self) {
        // SAFETY: the struct contains a path, which nothing uses any more.
        unsafe { sys::jdoc_path_free(self.path.get()) }
    }
}

/// Parses the text again. Panics if an allocation of the library fails.
impl Clone for JsonPath<'_> {
    fn clone(&self) -> Self {
        parse_json_path(self.text.as_bytes()).expect("the text is a path")
    }
}

impl fmt::Display for JsonPath<'_> {
    fn fmt(&self, f: &mut fmt::Formatter<'_>) -> fmt::Result {
        f.write_str(self.text)
    }
}

impl fmt::Debug for JsonPath<'_> {
    fn fmt(&self, f: &mut fmt::Formatter<'_>) -> fmt::Result {
        f.debug_tuple("JsonPath").field(&self.text).finish()
    }
}

/// Evaluates JSON paths on a document.
///
/// Each call fails with `InvalidJsonPath` if the path cannot be evaluated on the document, with `Arithmetic` if an
/// operation has no result, and in strict mode with `StrictPath`.
#[derive(Clone, Debug)]
pub struct Selector<'a> {
    root: RawJsonb<'a>,
    strict: bool,
    limit: u64,
}

type SelectBytes = unsafe extern "C" fn(*mut sys::jdoc_path, *const u8, usize, bool, *mut u8, usize, *mut usize) -> u32;
type SelectTruth = unsafe extern "C" fn(*mut sys::jdoc_path, *const u8, usize, bool, *mut u8) -> u32;

impl<'a> Selector<'a> {
    /// A selector in lax mode: a step that does not apply to an item selects nothing.
    pub fn new(root_jsonb: RawJsonb<'a>) -> Selector<'a> {
        Selector { root: root_jsonb, strict: false, limit: u64::MAX }
    }

    /// A selector in strict mode: a step that does not apply to an item is an error.
    pub fn new_strict(root_jsonb: RawJsonb<'a>) -> Selector<'a> {
        Selector { root: root_jsonb, strict: true, limit: u64::MAX }
    }

    /// Limits the items of paths from untrusted sources: a call fails with `LimitExceeded` if and only if
    /// [`Selector::most_items`] of its path is above the limit. `u64::MAX` limits nothing. With a limit each call first
    /// visits the whole document, which has to be one.
    ///
    /// ```
    /// # use jsonb_paths::{parse_json_path, parse_value, Error, Selector};
    /// let document = parse_value(b"[[[[[1]]]]]").unwrap().to_vec();
    /// let path = parse_json_path(b"$.**.**.**").unwrap();
    /// let mut selector = Selector::new(jsonb_paths::RawJsonb::new(&document)).with_limit(400);
    /// assert_eq!(selector.most_items(&path), Ok(431));
    /// assert_eq!(selector.exists(&path), Err(Error::LimitExceeded));
    /// ```
    #[must_use]
    pub fn with_limit(self, limit: u64) -> Selector<'a> {
        Selector { limit, ..self }
    }

    /// Returns the bound of the path on the document: at most how many items it lists, and how many values its filters
    /// compare (docs/PATHS.md).
    pub fn most_items(&self, json_path: &JsonPath<'_>) -> Result<u64> {
        let document = self.root.as_bytes();
        let mut bound = 0;
        // SAFETY: as in `write`.
        done(unsafe {
            sys::jdoc_path_most_items(json_path.path.get(), document.as_ptr(), document.len(), &mut bound)
        })?;
        Ok(bound)
    }

    /// Returns each item that the path selects as a document, in order, with repeats.
    pub fn select_values(&mut self, json_path: &JsonPath<'_>) -> Result<Vec<OwnedJsonb>> {
        let array = self.select_array(json_path)?;
        Ok(Node::root(array.as_raw())?.children().map(Node::to_document).collect())
    }

    /// Returns an array of all items that the path selects.
    pub fn select_array(&mut self, json_path: &JsonPath<'_>) -> Result<OwnedJsonb> {
        let call = |out: Out| self.write(json_path, sys::jdoc_path_select_array, out);
        all_bytes(self.root.as_bytes().len(), call).map(OwnedJsonb::new)
    }

    /// Returns the first item that the path selects.
    pub fn select_first(&mut self, json_path: &JsonPath<'_>) -> Result<Option<OwnedJsonb>> {
        let call = |out: Out| self.write(json_path, sys::jdoc_path_select_first, out);
        Ok(bytes(self.root.as_bytes().len(), call)?.map(OwnedJsonb::new))
    }

    /// Returns the only item that the path selects, or an array of several.
    pub fn select_value(&mut self, json_path: &JsonPath<'_>) -> Result<Option<OwnedJsonb>> {
        let call = |out: Out| self.write(json_path, sys::jdoc_path_select_value, out);
        Ok(bytes(self.root.as_bytes().len(), call)?.map(OwnedJsonb::new))
    }

    /// Returns `true` if the path selects an item.
    pub fn exists(&mut self, json_path: &JsonPath<'_>) -> Result<bool> {
        truth(|it| self.decide(json_path, sys::jdoc_path_exists, it))
    }

    /// Returns the result of a predicate; `None` if it is unknown or the path is not a predicate.
    pub fn predicate_match(&mut self, json_path: &JsonPath<'_>) -> Result<Option<bool>> {
        Ok(match one(|it| self.decide(json_path, sys::jdoc_path_match, it))? {
            Some(0) => Some(false),
            Some(1) => Some(true),
            _ => None,
        })
    }

    /// Returns the path with the limit of this selector.
    fn limited(&self, path: &JsonPath<'_>) -> *mut sys::jdoc_path {
        if path.limit.replace(self.limit) != self.limit {
            // SAFETY: as in `write`. It fails only without a path, and then the call that follows fails too.
            let _ = unsafe { sys::jdoc_path_limit(path.path.get(), self.limit) };
        }
        path.path.get()
    }

    fn write(&self, path: &JsonPath<'_>, call: SelectBytes, out: Out) -> u32 {
        let document = self.root.as_bytes();
        // SAFETY: the path is there, and calls on it do not overlap, since it is not `Sync` and the library calls
        // nothing back. A slice is a pointer and its length, and an `Out` a buffer of its size.
        unsafe { call(self.limited(path), document.as_ptr(), document.len(), self.strict, out.at, out.size, out.len) }
    }

    fn decide(&self, path: &JsonPath<'_>, call: SelectTruth, truth: *mut u8) -> u32 {
        let document = self.root.as_bytes();
        // SAFETY: as in `write`.
        unsafe { call(self.limited(path), document.as_ptr(), document.len(), self.strict, truth) }
    }
}

/// Appends the items that a path selects to `data`, one after the other, and the position of the end of each to
/// `offsets`.
///
/// Errors: as those of a `Selector` in lax mode. Nothing is appended then.
pub fn get_by_path(value: &[u8], json_path: JsonPath<'_>, data: &mut Vec<u8>, offsets: &mut Vec<u64>) -> Result<()> {
    for item in Selector::new(RawJsonb::new(value)).select_values(&json_path)? {
        data.extend_from_slice(item.as_ref());
        offsets.push(data.len() as u64);
    }
    Ok(())
}
