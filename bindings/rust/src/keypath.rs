//! Key paths: their text, their steps, and their printed form (docs/PATHS.md).

use crate::call::{at, done, one};
use crate::{Error, OwnedJsonb, RawJsonb, Result};
use jdoc_sys as sys;
use std::borrow::Cow;
use std::cell::UnsafeCell;
use std::fmt::{Display, Formatter, Write};
use std::ptr;

/// A key path, such as `{phones,0,"a b"}`.
#[derive(Debug, Clone, Eq, PartialEq, Hash)]
pub struct KeyPaths<'a> {
    /// The steps.
    pub paths: Vec<KeyPath<'a>>,
}

/// A step of a key path.
#[derive(Debug, Clone, Eq, PartialEq, Hash)]
pub enum KeyPath<'a> {
    /// An element of an array, counted from the end if negative; of an object, the key of that decimal text.
    Index(i32),
    /// A key of an object that was written between quotes.
    QuotedName(Cow<'a, str>),
    /// A key of an object.
    Name(Cow<'a, str>),
}

/// A key path that owns its names.
#[derive(Debug, Clone, Eq, PartialEq, Hash)]
pub struct OwnedKeyPaths {
    /// The steps.
    pub paths: Vec<OwnedKeyPath>,
}

/// A step that owns its name.
#[derive(Debug, Clone, Eq, PartialEq, Hash)]
pub enum OwnedKeyPath {
    /// An element of an array; of an object, the key of that decimal text.
    Index(i32),
    /// A key of an object that was written between quotes.
    QuotedName(String),
    /// A key of an object.
    Name(String),
}

impl KeyPaths<'_> {
    /// Parses the printed path with the library, for calls on many documents.
    ///
    /// # Errors
    ///
    /// `InvalidKeyPath`: a name is empty.
    pub fn prepare(&self) -> Result<PreparedKeyPath> {
        PreparedKeyPath::read(self.to_string().as_bytes())
    }

    /// Returns a copy that owns its names.
    pub fn to_owned(&self) -> OwnedKeyPaths {
        OwnedKeyPaths { paths: self.paths.iter().map(KeyPath::to_owned).collect() }
    }
}

impl KeyPath<'_> {
    /// Returns a copy that owns its name.
    pub fn to_owned(&self) -> OwnedKeyPath {
        match self {
            KeyPath::Index(index) => OwnedKeyPath::Index(*index),
            KeyPath::QuotedName(name) => OwnedKeyPath::QuotedName(name.to_string()),
            KeyPath::Name(name) => OwnedKeyPath::Name(name.to_string()),
        }
    }
}

impl OwnedKeyPaths {
    /// Borrows the steps.
    pub fn as_key_paths(&self) -> KeyPaths<'_> {
        KeyPaths { paths: self.paths.iter().map(OwnedKeyPath::as_key_path).collect() }
    }
}

impl OwnedKeyPath {
    /// Borrows the step.
    pub fn as_key_path(&self) -> KeyPath<'_> {
        match self {
            OwnedKeyPath::Index(index) => KeyPath::Index(*index),
            OwnedKeyPath::QuotedName(name) => KeyPath::QuotedName(Cow::Borrowed(name)),
            OwnedKeyPath::Name(name) => KeyPath::Name(Cow::Borrowed(name)),
        }
    }
}

impl Display for KeyPaths<'_> {
    fn fmt(&self, f: &mut Formatter<'_>) -> std::fmt::Result {
        f.write_str(&text_of(self.paths.iter()))
    }
}

impl Display for OwnedKeyPaths {
    fn fmt(&self, f: &mut Formatter<'_>) -> std::fmt::Result {
        self.as_key_paths().fmt(f)
    }
}

impl Display for OwnedKeyPath {
    fn fmt(&self, f: &mut Formatter<'_>) -> std::fmt::Result {
        self.as_key_path().fmt(f)
    }
}

/// A plain name prints unchanged; any other name, and a quoted one, between quotes.
impl Display for KeyPath<'_> {
    fn fmt(&self, f: &mut Formatter<'_>) -> std::fmt::Result {
        match self {
            KeyPath::Index(index) => write!(f, "{index}"),
            KeyPath::Name(name) if is_plain(name) => f.write_str(name),
            KeyPath::Name(name) | KeyPath::QuotedName(name) => {
                f.write_char('"')?;
                for unit in name.chars() {
                    if matches!(unit, '"' | '\\') {
                        f.write_char('\\')?;
                    }
                    f.write_char(unit)?;
                }
                f.write_char('"')
            }
        }
    }
}

/// Not empty, of ASCII letters, digits and underscores, and not beginning with a digit.
fn is_plain(name: &str) -> bool {
    name.starts_with(|first: char| !first.is_ascii_digit())
        && name.chars().all(|unit| unit.is_ascii_alphanumeric() || unit == '_')
}

/// The text of a key path.
pub(crate) fn text_of<'a>(steps: impl Iterator<Item = &'a KeyPath<'a>>) -> String {
    let steps: Vec<String> = steps.map(KeyPath::to_string).collect();
    format!("{{{}}}", steps.join(","))
}

/// Parses a key path.
///
/// # Errors
///
/// `InvalidKeyPath`: the text is not one. The library decides that.
pub fn parse_key_paths(input: &[u8]) -> Result<KeyPaths<'_>> {
    PreparedKeyPath::read(input)?;
    let text = std::str::from_utf8(input).map_err(|_| Error::InvalidKeyPath)?;
    let mut rest = Steps(trimmed(text).strip_prefix('{').unwrap_or_default());
    let mut paths = Vec::new();
    while let Some(step) = rest.next_step() {
        paths.push(step);
    }
    Ok(KeyPaths { paths })
}

/// A key path that the library has parsed, for many documents. Like a `JsonPath` it is `Send` and not `Sync`.
///
/// ```
/// use jsonb_paths::{parse_key_paths, OwnedJsonb};
///
/// let age = parse_key_paths(b"{age}")?.prepare()?;
/// for text in [r#"{"age":31}"#, r#"{"age":47}"#] {
///     let document: OwnedJsonb = text.parse()?;
///     assert!(age.get(document.as_raw())?.is_some());
/// }
/// # Ok::<(), jsonb_paths::Error>(())
/// ```
pub struct PreparedKeyPath(UnsafeCell<sys::jdoc_keypath>);

// SAFETY: the library lets another thread use and free a path after an ordering, and every way to send a value is one.
// Without `Sync`, calls on the path cannot overlap.
unsafe impl Send for PreparedKeyPath {}

impl PreparedKeyPath {
    fn read(text: &[u8]) -> Result<PreparedKeyPath> {
        let mut path = sys::jdoc_keypath { at: ptr::null_mut(), is_there: false };
        // SAFETY: the slice is a pointer and its length, and a struct of zeros contains no path.
        done(unsafe { sys::jdoc_keypath_read(at(text), text.len(), &mut path) })?;
        Ok(PreparedKeyPath(UnsafeCell::new(path)))
    }

    /// Returns the value at the key path; `None` if there is none.
    pub fn get(&self, document: RawJsonb<'_>) -> Result<Option<OwnedJsonb>> {
        // SAFETY: the path is there, and calls on it do not overlap, since it is not `Sync` and the library calls
        // nothing back. The slice is a pointer and its length, and an `Out` a buffer of its size.
        document.find(|d, n, out| unsafe { sys::jdoc_keypath_get(self.0.get(), d, n, out.at, out.size, out.len) })
    }

    /// Returns the document without the value at the key path; unchanged if there is none.
    ///
    /// # Errors
    ///
    /// `InvalidJsonType`: the root is null, a Boolean, a number or a string.
    pub fn delete(&self, document: RawJsonb<'_>) -> Result<OwnedJsonb> {
        // SAFETY: as in `get`.
        document.make(|d, n, out| unsafe { sys::jdoc_keypath_delete(self.0.get(), d, n, out.at, out.size, out.len) })
    }
}

impl Drop for PreparedKeyPath {
    fn drop(&mut self) {
        // SAFETY: the struct contains a path, which nothing uses any more.
        unsafe { sys::jdoc_keypath_free(self.0.get()) }
    }
}

/// Returns the byte at which text is not a key path (docs/PATHS.md), or `None` if it is one.
///
/// # Errors
///
/// `OutOfMemory`.
///
/// ```
/// # use jsonb_paths::key_path_error_position;
/// assert_eq!(key_path_error_position(b"{a,1b}"), Ok(Some(4)));
/// assert_eq!(key_path_error_position(b"{a,1}"), Ok(None));
/// ```
pub fn key_path_error_position(input: &[u8]) -> Result<Option<usize>> {
    // SAFETY: the slice is a pointer and its length.
    one(|position| unsafe { sys::jdoc_keypath_error_position(at(input), input.len(), position) })
}

fn trimmed(text: &str) -> &str {
    text.trim_matches([' ', '\t', '\r', '\n'])
}

/// The steps that are still to be read of the text of a key path, after its `{`. The library accepted the text, so what
/// ends a step needs no further test.
struct Steps<'a>(&'a str);

impl<'a> Steps<'a> {
    fn next_step(&mut self) -> Option<KeyPath<'a>> {
        let text = self.0.trim_start_matches([' ', '\t', '\r', '\n', ',']);
        if text.starts_with('}') || text.is_empty() {
            return None;
        }
        if let Some(quoted) = text.strip_prefix('"') {
            let end = end_of(quoted, |unit| unit == '"');
            self.0 = quoted.get(end + 1..).unwrap_or_default();
            return Some(KeyPath::QuotedName(unescaped(&quoted[..end])));
        }
        let end = end_of(text, |unit| matches!(unit, ' ' | ',' | '}'));
        self.0 = &text[end..];
        // The white space that is not a stop byte of names may follow an index.
        Some(trimmed(&text[..end]).parse().map_or_else(|_| KeyPath::Name(unescaped(&text[..end])), KeyPath::Index))
    }
}

/// The position of the first such character that is not part of an escape.
fn end_of(text: &str, is_end: impl Fn(char) -> bool) -> usize {
    let mut units = text.char_indices();
    while let Some((position, unit)) = units.next() {
        if is_end(unit) {
            return position;
        }
        if unit == '\\' {
            let escaped = units.next().map(|(_, unit)| unit);
            if escaped == Some('u') && units.as_str().starts_with('{') {
                units.by_ref().find(|&(_, unit)| unit == '}');
            }
        }
    }
    text.len()
}

/// The text with its escapes replaced, borrowed if it has none.
fn unescaped(text: &str) -> Cow<'_, str> {
    if !text.contains('\\') {
        return Cow::Borrowed(text);
    }
    let mut units = Vec::new();
    let mut rest = text;
    while let Some(unit) = rest.chars().next() {
        rest = &rest[unit.len_utf8()..];
        if unit == '\\' {
            units.push(escape(&mut rest));
        } else {
            units.extend_from_slice(unit.encode_utf16(&mut [0; 2]));
        }
    }
    Cow::Owned(String::from_utf16_lossy(&units))
}

/// Reads an escape after its backslash, as a unit of UTF-16.
fn escape(rest: &mut &str) -> u16 {
    let Some(letter) = rest.chars().next() else { return u16::from(b'\\') };
    *rest = &rest[letter.len_utf8()..];
    match letter {
        'b' => 0x08,
        'f' => 0x0c,
        'n' => 0x0a,
        'r' => 0x0d,
        't' => 0x09,
        'u' => {
            let braces = usize::from(rest.starts_with('{'));
            let digits = rest.get(braces..braces + 4).unwrap_or_default();
            *rest = rest.get(4 + 2 * braces..).unwrap_or_default();
            u16::from_str_radix(digits, 16).unwrap_or(0xfffd)
        }
        letter => letter as u16,
    }
}
