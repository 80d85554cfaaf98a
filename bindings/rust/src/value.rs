//! Decoded values.

use crate::children::Node;
use crate::{Date, Error, ExtensionValue, Interval, Number, OwnedJsonb, RawJsonb, Result, Timestamp, TimestampTz};
use jdoc_sys as sys;
use std::borrow::Cow;
use std::collections::BTreeMap;

/// The members of an object, sorted by key.
pub type Object<'a> = BTreeMap<String, Value<'a>>;

/// A JSON value, or an extension value. Containers are decoded only to a depth of 128, so that dropping one needs
/// little stack.
#[derive(Clone, Debug, PartialEq, Eq)]
pub enum Value<'a> {
    /// Null.
    Null,
    /// A Boolean.
    Bool(bool),
    /// A string.
    String(Cow<'a, str>),
    /// A number.
    Number(Number),
    /// Any bytes.
    Binary(&'a [u8]),
    /// A day.
    Date(Date),
    /// A point in time.
    Timestamp(Timestamp),
    /// A point in time with a time zone.
    TimestampTz(TimestampTz),
    /// A length of time.
    Interval(Interval),
    /// An array.
    Array(Vec<Value<'a>>),
    /// An object.
    Object(Object<'a>),
}

/// The depth of containers that are decoded.
const DEPTH: usize = 128;

/// Decodes a document. Strings are borrowed.
///
/// # Errors
///
/// `TooDeep`: an array or an object is nested deeper than 128. `InvalidJsonb`, `UnsupportedNumber`: if and only if
/// `check` fails with it.
pub fn from_slice(bytes: &[u8]) -> Result<Value<'_>> {
    Value::of_node(Node::root(RawJsonb::new(bytes))?)
}

impl<'a> Value<'a> {
    pub(crate) fn of_node(node: Node<'a>) -> Result<Value<'a>> {
        Value::nested(node, DEPTH)
    }

    fn nested(node: Node<'a>, depth: usize) -> Result<Value<'a>> {
        if !node.is_container() {
            return Value::scalar(node);
        }
        let below = depth.checked_sub(1).ok_or(Error::TooDeep)?;
        if node.is_array() {
            return node.children().map(|it| Value::nested(it, below)).collect::<Result<_>>().map(Value::Array);
        }
        let members = node.children().filter_map(|it| Some((it.key()?.to_string(), it)));
        members.map(|(key, it)| Ok((key, Value::nested(it, below)?))).collect::<Result<_>>().map(Value::Object)
    }

    fn scalar(node: Node<'a>) -> Result<Value<'a>> {
        Ok(match node.kind() {
            sys::JDOC_EVENT_NULL => Value::Null,
            sys::JDOC_EVENT_FALSE => Value::Bool(false),
            sys::JDOC_EVENT_TRUE => Value::Bool(true),
            sys::JDOC_EVENT_STRING => Value::String(Cow::Borrowed(node.text())),
            sys::JDOC_EVENT_NUMBER => {
                Value::Number(node.to_document().as_raw().as_number()?.ok_or(Error::InvalidJsonb)?)
            }
            _ => match ExtensionValue::from_payload(node.bytes())? {
                ExtensionValue::Binary(bytes) => Value::Binary(bytes),
                ExtensionValue::Date(date) => Value::Date(date),
                ExtensionValue::Timestamp(time) => Value::Timestamp(time),
                ExtensionValue::TimestampTz(time) => Value::TimestampTz(time),
                ExtensionValue::Interval(interval) => Value::Interval(interval),
            },
        })
    }

    /// The value with owned strings. Its bytes are those of a document of JSON text, which has no binary values.
    pub(crate) fn into_static(self) -> Result<Value<'static>> {
        Ok(match self {
            Value::Null => Value::Null,
            Value::Bool(value) => Value::Bool(value),
            Value::String(text) => Value::String(Cow::Owned(text.into_owned())),
            Value::Number(number) => Value::Number(number),
            Value::Binary(_) => return Err(Error::InvalidJsonType),
            Value::Date(date) => Value::Date(date),
            Value::Timestamp(time) => Value::Timestamp(time),
            Value::TimestampTz(time) => Value::TimestampTz(time),
            Value::Interval(interval) => Value::Interval(interval),
            Value::Array(values) => Value::Array(values.into_iter().map(Value::into_static).collect::<Result<_>>()?),
            Value::Object(members) => {
                let members = members.into_iter().map(|(key, value)| Ok((key, value.into_static()?)));
                Value::Object(members.collect::<Result<_>>()?)
            }
        })
    }

    /// Encodes the value. `OwnedJsonb::try_from(&value)` returns an error instead of a panic.
    ///
    /// # Panics
    ///
    /// If the value is or contains an extension value, which the library does not build, exceeds the limits of the
    /// format, or if an allocation of the library fails.
    pub fn to_vec(&self) -> Vec<u8> {
        self.to_document().expect("the value is a document").to_vec()
    }

    /// Encodes the value, from the leaves to the root: what is nested is copied once per level.
    ///
    /// # Errors
    ///
    /// `InvalidJsonType`: it is or contains an extension value. `TooLarge`: it exceeds the limits of the format.
    pub(crate) fn to_document(&self) -> Result<OwnedJsonb> {
        match self {
            Value::Null => OwnedJsonb::from_null(),
            Value::Bool(value) => OwnedJsonb::from_bool(*value),
            Value::String(text) => OwnedJsonb::from_text(text),
            Value::Number(number) => OwnedJsonb::from_number(number),
            Value::Array(values) => {
                let elements = values.iter().map(Value::to_document).collect::<Result<Vec<_>>>()?;
                OwnedJsonb::array_of(elements.iter().map(OwnedJsonb::as_raw))
            }
            Value::Object(members) => {
                let values = members.values().map(Value::to_document).collect::<Result<Vec<_>>>()?;
                let keys = members.keys().map(String::as_str);
                OwnedJsonb::object_of(keys.zip(values.iter().map(OwnedJsonb::as_raw)))
            }
            _ => Err(Error::InvalidJsonType),
        }
    }
}
