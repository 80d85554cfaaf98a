//! Numbers: 64-bit integers, and decimals of 64 and 128 bits.

use crate::{OwnedJsonb, Result};
use std::cmp::Ordering;
use std::fmt;

/// The number `value / 10^scale`.
#[derive(Clone, Copy, Debug)]
pub struct Decimal64 {
    /// The number of digits after the point.
    pub scale: u8,
    /// The digits, as an integer.
    pub value: i64,
}

/// The number `value / 10^scale`.
#[derive(Clone, Copy, Debug)]
pub struct Decimal128 {
    /// The number of digits after the point.
    pub scale: u8,
    /// The digits, as an integer.
    pub value: i128,
}

/// A number. Numbers are equal, and compare, by value: `Int64(1)` equals the decimal 1.0.
///
/// Comparisons use the library's sortable keys. They panic if an allocation of the library fails.
#[derive(Clone, Copy, Debug)]
pub enum Number {
    /// A signed integer.
    Int64(i64),
    /// An unsigned integer.
    UInt64(u64),
    /// A decimal of 64 bits.
    Decimal64(Decimal64),
    /// A decimal of 128 bits.
    Decimal128(Decimal128),
}

impl Number {
    /// The upper and the lower half of the integer, and the scale.
    pub(crate) fn parts(&self) -> (i64, u64, u8) {
        let (value, scale) = match *self {
            Number::Int64(value) => (i128::from(value), 0),
            Number::UInt64(value) => (i128::from(value), 0),
            Number::Decimal64(it) => (i128::from(it.value), it.scale),
            Number::Decimal128(it) => (it.value, it.scale),
        };
        ((value >> 64) as i64, value as u64, scale)
    }

    /// The integer of these parts, or the shortest decimal.
    pub(crate) fn from_parts(is_integer: bool, (high, low, scale): (i64, u64, u8)) -> Number {
        let value = (i128::from(high) << 64) | i128::from(low);
        match (i64::try_from(value), u64::try_from(value)) {
            (_, Ok(value)) if is_integer => Number::UInt64(value),
            (Ok(value), _) if is_integer => Number::Int64(value),
            (Ok(value), _) => Number::Decimal64(Decimal64 { scale, value }),
            _ => Number::Decimal128(Decimal128 { scale, value }),
        }
    }

    /// Returns the value if it is an integer that fits.
    pub fn as_i64(&self) -> Option<i64> {
        self.as_document(|document| document.as_raw().as_i64())
    }

    /// Returns the value if it is an integer that fits.
    pub fn as_u64(&self) -> Option<u64> {
        self.as_document(|document| document.as_raw().as_u64())
    }

    fn as_document<T>(&self, read: impl FnOnce(&OwnedJsonb) -> Result<T>) -> T {
        OwnedJsonb::from_number(self).and_then(|document| read(&document)).expect("a number is a document")
    }

    fn key(&self) -> Vec<u8> {
        self.as_document(|document| document.as_raw().convert_to_comparable())
    }
}

impl PartialEq for Number {
    fn eq(&self, other: &Number) -> bool {
        self.cmp(other) == Ordering::Equal
    }
}

impl Eq for Number {}

impl PartialOrd for Number {
    fn partial_cmp(&self, other: &Number) -> Option<Ordering> {
        Some(self.cmp(other))
    }
}

impl Ord for Number {
    fn cmp(&self, other: &Number) -> Ordering {
        self.key().cmp(&other.key())
    }
}

impl fmt::Display for Number {
    fn fmt(&self, f: &mut fmt::Formatter<'_>) -> fmt::Result {
        f.write_str(&self.as_document(|document| document.as_raw().to_str()))
    }
}
