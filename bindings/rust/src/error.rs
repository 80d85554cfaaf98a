//! The causes of failed calls: the statuses of jdoc.h under the names of the crate `jsonb`.

use jdoc_sys as sys;
use std::fmt;

/// Why arithmetic in a path has no result.
#[derive(Clone, Copy, Debug, PartialEq, Eq)]
pub enum ArithmeticFault {
    /// The result is below `i64::MIN` or above `u64::MAX`.
    Overflow,
    /// A division by zero, or a remainder by it.
    ZeroDivisor,
    /// A quotient that is not an integer.
    Inexact,
    /// An operand is a decimal other than zero.
    DecimalOperand,
}

/// The cause of a failed call. It prints as its name, such as `Arithmetic(Overflow)`.
#[derive(Clone, Copy, Debug, PartialEq, Eq)]
#[non_exhaustive]
pub enum Error {
    /// The bytes do not decode.
    InvalidJsonb,
    /// A float or a decimal of 256 bits; in JSON text, a number that no 128-bit decimal equals.
    UnsupportedNumber,
    /// The text is not a JSON path, or its evaluation fails on the document.
    InvalidJsonPath,
    /// The text is not a key path.
    InvalidKeyPath,
    /// The value cannot be cast to this type.
    InvalidCast,
    /// The root is not an object.
    InvalidObject,
    /// The root has the wrong type.
    InvalidJsonType,
    /// The object has the key already.
    ObjectDuplicateKey,
    /// An operation of a path on numbers has no result.
    Arithmetic(ArithmeticFault),
    /// A count or a length exceeds the limits of the format.
    TooLarge,
    /// An item is nested too deeply.
    TooDeep,
    /// An allocation of the library failed.
    OutOfMemory,
    /// A step of a path in strict mode does not apply to an item.
    StrictPath,
    /// The bound of a path on the document is above the limit of the `Selector`.
    LimitExceeded,
    /// The text is not JSON.
    InvalidJson,
    /// An escape in JSON text is half of a surrogate pair, or the text is not UTF-8.
    NotUtf8,
    /// A status that this version does not know.
    Unknown(u32),
}

/// The result of a call that can fail.
pub type Result<T> = std::result::Result<T, Error>;

impl Error {
    /// The error of a status, which is none of a call that succeeded.
    pub(crate) fn of(status: u32) -> Error {
        match status {
            sys::JDOC_INVALID_JSONB => Error::InvalidJsonb,
            sys::JDOC_UNSUPPORTED_NUMBER => Error::UnsupportedNumber,
            sys::JDOC_INVALID_JSON_PATH | sys::JDOC_PATH_FAILED => Error::InvalidJsonPath,
            sys::JDOC_INVALID_KEY_PATH => Error::InvalidKeyPath,
            sys::JDOC_INVALID_CAST => Error::InvalidCast,
            sys::JDOC_INVALID_OBJECT => Error::InvalidObject,
            sys::JDOC_INVALID_JSON_TYPE => Error::InvalidJsonType,
            sys::JDOC_OBJECT_DUPLICATE_KEY => Error::ObjectDuplicateKey,
            sys::JDOC_TOO_LARGE => Error::TooLarge,
            sys::JDOC_TOO_DEEP => Error::TooDeep,
            sys::JDOC_OUT_OF_MEMORY => Error::OutOfMemory,
            sys::JDOC_STRICT_PATH => Error::StrictPath,
            sys::JDOC_LIMIT_EXCEEDED => Error::LimitExceeded,
            sys::JDOC_OVERFLOW => Error::Arithmetic(ArithmeticFault::Overflow),
            sys::JDOC_ZERO_DIVISOR => Error::Arithmetic(ArithmeticFault::ZeroDivisor),
            sys::JDOC_INEXACT => Error::Arithmetic(ArithmeticFault::Inexact),
            sys::JDOC_DECIMAL_OPERAND => Error::Arithmetic(ArithmeticFault::DecimalOperand),
            sys::JDOC_INVALID_JSON => Error::InvalidJson,
            sys::JDOC_NOT_UTF8 => Error::NotUtf8,
            status => Error::Unknown(status),
        }
    }
}

impl fmt::Display for Error {
    fn fmt(&self, f: &mut fmt::Formatter<'_>) -> fmt::Result {
        fmt::Debug::fmt(self, f)
    }
}

impl std::error::Error for Error {}

#[cfg(test)]
mod tests {
    use super::*;

    /// Statuses with which these calls never fail: results, and what only columns and empty structs have.
    const OTHERS: [&str; 7] = [
        "JDOC_OK",
        "JDOC_NONE",
        "JDOC_BUFFER_TOO_SMALL",
        "JDOC_BAD_OFFSETS",
        "JDOC_NO_PATH",
        "JDOC_COMPUTED",
        "JDOC_OUT_OF_ORDER",
    ];

    fn camel(name: &str) -> String {
        let words = name.trim_start_matches("JDOC_").split('_');
        words.map(|word| word[..1].to_string() + &word[1..].to_lowercase()).collect()
    }

    #[test]
    fn each_status_of_the_header_has_its_error() {
        let (_, rest) = include_str!("../../c/jdoc.h").split_once("enum jdoc_status {").unwrap();
        let rows: Vec<_> =
            rest.split_once('}').unwrap().0.split(',').filter_map(|it| it.trim().split_once(" = ")).collect();
        for (name, number) in &rows {
            let error = format!("{:?}", Error::of(number.parse().unwrap()));
            let wanted = match *name {
                "JDOC_PATH_FAILED" => "InvalidJsonPath".to_string(),
                _ if OTHERS.contains(name) => format!("Unknown({number})"),
                _ => camel(name),
            };
            assert!(error == wanted || error == format!("Arithmetic({wanted})"), "{name}: {error}");
        }
        assert_eq!(rows.len(), 26);
    }
}
