//! JSON values as bytes: queries and edits without decoding, with the names of the Rust crate `jsonb`.
//!
//! With `jsonb = { package = "jsonb_paths", .. }` in Cargo.toml, a program that uses that crate compiles, except for
//! what this one lacks: floats and 256-bit decimals, and the fields of a `JsonPath`, which is kept as the library
//! parsed it.
//!
//! ```
//! use jsonb_paths::{parse_json_path, OwnedJsonb};
//!
//! let document: OwnedJsonb = r#"{"name":"Ann","age":31}"#.parse()?;
//! let path = parse_json_path(b"$.age > 30")?;
//! assert_eq!(document.as_raw().path_match(&path)?, Some(true));
//! # Ok::<(), jsonb_paths::Error>(())
//! ```
//!
//! A call on a document fails with `InvalidJsonb` or `UnsupportedNumber` only if its bytes do not decode, with
//! `OutOfMemory` only if an allocation of the library fails, and with `TooLarge` only if the result exceeds the limits
//! of the format. Comments list other errors. Calls on bytes that do not decode return, but their results are
//! unspecified, so call `check` first on untrusted bytes.

#![warn(missing_docs)]

mod call;
mod children;
mod document;
mod error;
mod extension;
mod functions;
pub mod jsonpath;
pub mod keypath;
mod number;
mod text;
mod value;

pub use document::{OwnedJsonb, RawJsonb};
pub use error::{ArithmeticFault, Error, Result};
pub use extension::{Date, ExtensionValue, Interval, Timestamp, TimestampTz};
pub use functions::{composite_key, composite_key_wide};
pub use jsonpath::{get_by_path, json_path_error_position, parse_json_path, JsonPath, Selector};
pub use keypath::{
    key_path_error_position, parse_key_paths, KeyPath, KeyPaths, OwnedKeyPath, OwnedKeyPaths, PreparedKeyPath,
};
pub use number::{Decimal128, Decimal64, Number};
pub use text::{json_text_error_position, parse_value, to_string};
pub use value::{from_slice, Object, Value};
