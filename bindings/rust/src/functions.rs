//! The functions on documents, in the files of the crate `jsonb`.
//!
//! SAFETY of all calls: a slice is a pointer and its length, and an `Out` is a buffer of its size.

mod array;
mod object;
mod operator;
mod path;
mod scalar;

pub use operator::{composite_key, composite_key_wide};
