//! Declarations of `jdoc.h` and `jdoc_text.h`, whose comments are the manual. `generate.sh` writes `bindings.rs` by
//! bindgen.
#![no_std]
#![allow(non_camel_case_types, clippy::missing_safety_doc)]

include!("bindings.rs");
