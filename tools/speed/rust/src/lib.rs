//! The calls of the Rust crate by the name that this library's have, so that tools/speed/calls.c makes either.
#![allow(dead_code)] // (the program uses the rest of the modules)

mod answers;
mod case;
mod theirs;

use case::Case;
use std::panic::catch_unwind;
use std::slice::from_raw_parts;

/// What is returned if a call fails, or none has the name.
const REFUSED: u64 = u64::MAX;

/// Makes that many calls of a case, and returns the sum of their results.
///
/// # Safety
///
/// Each pointer is that of a slice of the length after it.
#[no_mangle]
#[allow(clippy::too_many_arguments)]
pub unsafe extern "C" fn jsonb_speed(
    name: *const u8,
    name_len: usize,
    argument: *const u8,
    argument_len: usize,
    other: *const u8,
    other_len: usize,
    document: *const u8,
    document_len: usize,
    _zero: usize,
    times: usize,
) -> u64 {
    let bytes = |from, len| unsafe { from_raw_parts(from, len) }.to_vec();
    let call = String::from_utf8(bytes(name, name_len)).expect("a name that is UTF-8");
    let case = Case {
        name: call.clone(),
        call,
        argument: bytes(argument, argument_len),
        other: bytes(other, other_len),
        document: bytes(document, document_len),
        answer: None,
    };
    catch_unwind(|| theirs::calls(&case, times)).unwrap_or(REFUSED)
}
