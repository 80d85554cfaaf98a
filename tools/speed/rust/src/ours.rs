//! This repository's library, by the one export of its crate `jsonb_speed`.

use crate::Case;
use std::hint::black_box;

extern "C" {
    #[allow(clippy::too_many_arguments)]
    fn jsonb_speed(
        name: *const u8,
        name_len: usize,
        argument: *const u8,
        argument_len: usize,
        other: *const u8,
        other_len: usize,
        document: *const u8,
        document_len: usize,
        zero: usize,
        times: usize,
    ) -> u64;
}

/// Makes that many calls of a case, and returns the sum of their results.
pub fn calls(case: &Case, times: usize) -> u64 {
    // SAFETY: each pointer is that of a slice of the length after it.
    unsafe {
        jsonb_speed(
            case.call.as_ptr(),
            case.call.len(),
            case.argument.as_ptr(),
            case.argument.len(),
            case.other.as_ptr(),
            case.other.len(),
            case.document.as_ptr(),
            case.document.len(),
            black_box(0),
            times,
        )
    }
}
