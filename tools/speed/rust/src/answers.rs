//! Copies of the results alone: the least that a call returning them can cost.

use crate::Case;
use std::hint::black_box;

/// Documents or bytes that a call returns.
#[derive(Clone)]
pub enum Handed {
    One(Vec<u8>),
    Many(Vec<Vec<u8>>),
}

/// Copies what a case returns, that many times, each to a vector of its exact size, and drops the copies.
pub fn copies(case: &Case, times: usize) -> u64 {
    for _ in 0..times {
        drop(black_box(black_box(&case.answer).clone()));
    }
    times as u64
}
