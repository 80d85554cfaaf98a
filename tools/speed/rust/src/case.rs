//! A case of the measurements.

use crate::answers::Handed;

/// What a call is made with.
pub struct Case {
    pub name: String,
    pub call: String,
    pub argument: Vec<u8>,
    pub other: Vec<u8>,
    pub document: Vec<u8>,
    /// Its result, if that is documents or bytes.
    pub answer: Option<Handed>,
}
