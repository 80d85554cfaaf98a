//! The elements or members of a container, in time linear in their number.

use crate::call::done;
use crate::{OwnedJsonb, RawJsonb, Result};
use jdoc_sys as sys;
use std::marker::PhantomData;
use std::mem::MaybeUninit;
use std::slice;

/// An item of a document that was checked.
#[derive(Clone, Copy)]
pub(crate) struct Node<'a> {
    event: sys::jdoc_event,
    document: PhantomData<&'a [u8]>,
}

impl<'a> Node<'a> {
    /// The root of a document, whose bytes are checked whole.
    pub fn root(document: RawJsonb<'a>) -> Result<Node<'a>> {
        document.check()?;
        let bytes = document.as_bytes();
        let mut event = MaybeUninit::zeroed();
        // SAFETY: the slice is a pointer and its length. The event of zeros is valid, and so is what the call writes.
        let event = unsafe {
            done(sys::jdoc_root(event.as_mut_ptr(), bytes.as_ptr(), bytes.len()))?;
            event.assume_init()
        };
        Ok(Node { event, document: PhantomData })
    }

    pub fn kind(&self) -> sys::jdoc_event_kind {
        self.event.kind
    }

    /// The bytes of a string or of an extension value's payload, or a container as a document.
    pub fn bytes(&self) -> &'a [u8] {
        // SAFETY: the event has a position within the document, or a null pointer with the length 0.
        unsafe { slice_of(self.event.bytes, self.event.len) }
    }

    /// The string, or the key, of bytes that were checked.
    pub fn text(&self) -> &'a str {
        utf8(self.bytes())
    }

    /// The key of a member.
    pub fn key(&self) -> Option<&'a str> {
        // SAFETY: as in `bytes`.
        self.event.has_key.then(|| utf8(unsafe { slice_of(self.event.key, self.event.key_len) }))
    }

    /// The item as a separate document.
    pub fn to_document(self) -> OwnedJsonb {
        // SAFETY: the size is that of the item, and that many bytes are written.
        unsafe {
            let size = sys::jdoc_item_size(&self.event);
            let mut out = Vec::with_capacity(size);
            sys::jdoc_item_write(&self.event, out.as_mut_ptr());
            out.set_len(size);
            OwnedJsonb::new(out)
        }
    }

    pub fn is_container(&self) -> bool {
        self.event.kind == sys::JDOC_EVENT_BEGIN
    }

    pub fn is_object(&self) -> bool {
        self.is_container() && self.event.object
    }

    pub fn is_array(&self) -> bool {
        self.is_container() && !self.event.object
    }

    /// The elements of an array or the members of an object; nothing of a scalar.
    pub fn children(&self) -> Children<'a> {
        let document = self.bytes();
        let mut cursor = MaybeUninit::zeroed();
        // SAFETY: the slice is a pointer and its length, and zeros are a valid value.
        let cursor = unsafe {
            let is_open = self.is_container()
                && sys::jdoc_cursor_open(document.as_ptr(), document.len(), cursor.as_mut_ptr()) == sys::JDOC_OK;
            is_open.then(|| cursor.assume_init())
        };
        Children { cursor, document }
    }
}

/// An iterator over the children of an item.
pub(crate) struct Children<'a> {
    cursor: Option<sys::jdoc_cursor>,
    document: &'a [u8],
}

impl<'a> Iterator for Children<'a> {
    type Item = Node<'a>;

    fn next(&mut self) -> Option<Node<'a>> {
        let cursor = self.cursor.as_mut()?;
        let mut event = MaybeUninit::zeroed();
        // SAFETY: the cursor was opened on the document, and the event of zeros is valid.
        let event = unsafe {
            let status = sys::jdoc_next_item(self.document.as_ptr(), self.document.len(), cursor, event.as_mut_ptr());
            (status == sys::JDOC_OK).then(|| event.assume_init())?
        };
        Some(Node { event, document: PhantomData })
    }
}

/// SAFETY: that many bytes are at the pointer, unless the length is 0.
unsafe fn slice_of<'a>(at: *const u8, len: usize) -> &'a [u8] {
    if len == 0 {
        return &[];
    }
    slice::from_raw_parts(at, len)
}

fn utf8(bytes: &[u8]) -> &str {
    std::str::from_utf8(bytes).expect("the document was checked")
}
