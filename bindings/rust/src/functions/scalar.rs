//! Functions on scalars: their types, their values, and casts.

use crate::call::{always, one, truth, Out};
use crate::extension::ExtensionValue;
use crate::{Date, Interval, Number, OwnedJsonb, RawJsonb, Result, Timestamp, TimestampTz};
use jdoc_sys as sys;
use std::borrow::Cow;

/// The bytes of a scalar document before its content: the header and the entry word.
const PREFIX: usize = 8;

// `as_` functions return `None` if the root has another type. Casts fail with `InvalidCast` if the value has no such
// form.
impl<'a> RawJsonb<'a> {
    fn is(&self, kind: sys::jdoc_kind) -> Result<bool> {
        self.kind().map(|it| it == kind)
    }

    fn value<T: Default>(&self, call: unsafe extern "C" fn(*const u8, usize, *mut T) -> u32) -> Result<Option<T>> {
        one(|value| unsafe { call(self.as_bytes().as_ptr(), self.as_bytes().len(), value) })
    }

    /// Returns `true` if the root is null.
    pub fn is_null(&self) -> Result<bool> {
        self.is(sys::JDOC_KIND_NULL)
    }

    /// Returns `Some` if the root is null.
    pub fn as_null(&self) -> Result<Option<()>> {
        self.is_null().map(|it| it.then_some(()))
    }

    /// Returns `true` if the root is a Boolean.
    pub fn is_boolean(&self) -> Result<bool> {
        self.is(sys::JDOC_KIND_BOOLEAN)
    }

    /// Returns the Boolean.
    pub fn as_bool(&self) -> Result<Option<bool>> {
        Ok(self.value(sys::jdoc_as_bool)?.map(|truth| truth == 1))
    }

    /// Casts a Boolean, or one of the strings true, yes, false and no in any case.
    pub fn to_bool(&self) -> Result<bool> {
        truth(|it| unsafe { sys::jdoc_to_bool(self.as_bytes().as_ptr(), self.as_bytes().len(), it) })
    }

    /// Returns `true` if the root is a number.
    pub fn is_number(&self) -> Result<bool> {
        self.kind().map(|kind| matches!(kind, sys::JDOC_KIND_INTEGER | sys::JDOC_KIND_DECIMAL))
    }

    /// Returns the number: the shortest variant that holds it, and for an integer that is not negative `UInt64`.
    pub fn as_number(&self) -> Result<Option<Number>> {
        let (d, n) = (self.as_bytes().as_ptr(), self.as_bytes().len());
        let (mut low, mut scale) = (0, 0);
        let high = one(|high| unsafe { sys::jdoc_as_decimal(d, n, high, &mut low, &mut scale) })?;
        let is_integer = self.is(sys::JDOC_KIND_INTEGER)?;
        Ok(high.map(|high| Number::from_parts(is_integer, (high, low, scale))))
    }

    /// Returns `true` if the root is an integer that 64 bits hold with a sign.
    pub fn is_i64(&self) -> Result<bool> {
        self.as_i64().map(|it| it.is_some())
    }

    /// Returns the number if it is an integer that fits; so is the decimal 1.0.
    pub fn as_i64(&self) -> Result<Option<i64>> {
        self.value(sys::jdoc_as_i64)
    }

    /// Casts a number, rounded half away from zero, a Boolean, or a string of digits.
    pub fn to_i64(&self) -> Result<i64> {
        self.value(sys::jdoc_to_i64).map(always)
    }

    /// Returns `true` if the root is an integer that 64 bits hold without a sign.
    pub fn is_u64(&self) -> Result<bool> {
        self.as_u64().map(|it| it.is_some())
    }

    /// Returns the number if it is an integer that fits; so is the decimal 1.0.
    pub fn as_u64(&self) -> Result<Option<u64>> {
        self.value(sys::jdoc_as_u64)
    }

    /// Casts a number, rounded half away from zero, a Boolean, or a string of digits.
    pub fn to_u64(&self) -> Result<u64> {
        self.value(sys::jdoc_to_u64).map(always)
    }

    /// Returns `true` if the root is a string.
    pub fn is_string(&self) -> Result<bool> {
        self.is(sys::JDOC_KIND_STRING)
    }

    /// Returns the string.
    pub fn as_str(&self) -> Result<Option<Cow<'a, str>>> {
        let text = self.find(|d, n, out| unsafe { sys::jdoc_as_str(d, n, out.text(), out.size, out.len) })?;
        Ok(text.map(|text| Cow::Owned(string(text))))
    }

    /// Casts a string, a number or a Boolean.
    pub fn to_str(&self) -> Result<String> {
        let call = |d: *const u8, n, out: Out| unsafe { sys::jdoc_to_str(d, n, out.text(), out.size, out.len) };
        self.make(call).map(string)
    }

    /// Returns `true` if the root is an array.
    pub fn is_array(&self) -> Result<bool> {
        self.is(sys::JDOC_KIND_ARRAY)
    }

    /// Returns `true` if the root is an object.
    pub fn is_object(&self) -> Result<bool> {
        self.is(sys::JDOC_KIND_OBJECT)
    }

    /// Returns `true` if the root is a value that JSON lacks.
    pub fn is_extension_value(&self) -> Result<bool> {
        self.kind().map(|kind| (sys::JDOC_KIND_BINARY..=sys::JDOC_KIND_INTERVAL).contains(&kind))
    }

    /// Returns the extension value.
    pub fn as_extension_value(&self) -> Result<Option<ExtensionValue<'a>>> {
        if !self.is_extension_value()? {
            return Ok(None);
        }
        self.check()?;
        ExtensionValue::from_payload(self.as_bytes().get(PREFIX..).unwrap_or_default()).map(Some)
    }

    /// Returns `true` if the root is a binary value.
    pub fn is_binary(&self) -> Result<bool> {
        self.is(sys::JDOC_KIND_BINARY)
    }

    /// Returns the bytes of a binary value.
    pub fn as_binary(&self) -> Result<Option<Vec<u8>>> {
        self.extension(|it| if let ExtensionValue::Binary(bytes) = it { Some(bytes.to_vec()) } else { None })
    }

    /// Returns `true` if the root is a date.
    pub fn is_date(&self) -> Result<bool> {
        self.is(sys::JDOC_KIND_DATE)
    }

    /// Returns the date.
    pub fn as_date(&self) -> Result<Option<Date>> {
        self.extension(|it| if let ExtensionValue::Date(date) = it { Some(date) } else { None })
    }

    /// Returns `true` if the root is a timestamp without a time zone.
    pub fn is_timestamp(&self) -> Result<bool> {
        self.is(sys::JDOC_KIND_TIMESTAMP)
    }

    /// Returns the timestamp.
    pub fn as_timestamp(&self) -> Result<Option<Timestamp>> {
        self.extension(|it| if let ExtensionValue::Timestamp(time) = it { Some(time) } else { None })
    }

    /// Returns `true` if the root is a timestamp with a time zone.
    pub fn is_timestamp_tz(&self) -> Result<bool> {
        self.is(sys::JDOC_KIND_TIMESTAMP_TZ)
    }

    /// Returns the timestamp.
    pub fn as_timestamp_tz(&self) -> Result<Option<TimestampTz>> {
        self.extension(|it| if let ExtensionValue::TimestampTz(time) = it { Some(time) } else { None })
    }

    /// Returns `true` if the root is an interval.
    pub fn is_interval(&self) -> Result<bool> {
        self.is(sys::JDOC_KIND_INTERVAL)
    }

    /// Returns the interval.
    pub fn as_interval(&self) -> Result<Option<Interval>> {
        self.extension(|it| if let ExtensionValue::Interval(interval) = it { Some(interval) } else { None })
    }

    fn extension<T>(&self, read: impl FnOnce(ExtensionValue<'a>) -> Option<T>) -> Result<Option<T>> {
        Ok(self.as_extension_value()?.and_then(read))
    }
}

/// The string that the library wrote. Of bytes that do not decode it may not be UTF-8.
fn string(text: OwnedJsonb) -> String {
    String::from_utf8(text.to_vec()).unwrap_or_else(|it| String::from_utf8_lossy(it.as_bytes()).into_owned())
}
