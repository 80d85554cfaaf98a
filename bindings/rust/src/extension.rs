//! The values that JSON itself lacks, and their payloads (docs/FORMAT.md).

use crate::{Error, Result};

/// A day.
#[derive(Debug, Clone, Copy, PartialEq, Eq)]
pub struct Date {
    /// A count of days, from the day that the caller counts from.
    pub value: i32,
}

/// A point in time.
#[derive(Debug, Clone, Copy, PartialEq, Eq)]
pub struct Timestamp {
    /// A count of microseconds, from the point that the caller counts from.
    pub value: i64,
}

/// A point in time with a time zone.
#[derive(Debug, Clone, Copy, PartialEq, Eq)]
pub struct TimestampTz {
    /// The offset of the time zone, in the caller's unit.
    pub offset: i32,
    /// A count of microseconds, from the point that the caller counts from.
    pub value: i64,
}

/// A length of time.
#[derive(Debug, Clone, Copy, PartialEq, Eq)]
pub struct Interval {
    /// A count of months.
    pub months: i32,
    /// A count of days.
    pub days: i32,
    /// A count of microseconds.
    pub micros: i64,
}

/// A value that has no JSON type.
#[derive(Debug, Clone, Copy, PartialEq, Eq)]
pub enum ExtensionValue<'a> {
    /// Any bytes.
    Binary(&'a [u8]),
    /// A day.
    Date(Date),
    /// A point in time.
    Timestamp(Timestamp),
    /// A point in time with a time zone.
    TimestampTz(TimestampTz),
    /// A length of time.
    Interval(Interval),
}

impl<'a> ExtensionValue<'a> {
    /// The value of a payload of a document that was checked: a tag, and its fields, big-endian.
    pub(crate) fn from_payload(payload: &'a [u8]) -> Result<ExtensionValue<'a>> {
        let (tag, rest) = payload.split_first().ok_or(Error::InvalidJsonb)?;
        let mut fields = Fields(rest);
        Ok(match tag {
            0x00 => ExtensionValue::Binary(rest),
            0x10 => ExtensionValue::Date(Date { value: fields.i32()? }),
            0x20 => ExtensionValue::Timestamp(Timestamp { value: fields.i64()? }),
            0x30 => ExtensionValue::TimestampTz(TimestampTz { offset: fields.i32()?, value: fields.i64()? }),
            0x40 => {
                let (months, days) = (fields.i32()?, fields.i32()?);
                ExtensionValue::Interval(Interval { months, days, micros: fields.i64()? })
            }
            _ => return Err(Error::InvalidJsonb),
        })
    }
}

/// The fields of a payload that are still to be read.
struct Fields<'a>(&'a [u8]);

impl Fields<'_> {
    fn take<const N: usize>(&mut self) -> Result<[u8; N]> {
        let bytes = self.0.get(..N).and_then(|it| it.try_into().ok()).ok_or(Error::InvalidJsonb)?;
        self.0 = &self.0[N..];
        Ok(bytes)
    }

    fn i32(&mut self) -> Result<i32> {
        self.take().map(i32::from_be_bytes)
    }

    fn i64(&mut self) -> Result<i64> {
        self.take().map(i64::from_be_bytes)
    }
}
