//! The shape of the `time` crate, as far as the crate's date file uses it.
//!
//! It accepts every date and keeps none. Dates are outside the comparison: the oracle stops at the
//! first one, so that nothing here reaches an answer.

use std::time::{Duration, SystemTime};

pub struct NoTime;

pub struct OffsetDateTime;
pub struct UtcDateTime;

#[derive(Clone, Copy)]
pub struct UtcOffset;

pub mod format_description {
    pub mod well_known {
        pub struct Rfc3339;
    }
}

use format_description::well_known::Rfc3339;

impl UtcOffset {
    pub const UTC: UtcOffset = UtcOffset;
}

impl OffsetDateTime {
    pub fn parse(_: &str, _: &Rfc3339) -> Result<OffsetDateTime, NoTime> {
        Err(NoTime)
    }

    pub fn to_offset(self, _: UtcOffset) -> OffsetDateTime {
        self
    }
}

impl From<OffsetDateTime> for SystemTime {
    fn from(_: OffsetDateTime) -> SystemTime {
        SystemTime::UNIX_EPOCH
    }
}

impl UtcDateTime {
    pub const UNIX_EPOCH: UtcDateTime = UtcDateTime;

    pub fn checked_add(self, _: Duration) -> Option<UtcDateTime> {
        Some(self)
    }

    pub fn checked_sub(self, _: Duration) -> Option<UtcDateTime> {
        Some(self)
    }

    pub fn format(self, _: &Rfc3339) -> Result<String, std::fmt::Error> {
        Ok(String::new())
    }
}
