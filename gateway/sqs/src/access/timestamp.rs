//! Moments as signatures have them.

use std::fmt;
use std::time::{Duration, SystemTime};

use time::{Date, Month, OffsetDateTime};

/// A moment in whole seconds, which is shown in ISO 8601's basic form, as `20150830T123600Z`.
#[derive(Clone, Copy, Debug, PartialEq, Eq, PartialOrd, Ord)]
pub struct Timestamp(OffsetDateTime);

impl Timestamp {
    /// The moment that a text in the basic form names, or none.
    pub fn parse(text: &str) -> Option<Timestamp> {
        let has_form = text.len() == 16
            && text.bytes().enumerate().all(|(place, byte)| match place {
                8 => byte == b'T',
                15 => byte == b'Z',
                _ => byte.is_ascii_digit(),
            });
        if !has_form {
            return None;
        }
        let two_digits = |place: usize| text[place..place + 2].parse::<u8>().ok();
        let month = Month::try_from(two_digits(4)?).ok()?;
        let date = Date::from_calendar_date(text[..4].parse().ok()?, month, two_digits(6)?).ok()?;
        let moment = date.with_hms(two_digits(9)?, two_digits(11)?, two_digits(13)?).ok()?;
        Some(Timestamp(moment.assume_utc()))
    }

    /// The moment of the header `Date` (RFC 9110, "Date/Time Formats"), or none. botocore writes its zone as `-0000`.
    pub fn of_http_date(text: &str) -> Option<Timestamp> {
        let text = match text.strip_suffix("-0000").or_else(|| text.strip_suffix("+0000")) {
            Some(moment) => format!("{moment}GMT"),
            None => text.into(),
        };
        Timestamp::of_system_time(httpdate::parse_http_date(&text).ok()?)
    }

    /// None for a moment before 1970 or one that the form can't show.
    pub fn of_system_time(moment: SystemTime) -> Option<Timestamp> {
        let since = moment.duration_since(SystemTime::UNIX_EPOCH).ok()?;
        let seconds = i64::try_from(since.as_secs()).ok()?;
        OffsetDateTime::from_unix_timestamp(seconds).ok().map(Timestamp)
    }

    /// The day, as `20150830`.
    pub fn day(&self) -> String {
        let date = self.0.date();
        format!("{:04}{:02}{:02}", date.year(), u8::from(date.month()), date.day())
    }

    /// The moment so much later, or the same where there is none.
    pub fn plus(self, duration: Duration) -> Timestamp {
        let later = time::Duration::try_from(duration).ok().and_then(|duration| self.0.checked_add(duration));
        later.map_or(self, Timestamp)
    }

    /// The moment so much earlier, or the same where there is none.
    pub fn minus(self, duration: Duration) -> Timestamp {
        let earlier = time::Duration::try_from(duration).ok().and_then(|duration| self.0.checked_sub(duration));
        earlier.map_or(self, Timestamp)
    }
}

impl fmt::Display for Timestamp {
    fn fmt(&self, formatter: &mut fmt::Formatter<'_>) -> fmt::Result {
        let (hour, minute, second) = self.0.time().as_hms();
        write!(formatter, "{}T{hour:02}{minute:02}{second:02}Z", self.day())
    }
}
