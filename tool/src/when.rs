//! Minutes and moments as people write and read them, in UTC.

use std::fmt;
use std::str::FromStr;
use std::time::{SystemTime, UNIX_EPOCH};
use txindurbe::{Date, Minute, Refusal};

/// Seconds from 1970-01-01 to 2000-01-01, where the engine's minutes start.
const FIRST_MINUTE: i64 = 946_684_800;

/// A minute, written as its number or as a date: 2027-03-20, 2027-03-20T12:30.
#[derive(Clone, Copy, PartialEq, Eq, Debug)]
pub struct When(pub Minute);

/// Why a text is no minute.
#[derive(Clone, Copy, PartialEq, Eq, Debug)]
pub enum NotAMinute {
    /// Neither a number nor a date.
    Unreadable,
    /// The engine's calendar does not have it.
    Refused(Refusal),
}

impl fmt::Display for NotAMinute {
    fn fmt(&self, out: &mut fmt::Formatter) -> fmt::Result {
        match self {
            NotAMinute::Unreadable => write!(out, "write a date as 2027-03-20 or 2027-03-20T12:30 (UTC), or a minute's number from 2000-01-01 on"),
            NotAMinute::Refused(refusal) => refusal.fmt(out),
        }
    }
}

impl std::error::Error for NotAMinute {}

impl FromStr for When {
    type Err = NotAMinute;

    fn from_str(text: &str) -> Result<When, NotAMinute> {
        if let Ok(number) = text.parse() {
            return Ok(When(Minute::new(number)));
        }
        let date = date(text).ok_or(NotAMinute::Unreadable)?;
        Minute::from_date(date).map(When).map_err(NotAMinute::Refused)
    }
}

/// Its form alone: whether there is such a day is for the engine to say.
fn date(text: &str) -> Option<Date> {
    let (day, time) = match text.split_once(['T', ' ']) {
        Some((day, time)) => (day, Some(time)),
        None => (text, None),
    };
    let [year, month, day] = numbers(day, '-')?;
    let [hour, minute] = match time {
        Some(time) => numbers(time, ':')?,
        None => [0, 0],
    };
    Some(Date { year, month, day, hour, minute })
}

fn numbers<const COUNT: usize>(text: &str, between: char) -> Option<[u32; COUNT]> {
    let numbers: Option<Vec<u32>> = text.split(between).map(|part| part.parse().ok()).collect();
    numbers?.try_into().ok()
}

impl fmt::Display for When {
    /// The date, or after 2099 the minute's number.
    fn fmt(&self, out: &mut fmt::Formatter) -> fmt::Result {
        match self.0.date() {
            Ok(Date { year, month, day, hour, minute }) => write!(out, "{year:04}-{month:02}-{day:02} {hour:02}:{minute:02}"),
            Err(_) => write!(out, "minute {}", self.0.number()),
        }
    }
}

/// Seconds since 1970, UTC.
pub fn now() -> i64 {
    SystemTime::now().duration_since(UNIX_EPOCH).map_or(0, |since| since.as_secs() as i64)
}

impl When {
    /// The minute that a moment lies in: the first one for moments before 2000.
    pub fn at(seconds: i64) -> When {
        let minutes = seconds.saturating_sub(FIRST_MINUTE).max(0) / 60;
        When(Minute::new(u32::try_from(minutes).unwrap_or(u32::MAX)))
    }

    /// When it begins, in seconds since 1970.
    pub fn seconds(self) -> i64 {
        FIRST_MINUTE + 60 * i64::from(self.0.number())
    }
}

#[cfg(test)]
mod tests {
    use super::*;

    #[test]
    fn dates_and_numbers_are_minutes() {
        assert_eq!("0".parse(), Ok(When(Minute::new(0))));
        assert_eq!("2000-01-02".parse(), Ok(When(Minute::new(24 * 60))));
        assert_eq!("2000-01-02T12:30".parse(), Ok(When(Minute::new(36 * 60 + 30))));
        assert_eq!("2000-01-02 12:30".parse(), Ok(When(Minute::new(36 * 60 + 30))));
        for text in ["", "soon", "2000-01", "2000-01-02T", "2000-01-02T12", "2000-01-02T12:30:00", "-1", "4294967296"] {
            assert_eq!(text.parse::<When>(), Err(NotAMinute::Unreadable), "{text}");
        }
        for text in ["2027-02-29", "1999-12-31", "2100-01-01", "2027-01-01T24:00"] {
            assert_eq!(text.parse::<When>(), Err(NotAMinute::Refused(Refusal::BadDate)), "{text}");
        }
    }

    #[test]
    fn minutes_are_shown_as_dates() {
        assert_eq!(When(Minute::new(36 * 60 + 5)).to_string(), "2000-01-02 12:05");
        assert_eq!(When(Minute::new(u32::MAX)).to_string(), "minute 4294967295");
    }

    #[test]
    fn moments_and_minutes() {
        // 2000-01-01 00:01:59
        assert_eq!(When::at(946_684_800 + 119), When(Minute::new(1)));
        assert_eq!(When::at(0), When(Minute::new(0)));
        assert_eq!(When(Minute::new(1)).seconds(), 946_684_860);
    }
}
