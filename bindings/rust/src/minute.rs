use crate::{calls, Refusal};

/// A date of the Gregorian calendar and a time, in UTC. Month and day count from 1.
///
/// ```
/// use txindurbe::Date;
///
/// let noon = Date { hour: 12, ..Date::day(2027, 3, 20) };
/// assert!(Date::day(2027, 3, 20) < noon && noon < Date::day(2027, 3, 21));
/// ```
#[derive(Clone, Copy, PartialEq, Eq, PartialOrd, Ord, Hash, Debug)]
pub struct Date {
    /// 2000 to 2099, for those that are minutes.
    pub year: u32,
    /// 1 to 12.
    pub month: u32,
    /// 1 to 31.
    pub day: u32,
    /// 0 to 23.
    pub hour: u32,
    /// 0 to 59.
    pub minute: u32,
}

impl Date {
    /// The day's first minute.
    ///
    /// ```
    /// use txindurbe::Date;
    ///
    /// assert_eq!(Date::day(2027, 3, 20), Date { year: 2027, month: 3, day: 20, hour: 0, minute: 0 });
    /// ```
    pub const fn day(year: u32, month: u32, day: u32) -> Date {
        Date { year, month, day, hour: 0, minute: 0 }
    }
}

/// A minute, counted from 2000-01-01 00:00 UTC. Any number is one; those of 2000 to 2099 have a [`Date`], and are in order as their dates are.
///
/// ```
/// use txindurbe::{Date, Minute};
///
/// let noon = Date { hour: 12, ..Date::day(2000, 1, 2) };
/// let minute = Minute::from_date(noon)?;
/// assert_eq!(minute, Minute::new(36 * 60));
/// assert_eq!(minute.date()?, noon);
/// # Ok::<(), txindurbe::Refusal>(())
/// ```
#[derive(Clone, Copy, PartialEq, Eq, PartialOrd, Ord, Hash, Debug)]
pub struct Minute(u32);

impl Minute {
    /// By its count.
    ///
    /// ```
    /// assert_eq!(txindurbe::Minute::new(90).number(), 90);
    /// ```
    pub const fn new(number: u32) -> Minute {
        Minute(number)
    }

    /// Minutes since 2000-01-01 00:00 UTC.
    ///
    /// ```
    /// use txindurbe::{Date, Minute};
    ///
    /// assert_eq!(Minute::from_date(Date::day(2000, 1, 2))?.number(), 1_440);
    /// # Ok::<(), txindurbe::Refusal>(())
    /// ```
    pub const fn number(self) -> u32 {
        self.0
    }

    /// The minute that begins at this date. Refused as [`BadDate`](crate::Refusal::BadDate) if there is no such date, or it is not of 2000 to 2099.
    ///
    /// ```
    /// use txindurbe::{Date, Minute, Refusal};
    ///
    /// assert_eq!(Minute::from_date(Date::day(2000, 1, 2)), Ok(Minute::new(1_440)));
    /// assert_eq!(Minute::from_date(Date::day(2001, 2, 29)), Err(Refusal::BadDate));
    /// ```
    pub fn from_date(date: Date) -> Result<Minute, Refusal> {
        let Date { year, month, day, hour, minute } = date;
        match calls::minutes([year, month, day, hour, minute]) {
            calls::Minutes { number: 0, minutes } => Ok(Minute(minutes)),
            calls::Minutes { number, .. } => Err(Refusal::without_part(number)),
        }
    }

    /// When it begins. Refused as [`BadDate`](crate::Refusal::BadDate) after 2099.
    ///
    /// ```
    /// use txindurbe::{Date, Minute, Refusal};
    ///
    /// assert_eq!(Minute::new(1_440).date(), Ok(Date::day(2000, 1, 2)));
    /// assert_eq!(Minute::new(52_596_000).date(), Err(Refusal::BadDate));
    /// ```
    pub fn date(self) -> Result<Date, Refusal> {
        match calls::date(self.0) {
            calls::Dated { number: 0, date: [year, month, day, hour, minute] } => Ok(Date { year, month, day, hour, minute }),
            calls::Dated { number, .. } => Err(Refusal::without_part(number)),
        }
    }
}

/// A certificate's term of validity: it holds from the first minute up to, but without, the end. One with an end that is not after its first minute is refused
/// as [`BadTerm`](crate::Refusal::BadTerm) when its certificate is filed.
///
/// ```
/// use txindurbe::{Certificate, Key, Minute, Refusal, Store, Validity};
///
/// let backwards = Validity { first: Minute::new(20), end: Minute::new(10) };
/// assert_eq!(Store::new().file(&Certificate::listed(Key::new(1), 1, [7], backwards)), Err(Refusal::BadTerm));
/// ```
#[derive(Clone, Copy, PartialEq, Eq, PartialOrd, Ord, Hash, Debug)]
pub struct Validity {
    /// The first minute at which it holds.
    pub first: Minute,
    /// The first minute at which it holds no longer.
    pub end: Minute,
}

impl Validity {
    /// From one date up to, but without, another.
    ///
    /// ```
    /// use txindurbe::{Date, Minute, Validity};
    ///
    /// let semester = Validity::from_dates(Date::day(2027, 1, 1), Date::day(2027, 7, 1))?;
    /// assert!(semester.holds_at(Minute::from_date(Date::day(2027, 3, 20))?));
    /// # Ok::<(), txindurbe::Refusal>(())
    /// ```
    pub fn from_dates(first: Date, end: Date) -> Result<Validity, Refusal> {
        Ok(Validity { first: Minute::from_date(first)?, end: Minute::from_date(end)? })
    }

    /// Whether the minute is one of the term's.
    ///
    /// ```
    /// use txindurbe::{Minute, Validity};
    ///
    /// let term = Validity { first: Minute::new(10), end: Minute::new(20) };
    /// assert_eq!([9, 10, 19, 20].map(|minute| term.holds_at(Minute::new(minute))), [false, true, true, false]);
    /// ```
    pub fn holds_at(&self, minute: Minute) -> bool {
        self.first <= minute && minute < self.end
    }
}
