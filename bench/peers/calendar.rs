//! The calendar, as tables that are computed once. Days are counted from 0000-01-01.

/// The number of seconds in a day.
pub const DAY: i64 = 86_400;

/// The number of days from 0000-01-01 to 1970-01-01.
const DAYS_TO_1970: i64 = 719_528;

const SECONDS_TO_1970: i64 = DAYS_TO_1970 * DAY;

/// The number of kinds of years: one for each weekday of January 1, without and with February 29.
pub const KINDS: usize = 14;

/// The first kind of leap years.
pub const FIRST_LEAP_KIND: usize = 7;

/// The last year in the table: each year up to 10,000 has a successor.
const LAST_YEAR: usize = 10_001;

/// 2^40 divided by the average number of days in a year.
const YEARS_PER_DAY: u64 = 3_010_360_589;

/// A date is two loads, and a time of day two more.
pub struct Calendar {
    /// The years from 0 on.
    years: Vec<Year>,
    /// The kinds of the years from 0 on, each below `KINDS`.
    kinds: Vec<u8>,
    /// `-MM-DDT0` for each day of a common year, and then for each day of a leap year.
    dates: [[u8; 8]; 1024],
    /// `hh:mm:` and two zeros for each minute of the day, as little-endian numbers.
    minutes: [u64; 2048],
    /// The two digits of each number below 60, as little-endian numbers.
    two_digits: [u16; 64],
}

/// A year. It has 16 bytes, so those in use stay in the first cache.
struct Year {
    /// The day of January 1.
    first_day: u32,
    /// What to add to a day, modulo 2^32, to get its index in `dates`.
    to_date: u32,
    /// `,YYYY` and three zeros.
    text: [u8; 8],
}

/// A day and the second of that day.
#[derive(Clone, Copy)]
pub struct DayAndSecond {
    pub day: u32,
    pub second: u32,
}

impl DayAndSecond {
    /// Returns the local day and time of day at an instant from year 1 to 9999.
    #[inline(always)]
    pub fn new(instant: i64, utc_offset: i32) -> DayAndSecond {
        let local = (instant + (i64::from(utc_offset) + SECONDS_TO_1970)) as u64;
        // A day has 675 times 128 seconds, and the quotient by 128 fits 32 bits.
        let day = (local >> 7) as u32 / 675;
        DayAndSecond { day, second: (local as u32).wrapping_sub(day.wrapping_mul(DAY as u32)) }
    }
}

/// The text of a date, in two parts that overlap in a row.
#[derive(Clone, Copy, Default)]
pub struct Date {
    /// `,YYYY` and three zeros.
    pub year: [u8; 8],
    /// `-MM-DDT0`.
    pub month_and_day: [u8; 8],
}

/// Returns the two digits of a number below 100.
pub fn two_digits(number: usize) -> [u8; 2] {
    [b'0' + (number / 10) as u8, b'0' + (number % 10) as u8]
}

fn is_leap(year: usize) -> bool {
    year.is_multiple_of(4) && (!year.is_multiple_of(100) || year.is_multiple_of(400))
}

impl Year {
    fn new(year: usize, first_day: u32) -> Year {
        let leap_dates = if is_leap(year) { 365u32 } else { 0 };
        let [[a, b], [c, d]] = [year / 100 % 100, year % 100].map(two_digits);
        Year {
            first_day,
            to_date: leap_dates.wrapping_sub(first_day),
            text: [b',', a, b, c, d, 0, 0, 0],
        }
    }
}

/// Returns `-MM-DDT0` for each day of a year.
fn dates_of(february: usize) -> impl Iterator<Item = [u8; 8]> {
    let lengths = [31, february, 31, 30, 31, 30, 31, 31, 30, 31, 30, 31];
    let days = (1..).zip(lengths).flat_map(|(month, len)| (1..=len).map(move |day| [month, day]));
    days.map(|date| {
        let [[a, b], [c, d]] = date.map(two_digits);
        [b'-', a, b, b'-', c, d, b'T', b'0']
    })
}

/// Returns `hh:mm:` and two zeros.
fn minute(minute: usize) -> u64 {
    let [[a, b], [c, d]] = [minute / 60, minute % 60].map(two_digits);
    u64::from_le_bytes([a, b, b':', c, d, b':', 0, 0])
}

/// Returns an array that begins with some items and goes on with the default.
fn array<T: Copy + Default, const LEN: usize>(items: impl Iterator<Item = T>) -> [T; LEN] {
    let mut array = [T::default(); LEN];
    array.iter_mut().zip(items).for_each(|(place, item)| *place = item);
    array
}

impl Calendar {
    pub fn new() -> Calendar {
        let mut calendar = Calendar {
            years: Vec::with_capacity(LAST_YEAR + 1),
            kinds: Vec::with_capacity(LAST_YEAR + 1),
            dates: array(dates_of(28).chain(dates_of(29))),
            minutes: array((0..1440).map(minute)),
            two_digits: array((0..60).map(|number| u16::from_le_bytes(two_digits(number)))),
        };
        let mut first_day = 0;
        for year in 0..=LAST_YEAR {
            // 0000-01-01 was a Saturday.
            let weekday = (first_day as usize + 6) % 7;
            let kind = weekday + if is_leap(year) { FIRST_LEAP_KIND } else { 0 };
            calendar.kinds.push(kind as u8);
            calendar.years.push(Year::new(year, first_day));
            first_day += if is_leap(year) { 366 } else { 365 };
        }
        calendar
    }

    /// Returns the year of a day from 0001-01-01 on. The guess is right or one less.
    #[inline(always)]
    pub fn year_of(&self, day: u32) -> usize {
        let guess = ((u64::from(day) * YEARS_PER_DAY - (1 << 39)) >> 40) as usize;
        guess + usize::from(self.years[guess + 1].first_day <= day)
    }

    /// Returns the year of an instant in UT, for instants of the years 1 to 9999.
    pub fn year_at(&self, t: i64) -> usize {
        self.year_of(DayAndSecond::new(t, 0).day)
    }

    /// Returns the kind of a year, below `KINDS`.
    #[inline(always)]
    pub fn kind(&self, year: usize) -> usize {
        usize::from(self.kinds[year])
    }

    /// Returns the day of January 1 of a year.
    #[inline(always)]
    pub fn first_day(&self, year: usize) -> u32 {
        self.years[year].first_day
    }

    /// Returns the instant at which a year starts in UT, in seconds from 1970.
    pub fn start(&self, year: usize) -> i64 {
        (i64::from(self.first_day(year)) - DAYS_TO_1970) * DAY
    }

    /// Returns the text of a day from 0001-01-01 on.
    #[inline(always)]
    pub fn date(&self, day: u32) -> Date {
        let year = &self.years[self.year_of(day)];
        let index = day.wrapping_add(year.to_date) as usize % self.dates.len();
        Date { year: year.text, month_and_day: self.dates[index] }
    }

    /// Returns `hh:mm:ss` for a second of the day.
    #[inline(always)]
    pub fn time_of_day(&self, second: u32) -> [u8; 8] {
        let minute = second / 60;
        let hour_and_minute = self.minutes[minute as usize % self.minutes.len()];
        let digits = self.two_digits[(second - 60 * minute) as usize % self.two_digits.len()];
        (hour_and_minute | u64::from(digits) << 48).to_le_bytes()
    }
}
