//! Days and moments, and their texts.

use crate::zone::Zone;

/// The last second of the year 9998.
pub const LAST_MOMENT: i64 = 253_370_764_799;
pub const DAY_SECONDS: i64 = 86_400;

pub fn is_moment(secs: i64) -> bool {
    (0..=LAST_MOMENT).contains(&secs)
}

/// A date of the years 1 to 9999, as the number of days since 1970-01-01.
#[derive(Clone, Copy, Debug, PartialEq, Eq, PartialOrd, Ord, Hash)]
pub struct Day(pub i32);

impl Day {
    pub const MIN: Day = Day(-719_162);
    pub const MAX: Day = Day(2_932_896);

    pub fn from_date(year: i64, month: u32, day: u32) -> Option<Day> {
        let good = (1..=9999).contains(&year) && (1..=12).contains(&month);
        (good && (1..=days_of_month(year, month)).contains(&day)).then(|| Day(day_number(year, month, day) as i32))
    }

    pub fn date(self) -> (i64, u32, u32) {
        date_of(i64::from(self.0))
    }

    /// 0 on Monday.
    pub fn weekday(self) -> u32 {
        (self.0 + 3).rem_euclid(7) as u32
    }

    pub fn plus(self, days: i32) -> Option<Day> {
        let day = Day(self.0.checked_add(days)?);
        (Day::MIN..=Day::MAX).contains(&day).then_some(day)
    }

    /// `YYYYMMDD`.
    pub fn read_compact(text: &[u8]) -> Option<Day> {
        if text.len() != 8 {
            return None;
        }
        Day::from_date(number(&text[..4])?.into(), number(&text[4..6])?, number(&text[6..])?)
    }

    /// `YYYY-MM-DD`.
    pub fn read_dashed(text: &[u8]) -> Option<Day> {
        if text.len() != 10 || text[4] != b'-' || text[7] != b'-' {
            return None;
        }
        Day::from_date(number(&text[..4])?.into(), number(&text[5..7])?, number(&text[8..])?)
    }

    pub fn read_either(text: &[u8]) -> Option<Day> {
        Day::read_dashed(text).or_else(|| Day::read_compact(text))
    }

    pub fn compact(self) -> [u8; 8] {
        let (year, month, day) = self.date();
        let mut text = [0; 8];
        put_digits(&mut text[..4], year as u32);
        put_digits(&mut text[4..6], month);
        put_digits(&mut text[6..], day);
        text
    }

    pub fn dashed(self) -> [u8; 10] {
        let (year, month, day) = self.date();
        let mut text = *b"0000-00-00";
        put_digits(&mut text[..4], year as u32);
        put_digits(&mut text[5..7], month);
        put_digits(&mut text[8..], day);
        text
    }
}

/// A moment with its fraction: seconds since 1970, and nanoseconds.
#[derive(Clone, Copy, Debug, PartialEq, Eq, PartialOrd, Ord)]
pub struct Instant {
    pub secs: i64,
    pub nanos: u32,
}

/// `YYYY-MM-DDThh:mm:ss`, a fraction, and an offset; without an offset it is the zone's local time.
pub fn read_moment(text: &str, zone: &Zone) -> Option<Instant> {
    let text = text.as_bytes();
    if text.len() < 19 || text[10] != b'T' || text[13] != b':' || text[16] != b':' {
        return None;
    }
    let day = Day::read_dashed(&text[..10])?;
    let (hour, minute, second) = (number(&text[11..13])?, number(&text[14..16])?, number(&text[17..19])?);
    if !(1970..=9998).contains(&day.date().0) || hour > 23 || minute > 59 || second > 59 {
        return None;
    }
    let clock = i64::from(day.0) * DAY_SECONDS + i64::from(hour * 3600 + minute * 60 + second);
    let (nanos, rest) = read_fraction(&text[19..])?;
    let ahead = match rest {
        [] => zone.offset_of_clock(clock),
        [b'Z'] => 0,
        [sign @ (b'+' | b'-'), hours @ .., b':', _, _] if hours.len() == 2 => {
            let (hours, minutes) = (number(hours)?, number(&rest[4..])?);
            if minutes > 59 || hours * 60 + minutes > 14 * 60 {
                return None;
            }
            let seconds = i64::from(hours * 3600 + minutes * 60);
            if *sign == b'-' {
                -seconds
            } else {
                seconds
            }
        }
        _ => return None,
    };
    is_moment(clock - ahead).then_some(Instant { secs: clock - ahead, nanos })
}

fn read_fraction(rest: &[u8]) -> Option<(u32, &[u8])> {
    let Some((b'.', digits)) = rest.split_first() else { return Some((0, rest)) };
    let count = digits.iter().take_while(|byte| byte.is_ascii_digit()).count();
    if !(1..=9).contains(&count) {
        return None;
    }
    Some((number(&digits[..count])? * 10u32.pow(9 - count as u32), &digits[count..]))
}

/// Exactly `YYYY-MM-DDThh:mm:ssZ`.
pub fn read_utc(text: &str) -> Option<i64> {
    let whole = text.len() == 20 && text.ends_with('Z');
    whole.then(|| read_moment(text, &Zone::utc())).flatten().map(|instant| instant.secs)
}

pub fn moment_text(secs: i64) -> [u8; 20] {
    let (days, rest) = (secs.div_euclid(DAY_SECONDS), secs.rem_euclid(DAY_SECONDS) as u32);
    let mut text = *b"0000-00-00T00:00:00Z";
    text[..10].copy_from_slice(&Day(days as i32).dashed());
    put_digits(&mut text[11..13], rest / 3600);
    put_digits(&mut text[14..16], rest / 60 % 60);
    put_digits(&mut text[17..19], rest % 60);
    text
}

/// Decimal digits alone, at most ten of them.
pub fn number(digits: &[u8]) -> Option<u32> {
    if digits.is_empty() || digits.len() > 10 {
        return None;
    }
    let mut value = 0u64;
    for &byte in digits {
        if !byte.is_ascii_digit() {
            return None;
        }
        value = value * 10 + u64::from(byte - b'0');
    }
    u32::try_from(value).ok()
}

fn put_digits(place: &mut [u8], mut value: u32) {
    for byte in place.iter_mut().rev() {
        *byte = b'0' + (value % 10) as u8;
        value /= 10;
    }
}

pub fn is_leap(year: i64) -> bool {
    year % 4 == 0 && (year % 100 != 0 || year % 400 == 0)
}

pub fn days_of_month(year: i64, month: u32) -> u32 {
    match month {
        2 => 28 + u32::from(is_leap(year)),
        4 | 6 | 9 | 11 => 30,
        _ => 31,
    }
}

/// Days since 1970-01-01, of any year.
pub fn day_number(year: i64, month: u32, day: u32) -> i64 {
    let year = if month <= 2 { year - 1 } else { year };
    let era = year.div_euclid(400);
    let of_era = year.rem_euclid(400);
    let of_year = i64::from((153 * ((month + 9) % 12) + 2) / 5 + day - 1);
    era * 146_097 + of_era * 365 + of_era / 4 - of_era / 100 + of_year - 719_468
}

/// Year, month and day of a number of days since 1970-01-01.
pub fn date_of(days: i64) -> (i64, u32, u32) {
    let days = days + 719_468;
    let era = days.div_euclid(146_097);
    let of_era = days.rem_euclid(146_097);
    let year = (of_era - of_era / 1_460 + of_era / 36_524 - of_era / 146_096) / 365;
    let of_year = of_era - (365 * year + year / 4 - year / 100);
    let shifted = (5 * of_year + 2) / 153;
    let day = (of_year - (153 * shifted + 2) / 5 + 1) as u32;
    let month = if shifted < 10 { shifted + 3 } else { shifted - 9 } as u32;
    (era * 400 + year + i64::from(month <= 2), month, day)
}

/// The date of the zone's clock.
pub fn local_day(zone: &Zone, secs: i64) -> Day {
    Day((secs + zone.offset_at(secs)).div_euclid(DAY_SECONDS) as i32)
}
