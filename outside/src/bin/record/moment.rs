//! Times and moments as they are written on the command line. A moment is in UTC, and is kept as whole seconds since 1970.

use std::time::Duration;

const MINUTE: u64 = 60;
const HOUR: u64 = 60 * MINUTE;
const DAY: u64 = 24 * HOUR;

/// How long: whole seconds, or a number with s, m or h behind it.
pub fn time(word: &str) -> Option<Duration> {
    let (number, unit) = match word.as_bytes().last()? {
        b's' => (&word[..word.len() - 1], 1),
        b'm' => (&word[..word.len() - 1], MINUTE),
        b'h' => (&word[..word.len() - 1], HOUR),
        _ => (word, 1),
    };
    let seconds = digits(number)?.checked_mul(unit)?;
    (seconds > 0).then(|| Duration::from_secs(seconds))
}

/// The moment that a word names: HH:MM[:SS] is the next such one, `YYYY-MM-DDTHH:MM[:SS]Z` may have passed.
pub fn moment(word: &str, now: u64) -> Option<u64> {
    match word.split_once('T') {
        Some((date, clock)) => Some(day_of(date)? * DAY + second_of_day(clock.strip_suffix('Z')?)?),
        None => {
            let today = now - now % DAY + second_of_day(word)?;
            Some(if today > now { today } else { today + DAY })
        }
    }
}

/// A moment as `YYYY-MM-DDTHH:MM:SSZ`.
pub fn written(moment: u64) -> String {
    let (mut year, mut month, mut day) = (1970, 1, moment / DAY);
    while day >= days_of(year) {
        day -= days_of(year);
        year += 1;
    }
    while day >= days_in(year, month) {
        day -= days_in(year, month);
        month += 1;
    }
    let (hour, minute, second) = (moment % DAY / HOUR, moment % HOUR / MINUTE, moment % MINUTE);
    format!("{year:04}-{month:02}-{:02}T{hour:02}:{minute:02}:{second:02}Z", day + 1)
}

/// HH:MM[:SS].
fn second_of_day(word: &str) -> Option<u64> {
    let mut parts = word.split(':');
    let hour = two_digits(parts.next()?, 23)?;
    let minute = two_digits(parts.next()?, 59)?;
    let second = parts.next().map_or(Some(0), |part| two_digits(part, 59))?;
    parts.next().is_none().then_some(hour * HOUR + minute * MINUTE + second)
}

/// The days from 1970-01-01 to YYYY-MM-DD.
fn day_of(word: &str) -> Option<u64> {
    let mut parts = word.split('-');
    let year = parts.next().filter(|part| part.len() == 4).and_then(digits).filter(|&year| year >= 1970)?;
    let month = two_digits(parts.next()?, 12).filter(|&month| month >= 1)?;
    let day = two_digits(parts.next()?, days_in(year, month)).filter(|&day| day >= 1)?;
    if parts.next().is_some() {
        return None;
    }
    let before_this_year: u64 = (1970..year).map(days_of).sum();
    let before_this_month: u64 = (1..month).map(|month| days_in(year, month)).sum();
    Some(before_this_year + before_this_month + day - 1)
}

fn is_leap(year: u64) -> bool {
    year.is_multiple_of(4) && (!year.is_multiple_of(100) || year.is_multiple_of(400))
}

fn days_of(year: u64) -> u64 {
    if is_leap(year) {
        366
    } else {
        365
    }
}

fn days_in(year: u64, month: u64) -> u64 {
    match month {
        2 if is_leap(year) => 29,
        2 => 28,
        4 | 6 | 9 | 11 => 30,
        _ => 31,
    }
}

fn two_digits(word: &str, most: u64) -> Option<u64> {
    (word.len() == 2).then(|| digits(word))?.filter(|&number| number <= most)
}

/// Digits alone: `parse` would take a sign too.
fn digits(word: &str) -> Option<u64> {
    word.bytes().all(|byte| byte.is_ascii_digit()).then(|| word.parse().ok())?
}

#[cfg(test)]
mod tests {
    use super::*;

    #[test]
    fn moments_are_written_as_they_are_read() {
        for word in ["1970-01-01T00:00:00Z", "2026-11-18T23:59:59Z", "2028-02-29T12:30:00Z", "2100-03-01T00:00:01Z"] {
            assert_eq!(moment(word, 0).map(written).as_deref(), Some(word));
        }
    }

    #[test]
    fn times() {
        let seconds = |word| time(word).map(|time| time.as_secs());
        assert_eq!(seconds("60"), Some(60));
        assert_eq!(seconds("90s"), Some(90));
        assert_eq!(seconds("10m"), Some(600));
        assert_eq!(seconds("8h"), Some(28_800));
        assert_eq!(seconds("18446744073709551615"), Some(u64::MAX));
        for word in ["", "0", "0h", "s", "-1", "+1", "1.5", "1d", "8 h", "8hh", "18446744073709551615h", "é", "1é"] {
            assert_eq!(seconds(word), None, "{word}");
        }
    }

    /// 2026-07-25T21:30:00Z
    const NOW: u64 = 1_785_015_000;

    #[test]
    fn the_next_such_moment() {
        assert_eq!(moment("21:31", NOW), Some(NOW + 60));
        assert_eq!(moment("21:30:01", NOW), Some(NOW + 1));
        assert_eq!(moment("00:00", NOW), Some(NOW + 9_000));
        // this very moment is the one of tomorrow
        assert_eq!(moment("21:30", NOW), Some(NOW + DAY));
        assert_eq!(moment("21:29:59", NOW), Some(NOW + DAY - 1));
        assert_eq!(moment("23:59:59", 0), Some(DAY - 1));
    }

    #[test]
    fn moments_with_a_date() {
        assert_eq!(moment("1970-01-01T00:00Z", NOW), Some(0));
        assert_eq!(moment("2026-07-25T21:30Z", 0), Some(NOW));
        assert_eq!(moment("2026-07-25T21:30:59Z", 0), Some(NOW + 59));
        assert_eq!(moment("2000-02-29T12:00Z", 0), Some(951_825_600));
        assert_eq!(moment("2100-03-01T00:00Z", 0), Some(4_107_542_400));
        assert_eq!(moment("9999-12-31T23:59:59Z", 0), Some(253_402_300_799));
    }

    #[test]
    fn no_moments() {
        for word in [
            "",
            ":",
            "24:00",
            "12:60",
            "12:00:60",
            "1:00",
            "12:0",
            "12",
            "12:00:00:00",
            "-1:00",
            "+1:00",
            "12:00Z",
            "2026-07-25",
            "2026-07-25T",
            "2026-07-25T21:30",
            "2026-07-25T21:30z",
            "2026-02-29T00:00Z",
            "2100-02-29T00:00Z",
            "2026-00-01T00:00Z",
            "2026-13-01T00:00Z",
            "2026-04-31T00:00Z",
            "2026-04-00T00:00Z",
            "1969-12-31T23:59Z",
            "26-04-01T00:00Z",
            "2026-4-01T00:00Z",
            "2026-04-01-01T00:00Z",
            "T00:00Z",
            "+026-04-01T00:00Z",
            "2026-04-01T00:00ZZ",
        ] {
            assert_eq!(moment(word, NOW), None, "{word}");
        }
    }
}
