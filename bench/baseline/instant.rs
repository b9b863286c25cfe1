//! Instants: microseconds since 1970, to the end of 9998, in UTC.
pub const SECOND: u64 = 1_000_000;
pub const DAY: u64 = 86_400 * SECOND;
pub const LAST: u64 = 2_932_532 * DAY - 1;

/// Days of the proleptic Gregorian calendar since 1970-01-01.
fn days_of(year: i64, month: i64, day: i64) -> i64 {
    let year = if month <= 2 { year - 1 } else { year };
    let (era, of_era) = (year.div_euclid(400), year.rem_euclid(400));
    let of_year = (153 * ((month + 9) % 12) + 2) / 5 + day - 1;
    era * 146_097 + of_era * 365 + of_era / 4 - of_era / 100 + of_year - 719_468
}

/// Year, month and day of a day since 1970-01-01.
fn civil(day: u64) -> (u64, u64, u64) {
    let day = day + 719_468;
    let (era, of_era) = (day / 146_097, day % 146_097);
    let year = (of_era - of_era / 1460 + of_era / 36_524 - of_era / 146_096) / 365;
    let of_year = of_era - (365 * year + year / 4 - year / 100);
    let month = (5 * of_year + 2) / 153;
    let first = (153 * month + 2) / 5;
    let month = if month < 10 { month + 3 } else { month - 9 };
    (era * 400 + year + u64::from(month <= 2), month, of_year - first + 1)
}

/// The first day at or after a day with which a month begins.
pub fn first_of_month(day: u64) -> u64 {
    match civil(day) {
        (_, _, 1) => day,
        (year, 12, _) => days_of(year as i64 + 1, 1, 1) as u64,
        (year, month, _) => days_of(year as i64, month as i64 + 1, 1) as u64,
    }
}

/// Reads the form of RFC 3339, also with a blank for the T and hours alone as offset. afplane reads some more forms.
pub fn read(text: &str) -> Option<u64> {
    let mut rest = text.as_bytes();
    let year = digits(&mut rest, 4)?;
    eat(&mut rest, b"-")?;
    let month = digits(&mut rest, 2)?;
    eat(&mut rest, b"-")?;
    let day = digits(&mut rest, 2)?;
    eat(&mut rest, b"Tt ")?;
    let hour = digits(&mut rest, 2)?;
    eat(&mut rest, b":")?;
    let minute = digits(&mut rest, 2)?;
    eat(&mut rest, b":")?;
    let second = digits(&mut rest, 2)?;
    let is_leap = year % 4 == 0 && (year % 100 != 0 || year % 400 == 0);
    let last = match month {
        2 => 28 + i64::from(is_leap),
        4 | 6 | 9 | 11 => 30,
        1..=12 => 31,
        _ => return None,
    };
    if !(1..=last).contains(&day) || hour > 23 || minute > 59 || second > 60 {
        return None;
    }
    let mut nanos = 0;
    if eat(&mut rest, b".,").is_some() {
        let places = rest.iter().take_while(|it| it.is_ascii_digit()).count();
        if !(1..=9).contains(&places) {
            return None;
        }
        nanos = digits(&mut rest, places)? * 10i64.pow(9 - places as u32);
    }
    let offset = match eat(&mut rest, b"Zz+-")? {
        b'Z' | b'z' => 0,
        sign => {
            let hours = digits(&mut rest, 2)?;
            let minutes = if eat(&mut rest, b":").is_some() { digits(&mut rest, 2)? } else { 0 };
            if hours > 25 || minutes > 59 {
                return None;
            }
            (hours * 3600 + minutes * 60) * if sign == b'-' { -1 } else { 1 }
        }
    };
    if !rest.is_empty() {
        return None;
    }
    let seconds = days_of(year, month, day) * 86_400 + hour * 3600 + minute * 60 + second.min(59) - offset;
    let micros = u64::try_from(seconds).ok()? * SECOND + nanos as u64 / 1000;
    (micros <= LAST).then_some(micros)
}

fn digits(rest: &mut &[u8], count: usize) -> Option<i64> {
    let (these, more) = rest.split_at_checked(count)?;
    *rest = more;
    these.iter().try_fold(0, |sum, it| it.is_ascii_digit().then(|| sum * 10 + i64::from(it - b'0')))
}

fn eat(rest: &mut &[u8], any: &[u8]) -> Option<u8> {
    let (&first, more) = rest.split_first().filter(|it| any.contains(it.0))?;
    *rest = more;
    Some(first)
}

fn put_digits(to: &mut [u8], mut number: u64) {
    for byte in to.iter_mut().rev() {
        *byte = b'0' + (number % 10) as u8;
        number /= 10;
    }
}

/// Writes an instant as Python's isoformat does, at +00:00.
pub fn put(out: &mut Vec<u8>, instant: u64) {
    let (year, month, day) = civil(instant / DAY);
    let (seconds, micros) = (instant % DAY / SECOND, instant % SECOND);
    let mut text = *b"0000-00-00T00:00:00";
    put_digits(&mut text[..4], year);
    put_digits(&mut text[5..7], month);
    put_digits(&mut text[8..10], day);
    put_digits(&mut text[11..13], seconds / 3600);
    put_digits(&mut text[14..16], seconds / 60 % 60);
    put_digits(&mut text[17..], seconds % 60);
    out.extend_from_slice(&text);
    if micros != 0 {
        let mut text = *b".000000";
        put_digits(&mut text[1..], micros);
        out.extend_from_slice(&text);
    }
    out.extend_from_slice(b"+00:00");
}

pub fn text_of(instant: u64) -> String {
    let mut out = Vec::with_capacity(32);
    put(&mut out, instant);
    String::from_utf8(out).expect("ASCII")
}
