//! The sixteen datatypes.

use super::{all_digits, decimal};

pub const LENGTH: u16 = 5;
pub const NUM_IN_GROUP: u16 = 7;
pub const DATA: u16 = 10;

/// Whether a value has the form of its datatype. The value is not empty, and holds no `|` unless
/// it is data: the reader has seen to both.
pub fn accepts(datatype: u16, value: &[u8]) -> bool {
    match datatype {
        1 | DATA => true,
        2 => value.len() == 1,
        3 => value == b"Y" || value == b"N",
        4 => all_digits(value.strip_prefix(b"-").unwrap_or(value)),
        LENGTH => all_digits(value),
        6 | NUM_IN_GROUP => all_digits(value) && decimal(value) != Some(0),
        8 => all_digits(value) && decimal(value).is_some_and(|day| (1..=31).contains(&day)),
        9 => float(value.strip_prefix(b"-").unwrap_or(value)),
        11 => date(value).and_then(|rest| rest.strip_prefix(b"-")).is_some_and(time),
        12 => time(value),
        13 => date(value) == Some(b""),
        14 => month_year(value),
        15 => hour_and_minute(value).and_then(after_seconds).is_some_and(zone),
        16 => value.split(|&byte| byte == b' ').all(|word| !word.is_empty()),
        _ => false,
    }
}

/// What stands behind `width` digits with a value from low to high.
fn behind(text: &[u8], width: usize, low: u64, high: u64) -> Option<&[u8]> {
    let (digits, rest) = text.split_at_checked(width)?;
    let good = all_digits(digits) && decimal(digits).is_some_and(|n| low <= n && n <= high);
    good.then_some(rest)
}

fn float(unsigned: &[u8]) -> bool {
    let points = unsigned.iter().filter(|&&byte| byte == b'.').count();
    let digits = unsigned.iter().filter(|byte| byte.is_ascii_digit()).count();
    points <= 1 && digits >= 1 && points + digits == unsigned.len()
}

/// What stands behind YYYYMM
fn year_and_month(text: &[u8]) -> Option<&[u8]> {
    behind(behind(text, 4, 0, 9999)?, 2, 1, 12)
}

/// What stands behind YYYYMMDD
fn date(text: &[u8]) -> Option<&[u8]> {
    behind(year_and_month(text)?, 2, 1, 31)
}

/// What stands behind HH:MM
fn hour_and_minute(text: &[u8]) -> Option<&[u8]> {
    behind(behind(text, 2, 0, 23)?.strip_prefix(b":")?, 2, 0, 59)
}

/// HH:MM:SS, then nothing or a point and 3, 6, 9 or 12 digits
fn time(text: &[u8]) -> bool {
    let seconds = hour_and_minute(text).and_then(|rest| rest.strip_prefix(b":"));
    match seconds.and_then(|text| behind(text, 2, 0, 60)) {
        Some([]) => true,
        Some([b'.', digits @ ..]) => all_digits(digits) && [3, 6, 9, 12].contains(&digits.len()),
        _ => false,
    }
}

/// YYYYMM, then nothing, DD, or w1 to w5
fn month_year(text: &[u8]) -> bool {
    match year_and_month(text) {
        Some([]) => true,
        Some([b'w', week]) => (b'1'..=b'5').contains(week),
        Some(day) => behind(day, 2, 1, 31) == Some(b""),
        None => false,
    }
}

/// What stands behind the optional :SS of a time with a zone
fn after_seconds(text: &[u8]) -> Option<&[u8]> {
    match text {
        [b':', seconds @ ..] => behind(seconds, 2, 0, 59),
        _ => Some(text),
    }
}

/// Nothing, Z, or + or - with hh and optional :mm
fn zone(text: &[u8]) -> bool {
    match text {
        [] | [b'Z'] => true,
        [b'+' | b'-', offset @ ..] => match behind(offset, 2, 1, 12) {
            Some([]) => true,
            Some([b':', minutes @ ..]) => behind(minutes, 2, 0, 59) == Some(b""),
            _ => false,
        },
        _ => false,
    }
}
