//! The rules for the content of single items, shared by records and sheets.

use crate::refusal::Fault;

const LONGEST_IDENTIFIER: usize = 64;
const TIME_LENGTH: usize = 15;

/// Reads a shortest two's complement number of one to eight bytes.
pub fn integer(content: &[u8]) -> Result<i64, Fault> {
    if content.is_empty() || content.len() > 8 || !is_shortest(content) {
        return Err(Fault::IntegerForm);
    }
    Ok(signed(content))
}

/// Tells whether no leading byte merely repeats the sign.
fn is_shortest(content: &[u8]) -> bool {
    !matches!(content, [0x00, 0x00..=0x7F, ..] | [0xFF, 0x80..=0xFF, ..])
}

/// Gives the number that at most eight big-endian two's complement bytes stand for.
pub fn signed(bytes: &[u8]) -> i64 {
    let sign = if bytes[0] < 0x80 { 0 } else { -1 };
    bytes.iter().fold(sign, |n, &b| (n << 8) | i64::from(b))
}

/// Takes the one version there is.
pub fn version(value: i64) -> Result<i64, Fault> {
    within(value, 4, 4)
}

/// Takes the two kinds of certificate list.
pub fn list_kind(value: i64) -> Result<i64, Fault> {
    within(value, 1, 2)
}

/// Takes the widths and heights that a picture may have.
pub fn millimetres(value: i64) -> Result<i64, Fault> {
    within(value, 1, 65_535)
}

/// Takes every number.
pub fn any_number(value: i64) -> Result<i64, Fault> {
    Ok(value)
}

/// Takes a number between two bounds, both included.
fn within(value: i64, least: i64, most: i64) -> Result<i64, Fault> {
    if value < least || value > most {
        return Err(Fault::Value);
    }
    Ok(value)
}

/// Takes the header's name.
pub fn header_name(content: &[u8]) -> Result<(), Fault> {
    ia5_some(content)?;
    if content != b"ES" {
        return Err(Fault::HeaderName);
    }
    Ok(())
}

/// Takes an IA5String, empty or not.
pub fn ia5_any(content: &[u8]) -> Result<(), Fault> {
    all_bytes(content, |b| b < 0x80)
}

/// Takes an IA5String of at least one byte.
pub fn ia5_some(content: &[u8]) -> Result<(), Fault> {
    octets_some(content)?;
    ia5_any(content)
}

/// Takes a PrintableString, empty or not.
pub fn printable(content: &[u8]) -> Result<(), Fault> {
    all_bytes(content, |b| {
        b.is_ascii_alphanumeric() || b" '()+,-./:=?".contains(&b)
    })
}

/// Takes a UTF8String, empty or not.
pub fn utf8(content: &[u8]) -> Result<(), Fault> {
    if std::str::from_utf8(content).is_err() {
        return Err(Fault::Alphabet);
    }
    Ok(())
}

/// Takes any bytes, none included.
pub fn octets_any(_content: &[u8]) -> Result<(), Fault> {
    Ok(())
}

/// Takes one byte or more.
pub fn octets_some(content: &[u8]) -> Result<(), Fault> {
    if content.is_empty() {
        return Err(Fault::Empty);
    }
    Ok(())
}

/// Takes a bit string of whole bytes, at least one of them after the leading 00.
pub fn bit_string(content: &[u8]) -> Result<(), Fault> {
    if content.first() != Some(&0x00) {
        return Err(Fault::BitString);
    }
    octets_some(&content[1..])
}

/// Takes the one spelling of TRUE; FALSE is left out.
pub fn boolean(content: &[u8]) -> Result<(), Fault> {
    if content != [0xFF] {
        return Err(Fault::Boolean);
    }
    Ok(())
}

/// Takes an identifier whose parts are all complete and begin without padding.
pub fn identifier(content: &[u8]) -> Result<(), Fault> {
    if content.is_empty() || content.len() > LONGEST_IDENTIFIER {
        return Err(Fault::Identifier);
    }
    let mut at_part_start = true;
    for &byte in content {
        if at_part_start && byte == 0x80 {
            return Err(Fault::Identifier);
        }
        at_part_start = byte < 0x80;
    }
    if !at_part_start {
        return Err(Fault::Identifier);
    }
    Ok(())
}

/// Takes fourteen digits and Z that name a real date and time.
pub fn time(content: &[u8]) -> Result<(), Fault> {
    if content.len() != TIME_LENGTH || content[14] != b'Z' {
        return Err(Fault::Time);
    }
    if !content[..14].iter().all(u8::is_ascii_digit) || !is_real_moment(moment(content)) {
        return Err(Fault::Time);
    }
    Ok(())
}

/// Gives the whole number that the fourteen digits of a time make.
pub fn moment(time: &[u8]) -> u64 {
    time[..14]
        .iter()
        .fold(0, |n, &digit| n * 10 + u64::from(digit - b'0'))
}

/// Tells whether the fourteen digits of a whole number are a real date and time.
pub fn is_real_moment(moment: u64) -> bool {
    let (date, clock) = (moment / 1_000_000, moment % 1_000_000);
    let (year, month, day) = (date / 10_000, date / 100 % 100, date % 100);
    let (hour, minute, second) = (clock / 10_000, clock / 100 % 100, clock % 100);
    year <= 9999
        && day >= 1
        && day <= days_in(year, month)
        && hour <= 23
        && minute <= 59
        && second <= 59
}

/// Gives the number of days of a month, none for a month that does not exist.
fn days_in(year: u64, month: u64) -> u64 {
    match month {
        1 | 3 | 5 | 7 | 8 | 10 | 12 => 31,
        4 | 6 | 9 | 11 => 30,
        2 if is_leap(year) => 29,
        2 => 28,
        _ => 0,
    }
}

/// Tells whether a year is a leap year of the Gregorian rule.
fn is_leap(year: u64) -> bool {
    year.is_multiple_of(4) && (!year.is_multiple_of(100) || year.is_multiple_of(400))
}

/// Takes bytes that all belong to an alphabet.
fn all_bytes(content: &[u8], belongs: fn(u8) -> bool) -> Result<(), Fault> {
    if !content.iter().all(|&b| belongs(b)) {
        return Err(Fault::Alphabet);
    }
    Ok(())
}
