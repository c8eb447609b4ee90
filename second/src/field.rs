//! Handing out: each field of a record by its code, and the matching entry.

use crate::item::Span;
use crate::record::{Custom, Listed, Seal, SealRecord, SignatureRecord};
use crate::refusal::Refusal;

/// The last code of a seal's fields; a signature's own begin behind it.
pub const LAST_SEAL_CODE: u8 = 24;
/// The last code of a signature's fields.
pub const LAST_CODE: u8 = 36;

/// What the question for a field is answered with.
#[derive(Clone, Copy, Debug, PartialEq, Eq)]
pub enum Field {
    Refused(Refusal),
    Absent,
    Part(Span),
    Value(i64),
}

impl Field {
    /// Tells whether the field is there.
    pub fn is_there(&self) -> bool {
        matches!(self, Field::Part(_) | Field::Value(_))
    }

    /// Answers with a part that may be missing.
    fn part(span: Option<Span>) -> Field {
        span.map_or(Field::Absent, Field::Part)
    }

    /// Answers with a value that may be missing.
    fn value(value: Option<i64>) -> Field {
        value.map_or(Field::Absent, Field::Value)
    }
}

/// Tells whether a code asks for a field of a list's item, so that the index matters.
pub fn is_indexed(code: u8) -> bool {
    matches!(code, 7..=9 | 18..=20 | 29..=31)
}

/// Answers for one field of a seal record.
pub fn seal_field(read: &Result<SealRecord, Refusal>, code: u8, index: u64) -> Field {
    match read {
        Err(refusal) => Field::Refused(*refusal),
        Ok(record) => seal_part(&record.seal, record.signed, code, index),
    }
}

/// Answers for one field of a signature record.
pub fn signature_field(read: &Result<SignatureRecord, Refusal>, code: u8, index: u64) -> Field {
    match read {
        Err(refusal) => Field::Refused(*refusal),
        Ok(record) => signature_part(record, code, index),
    }
}

/// Answers for the entry of a seal record that equals the given bytes.
pub fn seal_match(read: &Result<SealRecord, Refusal>, record: &[u8], given: &[u8]) -> Field {
    match read {
        Err(refusal) => Field::Refused(*refusal),
        Ok(read) => Field::part(read.seal.listed.matching(record, given)),
    }
}

/// Answers for the entry of a signature record's list that equals the given bytes.
pub fn signature_match(
    read: &Result<SignatureRecord, Refusal>,
    record: &[u8],
    given: &[u8],
) -> Field {
    match read {
        Err(refusal) => Field::Refused(*refusal),
        Ok(read) => Field::part(read.signature.seal.listed.matching(record, given)),
    }
}

/// Gives one field of an accepted signature record.
fn signature_part(record: &SignatureRecord, code: u8, index: u64) -> Field {
    let signature = &record.signature;
    match code {
        25 => Field::Part(signature.signing),
        26 => Field::Part(signature.original),
        27 => Field::Part(signature.text),
        28..=31 => custom_part(signature.custom.as_deref(), code - 28, index),
        32 => Field::Part(signature.signer),
        33 => Field::Part(signature.algorithm),
        34 => Field::Part(signature.value),
        35 => Field::part(signature.stamp),
        36 => Field::Part(record.signed),
        _ => seal_part(&signature.seal, record.seal_signed, code, index),
    }
}

/// Gives one field of an accepted seal; a code that a seal does not have is absent.
fn seal_part(seal: &Seal, signed: Span, code: u8, index: u64) -> Field {
    match code {
        1 => Field::Part(seal.vendor),
        2 => Field::Part(seal.id),
        3 => Field::Value(seal.kind_of_seal),
        4 => Field::Part(seal.name),
        5 => Field::Value(seal.listed.kind()),
        6..=9 => listed_part(&seal.listed, code, index),
        10 => Field::Part(seal.created),
        11 => Field::Part(seal.start),
        12 => Field::Part(seal.end),
        13 => Field::Part(seal.picture_type),
        14 => Field::Part(seal.picture_data),
        15 => Field::Value(seal.width),
        16 => Field::Value(seal.height),
        17..=20 => custom_part(seal.custom.as_deref(), code - 17, index),
        21 => Field::Part(seal.maker),
        22 => Field::Part(seal.algorithm),
        23 => Field::Part(seal.signed_value),
        24 => Field::Part(signed),
        _ => Field::Absent,
    }
}

/// Gives the certificate list's count, or one field of one of its entries.
fn listed_part(listed: &Listed, code: u8, index: u64) -> Field {
    match (code, listed) {
        (6, _) => Field::Value(listed.count() as i64),
        (7, Listed::Certificates(entries)) => Field::part(nth(entries, index).copied()),
        (8, Listed::Digests(entries)) => Field::part(nth(entries, index).map(|e| e.text)),
        (9, Listed::Digests(entries)) => Field::part(nth(entries, index).map(|e| e.digest)),
        _ => Field::Absent,
    }
}

/// Gives custom data's count, or one field of one of its items.
fn custom_part(custom: Option<&[Custom]>, which: u8, index: u64) -> Field {
    let Some(items) = custom else {
        return Field::Absent;
    };
    let item = nth(items, index);
    match which {
        0 => Field::Value(items.len() as i64),
        1 => Field::part(item.map(|i| i.identifier)),
        2 => Field::value(item.map(|i| i64::from(i.critical))),
        _ => Field::part(item.map(|i| i.value)),
    }
}

/// Gives the entry at an index of any size, none past the last.
fn nth<T>(entries: &[T], index: u64) -> Option<&T> {
    usize::try_from(index).ok().and_then(|i| entries.get(i))
}
