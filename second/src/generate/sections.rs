//! Sheets as lists of sections, built from values.

use super::rule::Rule;
use super::values::{CustomValue, List, SealValue, SignatureValue};

/// One section: a count, and the bytes after it.
#[derive(Clone, Debug)]
pub struct Section {
    pub label: &'static str,
    pub rule: Rule,
    pub count: u32,
    pub body: Vec<u8>,
}

/// Gives the bytes of some sections.
pub fn encode(sections: &[Section]) -> Vec<u8> {
    let mut bytes = Vec::new();
    for section in sections {
        bytes.extend(section.count.to_be_bytes());
        bytes.extend(&section.body);
    }
    bytes
}

/// Gives the sections of a seal.
pub fn seal_sections(value: &SealValue) -> Vec<Section> {
    let mut all = vec![
        string("vendor", Rule::Ia5OrNone, &value.vendor),
        string("id", Rule::Ia5, &value.id),
        integer("type", Rule::AnyInteger, value.seal_type),
        string("name", Rule::Utf8OrNone, &value.name),
    ];
    all.extend(list(&value.list));
    all.extend([
        string("created", Rule::Time, &value.created),
        string("start", Rule::Time, &value.start),
        string("end", Rule::Time, &value.end),
        string("picture type", Rule::Ia5, &value.picture_type),
        string("picture data", Rule::Octets, &value.picture_data),
        integer("width", Rule::Millimetres, value.width),
        integer("height", Rule::Millimetres, value.height),
    ]);
    all.extend(custom(&SEAL_CUSTOM, &value.custom));
    all.extend([
        string("maker", Rule::Octets, &value.maker),
        string("seal algorithm", Rule::Identifier, &value.algorithm),
        string("signed value", Rule::Bits, &value.signed_value),
    ]);
    all
}

/// Gives the sections of a signature.
pub fn signature_sections(value: &SignatureValue) -> Vec<Section> {
    let mut all = seal_sections(&value.seal);
    all.extend([
        string("signing", Rule::Time, &value.signing),
        string("original", Rule::Bits, &value.original),
        string("text", Rule::Ia5, &value.text),
    ]);
    all.extend(custom(&SIGNATURE_CUSTOM, &value.custom));
    all.extend([
        string("signer", Rule::Octets, &value.signer),
        string("algorithm", Rule::Identifier, &value.algorithm),
        string("signature", Rule::Bits, &value.signature),
    ]);
    all.push(count("stamp [0]", Rule::Optional, value.stamp.iter().len()));
    if let Some(stamp) = &value.stamp {
        all.push(string("stamp", Rule::Bits, stamp));
    }
    all
}

/// Gives the sections of a list's kind, count and entries.
fn list(list: &List) -> Vec<Section> {
    let (kind, length) = match list {
        List::Certificates(entries) => (1, entries.len()),
        List::Pairs(entries) => (2, entries.len()),
    };
    let mut all = vec![
        integer("kind", Rule::ListKind, kind),
        count("list", Rule::CertificateList, length),
    ];
    match list {
        List::Certificates(entries) => {
            for entry in entries {
                all.push(string("certificate", Rule::Octets, entry));
            }
        }
        List::Pairs(entries) => {
            for (text, digest) in entries {
                all.push(string("pair text", Rule::PrintableOrNone, text));
                all.push(string("pair digest", Rule::Octets, digest));
            }
        }
    }
    all
}

const SEAL_CUSTOM: [&str; 5] = [
    "seal custom there",
    "seal custom",
    "seal custom id",
    "seal critical",
    "seal custom value",
];
const SIGNATURE_CUSTOM: [&str; 5] = [
    "custom [0]",
    "custom",
    "custom id",
    "critical",
    "custom value",
];

/// Gives the sections of optional custom data.
fn custom(labels: &[&'static str; 5], custom: &Option<Vec<CustomValue>>) -> Vec<Section> {
    let Some(items) = custom else {
        return vec![count(labels[0], Rule::Optional, 0)];
    };
    let mut all = vec![
        count(labels[0], Rule::Optional, 1),
        count(labels[1], Rule::CustomList, items.len()),
    ];
    for item in items {
        all.push(string(labels[2], Rule::Identifier, &item.identifier));
        all.push(string(
            labels[3],
            Rule::Critical,
            &[u8::from(item.critical)],
        ));
        all.push(string(labels[4], Rule::OctetsOrNone, &item.value));
    }
    all
}

/// Gives a section of a string.
fn string(label: &'static str, rule: Rule, bytes: &[u8]) -> Section {
    Section {
        label,
        rule,
        count: bytes.len() as u32,
        body: bytes.to_vec(),
    }
}

/// Gives a section of an integer.
fn integer(label: &'static str, rule: Rule, value: i64) -> Section {
    string(label, rule, &value.to_be_bytes())
}

/// Gives a count that has no bytes of its own after it.
fn count(label: &'static str, rule: Rule, count: usize) -> Section {
    Section {
        label,
        rule,
        count: count as u32,
        body: Vec::new(),
    }
}
