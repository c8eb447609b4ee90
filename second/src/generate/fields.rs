//! Cases that ask for fields and for matching entries.

use super::damage::{damages, Broken};
use super::edges::edges;
use super::random::Random;
use super::suite::Suite;
use super::tree::{full_input, seal_input, signature_input, Encoded, Place};
use super::values::{CustomValue, List, SealValue, SignatureValue};
use crate::case::{Case, Kind};

/// The codes that ask for an item of a list.
const INDEXED: [u8; 9] = [7, 8, 9, 18, 19, 20, 29, 30, 31];

/// Adds all cases with fields and matches.
pub fn add(suite: &mut Suite, random: &mut Random) {
    all_fields(suite, random);
    single_fields(suite);
    refused_records(suite, random);
    matching_entries(suite);
    matches_in_refused_records(suite);
}

/// A record, the values it was made from, and the places of its items.
struct Known {
    kind: Kind,
    seal: SealValue,
    custom: Option<Vec<CustomValue>>,
    encoded: Encoded,
}

impl Known {
    /// Makes a seal record.
    fn seal(value: &SealValue) -> Known {
        Known {
            kind: Kind::Seal,
            seal: value.clone(),
            custom: None,
            encoded: seal_input(value).encode(),
        }
    }

    /// Makes a signature record.
    fn signature(value: &SignatureValue) -> Known {
        Known {
            kind: Kind::Signature,
            seal: value.seal.clone(),
            custom: value.custom.clone(),
            encoded: signature_input(value).encode(),
        }
    }

    /// Gives the last code that this kind of record has.
    fn last_code(&self) -> u8 {
        match self.kind {
            Kind::Seal => 24,
            Kind::Signature => 36,
        }
    }

    /// Gives the place of an item, counted among those with its label.
    fn place(&self, label: &str, index: usize) -> Option<&Place> {
        let mut labelled = self.encoded.places.iter().filter(|p| p.label == label);
        labelled.nth(index)
    }

    /// Gives the answer for an item's content without some of its first bytes.
    fn part(&self, label: &str, index: usize, skipped: usize) -> String {
        match self.place(label, index) {
            None => "ABSENT".to_string(),
            Some(place) => {
                let start = place.content + skipped;
                format!("PART {start} {}", place.end - start)
            }
        }
    }

    /// Gives the answer for an item with its own tag and length.
    fn whole(&self, label: &str) -> String {
        let place = self.place(label, 0).expect("signed bytes are never absent");
        format!("PART {} {}", place.tag, place.end - place.tag)
    }

    /// Gives the answer for a field.
    fn field(&self, code: u8, index: usize) -> String {
        let value = |value: i64| format!("VALUE {value}");
        match code {
            1 => self.part("vendor", 0, 0),
            2 => self.part("id", 0, 0),
            3 => value(self.seal.seal_type),
            4 => self.part("name", 0, 0),
            5 => value(list_kind(&self.seal.list)),
            6 => value(list_length(&self.seal.list)),
            7 => self.part("certificate", index, 0),
            8 => self.part("pair text", index, 0),
            9 => self.part("pair digest", index, 0),
            10 => self.part("created", 0, 0),
            11 => self.part("start", 0, 0),
            12 => self.part("end", 0, 0),
            13 => self.part("picture type", 0, 0),
            14 => self.part("picture data", 0, 0),
            15 => value(self.seal.width),
            16 => value(self.seal.height),
            17 => custom_count(&self.seal.custom),
            18 => self.part("seal custom id", index, 0),
            19 => critical(&self.seal.custom, index),
            20 => self.part("seal custom value", index, 0),
            21 => self.part("maker", 0, 0),
            22 => self.part("seal algorithm", 0, 0),
            23 => self.part("signed value", 0, 1),
            24 => self.whole("information"),
            25 => self.part("signing", 0, 0),
            26 => self.part("original", 0, 1),
            27 => self.part("text", 0, 0),
            28 => custom_count(&self.custom),
            29 => self.part("custom id", index, 0),
            30 => critical(&self.custom, index),
            31 => self.part("custom value", index, 0),
            32 => self.part("signer", 0, 0),
            33 => self.part("algorithm", 0, 0),
            34 => self.part("signature", 0, 1),
            35 => self.part("stamp", 0, 1),
            _ => self.whole("signed part"),
        }
    }

    /// Gives the answer for all fields.
    fn fields(&self) -> String {
        let mut said = Vec::new();
        for code in 1..=self.last_code() {
            let mut index = 0;
            said.push(self.field(code, index));
            while INDEXED.contains(&code) && said[said.len() - 1] != "ABSENT" {
                index += 1;
                said.push(self.field(code, index));
            }
        }
        said.join(",")
    }
}

/// Gives the number of a list's kind.
fn list_kind(list: &List) -> i64 {
    match list {
        List::Certificates(_) => 1,
        List::Pairs(_) => 2,
    }
}

/// Gives the number of a list's entries.
fn list_length(list: &List) -> i64 {
    match list {
        List::Certificates(entries) => entries.len() as i64,
        List::Pairs(entries) => entries.len() as i64,
    }
}

/// Gives the answer for the number of items of custom data.
fn custom_count(custom: &Option<Vec<CustomValue>>) -> String {
    match custom {
        None => "ABSENT".to_string(),
        Some(items) => format!("VALUE {}", items.len()),
    }
}

/// Gives the answer for critical.
fn critical(custom: &Option<Vec<CustomValue>>, index: usize) -> String {
    let item = custom.as_ref().and_then(|items| items.get(index));
    match item {
        None => "ABSENT".to_string(),
        Some(item) => format!("VALUE {}", u8::from(item.critical)),
    }
}

/// Adds all fields of allowed records.
fn all_fields(suite: &mut Suite, random: &mut Random) {
    let mut all: Vec<Known> = edges().iter().map(Known::signature).collect();
    for kind in [1, 2] {
        all.push(Known::seal(&SealValue::full(kind)));
        all.push(Known::signature(&SignatureValue::full(kind)));
    }
    for _ in 0..30 {
        let value = SignatureValue::random(random, 128);
        all.push(Known::seal(&value.seal));
        all.push(Known::signature(&value));
    }
    for known in all {
        let case = Case::Fields {
            kind: known.kind,
            record: known.encoded.bytes.clone(),
        };
        suite.expect("all fields", case, known.fields());
    }
}

/// Adds single fields of full records, at indexes inside and past the end.
fn single_fields(suite: &mut Suite) {
    for list in [1, 2] {
        for known in [
            Known::seal(&SealValue::full(list)),
            Known::signature(&SignatureValue::full(list)),
        ] {
            for code in 1..=known.last_code() {
                let indexes: &[u64] = if INDEXED.contains(&code) {
                    &[0, 1, 2, 63, 64, 256, 65_536, 1 << 32, u64::MAX]
                } else {
                    &[0]
                };
                for &index in indexes {
                    let case = Case::Field {
                        kind: known.kind,
                        code,
                        index,
                        record: known.encoded.bytes.clone(),
                    };
                    let expected = known.field(code, index as usize);
                    suite.expect("one field", case, expected);
                }
            }
        }
    }
}

/// Adds fields of damaged records, each of which answers with the refusal.
fn refused_records(suite: &mut Suite, random: &mut Random) {
    for kind in [Kind::Seal, Kind::Signature] {
        let input = full_input(kind, 1);
        let last = if kind == Kind::Seal { 24 } else { 36 };
        for path in input.paths() {
            let all = damages(input.at(&path));
            let damage = random.pick(&all);
            let broken = Broken::by(&input, &path, damage);
            let expected = broken.refused();
            let code = 1 + random.below(last) as u8;
            let case = Case::Field {
                kind,
                code,
                index: 0,
                record: broken.record,
            };
            suite.expect("one field of a damaged record", case, expected);
        }
    }
    let record = vec![0x30, 0x80];
    for (kind, count) in [(Kind::Seal, 24), (Kind::Signature, 36)] {
        let expected = vec!["REFUSED 3 0"; count].join(",");
        let record = record.clone();
        let case = Case::Fields { kind, record };
        suite.expect("all fields of a damaged record", case, expected);
    }
}

/// Adds matches: of each entry, the first of equal ones, and of what no entry equals.
fn matching_entries(suite: &mut Suite) {
    let certificates = [
        &b"\x01"[..],
        b"\x01\x02",
        b"\xAA",
        b"\x01",
        b"\x01\x02\x03",
        b"\xAA",
    ];
    let absent = [
        &b""[..],
        b"\x00",
        b"\x02",
        b"\xAA\xAA",
        b"\x01\x02\x03\x04",
        b"ab",
    ];
    let as_certificates = List::Certificates(certificates.iter().map(|c| c.to_vec()).collect());
    let as_pairs = List::Pairs(
        certificates
            .iter()
            .map(|c| (b"ab".to_vec(), c.to_vec()))
            .collect(),
    );
    for (list, label) in [(as_certificates, "certificate"), (as_pairs, "pair digest")] {
        let mut value = SignatureValue::s();
        value.seal.list = list;
        for known in [Known::seal(&value.seal), Known::signature(&value)] {
            let mut add = |given: &[u8], expected: String| {
                let case = Case::Match {
                    kind: known.kind,
                    given: given.to_vec(),
                    record: known.encoded.bytes.clone(),
                };
                suite.expect("match", case, expected);
            };
            for first in [0, 1, 2, 4] {
                add(certificates[first], known.part(label, first, 0));
            }
            for given in absent {
                add(given, "ABSENT".to_string());
            }
        }
    }
}

/// Adds matches in damaged records, which answer with the refusal.
fn matches_in_refused_records(suite: &mut Suite) {
    for kind in [Kind::Seal, Kind::Signature] {
        let input = full_input(kind, 1);
        for path in input.paths() {
            let all = damages(input.at(&path));
            let broken = Broken::by(&input, &path, &all[0]);
            let expected = broken.refused();
            let case = Case::Match {
                kind,
                given: vec![0xAA],
                record: broken.record,
            };
            suite.expect("match in a damaged record", case, expected);
        }
    }
}
