//! Readings of the rules, and slips seen in other readers, on bytes written by hand.

use crate::hand::{g, hex, s_seal, s_sheet};
use second::answer::answer;
use second::case::{Case, Kind};
use second::content::{ia5_any, identifier, is_real_moment, printable, utf8};
use second::refusal::Fault;
use second::verdict::judge_seal;

/// Gives the seal of S with bytes after its picture, all lengths kept right.
fn seal_with_tail(tail: &[u8]) -> Vec<u8> {
    let seal = s_seal();
    let mut record = seal[..98].to_vec();
    record[1] += tail.len() as u8;
    record[3] += tail.len() as u8;
    record.extend(tail);
    record.extend(&seal[98..]);
    record
}

/// Gives the line that reading a seal record is answered with.
fn check_seal(record: Vec<u8>) -> String {
    let kind = Kind::Seal;
    answer(&Case::Read { kind, record })
}

/// Gives the line for one field of a seal record.
fn seal_field(record: Vec<u8>, code: u8, index: u64) -> String {
    answer(&Case::Field {
        kind: Kind::Seal,
        code,
        index,
        record,
    })
}

#[test]
fn custom_data_in_the_seal() {
    let tails = [
        ("30 00", "ACCEPTED 117"),
        ("30 07 30 05 06 01 2A 04 00", "ACCEPTED 124"),
        ("30 0A 30 08 06 01 2A 01 01 FF 04 00", "ACCEPTED 127"),
        ("30 0A 30 08 06 01 2A 01 01 00 04 00", "REFUSED 13 105"),
        ("30 09 30 07 06 01 2A 01 00 04 00", "REFUSED 13 105"),
        ("30 05 30 03 06 01 2A", "REFUSED 1 105"),
        ("30 08 30 06 06 01 2A 01 01 FF", "REFUSED 1 108"),
        ("30 0B 30 09 06 01 2A 01 01 FF 01 01 FF", "REFUSED 2 108"),
        ("30 06 30 04 06 01 2A 01", "REFUSED 3 105"),
        ("30 08 30 06 06 01 2A 04 00 00", "REFUSED 5 107"),
        ("30 07 30 05 06 01 2A 05 00", "REFUSED 2 105"),
        ("30 02 31 00", "REFUSED 2 100"),
        ("30 00 30 00", "REFUSED 5 100"),
        ("30", "REFUSED 3 98"),
        ("04 00", "REFUSED 5 98"),
    ];
    for (tail, expected) in tails {
        assert_eq!(check_seal(seal_with_tail(&hex(tail))), expected, "{tail}");
    }
}

#[test]
fn an_empty_custom_list_is_not_an_absent_one() {
    let absent = s_seal();
    let empty = seal_with_tail(&hex("30 00"));
    assert_eq!(seal_field(absent, 17, 0), "ABSENT");
    assert_eq!(seal_field(empty, 17, 0), "VALUE 0");
}

#[test]
fn a_list_of_kind_1_with_digests_is_refused() {
    let mut record = s_seal();
    record.splice(30..33, hex("30 05 13 00 04 01 AA"));
    record[1] += 4;
    record[3] += 4;
    record[19] += 4;
    record[29] += 4;
    assert_eq!(check_seal(record.clone()), "REFUSED 2 30");
    record[27] = 2;
    assert_eq!(check_seal(record), "ACCEPTED 119");
}

#[test]
fn a_sheet_is_judged_section_by_section() {
    let write = |sheet: Vec<u8>| {
        let size = 0;
        let kind = Kind::Signature;
        answer(&Case::Write { kind, size, sheet })
    };
    let sheet = s_sheet();
    assert_eq!(write(sheet.clone()), "REFUSED 20 165 SUM 0");

    let vendor = hex("00000001 80 00000005 41");
    assert_eq!(write(vendor), "REFUSED 9 0 SUM 0");
    let mut changed = sheet.clone();
    changed[40] = 0;
    assert_eq!(write(changed), "REFUSED 15 37 SUM 0");
    let mut changed = sheet.clone();
    changed[40] = 65;
    assert_eq!(write(changed), "REFUSED 16 37 SUM 0");
    let mut changed = sheet.clone();
    changed[36] = 3;
    assert_eq!(write(changed), "REFUSED 7 25 SUM 0");
    let mut changed = sheet.clone();
    changed[12] = 7;
    assert_eq!(write(changed), "REFUSED 19 9 SUM 0");
    let mut changed = sheet.clone();
    changed.push(0);
    assert_eq!(write(changed), "REFUSED 19 222 SUM 0");
    assert_eq!(write(Vec::new()), "REFUSED 19 0 SUM 0");
}

#[test]
fn moments_of_the_findings() {
    for real in [101000000, 229235959, 20240229000000, 99991231235959] {
        assert!(is_real_moment(real), "{real}");
    }
    for unreal in [
        0,
        1,
        100000000,
        20230229000000,
        99999999999999,
        100000101000000,
    ] {
        assert!(!is_real_moment(unreal), "{unreal}");
    }
}

#[test]
fn a_time_that_no_step_uses_is_refused_too() {
    let mut findings = g();
    findings.signer.last = 0;
    let refusal = judge_seal(&s_seal(), &findings).unwrap_err();
    assert_eq!((refusal.number(), refusal.place), (18, 0));
    findings.signer.last = 101000000;
    assert_eq!(judge_seal(&s_seal(), &findings).map(|j| j.number), Ok(0));
}

#[test]
fn alphabets() {
    let allowed = b"ABCDEFGHIJKLMNOPQRSTUVWXYZabcdefghijklmnopqrstuvwxyz0123456789 '()+,-./:=?";
    for byte in 0..=255 {
        assert_eq!(printable(&[byte]).is_ok(), allowed.contains(&byte));
        assert_eq!(ia5_any(&[byte]).is_ok(), byte < 0x80);
        assert_eq!(utf8(&[byte]).is_ok(), byte < 0x80);
    }
    assert_eq!(utf8(b"\xEF\xBB\xBF\xEF\xBF\xBE"), Ok(()));
}

#[test]
fn identifiers() {
    assert_eq!(identifier(&[0x01; 64]), Ok(()));
    assert_eq!(identifier(&[0x01; 65]), Err(Fault::Identifier));
    assert_eq!(identifier(&hex("FF 80 7F")), Ok(()));
    assert_eq!(identifier(b""), Err(Fault::Identifier));
    assert_eq!(identifier(&hex("2A 81")), Err(Fault::Identifier));
}
