//! The case file: its format, the stored cases, and the generator at other seeds.

use crate::hand::{g, hex};
use second::answer::{answer, sum};
use second::case::{pack, unpack, Case, Kind};
use second::generate::generate;
use second::verdict::Stamp;

const CASES: &[u8] = include_bytes!("../../cases/cases.bin");
const ANSWERS: &str = include_str!("../../cases/answers.txt");
const LARGEST: usize = 70_000;

/// Gives the size of a case's destination, none where it has none.
fn room(case: &Case) -> usize {
    match case {
        Case::Fill { size, .. } | Case::Write { size, .. } => *size as usize,
        _ => 0,
    }
}

#[test]
fn stored_cases_have_the_stored_answers() {
    let mut rest = CASES;
    for (number, expected) in ANSWERS.lines().enumerate() {
        let bytes = unpack(&mut rest).unwrap().expect("a case for each answer");
        let case = Case::from_bytes(&bytes).expect("a case");
        assert!(bytes.len() <= LARGEST, "size of case {number}");
        assert!(room(&case) <= LARGEST, "destination of case {number}");
        assert_eq!(case.to_bytes(), bytes, "case {number}");
        assert_eq!(answer(&case), expected, "case {number}");
    }
    assert!(rest.is_empty(), "an answer for each case");
}

#[test]
fn other_seeds_are_without_fault() {
    for seed in 1..=4 {
        let suite = generate(seed);
        assert_eq!(suite.contradictions, Vec::<String>::new());
        assert_eq!(suite.tally.faults(), Vec::<String>::new());
    }
}

#[test]
fn cases_are_packed_in_pieces() {
    let packed = hex("00000003 00 00000003 010203");
    assert_eq!(pack(&[1, 2, 3]), packed);
    let case = [vec![1, 2], vec![0x77; 300], vec![3]].concat();
    let packed = hex("0000012F 00 00000002 0102 01 0000012C 77 00 00000001 03");
    assert_eq!(pack(&case), packed);
    assert_eq!(unpack(&mut &packed[..]).unwrap(), Some(case));
    assert_eq!(unpack(&mut &b""[..]).unwrap(), None);
    assert!(unpack(&mut &packed[..9]).is_err());
    let too_long = hex("00000001 01 00000002 77");
    assert!(unpack(&mut &too_long[..]).is_err());
}

#[test]
fn parts_of_cases_stand_in_their_order() {
    let step = Case::Step {
        position: 3,
        number: u64::MAX,
        run: vec![0x30],
    };
    let bytes = hex("04 0000000000000003 FFFFFFFFFFFFFFFF 00000001 30");
    assert_eq!(step.to_bytes(), bytes);
    let field = Case::Field {
        kind: Kind::Signature,
        code: 7,
        index: 1,
        record: vec![],
    };
    assert_eq!(field.to_bytes(), hex("0A 07 0000000000000001 00000000"));
    let matching = Case::Match {
        kind: Kind::Seal,
        given: vec![0xAA],
        record: vec![0x30],
    };
    assert_eq!(matching.to_bytes(), hex("0D 00000001 AA 00000001 30"));
    let write = Case::Write {
        kind: Kind::Seal,
        size: 256,
        sheet: vec![1],
    };
    assert_eq!(write.to_bytes(), hex("07 00000100 00000001 01"));
}

#[test]
fn findings_stand_in_their_order() {
    let mut findings = g();
    findings.now = 1;
    findings.maker.usage_good = false;
    findings.maker.first = 2;
    findings.maker.last = 3;
    findings.maker.revoked = Some(4);
    findings.signer.first = 5;
    findings.signer.last = 6;
    findings.withdrawn = Some(7);
    findings.stamp = Stamp::Good(8);
    findings.signer_digest = vec![0xEE, 0xEF];
    let verdict = Case::Verdict {
        kind: Kind::Signature,
        findings,
        record: vec![0x30],
    };
    let bytes = hex("10 01 01 0000000000000001 \
         01 00 0000000000000002 0000000000000003 01 0000000000000004 \
         01 01 0000000000000005 0000000000000006 00 0000000000000000 \
         01 0000000000000007 02 0000000000000008 \
         00000001 DD 00000002 EEEF 00000001 30");
    assert_eq!(verdict.to_bytes(), bytes);
    assert_eq!(Case::from_bytes(&bytes), Some(verdict));
    assert_eq!(Case::from_bytes(&bytes[..bytes.len() - 1]), None);
    assert_eq!(Case::from_bytes(&hex("11 00000000")), None);
}

#[test]
fn sums_tell_bytes_and_lengths_apart() {
    assert_eq!(sum(b""), 0);
    assert_eq!(sum(&[0]), 1);
    assert_eq!(sum(&[0, 0]), 258);
    assert_eq!(sum(&[1, 2]), 2 * 257 + 3);
    assert_eq!(
        sum(&[0xFF; 4]),
        256 * (1 + 257 + 257 * 257 + 257 * 257 * 257) % 4_294_967_291
    );
}
