//! The numbers that the rules give for the record S, and S with single bytes changed by hand.

use crate::hand::{hex, s, s_seal, s_seal_sheet, s_sheet};
use second::answer::answer;
use second::case::{Case, Kind};
use second::generate::sections::{encode, signature_sections};
use second::generate::tree::signature_input;
use second::generate::values::SignatureValue;
use second::item::Span;
use second::record::{read_seal, read_signature};
use second::writer::{fill_from_seal, fill_from_signature, write_seal, write_signature};

/// Gives the line that reading a signature record is answered with.
fn check(record: &[u8]) -> String {
    answer(&Case::Read {
        kind: Kind::Signature,
        record: record.to_vec(),
    })
}

#[test]
fn sizes_of_s() {
    assert_eq!(s_seal().len(), 115);
    assert_eq!(s_seal_sheet().len(), 163);
    assert_eq!(s().len(), 165);
    assert_eq!(s_sheet().len(), 222);
    assert_eq!(read_seal(&s_seal()).unwrap().whole.len, 115);
    assert_eq!(read_signature(&s()).unwrap().whole.len, 165);
}

#[test]
fn signed_bytes_of_s() {
    let read = read_signature(&s()).unwrap();
    assert_eq!(read.signed, Span { start: 3, len: 145 });
    assert_eq!(read.seal_signed, Span { start: 11, len: 96 });
}

#[test]
fn sheet_of_s_is_filled_and_nothing_else_changes() {
    let mut destination = [0x99; 230];
    assert_eq!(fill_from_signature(&s(), &mut destination), Ok(222));
    assert_eq!(destination[..222], s_sheet());
    assert_eq!(destination[222..], [0x99; 8]);
    let mut destination = [0x99; 163];
    assert_eq!(fill_from_seal(&s_seal(), &mut destination), Ok(163));
    assert_eq!(destination[..], s_seal_sheet());
}

#[test]
fn record_s_is_written_and_nothing_else_changes() {
    let mut destination = [0x99; 170];
    assert_eq!(write_signature(&s_sheet(), &mut destination), Ok(165));
    assert_eq!(destination[..165], s());
    assert_eq!(destination[165..], [0x99; 5]);
    let mut destination = [0x99; 115];
    assert_eq!(write_seal(&s_seal_sheet(), &mut destination), Ok(115));
    assert_eq!(destination[..], s_seal());
}

#[test]
fn short_destinations_keep_their_bytes() {
    let mut destination = [0x99; 164];
    let refusal = write_signature(&s_sheet(), &mut destination).unwrap_err();
    assert_eq!((refusal.number(), refusal.place), (20, 165));
    let refusal = fill_from_signature(&s(), &mut destination).unwrap_err();
    assert_eq!((refusal.number(), refusal.place), (20, 222));
    assert_eq!(destination, [0x99; 164]);
}

#[test]
fn lines_of_the_check_program() {
    assert_eq!(check(&s()), "ACCEPTED 165");
    assert_eq!(check(&[s(), vec![0]].concat()), "REFUSED 5 165");
    assert_eq!(check(&hex("30 80")), "REFUSED 3 0");
    assert_eq!(check(b""), "REFUSED 1 0");
    assert_eq!(check(&hex("30 82 FF FC")), "REFUSED 17 0");
    assert_eq!(check(&hex("30 82 FF FB")), "REFUSED 4 0");
}

#[test]
fn s_as_a_run() {
    let run = |bytes: Vec<u8>| answer(&Case::Run { run: bytes });
    assert_eq!(run(Vec::new()), "RECORDS 0");
    assert_eq!(run([s(), s()].concat()), "RECORDS 2");
    assert_eq!(run([s(), vec![0]].concat()), "REFUSED 2 165 AFTER 1");
    let large = [s(), hex("30 82 FF FC")].concat();
    assert_eq!(run(large), "REFUSED 17 165 AFTER 1");
    let step = answer(&Case::Step {
        position: 165,
        number: u64::MAX,
        run: [s(), s()].concat(),
    });
    let top = u64::MAX;
    assert_eq!(step, format!("RECORD 165 165 POSITION 330 NUMBER {top}"));
}

#[test]
fn generator_makes_s() {
    let value = SignatureValue::s();
    assert_eq!(signature_input(&value).encode().bytes, s());
    assert_eq!(encode(&signature_sections(&value)), s_sheet());
}

#[test]
fn fields_of_s() {
    let said = answer(&Case::Fields {
        kind: Kind::Signature,
        record: s(),
    });
    let expected = [
        "PART 24 0",
        "PART 26 1",
        "VALUE 1",
        "PART 34 0",
        "VALUE 1",
        "VALUE 1",
        "PART 41 1",
        "ABSENT",
        "ABSENT",
        "ABSENT",
        "PART 44 15",
        "PART 61 15",
        "PART 78 15",
        "PART 97 1",
        "PART 100 1",
        "VALUE 40",
        "VALUE 40",
        "ABSENT",
        "ABSENT",
        "ABSENT",
        "ABSENT",
        "PART 109 1",
        "PART 112 8",
        "PART 123 1",
        "PART 11 96",
        "PART 126 15",
        "PART 144 1",
        "PART 147 1",
        "ABSENT",
        "ABSENT",
        "ABSENT",
        "ABSENT",
        "PART 150 1",
        "PART 153 8",
        "PART 164 1",
        "ABSENT",
        "PART 3 145",
    ];
    assert_eq!(said, expected.join(","));
}

#[test]
fn s_with_bytes_changed() {
    let changes = [
        (0, "31", "REFUSED 2 0"),
        (1, "80", "REFUSED 3 0"),
        (2, "7F", "REFUSED 3 0"),
        (2, "A3", "REFUSED 4 0"),
        (2, "A1", "REFUSED 4 161"),
        (5, "8D", "REFUSED 4 145"),
        (7, "00", "REFUSED 6 6"),
        (8, "05", "REFUSED 7 6"),
        (14, "07", "REFUSED 1 22"),
        (14, "08", "REFUSED 3 22"),
        (14, "0A", "REFUSED 5 24"),
        (16, "00", "REFUSED 14 15"),
        (17, "C5", "REFUSED 9 15"),
        (17, "65 73", "REFUSED 8 15"),
        (25, "00", "REFUSED 14 24"),
        (26, "80", "REFUSED 9 24"),
        (31, "80", "ACCEPTED 165"),
        (36, "02", "REFUSED 2 39"),
        (36, "03", "REFUSED 7 34"),
        (38, "00", "REFUSED 15 37"),
        (40, "00", "REFUSED 14 39"),
        (40, "02", "REFUSED 4 39"),
        (40, "80", "REFUSED 3 39"),
        (40, "81", "REFUSED 4 39"),
        (40, "82", "REFUSED 3 39"),
        (48, "31 33", "REFUSED 10 42"),
        (94, "0B", "REFUSED 4 104"),
        (103, "00", "REFUSED 7 101"),
        (103, "80", "REFUSED 7 101"),
        (112, "80", "REFUSED 11 110"),
        (119, "F5", "REFUSED 11 110"),
        (121, "01", "REFUSED 14 120"),
        (122, "01", "REFUSED 12 120"),
        (140, "7A", "REFUSED 10 124"),
        (146, "00", "REFUSED 14 145"),
        (149, "00", "REFUSED 14 148"),
        (163, "FF", "REFUSED 12 161"),
    ];
    for (offset, bytes, expected) in changes {
        let mut record = s();
        let bytes = hex(bytes);
        record[offset..offset + bytes.len()].copy_from_slice(&bytes);
        assert_eq!(check(&record), expected, "{bytes:02X?} at {offset}");
    }
}
