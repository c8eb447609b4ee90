//! The table P1 to P14.

use crate::hand::{g, hex, s};
use second::content::{any_number, identifier, time, utf8};
use second::item::{tag, Reader, Stretch};
use second::refusal::Fault;
use second::verdict::{judge_signature, Judged};

/// Reads one INTEGER item.
fn integer(item: &str) -> Result<i64, u8> {
    let item = hex(item);
    let mut from = Stretch::from(&item, 0);
    let read = Reader::new(&item).integer(&mut from, any_number);
    read.map_err(|refusal| refusal.number())
}

/// Reads the header of one OCTET STRING with some content behind it; gives the content's length.
fn length(header: &str, content: usize) -> Result<usize, u8> {
    let item = [hex(header), vec![0; content]].concat();
    let mut from = Stretch::from(&item, 0);
    let read = Reader::new(&item).open(&mut from, tag::OCTET_STRING);
    read.map(|item| item.inside().len)
        .map_err(|refusal| refusal.number())
}

#[test]
fn p1_to_p3_integers() {
    assert_eq!(integer("02 01 80"), Ok(-128));
    assert_eq!(integer("02 02 00 80"), Ok(128));
    assert_eq!(integer("02 02 FF 80"), Err(6));
}

#[test]
fn p4_and_p5_lengths() {
    assert_eq!(length("04 81 7F", 127), Err(3));
    assert_eq!(length("04 82 01 00", 256), Ok(256));
}

#[test]
fn p6_and_p7_times() {
    assert_eq!(time(b"20000229000000Z"), Ok(()));
    assert_eq!(time(b"19000229000000Z"), Err(Fault::Time));
    assert_eq!(Fault::Time as u8, 10);
}

#[test]
fn p8_identifier() {
    assert_eq!(identifier(&hex("2A 80 01")), Err(Fault::Identifier));
    assert_eq!(Fault::Identifier as u8, 11);
}

#[test]
fn p9_and_p10_utf8() {
    assert_eq!(utf8(&hex("E5 8D B0")), Ok(()));
    assert_eq!(utf8(&hex("ED A0 80")), Err(Fault::Alphabet));
    assert_eq!(Fault::Alphabet as u8, 9);
}

#[test]
fn p11_to_p14_verdicts() {
    let judged = |number, notice| Ok(Judged { number, notice });
    assert_eq!(judge_signature(&s(), &g()), judged(0, false));

    let mut revoked = g();
    revoked.signer.revoked = Some(20240630120000);
    assert_eq!(judge_signature(&s(), &revoked), judged(30, false));
    revoked.signer.revoked = Some(20240630120001);
    assert_eq!(judge_signature(&s(), &revoked), judged(0, false));

    let mut late = g();
    late.now = 20260101000000;
    late.maker.first = 20240701000000;
    assert_eq!(judge_signature(&s(), &late), judged(0, true));
}
