//! The record S and the findings G, written out by hand from the rules.

use second::verdict::{Certificate, Findings, Stamp};

/// S, one item a line, with its offset before it.
const S_LINES: &[(usize, &str)] = &[
    (0, "30 81 A2"),
    (3, "30 81 8E"),
    (6, "02 01 04"),
    (9, "30 71"),
    (11, "30 5E"),
    (13, "30 09"),
    (15, "16 02 45 53"),
    (19, "02 01 04"),
    (22, "16 00"),
    (24, "16 01 41"),
    (27, "30 40"),
    (29, "02 01 01"),
    (32, "0C 00"),
    (34, "02 01 01"),
    (37, "30 03"),
    (39, "04 01 AA"),
    (42, "18 0F 32 30 32 34 30 31 30 31 30 30 30 30 30 30 5A"),
    (59, "18 0F 32 30 32 34 30 31 30 31 30 30 30 30 30 30 5A"),
    (76, "18 0F 32 30 32 34 31 32 33 31 32 33 35 39 35 39 5A"),
    (93, "30 0C"),
    (95, "16 01 42"),
    (98, "04 01 00"),
    (101, "02 01 28"),
    (104, "02 01 28"),
    (107, "04 01 BB"),
    (110, "06 08 2A 81 1C CF 55 01 83 75"),
    (120, "03 02 00 CC"),
    (124, "18 0F 32 30 32 34 30 36 33 30 31 32 30 30 30 30 5A"),
    (141, "03 02 00 DD"),
    (145, "16 01 31"),
    (148, "04 01 AA"),
    (151, "06 08 2A 81 1C CF 55 01 83 75"),
    (161, "03 02 00 EE"),
];

/// Reads hexadecimal digits; spaces are skipped.
pub fn hex(text: &str) -> Vec<u8> {
    let digits: Vec<u32> = text
        .chars()
        .filter(|c| *c != ' ')
        .map(|c| c.to_digit(16).expect("a hexadecimal digit"))
        .collect();
    assert!(digits.len().is_multiple_of(2), "two digits make a byte");
    digits
        .chunks(2)
        .map(|pair| (pair[0] * 16 + pair[1]) as u8)
        .collect()
}

/// Gives the record S.
pub fn s() -> Vec<u8> {
    let mut record = Vec::new();
    for (offset, line) in S_LINES {
        assert_eq!(record.len(), *offset, "the offset before {line}");
        record.extend(hex(line));
    }
    record
}

/// Gives the seal of S.
pub fn s_seal() -> Vec<u8> {
    s()[9..124].to_vec()
}

/// Gives the sheet of S's seal.
pub fn s_seal_sheet() -> Vec<u8> {
    let mut sheet = hex("00000000 00000001 41 00000008 0000000000000001 00000000");
    sheet.extend(hex("00000008 0000000000000001 00000001 00000001 AA"));
    for time in [b"20240101000000Z", b"20240101000000Z", b"20241231235959Z"] {
        sheet.extend(hex("0000000F"));
        sheet.extend(time);
    }
    sheet.extend(hex("00000001 42 00000001 00"));
    sheet.extend(hex("00000008 0000000000000028 00000008 0000000000000028"));
    sheet.extend(hex(
        "00000000 00000001 BB 00000008 2A811CCF55018375 00000001 CC",
    ));
    sheet
}

/// Gives the sheet of S.
pub fn s_sheet() -> Vec<u8> {
    let mut sheet = s_seal_sheet();
    sheet.extend(hex("0000000F"));
    sheet.extend(b"20240630120000Z");
    sheet.extend(hex("00000001 DD 00000001 31 00000000"));
    sheet.extend(hex(
        "00000001 AA 00000008 2A811CCF55018375 00000001 EE 00000000",
    ));
    sheet
}

/// Gives the findings G.
pub fn g() -> Findings {
    let certificate = Certificate {
        chain_good: true,
        usage_good: true,
        first: 20230101000000,
        last: 20251231235959,
        revoked: None,
    };
    Findings {
        signature_good: true,
        seal_signature_good: true,
        now: 20240701000000,
        maker: certificate,
        signer: certificate,
        withdrawn: None,
        stamp: Stamp::Unchecked,
        original: vec![0xDD],
        signer_digest: Vec::new(),
    }
}
