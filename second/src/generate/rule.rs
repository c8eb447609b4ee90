//! What each item's content must be, and contents that break it with the number each must get.

/// The rule of an item's content.
#[derive(Clone, Copy, Debug, PartialEq, Eq)]
pub enum Rule {
    Group,
    CertificateList,
    CustomList,
    Version,
    ListKind,
    Millimetres,
    AnyInteger,
    HeaderName,
    Ia5OrNone,
    Ia5,
    Utf8OrNone,
    PrintableOrNone,
    OctetsOrNone,
    Octets,
    Bits,
    Identifier,
    Time,
    Critical,
    Optional,
}

/// Content that breaks a rule, the number it gets, and a number that it would get if the order were another.
#[derive(Clone, Debug)]
pub struct Bad {
    pub number: u8,
    pub also: Option<u8>,
    pub content: Vec<u8>,
}

impl Bad {
    /// Makes content with one fault.
    fn one(number: u8, content: &[u8]) -> Bad {
        Bad {
            number,
            also: None,
            content: content.to_vec(),
        }
    }

    /// Makes contents with the same one fault.
    fn each<Content: AsRef<[u8]>>(number: u8, contents: &[Content]) -> Vec<Bad> {
        let one = |content: &Content| Bad::one(number, content.as_ref());
        contents.iter().map(one).collect()
    }

    /// Makes content with two faults, the first of which answers.
    fn two(number: u8, also: u8, content: &[u8]) -> Bad {
        Bad {
            number,
            also: Some(also),
            content: content.to_vec(),
        }
    }
}

/// Gives contents of an item in a record that break its rule.
pub fn bad_contents(rule: Rule) -> Vec<Bad> {
    match rule {
        Rule::Group | Rule::CertificateList | Rule::CustomList | Rule::Optional => Vec::new(),
        Rule::AnyInteger => bad_integers(),
        Rule::Version => bad_bounded(&[0, 3, 5, -4, 260, i64::MAX, i64::MIN]),
        Rule::ListKind => bad_bounded(&[0, 3, -1, 257, 258, i64::MIN]),
        Rule::Millimetres => bad_bounded(&[0, -1, 65_536, -32_768, 4_294_967_297, i64::MIN]),
        Rule::HeaderName => bad_names(),
        Rule::Ia5OrNone => bad_ia5(),
        Rule::Ia5 => with_empty(14, bad_ia5()),
        Rule::Utf8OrNone => bad_utf8(),
        Rule::PrintableOrNone => bad_printable(),
        Rule::OctetsOrNone => Vec::new(),
        Rule::Octets => with_empty(14, Vec::new()),
        Rule::Bits => bad_bits(),
        Rule::Identifier => with_empty(11, bad_identifiers()),
        Rule::Time => with_empty(10, bad_times()),
        Rule::Critical => bad_booleans(),
    }
}

/// Gives the bytes of a sheet's section that break its own rule.
pub fn bad_sections(rule: Rule) -> Vec<Bad> {
    match rule {
        Rule::Bits => with_empty(14, Vec::new()),
        Rule::ListKind => bad_eight_bytes(&[0, 3, -1, 257, 4_294_967_297, i64::MIN]),
        Rule::Millimetres => bad_eight_bytes(&[0, -1, 65_536, 4_294_967_297, i64::MAX, i64::MIN]),
        Rule::AnyInteger | Rule::Critical => Vec::new(),
        _ => bad_contents(rule),
    }
}

/// Puts the empty content before others.
fn with_empty(number: u8, others: Vec<Bad>) -> Vec<Bad> {
    let mut all = vec![Bad::one(number, b"")];
    all.extend(others);
    all
}

/// Gives contents that are no shortest integer of at most eight bytes.
fn bad_integers() -> Vec<Bad> {
    let contents = [
        &b""[..],
        b"\x00\x01",
        b"\x00\x7F",
        b"\x00\x00",
        b"\xFF\x80",
        b"\xFF\xFF",
        b"\x00\x00\x80",
        b"\x01\x00\x00\x00\x00\x00\x00\x00\x00",
        b"\x00\x80\x00\x00\x00\x00\x00\x00\x00",
    ];
    Bad::each(6, &contents)
}

/// Gives values that are not allowed, and badly formed integers that would not be allowed either.
fn bad_bounded(values: &[i64]) -> Vec<Bad> {
    let mut all = vec![Bad::one(6, b""), Bad::one(6, &[0; 9])];
    all.push(Bad::one(6, b"\x00\x01"));
    all.push(Bad::two(6, 7, b"\x00\x00"));
    all.push(Bad::two(6, 7, b"\xFF\xFF"));
    all.push(Bad::two(6, 7, b"\xFF\xFC"));
    all.push(Bad::two(6, 7, b"\x00\x01\x00\x00"));
    for &value in values {
        all.push(Bad::one(7, &shortest_integer(value)));
    }
    all
}

/// Gives values that are not allowed, in the eight bytes of a sheet.
fn bad_eight_bytes(values: &[i64]) -> Vec<Bad> {
    values
        .iter()
        .map(|value| Bad::one(7, &value.to_be_bytes()))
        .collect()
}

/// Gives names other than "ES".
fn bad_names() -> Vec<Bad> {
    let mut all = vec![Bad::two(14, 8, b"")];
    for content in [&b"\x80"[..], b"E\xD3", b"ES\x80", b"\xC5S"] {
        all.push(Bad::two(9, 8, content));
    }
    for content in [
        &b"E"[..],
        b"es",
        b"Es",
        b"SE",
        b"ESS",
        b"ES\x00",
        b"\x00\x00",
    ] {
        all.push(Bad::one(8, content));
    }
    all
}

/// Gives bytes outside IA5.
fn bad_ia5() -> Vec<Bad> {
    let contents = [&b"\x80"[..], b"\xFF", b"A\xC3\xA9", b"AB\x80", b"\x80A"];
    Bad::each(9, &contents)
}

/// Gives bytes that are not UTF-8.
fn bad_utf8() -> Vec<Bad> {
    let contents = [
        &b"\x80"[..],
        b"\xBF",
        b"\xC0\x80",
        b"\xC1\xBF",
        b"\xC2",
        b"\xC2\x41",
        b"\xC2\xC0",
        b"\xE0\x80\x80",
        b"\xE0\x9F\xBF",
        b"\xE5\x8D",
        b"\xE5\x41\x80",
        b"\xE5\x8D\xC0",
        b"\xED\xA0\x80",
        b"\xED\xBF\xBF",
        b"\xF0\x80\x80\x80",
        b"\xF0\x8F\xBF\xBF",
        b"\xF0\x9F\x98",
        b"\xF1\x80\x80\x7F",
        b"\xF4\x90\x80\x80",
        b"\xF5\x80\x80\x80",
        b"\xFE",
        b"\xFF",
        b"ok\xE5\x8D\xB0\x80",
    ];
    Bad::each(9, &contents)
}

/// Gives bytes next to the printable ones.
fn bad_printable() -> Vec<Bad> {
    let mut all: Vec<Bad> = b"\x00\x1F!\"#$%&*;<>@[\\]^_`{|}~\x7F\x80\xFF"
        .iter()
        .map(|&byte| Bad::one(9, &[byte]))
        .collect();
    all.push(Bad::one(9, b"AB_"));
    all
}

/// Gives bit strings that do not begin with 00 or have nothing after it.
fn bad_bits() -> Vec<Bad> {
    vec![
        Bad::two(12, 14, b""),
        Bad::two(12, 14, b"\x01"),
        Bad::two(12, 14, b"\xFF"),
        Bad::one(12, b"\x01\xAA"),
        Bad::one(12, b"\x07\x80"),
        Bad::one(12, b"\x80\x00"),
        Bad::one(14, b"\x00"),
    ]
}

/// Gives identifiers that are too long, padded or unfinished.
fn bad_identifiers() -> Vec<Bad> {
    let contents = [
        &[0x01; 65][..],
        b"\x80",
        b"\x80\x01",
        b"\x2A\x80\x01",
        b"\x2A\x01\x80\x80\x01",
        b"\x81",
        b"\x2A\x81",
        b"\x2A\x81\x80",
        b"\xFF\xFF",
    ];
    Bad::each(11, &contents)
}

/// Gives times that are not fourteen digits of a real date and Z.
fn bad_times() -> Vec<Bad> {
    let contents = [
        "Z",
        "20240101000000",
        "2024010100000Z",
        "202401010000000Z",
        "20240101000000z",
        "202401010000000",
        "2024010100000 Z",
        " 2024010100000Z",
        "2024-101000000Z",
        "2024010100:000Z",
        "/0240101000000Z",
        "20240101000000.5Z",
        "20240101000000+0800",
        "202401010000Z",
        "20240001000000Z",
        "20241301000000Z",
        "20240100000000Z",
        "20240132000000Z",
        "20240431000000Z",
        "20240631000000Z",
        "20240931000000Z",
        "20241131000000Z",
        "20240230000000Z",
        "20230229000000Z",
        "19000229000000Z",
        "21000229000000Z",
        "00010229000000Z",
        "20240101240000Z",
        "20240101006000Z",
        "20240101000060Z",
        "20240101999999Z",
    ];
    Bad::each(10, &contents)
}

/// Gives BOOLEAN contents other than FF alone.
fn bad_booleans() -> Vec<Bad> {
    let contents = [
        &b""[..],
        b"\x00",
        b"\x01",
        b"\xFE",
        b"\xFF\xFF",
        b"\xFF\x00",
        b"\x00\xFF",
    ];
    Bad::each(13, &contents)
}

/// Gives an integer's shortest content: the fewest bytes from which its sign can be told.
pub fn shortest_integer(value: i64) -> Vec<u8> {
    let bits = 65 - if value < 0 { !value } else { value }.leading_zeros() as usize;
    let width = bits.div_ceil(8);
    value.to_be_bytes()[8 - width..].to_vec()
}
