//! Allowed field values: the record S, full ones, large ones, and random ones.

use super::random::Random;

/// The field values of a seal.
#[derive(Clone, Debug)]
pub struct SealValue {
    pub vendor: Vec<u8>,
    pub id: Vec<u8>,
    pub seal_type: i64,
    pub name: Vec<u8>,
    pub list: List,
    pub created: Vec<u8>,
    pub start: Vec<u8>,
    pub end: Vec<u8>,
    pub picture_type: Vec<u8>,
    pub picture_data: Vec<u8>,
    pub width: i64,
    pub height: i64,
    pub custom: Option<Vec<CustomValue>>,
    pub maker: Vec<u8>,
    pub algorithm: Vec<u8>,
    pub signed_value: Vec<u8>,
}

/// The entries of a certificate list.
#[derive(Clone, Debug)]
pub enum List {
    Certificates(Vec<Vec<u8>>),
    Pairs(Vec<(Vec<u8>, Vec<u8>)>),
}

/// The values of an item of custom data.
#[derive(Clone, Debug)]
pub struct CustomValue {
    pub identifier: Vec<u8>,
    pub critical: bool,
    pub value: Vec<u8>,
}

/// The field values of a signature.
#[derive(Clone, Debug)]
pub struct SignatureValue {
    pub seal: SealValue,
    pub signing: Vec<u8>,
    pub original: Vec<u8>,
    pub text: Vec<u8>,
    pub custom: Option<Vec<CustomValue>>,
    pub signer: Vec<u8>,
    pub algorithm: Vec<u8>,
    pub signature: Vec<u8>,
    pub stamp: Option<Vec<u8>>,
}

const ALGORITHM: [u8; 8] = [0x2A, 0x81, 0x1C, 0xCF, 0x55, 0x01, 0x83, 0x75];
/// The alphabet of a PrintableString.
pub const PRINTABLE: &[u8] =
    b"ABCDEFGHIJKLMNOPQRSTUVWXYZabcdefghijklmnopqrstuvwxyz0123456789 '()+,-./:=?";

/// Times at the edges of what a time may be.
pub const TIMES: [&str; 12] = [
    "00000101000000Z",
    "00000229235959Z",
    "99991231235959Z",
    "20000229000000Z",
    "16000229120000Z",
    "20240229235959Z",
    "20230228235959Z",
    "19000228000000Z",
    "20240430000000Z",
    "20240131000000Z",
    "20241130230000Z",
    "20240630005900Z",
];

/// Gives the integers at both ends of every width, and those just past them.
pub fn integers() -> Vec<i64> {
    let mut all = vec![0, 1, -1, i64::MAX, i64::MIN];
    for width in 1..8 {
        let past = 1 << (8 * width - 1);
        all.extend([past - 1, past, -past, -past - 1]);
    }
    all
}

/// Names at the edges of UTF-8.
pub const NAMES: [&[u8]; 12] = [
    b"",
    b"\x00",
    b"\x7F",
    b"\xC2\x80",
    b"\xDF\xBF",
    b"\xE0\xA0\x80",
    b"\xE5\x8D\xB0",
    b"\xED\x9F\xBF",
    b"\xEE\x80\x80",
    b"\xEF\xBB\xBF\xEF\xBF\xBF",
    b"\xF0\x90\x80\x80",
    b"\xF4\x8F\xBF\xBF",
];

/// Identifiers at the edges.
pub fn identifiers() -> Vec<Vec<u8>> {
    let mut longest = vec![0xFF; 63];
    longest.push(0x7F);
    vec![
        vec![0x00],
        vec![0x7F],
        vec![0x2A, 0x00],
        vec![0x81, 0x00],
        vec![0xFF, 0x80, 0x7F],
        vec![0x01; 64],
        longest,
        ALGORITHM.to_vec(),
    ]
}

impl SealValue {
    /// Gives the seal of the record S.
    pub fn s() -> SealValue {
        SealValue {
            vendor: Vec::new(),
            id: b"A".to_vec(),
            seal_type: 1,
            name: Vec::new(),
            list: List::Certificates(vec![vec![0xAA]]),
            created: b"20240101000000Z".to_vec(),
            start: b"20240101000000Z".to_vec(),
            end: b"20241231235959Z".to_vec(),
            picture_type: b"B".to_vec(),
            picture_data: vec![0x00],
            width: 40,
            height: 40,
            custom: None,
            maker: vec![0xBB],
            algorithm: ALGORITHM.to_vec(),
            signed_value: vec![0xCC],
        }
    }

    /// Gives a seal with every optional part, and a list of the given kind.
    pub fn full(kind: i64) -> SealValue {
        SealValue {
            vendor: b"v".to_vec(),
            seal_type: -129,
            name: b"\xE5\x8D\xB0".to_vec(),
            list: two_entries(kind),
            picture_data: vec![0x01, 0x02],
            width: 300,
            custom: Some(two_customs()),
            ..SealValue::s()
        }
    }

    /// Gives a random seal; `most` bounds the length of its strings.
    pub fn random(random: &mut Random, most: usize) -> SealValue {
        SealValue {
            vendor: text(random, 0, most, b"\x00\x7Fvendor "),
            id: text(random, 1, most, b"0123456789\x01"),
            seal_type: integer(random),
            name: random.pick(&NAMES).to_vec(),
            list: random_list(random, most),
            created: time(random),
            start: time(random),
            end: time(random),
            picture_type: text(random, 1, most, b"OFDpngjpg"),
            picture_data: octets(random, 1, most),
            width: *random.pick(&[1, 127, 128, 255, 256, 32_767, 32_768, 65_535]),
            height: *random.pick(&[1, 40, 128, 256, 65_534, 65_535]),
            custom: random_customs(random, most),
            maker: octets(random, 1, most),
            algorithm: random.pick(&identifiers()).clone(),
            signed_value: octets(random, 1, most),
        }
    }
}

impl SignatureValue {
    /// Gives the record S.
    pub fn s() -> SignatureValue {
        SignatureValue {
            seal: SealValue::s(),
            signing: b"20240630120000Z".to_vec(),
            original: vec![0xDD],
            text: b"1".to_vec(),
            custom: None,
            signer: vec![0xAA],
            algorithm: ALGORITHM.to_vec(),
            signature: vec![0xEE],
            stamp: None,
        }
    }

    /// Gives a signature with every optional part, and a list of the given kind.
    pub fn full(kind: i64) -> SignatureValue {
        SignatureValue {
            seal: SealValue::full(kind),
            custom: Some(two_customs()),
            stamp: Some(vec![0x5A]),
            ..SignatureValue::s()
        }
    }

    /// Gives a random signature; `most` bounds the length of its strings.
    pub fn random(random: &mut Random, most: usize) -> SignatureValue {
        SignatureValue {
            seal: SealValue::random(random, most),
            signing: time(random),
            original: octets(random, 1, most),
            text: text(random, 1, most, b"1.2\x7F"),
            custom: random_customs(random, most),
            signer: octets(random, 1, most),
            algorithm: random.pick(&identifiers()).clone(),
            signature: octets(random, 1, most),
            stamp: random.once_in(2).then(|| octets(random, 1, most)),
        }
    }
}

/// Gives S with a picture that makes the signature record as large as asked, at least 256 bytes more.
pub fn signature_of_size(size: usize) -> SignatureValue {
    let mut value = SignatureValue::s();
    // S has 165 bytes. A picture of 256 bytes or more needs two more length bytes for itself, and so
    // do the picture, the seal information and the seal; the signed part and the record need one more.
    value.seal.picture_data = vec![0x77; size - 165 + 1 - 2 - 2 - 2 - 2 - 1 - 1];
    value
}

/// Gives the seal of S with a picture that makes the seal record as large as asked.
pub fn seal_of_size(size: usize) -> SealValue {
    let mut value = SealValue::s();
    // The seal of S has 115 bytes; the lengths of picture data, picture, seal information and seal grow by two.
    value.picture_data = vec![0x77; size - 115 + 1 - 8];
    value
}

/// Gives a signature with all lists full, so that its sheet is larger than its record.
pub fn signature_with_large_sheet(size: usize) -> SignatureValue {
    let mut value = SignatureValue::s();
    value.seal.list = List::Pairs(counted_pairs(64));
    value.seal.custom = Some(counted_customs(64));
    value.custom = Some(counted_customs(64));
    value.seal.picture_data = vec![0x77; size];
    value
}

/// Gives a list of two different entries.
fn two_entries(kind: i64) -> List {
    if kind == 1 {
        return List::Certificates(vec![vec![0xAB], vec![0xAA]]);
    }
    List::Pairs(vec![
        (Vec::new(), vec![0xD1]),
        (b"p".to_vec(), vec![0xD2, 0xD2]),
    ])
}

/// Gives two items of custom data, one critical.
fn two_customs() -> Vec<CustomValue> {
    counted_customs(2)
}

/// Gives so many different certificates.
pub fn counted(count: usize) -> Vec<Vec<u8>> {
    (0..count).map(|n| vec![n as u8]).collect()
}

/// Gives so many different pairs of a text and a digest.
pub fn counted_pairs(count: usize) -> Vec<(Vec<u8>, Vec<u8>)> {
    (0..count)
        .map(|n| (vec![b'p'; n % 3], vec![n as u8]))
        .collect()
}

/// Gives so many items of custom data, every second of them critical, every second with a value.
pub fn counted_customs(count: usize) -> Vec<CustomValue> {
    (0..count)
        .map(|n| CustomValue {
            identifier: vec![0x2A, n as u8],
            critical: n % 2 == 1,
            value: vec![n as u8; n % 2],
        })
        .collect()
}

/// Gives a random integer, often one at an edge.
fn integer(random: &mut Random) -> i64 {
    if random.once_in(2) {
        return *random.pick(&integers());
    }
    let width = random.below(64);
    (random.number() as i64) >> width
}

/// Gives a random real time, often one at an edge.
fn time(random: &mut Random) -> Vec<u8> {
    if random.once_in(3) {
        return random.pick(&TIMES).as_bytes().to_vec();
    }
    let (year, month) = (random.below(10_000), 1 + random.below(12));
    let day = 1 + random.below(28);
    let (hour, minute, second) = (random.below(24), random.below(60), random.below(60));
    format!("{year:04}{month:02}{day:02}{hour:02}{minute:02}{second:02}Z").into_bytes()
}

/// Gives a random length, often an edge.
fn length(random: &mut Random, least: usize, most: usize) -> usize {
    let edges = [least, least + 1, 127, 128, 255, 256];
    let edge = *random.pick(&edges);
    if random.once_in(3) && edge <= most {
        return edge;
    }
    least + random.below(most.min(24))
}

/// Gives random bytes of an alphabet.
fn text(random: &mut Random, least: usize, most: usize, alphabet: &[u8]) -> Vec<u8> {
    let length = length(random, least, most);
    (0..length).map(|_| *random.pick(alphabet)).collect()
}

/// Gives random bytes.
fn octets(random: &mut Random, least: usize, most: usize) -> Vec<u8> {
    let length = length(random, least, most);
    random.bytes(length)
}

/// Gives a random list of either kind.
fn random_list(random: &mut Random, most: usize) -> List {
    let count = 1 + random.below(4);
    if random.once_in(2) {
        return List::Certificates((0..count).map(|_| octets(random, 1, most)).collect());
    }
    List::Pairs(
        (0..count)
            .map(|_| (text(random, 0, most, PRINTABLE), octets(random, 1, most)))
            .collect(),
    )
}

/// Gives random custom data, or none.
fn random_customs(random: &mut Random, most: usize) -> Option<Vec<CustomValue>> {
    if random.once_in(3) {
        return None;
    }
    let count = random.below(4);
    let items = (0..count).map(|_| CustomValue {
        identifier: random.pick(&identifiers()).clone(),
        critical: random.once_in(2),
        value: octets(random, 0, most),
    });
    Some(items.collect())
}
