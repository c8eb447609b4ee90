//! Allowed field values that differ from S at one edge each.

use super::tree::signature_input;
use super::values::{
    counted, counted_customs, counted_pairs, identifiers, integers, CustomValue, List,
    SignatureValue, NAMES, PRINTABLE, TIMES,
};

/// The lengths at which the spelling of a length changes.
const LENGTH_EDGES: [usize; 4] = [127, 128, 255, 256];

/// Gives all edges.
pub fn edges() -> Vec<SignatureValue> {
    [number_edges(), string_edges(), list_edges(), length_edges()].concat()
}

/// Gives S with a change.
fn s_with(change: impl Fn(&mut SignatureValue)) -> SignatureValue {
    let mut value = SignatureValue::s();
    change(&mut value);
    value
}

/// Gives the edges of the integers.
fn number_edges() -> Vec<SignatureValue> {
    let mut all = Vec::new();
    for number in integers() {
        all.push(s_with(|v| v.seal.seal_type = number));
    }
    for side in [1, 127, 128, 255, 256, 32_767, 32_768, 65_535] {
        all.push(s_with(|v| v.seal.width = side));
        all.push(s_with(|v| v.seal.height = side));
    }
    all
}

/// Gives the edges of names, times, identifiers and the optional stamp.
fn string_edges() -> Vec<SignatureValue> {
    let mut all = vec![s_with(|v| v.stamp = Some(vec![0x5A]))];
    for name in NAMES {
        all.push(s_with(|v| v.seal.name = name.to_vec()));
    }
    for time in TIMES {
        all.push(s_with(|v| v.seal.created = time.into()));
        all.push(s_with(|v| v.seal.start = time.into()));
        all.push(s_with(|v| v.seal.end = time.into()));
        all.push(s_with(|v| v.signing = time.into()));
    }
    for identifier in identifiers() {
        all.push(s_with(|v| v.algorithm = identifier.clone()));
        all.push(s_with(|v| v.seal.algorithm = identifier.clone()));
        all.push(s_with(|v| {
            v.custom = Some(vec![CustomValue {
                identifier: identifier.clone(),
                critical: true,
                value: Vec::new(),
            }]);
        }));
    }
    all
}

/// Gives the edges of the lists: few items, and as many as there may be.
fn list_edges() -> Vec<SignatureValue> {
    let mut all = Vec::new();
    for count in [1, 2, 63, 64] {
        all.push(s_with(|v| v.seal.list = List::Certificates(counted(count))));
        all.push(s_with(|v| v.seal.list = List::Pairs(counted_pairs(count))));
    }
    for count in [0, 1, 2, 63, 64] {
        all.push(s_with(|v| v.seal.custom = Some(counted_customs(count))));
        all.push(s_with(|v| v.custom = Some(counted_customs(count))));
    }
    let equal = vec![vec![0x01], vec![0xAA], vec![0xAA]];
    all.push(s_with(|v| v.seal.list = List::Certificates(equal.clone())));
    let all_printable = (PRINTABLE.to_vec(), vec![0x01]);
    all.push(s_with(|v| {
        v.seal.list = List::Pairs(vec![all_printable.clone()])
    }));
    all
}

/// The strings whose length is varied.
const STRINGS: [fn(&mut SignatureValue, usize); 14] = [
    |v, length| v.seal.vendor = vec![b'v'; length],
    |v, length| v.seal.id = vec![0x7F; length],
    |v, length| v.seal.name = vec![b'n'; length],
    |v, length| v.seal.list = List::Certificates(vec![vec![0x04; length]]),
    |v, length| v.seal.list = List::Pairs(vec![(vec![b'p'; length], vec![0x01])]),
    |v, length| v.seal.list = List::Pairs(vec![(Vec::new(), vec![0x13; length])]),
    |v, length| v.seal.picture_type = vec![b't'; length],
    |v, length| v.seal.picture_data = vec![0xFF; length],
    |v, length| v.seal.custom = Some(vec![custom_of_length(length)]),
    |v, length| v.seal.maker = vec![0x30; length],
    |v, length| v.original = vec![0x00; length],
    |v, length| v.text = vec![0x00; length],
    |v, length| v.custom = Some(vec![custom_of_length(length)]),
    |v, length| v.stamp = Some(vec![0xA0; length]),
];

/// Gives an item of custom data whose value has a length.
fn custom_of_length(length: usize) -> CustomValue {
    CustomValue {
        identifier: vec![0x2A],
        critical: false,
        value: vec![0x06; length],
    }
}

/// Gives strings so long that they, or some item around them, have a length at an edge.
fn length_edges() -> Vec<SignatureValue> {
    let mut all = Vec::new();
    for set_length in STRINGS {
        for length in 1..=256 {
            let value = s_with(|v| set_length(v, length));
            if has_length_at_edge(&value) {
                all.push(value);
            }
        }
    }
    all
}

/// Tells whether some item of a record has a length at an edge.
fn has_length_at_edge(value: &SignatureValue) -> bool {
    let places = signature_input(value).encode().places;
    places
        .iter()
        .any(|place| LENGTH_EDGES.contains(&(place.end - place.content)))
}
