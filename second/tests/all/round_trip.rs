//! Record to sheet to record, and sheet to record to sheet, on generated values.

use second::generate::edges::edges;
use second::generate::random::Random;
use second::generate::sections::{encode, seal_sections, signature_sections};
use second::generate::tree::{seal_input, signature_input};
use second::generate::values::SignatureValue;
use second::refusal::Refusal;
use second::writer::{fill_from_seal, fill_from_signature, write_seal, write_signature};

/// A function that writes into a destination.
type Writer = fn(&[u8], &mut [u8]) -> Result<usize, Refusal>;

/// Gives what a writer writes into a destination with room for everything.
fn written(write: Writer, source: &[u8]) -> Vec<u8> {
    let mut destination = vec![0; 70_000];
    let count = write(source, &mut destination).expect("the values are allowed");
    destination.truncate(count);
    destination
}

/// Holds reader and writer against a record and a sheet made from the same values.
fn hold(record: &[u8], sheet: &[u8], fill: Writer, write: Writer) {
    assert_eq!(written(fill, record), sheet);
    assert_eq!(written(write, sheet), record);
    assert_eq!(written(write, &written(fill, record)), record);
    assert_eq!(written(fill, &written(write, sheet)), sheet);
}

#[test]
fn generated_values_go_both_ways() {
    let mut random = Random::new(1);
    let mut values = edges();
    values.resize_with(900, || SignatureValue::random(&mut random, 256));
    for value in values {
        let record = signature_input(&value).encode().bytes;
        let sheet = encode(&signature_sections(&value));
        hold(&record, &sheet, fill_from_signature, write_signature);

        let record = seal_input(&value.seal).encode().bytes;
        let sheet = encode(&seal_sections(&value.seal));
        hold(&record, &sheet, fill_from_seal, write_seal);
    }
}
