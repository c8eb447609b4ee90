//! Writing: records from sheets, sheets from records, both into a lent destination.

use crate::content;
use crate::item::{tag, Span, LARGEST_RECORD};
use crate::record::{read_seal, read_signature, Custom, Listed, Seal, Signature};
use crate::refusal::{Fault, Refusal};
use crate::sheet::{read_seal_sheet, read_signature_sheet, seal_sheet, signature_sheet};

/// Fills the destination with the sheet of a seal record; answers the bytes written.
pub fn fill_from_seal(record: &[u8], destination: &mut [u8]) -> Result<usize, Refusal> {
    let read = read_seal(record)?;
    deliver(&seal_sheet(record, &read.seal), destination)
}

/// Fills the destination with the sheet of a signature record; answers the bytes written.
pub fn fill_from_signature(record: &[u8], destination: &mut [u8]) -> Result<usize, Refusal> {
    let read = read_signature(record)?;
    deliver(&signature_sheet(record, &read.signature), destination)
}

/// Writes the seal record of a sheet into the destination; answers the bytes written.
pub fn write_seal(sheet: &[u8], destination: &mut [u8]) -> Result<usize, Refusal> {
    let seal = read_seal_sheet(sheet)?;
    deliver_record(&Encoder { sheet }.seal(&seal), destination)
}

/// Writes the signature record of a sheet into the destination; answers the bytes written.
pub fn write_signature(sheet: &[u8], destination: &mut [u8]) -> Result<usize, Refusal> {
    let signature = read_signature_sheet(sheet)?;
    deliver_record(&Encoder { sheet }.signature(&signature), destination)
}

/// Copies a record that is not too large into the destination.
fn deliver_record(record: &[u8], destination: &mut [u8]) -> Result<usize, Refusal> {
    if record.len() > LARGEST_RECORD {
        return Err(Fault::RecordSize.at(0));
    }
    deliver(record, destination)
}

/// Copies bytes to the destination's beginning, if it holds them all.
fn deliver(bytes: &[u8], destination: &mut [u8]) -> Result<usize, Refusal> {
    if destination.len() < bytes.len() {
        return Err(Fault::Destination.at(bytes.len()));
    }
    destination[..bytes.len()].copy_from_slice(bytes);
    Ok(bytes.len())
}

/// Encodes fields whose strings lie in a sheet.
struct Encoder<'a> {
    sheet: &'a [u8],
}

impl Encoder<'_> {
    /// Encodes a signature record.
    fn signature(&self, signature: &Signature) -> Vec<u8> {
        let custom = match &signature.custom {
            None => Vec::new(),
            Some(items) => item(tag::EXPLICIT_0, &self.custom(items)),
        };
        let stamp = match signature.stamp {
            None => Vec::new(),
            Some(stamp) => item(tag::EXPLICIT_0, &self.bits(stamp)),
        };
        let signed_part = sequence(&[
            integer(4),
            self.seal(&signature.seal),
            self.string(tag::TIME, signature.signing),
            self.bits(signature.original),
            self.string(tag::IA5_STRING, signature.text),
            custom,
        ]);
        sequence(&[
            signed_part,
            self.string(tag::OCTET_STRING, signature.signer),
            self.string(tag::IDENTIFIER, signature.algorithm),
            self.bits(signature.value),
            stamp,
        ])
    }

    /// Encodes a seal record.
    fn seal(&self, seal: &Seal) -> Vec<u8> {
        let header = sequence(&[
            item(tag::IA5_STRING, b"ES"),
            integer(4),
            self.string(tag::IA5_STRING, seal.vendor),
        ]);
        let property = sequence(&[
            integer(seal.kind_of_seal),
            self.string(tag::UTF8_STRING, seal.name),
            integer(seal.listed.kind()),
            self.listed(&seal.listed),
            self.string(tag::TIME, seal.created),
            self.string(tag::TIME, seal.start),
            self.string(tag::TIME, seal.end),
        ]);
        let picture = sequence(&[
            self.string(tag::IA5_STRING, seal.picture_type),
            self.string(tag::OCTET_STRING, seal.picture_data),
            integer(seal.width),
            integer(seal.height),
        ]);
        let custom = match &seal.custom {
            None => Vec::new(),
            Some(items) => self.custom(items),
        };
        let id = self.string(tag::IA5_STRING, seal.id);
        sequence(&[
            sequence(&[header, id, property, picture, custom]),
            self.string(tag::OCTET_STRING, seal.maker),
            self.string(tag::IDENTIFIER, seal.algorithm),
            self.bits(seal.signed_value),
        ])
    }

    /// Encodes the certificate list.
    fn listed(&self, listed: &Listed) -> Vec<u8> {
        let entries: Vec<Vec<u8>> = match listed {
            Listed::Certificates(entries) => entries
                .iter()
                .map(|&entry| self.string(tag::OCTET_STRING, entry))
                .collect(),
            Listed::Digests(entries) => entries
                .iter()
                .map(|entry| {
                    sequence(&[
                        self.string(tag::PRINTABLE_STRING, entry.text),
                        self.string(tag::OCTET_STRING, entry.digest),
                    ])
                })
                .collect(),
        };
        sequence(&entries)
    }

    /// Encodes a list of custom data.
    fn custom(&self, items: &[Custom]) -> Vec<u8> {
        let items: Vec<Vec<u8>> = items.iter().map(|item| self.custom_item(item)).collect();
        sequence(&items)
    }

    /// Encodes one item of custom data; critical is left out when false.
    fn custom_item(&self, custom: &Custom) -> Vec<u8> {
        let critical = if custom.critical {
            item(tag::BOOLEAN, &[0xFF])
        } else {
            Vec::new()
        };
        sequence(&[
            self.string(tag::IDENTIFIER, custom.identifier),
            critical,
            self.string(tag::OCTET_STRING, custom.value),
        ])
    }

    /// Encodes a string of the sheet.
    fn string(&self, tag: u8, span: Span) -> Vec<u8> {
        item(tag, span.of(self.sheet))
    }

    /// Encodes bytes of the sheet as a bit string.
    fn bits(&self, span: Span) -> Vec<u8> {
        let content = [&[0x00], span.of(self.sheet)].concat();
        item(tag::BIT_STRING, &content)
    }
}

/// Encodes a SEQUENCE of encoded items.
fn sequence(items: &[Vec<u8>]) -> Vec<u8> {
    item(tag::SEQUENCE, &items.concat())
}

/// Encodes an INTEGER in its shortest form.
fn integer(value: i64) -> Vec<u8> {
    let bytes = value.to_be_bytes();
    let shortest = (0..8)
        .map(|first| &bytes[first..])
        .find(|rest| content::integer(rest).is_ok())
        .expect("one of the eight forms is the shortest");
    item(tag::INTEGER, shortest)
}

/// Encodes one item.
fn item(tag: u8, content: &[u8]) -> Vec<u8> {
    let mut bytes = vec![tag];
    bytes.extend(length(content.len()));
    bytes.extend(content);
    bytes
}

/// Encodes a length; one of 65,536 or more gets three bytes and is refused with its record.
fn length(length: usize) -> Vec<u8> {
    let bytes = length.to_be_bytes();
    let last = bytes.len() - 1;
    match length {
        0..=0x7F => vec![bytes[last]],
        0x80..=0xFF => vec![0x81, bytes[last]],
        0x100..=0xFFFF => vec![0x82, bytes[last - 1], bytes[last]],
        _ => [&[0x83], &bytes[last - 2..]].concat(),
    }
}
