//! Field sheets: reading one, and filling one from a record's fields.

use crate::content;
use crate::item::Span;
use crate::record::{Custom, Digest, Listed, Seal, Signature, MOST_ITEMS};
use crate::refusal::{Fault, Refusal};

const COUNT_SIZE: usize = 4;
const INTEGER_SIZE: usize = 8;

/// Reads a sheet that is one seal's and nothing else; places are places in the sheet.
pub fn read_seal_sheet(sheet: &[u8]) -> Result<Seal, Refusal> {
    let mut reader = Sections::new(sheet);
    let seal = seal(&mut reader)?;
    reader.finish()?;
    Ok(seal)
}

/// Reads a sheet that is one signature's and nothing else; places are places in the sheet.
pub fn read_signature_sheet(sheet: &[u8]) -> Result<Signature, Refusal> {
    let mut reader = Sections::new(sheet);
    let signature = signature(&mut reader)?;
    reader.finish()?;
    Ok(signature)
}

/// Reads the sections of a signature.
fn signature(reader: &mut Sections) -> Result<Signature, Refusal> {
    Ok(Signature {
        seal: seal(reader)?,
        signing: reader.string(content::time)?,
        original: reader.string(content::octets_some)?,
        text: reader.string(content::ia5_some)?,
        custom: reader.optional(custom)?,
        signer: reader.string(content::octets_some)?,
        algorithm: reader.string(content::identifier)?,
        value: reader.string(content::octets_some)?,
        stamp: reader.optional(|reader| reader.string(content::octets_some))?,
    })
}

/// Reads the sections of a seal.
fn seal(reader: &mut Sections) -> Result<Seal, Refusal> {
    Ok(Seal {
        vendor: reader.string(content::ia5_any)?,
        id: reader.string(content::ia5_some)?,
        kind_of_seal: reader.integer(content::any_number)?,
        name: reader.string(content::utf8)?,
        listed: listed(reader)?,
        created: reader.string(content::time)?,
        start: reader.string(content::time)?,
        end: reader.string(content::time)?,
        picture_type: reader.string(content::ia5_some)?,
        picture_data: reader.string(content::octets_some)?,
        width: reader.integer(content::millimetres)?,
        height: reader.integer(content::millimetres)?,
        custom: reader.optional(custom)?,
        maker: reader.string(content::octets_some)?,
        algorithm: reader.string(content::identifier)?,
        signed_value: reader.string(content::octets_some)?,
    })
}

/// Reads the list's kind and the list it decides.
fn listed(reader: &mut Sections) -> Result<Listed, Refusal> {
    let kind = reader.integer(content::list_kind)?;
    let (place, count) = reader.count()?;
    if count == 0 {
        return Err(Fault::NoItem.at(place));
    }
    if kind == 1 {
        let entries = reader.items(place, count, |reader| reader.string(content::octets_some))?;
        return Ok(Listed::Certificates(entries));
    }
    let entries = reader.items(place, count, |reader| {
        Ok(Digest {
            text: reader.string(content::printable)?,
            digest: reader.string(content::octets_some)?,
        })
    })?;
    Ok(Listed::Digests(entries))
}

/// Reads a list of custom data.
fn custom(reader: &mut Sections) -> Result<Vec<Custom>, Refusal> {
    let (place, count) = reader.count()?;
    reader.items(place, count, |reader| {
        Ok(Custom {
            identifier: reader.string(content::identifier)?,
            critical: reader.critical()?,
            value: reader.string(content::octets_any)?,
        })
    })
}

/// A sheet and the place of its next section.
struct Sections<'a> {
    sheet: &'a [u8],
    at: usize,
}

impl<'a> Sections<'a> {
    /// Begins at the sheet's first section.
    fn new(sheet: &'a [u8]) -> Sections<'a> {
        Sections { sheet, at: 0 }
    }

    /// Gives the number of bytes not read yet.
    fn left(&self) -> usize {
        self.sheet.len() - self.at
    }

    /// Reads a count and gives its place as well.
    fn count(&mut self) -> Result<(usize, usize), Refusal> {
        let place = self.at;
        if self.left() < COUNT_SIZE {
            return Err(Fault::Sheet.at(place));
        }
        self.at += COUNT_SIZE;
        let count = self.sheet[place..self.at]
            .iter()
            .fold(0, |n, &byte| n * 256 + usize::from(byte));
        Ok((place, count))
    }

    /// Reads a count and as many bytes; gives the count's place and the bytes'.
    fn section(&mut self) -> Result<(usize, Span), Refusal> {
        let (place, len) = self.count()?;
        if self.left() < len {
            return Err(Fault::Sheet.at(place));
        }
        let start = self.at;
        self.at += len;
        Ok((place, Span { start, len }))
    }

    /// Reads a section whose bytes must follow a rule.
    fn string(&mut self, rule: fn(&[u8]) -> Result<(), Fault>) -> Result<Span, Refusal> {
        let (place, span) = self.section()?;
        rule(span.of(self.sheet)).map_err(|fault| fault.at(place))?;
        Ok(span)
    }

    /// Reads a section of eight bytes whose number must follow a rule.
    fn integer(&mut self, rule: fn(i64) -> Result<i64, Fault>) -> Result<i64, Refusal> {
        let (place, span) = self.section()?;
        if span.len != INTEGER_SIZE {
            return Err(Fault::Sheet.at(place));
        }
        rule(content::signed(span.of(self.sheet))).map_err(|fault| fault.at(place))
    }

    /// Reads a section of one byte, 0 or 1.
    fn critical(&mut self) -> Result<bool, Refusal> {
        let (place, span) = self.section()?;
        match span.of(self.sheet) {
            [0] => Ok(false),
            [1] => Ok(true),
            _ => Err(Fault::Sheet.at(place)),
        }
    }

    /// Reads a count of 0, or a count of 1 and what it announces.
    fn optional<T>(
        &mut self,
        read: impl Fn(&mut Sections) -> Result<T, Refusal>,
    ) -> Result<Option<T>, Refusal> {
        match self.count()? {
            (_, 0) => Ok(None),
            (_, 1) => read(self).map(Some),
            (place, _) => Err(Fault::Sheet.at(place)),
        }
    }

    /// Reads the items of a list whose count is read.
    fn items<T>(
        &mut self,
        place: usize,
        count: usize,
        read: impl Fn(&mut Sections) -> Result<T, Refusal>,
    ) -> Result<Vec<T>, Refusal> {
        if count > MOST_ITEMS {
            return Err(Fault::ManyItems.at(place));
        }
        (0..count).map(|_| read(self)).collect()
    }

    /// Refuses bytes that are left after the last section.
    fn finish(&self) -> Result<(), Refusal> {
        if self.left() > 0 {
            return Err(Fault::Sheet.at(self.at));
        }
        Ok(())
    }
}

/// Gives the sheet of a seal whose fields lie in the given record.
pub fn seal_sheet(record: &[u8], seal: &Seal) -> Vec<u8> {
    let mut sheet = Filler::new(record);
    sheet.seal(seal);
    sheet.bytes
}

/// Gives the sheet of a signature whose fields lie in the given record.
pub fn signature_sheet(record: &[u8], signature: &Signature) -> Vec<u8> {
    let mut sheet = Filler::new(record);
    sheet.signature(signature);
    sheet.bytes
}

/// A sheet in the making and the record its strings come from.
struct Filler<'a> {
    record: &'a [u8],
    bytes: Vec<u8>,
}

impl<'a> Filler<'a> {
    /// Begins an empty sheet.
    fn new(record: &'a [u8]) -> Filler<'a> {
        Filler {
            record,
            bytes: Vec::new(),
        }
    }

    /// Appends a count.
    fn count(&mut self, count: usize) {
        let count = u32::try_from(count).expect("a record's counts are below 65,536");
        self.bytes.extend(count.to_be_bytes());
    }

    /// Appends a section of bytes of the record.
    fn string(&mut self, span: Span) {
        self.count(span.len);
        self.bytes.extend(span.of(self.record));
    }

    /// Appends a section of eight bytes.
    fn integer(&mut self, value: i64) {
        self.count(INTEGER_SIZE);
        self.bytes.extend(value.to_be_bytes());
    }

    /// Appends an optional list of custom data.
    fn custom(&mut self, custom: &Option<Vec<Custom>>) {
        let Some(items) = custom else {
            return self.count(0);
        };
        self.count(1);
        self.count(items.len());
        for item in items {
            self.string(item.identifier);
            self.count(1);
            self.bytes.push(u8::from(item.critical));
            self.string(item.value);
        }
    }

    /// Appends the list's kind and the list.
    fn listed(&mut self, listed: &Listed) {
        self.integer(listed.kind());
        self.count(listed.count());
        match listed {
            Listed::Certificates(entries) => entries.iter().for_each(|&entry| self.string(entry)),
            Listed::Digests(entries) => entries.iter().for_each(|entry| {
                self.string(entry.text);
                self.string(entry.digest);
            }),
        }
    }

    /// Appends a seal's sections.
    fn seal(&mut self, seal: &Seal) {
        self.string(seal.vendor);
        self.string(seal.id);
        self.integer(seal.kind_of_seal);
        self.string(seal.name);
        self.listed(&seal.listed);
        self.string(seal.created);
        self.string(seal.start);
        self.string(seal.end);
        self.string(seal.picture_type);
        self.string(seal.picture_data);
        self.integer(seal.width);
        self.integer(seal.height);
        self.custom(&seal.custom);
        self.string(seal.maker);
        self.string(seal.algorithm);
        self.string(seal.signed_value);
    }

    /// Appends a signature's sections.
    fn signature(&mut self, signature: &Signature) {
        self.seal(&signature.seal);
        self.string(signature.signing);
        self.string(signature.original);
        self.string(signature.text);
        self.custom(&signature.custom);
        self.string(signature.signer);
        self.string(signature.algorithm);
        self.string(signature.value);
        match signature.stamp {
            None => self.count(0),
            Some(stamp) => {
                self.count(1);
                self.string(stamp);
            }
        }
    }
}
