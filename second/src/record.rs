//! Seal and signature records: their fields, and the reading of them.

use crate::content;
use crate::item::{tag, Item, Reader, Span, Stretch};
use crate::refusal::{Fault, Refusal};

/// The most items a list may have.
pub const MOST_ITEMS: usize = 64;

/// The fields of a seal, strings by their place in the bytes they were read from.
#[derive(Clone, Debug, PartialEq, Eq)]
pub struct Seal {
    pub vendor: Span,
    pub id: Span,
    pub kind_of_seal: i64,
    pub name: Span,
    pub listed: Listed,
    pub created: Span,
    pub start: Span,
    pub end: Span,
    pub picture_type: Span,
    pub picture_data: Span,
    pub width: i64,
    pub height: i64,
    pub custom: Option<Vec<Custom>>,
    pub maker: Span,
    pub algorithm: Span,
    pub signed_value: Span,
}

/// The certificate list, by its kind.
#[derive(Clone, Debug, PartialEq, Eq)]
pub enum Listed {
    Certificates(Vec<Span>),
    Digests(Vec<Digest>),
}

/// An entry of a list of kind 2.
#[derive(Clone, Copy, Debug, PartialEq, Eq)]
pub struct Digest {
    pub text: Span,
    pub digest: Span,
}

/// An item of custom data.
#[derive(Clone, Copy, Debug, PartialEq, Eq)]
pub struct Custom {
    pub identifier: Span,
    pub critical: bool,
    pub value: Span,
}

/// The fields of a signature, its seal's among them.
#[derive(Clone, Debug, PartialEq, Eq)]
pub struct Signature {
    pub seal: Seal,
    pub signing: Span,
    pub original: Span,
    pub text: Span,
    pub custom: Option<Vec<Custom>>,
    pub signer: Span,
    pub algorithm: Span,
    pub value: Span,
    pub stamp: Option<Span>,
}

/// What a seal record holds: its fields, its signed bytes and the whole record.
#[derive(Clone, Debug, PartialEq, Eq)]
pub struct SealRecord {
    pub seal: Seal,
    pub signed: Span,
    pub whole: Span,
}

/// What a signature record holds: its fields, both signed parts and the whole record.
#[derive(Clone, Debug, PartialEq, Eq)]
pub struct SignatureRecord {
    pub signature: Signature,
    pub seal_signed: Span,
    pub signed: Span,
    pub whole: Span,
}

impl Listed {
    /// Gives the number of the list's kind.
    pub fn kind(&self) -> i64 {
        match self {
            Listed::Certificates(_) => 1,
            Listed::Digests(_) => 2,
        }
    }

    /// Gives the number of entries.
    pub fn count(&self) -> usize {
        match self {
            Listed::Certificates(entries) => entries.len(),
            Listed::Digests(entries) => entries.len(),
        }
    }

    /// Gives the bytes that are compared for a match: the certificates, or the digests.
    fn compared(&self) -> Vec<Span> {
        match self {
            Listed::Certificates(entries) => entries.clone(),
            Listed::Digests(entries) => entries.iter().map(|entry| entry.digest).collect(),
        }
    }

    /// Gives the first entry that equals the given bytes.
    pub fn matching(&self, record: &[u8], given: &[u8]) -> Option<Span> {
        self.compared()
            .into_iter()
            .find(|entry| entry.of(record) == given)
    }
}

/// Reads an input that is one seal record and nothing else.
pub fn read_seal(input: &[u8]) -> Result<SealRecord, Refusal> {
    let mut reader = Reader::new(input);
    let mut from = Stretch::from(input, 0);
    let outermost = reader.open_outermost(&mut from, tag::SEQUENCE)?;
    let record = seal(&mut reader, outermost)?;
    from.finish()?;
    Ok(record)
}

/// Reads an input that is one signature record and nothing else.
pub fn read_signature(input: &[u8]) -> Result<SignatureRecord, Refusal> {
    let (record, _) = read_signature_items(input)?;
    Ok(record)
}

/// Reads one signature record and gives the places of all its items as well.
pub fn read_signature_items(input: &[u8]) -> Result<(SignatureRecord, Vec<Item>), Refusal> {
    let mut reader = Reader::new(input);
    let mut from = Stretch::from(input, 0);
    let record = signature(&mut reader, &mut from)?;
    from.finish()?;
    Ok((record, reader.into_items()))
}

/// Reads the signature record that begins at a place, whatever follows it.
pub fn read_signature_at(input: &[u8], at: usize) -> Result<SignatureRecord, Refusal> {
    let mut reader = Reader::new(input);
    let mut from = Stretch::from(input, at);
    signature(&mut reader, &mut from)
}

/// Reads a signature record, the outermost item.
fn signature(reader: &mut Reader, from: &mut Stretch) -> Result<SignatureRecord, Refusal> {
    let outermost = reader.open_outermost(from, tag::SEQUENCE)?;
    let mut record = outermost.stretch();

    let signed_part = reader.open(&mut record, tag::SEQUENCE)?;
    let mut signed = signed_part.stretch();
    reader.integer(&mut signed, content::version)?;
    let seal_item = reader.open(&mut signed, tag::SEQUENCE)?;
    let seal_record = seal(reader, seal_item)?;
    let signing = reader.string(&mut signed, tag::TIME, content::time)?;
    let original = reader.bits(&mut signed)?;
    let text = reader.string(&mut signed, tag::IA5_STRING, content::ia5_some)?;
    let custom = explicit(reader, &mut signed, |reader, inner| {
        let list = reader.open(inner, tag::SEQUENCE)?;
        custom_items(reader, list)
    })?;
    signed.finish()?;

    let signer = reader.string(&mut record, tag::OCTET_STRING, content::octets_some)?;
    let algorithm = reader.string(&mut record, tag::IDENTIFIER, content::identifier)?;
    let value = reader.bits(&mut record)?;
    let stamp = explicit(reader, &mut record, |reader, inner| reader.bits(inner))?;
    record.finish()?;

    Ok(SignatureRecord {
        signature: Signature {
            seal: seal_record.seal,
            signing,
            original,
            text,
            custom,
            signer,
            algorithm,
            value,
            stamp,
        },
        seal_signed: seal_record.signed,
        signed: signed_part.whole(),
        whole: outermost.whole(),
    })
}

/// Reads what an optional [0] holds, where it stands.
fn explicit<T>(
    reader: &mut Reader,
    from: &mut Stretch,
    read: impl Fn(&mut Reader, &mut Stretch) -> Result<T, Refusal>,
) -> Result<Option<T>, Refusal> {
    if !reader.next_is(from, tag::EXPLICIT_0) {
        return Ok(None);
    }
    let mut inner = reader.open(from, tag::EXPLICIT_0)?.stretch();
    let result = read(reader, &mut inner)?;
    inner.finish()?;
    Ok(Some(result))
}

/// Reads the items of a seal whose own tag and length are read.
fn seal(reader: &mut Reader, item: Item) -> Result<SealRecord, Refusal> {
    let mut from = item.stretch();

    let information = reader.open(&mut from, tag::SEQUENCE)?;
    let mut inside = information.stretch();
    let vendor = header(reader, &mut inside)?;
    let id = reader.string(&mut inside, tag::IA5_STRING, content::ia5_some)?;

    let mut property = reader.open(&mut inside, tag::SEQUENCE)?.stretch();
    let kind_of_seal = reader.integer(&mut property, content::any_number)?;
    let name = reader.string(&mut property, tag::UTF8_STRING, content::utf8)?;
    let kind = reader.integer(&mut property, content::list_kind)?;
    let listed = listed(reader, &mut property, kind)?;
    let created = reader.string(&mut property, tag::TIME, content::time)?;
    let start = reader.string(&mut property, tag::TIME, content::time)?;
    let end = reader.string(&mut property, tag::TIME, content::time)?;
    property.finish()?;

    let mut picture = reader.open(&mut inside, tag::SEQUENCE)?.stretch();
    let picture_type = reader.string(&mut picture, tag::IA5_STRING, content::ia5_some)?;
    let picture_data = reader.string(&mut picture, tag::OCTET_STRING, content::octets_some)?;
    let width = reader.integer(&mut picture, content::millimetres)?;
    let height = reader.integer(&mut picture, content::millimetres)?;
    picture.finish()?;

    let custom = optional_custom(reader, &mut inside)?;
    inside.finish()?;

    let maker = reader.string(&mut from, tag::OCTET_STRING, content::octets_some)?;
    let algorithm = reader.string(&mut from, tag::IDENTIFIER, content::identifier)?;
    let signed_value = reader.bits(&mut from)?;
    from.finish()?;

    Ok(SealRecord {
        seal: Seal {
            vendor,
            id,
            kind_of_seal,
            name,
            listed,
            created,
            start,
            end,
            picture_type,
            picture_data,
            width,
            height,
            custom,
            maker,
            algorithm,
            signed_value,
        },
        signed: information.whole(),
        whole: item.whole(),
    })
}

/// Reads the header and gives its vendor, all that varies in it.
fn header(reader: &mut Reader, from: &mut Stretch) -> Result<Span, Refusal> {
    let mut header = reader.open(from, tag::SEQUENCE)?.stretch();
    reader.string(&mut header, tag::IA5_STRING, content::header_name)?;
    reader.integer(&mut header, content::version)?;
    let vendor = reader.string(&mut header, tag::IA5_STRING, content::ia5_any)?;
    header.finish()?;
    Ok(vendor)
}

/// Reads the certificate list; the kind already read decides what its items are.
fn listed(reader: &mut Reader, from: &mut Stretch, kind: i64) -> Result<Listed, Refusal> {
    let list = reader.open(from, tag::SEQUENCE)?;
    if list.stretch().is_empty() {
        return Err(Fault::NoItem.at(list.tag));
    }
    if kind == 1 {
        let entries = items(list, |from| {
            reader.string(from, tag::OCTET_STRING, content::octets_some)
        })?;
        return Ok(Listed::Certificates(entries));
    }
    let entries = items(list, |from| digest(reader, from))?;
    Ok(Listed::Digests(entries))
}

/// Reads an entry of a list of kind 2.
fn digest(reader: &mut Reader, from: &mut Stretch) -> Result<Digest, Refusal> {
    let mut entry = reader.open(from, tag::SEQUENCE)?.stretch();
    let text = reader.string(&mut entry, tag::PRINTABLE_STRING, content::printable)?;
    let digest = reader.string(&mut entry, tag::OCTET_STRING, content::octets_some)?;
    entry.finish()?;
    Ok(Digest { text, digest })
}

/// Reads the seal's custom data where it stands.
fn optional_custom(
    reader: &mut Reader,
    from: &mut Stretch,
) -> Result<Option<Vec<Custom>>, Refusal> {
    if !reader.next_is(from, tag::SEQUENCE) {
        return Ok(None);
    }
    let list = reader.open(from, tag::SEQUENCE)?;
    custom_items(reader, list).map(Some)
}

/// Reads the items of a list of custom data whose own tag and length are read.
fn custom_items(reader: &mut Reader, list: Item) -> Result<Vec<Custom>, Refusal> {
    items(list, |from| custom_item(reader, from))
}

/// Reads one item of custom data.
fn custom_item(reader: &mut Reader, from: &mut Stretch) -> Result<Custom, Refusal> {
    let mut item = reader.open(from, tag::SEQUENCE)?.stretch();
    let identifier = reader.string(&mut item, tag::IDENTIFIER, content::identifier)?;
    let critical = reader.next_is(&item, tag::BOOLEAN);
    if critical {
        reader.string(&mut item, tag::BOOLEAN, content::boolean)?;
    }
    let value = reader.string(&mut item, tag::OCTET_STRING, content::octets_any)?;
    item.finish()?;
    Ok(Custom {
        identifier,
        critical,
        value,
    })
}

/// Reads the items of a list one by one and refuses the one after the last allowed.
fn items<T>(
    list: Item,
    mut read: impl FnMut(&mut Stretch) -> Result<T, Refusal>,
) -> Result<Vec<T>, Refusal> {
    let mut from = list.stretch();
    let mut items = Vec::new();
    while !from.is_empty() {
        if items.len() == MOST_ITEMS {
            return Err(Fault::ManyItems.at(from.at()));
        }
        items.push(read(&mut from)?);
    }
    Ok(items)
}
