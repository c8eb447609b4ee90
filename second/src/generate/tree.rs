//! Records as trees of items: built from values, changed, and encoded with the places of all items.

use super::rule::{shortest_integer, Rule};
use super::values::{CustomValue, List, SealValue, SignatureValue};
use crate::case::Kind;

/// Whether an item must stand where it stands.
#[derive(Clone, Copy, Debug, PartialEq, Eq)]
pub enum Role {
    Outermost,
    Needed,
    Optional,
    ListItem,
}

/// What a node holds.
#[derive(Clone, Debug)]
pub enum Body {
    Bytes(Vec<u8>),
    Nodes(Vec<Node>),
}

/// How a node's tag and length are written.
#[derive(Clone, Debug)]
pub enum Head {
    Right,
    WithLength(Vec<u8>),
    None,
}

/// An item, or some loose bytes, of a record in the making.
#[derive(Clone, Debug)]
pub struct Node {
    pub label: &'static str,
    pub role: Role,
    pub rule: Rule,
    pub tag: u8,
    pub head: Head,
    pub body: Body,
    pub marked: bool,
}

/// Where an item stands in an encoded record.
#[derive(Clone, Debug)]
pub struct Place {
    pub label: &'static str,
    pub tag: usize,
    pub content: usize,
    pub end: usize,
}

/// An encoded node: its bytes, the places of its items and of the marked one.
#[derive(Clone, Debug, Default)]
pub struct Encoded {
    pub bytes: Vec<u8>,
    pub places: Vec<Place>,
    pub mark: Option<usize>,
}

impl Encoded {
    /// Appends another, whose places move by what is already here.
    fn append(&mut self, other: Encoded) {
        let shift = self.bytes.len();
        self.bytes.extend(other.bytes);
        self.places.extend(other.places.into_iter().map(|p| Place {
            label: p.label,
            tag: p.tag + shift,
            content: p.content + shift,
            end: p.end + shift,
        }));
        self.mark = self.mark.or(other.mark.map(|mark| mark + shift));
    }
}

impl Node {
    /// Makes an item of some bytes.
    fn item(label: &'static str, rule: Rule, tag: u8, content: &[u8]) -> Node {
        Node {
            label,
            role: Role::Needed,
            rule,
            tag,
            head: Head::Right,
            body: Body::Bytes(content.to_vec()),
            marked: false,
        }
    }

    /// Makes an item of other items.
    fn group(label: &'static str, rule: Rule, tag: u8, nodes: Vec<Node>) -> Node {
        Node {
            body: Body::Nodes(nodes),
            ..Node::item(label, rule, tag, b"")
        }
    }

    /// Makes bytes without a tag and length of their own.
    pub fn loose(bytes: &[u8]) -> Node {
        Node {
            head: Head::None,
            ..Node::item("loose bytes", Rule::Group, 0, bytes)
        }
    }

    /// Gives the node another role.
    fn with_role(self, role: Role) -> Node {
        Node { role, ..self }
    }

    /// Gives the nodes inside.
    pub fn nodes(&self) -> &[Node] {
        match &self.body {
            Body::Nodes(nodes) => nodes,
            Body::Bytes(_) => &[],
        }
    }

    /// Gives the nodes inside for change; a node of bytes has none to change.
    pub fn nodes_mut(&mut self) -> &mut Vec<Node> {
        match &mut self.body {
            Body::Nodes(nodes) => nodes,
            Body::Bytes(_) => panic!("{} holds no items", self.label),
        }
    }

    /// Gives the node at a path of indexes.
    pub fn at(&self, path: &[usize]) -> &Node {
        path.iter().fold(self, |node, &index| &node.nodes()[index])
    }

    /// Gives the node at a path of indexes for change.
    pub fn at_mut(&mut self, path: &[usize]) -> &mut Node {
        path.iter()
            .fold(self, |node, &index| &mut node.nodes_mut()[index])
    }

    /// Gives the paths of all nodes, outer before inner, left to right.
    pub fn paths(&self) -> Vec<Vec<usize>> {
        let mut all = vec![Vec::new()];
        for (index, node) in self.nodes().iter().enumerate() {
            for path in node.paths() {
                all.push([vec![index], path].concat());
            }
        }
        all
    }

    /// Encodes the node and all inside it.
    pub fn encode(&self) -> Encoded {
        let mut inner = Encoded::default();
        match &self.body {
            Body::Bytes(bytes) => inner.bytes = bytes.clone(),
            Body::Nodes(nodes) => nodes.iter().for_each(|node| inner.append(node.encode())),
        }
        let length = match &self.head {
            Head::None => return self.finish(Encoded::default(), inner),
            Head::Right => shortest_length(inner.bytes.len()),
            Head::WithLength(bytes) => bytes.clone(),
        };
        let mut outer = Encoded {
            bytes: [vec![self.tag], length].concat(),
            ..Encoded::default()
        };
        outer.places.push(Place {
            label: self.label,
            tag: 0,
            content: outer.bytes.len(),
            end: outer.bytes.len() + inner.bytes.len(),
        });
        self.finish(outer, inner)
    }

    /// Puts the inside behind the head and marks the beginning if the node is marked.
    fn finish(&self, mut outer: Encoded, inner: Encoded) -> Encoded {
        outer.append(inner);
        if self.marked {
            outer.mark = Some(0);
        }
        outer
    }
}

/// Gives the length bytes that DER has for a length.
pub fn shortest_length(length: usize) -> Vec<u8> {
    if length < 128 {
        return vec![length as u8];
    }
    let form = if length < 256 { 0x81 } else { 0x82 };
    length_in_form(form, length)
}

/// Gives a length in a form of its choice: 80 has no number, 81 to 84 have one to four bytes.
pub fn length_in_form(form: u8, length: usize) -> Vec<u8> {
    let size = usize::from(form - 0x80);
    let bytes = (length as u32).to_be_bytes();
    [&[form], &bytes[4 - size..]].concat()
}

/// Gives an input of one seal record.
pub fn seal_input(value: &SealValue) -> Node {
    input(seal(value))
}

/// Gives an input of one signature record.
pub fn signature_input(value: &SignatureValue) -> Node {
    input(signature(value))
}

/// Gives an input that holds one record.
fn input(record: Node) -> Node {
    Node {
        head: Head::None,
        ..Node::group(
            "input",
            Rule::Group,
            0,
            vec![record.with_role(Role::Outermost)],
        )
    }
}

/// Gives the tree of a signature record.
fn signature(value: &SignatureValue) -> Node {
    let mut signed = vec![
        Node::item("version", Rule::Version, 0x02, &[4]),
        seal(&value.seal),
        Node::item("signing", Rule::Time, 0x18, &value.signing),
        bits("original", &value.original),
        Node::item("text", Rule::Ia5, 0x16, &value.text),
    ];
    if let Some(items) = &value.custom {
        let list = custom(&SIGNATURE_CUSTOM, items);
        let wrapped = Node::group("custom [0]", Rule::Group, 0xA0, vec![list]);
        signed.push(wrapped.with_role(Role::Optional));
    }
    let mut record = vec![
        Node::group("signed part", Rule::Group, 0x30, signed),
        Node::item("signer", Rule::Octets, 0x04, &value.signer),
        Node::item("algorithm", Rule::Identifier, 0x06, &value.algorithm),
        bits("signature", &value.signature),
    ];
    if let Some(stamp) = &value.stamp {
        let wrapped = Node::group("stamp [0]", Rule::Group, 0xA0, vec![bits("stamp", stamp)]);
        record.push(wrapped.with_role(Role::Optional));
    }
    Node::group("record", Rule::Group, 0x30, record)
}

/// Gives the tree of a seal.
fn seal(value: &SealValue) -> Node {
    let header = vec![
        Node::item("header name", Rule::HeaderName, 0x16, b"ES"),
        Node::item("header version", Rule::Version, 0x02, &[4]),
        Node::item("vendor", Rule::Ia5OrNone, 0x16, &value.vendor),
    ];
    let (kind, entries) = entries(&value.list);
    let property = vec![
        integer("type", Rule::AnyInteger, value.seal_type),
        Node::item("name", Rule::Utf8OrNone, 0x0C, &value.name),
        integer("kind", Rule::ListKind, kind),
        Node::group("list", Rule::CertificateList, 0x30, entries),
        Node::item("created", Rule::Time, 0x18, &value.created),
        Node::item("start", Rule::Time, 0x18, &value.start),
        Node::item("end", Rule::Time, 0x18, &value.end),
    ];
    let picture = vec![
        Node::item("picture type", Rule::Ia5, 0x16, &value.picture_type),
        Node::item("picture data", Rule::Octets, 0x04, &value.picture_data),
        integer("width", Rule::Millimetres, value.width),
        integer("height", Rule::Millimetres, value.height),
    ];
    let mut information = vec![
        Node::group("header", Rule::Group, 0x30, header),
        Node::item("id", Rule::Ia5, 0x16, &value.id),
        Node::group("property", Rule::Group, 0x30, property),
        Node::group("picture", Rule::Group, 0x30, picture),
    ];
    if let Some(items) = &value.custom {
        information.push(custom(&SEAL_CUSTOM, items).with_role(Role::Optional));
    }
    let seal = vec![
        Node::group("information", Rule::Group, 0x30, information),
        Node::item("maker", Rule::Octets, 0x04, &value.maker),
        Node::item("seal algorithm", Rule::Identifier, 0x06, &value.algorithm),
        bits("signed value", &value.signed_value),
    ];
    Node::group("seal", Rule::Group, 0x30, seal)
}

/// Gives a list's kind and its entries.
fn entries(list: &List) -> (i64, Vec<Node>) {
    match list {
        List::Certificates(certificates) => {
            let entry = |c: &Vec<u8>| Node::item("certificate", Rule::Octets, 0x04, c);
            (1, listed(certificates.iter().map(entry)))
        }
        List::Pairs(pairs) => (
            2,
            listed(pairs.iter().map(|(text, digest)| pair(text, digest))),
        ),
    }
}

/// Gives an entry of kind 2.
fn pair(text: &[u8], digest: &[u8]) -> Node {
    let parts = vec![
        Node::item("pair text", Rule::PrintableOrNone, 0x13, text),
        Node::item("pair digest", Rule::Octets, 0x04, digest),
    ];
    Node::group("pair", Rule::Group, 0x30, parts)
}

/// Makes nodes the items of a list.
fn listed(nodes: impl Iterator<Item = Node>) -> Vec<Node> {
    nodes.map(|node| node.with_role(Role::ListItem)).collect()
}

/// The labels of custom data: the list, an item, its identifier, critical and value.
type CustomLabels = [&'static str; 5];

const SEAL_CUSTOM: CustomLabels = [
    "seal custom",
    "seal custom item",
    "seal custom id",
    "seal critical",
    "seal custom value",
];
const SIGNATURE_CUSTOM: CustomLabels = [
    "custom",
    "custom item",
    "custom id",
    "critical",
    "custom value",
];

/// Gives a list of custom data.
fn custom(labels: &CustomLabels, items: &[CustomValue]) -> Node {
    let items = items.iter().map(|item| custom_item(labels, item));
    Node::group(labels[0], Rule::CustomList, 0x30, listed(items))
}

/// Gives an item of custom data.
fn custom_item(labels: &CustomLabels, item: &CustomValue) -> Node {
    let mut parts = vec![Node::item(
        labels[2],
        Rule::Identifier,
        0x06,
        &item.identifier,
    )];
    if item.critical {
        let critical = Node::item(labels[3], Rule::Critical, 0x01, &[0xFF]);
        parts.push(critical.with_role(Role::Optional));
    }
    parts.push(Node::item(labels[4], Rule::OctetsOrNone, 0x04, &item.value));
    Node::group(labels[1], Rule::Group, 0x30, parts)
}

/// Gives an INTEGER.
fn integer(label: &'static str, rule: Rule, value: i64) -> Node {
    Node::item(label, rule, 0x02, &shortest_integer(value))
}

/// Gives a BIT STRING of whole bytes.
fn bits(label: &'static str, bytes: &[u8]) -> Node {
    Node::item(label, Rule::Bits, 0x03, &[&[0x00], bytes].concat())
}

/// Gives the full tree of a kind of record, with a list of kind 1 or 2.
pub fn full_input(kind: Kind, list_kind: i64) -> Node {
    match kind {
        Kind::Seal => seal_input(&SealValue::full(list_kind)),
        Kind::Signature => signature_input(&SignatureValue::full(list_kind)),
    }
}
