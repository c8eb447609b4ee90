//! Damage to a record: one change of one item, and the number that it must be refused with.

use super::rule::{bad_contents, Rule};
use super::tree::{length_in_form, shortest_length, Body, Head, Node, Role};

const MOST_ITEMS: usize = 64;

/// A change of one node of a tree.
#[derive(Clone, Debug)]
pub enum Change {
    /// The encloser ends where the item would begin.
    EndBefore,
    /// The item has another tag.
    Tag(u8),
    /// The length is spelled in another form.
    Form(u8),
    /// The length claims another number of bytes, or is spelled in a wrong way.
    Length(Vec<u8>),
    /// The encloser ends inside the item's length, of which these bytes are left.
    CutLength(Vec<u8>),
    /// The encloser ends one byte before the item does.
    CutContent,
    /// The content is another.
    Content(Vec<u8>),
    /// Bytes are left after the last item inside.
    Append(Vec<u8>),
    /// There is no item inside.
    NoItems,
    /// Sixty-four items stand inside, and then these bytes.
    SixtyFifth(Vec<u8>),
}

/// A change with the number it must get, and one it would get if the order were another.
#[derive(Clone, Debug)]
pub struct Damage {
    pub number: u8,
    pub also: Option<u8>,
    pub change: Change,
}

impl Damage {
    /// Makes a damage with one fault.
    fn one(number: u8, change: Change) -> Damage {
        Damage {
            number,
            also: None,
            change,
        }
    }

    /// Makes a damage with two faults, the first of which answers.
    fn two(number: u8, also: u8, change: Change) -> Damage {
        Damage {
            number,
            also: Some(also),
            change,
        }
    }

    /// Tells whether the change takes away what follows the item in its encloser.
    pub fn drops_followers(&self) -> bool {
        matches!(
            self.change,
            Change::EndBefore | Change::CutLength(_) | Change::CutContent
        )
    }
}

/// A damaged record and the refusal that it must get.
pub struct Broken {
    pub record: Vec<u8>,
    pub number: u8,
    pub place: usize,
}

impl Broken {
    /// Encodes an input in which a damage has marked its place.
    pub fn new(input: &Node, number: u8) -> Broken {
        let encoded = input.encode();
        Broken {
            record: encoded.bytes,
            number,
            place: encoded.mark.expect("every damage marks its place"),
        }
    }

    /// Does one damage to an input.
    pub fn by(input: &Node, path: &[usize], damage: &Damage) -> Broken {
        let mut changed = input.clone();
        apply(&mut changed, path, &damage.change, true);
        Broken::new(&changed, damage.number)
    }

    /// Gives the refusal as a line.
    pub fn refused(&self) -> String {
        format!("REFUSED {} {}", self.number, self.place)
    }
}

/// Gives all damages of one node.
pub fn damages(node: &Node) -> Vec<Damage> {
    if node.label == "input" {
        return leftovers();
    }
    let mut all = absences(node);
    all.extend(length_damages(node));
    all.extend(overruns(node));
    all.extend(list_damages(node));
    for bad in bad_contents(node.rule) {
        all.push(Damage {
            number: bad.number,
            also: bad.also,
            change: Change::Content(bad.content),
        });
    }
    if matches!(node.body, Body::Nodes(_)) && !is_list(node) {
        all.extend(leftovers());
    }
    all
}

/// Tells whether a node is a list.
fn is_list(node: &Node) -> bool {
    matches!(node.rule, Rule::CertificateList | Rule::CustomList)
}

/// Gives the ways in which an item does not stand where it must.
fn absences(node: &Node) -> Vec<Damage> {
    let mut all = Vec::new();
    if matches!(node.role, Role::Outermost | Role::Needed) {
        all.push(Damage::one(1, Change::EndBefore));
    }
    if node.role != Role::Optional {
        for tag in [0x00, 0x05, node.tag ^ 0x20, node.tag ^ 0x80] {
            all.push(Damage::one(2, Change::Tag(tag)));
        }
    }
    all
}

/// Gives the ways in which a length is missing, cut or of no allowed form.
fn length_damages(node: &Node) -> Vec<Damage> {
    let right = node_length(node);
    let mut all = Vec::new();
    for form in [0x80, 0x81, 0x82, 0x83, 0x84] {
        if length_in_form(form, right) != shortest_length(right) {
            all.push(Damage::one(3, Change::Form(form)));
        }
    }
    for cut in [&b""[..], b"\x81", b"\x82", b"\x82\x01"] {
        all.push(Damage::one(3, Change::CutLength(cut.to_vec())));
    }
    all.push(Damage::one(3, Change::Length(vec![0xFF])));
    let also = if node.role == Role::Outermost { 17 } else { 4 };
    all.push(Damage::two(3, also, Change::Length(vec![0x83, 1, 0, 0])));
    all.push(Damage::two(3, also, Change::Length(vec![0x84, 0, 1, 0, 0])));
    all
}

/// Gives the number of content bytes of a node.
fn node_length(node: &Node) -> usize {
    let bare = Node {
        head: Head::None,
        ..node.clone()
    };
    bare.encode().bytes.len()
}

/// Gives the ways in which an item is larger than its encloser, or than a record may be.
fn overruns(node: &Node) -> Vec<Damage> {
    let mut all = vec![Damage::one(4, Change::CutContent)];
    if node.role != Role::Outermost {
        all.push(Damage::one(4, Change::Length(vec![0x82, 0xFF, 0xFF])));
        return all;
    }
    all.push(Damage::one(4, Change::Length(vec![0x82, 0xFF, 0xFB])));
    all.push(Damage::two(17, 4, Change::Length(vec![0x82, 0xFF, 0xFC])));
    all.push(Damage::two(17, 4, Change::Length(vec![0x82, 0xFF, 0xFF])));
    all
}

/// Gives the ways in which a list has too few or too many items.
fn list_damages(node: &Node) -> Vec<Damage> {
    if !is_list(node) {
        return Vec::new();
    }
    let right = node.nodes()[0].tag;
    let whole = node.nodes()[0].encode().bytes;
    let mut all = vec![Damage::one(16, Change::SixtyFifth(whole))];
    for tag in [0x00, 0x02, 0x05, 0xA0, 0xFF] {
        all.push(Damage::two(16, 2, Change::SixtyFifth(vec![tag])));
    }
    all.push(Damage::two(16, 3, Change::SixtyFifth(vec![right])));
    all.push(Damage::two(16, 3, Change::SixtyFifth(vec![right, 0x80])));
    all.push(Damage::two(
        16,
        4,
        Change::SixtyFifth(vec![right, 0x7F, 0x01]),
    ));
    if node.rule == Rule::CertificateList {
        all.push(Damage::one(15, Change::NoItems));
    }
    all
}

/// Gives bytes that no optional item begins with.
fn leftovers() -> Vec<Damage> {
    [&b"\x00"[..], b"\x05\x00", b"\x04\x01\x00", b"\xFF"]
        .iter()
        .map(|bytes| Damage::one(5, Change::Append(bytes.to_vec())))
        .collect()
}

/// Applies a change to the node at a path; the place of its refusal is marked if asked.
pub fn apply(input: &mut Node, path: &[usize], change: &Change, marked: bool) {
    match change {
        Change::EndBefore => cut_encloser(input, path, b"", marked),
        Change::CutLength(left) => {
            let bytes = [vec![input.at(path).tag], left.clone()].concat();
            cut_encloser(input, path, &bytes, marked);
        }
        Change::CutContent => {
            let node = input.at(path);
            let claimed = shortest_length(node_length(node) + 1);
            let inside = Node {
                head: Head::None,
                ..node.clone()
            };
            let bytes = [vec![node.tag], claimed, inside.encode().bytes].concat();
            cut_encloser(input, path, &bytes, marked);
        }
        Change::Append(bytes) => append(input.at_mut(path), bytes, marked),
        Change::SixtyFifth(bytes) => {
            let list = input.at_mut(path);
            let first = list.nodes()[0].clone();
            list.nodes_mut().resize(MOST_ITEMS, first);
            append(list, bytes, marked);
        }
        Change::Tag(tag) => change_node(input, path, marked, |node| node.tag = *tag),
        Change::Form(form) => change_node(input, path, marked, |node| {
            node.head = Head::WithLength(length_in_form(*form, node_length(node)));
        }),
        Change::Length(bytes) => change_node(input, path, marked, |node| {
            node.head = Head::WithLength(bytes.clone());
        }),
        Change::Content(bytes) => change_node(input, path, marked, |node| {
            node.body = Body::Bytes(bytes.clone());
        }),
        Change::NoItems => change_node(input, path, marked, |node| {
            node.body = Body::Nodes(Vec::new());
        }),
    }
}

/// Changes the node at a path in place and marks it if asked.
fn change_node(input: &mut Node, path: &[usize], marked: bool, change: impl Fn(&mut Node)) {
    let node = input.at_mut(path);
    change(node);
    node.marked = marked;
}

/// Puts loose bytes in the place of a node and of all that follow it in its encloser.
fn cut_encloser(input: &mut Node, path: &[usize], bytes: &[u8], marked: bool) {
    let (&index, encloser) = path.split_last().expect("the input itself is never cut");
    let encloser = input.at_mut(encloser);
    encloser.nodes_mut().truncate(index);
    append(encloser, bytes, marked);
}

/// Puts loose bytes behind the last node inside a node.
fn append(encloser: &mut Node, bytes: &[u8], marked: bool) {
    let loose = Node {
        marked,
        ..Node::loose(bytes)
    };
    encloser.nodes_mut().push(loose);
}
