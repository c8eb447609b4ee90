//! Cases that read one record: allowed ones, and damaged ones.

use super::damage::{apply, damages, Broken, Change, Damage};
use super::edges::edges;
use super::random::Random;
use super::suite::Suite;
use super::tally::Source;
use super::tree::{full_input, seal_input, signature_input, Node, Role};
use super::values::{
    seal_of_size, signature_of_size, signature_with_large_sheet, SealValue, SignatureValue,
};
use crate::case::{Case, Kind};

/// A damage and the path of the node it is done to.
type Spot = (Vec<usize>, Damage);

/// Adds all cases that read one record.
pub fn add(suite: &mut Suite, random: &mut Random) {
    allowed(suite, random);
    large(suite);
    changed_bytes(suite);
    cut_everywhere(suite);
    for kind in [Kind::Seal, Kind::Signature] {
        one_damage(suite, kind);
        swapped_and_repeated(suite, kind);
        two_damages(suite, random, kind);
        inner_before_left_over(suite, random, kind);
        inner_before_sixty_fifth(suite, random, kind);
        kinds_exchanged(suite, kind);
    }
    optional_edges(suite);
}

/// Adds a record that must be accepted.
fn accepted(suite: &mut Suite, kind: Kind, input: &Node) {
    let record = input.encode().bytes;
    let expected = format!("ACCEPTED {}", record.len());
    suite.expect("read, allowed", Case::Read { kind, record }, expected);
}

/// Adds allowed records: S, full ones, edges and random ones.
fn allowed(suite: &mut Suite, random: &mut Random) {
    for kind in [Kind::Seal, Kind::Signature] {
        accepted(suite, kind, &full_input(kind, 1));
        accepted(suite, kind, &full_input(kind, 2));
    }
    accepted(suite, Kind::Seal, &seal_input(&SealValue::s()));
    accepted(
        suite,
        Kind::Signature,
        &signature_input(&SignatureValue::s()),
    );
    for value in edges() {
        accepted(suite, Kind::Signature, &signature_input(&value));
    }
    for _ in 0..40 {
        let value = SignatureValue::random(random, 256);
        accepted(suite, Kind::Signature, &signature_input(&value));
        accepted(suite, Kind::Seal, &seal_input(&value.seal));
    }
}

/// Adds records just below, at and above the largest size.
fn large(suite: &mut Suite) {
    for size in [65_534, 65_535, 65_536] {
        let inputs = [
            (Kind::Seal, seal_input(&seal_of_size(size))),
            (Kind::Signature, signature_input(&signature_of_size(size))),
        ];
        for (kind, input) in inputs {
            let record = input.encode().bytes;
            assert_eq!(record.len(), size, "the picture gives the record its size");
            if size <= 65_535 {
                accepted(suite, kind, &input);
                continue;
            }
            let expected = "REFUSED 17 0".to_string();
            suite.expect("read, too large", Case::Read { kind, record }, expected);
        }
    }
    let value = signature_with_large_sheet(63_200);
    accepted(suite, Kind::Signature, &signature_input(&value));
}

/// Adds S with each of its bytes changed to a few values.
fn changed_bytes(suite: &mut Suite) {
    let records = [
        (Kind::Seal, seal_input(&SealValue::s())),
        (Kind::Signature, signature_input(&SignatureValue::s())),
    ];
    for (kind, input) in records {
        let right = input.encode().bytes;
        for at in 0..right.len() {
            let byte = right[at];
            let mut values = vec![byte.wrapping_add(1), byte.wrapping_sub(1)];
            values.extend([0x00, 0x80, 0xFF, byte ^ 0x20]);
            values.sort_unstable();
            values.dedup();
            for value in values.into_iter().filter(|&value| value != byte) {
                let mut record = right.clone();
                record[at] = value;
                suite.ask("read, one byte of S changed", Case::Read { kind, record });
            }
        }
    }
}

/// Adds S cut at every length.
fn cut_everywhere(suite: &mut Suite) {
    let seal = seal_input(&SealValue::s()).encode().bytes;
    let signature = signature_input(&SignatureValue::s()).encode().bytes;
    for (kind, right, header) in [(Kind::Seal, seal, 2), (Kind::Signature, signature, 3)] {
        for length in 0..right.len() {
            let number = match length {
                0 => 1,
                _ if length < header => 3,
                _ => 4,
            };
            let record = right[..length].to_vec();
            let expected = format!("REFUSED {number} 0");
            suite.expect("read, S cut", Case::Read { kind, record }, expected);
        }
    }
}

/// Gives all damages to the nodes of an input that a test picks.
fn spots(input: &Node, picked: impl Fn(&Node) -> bool) -> Vec<Spot> {
    let mut all = Vec::new();
    for path in input.paths() {
        let node = input.at(&path);
        if !picked(node) {
            continue;
        }
        for damage in damages(node) {
            all.push((path.clone(), damage));
        }
    }
    all
}

/// Tells whether a node is part of a list's entry of kind 2, or the list itself.
fn is_of_pairs(node: &Node) -> bool {
    matches!(node.label, "list" | "pair" | "pair text" | "pair digest")
}

/// Adds a damaged record with the answer that the damage must get.
fn damaged(suite: &mut Suite, group: &'static str, kind: Kind, input: &Node, number: u8) {
    let broken = Broken::new(input, number);
    let expected = broken.refused();
    let record = broken.record;
    suite.expect(group, Case::Read { kind, record }, expected);
}

/// Adds every damage to every item of a full record, of both list kinds.
fn one_damage(suite: &mut Suite, kind: Kind) {
    let certificates = full_input(kind, 1);
    let pairs = full_input(kind, 2);
    let of_certificates = spots(&certificates, |_| true);
    let of_pairs = spots(&pairs, is_of_pairs);
    for (input, spots) in [(certificates, of_certificates), (pairs, of_pairs)] {
        for (path, damage) in spots {
            let mut changed = input.clone();
            apply(&mut changed, &path, &damage.change, true);
            damaged(suite, "read, one fault", kind, &changed, damage.number);
            let label = input.at(&path).label;
            suite
                .tally
                .refusal(Source::Record, kind, label, damage.number);
            if let Some(also) = damage.also {
                suite.tally.pair(format!("{} before {also}", damage.number));
            }
        }
    }
}

/// Adds records in which an item stands twice, or is exchanged with the next.
fn swapped_and_repeated(suite: &mut Suite, kind: Kind) {
    let input = full_input(kind, 1);
    for path in input.paths().iter().filter(|path| path.len() > 1) {
        repeated(suite, kind, &input, path);
        exchanged(suite, kind, &input, path);
    }
}

/// Gives the node that follows the one at a path in its encloser.
fn follower<'a>(input: &'a Node, path: &[usize]) -> Option<&'a Node> {
    let (index, encloser) = path.split_last()?;
    input.at(encloser).nodes().get(index + 1)
}

/// Adds a record in which an item stands twice: its copy is left over, or not what must follow.
fn repeated(suite: &mut Suite, kind: Kind, input: &Node, path: &[usize]) {
    let (&index, encloser) = path.split_last().expect("an item has an encloser");
    let node = input.at(path);
    let (label, number) = match follower(input, path) {
        None if node.role != Role::ListItem => (input.at(encloser).label, 5),
        Some(next) if next.role == Role::Needed && next.tag != node.tag => (next.label, 2),
        _ => return,
    };
    let copy = Node {
        marked: true,
        ..node.clone()
    };
    let mut changed = input.clone();
    changed.at_mut(encloser).nodes_mut().insert(index + 1, copy);
    damaged(suite, "read, item repeated", kind, &changed, number);
    suite.tally.refusal(Source::Record, kind, label, number);
}

/// Adds a record in which two needed items with different tags are exchanged.
fn exchanged(suite: &mut Suite, kind: Kind, input: &Node, path: &[usize]) {
    let (&index, encloser) = path.split_last().expect("an item has an encloser");
    let node = input.at(path);
    let Some(next) = follower(input, path) else {
        return;
    };
    if node.role != Role::Needed || next.role != Role::Needed || next.tag == node.tag {
        return;
    }
    let mut changed = input.clone();
    changed.at_mut(encloser).nodes_mut().swap(index, index + 1);
    changed.at_mut(path).marked = true;
    damaged(suite, "read, items exchanged", kind, &changed, 2);
    suite.tally.refusal(Source::Record, kind, node.label, 2);
}

/// Adds records with two faults in different items, the left one of which answers.
fn two_damages(suite: &mut Suite, random: &mut Random, kind: Kind) {
    let input = full_input(kind, 1);
    let spots: Vec<Spot> = spots(&input, |_| true)
        .into_iter()
        .filter(|(_, damage)| !matches!(damage.change, Change::SixtyFifth(_)))
        .collect();
    let mut wanted = 300;
    while wanted > 0 {
        let first = random.pick(&spots);
        let second = random.pick(&spots);
        if !stands_right_of(second, first) {
            continue;
        }
        let mut changed = input.clone();
        apply(&mut changed, &second.0, &second.1.change, false);
        apply(&mut changed, &first.0, &first.1.change, true);
        damaged(suite, "read, two faults", kind, &changed, first.1.number);
        wanted -= 1;
    }
}

/// Tells whether a damage stands wholly to the right of another, and stays when the other is done too.
fn stands_right_of(second: &Spot, first: &Spot) -> bool {
    let (path, damage) = first;
    let right = second.0 > *path;
    let is_inside = second.0.starts_with(path);
    if is_inside && !matches!(damage.change, Change::Tag(_)) {
        return false;
    }
    let encloser = &path[..path.len().saturating_sub(1)];
    right && !(damage.drops_followers() && second.0.starts_with(encloser))
}

/// Gives the damages inside a node that leave the node's own end alone.
fn spots_inside(input: &Node, path: &[usize]) -> Vec<Spot> {
    let mut inside = spots(input, |_| true);
    inside.retain(|(inner, damage)| {
        let is_child = inner.len() == path.len() + 1;
        let stays = !(is_child && damage.drops_followers());
        inner.len() > path.len() && inner.starts_with(path) && stays
    });
    inside
}

/// Adds records with bytes left over after an item and a fault inside it, which answers.
fn inner_before_left_over(suite: &mut Suite, random: &mut Random, kind: Kind) {
    let input = full_input(kind, 1);
    let left_over: Vec<Spot> = spots(&input, |_| true)
        .into_iter()
        .filter(|(_, damage)| damage.number == 5)
        .collect();
    for (path, outer) in left_over {
        let inner = spots_inside(&input, &path);
        for _ in 0..3 {
            let (inner_path, damage) = random.pick(&inner);
            let mut changed = input.clone();
            apply(&mut changed, &path, &outer.change, false);
            apply(&mut changed, inner_path, &damage.change, true);
            let group = "read, inner fault and bytes left";
            damaged(suite, group, kind, &changed, damage.number);
            suite.tally.pair("inner before 5".to_string());
        }
    }
}

/// Adds lists of sixty-five items with a fault in one of the first, which answers.
fn inner_before_sixty_fifth(suite: &mut Suite, random: &mut Random, kind: Kind) {
    for list_kind in [1, 2] {
        let input = full_input(kind, list_kind);
        let lists = spots(&input, |_| true)
            .into_iter()
            .filter(|(_, damage)| matches!(damage.change, Change::SixtyFifth(_)));
        for (path, outer) in lists {
            let inner = spots_inside(&input, &path);
            let (inner_path, damage) = random.pick(&inner);
            let mut changed = input.clone();
            apply(&mut changed, &path, &outer.change, false);
            apply(&mut changed, inner_path, &damage.change, true);
            let group = "read, inner fault and a 65th item";
            damaged(suite, group, kind, &changed, damage.number);
            suite.tally.pair("inner before 16".to_string());
        }
    }
}

/// Adds lists whose entries are those of the other kind.
fn kinds_exchanged(suite: &mut Suite, kind: Kind) {
    for (list_kind, other) in [(1, 2), (2, 1)] {
        let mut input = full_input(kind, list_kind);
        let other = full_input(kind, other);
        let list = other
            .paths()
            .into_iter()
            .find(|path| other.at(path).label == "list")
            .expect("every record has a list");
        *input.at_mut(&list) = other.at(&list).clone();
        input.at_mut(&list).nodes_mut()[0].marked = true;
        damaged(suite, "read, list of the other kind", kind, &input, 2);
    }
}

/// Adds records in which an optional item is barely there, or something else stands in its place.
fn optional_edges(suite: &mut Suite) {
    let information = [0, 0, 1, 0];
    let signed_part = [0, 0];
    let record = [0];

    s_with_tail(suite, &information, b"", b"\x30", 3);
    s_with_tail(suite, &information, b"", b"\x30\x80", 3);
    s_with_tail(suite, &information, b"", b"\x30\x01", 4);
    s_with_tail(suite, &information, b"", b"\xA0\x00", 5);
    s_with_tail(suite, &information, b"", b"\x31\x00", 5);
    s_with_tail(suite, &information, b"\x30\x02", b"\x31\x00", 2);

    s_with_tail(suite, &signed_part, b"", b"\xA0", 3);
    s_with_tail(suite, &signed_part, b"", b"\xA0\x81\x00", 3);
    s_with_tail(suite, &signed_part, b"", b"\xA0\x01", 4);
    s_with_tail(suite, &signed_part, b"", b"\xA1\x00", 5);
    s_with_tail(suite, &signed_part, b"", b"\x30\x00", 5);
    s_with_tail(suite, &signed_part, b"\xA0\x00", b"", 1);
    s_with_tail(suite, &signed_part, b"\xA0\x02", b"\x31\x00", 2);
    s_with_tail(suite, &signed_part, b"\xA0\x04\x30\x00", b"\x30\x00", 5);

    s_with_tail(suite, &record, b"", b"\xA0", 3);
    s_with_tail(suite, &record, b"", b"\xA0\x7F", 4);
    s_with_tail(suite, &record, b"", b"\x80\x00", 5);
    s_with_tail(suite, &record, b"", b"\x03\x02\x00\x01", 5);
    s_with_tail(suite, &record, b"\xA0\x00", b"", 1);
    s_with_tail(suite, &record, b"\xA0\x02", b"\x04\x00", 2);
    s_with_tail(suite, &record, b"\xA0\x05\x03\x02\x00\x01", b"\x00", 5);
}

/// Adds S with bytes at the end of one of its items: first sound ones, then those that are refused.
fn s_with_tail(suite: &mut Suite, path: &[usize], sound: &[u8], refused: &[u8], number: u8) {
    let mut input = signature_input(&SignatureValue::s());
    apply(&mut input, path, &Change::Append(sound.to_vec()), false);
    apply(&mut input, path, &Change::Append(refused.to_vec()), true);
    let group = "read, at an optional item's place";
    damaged(suite, group, Kind::Signature, &input, number);
}
