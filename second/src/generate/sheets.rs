//! Cases that fill sheets from records and write records from sheets.

use super::damage::{damages, Broken};
use super::edges::edges;
use super::random::Random;
use super::rule::{bad_sections, Rule};
use super::sections::{encode, seal_sections, signature_sections, Section};
use super::suite::{refused_writing, written, Suite};
use super::tally::Source;
use super::tree::{full_input, seal_input, signature_input};
use super::values::{
    seal_of_size, signature_of_size, signature_with_large_sheet, SealValue, SignatureValue,
};
use crate::case::{Case, Kind};

/// A destination that is large enough for small records and small enough to be summed quickly.
const ROOM: usize = 600;

/// A record and its sheet, both made from the same values.
struct Twins {
    kind: Kind,
    record: Vec<u8>,
    sheet: Vec<u8>,
}

impl Twins {
    /// Makes both from a seal's values.
    fn of_seal(value: &SealValue) -> Twins {
        Twins {
            kind: Kind::Seal,
            record: seal_input(value).encode().bytes,
            sheet: encode(&seal_sections(value)),
        }
    }

    /// Makes both from a signature's values.
    fn of_signature(value: &SignatureValue) -> Twins {
        Twins {
            kind: Kind::Signature,
            record: signature_input(value).encode().bytes,
            sheet: encode(&signature_sections(value)),
        }
    }
}

/// Adds all cases with sheets.
pub fn add(suite: &mut Suite, random: &mut Random) {
    allowed(suite, random);
    destinations(suite);
    large(suite);
    refused_records(suite);
    for kind in [Kind::Seal, Kind::Signature] {
        changed_bytes(suite, kind);
        cut_everywhere(suite, kind);
        one_fault(suite, kind);
        count_before_content(suite, kind);
        two_faults(suite, random, kind);
        left_over(suite, random, kind);
    }
}

/// Adds filling a sheet from a record, with the answer its values call for.
fn fill(suite: &mut Suite, group: &'static str, twins: &Twins, size: usize) {
    let case = Case::Fill {
        kind: twins.kind,
        size: size as u32,
        record: twins.record.clone(),
    };
    let needed = twins.sheet.len();
    if size < needed {
        suite.expect(group, case, refused_writing(20, needed, size));
        let label = "filled sheet";
        suite.tally.refusal(Source::Sheet, twins.kind, label, 20);
        return;
    }
    suite.expect(group, case, written(&twins.sheet, size));
}

/// Adds writing a record from a sheet, with the answer its values call for.
fn write(suite: &mut Suite, group: &'static str, twins: &Twins, size: usize) {
    let case = Case::Write {
        kind: twins.kind,
        size: size as u32,
        sheet: twins.sheet.clone(),
    };
    let needed = twins.record.len();
    let label = "written record";
    if needed > 65_535 {
        suite.expect(group, case, refused_writing(17, 0, size));
        suite.tally.refusal(Source::Sheet, twins.kind, label, 17);
        if size < needed {
            suite.tally.pair("17 before 20".to_string());
        }
        return;
    }
    if size < needed {
        suite.expect(group, case, refused_writing(20, needed, size));
        suite.tally.refusal(Source::Sheet, twins.kind, label, 20);
        return;
    }
    suite.expect(group, case, written(&twins.record, size));
}

/// Adds allowed values, both ways.
fn allowed(suite: &mut Suite, random: &mut Random) {
    let mut all: Vec<Twins> = edges().iter().map(Twins::of_signature).collect();
    for kind in [1, 2] {
        all.push(Twins::of_seal(&SealValue::full(kind)));
        all.push(Twins::of_signature(&SignatureValue::full(kind)));
    }
    for _ in 0..40 {
        let value = SignatureValue::random(random, 128);
        all.push(Twins::of_seal(&value.seal));
        all.push(Twins::of_signature(&value));
    }
    for twins in all {
        let room = twins.sheet.len().max(twins.record.len()) + random.below(3);
        fill(suite, "sheet from an allowed record", &twins, room);
        write(suite, "record from an allowed sheet", &twins, room);
    }
}

/// Adds destinations of every size around the need.
fn destinations(suite: &mut Suite) {
    let all = [
        Twins::of_seal(&SealValue::s()),
        Twins::of_signature(&SignatureValue::s()),
        Twins::of_signature(&SignatureValue::full(2)),
    ];
    for twins in all {
        for size in around(twins.sheet.len()) {
            fill(suite, "sheet, size of the destination", &twins, size);
        }
        for size in around(twins.record.len()) {
            write(suite, "record, size of the destination", &twins, size);
        }
    }
}

/// Gives no size at all, a few, and every size near the need.
fn around(need: usize) -> Vec<usize> {
    let mut sizes = vec![0, 1, 4, need / 2];
    sizes.extend(need - 8..=need + 8);
    sizes.push(2 * need);
    sizes
}

/// Adds records and sheets about as large as a record may be, and larger.
fn large(suite: &mut Suite) {
    for size in [65_534, 65_535, 65_536, 66_000] {
        let twins = [
            Twins::of_seal(&seal_of_size(size)),
            Twins::of_signature(&signature_of_size(size)),
        ];
        for twins in twins {
            for room in [0, 65_533, 65_534, 65_535, 65_536] {
                write(suite, "record from a large sheet", &twins, room);
            }
            if size <= 65_535 {
                fill(suite, "sheet from a large record", &twins, 65_536);
                fill(
                    suite,
                    "sheet from a large record",
                    &twins,
                    twins.sheet.len() - 1,
                );
            }
        }
    }
    let mut unwritable = SignatureValue::s();
    unwritable.seal.picture_data = vec![0x77; 65_536];
    let twins = Twins::of_signature(&unwritable);
    write(suite, "record with an inner length past 65,535", &twins, 0);
    write(
        suite,
        "record with an inner length past 65,535",
        &twins,
        65_536,
    );

    let group = "sheet larger than its record";
    let twins = Twins::of_signature(&signature_with_large_sheet(63_200));
    for room in [65_535, 65_536, twins.sheet.len() - 1, twins.sheet.len()] {
        fill(suite, group, &twins, room);
    }

    let mut cut = Twins::of_signature(&signature_of_size(65_536)).sheet;
    let last = cut.len() - 4;
    cut.truncate(cut.len() - 1);
    let case = Case::Write {
        kind: Kind::Signature,
        size: 0,
        sheet: cut,
    };
    let expected = refused_writing(19, last, 0);
    suite.expect("record from a large cut sheet", case, expected);
    suite.tally.pair("19 before 17".to_string());
}

/// Adds damaged records for which no sheet is filled, though the destination would be too short as well.
fn refused_records(suite: &mut Suite) {
    for kind in [Kind::Seal, Kind::Signature] {
        let input = full_input(kind, 1);
        for path in input.paths() {
            let all = damages(input.at(&path));
            let damage = all.last().expect("every item can be damaged");
            let broken = Broken::by(&input, &path, damage);
            let short = path.len() % 2 == 0;
            let size = if short { 16 } else { ROOM };
            let case = Case::Fill {
                kind,
                size: size as u32,
                record: broken.record,
            };
            let expected = refused_writing(broken.number, broken.place, size);
            suite.expect("sheet from a damaged record", case, expected);
            if short {
                suite.tally.pair("record before 20".to_string());
            }
        }
    }
}

/// Gives the sections of the full record of a kind.
fn full_sections(kind: Kind, list_kind: i64) -> Vec<Section> {
    match kind {
        Kind::Seal => seal_sections(&SealValue::full(list_kind)),
        Kind::Signature => signature_sections(&SignatureValue::full(list_kind)),
    }
}

/// Gives the sections of S, or of its seal.
fn s_sections(kind: Kind) -> Vec<Section> {
    match kind {
        Kind::Seal => seal_sections(&SealValue::s()),
        Kind::Signature => signature_sections(&SignatureValue::s()),
    }
}

/// Gives the place of a section's count.
fn place_of(sections: &[Section], index: usize) -> usize {
    encode(&sections[..index]).len()
}

/// Adds a sheet that is refused at a place.
fn refused(
    suite: &mut Suite,
    group: &'static str,
    kind: Kind,
    sheet: Vec<u8>,
    (number, place): (u8, usize),
    size: usize,
) {
    let case = Case::Write {
        kind,
        size: size as u32,
        sheet,
    };
    suite.expect(group, case, refused_writing(number, place, size));
}

/// Adds the sheet of S with each of its bytes changed to a few values.
fn changed_bytes(suite: &mut Suite, kind: Kind) {
    let right = encode(&s_sections(kind));
    for at in 0..right.len() {
        for value in [right[at].wrapping_add(1), right[at] ^ 0x80] {
            let mut sheet = right.clone();
            sheet[at] = value;
            let size = ROOM as u32;
            let case = Case::Write { kind, size, sheet };
            suite.ask("sheet, one byte of S's changed", case);
        }
    }
}

/// Adds the sheet of S, and that of a full record at the edges of its sections, cut.
fn cut_everywhere(suite: &mut Suite, kind: Kind) {
    let group = "sheet cut";
    let sections = s_sections(kind);
    for (index, section) in sections.iter().enumerate() {
        let place = place_of(&sections, index);
        for length in place..place + 4 + section.body.len() {
            let cut = encode(&sections)[..length].to_vec();
            refused(suite, group, kind, cut, (19, place), ROOM);
            suite.tally.refusal(Source::Sheet, kind, section.label, 19);
        }
    }
    let sections = full_sections(kind, 2);
    for (index, section) in sections.iter().enumerate() {
        let place = place_of(&sections, index);
        let end = place + 4 + section.body.len();
        for length in [place, place + 3, end - 1] {
            let cut = encode(&sections)[..length].to_vec();
            refused(suite, group, kind, cut, (19, place), ROOM);
            suite.tally.refusal(Source::Sheet, kind, section.label, 19);
        }
    }
}

/// A section that is damaged: the number it must get, and what stands in its place.
struct Damaged {
    number: u8,
    count: u32,
    body: Vec<u8>,
}

/// Gives all damages of a section.
fn section_damages(section: &Section) -> Vec<Damaged> {
    let mut all = vec![
        Damaged {
            number: 19,
            count: 0x0100_0000,
            body: section.body.clone(),
        },
        Damaged {
            number: 19,
            count: u32::MAX,
            body: section.body.clone(),
        },
    ];
    match section.rule {
        Rule::CertificateList => all = bad_counts(&[(15, 0), (16, 65), (16, 256), (16, u32::MAX)]),
        Rule::CustomList => all = bad_counts(&[(16, 65), (16, 0x0100_0000), (16, u32::MAX)]),
        Rule::Optional => {
            all = bad_counts(&[(19, 2), (19, 256), (19, 0x0100_0000), (19, u32::MAX)])
        }
        Rule::AnyInteger | Rule::ListKind | Rule::Millimetres => {
            all.extend(bad_sizes(&[b"", b"\x01", &[0; 7], &[0; 9]]));
        }
        Rule::Critical => {
            all.extend(bad_sizes(&[
                b"",
                b"\x02",
                b"\xFF",
                b"\x00\x00",
                b"\x01\x00",
            ]));
        }
        _ => {}
    }
    for bad in bad_sections(section.rule) {
        all.push(Damaged {
            number: bad.number,
            count: bad.content.len() as u32,
            body: bad.content,
        });
    }
    all
}

/// Gives counts that are not allowed where no bytes of the section follow.
fn bad_counts(counts: &[(u8, u32)]) -> Vec<Damaged> {
    let damaged = |&(number, count): &(u8, u32)| Damaged {
        number,
        count,
        body: Vec::new(),
    };
    counts.iter().map(damaged).collect()
}

/// Gives whole sections whose size or bytes get 19.
fn bad_sizes(bodies: &[&[u8]]) -> Vec<Damaged> {
    let damaged = |body: &&[u8]| Damaged {
        number: 19,
        count: body.len() as u32,
        body: body.to_vec(),
    };
    bodies.iter().map(damaged).collect()
}

/// Puts a damage in the place of a section.
fn replace(sections: &mut [Section], index: usize, damaged: &Damaged) {
    sections[index].count = damaged.count;
    sections[index].body = damaged.body.clone();
}

/// Adds every damage to every section of the sheets of full records.
fn one_fault(suite: &mut Suite, kind: Kind) {
    for list_kind in [1, 2] {
        let sections = full_sections(kind, list_kind);
        for (index, section) in sections.iter().enumerate() {
            let is_new = list_kind == 1 || section.label.starts_with("pair");
            if !is_new {
                continue;
            }
            for damaged in section_damages(section) {
                let mut changed = sections.clone();
                replace(&mut changed, index, &damaged);
                let at = (damaged.number, place_of(&sections, index));
                refused(suite, "sheet, one fault", kind, encode(&changed), at, ROOM);
                let label = section.label;
                suite
                    .tally
                    .refusal(Source::Sheet, kind, label, damaged.number);
            }
        }
    }
}

/// Adds sections that break 19 and their own rule at once.
fn count_before_content(suite: &mut Suite, kind: Kind) {
    let sections = full_sections(kind, 2);
    for (index, section) in sections.iter().enumerate() {
        for bad in bad_sections(section.rule).into_iter().take(3) {
            let is_integer = matches!(section.rule, Rule::ListKind | Rule::Millimetres);
            if bad.content.is_empty() {
                continue;
            }
            let mut changed = sections[..=index].to_vec();
            let body = if is_integer {
                bad.content[1..].to_vec()
            } else {
                bad.content
            };
            changed[index].count = body.len() as u32 + u32::from(!is_integer);
            changed[index].body = body;
            let at = (19, place_of(&sections, index));
            let group = "sheet, 19 and the section's own rule";
            refused(suite, group, kind, encode(&changed), at, ROOM);
            suite.tally.pair(format!("19 before {}", bad.number));
        }
    }
}

/// Adds sheets with faults in two sections, the left one of which answers.
fn two_faults(suite: &mut Suite, random: &mut Random, kind: Kind) {
    let sections = full_sections(kind, 1);
    for _ in 0..120 {
        let left = random.below(sections.len() - 1);
        let right = left + 1 + random.below(sections.len() - left - 1);
        let mut changed = sections.clone();
        let second = section_damages(&sections[right]);
        replace(&mut changed, right, random.pick(&second));
        let first = section_damages(&sections[left]);
        let first = random.pick(&first);
        replace(&mut changed, left, first);
        let at = (first.number, place_of(&sections, left));
        let size = random.below(2) * ROOM;
        refused(suite, "sheet, two faults", kind, encode(&changed), at, size);
        if size == 0 {
            suite.tally.pair("sheet before 20".to_string());
        }
    }
}

/// Adds sheets with bytes left over, alone and after another fault.
fn left_over(suite: &mut Suite, random: &mut Random, kind: Kind) {
    let group = "sheet, bytes left over";
    let sections = full_sections(kind, 1);
    let end = place_of(&sections, sections.len());
    for tail in [
        &b"\x00"[..],
        b"\xFF",
        b"\x00\x00\x00\x00",
        b"\x00\x00\x00\x01A",
    ] {
        let sheet = [encode(&sections), tail.to_vec()].concat();
        refused(suite, group, kind, sheet, (19, end), ROOM);
        suite.tally.refusal(Source::Sheet, kind, "left over", 19);
    }
    for (index, section) in sections.iter().enumerate() {
        let damages = section_damages(section);
        let damaged = random.pick(&damages);
        let mut changed = sections.clone();
        replace(&mut changed, index, damaged);
        let sheet = [encode(&changed), vec![0x00]].concat();
        let at = (damaged.number, place_of(&sections, index));
        refused(suite, group, kind, sheet, at, ROOM);
        suite.tally.pair("inner before 19 left over".to_string());
    }
}
