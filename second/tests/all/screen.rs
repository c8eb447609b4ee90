//! The screen of a record: its lines, its words, and that its outcome is the reader's.

use crate::hand::s;
use second::answer::answer;
use second::case::{unpack, Case, Kind};
use second::screen::{screen, Language, Pages};
use std::fs::{self, File};
use std::io::BufReader;
use std::path::Path;

const ROOT: &str = env!("CARGO_MANIFEST_DIR");

/// The pages that labels and words are taken from.
fn pages() -> Pages {
    let docs = Path::new(ROOT).with_file_name("docs");
    Pages {
        fields: fs::read_to_string(docs.join("FIELDS.md")).expect("the page of fields"),
        numbers: fs::read_to_string(docs.join("NUMBERS.md")).expect("the page of numbers"),
    }
}

#[test]
fn s_has_a_line_for_each_field() {
    let (shown, accepted) = screen(&s(), Language::English, &pages());
    let lines: Vec<&str> = shown.lines().collect();
    assert!(accepted);
    assert_eq!(lines.len(), 35);
    assert_eq!(lines[0], "ACCEPTED 165");
    assert_eq!(lines[3], "     3    145 signed part");
    assert_eq!(
        lines[22],
        "   106      1         height                    40"
    );
    assert_eq!(
        lines[23],
        "                    seal custom data            absent"
    );
    assert_eq!(
        lines[27],
        "   126     15   signing time                    2024-06-30 12:00:00 UTC"
    );
}

#[test]
fn a_refusal_names_its_field() {
    let mut record = s();
    record[125] = 14;
    let (shown, accepted) = screen(&record, Language::Chinese, &pages());
    let lines: Vec<&str> = shown.lines().collect();
    assert!(!accepted);
    assert_eq!(lines[0], "REFUSED 10 124");
    assert_eq!(lines[2], "124: 签章信息, 签章时间");
    assert_eq!(
        lines.last(),
        Some(&"   123      1     签名值                        cc")
    );
    let (shown, _) = screen(&[], Language::English, &pages());
    assert_eq!(shown.lines().last(), Some("0: signature record"));
}

#[test]
fn the_outcome_of_every_tenth_record_is_the_readers() {
    let cases = Path::new(ROOT).join("cases/cases.bin");
    let mut file = BufReader::new(File::open(cases).expect("the case file"));
    let pages = pages();
    let mut met = 0;
    while let Some(bytes) = unpack(&mut file).expect("a case") {
        let case = Case::from_bytes(&bytes).expect("a case");
        let Case::Read {
            kind: Kind::Signature,
            record,
        } = &case
        else {
            continue;
        };
        met += 1;
        if met % 10 == 0 {
            let (shown, _) = screen(record, Language::English, &pages);
            assert_eq!(shown.lines().next(), Some(answer(&case).as_str()));
        }
    }
    assert!(met > 1000);
}
