//! Counts of what the cases reach, against what the rules say can be reached.

use crate::case::Kind;
use std::collections::BTreeMap;

/// A row of a table: an item and the numbers it can be refused with.
type Row = (&'static str, &'static [u8]);

/// The items of a seal record, the seal itself aside.
const SEAL_ITEMS: &[Row] = &[
    ("information", &[1, 2, 3, 4, 5]),
    ("header", &[1, 2, 3, 4, 5]),
    ("header name", &[1, 2, 3, 4, 8, 9, 14]),
    ("header version", &[1, 2, 3, 4, 6, 7]),
    ("vendor", &[1, 2, 3, 4, 9]),
    ("id", &[1, 2, 3, 4, 9, 14]),
    ("property", &[1, 2, 3, 4, 5]),
    ("type", &[1, 2, 3, 4, 6]),
    ("name", &[1, 2, 3, 4, 9]),
    ("kind", &[1, 2, 3, 4, 6, 7]),
    ("list", &[1, 2, 3, 4, 15, 16]),
    ("certificate", &[2, 3, 4, 14]),
    ("pair", &[2, 3, 4, 5]),
    ("pair text", &[1, 2, 3, 4, 9]),
    ("pair digest", &[1, 2, 3, 4, 14]),
    ("created", &[1, 2, 3, 4, 10]),
    ("start", &[1, 2, 3, 4, 10]),
    ("end", &[1, 2, 3, 4, 10]),
    ("picture", &[1, 2, 3, 4, 5]),
    ("picture type", &[1, 2, 3, 4, 9, 14]),
    ("picture data", &[1, 2, 3, 4, 14]),
    ("width", &[1, 2, 3, 4, 6, 7]),
    ("height", &[1, 2, 3, 4, 6, 7]),
    ("seal custom", &[3, 4, 16]),
    ("seal custom item", &[2, 3, 4, 5]),
    ("seal custom id", &[1, 2, 3, 4, 11]),
    ("seal critical", &[3, 4, 13]),
    ("seal custom value", &[1, 2, 3, 4]),
    ("maker", &[1, 2, 3, 4, 14]),
    ("seal algorithm", &[1, 2, 3, 4, 11]),
    ("signed value", &[1, 2, 3, 4, 12, 14]),
];

/// What stands around the items of a seal record.
const SEAL_OUTSIDE: &[Row] = &[("input", &[5]), ("seal", &[1, 2, 3, 4, 5, 17])];

/// The items of a signature record that are not its seal's.
const SIGNATURE_ITEMS: &[Row] = &[
    ("input", &[5]),
    ("record", &[1, 2, 3, 4, 5, 17]),
    ("signed part", &[1, 2, 3, 4, 5]),
    ("version", &[1, 2, 3, 4, 6, 7]),
    ("seal", &[1, 2, 3, 4, 5]),
    ("signing", &[1, 2, 3, 4, 10]),
    ("original", &[1, 2, 3, 4, 12, 14]),
    ("text", &[1, 2, 3, 4, 9, 14]),
    ("custom [0]", &[3, 4, 5]),
    ("custom", &[1, 2, 3, 4, 16]),
    ("custom item", &[2, 3, 4, 5]),
    ("custom id", &[1, 2, 3, 4, 11]),
    ("critical", &[3, 4, 13]),
    ("custom value", &[1, 2, 3, 4]),
    ("signer", &[1, 2, 3, 4, 14]),
    ("algorithm", &[1, 2, 3, 4, 11]),
    ("signature", &[1, 2, 3, 4, 12, 14]),
    ("stamp [0]", &[3, 4, 5]),
    ("stamp", &[1, 2, 3, 4, 12, 14]),
];

/// The sections of a seal's sheet.
const SEAL_SECTIONS: &[Row] = &[
    ("vendor", &[9, 19]),
    ("id", &[9, 14, 19]),
    ("type", &[19]),
    ("name", &[9, 19]),
    ("kind", &[7, 19]),
    ("list", &[15, 16, 19]),
    ("certificate", &[14, 19]),
    ("pair text", &[9, 19]),
    ("pair digest", &[14, 19]),
    ("created", &[10, 19]),
    ("start", &[10, 19]),
    ("end", &[10, 19]),
    ("picture type", &[9, 14, 19]),
    ("picture data", &[14, 19]),
    ("width", &[7, 19]),
    ("height", &[7, 19]),
    ("seal custom there", &[19]),
    ("seal custom", &[16, 19]),
    ("seal custom id", &[11, 19]),
    ("seal critical", &[19]),
    ("seal custom value", &[19]),
    ("maker", &[14, 19]),
    ("seal algorithm", &[11, 19]),
    ("signed value", &[14, 19]),
];

/// The sections of a signature's sheet that are not its seal's.
const SIGNATURE_SECTIONS: &[Row] = &[
    ("signing", &[10, 19]),
    ("original", &[14, 19]),
    ("text", &[9, 14, 19]),
    ("custom [0]", &[19]),
    ("custom", &[16, 19]),
    ("custom id", &[11, 19]),
    ("critical", &[19]),
    ("custom value", &[19]),
    ("signer", &[14, 19]),
    ("algorithm", &[11, 19]),
    ("signature", &[14, 19]),
    ("stamp [0]", &[19]),
    ("stamp", &[14, 19]),
];

/// What stands around the sections of any sheet.
const SHEET_OUTSIDE: &[Row] = &[
    ("left over", &[19]),
    ("written record", &[17, 20]),
    ("filled sheet", &[20]),
];

/// The pairs of faults whose order the rules fix.
const ORDERED_PAIRS: &[&str] = &[
    "6 before 7",
    "12 before 14",
    "14 before 8",
    "9 before 8",
    "3 before 17",
    "3 before 4",
    "17 before 4",
    "19 before 7",
    "19 before 9",
    "19 before 10",
    "19 before 11",
    "17 before 20",
    "19 before 17",
    "record before 20",
    "sheet before 20",
    "inner before 5",
    "inner before 16",
    "16 before 2",
    "16 before 3",
    "16 before 4",
    "inner before 19 left over",
    "record before 18",
    "18 before 21",
];

/// The verdicts on a seal, none of which has a notice, and the refusal 18.
const SEAL_VERDICTS: &[u8] = &[18, 23, 24, 25, 26, 0];
/// The verdicts on a signature that never have a notice, and the refusal 18.
const PLAIN_VERDICTS: &[u8] = &[18, 21, 22, 23, 24];
/// The verdicts on a signature that come with and without a notice.
const NOTICED_VERDICTS: &[u8] = &[26, 27, 28, 29, 30, 31, 32, 33, 34, 0];

/// What a table counts.
#[derive(Clone, Copy, Debug, PartialEq, Eq)]
pub enum Source {
    Record,
    Sheet,
}

/// All counts.
#[derive(Default)]
pub struct Tally {
    refusals: BTreeMap<(&'static str, &'static str, u8), usize>,
    pairs: BTreeMap<String, usize>,
    verdicts: BTreeMap<(&'static str, u8, bool), usize>,
    groups: BTreeMap<&'static str, usize>,
}

impl Tally {
    /// Counts a refusal of an item that a case was built to reach.
    pub fn refusal(&mut self, source: Source, kind: Kind, label: &'static str, number: u8) {
        let key = (title(source, kind), label, number);
        *self.refusals.entry(key).or_default() += 1;
    }

    /// Counts a case with two faults, the first of which answers.
    pub fn pair(&mut self, pair: String) {
        *self.pairs.entry(pair).or_default() += 1;
    }

    /// Counts a verdict.
    pub fn verdict(&mut self, kind: Kind, number: u8, notice: bool) {
        let key = (verdict_title(kind), number, notice);
        *self.verdicts.entry(key).or_default() += 1;
    }

    /// Counts a case of a named group.
    pub fn group(&mut self, name: &'static str) {
        *self.groups.entry(name).or_default() += 1;
    }

    /// Gives all tables as text.
    pub fn tables(&self) -> String {
        let mut text = String::new();
        for (source, kind) in ALL_TABLES {
            text += &self.refusal_table(source, kind);
        }
        text += "two faults, the first of which answers\n";
        for (pair, count) in &self.pairs {
            text += &format!("  {pair:<26}{count:>6}\n");
        }
        for kind in [Kind::Seal, Kind::Signature] {
            text += &self.verdict_table(kind);
        }
        text += "cases by group\n";
        for (name, count) in &self.groups {
            text += &format!("  {name:<44}{count:>6}\n");
        }
        text
    }

    /// Gives what should have been reached and was not, and what was reached and should not have been.
    pub fn faults(&self) -> Vec<String> {
        let mut faults = Vec::new();
        let mut expected = 0;
        for (source, kind) in ALL_TABLES {
            for (label, numbers) in rows(source, kind) {
                expected += numbers.len();
                for &number in numbers {
                    if self.count(source, kind, label, number) == 0 {
                        let title = title(source, kind);
                        faults.push(format!("{title}: no case for {label} with {number}"));
                    }
                }
            }
        }
        if self.refusals.len() > expected {
            faults.push("a refusal was reached that its table does not have".to_string());
        }
        for pair in ORDERED_PAIRS {
            if !self.pairs.contains_key(*pair) {
                faults.push(format!("two faults: no case for {pair}"));
            }
        }
        faults.extend(self.verdict_faults());
        faults
    }

    /// Gives the verdicts that no case reaches, and those that should not be reached.
    fn verdict_faults(&self) -> Vec<String> {
        let mut expected = Vec::new();
        for &number in SEAL_VERDICTS {
            expected.push((Kind::Seal, number, false));
        }
        for &number in PLAIN_VERDICTS {
            expected.push((Kind::Signature, number, false));
        }
        for &number in NOTICED_VERDICTS {
            expected.push((Kind::Signature, number, false));
            expected.push((Kind::Signature, number, true));
        }
        let mut faults = Vec::new();
        for &(kind, number, notice) in &expected {
            let title = verdict_title(kind);
            if !self.verdicts.contains_key(&(title, number, notice)) {
                faults.push(format!("{title}: no case for {number}, notice {notice}"));
            }
        }
        if self.verdicts.len() > expected.len() {
            faults.push("a verdict was reached that cannot be".to_string());
        }
        faults
    }

    /// Gives the count of one cell.
    fn count(&self, source: Source, kind: Kind, label: &'static str, number: u8) -> usize {
        let key = (title(source, kind), label, number);
        self.refusals.get(&key).copied().unwrap_or(0)
    }

    /// Gives the table of one kind of record or sheet; a dot marks what cannot be.
    fn refusal_table(&self, source: Source, kind: Kind) -> String {
        let columns: &[u8] = match source {
            Source::Record => &[1, 2, 3, 4, 5, 6, 7, 8, 9, 10, 11, 12, 13, 14, 15, 16, 17],
            Source::Sheet => &[7, 9, 10, 11, 14, 15, 16, 17, 19, 20],
        };
        let mut text = format!("{:<20}", title(source, kind));
        for number in columns {
            text += &format!("{number:>5}");
        }
        text += "\n";
        for (label, numbers) in rows(source, kind) {
            text += &format!("  {label:<18}");
            for number in columns {
                let cell = if numbers.contains(number) {
                    self.count(source, kind, label, *number).to_string()
                } else {
                    ".".to_string()
                };
                text += &format!("{cell:>5}");
            }
            text += "\n";
        }
        text
    }

    /// Gives the table of one kind of verdict.
    fn verdict_table(&self, kind: Kind) -> String {
        let title = verdict_title(kind);
        let mut text = format!("{title:<20}  no notice    notice\n");
        let numbers: Vec<u8> = match kind {
            Kind::Seal => SEAL_VERDICTS.to_vec(),
            Kind::Signature => [PLAIN_VERDICTS, NOTICED_VERDICTS].concat(),
        };
        for number in numbers {
            let cell = |notice| {
                let key = (title, number, notice);
                self.verdicts
                    .get(&key)
                    .map_or(".".to_string(), usize::to_string)
            };
            text += &format!("  {number:<18}{:>11}{:>10}\n", cell(false), cell(true));
        }
        text
    }
}

const ALL_TABLES: [(Source, Kind); 4] = [
    (Source::Record, Kind::Seal),
    (Source::Record, Kind::Signature),
    (Source::Sheet, Kind::Seal),
    (Source::Sheet, Kind::Signature),
];

/// Gives a table's title.
fn title(source: Source, kind: Kind) -> &'static str {
    match (source, kind) {
        (Source::Record, Kind::Seal) => "seal record",
        (Source::Record, Kind::Signature) => "signature record",
        (Source::Sheet, Kind::Seal) => "seal sheet",
        (Source::Sheet, Kind::Signature) => "signature sheet",
    }
}

/// Gives the title of a table of verdicts.
fn verdict_title(kind: Kind) -> &'static str {
    match kind {
        Kind::Seal => "seal verdict",
        Kind::Signature => "signature verdict",
    }
}

/// Gives a table's rows.
fn rows(source: Source, kind: Kind) -> Vec<Row> {
    match (source, kind) {
        (Source::Record, Kind::Seal) => [SEAL_OUTSIDE, SEAL_ITEMS].concat(),
        (Source::Record, Kind::Signature) => [SIGNATURE_ITEMS, SEAL_ITEMS].concat(),
        (Source::Sheet, Kind::Seal) => [SEAL_SECTIONS, SHEET_OUTSIDE].concat(),
        (Source::Sheet, Kind::Signature) => {
            [SEAL_SECTIONS, SIGNATURE_SECTIONS, SHEET_OUTSIDE].concat()
        }
    }
}
