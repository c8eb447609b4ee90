//! Answers: the one line that each case is answered with.

use crate::case::{Case, Kind};
use crate::field::{
    is_indexed, seal_field, seal_match, signature_field, signature_match, Field, LAST_CODE,
    LAST_SEAL_CODE,
};
use crate::record::{read_seal, read_signature, SealRecord, SignatureRecord};
use crate::refusal::Refusal;
use crate::run::{read_run, Run, Step};
use crate::verdict::{judge_seal, judge_signature, Findings, Judged};
use crate::writer::{fill_from_seal, fill_from_signature, write_seal, write_signature};

/// The byte that a destination is full of before the call.
pub const UNTOUCHED: u8 = 0xA5;

/// Answers a case.
pub fn answer(case: &Case) -> String {
    match case {
        Case::Read { kind, record } => reading(*kind, record),
        Case::Run { run } => whole_run(run),
        Case::Step {
            position,
            number,
            run,
        } => step(run, *position, *number),
        Case::Fill { kind, size, record } => {
            let fill = match kind {
                Kind::Seal => fill_from_seal,
                Kind::Signature => fill_from_signature,
            };
            writing(fill, record, *size)
        }
        Case::Write { kind, size, sheet } => {
            let write = match kind {
                Kind::Seal => write_seal,
                Kind::Signature => write_signature,
            };
            writing(write, sheet, *size)
        }
        Case::Field {
            kind,
            code,
            index,
            record,
        } => field_line(Lent::new(*kind, record).field(*code, *index)),
        Case::Fields { kind, record } => all_fields(*kind, record),
        Case::Match {
            kind,
            given,
            record,
        } => matching(*kind, record, given),
        Case::Verdict {
            kind,
            findings,
            record,
        } => verdict(*kind, record, findings),
    }
}

/// Says how a record reads.
fn reading(kind: Kind, record: &[u8]) -> String {
    let read = match kind {
        Kind::Seal => read_seal(record).map(|read| read.whole.len),
        Kind::Signature => read_signature(record).map(|read| read.whole.len),
    };
    match read {
        Ok(length) => format!("ACCEPTED {length}"),
        Err(refusal) => refused(refusal),
    }
}

/// Says how a whole run reads.
fn whole_run(run: &[u8]) -> String {
    match read_run(run) {
        (number, None) => format!("RECORDS {number}"),
        (before, Some(refusal)) => format!("{} AFTER {before}", refused(refusal)),
    }
}

/// Says what one step from a given state answers, and the state after it.
fn step(bytes: &[u8], position: u64, number: u64) -> String {
    let mut run = Run {
        bytes,
        position,
        number,
    };
    let said = match run.step() {
        Step::Record(part) => format!("RECORD {} {}", part.start, part.len),
        Step::End => "END".to_string(),
        Step::Fault { refusal, before } => format!("{} AFTER {before}", refused(refusal)),
    };
    format!("{said} POSITION {} NUMBER {}", run.position, run.number)
}

/// Says what a writer answers and what the whole destination holds afterwards.
fn writing(
    write: fn(&[u8], &mut [u8]) -> Result<usize, Refusal>,
    source: &[u8],
    size: u32,
) -> String {
    let mut destination = vec![UNTOUCHED; size as usize];
    let said = match write(source, &mut destination) {
        Ok(count) => format!("WROTE {count}"),
        Err(refusal) => refused(refusal),
    };
    format!("{said} SUM {}", sum(&destination))
}

/// Gives a number that stands for all bytes in their order.
pub fn sum(bytes: &[u8]) -> u64 {
    bytes.iter().fold(0, |sum, &byte| {
        (sum * 257 + u64::from(byte) + 1) % 4_294_967_291
    })
}

/// What reading a record of either kind gave.
enum Lent {
    Seal(Result<SealRecord, Refusal>),
    Signature(Result<SignatureRecord, Refusal>),
}

impl Lent {
    /// Reads a record.
    fn new(kind: Kind, record: &[u8]) -> Lent {
        match kind {
            Kind::Seal => Lent::Seal(read_seal(record)),
            Kind::Signature => Lent::Signature(read_signature(record)),
        }
    }

    /// Answers for one field.
    fn field(&self, code: u8, index: u64) -> Field {
        match self {
            Lent::Seal(read) => seal_field(read, code, index),
            Lent::Signature(read) => signature_field(read, code, index),
        }
    }

    /// Gives the last code that this kind of record has.
    fn last_code(&self) -> u8 {
        match self {
            Lent::Seal(_) => LAST_SEAL_CODE,
            Lent::Signature(_) => LAST_CODE,
        }
    }
}

/// Says all fields by their codes, those of lists by index up to the first that is not there.
fn all_fields(kind: Kind, record: &[u8]) -> String {
    let lent = Lent::new(kind, record);
    let mut said = Vec::new();
    for code in 1..=lent.last_code() {
        let mut index = 0;
        let mut answer = lent.field(code, index);
        said.push(field_line(answer));
        while is_indexed(code) && answer.is_there() {
            index += 1;
            answer = lent.field(code, index);
            said.push(field_line(answer));
        }
    }
    said.join(",")
}

/// Says which entry matches.
fn matching(kind: Kind, record: &[u8], given: &[u8]) -> String {
    field_line(match kind {
        Kind::Seal => seal_match(&read_seal(record), record, given),
        Kind::Signature => signature_match(&read_signature(record), record, given),
    })
}

/// Says a verdict.
fn verdict(kind: Kind, record: &[u8], findings: &Findings) -> String {
    let judged = match kind {
        Kind::Seal => judge_seal(record, findings),
        Kind::Signature => judge_signature(record, findings),
    };
    match judged {
        Ok(Judged { number, notice }) => format!("JUDGED {number} {}", u8::from(notice)),
        Err(refusal) => refused(refusal),
    }
}

/// Says a field.
fn field_line(field: Field) -> String {
    match field {
        Field::Refused(refusal) => refused(refusal),
        Field::Absent => "ABSENT".to_string(),
        Field::Part(part) => format!("PART {} {}", part.start, part.len),
        Field::Value(value) => format!("VALUE {value}"),
    }
}

/// Says a refusal.
fn refused(refusal: Refusal) -> String {
    format!("REFUSED {} {}", refusal.number(), refusal.place)
}
