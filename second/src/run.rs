//! Runs of signature records: one step from any state, and the whole.

use crate::item::Span;
use crate::record::read_signature_at;
use crate::refusal::Refusal;

/// What one step of a run reader answers.
#[derive(Clone, Copy, Debug, PartialEq, Eq)]
pub enum Step {
    Record(Span),
    End,
    Fault { refusal: Refusal, before: u64 },
}

/// A lent run, a position in it and the number of records handed out.
#[derive(Clone, Copy, Debug)]
pub struct Run<'a> {
    pub bytes: &'a [u8],
    pub position: u64,
    pub number: u64,
}

impl Run<'_> {
    /// Hands out the next record and moves behind it; at the end or a fault it stays.
    pub fn step(&mut self) -> Step {
        if self.position >= self.bytes.len() as u64 {
            return Step::End;
        }
        match read_signature_at(self.bytes, self.position as usize) {
            Err(refusal) => Step::Fault {
                refusal,
                before: self.number,
            },
            Ok(record) => {
                self.position += record.whole.len as u64;
                self.number = self.number.saturating_add(1);
                Step::Record(record.whole)
            }
        }
    }
}

/// Reads a whole run; gives the number of records, and the fault that ended it if there is one.
pub fn read_run(bytes: &[u8]) -> (u64, Option<Refusal>) {
    let mut run = Run {
        bytes,
        position: 0,
        number: 0,
    };
    loop {
        match run.step() {
            Step::Record(_) => {}
            Step::End => return (run.number, None),
            Step::Fault { refusal, before } => return (before, Some(refusal)),
        }
    }
}
