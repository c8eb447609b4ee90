//! The cases in their order, each with its answer.

use super::tally::Tally;
use crate::answer::{answer, sum, UNTOUCHED};
use crate::case::{pack, Case};

/// Cases, answers, counts, and what went against an answer that was known beforehand.
#[derive(Default)]
pub struct Suite {
    pub cases: Vec<u8>,
    pub answers: String,
    pub tally: Tally,
    pub count: usize,
    pub known: usize,
    pub contradictions: Vec<String>,
}

impl Suite {
    /// Adds a case whose answer only the reader knows.
    pub fn ask(&mut self, group: &'static str, case: Case) {
        let line = answer(&case);
        self.add(group, &case, &line);
    }

    /// Adds a case whose answer is known from how it was made.
    pub fn expect(&mut self, group: &'static str, case: Case, expected: String) {
        let line = answer(&case);
        self.known += 1;
        if line != expected {
            let number = self.count;
            self.contradictions.push(format!(
                "case {number}, {group}: expected {expected}, answered {line}"
            ));
        }
        self.add(group, &case, &line);
    }

    /// Appends a case and its answer.
    fn add(&mut self, group: &'static str, case: &Case, line: &str) {
        self.cases.extend(pack(&case.to_bytes()));
        self.answers.push_str(line);
        self.answers.push('\n');
        self.count += 1;
        self.tally.group(group);
    }
}

/// Gives the answer of a writer that refuses and leaves its destination as it was.
pub fn refused_writing(number: u8, place: usize, size: usize) -> String {
    let untouched = vec![UNTOUCHED; size];
    format!("REFUSED {number} {place} SUM {}", sum(&untouched))
}

/// Gives the answer of a writer that puts these bytes at its destination's beginning.
pub fn written(bytes: &[u8], size: usize) -> String {
    let mut destination = vec![UNTOUCHED; size];
    destination[..bytes.len()].copy_from_slice(bytes);
    format!("WROTE {} SUM {}", bytes.len(), sum(&destination))
}
