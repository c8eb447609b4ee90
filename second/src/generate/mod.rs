//! The generator: the same cases for the same seed.
//!
//! It builds records and sheets with an encoder of its own and, wherever the answer follows from how a
//! case was made, says it beforehand, so that generator and reader hold each other to the rules.

pub mod damage;
pub mod edges;
pub mod fields;
pub mod random;
pub mod records;
pub mod rule;
pub mod runs;
pub mod sections;
pub mod sheets;
pub mod suite;
pub mod tally;
pub mod tree;
pub mod values;
pub mod verdicts;

use random::Random;
use suite::Suite;

/// The seed of the stored cases.
pub const SEED: u64 = 20240630;

/// Makes all cases from a seed.
pub fn generate(seed: u64) -> Suite {
    let mut suite = Suite::default();
    let mut random = Random::new(seed);
    records::add(&mut suite, &mut random);
    sheets::add(&mut suite, &mut random);
    runs::add(&mut suite, &mut random);
    fields::add(&mut suite, &mut random);
    verdicts::add(&mut suite, &mut random);
    suite
}
