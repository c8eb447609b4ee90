//! Cases that read runs: whole, and one step from any state.

use super::damage::{apply, damages, Broken, Change};
use super::random::Random;
use super::suite::Suite;
use super::tree::{full_input, signature_input, Node};
use super::values::{signature_of_size, SignatureValue};
use crate::case::{Case, Kind};

/// Adds all cases with runs.
pub fn add(suite: &mut Suite, random: &mut Random) {
    allowed(suite, random);
    faults_in_later_records(suite, random);
    faults_at_record_edges(suite);
    steps_at_every_position(suite);
    steps_at_edges(suite);
}

/// Gives the bytes of the record S.
fn s() -> Vec<u8> {
    signature_input(&SignatureValue::s()).encode().bytes
}

/// Adds a whole run of good records, and each step through it.
fn good_run(suite: &mut Suite, records: &[Vec<u8>]) {
    let run = records.concat();
    let expected = format!("RECORDS {}", records.len());
    suite.expect("run, allowed", Case::Run { run: run.clone() }, expected);
    let mut position = 0;
    for (number, record) in records.iter().enumerate() {
        let end = position + record.len();
        let case = Case::Step {
            position: position as u64,
            number: number as u64,
            run: run.clone(),
        };
        let expected = format!(
            "RECORD {position} {} POSITION {end} NUMBER {}",
            record.len(),
            number + 1
        );
        suite.expect("run, step through allowed", case, expected);
        position = end;
    }
    let case = Case::Step {
        position: position as u64,
        number: records.len() as u64,
        run,
    };
    let expected = format!("END POSITION {position} NUMBER {}", records.len());
    suite.expect("run, step through allowed", case, expected);
}

/// Adds runs of no record, one and more.
fn allowed(suite: &mut Suite, random: &mut Random) {
    good_run(suite, &[]);
    good_run(suite, &[s()]);
    good_run(suite, &[s(), s()]);
    let largest = signature_input(&signature_of_size(65_535)).encode().bytes;
    good_run(suite, &[largest, s()]);
    for _ in 0..12 {
        let count = 1 + random.below(5);
        let records: Vec<Vec<u8>> = (0..count)
            .map(|_| signature_input(&SignatureValue::random(random, 40)))
            .map(|input| input.encode().bytes)
            .collect();
        good_run(suite, &records);
    }
}

/// Adds a run of good records and a damaged one, read whole and by a step.
fn bad_run(suite: &mut Suite, before: &[Vec<u8>], bad: &Node, after: &[u8], number: u8) {
    let broken = Broken::new(bad, number);
    let start = before.concat().len();
    let place = start + broken.place;
    let run = [before.concat(), broken.record, after.to_vec()].concat();
    let count = before.len();
    let expected = format!("REFUSED {number} {place} AFTER {count}");
    let case = Case::Run { run: run.clone() };
    suite.expect("run, fault in a record", case, expected);
    let case = Case::Step {
        position: start as u64,
        number: 7,
        run,
    };
    let expected = format!("REFUSED {number} {place} AFTER 7 POSITION {start} NUMBER 7");
    suite.expect("run, step at a fault", case, expected);
}

/// Adds runs with a fault inside a record, at each of some positions in the run.
fn faults_in_later_records(suite: &mut Suite, random: &mut Random) {
    let input = full_input(Kind::Signature, 1);
    for path in input.paths().into_iter().filter(|path| path.len() > 1) {
        let all: Vec<_> = damages(input.at(&path))
            .into_iter()
            .filter(|damage| !matches!(damage.change, Change::SixtyFifth(_)))
            .collect();
        let damage = random.pick(&all);
        let mut changed = input.clone();
        apply(&mut changed, &path, &damage.change, true);
        let before = vec![s(); random.below(3)];
        let after = if random.once_in(2) { s() } else { Vec::new() };
        bad_run(suite, &before, &changed, &after, damage.number);
    }
}

/// Adds runs whose last record is cut, has a wrong tag or length, or is too large.
fn faults_at_record_edges(suite: &mut Suite) {
    let input = signature_input(&SignatureValue::s());
    let record = vec![0];
    for damage in damages(input.at(&record)) {
        if matches!(damage.change, Change::EndBefore) {
            continue;
        }
        let mut changed = input.clone();
        apply(&mut changed, &record, &damage.change, true);
        for count in [0, 1, 2] {
            bad_run(suite, &vec![s(); count], &changed, b"", damage.number);
        }
    }
    let mut large = signature_input(&signature_of_size(65_536));
    large.at_mut(&record).marked = true;
    bad_run(suite, &[s()], &large, b"", 17);
    for tail in [&b"\x00"[..], b"\x05\x00", b"\xFF", b"\x31"] {
        let mut loose = Node::loose(tail);
        loose.marked = true;
        bad_run(suite, &[s()], &loose, b"", 2);
        bad_run(suite, &[s(), s()], &loose, b"", 2);
    }
}

/// Adds a step at every position of S and a little past its end.
fn steps_at_every_position(suite: &mut Suite) {
    let run = s();
    for position in 0..run.len() as u64 + 4 {
        let case = Case::Step {
            position,
            number: 3,
            run: run.clone(),
        };
        suite.ask("run, step at every position", case);
    }
}

/// Adds steps at the end, past it, and with numbers at their type's top.
fn steps_at_edges(suite: &mut Suite) {
    let group = "run, step at an edge";
    let run = [s(), s()].concat();
    let end = run.len() as u64;
    for number in [0, 1, u64::MAX - 1, u64::MAX] {
        for position in [end, end + 1, 1 << 32, 1 << 63, u64::MAX - 1, u64::MAX] {
            for run in [run.clone(), Vec::new()] {
                let case = Case::Step {
                    position,
                    number,
                    run,
                };
                let expected = format!("END POSITION {position} NUMBER {number}");
                suite.expect(group, case, expected);
            }
        }
        for (position, after) in [(0, 165), (165, 330)] {
            let case = Case::Step {
                position,
                number,
                run: run.clone(),
            };
            let counted = number.saturating_add(1);
            let expected = format!("RECORD {position} 165 POSITION {after} NUMBER {counted}");
            suite.expect(group, case, expected);
        }
        let case = Case::Step {
            position: 164,
            number,
            run: run.clone(),
        };
        let expected = format!("REFUSED 2 164 AFTER {number} POSITION 164 NUMBER {number}");
        suite.expect(group, case, expected);
    }
}
