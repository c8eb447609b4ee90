//! The program as it is called: what it prints, what it says on standard error, and its exit status.

use crate::hand::{s, s_sheet};
use std::io::Write;
use std::path::Path;
use std::process::{Command, Output, Stdio};

const ROOT: &str = env!("CARGO_MANIFEST_DIR");

/// Runs the program on an input.
fn run(words: &[&str], input: &[u8]) -> Output {
    let mut child = Command::new(env!("CARGO_BIN_EXE_second"))
        .args(words)
        .current_dir(Path::new(ROOT).parent().expect("the repository"))
        .stdin(Stdio::piped())
        .stdout(Stdio::piped())
        .stderr(Stdio::piped())
        .spawn()
        .expect("the program");
    // a program that does not read closes its input, which is no fault
    let _ = child.stdin.take().expect("its input").write_all(input);
    child.wait_with_output().expect("its end")
}

/// Holds a run to its status, to all that is printed and to the beginning of what is said.
fn expect(words: &[&str], input: &[u8], status: i32, printed: &str, said: &str) {
    let output = run(words, input);
    let heard = String::from_utf8_lossy(&output.stderr);
    assert_eq!(output.status.code(), Some(status), "{words:?}: {heard}");
    assert_eq!(
        String::from_utf8_lossy(&output.stdout),
        printed,
        "{words:?}"
    );
    assert!(heard.starts_with(said), "{words:?}: {heard}");
    assert_eq!(heard.is_empty(), said.is_empty(), "{words:?}: {heard}");
}

#[test]
fn one_record_is_checked() {
    let record = s();
    let later = [&record[..], &[0]].concat();
    expect(&["check"], &record, 0, "ACCEPTED 165\n", "");
    expect(&["check", "-"], &later, 1, "REFUSED 5 165\n", "");
    expect(&["check"], &[], 1, "REFUSED 1 0\n", "");
    expect(&["check", "samples/s.der"], &[], 0, "ACCEPTED 165\n", "");
    expect(
        &["check", "samples/no-such-day.der"],
        &[],
        1,
        "REFUSED 10 124\n",
        "",
    );
    expect(&["check", "/nope"], &[], 2, "", "second: /nope: ");
    expect(&["check", "samples"], &[], 2, "", "second: samples: ");
}

#[test]
fn one_sheet_is_filled_and_one_record_written() {
    for (words, input, written) in [
        (["sheet", "-"], s(), s_sheet()),
        (["sheet", "samples/s.der"], Vec::new(), s_sheet()),
        (["write", "-"], s_sheet(), s()),
        (["write", "crates/sheet_record/stdout"], Vec::new(), s()),
    ] {
        let output = run(&words, &input);
        assert_eq!(output.status.code(), Some(0), "{words:?}");
        assert_eq!(output.stdout, written, "{words:?}");
        assert!(output.stderr.is_empty(), "{words:?}");
    }
    let largest = ["sheet", "samples/largest.der"];
    expect(&largest, &[], 1, "REFUSED 20 65589\n", "");
    expect(&["sheet"], &[], 1, "REFUSED 1 0\n", "");
    expect(&["write"], &[], 1, "REFUSED 19 0\n", "");
    expect(&["sheet", "/nope"], &[], 2, "", "second: /nope: ");
    expect(&["write", "samples"], &[], 2, "", "second: samples: ");
}

#[test]
fn help_is_printed() {
    for word in ["-h", "--help"] {
        let output = run(&[word], &[]);
        assert_eq!(output.status.code(), Some(0));
        assert!(output.stdout.starts_with(b"usage: second check [FILE]"));
        assert!(output.stderr.is_empty());
    }
}

#[test]
fn wrong_words_are_no_panic() {
    let cases = "second/cases/cases.bin";
    for each in ["0", "-1", "x", ""] {
        let said = format!("second: {each}: no number from 1 on\n");
        expect(&["signatures", cases, each, "/nope"], &[], 2, "", &said);
    }
    expect(
        &["signatures", "/nope", "1", "/nope"],
        &[],
        2,
        "",
        "second: /nope: ",
    );
    expect(&[], &[], 2, "", "second: usage: ");
    expect(&["check", "a", "b"], &[], 2, "", "second: usage: ");
}
