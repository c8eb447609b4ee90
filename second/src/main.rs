//! The program: makes the cases, and answers them.

use second::answer::answer;
use second::case::{unpack, Case, Kind};
use second::generate::edges::edges;
use second::generate::random::Random;
use second::generate::tree::signature_input;
use second::generate::values::SignatureValue;
use second::generate::{generate, SEED};
use second::refusal::Refusal;
use second::screen::{screen, Language, Pages};
use second::writer::{fill_from_signature, write_signature};
use std::fs::{self, File};
use std::io::{self, BufReader, BufWriter, Read, Write};
use std::num::NonZeroUsize;
use std::path::Path;
use std::process::ExitCode;

/// The number of records that openssl was shown.
const RECORDS: usize = 500;

/// The most bytes that are read of one record: no byte after them changes its answer.
const MOST_READ: u64 = 65_536;

/// The room for a sheet, and for a record.
const ROOM: usize = 65_536;

const REFUSED: u8 = 1;
const FAILED: u8 = 2;

const USAGE: &str = "usage: second check [FILE] | second sheet [FILE] | second write [FILE]
       second screen en FILE | second screen zh FILE
       second lines DIRECTORY | second answer CASES | second plain CASES
       second make DIRECTORY | second records DIRECTORY | second signatures CASES EACH DIRECTORY
Exit status: 0 done, for check accepted; 1 refused; 2 failed.";

/// Runs the command that the arguments name.
fn main() -> ExitCode {
    let words: Vec<String> = std::env::args_os()
        .skip(1)
        .map(|word| word.to_string_lossy().into_owned())
        .collect();
    match run(&words.iter().map(String::as_str).collect::<Vec<_>>()) {
        Ok(status) => status,
        Err(error) => {
            // where nothing can be said the status says it
            let _ = writeln!(io::stderr(), "second: {error}");
            ExitCode::from(FAILED)
        }
    }
}

/// Runs a command; gives the exit status.
fn run(words: &[&str]) -> io::Result<ExitCode> {
    match *words {
        ["check"] | ["check", "-"] => return check(io::stdin().lock(), "standard input"),
        ["check", path] => return check(open(path)?, path),
        ["sheet"] | ["sheet", "-"] => {
            return deliver(
                io::stdin().lock().take(MOST_READ),
                "standard input",
                fill_from_signature,
            )
        }
        ["sheet", path] => return deliver(open(path)?.take(MOST_READ), path, fill_from_signature),
        ["write"] | ["write", "-"] => {
            return deliver(io::stdin().lock(), "standard input", write_signature)
        }
        ["write", path] => return deliver(open(path)?, path, write_signature),
        ["make", directory] => make(Path::new(directory)),
        ["answer", cases] => answer_all(cases),
        ["plain", cases] => write_plain(cases),
        ["records", directory] => write_records(Path::new(directory)),
        ["signatures", cases, each, directory] => {
            write_signatures(cases, each, Path::new(directory))
        }
        ["lines", directory] => print_lines(Path::new(directory)),
        ["screen", "en", path] => return show(path, Language::English),
        ["screen", "zh", path] => return show(path, Language::Chinese),
        ["-h" | "--help"] => writeln!(io::stdout(), "{USAGE}"),
        _ => Err(io::Error::other(USAGE)),
    }?;
    Ok(ExitCode::SUCCESS)
}

/// Says which file an error is about.
fn about(name: &str, error: io::Error) -> io::Error {
    io::Error::new(error.kind(), format!("{name}: {error}"))
}

/// Opens a file.
fn open(path: &str) -> io::Result<File> {
    File::open(path).map_err(|error| about(path, error))
}

/// Prints the line of one signature record; gives whether it is accepted.
fn check(input: impl Read, name: &str) -> io::Result<ExitCode> {
    let mut record = Vec::new();
    input
        .take(MOST_READ)
        .read_to_end(&mut record)
        .map_err(|error| about(name, error))?;
    let kind = Kind::Signature;
    let line = answer(&Case::Read { kind, record });
    writeln!(io::stdout(), "{line}")?;
    Ok(if line.starts_with("ACCEPTED") {
        ExitCode::SUCCESS
    } else {
        ExitCode::from(REFUSED)
    })
}

/// Prints the screen of one signature record, with the labels and words of the pages in `docs`; gives whether it is accepted.
fn show(path: &str, language: Language) -> io::Result<ExitCode> {
    let mut record = Vec::new();
    open(path)?
        .take(MOST_READ)
        .read_to_end(&mut record)
        .map_err(|error| about(path, error))?;
    let docs = Path::new(env!("CARGO_MANIFEST_DIR")).with_file_name("docs");
    let pages = Pages {
        fields: fs::read_to_string(docs.join("FIELDS.md"))?,
        numbers: fs::read_to_string(docs.join("NUMBERS.md"))?,
    };
    let (text, accepted) = screen(&record, language, &pages);
    write!(io::stdout(), "{text}")?;
    Ok(if accepted {
        ExitCode::SUCCESS
    } else {
        ExitCode::from(REFUSED)
    })
}

/// Writes what a writer makes of an input, or the line of the refusal; gives whether it was written.
fn deliver(
    mut input: impl Read,
    name: &str,
    writer: fn(&[u8], &mut [u8]) -> Result<usize, Refusal>,
) -> io::Result<ExitCode> {
    let mut source = Vec::new();
    input
        .read_to_end(&mut source)
        .map_err(|error| about(name, error))?;
    let mut destination = vec![0; ROOM];
    match writer(&source, &mut destination) {
        Ok(size) => {
            let mut out = io::stdout().lock();
            out.write_all(&destination[..size])?;
            out.flush()?;
            Ok(ExitCode::SUCCESS)
        }
        Err(refusal) => {
            writeln!(
                io::stdout(),
                "REFUSED {} {}",
                refusal.number(),
                refusal.place
            )?;
            Ok(ExitCode::from(REFUSED))
        }
    }
}

/// Writes the case file and the answers, and prints what they reach.
fn make(directory: &Path) -> io::Result<()> {
    let suite = generate(SEED);
    fs::write(directory.join("cases.bin"), &suite.cases)?;
    fs::write(directory.join("answers.txt"), &suite.answers)?;
    println!("{}", suite.tally.tables());
    println!(
        "{} cases, {} of them with an answer known beforehand; {} bytes of cases, {} of answers",
        suite.count,
        suite.known,
        suite.cases.len(),
        suite.answers.len()
    );
    let faults = [suite.contradictions, suite.tally.faults()].concat();
    if faults.is_empty() {
        return Ok(());
    }
    for fault in &faults {
        eprintln!("{fault}");
    }
    Err(io::Error::other(format!("{} faults", faults.len())))
}

/// Prints the answers to the cases of a case file.
fn answer_all(path: &str) -> io::Result<()> {
    let mut file = BufReader::new(open(path)?);
    let mut out = BufWriter::new(io::stdout().lock());
    while let Some(bytes) = unpack(&mut file)? {
        let Some(case) = Case::from_bytes(&bytes) else {
            return Err(io::Error::other("the file holds something that is no case"));
        };
        writeln!(out, "{}", answer(&case))?;
    }
    out.flush()
}

/// Writes the cases of a case file one after another, each as its size, four bytes, and its bytes.
fn write_plain(path: &str) -> io::Result<()> {
    let mut file = BufReader::new(open(path)?);
    let mut out = BufWriter::new(io::stdout().lock());
    while let Some(bytes) = unpack(&mut file)? {
        let Ok(size) = u32::try_from(bytes.len()) else {
            return Err(io::Error::other("the file holds a case whose size has more than four bytes"));
        };
        out.write_all(&size.to_be_bytes())?;
        out.write_all(&bytes)?;
    }
    out.flush()
}

/// Writes the records that were shown to openssl, one a file.
fn write_records(directory: &Path) -> io::Result<()> {
    let mut random = Random::new(SEED);
    let mut values = edges();
    values.resize_with(RECORDS, || SignatureValue::random(&mut random, 24));
    for (number, value) in values.iter().enumerate() {
        let record = signature_input(value).encode().bytes;
        fs::write(directory.join(format!("{number:03}.der")), record)?;
    }
    Ok(())
}

/// Writes each so many-th signature record of a case file, one a file, and beside them the line that each is answered with.
fn write_signatures(path: &str, each: &str, directory: &Path) -> io::Result<()> {
    let Ok(each) = each.parse::<NonZeroUsize>() else {
        return Err(io::Error::other(format!("{each}: no number from 1 on")));
    };
    let mut file = BufReader::new(open(path)?);
    let mut lines = String::new();
    let mut number = 0;
    while let Some(bytes) = unpack(&mut file)? {
        let Some(case) = Case::from_bytes(&bytes) else {
            return Err(io::Error::other("the file holds something that is no case"));
        };
        let Case::Read {
            kind: Kind::Signature,
            record,
        } = &case
        else {
            continue;
        };
        if number % each == 0 {
            let name = format!("{number:05}.der");
            fs::write(directory.join(&name), record)?;
            lines += &format!("{name} {}\n", answer(&case));
        }
        number += 1;
    }
    fs::write(directory.join("lines.txt"), lines)
}

/// Prints the line of each record of a directory, by name.
fn print_lines(directory: &Path) -> io::Result<()> {
    let mut names: Vec<_> = fs::read_dir(directory)?
        .map(|entry| entry.map(|entry| entry.path()))
        .collect::<io::Result<_>>()?;
    names.retain(|path| path.extension().is_some_and(|end| end == "der"));
    names.sort();
    let mut out = BufWriter::new(io::stdout().lock());
    for path in names {
        let case = Case::Read {
            kind: Kind::Signature,
            record: fs::read(&path)?,
        };
        let name = path.file_name().unwrap_or_default().to_string_lossy();
        writeln!(out, "{name} {}", answer(&case))?;
    }
    out.flush()
}
