//! Cases: what is asked, and how a question stands in the case file.

use crate::verdict::{Certificate, Findings, Moment, Stamp};
use std::io::{self, Read};

/// The shortest stretch of one byte that is stored as a repeat.
const SHORTEST_REPEAT: usize = 32;
const LITERAL: u8 = 0;
const REPEAT: u8 = 1;

/// The two kinds of record that a question can be about.
#[derive(Clone, Copy, Debug, PartialEq, Eq)]
pub enum Kind {
    Seal,
    Signature,
}

/// One question.
#[derive(Clone, Debug, PartialEq, Eq)]
pub enum Case {
    Read {
        kind: Kind,
        record: Vec<u8>,
    },
    Run {
        run: Vec<u8>,
    },
    Step {
        position: u64,
        number: u64,
        run: Vec<u8>,
    },
    Fill {
        kind: Kind,
        size: u32,
        record: Vec<u8>,
    },
    Write {
        kind: Kind,
        size: u32,
        sheet: Vec<u8>,
    },
    Field {
        kind: Kind,
        code: u8,
        index: u64,
        record: Vec<u8>,
    },
    Fields {
        kind: Kind,
        record: Vec<u8>,
    },
    Match {
        kind: Kind,
        given: Vec<u8>,
        record: Vec<u8>,
    },
    Verdict {
        kind: Kind,
        findings: Findings,
        record: Vec<u8>,
    },
}

impl Case {
    /// Gives the case's bytes: the operation, then its parts.
    pub fn to_bytes(&self) -> Vec<u8> {
        let mut out = vec![self.operation()];
        match self {
            Case::Read { record, .. } | Case::Fields { record, .. } => put_bytes(&mut out, record),
            Case::Run { run } => put_bytes(&mut out, run),
            Case::Step {
                position,
                number,
                run,
            } => {
                out.extend(position.to_be_bytes());
                out.extend(number.to_be_bytes());
                put_bytes(&mut out, run);
            }
            Case::Fill { size, record, .. } => {
                out.extend(size.to_be_bytes());
                put_bytes(&mut out, record);
            }
            Case::Write { size, sheet, .. } => {
                out.extend(size.to_be_bytes());
                put_bytes(&mut out, sheet);
            }
            Case::Field {
                code,
                index,
                record,
                ..
            } => {
                out.push(*code);
                out.extend(index.to_be_bytes());
                put_bytes(&mut out, record);
            }
            Case::Match { given, record, .. } => {
                put_bytes(&mut out, given);
                put_bytes(&mut out, record);
            }
            Case::Verdict {
                findings, record, ..
            } => {
                put_findings(&mut out, findings);
                put_bytes(&mut out, record);
            }
        }
        out
    }

    /// Gives the byte that names the operation.
    fn operation(&self) -> u8 {
        let (seal, signature, kind) = match self {
            Case::Run { .. } => return 3,
            Case::Step { .. } => return 4,
            Case::Read { kind, .. } => (1, 2, kind),
            Case::Fill { kind, .. } => (5, 6, kind),
            Case::Write { kind, .. } => (7, 8, kind),
            Case::Field { kind, .. } => (9, 10, kind),
            Case::Fields { kind, .. } => (11, 12, kind),
            Case::Match { kind, .. } => (13, 14, kind),
            Case::Verdict { kind, .. } => (15, 16, kind),
        };
        match kind {
            Kind::Seal => seal,
            Kind::Signature => signature,
        }
    }

    /// Reads a case from its bytes, none where they are not a case.
    pub fn from_bytes(bytes: &[u8]) -> Option<Case> {
        let mut parts = Parts { rest: bytes };
        let operation = parts.byte()?;
        let kind = if operation % 2 == 1 {
            Kind::Seal
        } else {
            Kind::Signature
        };
        let case = match operation {
            1 | 2 => Case::Read {
                kind,
                record: parts.bytes()?,
            },
            3 => Case::Run {
                run: parts.bytes()?,
            },
            4 => Case::Step {
                position: parts.long()?,
                number: parts.long()?,
                run: parts.bytes()?,
            },
            5 | 6 => Case::Fill {
                kind,
                size: parts.word()?,
                record: parts.bytes()?,
            },
            7 | 8 => Case::Write {
                kind,
                size: parts.word()?,
                sheet: parts.bytes()?,
            },
            9 | 10 => Case::Field {
                kind,
                code: parts.byte()?,
                index: parts.long()?,
                record: parts.bytes()?,
            },
            11 | 12 => Case::Fields {
                kind,
                record: parts.bytes()?,
            },
            13 | 14 => Case::Match {
                kind,
                given: parts.bytes()?,
                record: parts.bytes()?,
            },
            15 | 16 => Case::Verdict {
                kind,
                findings: parts.findings()?,
                record: parts.bytes()?,
            },
            _ => return None,
        };
        if !parts.rest.is_empty() {
            return None;
        }
        Some(case)
    }
}

/// Appends a length of four bytes and the bytes.
fn put_bytes(out: &mut Vec<u8>, bytes: &[u8]) {
    put_word(out, bytes.len());
    out.extend(bytes);
}

/// Appends a number of four bytes.
fn put_word(out: &mut Vec<u8>, number: usize) {
    let number = u32::try_from(number).expect("no part of a case has four gigabytes");
    out.extend(number.to_be_bytes());
}

/// Appends findings.
fn put_findings(out: &mut Vec<u8>, findings: &Findings) {
    out.push(u8::from(findings.signature_good));
    out.push(u8::from(findings.seal_signature_good));
    out.extend(findings.now.to_be_bytes());
    put_certificate(out, &findings.maker);
    put_certificate(out, &findings.signer);
    put_maybe(out, findings.withdrawn);
    let (state, at) = match findings.stamp {
        Stamp::Unchecked => (0, 0),
        Stamp::Bad => (1, 0),
        Stamp::Good(at) => (2, at),
    };
    out.push(state);
    out.extend(at.to_be_bytes());
    put_bytes(out, &findings.original);
    put_bytes(out, &findings.signer_digest);
}

/// Appends what was found out about a certificate.
fn put_certificate(out: &mut Vec<u8>, certificate: &Certificate) {
    out.push(u8::from(certificate.chain_good));
    out.push(u8::from(certificate.usage_good));
    out.extend(certificate.first.to_be_bytes());
    out.extend(certificate.last.to_be_bytes());
    put_maybe(out, certificate.revoked);
}

/// Appends a byte that tells whether there is a time, and the time or zero.
fn put_maybe(out: &mut Vec<u8>, at: Option<Moment>) {
    out.push(u8::from(at.is_some()));
    out.extend(at.unwrap_or(0).to_be_bytes());
}

/// What is still unread of a case's bytes.
struct Parts<'a> {
    rest: &'a [u8],
}

impl<'a> Parts<'a> {
    /// Takes some bytes off the front.
    fn take(&mut self, count: usize) -> Option<&'a [u8]> {
        let (front, rest) = self.rest.split_at_checked(count)?;
        self.rest = rest;
        Some(front)
    }

    /// Takes a number of one byte.
    fn byte(&mut self) -> Option<u8> {
        self.take(1).map(|bytes| bytes[0])
    }

    /// Takes a number of four bytes.
    fn word(&mut self) -> Option<u32> {
        let bytes = self.take(4)?;
        bytes.try_into().ok().map(u32::from_be_bytes)
    }

    /// Takes a number of eight bytes.
    fn long(&mut self) -> Option<u64> {
        let bytes = self.take(8)?;
        bytes.try_into().ok().map(u64::from_be_bytes)
    }

    /// Takes a length and as many bytes.
    fn bytes(&mut self) -> Option<Vec<u8>> {
        let count = self.word()?;
        self.take(count as usize).map(<[u8]>::to_vec)
    }

    /// Takes a byte that is 0 or 1.
    fn flag(&mut self) -> Option<bool> {
        match self.byte()? {
            0 => Some(false),
            1 => Some(true),
            _ => None,
        }
    }

    /// Takes a flag and a time that counts only if the flag is set.
    fn maybe(&mut self) -> Option<Option<Moment>> {
        let there = self.flag()?;
        let at = self.long()?;
        Some(there.then_some(at))
    }

    /// Takes what was found out about a certificate.
    fn certificate(&mut self) -> Option<Certificate> {
        Some(Certificate {
            chain_good: self.flag()?,
            usage_good: self.flag()?,
            first: self.long()?,
            last: self.long()?,
            revoked: self.maybe()?,
        })
    }

    /// Takes the state of the stamp and a time that counts only if it is good.
    fn stamp(&mut self) -> Option<Stamp> {
        let state = self.byte()?;
        let at = self.long()?;
        match state {
            0 => Some(Stamp::Unchecked),
            1 => Some(Stamp::Bad),
            2 => Some(Stamp::Good(at)),
            _ => None,
        }
    }

    /// Takes findings.
    fn findings(&mut self) -> Option<Findings> {
        Some(Findings {
            signature_good: self.flag()?,
            seal_signature_good: self.flag()?,
            now: self.long()?,
            maker: self.certificate()?,
            signer: self.certificate()?,
            withdrawn: self.maybe()?,
            stamp: self.stamp()?,
            original: self.bytes()?,
            signer_digest: self.bytes()?,
        })
    }
}

/// Gives a case as it stands in the case file: its size, then pieces that make its bytes.
pub fn pack(case: &[u8]) -> Vec<u8> {
    let mut out = Vec::new();
    put_word(&mut out, case.len());
    let mut rest = case;
    while !rest.is_empty() {
        let literal = literal_length(rest);
        if literal > 0 {
            out.push(LITERAL);
            put_bytes(&mut out, &rest[..literal]);
            rest = &rest[literal..];
            continue;
        }
        let repeat = repeat_length(rest);
        out.push(REPEAT);
        put_word(&mut out, repeat);
        out.push(rest[0]);
        rest = &rest[repeat..];
    }
    out
}

/// Gives the number of bytes before the next stretch that is worth a repeat.
fn literal_length(bytes: &[u8]) -> usize {
    let mut at = 0;
    while at < bytes.len() {
        let repeat = repeat_length(&bytes[at..]);
        if repeat >= SHORTEST_REPEAT {
            return at;
        }
        at += repeat;
    }
    at
}

/// Gives the number of bytes at the front that equal the first.
fn repeat_length(bytes: &[u8]) -> usize {
    bytes.iter().take_while(|&&b| b == bytes[0]).count()
}

/// Reads the next case's bytes from a case file, none at its end.
pub fn unpack(file: &mut impl Read) -> io::Result<Option<Vec<u8>>> {
    let mut size = [0; 4];
    if file.read(&mut size[..1])? == 0 {
        return Ok(None);
    }
    file.read_exact(&mut size[1..])?;
    let size = u32::from_be_bytes(size) as usize;
    let mut case = Vec::with_capacity(size);
    while case.len() < size {
        let mut head = [0; 5];
        file.read_exact(&mut head)?;
        let count = u32::from_be_bytes([head[1], head[2], head[3], head[4]]) as usize;
        append_piece(file, head[0], count, &mut case)?;
    }
    if case.len() != size {
        return Err(io::Error::other("a piece passes its case's size"));
    }
    Ok(Some(case))
}

/// Reads what follows a piece's head and appends the bytes it stands for.
fn append_piece(
    file: &mut impl Read,
    form: u8,
    count: usize,
    case: &mut Vec<u8>,
) -> io::Result<()> {
    let start = case.len();
    match form {
        LITERAL => {
            case.resize(start + count, 0);
            file.read_exact(&mut case[start..])
        }
        REPEAT => {
            let mut byte = [0];
            file.read_exact(&mut byte)?;
            case.resize(start + count, byte[0]);
            Ok(())
        }
        _ => Err(io::Error::other("a piece of no known form")),
    }
}
