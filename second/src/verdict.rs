//! Findings and the two verdicts.

use crate::content::{is_real_moment, moment};
use crate::record::{read_seal, read_signature, Listed, Seal, Signature};
use crate::refusal::{Fault, Refusal};

/// A time as the whole number of its fourteen digits.
pub type Moment = u64;

/// What was found out about a certificate.
#[derive(Clone, Copy, Debug, PartialEq, Eq)]
pub struct Certificate {
    pub chain_good: bool,
    pub usage_good: bool,
    pub first: Moment,
    pub last: Moment,
    pub revoked: Option<Moment>,
}

/// What was found out about the stamp.
#[derive(Clone, Copy, Debug, PartialEq, Eq)]
pub enum Stamp {
    Unchecked,
    Bad,
    Good(Moment),
}

/// All that a verdict needs to know beside the record.
#[derive(Clone, Debug, PartialEq, Eq)]
pub struct Findings {
    pub signature_good: bool,
    pub seal_signature_good: bool,
    pub now: Moment,
    pub maker: Certificate,
    pub signer: Certificate,
    pub withdrawn: Option<Moment>,
    pub stamp: Stamp,
    pub original: Vec<u8>,
    pub signer_digest: Vec<u8>,
}

/// A verdict: the number of the first step that holds, and the notice.
#[derive(Clone, Copy, Debug, PartialEq, Eq)]
pub struct Judged {
    pub number: u8,
    pub notice: bool,
}

impl Certificate {
    /// Tells whether the certificate's dates hold a moment.
    fn dates_hold(&self, at: Moment) -> bool {
        self.first <= at && at <= self.last
    }

    /// Tells whether the certificate was revoked at or before a moment.
    fn is_revoked(&self, at: Moment) -> bool {
        self.revoked.is_some_and(|revoked| revoked <= at)
    }

    /// Tells whether the certificate is in force at a moment.
    fn is_in_force(&self, at: Moment) -> bool {
        self.dates_hold(at) && !self.is_revoked(at)
    }

    /// Tells whether chain and usage are both good.
    fn is_trusted(&self) -> bool {
        self.chain_good && self.usage_good
    }

    /// Gives the certificate's times.
    fn moments(&self) -> impl Iterator<Item = Moment> {
        [self.first, self.last].into_iter().chain(self.revoked)
    }
}

impl Findings {
    /// Refuses findings in which some time is not a real date.
    fn check_moments(&self) -> Result<(), Refusal> {
        let stamped = match self.stamp {
            Stamp::Good(at) => Some(at),
            Stamp::Unchecked | Stamp::Bad => None,
        };
        let mut moments = std::iter::once(self.now)
            .chain(self.maker.moments())
            .chain(self.signer.moments())
            .chain(self.withdrawn)
            .chain(stamped);
        if !moments.all(is_real_moment) {
            return Err(Fault::FindingTime.at(0));
        }
        Ok(())
    }
}

/// An accepted signature record next to its findings.
struct Matter<'a> {
    record: &'a [u8],
    fields: &'a Signature,
    findings: &'a Findings,
    signing: Moment,
}

/// A step of a verdict: its number and the test that makes it hold.
type SignatureStep = (u8, fn(&Matter) -> bool);

const SIGNATURE_STEPS: [SignatureStep; 13] = [
    (21, |m| !m.findings.signature_good),
    (22, signer_is_not_listed),
    (23, |m| !m.findings.seal_signature_good),
    (24, |m| !m.findings.maker.is_trusted()),
    (26, |m| !period_holds(&m.fields.seal, m.record, m.signing)),
    (27, |m| {
        m.findings.withdrawn.is_some_and(|at| at <= m.signing)
    }),
    (28, |m| !m.findings.signer.is_trusted()),
    (29, |m| !m.findings.signer.dates_hold(m.signing)),
    (30, |m| m.findings.signer.is_revoked(m.signing)),
    (31, |m| {
        m.fields.original.of(m.record) != m.findings.original
    }),
    (32, stamp_is_not_good),
    (33, |m| stamped_at(m).is_some_and(|at| m.signing > at)),
    (34, |m| {
        stamped_at(m).is_some_and(|at| !m.findings.signer.is_in_force(at))
    }),
];

/// Gives the verdict on a signature record.
pub fn judge_signature(record: &[u8], findings: &Findings) -> Result<Judged, Refusal> {
    let read = read_signature(record)?;
    findings.check_moments()?;
    let matter = Matter {
        record,
        fields: &read.signature,
        findings,
        signing: moment(read.signature.signing.of(record)),
    };
    let first = SIGNATURE_STEPS.iter().find(|(_, holds)| holds(&matter));
    let number = first.map_or(0, |(number, _)| *number);
    Ok(Judged {
        number,
        notice: may_have_notice(number) && maker_is_out_of_force(&matter),
    })
}

/// Gives the verdict on a seal record.
pub fn judge_seal(record: &[u8], findings: &Findings) -> Result<Judged, Refusal> {
    let read = read_seal(record)?;
    findings.check_moments()?;
    let now = findings.now;
    let steps = [
        (23, !findings.seal_signature_good),
        (24, !findings.maker.is_trusted()),
        (25, !findings.maker.is_in_force(now)),
        (26, !period_holds(&read.seal, record, now)),
    ];
    let first = steps.iter().find(|(_, holds)| *holds);
    Ok(Judged {
        number: first.map_or(0, |(number, _)| *number),
        notice: false,
    })
}

/// Tells whether no entry of the seal's list is the signer's.
fn signer_is_not_listed(matter: &Matter) -> bool {
    let listed = &matter.fields.seal.listed;
    let wanted = match listed {
        Listed::Certificates(_) => matter.fields.signer.of(matter.record),
        Listed::Digests(_) => &matter.findings.signer_digest,
    };
    listed.matching(matter.record, wanted).is_none()
}

/// Tells whether a moment lies in a seal's period, both ends included.
fn period_holds(seal: &Seal, record: &[u8], at: Moment) -> bool {
    moment(seal.start.of(record)) <= at && at <= moment(seal.end.of(record))
}

/// Tells whether the record has a stamp that was not checked or is bad.
fn stamp_is_not_good(matter: &Matter) -> bool {
    matter.fields.stamp.is_some() && !matches!(matter.findings.stamp, Stamp::Good(_))
}

/// Gives the time of the record's stamp, where there is one and it is good.
fn stamped_at(matter: &Matter) -> Option<Moment> {
    match (matter.fields.stamp, matter.findings.stamp) {
        (Some(_), Stamp::Good(at)) => Some(at),
        _ => None,
    }
}

/// Tells whether a notice can go with a verdict.
fn may_have_notice(number: u8) -> bool {
    number == 0 || number >= 26
}

/// Tells whether the maker's certificate is out of force both now and at signing.
fn maker_is_out_of_force(matter: &Matter) -> bool {
    let maker = &matter.findings.maker;
    !maker.is_in_force(matter.findings.now) && !maker.is_in_force(matter.signing)
}
