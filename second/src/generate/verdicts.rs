//! Cases that ask for verdicts: scenes in which the wanted steps hold, and no earlier one.

use super::damage::{damages, Broken};
use super::random::Random;
use super::suite::Suite;
use super::tree::{full_input, seal_input, signature_input};
use super::values::{List, SignatureValue};
use crate::case::{Case, Kind};
use crate::verdict::{Certificate, Findings, Moment, Stamp};

const SIGNING: Moment = 20240630120000;
const BEFORE: Moment = 20240630115959;
const AFTER: Moment = 20240630120001;
const NOW: Moment = 20240701000000;

/// The numbers that a signature's verdict can have, in the order of its steps.
const STEPS: [u8; 13] = [21, 22, 23, 24, 26, 27, 28, 29, 30, 31, 32, 33, 34];

/// A signature's values next to findings.
#[derive(Clone)]
struct Scene {
    value: SignatureValue,
    findings: Findings,
}

/// Gives the findings G: all is good.
pub fn good_findings() -> Findings {
    let certificate = Certificate {
        chain_good: true,
        usage_good: true,
        first: 20230101000000,
        last: 20251231235959,
        revoked: None,
    };
    Findings {
        signature_good: true,
        seal_signature_good: true,
        now: NOW,
        maker: certificate,
        signer: certificate,
        withdrawn: None,
        stamp: Stamp::Unchecked,
        original: vec![0xDD],
        signer_digest: Vec::new(),
    }
}

/// Adds all cases with verdicts.
pub fn add(suite: &mut Suite, random: &mut Random) {
    single_steps(suite);
    several_steps(suite, random);
    no_stamp(suite);
    edges_that_pass(suite);
    notices(suite);
    seal_verdicts(suite);
    times_that_are_none(suite);
    refused_records(suite, random);
}

/// Gives a scene in which no step holds, with a stamp, and a list of the given kind.
fn good_scene(list_kind: i64) -> Scene {
    let mut value = SignatureValue::s();
    value.stamp = Some(vec![0x5A]);
    value.seal.list = List::Certificates(vec![vec![0xA9], vec![0xAA]]);
    let mut findings = good_findings();
    findings.stamp = Stamp::Good(AFTER);
    if list_kind == 2 {
        let entry = |digest: &[u8]| (b"p".to_vec(), digest.to_vec());
        value.seal.list = List::Pairs(vec![entry(b"\xD1"), entry(b"\xD2\xD3")]);
        findings.signer_digest = vec![0xD2, 0xD3];
    }
    Scene { value, findings }
}

/// Gives the number of ways in which a step can be made to hold.
fn ways(number: u8) -> usize {
    match number {
        21 | 23 => 1,
        24 | 26 | 28 | 29 | 31 => 3,
        27 | 30 | 32 | 33 => 2,
        22 => 5,
        _ => 4,
    }
}

/// Changes a scene so that a step holds, in one of its ways, and no earlier step.
fn make_hold(scene: &mut Scene, number: u8, way: usize) {
    let Scene { value, findings } = scene;
    match number {
        21 => findings.signature_good = false,
        22 => unlist_signer(scene, way),
        23 => findings.seal_signature_good = false,
        24 => distrust(&mut findings.maker, way),
        26 => {
            let periods = [
                ("20240630120001Z", "20241231235959Z"),
                ("20240101000000Z", "20240630115959Z"),
                ("20240630120001Z", "20240630115959Z"),
            ];
            value.seal.start = periods[way].0.into();
            value.seal.end = periods[way].1.into();
        }
        27 => findings.withdrawn = Some([SIGNING, 101000000][way]),
        28 => distrust(&mut findings.signer, way),
        29 => match way {
            0 => findings.signer.first = AFTER,
            1 => findings.signer.last = BEFORE,
            _ => {
                findings.signer.first = AFTER;
                findings.signer.last = BEFORE;
            }
        },
        30 => findings.signer.revoked = Some([SIGNING, 20230101000000][way]),
        31 => findings.original = [&b"\xDE"[..], b"", b"\xDD\xDD"][way].to_vec(),
        32 => findings.stamp = [Stamp::Unchecked, Stamp::Bad][way],
        33 => findings.stamp = Stamp::Good([BEFORE, 20230101000000][way]),
        _ => end_signer_before_stamp(findings, way),
    }
}

/// Makes the signer one that the list does not have.
fn unlist_signer(scene: &mut Scene, way: usize) {
    let certificates = [
        &b"\xAB"[..],
        b"\xAA\xAA",
        b"\xAA\x00",
        b"\x04\x01\xAA",
        b"\xD2\xD3",
    ];
    let digests = [&b"\xD3"[..], b"\xD2", b"\xD2\xD3\x00", b"p", b""];
    match scene.value.seal.list {
        List::Certificates(_) => scene.value.signer = certificates[way].to_vec(),
        List::Pairs(_) => scene.findings.signer_digest = digests[way].to_vec(),
    }
}

/// Takes away a certificate's chain, its usage, or both.
fn distrust(certificate: &mut Certificate, way: usize) {
    certificate.chain_good = way == 1;
    certificate.usage_good = way == 0;
}

/// Ends the signer's force after signing and at the stamp's time, or before it.
fn end_signer_before_stamp(findings: &mut Findings, way: usize) {
    match way {
        0 => findings.signer.last = SIGNING,
        1 => findings.signer.revoked = Some(AFTER),
        2 => {
            findings.signer.revoked = Some(AFTER);
            findings.stamp = Stamp::Good(20250101000000);
        }
        _ => findings.stamp = Stamp::Good(20260101000000),
    }
}

/// Adds a scene as a case, with the verdict that it must get.
fn judged(suite: &mut Suite, group: &'static str, scene: &Scene, number: u8, notice: bool) {
    let case = Case::Verdict {
        kind: Kind::Signature,
        findings: scene.findings.clone(),
        record: signature_input(&scene.value).encode().bytes,
    };
    let expected = format!("JUDGED {number} {}", u8::from(notice));
    suite.expect(group, case, expected);
    suite.tally.verdict(Kind::Signature, number, notice);
}

/// Adds each step alone, in each of its ways, for both kinds of list.
fn single_steps(suite: &mut Suite) {
    for list_kind in [1, 2] {
        let good = good_scene(list_kind);
        judged(suite, "verdict, no step holds", &good, 0, false);
        for number in STEPS {
            for way in 0..ways(number) {
                let mut scene = good.clone();
                make_hold(&mut scene, number, way);
                judged(suite, "verdict, one step holds", &scene, number, false);
            }
        }
    }
}

/// Adds scenes in which several steps hold; the first of them answers.
fn several_steps(suite: &mut Suite, random: &mut Random) {
    let mut sets: Vec<Vec<u8>> = Vec::new();
    for first in STEPS {
        for second in STEPS {
            if first < second {
                sets.push(vec![first, second]);
            }
        }
    }
    for _ in 0..120 {
        sets.push(STEPS.into_iter().filter(|_| random.once_in(3)).collect());
    }
    for set in sets {
        let mut scene = good_scene(1 + random.below(2) as i64);
        for &number in set.iter().rev() {
            let way = random.below(ways(number));
            make_hold(&mut scene, number, way);
        }
        let noticed = random.once_in(2);
        if noticed {
            let way = random.below(MAKER_OUT_OF_FORCE.len());
            MAKER_OUT_OF_FORCE[way](&mut scene.findings);
        }
        let number = set.first().copied().unwrap_or(0);
        let notice = noticed && (number == 0 || number >= 26);
        judged(suite, "verdict, several steps hold", &scene, number, notice);
    }
}

/// Adds records without a stamp, whatever was found out about one.
fn no_stamp(suite: &mut Suite) {
    for number in [32, 33, 34] {
        for way in 0..ways(number) {
            let mut scene = good_scene(1);
            scene.value.stamp = None;
            make_hold(&mut scene, number, way);
            judged(suite, "verdict, no stamp", &scene, 0, false);
        }
    }
}

/// Adds scenes at the edge of a step that does not hold.
fn edges_that_pass(suite: &mut Suite) {
    let edges: [fn(&mut Scene); 12] = [
        |s| s.value.seal.start = b"20240630120000Z".to_vec(),
        |s| s.value.seal.end = b"20240630120000Z".to_vec(),
        |s| s.findings.withdrawn = Some(AFTER),
        |s| s.findings.signer.first = SIGNING,
        |s| s.findings.signer.last = AFTER,
        |s| s.findings.signer.revoked = Some(20240630120002),
        |s| s.findings.stamp = Stamp::Good(SIGNING),
        |s| s.findings.stamp = Stamp::Good(20251231235959),
        |s| s.findings.now = 101000000,
        |s| s.findings.now = 99991231235959,
        |s| s.findings.signer.first = 101000000,
        |s| s.findings.withdrawn = Some(99991231235959),
    ];
    for edge in edges {
        let mut scene = good_scene(1);
        edge(&mut scene);
        judged(suite, "verdict, edge that passes", &scene, 0, false);
    }
}

/// The ways in which the maker's certificate is out of force now and at signing.
const MAKER_OUT_OF_FORCE: [fn(&mut Findings); 7] = [
    |f| f.maker.first = 20240701000001,
    |f| f.maker.last = BEFORE,
    |f| f.maker.revoked = Some(SIGNING),
    |f| f.maker.revoked = Some(20230101000000),
    |f| {
        f.maker.first = 20250101000000;
        f.maker.last = 20240101000000;
    },
    |f| {
        f.now = 20260101000000;
        f.maker.first = NOW;
    },
    |f| {
        f.maker.first = AFTER;
        f.maker.revoked = Some(NOW);
    },
];

/// The ways in which it is in force at one of the two times, or at both.
const MAKER_IN_FORCE: [fn(&mut Findings); 8] = [
    |f| f.maker.revoked = Some(AFTER),
    |f| f.maker.last = SIGNING,
    |f| f.maker.first = AFTER,
    |f| f.maker.first = NOW,
    |f| f.maker.first = SIGNING,
    |f| f.maker.last = NOW,
    |f| f.maker.revoked = Some(20240701000001),
    |f| f.now = 20260101000000,
];

/// Adds each verdict with a maker in and out of force.
fn notices(suite: &mut Suite) {
    for number in [0].into_iter().chain(STEPS) {
        let mut scene = good_scene(1);
        if number != 0 {
            make_hold(&mut scene, number, 0);
        }
        for change in MAKER_OUT_OF_FORCE {
            let mut scene = scene.clone();
            change(&mut scene.findings);
            let notice = number == 0 || number >= 26;
            judged(suite, "verdict, maker out of force", &scene, number, notice);
        }
        for change in MAKER_IN_FORCE {
            let mut scene = scene.clone();
            change(&mut scene.findings);
            judged(suite, "verdict, maker in force", &scene, number, false);
        }
    }
}

/// Adds a seal's verdict.
fn seal_judged(suite: &mut Suite, scene: &Scene, number: u8) {
    let case = Case::Verdict {
        kind: Kind::Seal,
        findings: scene.findings.clone(),
        record: seal_input(&scene.value.seal).encode().bytes,
    };
    let expected = format!("JUDGED {number} 0");
    suite.expect("seal verdict", case, expected);
    suite.tally.verdict(Kind::Seal, number, false);
}

/// A step of a seal's verdict: its number, and a change that makes it hold.
type SealStep = (u8, fn(&mut Scene));

/// The ways in which each step of a seal's verdict holds.
const SEAL_STEPS: [SealStep; 11] = [
    (23, |s| s.findings.seal_signature_good = false),
    (24, |s| s.findings.maker.chain_good = false),
    (24, |s| s.findings.maker.usage_good = false),
    (25, |s| s.findings.maker.first = 20240701000001),
    (25, |s| s.findings.maker.last = 20240630235959),
    (25, |s| s.findings.maker.revoked = Some(NOW)),
    (25, |s| s.findings.maker.revoked = Some(20230101000000)),
    (25, |s| {
        s.findings.maker.first = 20250101000000;
        s.findings.maker.last = 20240101000000;
    }),
    (26, |s| s.value.seal.start = b"20240701000001Z".to_vec()),
    (26, |s| s.value.seal.end = b"20240630235959Z".to_vec()),
    (26, |s| {
        s.value.seal.start = b"20240701000001Z".to_vec();
        s.value.seal.end = b"20240630235959Z".to_vec();
    }),
];

/// What never matters for a seal's verdict.
const SEAL_IDLE: [fn(&mut Scene); 13] = [
    |_| (),
    |s| s.findings.signature_good = false,
    |s| s.findings.withdrawn = Some(BEFORE),
    |s| s.findings.signer.chain_good = false,
    |s| s.findings.signer.last = 101000000,
    |s| s.findings.signer.revoked = Some(101000000),
    |s| s.findings.original = Vec::new(),
    |s| s.findings.stamp = Stamp::Bad,
    |s| s.findings.maker.first = NOW,
    |s| s.findings.maker.last = NOW,
    |s| s.findings.maker.revoked = Some(20240701000001),
    |s| s.value.seal.start = b"20240701000000Z".to_vec(),
    |s| s.value.seal.end = b"20240701000000Z".to_vec(),
];

/// Adds the verdicts on a seal: no step, one, and two.
fn seal_verdicts(suite: &mut Suite) {
    for idle in SEAL_IDLE {
        let mut scene = good_scene(1);
        idle(&mut scene);
        seal_judged(suite, &scene, 0);
    }
    let mut late = good_scene(1);
    late.findings.now = 20250101000000;
    seal_judged(suite, &late, 26);
    for (number, hold) in SEAL_STEPS {
        let mut scene = good_scene(2);
        hold(&mut scene);
        seal_judged(suite, &scene, number);
        for (later, hold_too) in SEAL_STEPS {
            if later <= number {
                continue;
            }
            let mut both = good_scene(1);
            hold_too(&mut both);
            hold(&mut both);
            seal_judged(suite, &both, number);
        }
    }
}

/// The times that findings can hold.
const TIMES: [fn(&mut Findings, Moment); 9] = [
    |f, at| f.now = at,
    |f, at| f.maker.first = at,
    |f, at| f.maker.last = at,
    |f, at| f.maker.revoked = Some(at),
    |f, at| f.signer.first = at,
    |f, at| f.signer.last = at,
    |f, at| f.signer.revoked = Some(at),
    |f, at| f.withdrawn = Some(at),
    |f, at| f.stamp = Stamp::Good(at),
];

/// Numbers that are no real date and time.
const NOT_MOMENTS: [Moment; 14] = [
    0,
    1,
    1000000,
    100000000,
    20240230000000,
    20230229000000,
    19000229000000,
    20241301000000,
    20240101240000,
    20240101006000,
    20240101000060,
    99999999999999,
    100000101000000,
    u64::MAX,
];

/// Adds findings in which a time is no real date.
fn times_that_are_none(suite: &mut Suite) {
    let group = "verdict, a time that is no date";
    for (which, set) in TIMES.into_iter().enumerate() {
        for (index, at) in NOT_MOMENTS.into_iter().enumerate() {
            let mut scene = good_scene(1);
            set(&mut scene.findings, at);
            if index % 2 == 1 {
                scene.value.stamp = None;
            }
            if index % 3 == 0 {
                make_hold(&mut scene, 21, 0);
                suite.tally.pair("18 before 21".to_string());
            }
            let (kind, input) = if (index + which) % 4 == 0 {
                (Kind::Seal, seal_input(&scene.value.seal))
            } else {
                (Kind::Signature, signature_input(&scene.value))
            };
            let case = Case::Verdict {
                kind,
                findings: scene.findings,
                record: input.encode().bytes,
            };
            suite.expect(group, case, "REFUSED 18 0".to_string());
            suite.tally.verdict(kind, 18, false);
        }
    }
}

/// Adds damaged records, with good findings and with a time that is none.
fn refused_records(suite: &mut Suite, random: &mut Random) {
    for kind in [Kind::Seal, Kind::Signature] {
        let input = full_input(kind, 1);
        for path in input.paths() {
            let all = damages(input.at(&path));
            let damage = random.pick(&all);
            let broken = Broken::by(&input, &path, damage);
            let expected = broken.refused();
            let mut findings = good_findings();
            if random.once_in(2) {
                findings.now = 0;
                suite.tally.pair("record before 18".to_string());
            }
            let case = Case::Verdict {
                kind,
                findings,
                record: broken.record,
            };
            suite.expect("verdict on a damaged record", case, expected);
        }
    }
}
