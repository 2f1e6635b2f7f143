//! The hellos in the sample that crates/test_scripts runs, short ones for the most part. The original gives no ranges: they are
//! those of the driver's own reader, whose report must be the original's in all else.

use super::question::types;
use super::report::{Name, Report};
use super::{accepted, chance, law};
use crate::make;
use crate::noise::quic::fingerprint::parse_clienthello;
use crate::random::Random;
use crate::sample::Section;
use crate::script::{Bytes, Text};

const SEED: u64 = 0x7265_706c_6179_0004;
/// Hellos by chance, and the length that most of them stay within.
const CHANCE: usize = 16;
const ROOM: usize = 260;
/// How many of these have their types and names asked for too.
const ALSO: usize = 8;
const DEFAULT: &str = "default.example";

pub(crate) fn sample() -> Vec<Section> {
    let mut random = Random::new(SEED);
    let made = made();
    let chance: Vec<_> = (0..CHANCE)
        .map(|_| chance::hello(ROOM, &mut random))
        .collect();
    let small = accepted::hellos();
    let also: Vec<_> = chance.iter().take(ALSO).chain(&small).collect();
    vec![
        section("report, made", made.iter().map(report)),
        section(
            &format!("report, by chance, seed {SEED:#x}"),
            chance.iter().map(report),
        ),
        section("report, small", small.iter().map(report)),
        section("set", also.iter().map(|hello| set(hello))),
        section("name", also.iter().map(|hello| name(hello))),
    ]
}

fn section(title: &str, lines: impl Iterator<Item = (String, String)>) -> Section {
    Section {
        title: title.to_string(),
        lines: lines.collect(),
    }
}

/// One hello of each browser, and some of curl, which are short.
fn made() -> Vec<Vec<u8>> {
    let hello = |(profile, name): (u64, &str)| make::hello(profile, name, &[1, 2, 3], SEED);
    [
        (0, "www.example.com"),
        (1, "www.example.com"),
        (2, "a"),
        (2, "www.example.com"),
        (2, "<[(!)]>"),
        (2, "two\"quotes\""),
    ]
    .map(hello)
    .into()
}

/// The original's report with ranges.
fn read(hello: &[u8]) -> Report {
    let report = law::read(hello).unwrap_or_else(|number| panic!("{number}: {}", Bytes(hello)));
    assert_eq!(report.fingerprint(), parse_clienthello(hello));
    report
}

fn report(hello: &Vec<u8>) -> (String, String) {
    (format!("report {}", Bytes(hello)), read(hello).to_string())
}

fn set(hello: &[u8]) -> (String, String) {
    let set = parse_clienthello(hello).extension_set();
    (format!("set {}", Bytes(hello)), types(&set))
}

fn name(hello: &[u8]) -> (String, String) {
    let question = format!("name {} \"{DEFAULT}\"", Bytes(hello));
    let bytes = match read(hello).name {
        Some(Name { bytes, .. }) => bytes,
        None => DEFAULT.as_bytes().to_vec(),
    };
    (question, format!("name {}", Text(&bytes)))
}
