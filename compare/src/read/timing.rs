//! The reader against the clock: the number alone, the report's bytes, and the report as our own code has it.

use super::question::Question;
use super::report::Report;
use super::{law, layout, worst};
use crate::captures::Greeting;
use crate::make;
use crate::noise::quic::fingerprint::parse_clienthello;
use crate::ours;
use crate::script::Bytes;
use crate::sides::Ask;
use crate::table::{Aim, Table};
use crate::tally::Tally;
use crate::timing::Rounds;
use std::hint::black_box;

const SEED: u64 = 0x7265_6164_7469_6d65;
const NAME: &str = "www.example.com";
const SCID: [u8; 8] = [1, 2, 3, 4, 5, 6, 7, 8];
/// Hellos of each profile, one after the other, so that no branch is learnt by heart.
const TAPES: u64 = 64;
/// What the captures of QUIC are called.
const QUIC: &str = "quic-";
/// The parts of the Rust's time that the number alone and a report are to stay within, and how many times the Rust's time the
/// worst input may take.
const NUMBER: f64 = 0.30;
const REPORT: f64 = 0.40;
const WORST: f64 = 10.0;
/// The place of each list that is picked, and how many places may be.
const PLACE: usize = 1;
const PLACES: usize = 16;

pub(crate) fn time(tally: &mut Tally, table: &mut Table, greetings: &[Greeting]) {
    for (profile, title) in (0..).zip(["Chrome", "Firefox", "curl"]) {
        let hello = |tape| make::hello(profile, NAME, &SCID, SEED + tape);
        let hellos: Vec<Vec<u8>> = (0..TAPES).map(hello).collect();
        time_read(tally, table, title, &hellos);
    }
    for Greeting { name, hello, .. } in greetings {
        if name.starts_with(QUIC) && law::read(hello).is_ok() {
            time_read(tally, table, name, &[hello.clone()]);
        }
    }
    for (title, hello) in worst::hellos() {
        time_worst(tally, table, &title, &hello);
    }
}

/// Hellos that both sides read.
fn time_read(tally: &mut Tally, table: &mut Table, title: &str, hellos: &[Vec<u8>]) {
    for hello in hellos {
        let question = Question::new(hello);
        tally.count(&question, &question.by_rust(), &question.by_ours());
        check_picked(tally, hello);
    }
    let rounds = run(hellos);
    for (call, way, aim) in [
        ("read", 0, NUMBER),
        ("report", 1, REPORT),
        ("report, as a struct", 2, REPORT),
    ] {
        table.add(call, title, rounds.timed(way, 3), Aim::Rust(aim));
    }
}

/// The number alone, the report's bytes, the report as a struct, and the Rust.
fn run(hellos: &[Vec<u8>]) -> Rounds<4> {
    let mut out = [0; layout::LENGTH];
    let number = |hello: &[u8]| ours::refusal(hello).unwrap_or_else(|number| number);
    let bytes = |hello: &[u8]| ours::report_bytes(hello, black_box(&mut out)).unwrap_or(0);
    let report = |hello: &[u8]| ours::picked(hello, black_box(PLACE));
    let rust = |hello: &[u8]| black_box(parse_clienthello(hello)).extensions.len() as u64;
    let (mut number, mut bytes) = (total(hellos, number), total(hellos, bytes));
    let (mut report, mut rust) = (total(hellos, report), total(hellos, rust));
    Rounds::run(
        hellos.len(),
        [&mut number, &mut bytes, &mut report, &mut rust],
    )
}

/// Reads all hellos and adds up what comes of them.
fn total<'a>(
    hellos: &'a [Vec<u8>],
    mut read: impl FnMut(&[u8]) -> u64 + 'a,
) -> impl FnMut() -> u64 + 'a {
    move || {
        let add = |sum: u64, hello: &Vec<u8>| sum.wrapping_add(read(black_box(hello)));
        hellos.iter().fold(0, add)
    }
}

/// What is timed must be right: each place of our report, picked, is that of document 01's.
fn check_picked(tally: &mut Tally, hello: &[u8]) {
    let report = law::read(hello).unwrap_or_default();
    for place in 0..PLACES {
        let question = format!("one place, {place}, of each list of {}", Bytes(hello));
        let given = ours::picked(hello, place);
        tally.expect(&question, "ours", &picked(&report, place), &given);
    }
}

/// The sum of one place of each list, 0 past its count.
fn picked(report: &Report, place: usize) -> u64 {
    let entries = report
        .lists()
        .into_iter()
        .filter_map(|list| list.get(place));
    let start = report.alpn.get(place).map_or(0, |name| name.start as u64);
    let id = report.transport_parameters.get(place).copied();
    entries
        .map(|entry| u64::from(*entry))
        .fold(start, u64::wrapping_add)
        .wrapping_add(id.unwrap_or(0))
}

/// A hello that ours may refuse. Where it does, no report is built, so the number alone is timed.
fn time_worst(tally: &mut Tally, table: &mut Table, title: &str, hello: &[u8]) {
    let question = Question::new(hello);
    let known = question.texts_by_law();
    tally.expect(&question, "ours", &known, &question.texts_by_ours());
    let refusal = law::read(hello).err();
    let rounds = run(&[hello.to_vec()]);
    let answer = refusal.map_or("accepted".to_string(), |number| number.to_string());
    let title = format!("{title}, {} bytes ({answer})", hello.len());
    table.add("read", &title, rounds.timed(0, 3), Aim::Rust(WORST));
    if refusal.is_none() {
        table.add("report", &title, rounds.timed(1, 3), Aim::Rust(WORST));
    }
}
