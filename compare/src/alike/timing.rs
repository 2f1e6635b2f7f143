//! Alike against the clock. The original has no such call: it is held to reading both hellos by the original, and comparing
//! what it reads as document 01 says, names as text.

use super::question::{Question, Verdict};
use crate::make;
use crate::noise::quic::fingerprint::{parse_clienthello, Fingerprint};
use crate::ours;
use crate::sides::Ask;
use crate::table::{Aim, Table};
use crate::tally::Tally;
use crate::timing::in_turn;
use std::hint::black_box;

const SEED: u64 = 0x616c_696b_6574_696d;
const NAME: &str = "www.example.com";
const SCID: [u8; 8] = [1, 2, 3, 4, 5, 6, 7, 8];
/// Hellos of each profile, each with the one after it.
const TAPES: u64 = 64;

pub(crate) fn time(tally: &mut Tally, table: &mut Table) {
    for (profile, title) in (0..).zip(["Chrome", "Firefox", "curl"]) {
        let hello = |tape| make::hello(profile, NAME, &SCID, SEED + tape);
        let hellos: Vec<Vec<u8>> = (0..TAPES).map(hello).collect();
        for pair in hellos.windows(2) {
            let (a, b) = (pair[0].clone(), pair[1].clone());
            let yes = Verdict(by_fields(&a, &b));
            let question = Question { a, b };
            tally.expect(&question, "ours", &Verdict(true), &question.by_ours());
            tally.expect(&question, "the driver", &Verdict(true), &yes);
        }
        let timed = in_turn(
            hellos.len() - 1,
            || sum(&hellos, ours::alike),
            || sum(&hellos, |a, b| u64::from(by_fields(a, b))),
        );
        let title = format!("two of {title} (the Rust reads both, the driver compares)");
        table.add("alike", &title, timed, Aim::None);
    }
}

fn sum(hellos: &[Vec<u8>], alike: impl Fn(&[u8], &[u8]) -> u64) -> u64 {
    let pairs = hellos.windows(2);
    pairs
        .map(|pair| alike(black_box(&pair[0]), black_box(&pair[1])))
        .sum()
}

/// Whether what the original reads in two hellos agrees, the order of types and ids put aside.
fn by_fields(a: &[u8], b: &[u8]) -> bool {
    let [a, b] = [a, b].map(|hello| in_rising_order(parse_clienthello(hello)));
    a == b
}

fn in_rising_order(mut read: Fingerprint) -> Fingerprint {
    for id in &mut read.transport_param_ids {
        if *id % 31 == 27 {
            *id = 27;
        }
    }
    read.extensions.sort_unstable();
    read.transport_param_ids.sort_unstable();
    read
}
