//! The maker against the clock. The Rust's profile is built before.

use super::question::{Fill, Question, TABLE};
use crate::noise::quic::profiles::Profile;
use crate::noise::quic::tls::generate_client_hello;
use crate::ours;
use crate::sides::Ask;
use crate::table::{Aim, Table};
use crate::tally::Tally;
use crate::tape::Tape;
use crate::timing::in_turn;
use std::hint::black_box;

const SEED: u64 = 0x6d61_6b65_7469_6d65;
const NAME: &str = "www.example.com";
const SCID: [u8; 8] = [1, 2, 3, 4, 5, 6, 7, 8];
/// Tapes, one after the other, so that no branch is learnt by heart.
const TAPES: u64 = 64;
const TITLES: [&str; 3] = ["Chrome", "Firefox", "curl"];
/// The part of the Rust's time that a hello is to stay within.
const AIM: f64 = 0.25;

pub(crate) fn time(tally: &mut Tally, table: &mut Table) {
    for (profile, row) in (0..).zip(&TABLE) {
        let question =
            |seed| Question::new(profile, NAME.as_bytes(), &SCID, Fill::Random(SEED + seed));
        let questions: Vec<Question> = (0..TAPES).map(question).collect();
        for question in &questions {
            tally.count(question, &question.by_rust(), &question.by_ours());
        }
        let tapes: Vec<Vec<u8>> = questions.iter().map(Question::tape_bytes).collect();
        let built = Profile::for_browser(row.browser);
        let mut out = vec![0; questions[0].room];
        let timed = in_turn(
            tapes.len(),
            || {
                sum(&tapes, |tape| {
                    ours::make(profile, NAME.as_bytes(), &SCID, tape, black_box(&mut out))
                        .unwrap_or(0)
                })
            },
            || {
                sum(&tapes, |tape| {
                    generate_client_hello(black_box(&built), NAME, &SCID, &mut Tape::new(tape))
                        .len() as u64
                })
            },
        );
        table.add("make", TITLES[profile as usize], timed, Aim::Rust(AIM));
    }
}

fn sum(tapes: &[Vec<u8>], mut make: impl FnMut(&[u8]) -> u64) -> u64 {
    tapes.iter().map(|tape| make(black_box(tape))).sum()
}
