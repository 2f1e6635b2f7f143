//! varint.rs of the original: `size`, `write` and `read`.

mod question;
mod sample;
mod timing;

pub(crate) use sample::sample;
pub(crate) use timing::{longer, time};

use crate::random::Random;
use crate::sides::Sides;
use crate::tally::Tally;
use question::Question;
use std::collections::BTreeSet;

const SEED: u64 = 0x6372_7573_7464_656c;
/// Random questions of each call.
const RANDOM: usize = 100_000;
/// Outputs and inputs have up to one byte more than the widest varint.
const LONGEST: usize = 9;
/// What an output holds before the call, so that a byte that was written can be told from one that was not.
const UNTOUCHED: u8 = 0xa5;

pub(crate) fn compare(tally: &mut Tally) {
    let mut sides = Sides::new(tally);
    let mut values = near_ceilings();
    values.extend(0..=300);
    for value in values {
        sides.ask(Question::Size(value));
        for length in 0..=LONGEST {
            sides.ask(Question::Write(value, vec![UNTOUCHED; length]));
        }
    }
    for input in every_first_byte() {
        sides.ask(Question::Read(input));
    }
    let mut random = Random::new(SEED);
    sides.ask_random(RANDOM, || Question::Size(random.value()));
    sides.ask_random(RANDOM, || {
        let length = random.below(LONGEST + 1);
        Question::Write(random.value(), random.bytes(length))
    });
    sides.ask_random(RANDOM, || {
        let length = random.below(LONGEST + 1);
        Question::Read(random.bytes(length))
    });
    sides.ask_random(RANDOM / 100, || {
        let length = random.below(64);
        Question::Sum(random.bytes(length))
    });
}

/// The values up to three away from 2^6, 2^14, 2^30 and 2^62, where the width changes or ends, and from 2^63 and 2^64,
/// where a number of the machine does.
fn near_ceilings() -> BTreeSet<u64> {
    let mut values = BTreeSet::new();
    for ceiling in [6, 14, 30, 62, 63, 64].map(|bits| 1u128 << bits) {
        values.extend((ceiling - 3..=ceiling + 3).filter_map(|value| u64::try_from(value).ok()));
    }
    values
}

/// Each first byte with each length, and three fillings of what follows it; and the empty input.
fn every_first_byte() -> BTreeSet<Vec<u8>> {
    let mut inputs = BTreeSet::from([Vec::new()]);
    for first in 0..=255u8 {
        for length in 1..=LONGEST {
            inputs.extend(with_first_byte(first, length));
        }
    }
    inputs
}

fn with_first_byte(first: u8, length: usize) -> [Vec<u8>; 3] {
    let fillings: [fn(usize) -> u8; 3] = [|_| 0x00, |_| 0xff, |place| place as u8];
    fillings.map(|filling| {
        let mut input: Vec<u8> = (0..length).map(filling).collect();
        input[0] = first;
        input
    })
}
