//! The questions on joining in the sample that crates/test_scripts runs: lists without overlap and without gaps, which the
//! original joins as document 01 does.

use super::crypto;
use super::lists::shuffled;
use super::question::Question;
use crate::random::Random;
use crate::sample::{section, Section};
use crate::script::hex;

const SEED: u64 = 0x7265_706c_6179_0002;
/// Streams are short, so that a line can be read.
const LONGEST: usize = 40;

pub(crate) fn sample() -> Vec<Section> {
    let mut random = Random::new(SEED);
    let drawn: Vec<_> = (0..30).map(|_| draw(&mut random)).collect();
    vec![
        section("join, no data", without_data().map(Question::new)),
        section(
            "join, in order and not",
            in_order_and_not().map(Question::new),
        ),
        section(&format!("join, random, seed {SEED:#x}"), drawn),
    ]
}

fn without_data() -> [Vec<u8>; 5] {
    ["", "00", "010000", "060000", "0640008000000001"].map(hex)
}

/// One frame, two, the same two the other way round, numbers in longer varints, and a stream as long as may be.
fn in_order_and_not() -> [Vec<u8>; 5] {
    let longest = crypto(0, &[0xee; super::LIMIT]);
    [
        hex("060002aabb"),
        hex("060001aa060101bb"),
        hex("060101bb060001aa"),
        hex("06400180000001bb0106c00000000000000001aa"),
        longest,
    ]
}

fn draw(random: &mut Random) -> Question {
    let length = random.below(LONGEST + 1);
    let stream = random.bytes(length);
    Question::new(shuffled(&stream, random))
}
