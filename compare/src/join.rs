//! `reassemble_crypto` of the original's fingerprint.rs, on lists of frames that it joins as document 01 does: without
//! overlap and without gaps. Where the two part is a list of its own (join/parting.rs).

mod assembler;
mod captures;
pub(crate) mod law;
pub(crate) mod lists;
mod parting;
mod question;
mod sample;
mod stream;
mod timing;

pub(crate) use lists::{any_width, crypto, LIMIT};
pub(crate) use sample::sample;
pub(crate) use stream::Stream;
pub(crate) use timing::time;

use crate::captures::Capture;
use crate::random::Random;
use crate::sides::{Ask, Sides};
use crate::tally::Tally;
use lists::{covering, shuffled};
use question::{Answer, Question};

const SEED: u64 = 0x6a6f_696e_6672_616d;
/// Random lists that both sides join.
const RANDOM: usize = 10_000;
/// Random lists with equal overlap, which ours alone joins to the stream.
const OVERLAPPING: usize = 2_000;
/// What output and marks hold before the call, so that a byte that was left can be told from one that was written.
const UNTOUCHED: [u8; 2] = [0xa5, 0x5a];

pub(crate) fn compare(tally: &mut Tally, captures: &[Capture]) {
    let mut random = Random::new(SEED);
    let mut sides = Sides::new(tally);
    sides.ask(Question::new(Vec::new()));
    let longest = random.bytes(LIMIT);
    sides.ask(Question::new(crypto(0, &longest)));
    sides.ask(Question::new(shuffled(&longest, &mut random)));
    sides.ask_random(RANDOM, || {
        let stream = stream(&mut random);
        let frames = shuffled(&stream, &mut random);
        Question {
            frames,
            room: [room(&mut random), room(&mut random)],
        }
    });
    for _ in 0..OVERLAPPING {
        let stream = stream(&mut random);
        let question = Question::new(covering(&stream, &mut random));
        let known = Answer::joined(&stream, question.room);
        tally.expect(&question, "ours", &known, &question.by_ours());
    }
    parting::check(tally);
    captures::check(tally, captures);
}

/// Random bytes, 0 to 16,384, a bit length first, so that short streams are as common as long ones.
fn stream(random: &mut Random) -> Vec<u8> {
    let bits = random.below(16);
    let most = (1usize << bits).min(LIMIT + 1);
    let length = random.below(most);
    random.bytes(length)
}

/// Buffers of 16,384 bytes, and longer ones as often.
fn room(random: &mut Random) -> usize {
    LIMIT + random.below(2) * random.below(100)
}
