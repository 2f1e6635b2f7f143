//! `split_records` of the original's fingerprint.rs: every record of whole blobs, in order, and every place of short ones.

mod question;
mod sample;

pub(crate) use sample::sample;

use crate::random::Random;
use crate::script::hex;
use crate::sides::Sides;
use crate::tally::Tally;
use question::{panics, Question};

const SEED: u64 = 0x7370_6c69_7472_6563;
/// Random whole blobs, and short ones that need not be whole.
const WHOLE: usize = 500;
const SHORT: usize = 1_000;
/// The longest record of a random whole blob, and the longest that two bytes of length can say.
const LONG: usize = 2_000;
const LONGEST: usize = 65_535;

pub(crate) fn compare(tally: &mut Tally) {
    let mut random = Random::new(SEED);
    let mut sides = Sides::new(tally);
    for _ in 0..WHOLE {
        let lengths = lengths(&mut random);
        ask_in_order(&mut sides, &whole(&lengths, &mut random));
    }
    ask_in_order(&mut sides, &whole(&[3, LONGEST, 0, 5], &mut random));
    for (text, _) in CUT {
        ask_everywhere(&mut sides, &hex(text));
    }
    for _ in 0..SHORT {
        ask_everywhere(&mut sides, &short(&mut random));
    }
    for (text, place) in CUT {
        let question = Question::new(&hex(text), place);
        tally.expect(&question, "Rust panics", &true, &panics(&hex(text)));
    }
}

/// Blobs where the original panics, and the place of the record that is cut: after its length, by one byte, and after a
/// whole record, which the original loses too.
const CUT: [(&str, usize); 5] = [
    ("0001", 0),
    ("0002aa", 0),
    ("0100", 0),
    ("ffff", 0),
    ("0001aa0001", 3),
];

/// The places of a blob's records as the original finds them, and the place where it finds no more.
fn in_order(blob: &[u8]) -> impl Iterator<Item = usize> + '_ {
    std::iter::successors(Some(0), |&place| Question::new(blob, place).next_by_rust())
}

/// Every record of a blob, and its end.
fn ask_in_order(sides: &mut Sides<Question>, blob: &[u8]) {
    for place in in_order(blob) {
        sides.ask(Question::new(blob, place));
    }
}

/// Each place of a blob, its end, and places past that.
fn ask_everywhere(sides: &mut Sides<Question>, blob: &[u8]) {
    let past = [blob.len() + 1, blob.len() + 2, usize::MAX - 1, usize::MAX];
    for place in (0..=blob.len()).chain(past) {
        sides.ask(Question::new(blob, place));
    }
}

/// The lengths of up to seven records, one in four of them 0.
fn lengths(random: &mut Random) -> Vec<usize> {
    let count = random.below(8);
    let length = |_| match random.below(4) {
        0 => 0,
        _ => random.below(LONG + 1),
    };
    (0..count).map(length).collect()
}

/// Records one after another; one blob in four has a byte left over.
fn whole(lengths: &[usize], random: &mut Random) -> Vec<u8> {
    let mut blob = Vec::new();
    for &length in lengths {
        blob.extend((length as u16).to_be_bytes());
        blob.extend(random.bytes(length));
    }
    if random.below(4) == 0 {
        blob.extend(random.bytes(1));
    }
    blob
}

/// Bytes of which most are small, so that records end inside and outside the blob.
fn short(random: &mut Random) -> Vec<u8> {
    let length = random.below(24);
    let byte = |_| match random.below(8) {
        0 => random.below(256) as u8,
        1..=3 => random.below(6) as u8,
        _ => 0,
    };
    (0..length).map(byte).collect()
}
