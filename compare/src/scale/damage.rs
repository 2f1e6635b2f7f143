//! What may happen to bytes of any kind.

use crate::random::Random;

type Change = fn(&mut Vec<u8>, &mut Random);

const CHANGES: [Change; 8] = [
    bit_flipped,
    byte_set,
    run_set,
    bytes_inserted,
    run_removed,
    run_doubled,
    number_changed,
    end_cut,
];
/// Bytes that mean something to one reader or another: types, lengths of nothing, and the first bytes of each varint's width.
const TELLING: [u8; 12] = [
    0x00, 0x01, 0x02, 0x06, 0x20, 0x3f, 0x40, 0x7f, 0x80, 0xbf, 0xc0, 0xff,
];
/// Runs that are changed are shorter than this, but for one in eight.
const SHORT: usize = 24;

/// One to four changes, mostly one.
pub(super) fn damage(bytes: &mut Vec<u8>, random: &mut Random) {
    let count = [1, 1, 1, 2, 3, 4][random.below(6)];
    for _ in 0..count {
        CHANGES[random.below(CHANGES.len())](bytes, random);
    }
}

/// The front of the one and the back of the other.
pub(super) fn spliced(front: &[u8], back: &[u8], random: &mut Random) -> Vec<u8> {
    let to = random.below(front.len() + 1);
    let from = match random.below(2) {
        0 => to.min(back.len()),
        _ => random.below(back.len() + 1),
    };
    [&front[..to], &back[from..]].concat()
}

pub(super) fn random_bytes(length: usize, random: &mut Random) -> Vec<u8> {
    let mut bytes = vec![0; length];
    random.fill(&mut bytes);
    bytes
}

fn bit_flipped(bytes: &mut Vec<u8>, random: &mut Random) {
    if let Some((start, _)) = run(bytes, random) {
        bytes[start] ^= 1 << random.below(8);
    }
}

fn byte_set(bytes: &mut Vec<u8>, random: &mut Random) {
    if let Some((start, _)) = run(bytes, random) {
        bytes[start] = any_byte(random);
    }
}

fn run_set(bytes: &mut Vec<u8>, random: &mut Random) {
    if let Some((start, end)) = run(bytes, random) {
        bytes[start..end].fill(any_byte(random));
    }
}

fn bytes_inserted(bytes: &mut Vec<u8>, random: &mut Random) {
    let place = random.below(bytes.len() + 1);
    let count = 1 + random.below(SHORT);
    let inserted = match random.below(2) {
        0 => vec![any_byte(random); count],
        _ => random_bytes(count, random),
    };
    bytes.splice(place..place, inserted);
}

fn run_removed(bytes: &mut Vec<u8>, random: &mut Random) {
    if let Some((start, end)) = run(bytes, random) {
        bytes.drain(start..end);
    }
}

fn run_doubled(bytes: &mut Vec<u8>, random: &mut Random) {
    if let Some((start, end)) = run(bytes, random) {
        let again = bytes[start..end].to_vec();
        bytes.splice(end..end, again);
    }
}

/// Two bytes as a number, which may be a length: a little more or less, or as large as can be.
fn number_changed(bytes: &mut Vec<u8>, random: &mut Random) {
    if 2 <= bytes.len() {
        let start = random.below(bytes.len() - 1);
        let number = u16::from_be_bytes([bytes[start], bytes[start + 1]]);
        let by = 1 + random.below(3) as u16;
        let other = match random.below(5) {
            0 | 1 => number.wrapping_add(by),
            2 | 3 => number.wrapping_sub(by),
            _ => u16::MAX,
        };
        bytes[start..start + 2].copy_from_slice(&other.to_be_bytes());
    }
}

fn end_cut(bytes: &mut Vec<u8>, random: &mut Random) {
    bytes.truncate(random.below(bytes.len() + 1));
}

/// The first place of a run and the place after it, where there are bytes.
fn run(bytes: &[u8], random: &mut Random) -> Option<(usize, usize)> {
    if bytes.is_empty() {
        return None;
    }
    let start = random.below(bytes.len());
    let most = match random.below(8) {
        0 => bytes.len(),
        _ => SHORT,
    };
    let length = 1 + random.below(most);
    Some((start, bytes.len().min(start + length)))
}

fn any_byte(random: &mut Random) -> u8 {
    match random.below(2) {
        0 => TELLING[random.below(TELLING.len())],
        _ => random.next() as u8,
    }
}
