//! Hellos: such as document 01 accepts, and such as something happened to, with the lengths around it left as they were or
//! made true again.

use super::damage::{damage, random_bytes, spliced};
use super::{entries, ids, Real};
use crate::join::LIMIT;
use crate::make;
use crate::random::Random;
use crate::read::build::{block, Extension, Parts};
use crate::read::chance;
use crate::read::counts::UNREAD;
use crate::read::lengths::lengths;

/// What is damaged stays within this, so that its length can be made true again.
const LONGEST_BLOCK: usize = 60_000;
const LONGEST_BODY: usize = 20_000;

pub(super) fn draw(real: &Real, random: &mut Random) -> Vec<u8> {
    match random.below(20) {
        0 if random.below(2) == 0 => ids::hello(random),
        0..=4 => accepted(real, random),
        5..=7 => damaged(accepted(real, random), random),
        8 => with_true_length(damaged(accepted(real, random), random)),
        9 => block_damaged(&accepted(real, random), random),
        10..=12 => body_damaged(&accepted(real, random), random),
        13 => length_changed(&accepted(real, random), random),
        14..=15 => entries::changed(&accepted(real, random), random),
        16 => field_changed(&accepted(real, random), random),
        17 => two_spliced(real, random),
        18 => near_the_limit(&accepted(real, random), random),
        _ => by_bytes(random),
    }
}

/// What the original made, what was put together by chance, or what a real program sent.
pub(super) fn accepted(real: &Real, random: &mut Random) -> Vec<u8> {
    match random.below(8) {
        0..=3 => make::any_hello(random),
        4 => real.hellos[random.below(real.hellos.len())].clone(),
        _ => {
            let room = 4_096 >> random.below(6);
            chance::hello(room, random)
        }
    }
}

pub(super) fn damaged(mut hello: Vec<u8>, random: &mut Random) -> Vec<u8> {
    damage(&mut hello, random);
    hello
}

/// Type 01 and the 3-byte length of what follows, so that the fields are come to.
fn with_true_length(mut hello: Vec<u8>) -> Vec<u8> {
    if let Some(rest) = hello.len().checked_sub(4) {
        hello[..4].copy_from_slice(&(rest as u32).to_be_bytes());
        hello[0] = 1;
    }
    hello
}

fn with_block(parts: Parts, mut block: Vec<u8>) -> Vec<u8> {
    block.truncate(LONGEST_BLOCK);
    Parts { block, ..parts }.hello()
}

fn block_damaged(hello: &[u8], random: &mut Random) -> Vec<u8> {
    let parts = Parts::of(hello);
    let block = damaged(parts.block.clone(), random);
    with_block(parts, block)
}

fn body_damaged(hello: &[u8], random: &mut Random) -> Vec<u8> {
    let parts = Parts::of(hello);
    let mut extensions = parts.extensions();
    if extensions.is_empty() {
        return damaged(hello.to_vec(), random);
    }
    // two at times, so that the first of them must decide
    for _ in 0..1 + random.below(4) / 3 {
        let place = random.below(extensions.len());
        let body = &mut extensions[place].body;
        damage(body, random);
        body.truncate(LONGEST_BODY);
    }
    with_block(parts, block(&extensions))
}

/// A length one more, one less, or at its largest.
fn length_changed(hello: &[u8], random: &mut Random) -> Vec<u8> {
    let all = lengths(hello);
    let changed = all[random.below(all.len())].changed(hello);
    changed[random.below(changed.len())].clone()
}

/// Session id, suites or compression of another length, all lengths true.
fn field_changed(hello: &[u8], random: &mut Random) -> Vec<u8> {
    let mut parts = Parts::of(hello);
    let length = [0, 1, 2, 31, 32, 33, 34, 64, 127, 128, 129, 130, 255][random.below(13)];
    let field = match random.below(3) {
        0 => &mut parts.session_id,
        1 => &mut parts.suites,
        _ => &mut parts.compression,
    };
    field.resize(length, 0x13);
    parts.hello()
}

/// The front of one and the back of another, as they fall or with a true length; or the extensions of both.
fn two_spliced(real: &Real, random: &mut Random) -> Vec<u8> {
    let [one, other] = [(); 2].map(|()| accepted(real, random));
    match random.below(3) {
        0 => spliced(&one, &other, random),
        1 => with_true_length(spliced(&one, &other, random)),
        _ => {
            let [parts, more] = [&one, &other].map(|hello| Parts::of(hello));
            let block = spliced(&parts.block, &more.block, random);
            with_block(parts, block)
        }
    }
}

/// A hello with one more extension that brings it near the longest that is read, or past it.
fn near_the_limit(hello: &[u8], random: &mut Random) -> Vec<u8> {
    let parts = Parts::of(hello);
    let length = LIMIT + 3 - random.below(8);
    let room = length.saturating_sub(hello.len() + 4);
    let more = Extension::new(UNREAD, random_bytes(room, random));
    let block = [&parts.block[..], &more.bytes()].concat();
    with_block(parts, block)
}

/// Bytes that were never a hello: any, with a true length, or as the block of a plain hello.
fn by_bytes(random: &mut Random) -> Vec<u8> {
    let length = random.low(LIMIT, 10);
    let bytes = random_bytes(length, random);
    match random.below(4) {
        0 => bytes,
        1 => with_true_length(bytes),
        2 => Parts::plain(&bytes).hello(),
        _ => {
            let few = |byte: &u8| [0, 0, 0, 1, 2, 4, 0x0a, 0x10][usize::from(byte % 8)];
            Parts::plain(&bytes.iter().map(few).collect::<Vec<u8>>()).hello()
        }
    }
}
