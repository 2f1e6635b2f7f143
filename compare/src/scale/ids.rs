//! Hellos with many transport parameters, up to about as many as 16,384 bytes hold: whether an id stands twice is asked of
//! all of them.

use super::damage::random_bytes;
use crate::join::any_width;
use crate::random::Random;
use crate::read::build::{block, Extension, Parts};
use crate::read::counts::{self, UNREAD};
use std::collections::HashSet;

const PARAMETERS: u16 = 0x0039;
/// How many ids there are, for the most part; and the most that there are, in one hello of so many.
const MANY: usize = 2_000;
const MOST: usize = 5_400;
const FULL: usize = 64;
/// The block stays within this. A hello that is longer than it may be is refused before.
const LONGEST: usize = 16_000;

pub(super) fn hello(random: &mut Random) -> Vec<u8> {
    let count = match random.below(FULL) {
        0 => random.below(MOST),
        _ => random.low(MANY, 7),
    };
    let ids = ids(count, random);
    let mut body = Vec::new();
    let plain = random.below(2) == 0;
    for id in ids {
        let parameter = parameter(id, plain, random);
        if body.len() + parameter.len() <= LONGEST {
            body.extend(parameter);
        }
    }
    // one in eight is cut, so that its form is asked about first
    if random.below(8) == 0 {
        body.pop();
    }
    let mut extensions = vec![Extension::new(PARAMETERS, body)];
    let place = random.below(2);
    extensions.insert(place, Extension::new(UNREAD, Vec::new()));
    Parts::plain(&block(&extensions)).hello()
}

/// All different, all different but for one, or as they fall; of few bits or of many, so that they are close together or far
/// apart.
fn ids(count: usize, random: &mut Random) -> Vec<u64> {
    let bits = 14 + random.low(49, 4);
    let mut ids: Vec<u64> = (0..count).map(|_| random.next() >> (64 - bits)).collect();
    if random.below(4) == 0 {
        return ids;
    }
    let mut seen = HashSet::new();
    ids.retain(|id| seen.insert(*id));
    match random.below(4) {
        0 => ids.sort_unstable(),
        1 => ids.sort_unstable_by(|a, b| b.cmp(a)),
        _ => {}
    }
    if !ids.is_empty() && random.below(2) == 0 {
        let again = ids[random.below(ids.len())];
        let place = random.below(ids.len() + 1);
        ids.insert(place, again);
    }
    ids
}

/// In the fewest bytes and without a value, or in any width and with one.
fn parameter(id: u64, plain: bool, random: &mut Random) -> Vec<u8> {
    if plain {
        return counts::ids([id]).body;
    }
    let length = random.below(4);
    let value = random_bytes(length, random);
    let [id, length] = [id as usize, length].map(|number| any_width(number, random));
    [id, length, value].concat()
}
