//! Well-formed hellos by chance, within document 01's limits.

use super::build::{numbers, sized, Extension, Parts};
use crate::join::any_width;
use crate::random::Random;
use std::collections::HashSet;

/// The types whose bodies are read.
pub(crate) const READ: [u16; 7] = [0x0000, 0x000a, 0x000d, 0x0010, 0x002b, 0x0033, 0x0039];
/// The most entries of a list, and of ALPN.
const ENTRIES: usize = 64;
const NAMES: usize = 16;

/// A hello with as many of the extensions that were drawn as fit into `room` bytes. With no extension it may be longer than
/// `room`, by up to 460 bytes.
pub(crate) fn hello(room: usize, random: &mut Random) -> Vec<u8> {
    let mut parts = head(random);
    let mut left = room.saturating_sub(parts.hello().len());
    for extension in extensions(random) {
        let bytes = extension.bytes();
        if bytes.len() <= left {
            left -= bytes.len();
            parts.block.extend(bytes);
        }
    }
    parts.hello()
}

fn head(random: &mut Random) -> Parts {
    Parts {
        version: [random.below(256) as u8, random.below(256) as u8],
        random: random.bytes(32),
        session_id: bytes(0, 32, random),
        suites: list(random),
        compression: bytes(1, 255, random),
        block: Vec::new(),
    }
}

/// Each of the read types as likely there as not, and others, in any order.
fn extensions(random: &mut Random) -> Vec<Extension> {
    let mut extensions = Vec::new();
    for kind in READ {
        if random.below(2) == 0 {
            extensions.push(Extension::new(kind, body(kind, random)));
        }
    }
    let mut kinds: HashSet<u16> = READ.into();
    let count = few(0, ENTRIES - extensions.len(), random);
    while kinds.len() < READ.len() + count {
        let kind = sixteen(random);
        if kinds.insert(kind) {
            extensions.push(Extension::new(kind, bytes(0, 300, random)));
        }
    }
    random.shuffle(&mut extensions);
    extensions
}

fn body(kind: u16, random: &mut Random) -> Vec<u8> {
    match kind {
        0x0000 => {
            let longest = [255, 5_000][usize::from(random.below(16) == 0)];
            let name = name(longest, random);
            sized(2, &[&[0], &sized(2, &name)[..]].concat())
        }
        0x0010 => {
            let count = few(1, NAMES, random);
            let name = |_| sized(1, &name(255, random));
            sized(2, &(0..count).flat_map(name).collect::<Vec<u8>>())
        }
        0x002b => sized(1, &list(random)),
        0x0033 => {
            let count = few(0, ENTRIES, random);
            let share = |_| {
                let group = sixteen(random).to_be_bytes();
                [&group[..], &sized(2, &bytes(1, 1_000, random))].concat()
            };
            sized(2, &(0..count).flat_map(share).collect::<Vec<u8>>())
        }
        0x0039 => parameters(random),
        _ => sized(2, &list(random)),
    }
}

/// Ids all different, these and the lengths in any width that holds them.
fn parameters(random: &mut Random) -> Vec<u8> {
    let (mut ids, mut body) = (HashSet::new(), Vec::new());
    let count = few(0, ENTRIES, random);
    while ids.len() < count {
        let id = (random.value() >> 2) as usize;
        if ids.insert(id) {
            let value = bytes(0, 100, random);
            body.extend(any_width(id, random));
            body.extend(any_width(value.len(), random));
            body.extend(value);
        }
    }
    body
}

/// A list of 1 to 64 numbers of two bytes each.
fn list(random: &mut Random) -> Vec<u8> {
    let count = few(1, ENTRIES, random);
    numbers((0..count).map(|_| sixteen(random)))
}

/// A number of 16 bits, low ones more often, so that some are 0 and some stand twice in a list.
fn sixteen(random: &mut Random) -> u16 {
    random.next() as u16 >> random.below(16)
}

/// Any bytes, or such as a script shows as text.
fn name(longest: usize, random: &mut Random) -> Vec<u8> {
    let mut name = bytes(1, longest, random);
    if random.below(2) == 0 {
        name.iter_mut().for_each(|byte| *byte = 35 + *byte % 92);
    }
    name
}

fn bytes(least: usize, most: usize, random: &mut Random) -> Vec<u8> {
    let length = few(least, most, random);
    random.bytes(length)
}

/// A count from `least` to `most`: low ones more often, so that a hello does not fill up, and one in sixteen `most` itself.
fn few(least: usize, most: usize, random: &mut Random) -> usize {
    if random.below(16) == 0 {
        return most;
    }
    let more = (most - least) >> random.below(6);
    least + random.below(1 + more)
}
