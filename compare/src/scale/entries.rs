//! Hellos of which the entries of a list were changed, all lengths true: numbers, names, shares, parameters, extensions,
//! suites.

use super::damage::damage;
use crate::alike::pieces::{Entries, Piece, Pieces};
use crate::join::any_width;
use crate::noise::quic::varint;
use crate::random::Random;

/// The types of the parameters and of the versions, whose list may have up to 255 bytes.
const PARAMETERS: u16 = 0x0039;
const VERSIONS: u16 = 0x002b;
const VERSIONS_BYTES: usize = 255;
/// The most bytes of a list that is made longer.
const LONGEST: usize = 10_000;

pub(super) fn changed(hello: &[u8], random: &mut Random) -> Vec<u8> {
    let mut pieces = Pieces::of(hello);
    match random.below(6) {
        0 => change_suites(&mut pieces, random),
        1 => change_extensions(&mut pieces, random),
        2 => id_again(&mut pieces, random),
        _ => change_one(&mut pieces, random),
    }
    pieces.hello()
}

fn change_suites(pieces: &mut Pieces, random: &mut Random) {
    change(&mut pieces.suites, LONGEST, random);
}

/// A type twice, one dropped, or so many that some are too many.
fn change_extensions(pieces: &mut Pieces, random: &mut Random) {
    let count = pieces.extensions.len();
    if count == 0 {
        return;
    }
    let place = random.below(count);
    match random.below(4) {
        0 => {
            let again = pieces.extensions[place].clone();
            let to = random.below(count + 1);
            pieces.extensions.insert(to, again);
        }
        1 => drop(pieces.extensions.remove(place)),
        _ => add_extensions(pieces, random),
    }
}

/// Types that are not read, all different, up to 62 to 66 extensions.
fn add_extensions(pieces: &mut Pieces, random: &mut Random) {
    let count = 62 + random.below(5);
    let first = 0x4000 + random.below(0x1000) as u16;
    let mut kinds = first..;
    while pieces.extensions.len() < count {
        let kind = kinds.next().expect("types enough");
        let there = pieces.extensions.iter().any(|piece| piece.kind == kind);
        if !there {
            let place = random.below(pieces.extensions.len() + 1);
            let entries = Vec::new();
            pieces.extensions.insert(place, Piece { kind, entries });
        }
    }
}

/// The id of a parameter again, in any width, with no value.
fn id_again(pieces: &mut Pieces, random: &mut Random) {
    let Some(entries) = pieces.entries(PARAMETERS) else {
        return change_one(pieces, random);
    };
    if !entries.is_empty() {
        let (id, _) = varint::read(&entries[random.below(entries.len())]).expect("well-formed");
        let again = [any_width(id as usize, random), vec![0]].concat();
        let place = random.below(entries.len() + 1);
        entries.insert(place, again);
    }
}

fn change_one(pieces: &mut Pieces, random: &mut Random) {
    if pieces.extensions.is_empty() {
        return change_suites(pieces, random);
    }
    let place = random.below(pieces.extensions.len());
    let Piece { kind, entries } = &mut pieces.extensions[place];
    let most = match *kind {
        VERSIONS => VERSIONS_BYTES,
        _ => LONGEST,
    };
    change(entries, most, random);
}

/// Entries dropped, repeated, exchanged or damaged, within so many bytes.
fn change(entries: &mut Entries, most: usize, random: &mut Random) {
    if entries.is_empty() {
        entries.push(vec![0; random.below(6)]);
    }
    let count = entries.len();
    let place = random.below(count);
    match random.below(6) {
        0 => drop(entries.remove(place)),
        1 => entries.insert(random.below(count + 1), entries[place].clone()),
        2 => entries.swap(place, random.below(count)),
        3 => entries.clear(),
        4 => damage(&mut entries[place], random),
        _ => repeat(entries, random),
    }
    let mut bytes = 0;
    entries.retain(|entry| {
        bytes += entry.len();
        bytes <= most
    });
}

/// The entries again and again, up to about as many as a list may have.
fn repeat(entries: &mut Entries, random: &mut Random) {
    let limit = [16, 64][random.below(2)];
    let count = limit - 2 + random.below(5);
    let all = entries.clone();
    *entries = all.into_iter().cycle().take(count).collect();
}
