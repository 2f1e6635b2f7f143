//! Pairs with as many of each thing as document 01 allows, of which the last is another.

use super::Pair;
use crate::read::build::Extension;
use crate::read::counts::{extensions, ids, key_shares, names, sixteen_bits, suites};

/// The most entries of a list, and of ALPN.
const ENTRIES: u16 = 64;
const NAMES: u16 = 16;

pub(super) fn full() -> Vec<Pair> {
    let mut list = full_lists();
    list.extend(full_suites());
    list.extend(full_but_for_order());
    list
}

/// Groups, algorithms, versions, names and key shares, and how far from the body's end the last number or name ends. A key
/// share has the key's length and a key of one byte after its group.
fn full_lists() -> Vec<Pair> {
    let bodies = [
        (Extension::new(0x000a, sixteen_bits(2, ENTRIES)), 1),
        (Extension::new(0x000d, sixteen_bits(2, ENTRIES)), 1),
        (Extension::new(0x002b, sixteen_bits(1, ENTRIES)), 1),
        (names(NAMES), 1),
        (key_shares(ENTRIES), 4),
    ];
    let mut list = Vec::new();
    for (extension, from_end) in bodies {
        let mut other = extension.clone();
        let place = other.body.len() - from_end;
        other.body[place] ^= 1;
        let (one, other) = ([extension], [other]);
        list.push(Pair::of(true, &one, &one));
        list.push(Pair::of(false, &one, &other));
    }
    list
}

fn full_suites() -> [Pair; 2] {
    let one = suites(ENTRIES);
    let mut other = one.clone();
    *other.suites.last_mut().expect("a suite") ^= 1;
    [
        Pair::of_parts(true, &one, &one),
        Pair::of_parts(false, &one, &other),
    ]
}

/// Ids and types: the other way round, and with another at the end. Two of the ids count as 27.
fn full_but_for_order() -> [Pair; 4] {
    let most = u64::from(ENTRIES);
    let one = [ids(0..most)];
    let back = [ids((0..most).rev())];
    let other = [ids((0..most - 1).chain([most]))];
    let types = extensions(ENTRIES);
    let back_types: Vec<_> = types.iter().rev().cloned().collect();
    let mut other_types = types.clone();
    other_types[usize::from(ENTRIES) - 1].kind += 1;
    [
        Pair::of(true, &one, &back),
        Pair::of(false, &one, &other),
        Pair::of(true, &types, &back_types),
        Pair::of(false, &types, &other_types),
    ]
}
