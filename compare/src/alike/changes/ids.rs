//! Changes of the transport parameters, of which the ids count, with order put aside. An id that is 27 mod 31 is reserved for
//! GREASE (RFC 9000, section 18.1).

use super::place;
use crate::alike::pieces::{Entries, Pieces};
use crate::join::any_width;
use crate::noise::quic::varint;
use crate::random::Random;

const PARAMETERS: u16 = 0x0039;
/// Ids are below this.
const IDS_END: u64 = 1 << 62;
/// A list of up to so many ids gets some that are reserved, and stays within 64 of them.
const FEW: usize = 60;
/// Values are shorter than this, so that a hello whose values are all drawn again stays within its limit.
const SHORT: usize = 40;

/// A hello to change something of. Half of those with parameters get one or two reserved ids, which chance alone seldom gives.
pub(crate) fn with_reserved_ids(hello: &[u8], random: &mut Random) -> Pieces {
    let mut hello = Pieces::of(hello);
    if let Some(entries) = hello.entries(PARAMETERS) {
        if entries.len() <= FEW && random.below(2) == 0 {
            for _ in 0..1 + random.below(2) {
                insert(entries, reserved(random), random);
            }
        }
    }
    hello
}

pub(super) fn shuffled(hello: &mut Pieces, random: &mut Random) -> Option<()> {
    let entries = hello.entries(PARAMETERS)?;
    random.shuffle(entries);
    (1 < entries.len()).then_some(())
}

/// All values, and the widths of ids and lengths.
pub(super) fn other_values(hello: &mut Pieces, random: &mut Random) -> Option<()> {
    let entries = hello.entries(PARAMETERS)?;
    for entry in entries.iter_mut() {
        *entry = parameter(id(entry), random);
    }
    (!entries.is_empty()).then_some(())
}

/// A reserved id for another.
pub(super) fn other_reserved(hello: &mut Pieces, random: &mut Random) -> Option<()> {
    replace(hello, random, true, |_, random| reserved(random))
}

/// A reserved id where there is one: as 27 it stands twice then.
pub(super) fn one_reserved_more(hello: &mut Pieces, random: &mut Random) -> Option<()> {
    let entries = hello.entries(PARAMETERS)?;
    let there = entries.iter().any(|entry| is_reserved(id(entry)));
    let new = insert(entries, reserved(random), random);
    (there && new).then_some(())
}

/// A reserved id for one that is not.
pub(super) fn one_now_reserved(hello: &mut Pieces, random: &mut Random) -> Option<()> {
    replace(hello, random, false, |_, random| reserved(random))
}

/// An id that is not reserved for one with the same remainder.
pub(super) fn moved_by_31(hello: &mut Pieces, random: &mut Random) -> Option<()> {
    replace(hello, random, false, |id, random| {
        id + 31 * (1 + random.below(4) as u64)
    })
}

/// An id that is not reserved for another that is not.
pub(super) fn one_changed(hello: &mut Pieces, random: &mut Random) -> Option<()> {
    replace(hello, random, false, |_, random| plain(random))
}

pub(super) fn one_dropped(hello: &mut Pieces, random: &mut Random) -> Option<()> {
    let entries = hello.entries(PARAMETERS)?;
    entries.remove(place(entries.len(), random)?);
    Some(())
}

pub(super) fn one_added(hello: &mut Pieces, random: &mut Random) -> Option<()> {
    let entries = hello.entries(PARAMETERS)?;
    insert(entries, plain(random), random).then_some(())
}

/// Another id for one that is reserved, or that is not. The value stays.
fn replace(
    hello: &mut Pieces,
    random: &mut Random,
    if_reserved: bool,
    other: fn(u64, &mut Random) -> u64,
) -> Option<()> {
    let entries = hello.entries(PARAMETERS)?;
    let place = place(entries.len(), random)?;
    let (old, width) = varint::read(&entries[place]).expect("well-formed");
    let new = other(old, random);
    if is_reserved(old) != if_reserved || IDS_END <= new || has(entries, new) {
        return None;
    }
    let after = &entries[place][width..];
    entries[place] = [&any_width(new as usize, random), after].concat();
    Some(())
}

/// A parameter at any place, unless its id is there.
fn insert(entries: &mut Entries, id: u64, random: &mut Random) -> bool {
    let new = !has(entries, id);
    if new {
        let place = random.below(entries.len() + 1);
        entries.insert(place, parameter(id, random));
    }
    new
}

/// A parameter with a random value, its numbers in any width.
fn parameter(id: u64, random: &mut Random) -> Vec<u8> {
    let length = random.below(SHORT);
    let value = random.bytes(length);
    let [id, length] = [id as usize, length].map(|number| any_width(number, random));
    [id, length, value].concat()
}

fn id(entry: &[u8]) -> u64 {
    varint::read(entry).expect("well-formed").0
}

fn has(entries: &Entries, new: u64) -> bool {
    entries.iter().any(|entry| id(entry) == new)
}

fn is_reserved(id: u64) -> bool {
    id % 31 == 27
}

/// A reserved id, low ones as often as high ones.
fn reserved(random: &mut Random) -> u64 {
    27 + 31 * (random.value() >> 7)
}

/// An id that is not reserved.
fn plain(random: &mut Random) -> u64 {
    let id = random.value() >> 2;
    id - u64::from(is_reserved(id))
}
