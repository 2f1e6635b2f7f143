//! Changes of suites, groups, key shares, algorithms and versions, which are compared in order.

use super::{change_byte, place};
use crate::alike::pieces::{Entries, Pieces};
use crate::random::Random;

/// The type of the key shares, and what follows the group in one of them: a key of one byte.
const KEY_SHARES: u16 = 0x0033;
const KEY: [u8; 3] = [0, 1, 0x6b];

/// One of the five lists, and what an entry has after its number.
fn any<'a>(hello: &'a mut Pieces, random: &mut Random) -> Option<(&'a mut Entries, &'static [u8])> {
    match random.below(5) {
        0 => Some((&mut hello.suites, &[])),
        1 => Some((hello.entries(0x000a)?, &[])),
        2 => Some((hello.entries(0x000d)?, &[])),
        3 => Some((hello.entries(0x002b)?, &[])),
        _ => Some((hello.entries(KEY_SHARES)?, &KEY)),
    }
}

pub(super) fn one_changed(hello: &mut Pieces, random: &mut Random) -> Option<()> {
    let (entries, _) = any(hello, random)?;
    let place = place(entries.len(), random)?;
    change_byte(&mut entries[place][..2], random)
}

/// Two different numbers.
pub(super) fn two_swapped(hello: &mut Pieces, random: &mut Random) -> Option<()> {
    let (entries, _) = any(hello, random)?;
    let count = entries.len();
    let (a, b) = (place(count, random)?, place(count, random)?);
    entries.swap(a, b);
    (entries[a][..2] != entries[b][..2]).then_some(())
}

/// One more at the end, half of them 0000.
pub(super) fn one_added(hello: &mut Pieces, random: &mut Random) -> Option<()> {
    let (entries, after) = any(hello, random)?;
    let number = random.below(2) as u16 * random.next() as u16;
    entries.push([&number.to_be_bytes()[..], after].concat());
    Some(())
}

/// The key of a share: other bytes, and another count of them.
pub(super) fn key(hello: &mut Pieces, random: &mut Random) -> Option<()> {
    let shares = hello.entries(KEY_SHARES)?;
    let place = place(shares.len(), random)?;
    let length = 1 + random.below(100);
    let key = [&[0, length as u8], &random.bytes(length)[..]].concat();
    let changes = shares[place][2..] != key[..];
    shares[place].splice(2.., key);
    changes.then_some(())
}
