//! Changes of ALPN and of the name, which are compared by their bytes.

use super::{change_byte, place};
use crate::alike::pieces::Pieces;
use crate::random::Random;
use crate::read::build::sized;

const ALPN: u16 = 0x0010;
const SERVER_NAME: u16 = 0x0000;
/// What stands before the bytes of a name: in ALPN its length, in server_name its type and its length.
const BEFORE_PROTOCOL: usize = 1;
const BEFORE_NAME: usize = 3;
/// The longest name that ALPN holds.
const LONGEST: usize = 255;

pub(super) fn protocol_changed(hello: &mut Pieces, random: &mut Random) -> Option<()> {
    let names = hello.entries(ALPN)?;
    let place = place(names.len(), random)?;
    change_byte(&mut names[place][BEFORE_PROTOCOL..], random)
}

/// Two different ones.
pub(super) fn protocols_swapped(hello: &mut Pieces, random: &mut Random) -> Option<()> {
    let names = hello.entries(ALPN)?;
    let (a, b) = (place(names.len(), random)?, place(names.len(), random)?);
    names.swap(a, b);
    (names[a] != names[b]).then_some(())
}

/// Two neighbours as one name, where it is not too long.
pub(super) fn protocols_joined(hello: &mut Pieces, random: &mut Random) -> Option<()> {
    let names = hello.entries(ALPN)?;
    let first = place(names.len().checked_sub(1)?, random)?;
    let second = names.remove(first + 1);
    let joined = [&names[first], &second].map(|name| &name[BEFORE_PROTOCOL..]);
    let joined = joined.concat();
    if LONGEST < joined.len() {
        return None;
    }
    names[first] = sized(1, &joined);
    Some(())
}

pub(super) fn protocol_added(hello: &mut Pieces, _: &mut Random) -> Option<()> {
    hello.entries(ALPN)?.push(sized(1, b"x"));
    Some(())
}

pub(super) fn name_changed(hello: &mut Pieces, random: &mut Random) -> Option<()> {
    change_byte(&mut name(hello)?[BEFORE_NAME..], random)
}

pub(super) fn name_in_other_case(hello: &mut Pieces, random: &mut Random) -> Option<()> {
    let bytes = &mut name(hello)?[BEFORE_NAME..];
    let is_letter = |place: &usize| bytes[*place].is_ascii_alphabetic();
    let letters: Vec<usize> = (0..bytes.len()).filter(is_letter).collect();
    bytes[letters[place(letters.len(), random)?]] ^= 0x20;
    Some(())
}

/// By a byte at its end.
pub(super) fn name_longer(hello: &mut Pieces, random: &mut Random) -> Option<()> {
    let name = name(hello)?;
    let longer = [&name[BEFORE_NAME..], &random.bytes(1)].concat();
    *name = [&[0], &sized(2, &longer)[..]].concat();
    Some(())
}

fn name(hello: &mut Pieces) -> Option<&mut Vec<u8>> {
    hello.entries(SERVER_NAME)?.first_mut()
}
