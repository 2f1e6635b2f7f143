//! What is changed of a hello, and whether it stays alike to what it was.

mod ids;
mod lists;
mod names;

use super::pieces::{Piece, Pieces};
use crate::random::Random;
use crate::read::chance::READ;

pub(crate) use ids::with_reserved_ids;

/// Changes one thing of a hello. `None` where the hello has no such thing, or where nothing would change.
pub(crate) type Change = fn(&mut Pieces, &mut Random) -> Option<()>;

/// Each change, and whether the hello stays alike.
pub(crate) const CHANGES: [(bool, Change); 28] = [
    (true, nothing),
    (true, unread_field),
    (true, unread_body),
    (true, extensions_shuffled),
    (true, lists::key),
    (true, ids::shuffled),
    (true, ids::other_values),
    (true, ids::other_reserved),
    (false, session_id_length),
    (false, extension_dropped),
    (false, extension_added),
    (false, other_type),
    (false, lists::one_changed),
    (false, lists::two_swapped),
    (false, lists::one_added),
    (false, names::protocol_changed),
    (false, names::protocols_swapped),
    (false, names::protocols_joined),
    (false, names::protocol_added),
    (false, names::name_changed),
    (false, names::name_in_other_case),
    (false, names::name_longer),
    (false, ids::one_reserved_more),
    (false, ids::one_now_reserved),
    (false, ids::moved_by_31),
    (false, ids::one_changed),
    (false, ids::one_dropped),
    (false, ids::one_added),
];

fn nothing(_: &mut Pieces, _: &mut Random) -> Option<()> {
    Some(())
}

/// Version, random bytes, session id or compression: other bytes, of compression also another count.
fn unread_field(hello: &mut Pieces, random: &mut Random) -> Option<()> {
    let head = &mut hello.head;
    let field = match random.below(4) {
        0 => &mut head.version[..],
        1 => &mut head.random,
        2 => &mut head.session_id,
        _ => {
            let count = 1 + random.below(255);
            head.compression = random.bytes(count);
            return Some(());
        }
    };
    change_byte(field, random)
}

/// The body of an extension that is not read.
fn unread_body(hello: &mut Pieces, random: &mut Random) -> Option<()> {
    let place = place(hello.extensions.len(), random)?;
    let piece = &mut hello.extensions[place];
    let length = random.below(300);
    let other = vec![random.bytes(length)];
    let changes = !READ.contains(&piece.kind) && piece.entries.concat() != other[0];
    piece.entries = other;
    changes.then_some(())
}

fn extensions_shuffled(hello: &mut Pieces, random: &mut Random) -> Option<()> {
    random.shuffle(&mut hello.extensions);
    (1 < hello.extensions.len()).then_some(())
}

fn session_id_length(hello: &mut Pieces, random: &mut Random) -> Option<()> {
    let session_id = &mut hello.head.session_id;
    let other = (session_id.len() + 1 + random.below(32)) % 33;
    session_id.resize(other, 0);
    Some(())
}

fn extension_dropped(hello: &mut Pieces, random: &mut Random) -> Option<()> {
    let place = place(hello.extensions.len(), random)?;
    hello.extensions.remove(place);
    Some(())
}

/// One that is not read, without a body.
fn extension_added(hello: &mut Pieces, random: &mut Random) -> Option<()> {
    let kind = new_type(hello, random)?;
    let place = random.below(hello.extensions.len() + 1);
    let entries = Vec::new();
    hello.extensions.insert(place, Piece { kind, entries });
    Some(())
}

/// The type of an extension that is not read, its body left.
fn other_type(hello: &mut Pieces, random: &mut Random) -> Option<()> {
    let kind = new_type(hello, random)?;
    let place = place(hello.extensions.len(), random)?;
    let piece = &mut hello.extensions[place];
    let changes = !READ.contains(&piece.kind);
    piece.kind = kind;
    changes.then_some(())
}

/// A type that is not read and that the hello does not have.
fn new_type(hello: &Pieces, random: &mut Random) -> Option<u16> {
    let kind = random.next() as u16;
    let there = hello.extensions.iter().any(|piece| piece.kind == kind);
    (!there && !READ.contains(&kind)).then_some(kind)
}

/// A place below a count.
fn place(count: usize, random: &mut Random) -> Option<usize> {
    (0 < count).then(|| random.below(count))
}

fn change_byte(bytes: &mut [u8], random: &mut Random) -> Option<()> {
    let place = place(bytes.len(), random)?;
    bytes[place] ^= 1 + random.below(255) as u8;
    Some(())
}
