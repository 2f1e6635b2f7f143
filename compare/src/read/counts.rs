//! Hellos with so many of one thing, up to the most that document 01 allows and past it.

use super::build::{block, numbers, sized, Extension, Parts};
use crate::noise::quic::varint;

const COUNTS: [u16; 11] = [1, 2, 15, 16, 17, 18, 63, 64, 65, 66, 127];
/// A type that is not read; those after it are none of the read ones either.
pub(crate) const UNREAD: u16 = 0x5000;

/// Each count of suites, groups, algorithms, versions, names, key shares, ids and extensions. 127 versions are the most that
/// the length can say.
pub(crate) fn hellos() -> Vec<Vec<u8>> {
    let mut list = Vec::new();
    for count in COUNTS {
        list.push(suites(count).hello());
        for extension in [
            Extension::new(0x000a, sixteen_bits(2, count)),
            Extension::new(0x000d, sixteen_bits(2, count)),
            Extension::new(0x002b, sixteen_bits(1, count)),
            names(count),
            key_shares(count),
            ids(0..u64::from(count)),
        ] {
            list.push(Parts::plain(&extension.bytes()).hello());
            // one extension before it and one after it
            let [first, last] = [1, 2].map(|kind| Extension::new(UNREAD + kind, Vec::new()));
            list.push(Parts::plain(&block(&[first, extension, last])).hello());
        }
        list.push(Parts::plain(&block(&extensions(count))).hello());
    }
    list
}

pub(crate) fn suites(count: u16) -> Parts {
    Parts {
        suites: numbers(run(count)),
        ..Parts::plain(&[])
    }
}

/// The numbers that stand in a list of so many.
pub(super) fn run(count: u16) -> std::ops::Range<u16> {
    0x1300..0x1300 + count
}

/// A body that is a list of so many numbers, with its length of `width` bytes.
pub(crate) fn sixteen_bits(width: usize, count: u16) -> Vec<u8> {
    sized(width, &numbers(run(count)))
}

/// ALPN with so many names.
pub(crate) fn names(count: u16) -> Extension {
    let name = sized(1, b"x");
    Extension::new(0x0010, sized(2, &name.repeat(usize::from(count))))
}

/// Keys of one byte.
pub(crate) fn key_shares(count: u16) -> Extension {
    let share = |group: u16| [&group.to_be_bytes()[..], &sized(2, b"k")].concat();
    let shares: Vec<u8> = run(count).flat_map(share).collect();
    Extension::new(0x0033, sized(2, &shares))
}

/// Parameters without values.
pub(crate) fn ids(ids: impl IntoIterator<Item = u64>) -> Extension {
    let mut body = Vec::new();
    for id in ids {
        varint::write(&mut body, id);
        varint::write(&mut body, 0);
    }
    Extension::new(0x0039, body)
}

/// So many extensions without bodies.
pub(crate) fn extensions(count: u16) -> Vec<Extension> {
    let kinds = UNREAD..UNREAD + count;
    kinds.map(|kind| Extension::new(kind, Vec::new())).collect()
}
