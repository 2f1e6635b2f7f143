//! Hellos that document 01 accepts though another reading of it would not: both sides must read them.

use super::build::{block, Extension, Parts};
use super::counts::ids;
use crate::join::LIMIT;
use crate::script::hex;

/// A type and a body of the one extension of a plain hello.
const BODIES: [(u16, &str); 12] = [
    (0x0000, "000400000161"),
    (0x0000, "0004000001ff"),     // a name that is no text
    (0x0010, "0006026833026833"), // a name twice
    (0x000a, "0004001d001d"),     // a group twice
    (0x000d, "000404030403"),
    (0x002b, "0403040304"),
    (0x0033, "0000"),                     // an empty list
    (0x0033, "000a001d0001aa001d0001bb"), // a group twice
    (0x0039, ""),                         // no parameter
    (0x0039, "c00000000000000180000000"), // numbers in longer varints
    (0x0017, "aa"),                       // a body that is not read
    (0x0029, ""),
];

pub(super) fn hellos() -> Vec<Vec<u8>> {
    let plain = |extensions: &[Extension]| Parts::plain(&block(extensions)).hello();
    let with = |(kind, body): (u16, &str)| plain(&[Extension::new(kind, hex(body))]);
    let mut list: Vec<_> = BODIES.into_iter().map(with).collect();
    let empty = |kind| Extension::new(kind, vec![]);
    let longest = LIMIT - plain(&[empty(0x0017)]).len();
    let name = Extension::new(0x0000, hex("000400000161"));
    let long_name = [&hex("0103000100")[..], &[0; 256]].concat();
    list.extend([
        plain(&[]),
        plain(&[Extension::new(0x0017, vec![0; longest])]),
        plain(&[empty(0x0a0a), empty(0x1a1a)]),
        // the two of them are one only for Alike
        plain(&[ids([27, 58])]),
        plain(&[ids([u64::MAX >> 2, 0])]),
        // pre_shared_key need not be the last
        plain(&[empty(0x0029), name]),
        // the number of a type may be that of a group
        plain(&[empty(0x0017), Extension::new(0x000a, hex("00020017"))]),
        plain(&[Extension::new(0x0000, long_name)]),
    ]);
    for session_id in [1, 31, 32] {
        let parts = Parts {
            session_id: vec![9; session_id],
            version: [0, 0],
            compression: vec![1; 255],
            ..Parts::plain(&[])
        };
        list.push(parts.hello());
    }
    list
}
