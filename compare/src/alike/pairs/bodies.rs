//! Pairs of plain hellos with one or two extensions.

use super::Pair;
use crate::read::build::{Extension, Parts};
use crate::script::hex;

/// A type, and the bodies that the two hellos have for it.
const BODIES: [(bool, u16, &str, &str); 42] = [
    // names by their bytes
    (true, 0x0000, "000400000161", "000400000161"),
    (false, 0x0000, "000400000161", "000400000162"),
    (false, 0x0000, "000400000161", "000400000141"),
    (false, 0x0000, "0004000001ff", "0004000001fe"), // both are the same lossy text
    (false, 0x0000, "000400000161", "00050000026161"),
    (false, 0x0000, "000400000161", "00050000026100"),
    (
        false,
        0x0000,
        "000e00000b6578616d706c652e636f6d",
        "000e00000b4578616d706c652e636f6d",
    ),
    // lists by their entries, in order, and by their count: 0000 is an entry
    (false, 0x000a, "0002001d", "00020017"),
    (false, 0x000a, "0004001d0017", "00040017001d"),
    (false, 0x000a, "0002001d", "0004001d0000"),
    (false, 0x000a, "0002001d", "0004001d001d"),
    (false, 0x000a, "00020a0a", "00021a1a"),
    (false, 0x000d, "00020403", "00020804"),
    (false, 0x000d, "000404030804", "000408040403"),
    (false, 0x000d, "00020403", "000404030000"),
    (false, 0x000d, "00020403", "000404030403"),
    (false, 0x002b, "020304", "020303"),
    (false, 0x002b, "0403040303", "0403030304"),
    (false, 0x002b, "020304", "0403040000"),
    (false, 0x002b, "020304", "0403040304"),
    // key shares by their groups
    (false, 0x0033, "0005001d0001aa", "000500170001aa"),
    (true, 0x0033, "0005001d0001aa", "0005001d0001bb"),
    (true, 0x0033, "0005001d0001aa", "0006001d0002bbbb"),
    (
        false,
        0x0033,
        "000a001d0001aa00170001aa",
        "000a00170001aa001d0001aa",
    ),
    (
        true,
        0x0033,
        "000a001d0001aa001d0001bb",
        "000a001d0001bb001d0001aa",
    ),
    (false, 0x0033, "0005001d0001aa", "000a001d0001aa00000001aa"),
    (false, 0x0033, "0005001d0001aa", "0000"),
    (false, 0x0033, "0000", "000500000001aa"),
    // ALPN by its names: h3 and h2; the two joined; the other order; again; one byte 00 more; H3
    (false, 0x0010, "0003026833", "0003026832"),
    (false, 0x0010, "0006026833026832", "00050468336832"),
    (false, 0x0010, "0006026833026832", "0006026832026833"),
    (false, 0x0010, "0003026833", "0006026833026833"),
    (false, 0x0010, "0003026833", "00050268330100"),
    (false, 0x0010, "0003026833", "0003024833"),
    (false, 0x0010, "000201ff", "000201fe"),
    (false, 0x0010, "00050161026263", "00050261620163"), // a, bc and ab, c
    // parameters by their ids: not by values, widths and order
    (true, 0x0039, "0100", "0101ff"),
    (true, 0x0039, "0100", "400101ff"),
    (true, 0x0039, "01000200", "0201ff0100"),
    (false, 0x0039, "", "0000"),
    // bodies that are not read
    (true, 0x0017, "", "aa"),
    (true, 0x0017, "aa", "bb"),
];

/// The two blocks.
const BLOCKS: [(bool, &str, &str); 13] = [
    // types: order put aside, GREASE of TLS as it is
    (true, "0017000000230000", "0023000000170000"),
    (false, "0017000000230000", "00170000"),
    (false, "00170000", ""),
    (false, "00170000", "00230000"),
    (false, "0a0a0000", "1a1a0000"),
    // a name or none
    (false, "00000006000400000161", ""),
    // names at other places
    (
        true,
        "0000000600040000016100170000",
        "0017000000000006000400000161",
    ),
    (
        false,
        "0000000600040000016100170000",
        "0017000000000006000400000162",
    ),
    (
        true,
        "00100005000302683300170000",
        "00170000001000050003026833",
    ),
    // what the one has in one list and the other in another: groups and types, groups and key shares, groups and algorithms,
    // name and ALPN
    (
        false,
        "00170000000a00040002001d",
        "001d0000000a000400020017",
    ),
    (
        false,
        "000a00040002001d0033000700050017000161",
        "000a000400020017003300070005001d000161",
    ),
    (
        false,
        "000a000400020403000d00040002001d",
        "000a00040002001d000d000400020403",
    ),
    (
        false,
        "000000060004000001610010000400020162",
        "000000060004000001620010000400020161",
    ),
];

pub(super) fn bodies() -> Vec<Pair> {
    let of_bodies = |(alike, kind, one, other): (bool, u16, &str, &str)| {
        let [one, other] = [one, other].map(|body| [Extension::new(kind, hex(body))]);
        Pair::of(alike, &one, &other)
    };
    let of_blocks = |(alike, one, other): (bool, &str, &str)| {
        let [one, other] = [one, other].map(|block| Parts::plain(&hex(block)));
        Pair::of_parts(alike, &one, &other)
    };
    let bodies = BODIES.into_iter().map(of_bodies);
    bodies.chain(BLOCKS.into_iter().map(of_blocks)).collect()
}
