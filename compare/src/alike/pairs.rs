//! Pairs of hellos by which one reading of Alike is told from another, each with the smallest input and its verdict. Ours is
//! held to the list, and so is the driver's answer, which all other pairs have theirs from.

mod bodies;
mod full;

use super::question::{Question, Verdict};
use crate::join::LIMIT;
use crate::read::build::{block, numbers, Extension, Parts};
use crate::read::counts::ids;
use crate::script::hex;
use crate::sides::Ask;
use crate::tally::Tally;
use bodies::bodies;
use full::full;

struct Pair {
    alike: bool,
    hellos: [Vec<u8>; 2],
}

impl Pair {
    fn new(alike: bool, one: &[u8], other: &[u8]) -> Self {
        let hellos = [one, other].map(<[u8]>::to_vec);
        Pair { alike, hellos }
    }

    fn of_parts(alike: bool, one: &Parts, other: &Parts) -> Self {
        Pair::new(alike, &one.hello(), &other.hello())
    }

    /// Two plain hellos with these extensions.
    fn of(alike: bool, one: &[Extension], other: &[Extension]) -> Self {
        let [one, other] = [one, other].map(|extensions| Parts::plain(&block(extensions)));
        Pair::of_parts(alike, &one, &other)
    }
}

pub(super) fn check(tally: &mut Tally) {
    for list in [refused(), reserved(), heads(), bodies(), full(), longest()] {
        for Pair { alike, hellos } in list {
            let [a, b] = hellos;
            let question = Question { a, b };
            check_one(tally, &question, &Verdict(alike));
            check_one(tally, &question.turned(), &Verdict(alike));
        }
    }
}

fn check_one(tally: &mut Tally, question: &Question, known: &Verdict) {
    tally.expect(question, "ours", known, &question.by_ours());
    tally.expect(question, "the driver", known, &question.by_rust());
}

/// "both are accepted": a refused hello is alike to nothing, not even to itself.
fn refused() -> Vec<Pair> {
    let plain = Parts::plain(&[]).hello();
    let half_a_header = Parts::plain(&[0]).hello();
    let longer = [&plain[..], &[0]].concat();
    vec![
        Pair::new(true, &plain, &plain),
        Pair::new(false, &[], &[]),
        Pair::new(false, &plain, &[]),
        Pair::new(false, &half_a_header, &half_a_header),
        Pair::new(false, &plain, &half_a_header),
        Pair::new(false, &longer, &longer),
        Pair::new(false, &plain, &longer),
    ]
}

/// Firefox's id that counts as 27, the maker's GREASE id of a zero draw, and the largest id that counts so.
const FIREFOX: u64 = 0xff02_de1a;
const ZERO_DRAW: u64 = (1 << 61) + 25;
const LARGEST: u64 = (1 << 62) - 8;

/// "repeats counted, each id that is 27 mod 31 counting as 27"
const IDS: [(bool, &[u64], &[u64]); 20] = [
    (true, &[27], &[58]),
    (false, &[27, 58], &[27]),
    (false, &[27], &[]),
    (true, &[FIREFOX], &[ZERO_DRAW]),
    (true, &[27], &[FIREFOX]),
    (true, &[27], &[LARGEST]),
    (true, &[27, 58], &[FIREFOX, ZERO_DRAW]),
    (true, &[27, 58], &[58, 27]),
    (false, &[27, 58], &[27, 1]),
    (false, &[27, 58, 1], &[27, 1, 2]),
    (true, &[27, 1, 58], &[58, 89, 1]),
    // two of another remainder stay two
    (false, &[5], &[36]),
    (false, &[0], &[31]),
    (false, &[26], &[57]),
    (false, &[28], &[59]),
    (false, &[27], &[28]),
    // order put aside
    (true, &[1, 2, 3], &[3, 1, 2]),
    (false, &[1, 2], &[1, 3]),
    // an id 0, which places past the count hold too
    (false, &[1], &[1, 0]),
    (false, &[0], &[]),
];

fn reserved() -> Vec<Pair> {
    let with = |list: &[u64]| [ids(list.iter().copied())];
    IDS.map(|(alike, one, other)| Pair::of(alike, &with(one), &with(other)))
        .into()
}

/// Of what stands before the extensions the suites count and the length of the session id.
fn heads() -> Vec<Pair> {
    let plain = Parts::plain(&[]);
    let other = Parts {
        version: [0, 0],
        random: vec![9; 32],
        compression: hex("0102"),
        ..plain.clone()
    };
    let session_id = |bytes: &str| Parts {
        session_id: hex(bytes),
        ..plain.clone()
    };
    let suites = |list: &[u16]| Parts {
        suites: numbers(list.iter().copied()),
        ..plain.clone()
    };
    let two = suites(&[0x1301, 0x1302]);
    vec![
        Pair::of_parts(true, &plain, &other),
        Pair::of_parts(true, &session_id("aa"), &session_id("bb")),
        Pair::of_parts(false, &session_id("aa"), &session_id("aaaa")),
        Pair::of_parts(false, &session_id("aa"), &plain),
        Pair::of_parts(false, &plain, &suites(&[0x1302])),
        Pair::of_parts(false, &two, &suites(&[0x1302, 0x1301])),
        Pair::of_parts(false, &plain, &two),
        Pair::of_parts(false, &plain, &suites(&[0x1301, 0x0000])),
        // GREASE of TLS stays as it is
        Pair::of_parts(false, &suites(&[0x0a0a]), &suites(&[0x1a1a])),
    ]
}

/// The longest hello that is accepted, and one byte more.
fn longest() -> Vec<Pair> {
    let filled = |length: usize, byte: u8| {
        let rest = length - Parts::plain(&[0; 4]).hello().len();
        Parts::plain(&Extension::new(0x0017, vec![byte; rest]).bytes()).hello()
    };
    let [zeros, ones] = [0x00, 0xff].map(|byte| filled(LIMIT, byte));
    let longer = filled(LIMIT + 1, 0x00);
    vec![
        Pair::new(true, &zeros, &ones),
        Pair::new(false, &longer, &longer),
        Pair::new(false, &zeros, &longer),
    ]
}
