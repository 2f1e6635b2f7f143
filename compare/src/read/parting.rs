//! Where document 01 refuses a hello: what ours must answer, and what the original does, each with its smallest input.
//! The driver's own reader is held to the list too, since the damaged hellos have their answers from it.

use super::build::{sized, Extension, Parts};
use super::counts::suites;
use super::many::many;
use super::question::{refused, Question};
use super::report::Numbers;
use super::seen::Seen;
use super::stopped::Stops;
use crate::join::LIMIT;
use crate::script::hex;
use crate::tally::Tally;

pub(super) struct Parting {
    hello: Vec<u8>,
    number: u64,
    /// What the original reads, as `Seen` shows it.
    rust: String,
}

/// What the original reads in a hello of `Parts::plain`, but for its extensions.
pub(super) const PLAIN: &str = "session 0 suites 1301";
pub(super) const PANIC: &str = "a panic";

impl Parting {
    pub(super) fn new(number: u64, hello: Vec<u8>, rust: impl ToString) -> Self {
        let rust = rust.to_string();
        Parting {
            hello,
            number,
            rust,
        }
    }

    /// A plain hello with a block; what the original reads in it, or `None` for a panic.
    pub(super) fn of_block(number: u64, block: &[u8], rust: Option<&str>) -> Self {
        let rust = rust.map_or(PANIC.to_string(), |read| format!("{PLAIN}{read}"));
        Parting::new(number, Parts::plain(block).hello(), rust)
    }
}

pub(super) fn check(tally: &mut Tally, stops: &mut Stops) {
    for list in [ends(), fields(), many_suites(), blocks(), bodies(), many()] {
        for Parting {
            hello,
            number,
            rust,
        } in list
        {
            stops.check(tally, &hello);
            let question = Question::new(&hello);
            let known = refused(number);
            tally.expect(&question, "ours", &known, &question.texts_by_ours());
            tally.expect(
                &question,
                "the driver's reader",
                &known,
                &question.texts_by_law(),
            );
            tally.expect(&question, "Rust", &rust, &Seen::by_rust(&hello).to_string());
        }
    }
}

/// Type and length.
fn ends() -> Vec<Parting> {
    let plain = Parts::plain(&[]).hello();
    let long = vec![0; LIMIT + 1 - plain.len() - 4];
    let longest = Parts::plain(&Extension::new(0x5000, long).bytes()).hello();
    let with = |place: usize, byte: u8| {
        let mut hello = plain.clone();
        hello[place] = byte;
        hello
    };
    let off_by_one = {
        let mut hello = with_session_id(33).hello();
        hello[3] += 1;
        hello
    };
    vec![
        Parting::new(16, longest, format!("{PLAIN} types 5000")),
        Parting::new(16, vec![0; LIMIT + 1], PANIC),
        Parting::new(17, vec![0; LIMIT], PANIC),
        Parting::new(17, vec![], PANIC),
        Parting::new(17, with(0, 2), PANIC),
        Parting::new(18, hex("01"), PANIC),
        Parting::new(18, hex("010000"), PANIC),
        Parting::new(18, with(3, plain[3] + 1), PLAIN),
        Parting::new(18, with(3, plain[3] - 1), PLAIN),
        Parting::new(18, with(1, 1), PLAIN),
        Parting::new(18, [&plain[..], &[0]].concat(), PLAIN),
        Parting::new(18, plain[..plain.len() - 1].to_vec(), PANIC),
        // 18 before 19
        Parting::new(18, off_by_one, "session 33 suites 1301"),
        Parting::new(19, hex("01000000"), PANIC),
    ]
}

fn with_session_id(length: usize) -> Parts {
    Parts {
        session_id: vec![7; length],
        ..Parts::plain(&[])
    }
}

/// The fields before the block, and the block's length.
fn fields() -> Vec<Parting> {
    let no_suites = Parts {
        suites: vec![],
        ..Parts::plain(&[])
    };
    let odd_suites = Parts {
        suites: hex("130113"),
        ..Parts::plain(&[])
    };
    let no_compression = Parts {
        compression: vec![],
        ..Parts::plain(&[])
    };
    let mut passing = Parts::plain(&hex("00170002aabb")).hello();
    let length = passing.len() - 7;
    passing[length] = 4;
    vec![
        Parting::new(19, with_session_id(33).hello(), "session 33 suites 1301"),
        Parting::new(19, with_session_id(255).hello(), "session 255 suites 1301"),
        Parting::new(19, no_suites.hello(), "session 0"),
        Parting::new(19, odd_suites.hello(), PLAIN),
        Parting::new(19, no_compression.hello(), PLAIN),
        // no length of the block; nothing in it and a byte after it; a byte missing, and so many that an extension is looked for
        Parting::new(19, with_block_bytes(""), PANIC),
        Parting::new(19, with_block_bytes("000000"), PLAIN),
        Parting::new(19, with_block_bytes("0001"), PLAIN),
        Parting::new(19, with_block_bytes("0004"), PANIC),
        // a body that passes the end of the block
        Parting::new(19, passing, format!("{PLAIN} types 0017")),
    ]
}

/// A plain hello with these bytes for the block and its length.
fn with_block_bytes(text: &str) -> Vec<u8> {
    let plain = Parts::plain(&[]).hello();
    let rest = [&plain[4..plain.len() - 2], &hex(text)].concat();
    [&[1], &sized(3, &rest)[..]].concat()
}

/// The count of the suites is asked after all fields and before the first extension.
fn many_suites() -> Vec<Parting> {
    let read = |count: u16| {
        let list: Vec<u16> = super::counts::run(count).collect();
        format!("session 0 suites{}", Numbers(&list))
    };
    let with = |block: &str| Parts {
        block: hex(block),
        ..suites(65)
    };
    let no_compression = Parts {
        compression: vec![],
        ..suites(65)
    };
    let mut odd = suites(65);
    odd.suites.push(0x13);
    let mut off_by_one = suites(65).hello();
    *off_by_one.last_mut().expect("a byte") += 1;
    vec![
        Parting::new(23, suites(65).hello(), read(65)),
        Parting::new(23, suites(66).hello(), read(66)),
        Parting::new(19, no_compression.hello(), read(65)),
        Parting::new(19, off_by_one, read(65)),
        Parting::new(19, odd.hello(), read(65)),
        Parting::new(23, with("000a0000").hello(), PANIC),
        Parting::new(23, with("00000000").hello(), read(65) + " types 0000"),
        Parting::new(23, with("00").hello(), read(65)),
    ]
}

/// Whole blocks: the number, the block, and what the original reads, or `None` for a panic.
const BLOCKS: [(u64, &str, Option<&str>); 17] = [
    // 1 to 3 bytes after the last extension
    (20, "00", Some("")),
    (20, "0000", Some("")),
    (20, "000000", Some("")),
    (20, "0017000000", Some(" types 0017")),
    // a body that is not there; 20 before 21
    (20, "00170001", None),
    (20, "0017000000170001", None),
    (20, "001700000017", Some(" types 0017")),
    // types again: lists run on, and the last name counts
    (21, "0017000000170000", Some(" types 0017 0017")),
    (21, "5000000050000000", Some(" types 5000 5000")),
    (
        21,
        "000a00040002001d000a000400020017",
        Some(" types 000a 000a groups 001d 0017"),
    ),
    (
        21,
        "0000000600040000016100000006000400000162",
        Some(" types 0000 0000 name \"b\""),
    ),
    // a length that is too long swallows the next extension
    (
        21,
        "000a00080002001d00170000",
        Some(" types 000a groups 001d"),
    ),
    // ids again, by value
    (22, "0039000401000100", Some(" types 0039 ids [1, 1]")),
    (22, "003900050100400100", Some(" types 0039 ids [1, 1]")),
    // extension by extension: before a later 21 and a later 20
    (
        22,
        "003900040100010000000000",
        Some(" types 0039 0000 ids [1, 1]"),
    ),
    (22, "003900040100010000", Some(" types 0039 ids [1, 1]")),
    // 21 before 22
    (21, "003900050100010040", None),
];

fn blocks() -> Vec<Parting> {
    let parting = |(number, block, rust): (u64, &str, Option<&str>)| {
        Parting::of_block(number, &hex(block), rust)
    };
    BLOCKS.map(parting).into()
}

/// Bodies that are not in their form: the type, the body, and what the original reads, or `None` for a panic.
const BODIES: [(u16, &str, Option<&str>); 49] = [
    (0x0000, "", Some("")),
    (0x0000, "0000", Some("")),
    (0x0000, "000100", Some("")),
    (0x0000, "0003000000", Some(" name \"\"")),
    (0x0000, "000401000161", Some("")), // another type of name
    (0x0000, "00080000016100000162", Some(" name \"a\"")), // two entries
    (0x0000, "00050000016100", Some(" name \"a\"")),
    (0x0000, "00040000016100", Some(" name \"a\"")),
    (0x0000, "000500000161", Some(" name \"a\"")),
    (0x0000, "000300000161", Some(" name \"a\"")),
    (0x0000, "000400000061", Some(" name \"\"")),
    (0x0000, "000400000261", None), // a name that is cut
    (0x000a, "", None),
    (0x000a, "00", None),
    (0x000a, "0000", Some("")),
    (0x000a, "000100", Some("")),
    (0x000a, "0003001d00", Some(" groups 001d")),
    (0x000a, "0002001d00", Some(" groups 001d")),
    (0x000a, "0000001d", Some("")),
    (0x000a, "0004001d", None),
    (0x000d, "", None),
    (0x000d, "0000", Some("")),
    (0x000d, "0003040308", Some(" algorithms 0403")),
    (0x000d, "0002040300", Some(" algorithms 0403")),
    (0x0010, "", Some("")),
    (0x0010, "00", Some("")),
    (0x0010, "0000", Some("")),
    (0x0010, "000100", Some(" alpn [\"\"]")),
    (0x0010, "0000026833", Some(" alpn [\"h3\"]")),
    (0x0010, "0004026833", Some(" alpn [\"h3\"]")),
    (0x0010, "000302683300", Some(" alpn [\"h3\", \"\"]")),
    (0x0010, "0003036833", None), // a name that is cut
    (0x002b, "", None),
    (0x002b, "00", Some("")),
    (0x002b, "03030400", Some(" versions 0304")),
    (0x002b, "02030400", Some(" versions 0304")),
    (0x002b, "040304", None),
    (0x0033, "", Some("")),
    (0x0033, "00", Some("")),
    (0x0033, "0003001d00", Some("")),
    (0x0033, "0000001d0020", Some(" shares 001d")), // the list's length unread, and the key missing
    (0x0033, "0004001d0000", Some(" shares 001d")), // an empty key
    (0x0033, "0005001d0002aa", Some(" shares 001d")), // a key that is cut
    (0x0033, "0006001d0001aa", Some(" shares 001d")),
    (0x0033, "0005001d0001aa00", Some(" shares 001d")),
    (0x0039, "40", None),                             // half an id
    (0x0039, "0140", None),                           // half a length
    (0x0039, "0101", Some(" ids [1]")),               // a value that is missing
    (0x0039, "01ffffffffffffffff", Some(" ids [1]")), // the largest length
];

fn bodies() -> Vec<Parting> {
    let parting = |(kind, body, rust): (u16, &str, Option<&str>)| {
        let rust = rust.map(|read| format!(" types {kind:04x}{read}"));
        let extension = Extension::new(kind, hex(body));
        Parting::of_block(21, &extension.bytes(), rust.as_deref())
    };
    BODIES.map(parting).into()
}
