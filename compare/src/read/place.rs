//! Where document 01's reader stops, from its text and the driver's own reader (law.rs). The document numbers the questions and
//! gives them no places; the place of a "no" is taken to be where the field, the extension, the list or the entry begins that
//! the question is about. Which entry it is comes from the reader: the longest front of a body that passes ends before it.

use super::build::{big_endian, sized, Extension, Parts};
use super::law;
use crate::join::LIMIT;

/// The most suites and extensions.
const ENTRIES: usize = 64;
const SERVER_NAME: usize = 0x0000;

/// Where a hello is refused, and from where on its bytes do not matter for that.
pub(super) struct Stop {
    pub(super) place: usize,
    pub(super) decided: usize,
}

/// A field: how many bytes its length has, and the lengths that are in form: from, to, in steps of.
type Field = (usize, usize, usize, usize);

/// Version, random bytes, session id, suites and compression. The first two have no length of their own.
const FIELDS: [Field; 5] = [
    (0, 2, 2, 1),
    (0, 32, 32, 1),
    (1, 0, 32, 1),
    (2, 2, usize::MAX, 2),
    (1, 1, usize::MAX, 1),
];

/// The stop in a hello that document 01 refuses with this number.
pub(super) fn stop(hello: &[u8], number: u64) -> Stop {
    let at = |place, decided| Stop { place, decided };
    match number {
        16 => at(LIMIT, 0),
        17 => at(0, 1),
        18 => at(1, 4),
        19 => {
            let first = *starts(hello).last().expect("the version's place");
            at(first, first + 2)
        }
        _ => after_fields(hello),
    }
}

/// Where the fields begin, the block's length the last of them, up to the first that is not in its form.
fn starts(hello: &[u8]) -> Vec<usize> {
    let mut starts = vec![4];
    for field in FIELDS {
        match end(hello, starts[starts.len() - 1], field) {
            Some(end) => starts.push(end),
            None => break,
        }
    }
    starts
}

/// The end of a field that is in its form.
fn end(hello: &[u8], at: usize, (width, from, to, step): Field) -> Option<usize> {
    let length = match width {
        0 => from,
        _ => big_endian(hello.get(at..at + width)?),
    };
    let formed = from <= length && length <= to && length % step == 0;
    let end = at + width + length;
    (formed && end <= hello.len()).then_some(end)
}

/// The 65th suite, or a place in one of the extensions.
fn after_fields(hello: &[u8]) -> Stop {
    let starts = starts(hello);
    let [.., suites, compression, block] = starts[..] else {
        panic!("a field is not in its form");
    };
    let past = suites + 2 + 2 * ENTRIES;
    if past < compression {
        return Stop {
            place: past,
            decided: block + 2,
        };
    }
    extensions(hello, block + 2)
}

fn extensions(hello: &[u8], first: usize) -> Stop {
    let mut kinds = Vec::new();
    let mut at = first;
    loop {
        let Some(end) = end(hello, at + 2, (2, 0, usize::MAX, 1)) else {
            return Stop {
                place: at,
                decided: at + 4,
            };
        };
        let (kind, body) = (big_endian(&hello[at..at + 2]), &hello[at + 4..end]);
        let new = !kinds.contains(&kind);
        kinds.push(kind);
        let asked = if new { asked(kind, body) } else { Ok(()) };
        let place = asked.map_or_else(|number| at + in_body(number, kind, body), |()| at);
        if !new || asked.is_err() || ENTRIES < kinds.len() {
            return Stop {
                place,
                decided: end,
            };
        }
        at = end;
    }
}

/// What the reader says of a body that is the only one.
fn asked(kind: usize, body: &[u8]) -> Result<(), u64> {
    let extension = Extension::new(kind as u16, body.to_vec());
    law::read(&Parts::plain(&extension.bytes()).hello()).map(|_| ())
}

/// The place from the extension's own: an empty body has none, and a list whose length does not reach the end of the body, or
/// that is empty, stops at its length. Of a server name there is one entry.
fn in_body(number: u64, kind: usize, body: &[u8]) -> usize {
    let width = match kind {
        0x0039 => 0,
        0x002b => 1,
        _ => 2,
    };
    let whole = body.len() > width && big_endian(&body[..width]) == body.len() - width;
    match body.len() {
        0 => return 0,
        _ if 0 < width && !whole => return 4,
        _ => {}
    }
    let passes = |end: &usize| {
        let front = match width {
            0 => body[..*end].to_vec(),
            _ => sized(width, &body[width..*end]),
        };
        asked(kind, &front).map_or_else(|other| number < other, |()| true)
    };
    let mut fronts = (width..body.len()).rev();
    let longest = fronts.find(|end| kind != SERVER_NAME && passes(end));
    4 + longest.unwrap_or(width)
}
