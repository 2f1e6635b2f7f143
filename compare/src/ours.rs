//! Our calls: those of the C library from its archive, and the rest from the archive of the crate `compare_calls`.

mod archive;
mod library;

pub(crate) use library::{alike, frames, join, make, refusal, report_bytes};

/// A number asked for, or document 01's number of the refusal.
pub(crate) type Told = Result<u64, u64>;

/// Where refusals begin among the numbers of a call that gives a width, a length or a place.
const REFUSED: u64 = 1 << 32;
/// What the splitter gives at the end.
const END: u64 = 1 << 33;
/// The same for a call that gives a varint's value, which may be any number below 2^62.
const VALUE_REFUSED: u64 = 1 << 63;

/// Room for the longest report: names of up to 16,384 bytes in hex, and seven lists of up to 64 numbers.
const REPORT_ROOM: usize = 1 << 16;
/// Room for 64 types.
const SET_ROOM: usize = 1 << 9;

fn told(number: u64, refused: u64) -> Told {
    if number < refused {
        Ok(number)
    } else {
        Err(number - refused)
    }
}

pub(crate) fn varint_size(value: u64) -> Told {
    // SAFETY: the call takes a number and no memory.
    told(unsafe { archive::compare_varint_size(value) }, REFUSED)
}

pub(crate) fn varint_write(value: u64, out: &mut [u8]) -> Told {
    // SAFETY: pointer and length are those of one slice, lent for the call and to nobody else.
    let number = unsafe { archive::compare_varint_write(value, out.as_mut_ptr(), out.len()) };
    told(number, REFUSED)
}

pub(crate) fn varint_value(input: &[u8]) -> Told {
    // SAFETY: pointer and length are those of one slice, which the call reads.
    let number = unsafe { archive::compare_varint_value(input.as_ptr(), input.len()) };
    told(number, VALUE_REFUSED)
}

pub(crate) fn varint_width(input: &[u8]) -> Told {
    // SAFETY: pointer and length are those of one slice, which the call reads.
    let number = unsafe { archive::compare_varint_width(input.as_ptr(), input.len()) };
    told(number, REFUSED)
}

/// The sum, wrapping, of the varints that stand one after another in `input`, up to its end or the first refusal.
pub(crate) fn varint_sum(input: &[u8]) -> u64 {
    // SAFETY: pointer and length are those of one slice, which the call reads.
    unsafe { archive::compare_varint_sum(input.as_ptr(), input.len()) }
}

/// How many bytes of the tape are drawn for the hello that `make` makes.
pub(crate) fn drawn(browser: u64, name: &[u8], scid: &[u8], tape: &[u8], out: &mut [u8]) -> Told {
    // SAFETY: each pointer and length are those of one slice; the call reads three, and the last is lent to nobody else.
    let number = unsafe {
        archive::compare_drawn(
            browser,
            name.as_ptr(),
            name.len(),
            scid.as_ptr(),
            scid.len(),
            tape.as_ptr(),
            tape.len(),
            out.as_mut_ptr(),
            out.len(),
        )
    };
    told(number, REFUSED)
}

/// The report as the script's command `report` shows it.
pub(crate) fn report(hello: &[u8]) -> Result<String, u64> {
    text_by(archive::compare_report, hello, REPORT_ROOM)
}

/// The types in rising order as the script's command `set` shows them.
pub(crate) fn extension_set(hello: &[u8]) -> String {
    text_by(archive::compare_set, hello, SET_ROOM).expect("a set is never refused")
}

fn text_by(call: archive::Text, hello: &[u8], room: usize) -> Result<String, u64> {
    let mut out = vec![0; room];
    // SAFETY: each pointer and length are those of one slice; the call reads the first, and the other is lent to nobody else.
    let number = unsafe { call(hello.as_ptr(), hello.len(), out.as_mut_ptr(), out.len()) };
    let length = told(number, REFUSED)?;
    Ok(String::from_utf8_lossy(&out[..length as usize]).into_owned())
}

/// The number at which the reader stops, and the place; `None` where the hello is accepted.
pub(crate) fn stopped(hello: &[u8]) -> Option<(u64, u64)> {
    // SAFETY: pointer and length are those of one slice, which the call reads.
    let coded = unsafe { archive::compare_stopped(hello.as_ptr(), hello.len()) };
    (coded != 0).then_some((coded / REFUSED, coded % REFUSED))
}

/// The sum of one place of each list of the report, which is built whole: something to time.
pub(crate) fn picked(hello: &[u8], place: usize) -> u64 {
    // SAFETY: pointer and length are those of one slice, which the call reads.
    unsafe { archive::compare_picked(hello.as_ptr(), hello.len(), place) }
}

/// The place after the record that stands at a place of a blob; `None` at the end.
pub(crate) fn next_record(blob: &[u8], place: usize) -> Result<Option<u64>, u64> {
    // SAFETY: pointer and length are those of one slice, which the call reads.
    match unsafe { archive::compare_next(blob.as_ptr(), blob.len(), place) } {
        END => Ok(None),
        number => told(number, REFUSED).map(Some),
    }
}

/// The part of the blob that the splitter hands back.
pub(crate) fn split_records(blob: &[u8], place: usize) -> Vec<u8> {
    let mut out = vec![0; blob.len()];
    // SAFETY: each pointer and length are those of one slice; the call reads the first, and the other is lent to nobody else.
    let number = unsafe {
        archive::compare_record(
            blob.as_ptr(),
            blob.len(),
            place,
            out.as_mut_ptr(),
            out.len(),
        )
    };
    let length = told(number, REFUSED).expect("no part is longer than its blob");
    out.truncate(length as usize);
    out
}
