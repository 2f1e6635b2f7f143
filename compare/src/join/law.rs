//! Document 01's joiner ("Joining frames", and questions 10 to 15), written from its text alone and byte by byte, so that
//! lists with overlap, with gaps and with damage have a known answer too.

use super::LIMIT;
use crate::ours::Told;

const PADDING: u8 = 0x00;
const PING: u8 = 0x01;
const CRYPTO: u8 = 0x06;

/// The end of the stream or the number of the first question that is answered "no", and each byte of output and marks.
pub(crate) fn join(frames: &[u8], out: &mut [u8], marks: &mut [u8]) -> Told {
    if out.len() < LIMIT || marks.len() < LIMIT {
        return Err(10);
    }
    out.fill(0);
    marks.fill(0);
    let end = place_all(frames, out, marks);
    if end.is_err() {
        out.fill(0);
        marks.fill(0);
    }
    end
}

/// Whether the frames of a list that is joined give no place more than one byte: the original joins such a list too.
pub(crate) fn is_without_overlap(frames: &[u8], end: u64) -> bool {
    let mut rest = frames;
    let mut sent = 0;
    while let Ok(Some(frame)) = next(&mut rest) {
        sent += frame.data.len() as u64;
    }
    sent == end
}

struct Frame<'a> {
    offset: u64,
    data: &'a [u8],
}

fn place_all(frames: &[u8], out: &mut [u8], marks: &mut [u8]) -> Told {
    let mut rest = frames;
    let mut end = 0;
    while let Some(frame) = next(&mut rest)? {
        let last = frame.offset.saturating_add(frame.data.len() as u64);
        if (LIMIT as u64) < last {
            return Err(13);
        }
        place(&frame, out, marks)?;
        end = end.max(last);
    }
    match marks[..end as usize].contains(&0) {
        true => Err(15),
        false => Ok(end),
    }
}

/// "Do its bytes agree with those already placed?"
fn place(frame: &Frame, out: &mut [u8], marks: &mut [u8]) -> Result<(), u64> {
    for (place, byte) in (frame.offset as usize..).zip(frame.data) {
        if marks[place] == 1 && out[place] != *byte {
            return Err(14);
        }
        out[place] = *byte;
        marks[place] = 1;
    }
    Ok(())
}

/// The next CRYPTO frame; `None` at the end of the list.
fn next<'a>(rest: &mut &'a [u8]) -> Result<Option<Frame<'a>>, u64> {
    while let Some((kind, after)) = rest.split_first() {
        *rest = after;
        match *kind {
            PADDING | PING => {}
            CRYPTO => return frame(rest).map(Some).ok_or(12),
            _ => return Err(11),
        }
    }
    Ok(None)
}

/// "varint offset, varint length, data"; `None` where the list ends before that.
fn frame<'a>(rest: &mut &'a [u8]) -> Option<Frame<'a>> {
    let offset = varint(rest)?;
    let length = usize::try_from(varint(rest)?).ok()?;
    let data = part(rest, length)?;
    Some(Frame { offset, data })
}

/// "The top two bits of the first byte give 1, 2, 4 or 8 bytes; the rest is the value, highest byte first."
fn varint(rest: &mut &[u8]) -> Option<u64> {
    let width = 1 << (rest.first()? >> 6);
    let bytes = part(rest, width)?;
    let number = |before, byte: &u8| before << 8 | u64::from(*byte);
    let first = u64::from(bytes[0] & 0x3f);
    Some(bytes[1..].iter().fold(first, number))
}

fn part<'a>(rest: &mut &'a [u8], length: usize) -> Option<&'a [u8]> {
    if rest.len() < length {
        return None;
    }
    let (part, after) = rest.split_at(length);
    *rest = after;
    Some(part)
}
