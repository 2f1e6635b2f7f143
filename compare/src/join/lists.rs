//! Lists of frames that carry a stream.

use crate::noise::quic::varint;
use crate::random::Random;
use crate::varint::longer;

/// The longest stream of document 01, and the least length of output and marks.
pub(crate) const LIMIT: usize = 16_384;

const PADDING: u8 = 0x00;
const PING: u8 = 0x01;
const CRYPTO: u8 = 0x06;
/// The widest varint, in bytes.
const WIDEST: usize = 8;

/// A CRYPTO frame, its numbers in the shortest width.
pub(crate) fn crypto(offset: usize, data: &[u8]) -> Vec<u8> {
    frame(&shortest(offset), &shortest(data.len()), data)
}

/// The same, each number in any width that holds it.
pub(crate) fn any_frame(offset: usize, data: &[u8], random: &mut Random) -> Vec<u8> {
    let offset = any_width(offset, random);
    let length = any_width(data.len(), random);
    frame(&offset, &length, data)
}

fn frame(offset: &[u8], length: &[u8], data: &[u8]) -> Vec<u8> {
    [&[CRYPTO], offset, length, data].concat()
}

fn shortest(value: usize) -> Vec<u8> {
    let mut bytes = Vec::new();
    varint::write(&mut bytes, value as u64);
    bytes
}

/// A varint in any width that holds the value, the shortest as often as all others.
pub(crate) fn any_width(value: usize, random: &mut Random) -> Vec<u8> {
    let mut bytes = shortest(value);
    while bytes.len() < WIDEST && random.below(2) == 0 {
        bytes = longer(&bytes);
    }
    bytes
}

/// The places where a stream is cut, and its two ends, in order. One list in three has a place twice: an empty frame.
fn cuts(length: usize, random: &mut Random) -> Vec<usize> {
    let count = random.below(1 + length.min(40));
    let mut cuts: Vec<usize> = (0..count).map(|_| random.below(length + 1)).collect();
    cuts.extend([0, length]);
    if random.below(3) == 0 {
        cuts.push(cuts[random.below(cuts.len())]);
    }
    cuts.sort_unstable();
    cuts
}

/// The stream in frames without overlap, in random order, numbers in any width, with PADDING and PING between.
pub(super) fn shuffled(stream: &[u8], random: &mut Random) -> Vec<u8> {
    shuffled_frames(stream, random).concat()
}

/// The same, each frame apart, and each run of PADDING or PING.
pub(crate) fn shuffled_frames(stream: &[u8], random: &mut Random) -> Vec<Vec<u8>> {
    let cuts = cuts(stream.len(), random);
    let parts = cuts.windows(2).map(|ends| (ends[0], ends[1])).collect();
    mixed(stream, parts, random)
}

/// The stream with overlap: frames reach back before their cut, and some are sent twice.
pub(super) fn covering(stream: &[u8], random: &mut Random) -> Vec<u8> {
    covering_frames(stream, random).concat()
}

/// The same, each frame apart, and each run of PADDING or PING.
pub(crate) fn covering_frames(stream: &[u8], random: &mut Random) -> Vec<Vec<u8>> {
    let mut parts = Vec::new();
    for ends in cuts(stream.len(), random).windows(2) {
        let back = random.below(1 + ends[0].min(30));
        parts.push((ends[0] - back, ends[1]));
        if random.below(4) == 0 {
            parts.push((ends[0], ends[1]));
        }
    }
    mixed(stream, parts, random)
}

fn mixed(stream: &[u8], parts: Vec<(usize, usize)>, random: &mut Random) -> Vec<Vec<u8>> {
    let mut frames: Vec<Vec<u8>> = Vec::new();
    for (start, end) in parts {
        frames.push(any_frame(start, &stream[start..end], random));
        if random.below(3) == 0 {
            let kind = [PADDING, PING][random.below(2)];
            frames.push(vec![kind; random.below(5)]);
        }
    }
    random.shuffle(&mut frames);
    frames
}
