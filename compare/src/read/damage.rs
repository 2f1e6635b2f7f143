//! Hellos that were well-formed before something happened to them.

use super::build::{block, Extension, Parts};
use super::lengths::lengths;
use crate::noise::quic::varint;
use crate::random::Random;
use crate::varint::longer;

/// The type of the transport parameters, and the widest varint in bytes.
const PARAMETERS: u16 = 0x0039;
const WIDEST: usize = 8;

/// All that is done to one hello, but for random changes.
pub(crate) fn all(hello: &[u8]) -> Vec<Vec<u8>> {
    let mut list = Vec::new();
    for length in lengths(hello) {
        list.extend(length.changed(hello));
    }
    let parts = Parts::of(hello);
    list.extend(cuts(hello, &parts));
    list.extend(bytes_after(&parts));
    list.extend(bodies(&parts));
    list.extend(doubled_types(&parts));
    list.extend(doubled_ids(&parts));
    list
}

/// One byte changed.
pub(crate) fn change(hello: &[u8], random: &mut Random) -> Vec<u8> {
    let mut changed = hello.to_vec();
    changed[random.below(hello.len())] ^= 1 + random.below(255) as u8;
    changed
}

/// A cut at every byte: as it is, with the 3-byte length mended, and with the block's length mended too.
fn cuts(hello: &[u8], parts: &Parts) -> Vec<Vec<u8>> {
    let mut list = Vec::new();
    for end in 0..hello.len() {
        let cut = hello[..end].to_vec();
        if let Some(rest) = end.checked_sub(4) {
            let mut mended = cut.clone();
            mended[1..4].copy_from_slice(&(rest as u32).to_be_bytes()[1..]);
            list.push(mended);
        }
        list.push(cut);
    }
    for end in 0..parts.block.len() {
        list.push(with_block(parts, parts.block[..end].to_vec()));
    }
    list
}

/// 1 to 4 bytes after the last extension, lengths mended. Four zeros are an empty server_name.
fn bytes_after(parts: &Parts) -> Vec<Vec<u8>> {
    let after = |count| with_block(parts, [&parts.block[..], &vec![0; count]].concat());
    (1..=4).map(after).collect()
}

/// Each body cut at every byte, and with a byte after it, lengths mended.
fn bodies(parts: &Parts) -> Vec<Vec<u8>> {
    let mut list = Vec::new();
    let extensions = parts.extensions();
    for (place, Extension { kind, body }) in extensions.iter().enumerate() {
        let cut = (0..body.len()).map(|end| body[..end].to_vec());
        let longer = [0x00, 0x01, 0xff].map(|byte| [&body[..], &[byte]].concat());
        for body in cut.chain(longer) {
            let mut changed = extensions.clone();
            changed[place] = Extension::new(*kind, body);
            list.push(with_block(parts, block(&changed)));
        }
    }
    list
}

/// Each extension again at the end: as it is, without its body, and with a body that is cut.
fn doubled_types(parts: &Parts) -> Vec<Vec<u8>> {
    let mut list = Vec::new();
    for extension in parts.extensions() {
        let empty = Extension::new(extension.kind, Vec::new());
        let cut = [&extension.kind.to_be_bytes()[..], &[0, 1]].concat();
        for again in [extension.bytes(), empty.bytes(), cut] {
            list.push(with_block(parts, [&parts.block[..], &again].concat()));
        }
    }
    list
}

/// Each parameter id again, in each width that holds it, after the last parameter and before the first.
fn doubled_ids(parts: &Parts) -> Vec<Vec<u8>> {
    let mut list = Vec::new();
    let mut extensions = parts.extensions();
    let is_it = |extension: &Extension| extension.kind == PARAMETERS;
    let Some(place) = extensions.iter().position(is_it) else {
        return list;
    };
    let body = extensions[place].body.clone();
    for id in ids(&body) {
        for width in widths(id) {
            let again = [&width[..], &[0]].concat();
            for body in [[&body[..], &again].concat(), [&again, &body[..]].concat()] {
                extensions[place].body = body;
                list.push(with_block(parts, block(&extensions)));
            }
        }
    }
    list
}

fn ids(mut body: &[u8]) -> Vec<u64> {
    let mut ids = Vec::new();
    while let Some((id, width)) = varint::read(body) {
        let (length, after) = varint::read(&body[width..]).expect("well-formed");
        body = &body[width + after + length as usize..];
        ids.push(id);
    }
    ids
}

/// The varint of a value in every width that holds it.
fn widths(value: u64) -> Vec<Vec<u8>> {
    let mut shortest = Vec::new();
    varint::write(&mut shortest, value);
    let wider = |bytes: &Vec<u8>| (bytes.len() < WIDEST).then(|| longer(bytes));
    std::iter::successors(Some(shortest), wider).collect()
}

fn with_block(parts: &Parts, block: Vec<u8>) -> Vec<u8> {
    let parts = parts.clone();
    Parts { block, ..parts }.hello()
}
