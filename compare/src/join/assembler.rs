//! A joiner in the design that quinn-proto has published for its `Assembler`: a heap of buffers, the smallest offset first
//! and the longest first at the same offset; each frame's data is put on it without a copy; reading in order takes the first,
//! drops what was read already and trims what overlaps. It is not quinn's code and stands for the design: it borrows its
//! slices where quinn counts references, and does nothing for fragmented memory, so it is no slower. What is read is copied
//! into one buffer. Nothing is cleared, no marks are kept, and bytes that overlap are not seen to agree.

use crate::noise::quic::varint;
use std::cmp::Ordering;
use std::collections::BinaryHeap;

const PADDING: u8 = 0x00;
const PING: u8 = 0x01;
const CRYPTO: u8 = 0x06;

#[derive(PartialEq, Eq)]
struct Buffer<'a> {
    offset: usize,
    data: &'a [u8],
}

/// The first is the greatest, since the heap gives that.
impl Ord for Buffer<'_> {
    fn cmp(&self, other: &Self) -> Ordering {
        let by_offset = other.offset.cmp(&self.offset);
        by_offset.then(self.data.len().cmp(&other.data.len()))
    }
}

impl PartialOrd for Buffer<'_> {
    fn partial_cmp(&self, other: &Self) -> Option<Ordering> {
        Some(self.cmp(other))
    }
}

/// The length of the stream that is copied to the output's front, up to the first gap. The list must be whole.
pub(super) fn join(frames: &[u8], out: &mut [u8]) -> usize {
    let mut heap = BinaryHeap::new();
    insert_all(frames, &mut heap);
    read_in_order(&mut heap, out)
}

fn insert_all<'a>(frames: &'a [u8], heap: &mut BinaryHeap<Buffer<'a>>) {
    let mut rest = frames;
    while let Some((kind, after)) = rest.split_first() {
        rest = match *kind {
            PADDING | PING => after,
            CRYPTO => {
                let (offset, width) = varint::read(after).expect("an offset");
                let after = &after[width..];
                let (length, width) = varint::read(after).expect("a length");
                let (data, after) = after[width..].split_at(length as usize);
                let offset = offset as usize;
                heap.push(Buffer { offset, data });
                after
            }
            kind => panic!("no frame of an Initial packet: {kind}"),
        }
    }
}

fn read_in_order(heap: &mut BinaryHeap<Buffer>, out: &mut [u8]) -> usize {
    let mut read = 0;
    while let Some(Buffer { offset, data }) = heap.pop() {
        if read < offset {
            break;
        }
        if let Some(new) = data.get(read - offset..) {
            out[read..read + new.len()].copy_from_slice(new);
            read += new.len();
        }
    }
    read
}
