//! Hellos to be cut into frames: any size of the frames, any bytes, any output.

use super::damage::random_bytes;
use super::input::Input;
use super::met::Call;
use crate::cut::{frames, write_by_law};
use crate::join::LIMIT;
use crate::noise::quic::fingerprint::reassemble_crypto;
use crate::ours::{self, Told};
use crate::random::Random;
use crate::script::Bytes;
use std::fmt::{Formatter, Result};

/// Sizes that no frame may have, and sizes at the limits.
const SIZES: [u64; 12] = [
    0,
    1,
    LIMIT as u64 - 1,
    LIMIT as u64,
    LIMIT as u64 + 1,
    1 << 16,
    1 << 32,
    (1 << 32) + 1,
    (1 << 32) + 64,
    1 << 62,
    1 << 63,
    u64::MAX,
];
/// A list has at most so many frames, but for one in 64: the driver makes each of them apart.
const FRAMES: usize = 300;

#[derive(Hash)]
pub(super) struct Frames {
    c: u64,
    hello: Vec<u8>,
    room: usize,
}

pub(super) fn draw(random: &mut Random) -> Frames {
    let length = match random.below(16) {
        0 => LIMIT + 1 + random.below(200),
        1 => LIMIT - random.below(3),
        _ => random.low(LIMIT, 14),
    };
    let mut c = match random.below(4) {
        0 => SIZES[random.below(SIZES.len())],
        1 => random.value(),
        _ => 1 + random.low(LIMIT, 14) as u64,
    };
    let many = 0 < c && c < (length / FRAMES) as u64;
    if many && random.below(64) != 0 {
        c = (length / FRAMES) as u64;
    }
    let hello = random_bytes(length, random);
    let room = room(c, &hello, random);
    Frames { c, hello, room }
}

/// What the frames need, more, a little less, or anything.
fn room(c: u64, hello: &[u8], random: &mut Random) -> usize {
    let needed = frames(c, hello).len();
    match random.below(8) {
        0 => needed.saturating_sub(1 + random.below(4)),
        1 => random.below(needed + 1),
        2..=4 => needed,
        _ => needed + random.below(100),
    }
}

impl Input for Frames {
    fn call(&self) -> Call {
        Call::Frames
    }

    fn room(&self) -> [usize; 2] {
        [self.room, 0]
    }

    /// Frames put together from the original's varints, which the original must join to the hello.
    fn known(&self, [out, _]: [&mut [u8]; 2]) -> Told {
        let length = write_by_law(self.c, &self.hello, out)?;
        let joined = reassemble_crypto(&out[..length as usize]);
        assert!(joined == self.hello, "frames that are not the hello's");
        Ok(length)
    }

    fn given(&self, [out, _]: [&mut [u8]; 2]) -> Told {
        ours::frames(self.c, &self.hello, out)
    }

    fn show(&self, [out, _]: [&[u8]; 2], f: &mut Formatter<'_>) -> Result {
        let (hello, out) = (Bytes(&self.hello), Bytes(out));
        write!(f, "frames {} {hello} {out}", self.c)
    }
}
