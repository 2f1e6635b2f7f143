//! Lists of frames to be joined, with any buffers.

use super::input::Input;
use super::met::Call;
use super::{lists, Real};
use crate::join::{law, LIMIT};
use crate::noise::quic::fingerprint::reassemble_crypto;
use crate::ours::{self, Told};
use crate::random::Random;
use crate::script::Bytes;
use std::fmt::{Formatter, Result};

#[derive(Hash)]
pub(super) struct Join {
    frames: Vec<u8>,
    room: [usize; 2],
}

pub(super) fn draw(real: &Real, random: &mut Random) -> Join {
    let frames = lists::draw(real, random);
    let short = random.below(16) == 0;
    let room = [(); 2].map(|()| match short && random.below(2) == 0 {
        true => too_short(random),
        false => LIMIT + random.below(2) * random.below(100),
    });
    Join { frames, room }
}

fn too_short(random: &mut Random) -> usize {
    match random.below(3) {
        0 => LIMIT - 1,
        1 => random.below(LIMIT),
        _ => 0,
    }
}

impl Input for Join {
    fn call(&self) -> Call {
        Call::Join
    }

    fn room(&self) -> [usize; 2] {
        self.room
    }

    /// The driver's own joiner. Where no place has two bytes, the original must join the list to the same stream.
    fn known(&self, [out, marks]: [&mut [u8]; 2]) -> Told {
        let end = law::join(&self.frames, out, marks)?;
        if law::is_without_overlap(&self.frames, end) {
            let joined = reassemble_crypto(&self.frames);
            let same = joined == out[..end as usize];
            assert!(same, "two joiners, two streams: {}", Bytes(&self.frames));
        }
        Ok(end)
    }

    fn given(&self, [out, marks]: [&mut [u8]; 2]) -> Told {
        ours::join(&self.frames, out, marks)
    }

    fn show(&self, buffers: [&[u8]; 2], f: &mut Formatter<'_>) -> Result {
        let [out, marks] = buffers.map(Bytes);
        write!(f, "join {} {out} {marks}", Bytes(&self.frames))
    }
}
