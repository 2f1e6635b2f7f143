//! Hellos to be made: any profile, name, connection id, tape and output.

use super::damage::random_bytes;
use super::input::Input;
use super::met::Call;
use crate::make::{any_name, least, made_by_rust, refusal};
use crate::ours::{self, Told};
use crate::random::Random;
use crate::script::Bytes;
use std::fmt::{Formatter, Result};

/// Numbers that are a profile where only some of their bits are looked at, and others.
const NO_PROFILES: [u64; 12] = [
    3,
    4,
    255,
    256,
    257,
    258,
    1 << 16,
    1 << 32,
    (1 << 32) + 1,
    (1 << 32) + 2,
    1 << 63,
    u64::MAX,
];

#[derive(Hash)]
pub(super) struct Make {
    profile: u64,
    name: Vec<u8>,
    scid: Vec<u8>,
    tape: Vec<u8>,
    room: usize,
}

/// Two of three have nothing wrong with them; the others have one thing wrong, or several, so that the first must win.
pub(super) fn draw(random: &mut Random) -> Make {
    let good = random.below(3) != 0;
    let wrong = |random: &mut Random| !good && random.below(4) == 0;
    let profile = match wrong(random) {
        true => no_profile(random),
        false => random.below(3) as u64,
    };
    let name = match wrong(random) {
        true => no_name(random),
        false => {
            let length = 1 + random.below(255);
            any_name(length, random)
        }
    };
    let scid = match wrong(random) {
        true => [21, 22, 64, 255, 256, 276, 300][random.below(7)],
        false => random.below(21),
    };
    let scid = random_bytes(scid, random);
    let (tape, room) = least(profile, &name, &scid);
    let [tape, room] = [tape, room].map(|least| match wrong(random) {
        true => too_few(least, random),
        false => least + random.below(2) * random.below(100),
    });
    Make {
        profile,
        name,
        scid,
        tape: tape_of(tape, random),
        room,
    }
}

fn no_profile(random: &mut Random) -> u64 {
    match random.below(4) {
        0 => random.value().max(3),
        _ => NO_PROFILES[random.below(NO_PROFILES.len())],
    }
}

/// No byte, too many, or bytes that may not stand in a name: one at the limits, or any.
fn no_name(random: &mut Random) -> Vec<u8> {
    let length = 1 + random.below(255);
    let mut name = any_name(length, random);
    match random.below(5) {
        0 => Vec::new(),
        1 => {
            let length = [256, 257, 300, 512, 1_000][random.below(5)];
            any_name(length, random)
        }
        2 => random_bytes(length, random),
        _ => {
            let byte = [0, 9, 31, 32, 127, 128, 255][random.below(7)];
            name[random.below(length)] = byte;
            name
        }
    }
}

fn too_few(least: usize, random: &mut Random) -> usize {
    match random.below(4) {
        0 => 0,
        1 => random.below(least),
        _ => least - 1 - random.below(50),
    }
}

/// Zeros, ones, or random bytes.
fn tape_of(length: usize, random: &mut Random) -> Vec<u8> {
    match random.below(16) {
        0 => vec![0x00; length],
        1 => vec![0xff; length],
        _ => random_bytes(length, random),
    }
}

impl Input for Make {
    fn call(&self) -> Call {
        Call::Make
    }

    fn room(&self) -> [usize; 2] {
        [self.room, 0]
    }

    /// The original's hello; questions 4 to 9 are document 01's.
    fn known(&self, [out, _]: [&mut [u8]; 2]) -> Told {
        let (name, scid, tape) = (&self.name, &self.scid, &self.tape);
        if let Some(number) = refusal(self.profile, name, scid, tape.len(), out.len()) {
            return Err(number);
        }
        let (hello, _) = made_by_rust(self.profile, name, scid, tape);
        out[..hello.len()].copy_from_slice(&hello);
        Ok(hello.len() as u64)
    }

    fn given(&self, [out, _]: [&mut [u8]; 2]) -> Told {
        ours::make(self.profile, &self.name, &self.scid, &self.tape, out)
    }

    fn show(&self, [out, _]: [&[u8]; 2], f: &mut Formatter<'_>) -> Result {
        let lent = [&self.name, &self.scid, &self.tape, out].map(Bytes);
        let [name, scid, tape, out] = lent;
        write!(f, "make {} {name} {scid} {tape} {out}", self.profile)
    }
}
