//! An input of one of the six calls, what must come of it, and what comes of it.

use super::met::Call;
use crate::ours::Told;
use crate::random::Random;
use crate::script::Bytes;
use std::fmt::{Display, Formatter, Result};
use std::hash::Hash;

/// The operands of a call, but for what its buffers hold before. Shown as a script has them.
pub(super) trait Input: Hash {
    fn call(&self) -> Call;
    /// The lengths of output and marks, 0 where the call has none.
    fn room(&self) -> [usize; 2];
    /// What must come of it, in the buffers too: from the original, or from what the driver has of document 01.
    fn known(&self, buffers: [&mut [u8]; 2]) -> Told;
    fn given(&self, buffers: [&mut [u8]; 2]) -> Told;
    /// With the buffers as they are before.
    fn show(&self, buffers: [&[u8]; 2], f: &mut Formatter<'_>) -> Result;
}

/// So many bytes before and after each buffer are not the call's, and must stay.
const MARGIN: usize = 16;

/// Output and marks with their margins. They are kept from one input to the next, so that none need be made anew.
#[derive(PartialEq, Clone, Default)]
struct Buffers([Vec<u8>; 2]);

impl Buffers {
    fn fill(&mut self, room: [usize; 2], random: &mut Random) {
        for (buffer, length) in self.0.iter_mut().zip(room) {
            buffer.resize(length + 2 * MARGIN, 0);
            random.fill(buffer);
        }
    }

    fn lend(&mut self) -> [&mut [u8]; 2] {
        self.0.each_mut().map(|buffer| {
            let end = buffer.len() - MARGIN;
            &mut buffer[MARGIN..end]
        })
    }

    fn view(&self) -> [&[u8]; 2] {
        let inside = |buffer: &'_ Vec<u8>| MARGIN..buffer.len() - MARGIN;
        self.0.each_ref().map(|buffer| &buffer[inside(buffer)])
    }

    /// The buffer in which two first differ, output before marks, and the place: one before the buffer is below 0.
    fn difference(&self, other: &Buffers) -> Option<(&'static str, isize)> {
        let which = ["output", "marks"].into_iter();
        let pairs = self.0.iter().zip(&other.0);
        which.zip(pairs).find_map(|(which, (one, other))| {
            let place = one.iter().zip(other).position(|(a, b)| a != b)?;
            Some((which, place as isize - MARGIN as isize))
        })
    }
}

/// The buffers before a call, and both answers.
pub(super) struct Asked {
    before: Buffers,
    known: Answer,
    given: Answer,
}

#[derive(PartialEq)]
pub(super) struct Answer {
    told: Told,
    buffers: Buffers,
}

impl Asked {
    pub(super) fn new() -> Self {
        let nothing = || Answer {
            told: Ok(0),
            buffers: Buffers::default(),
        };
        Asked {
            before: Buffers::default(),
            known: nothing(),
            given: nothing(),
        }
    }

    /// Puts an input to both sides, with random bytes in the buffers. Gives what ours told.
    pub(super) fn ask(&mut self, input: &impl Input, random: &mut Random) -> Told {
        self.before.fill(input.room(), random);
        for answer in [&mut self.known, &mut self.given] {
            answer.buffers.0.clone_from(&self.before.0);
        }
        self.known.told = input.known(self.known.buffers.lend());
        self.given.told = input.given(self.given.buffers.lend());
        self.given.told
    }

    pub(super) fn agree(&self) -> bool {
        self.known == self.given
    }

    pub(super) fn answers(&self) -> [&Answer; 2] {
        [&self.known, &self.given]
    }

    /// The input for people to read, and how to come to it again.
    pub(super) fn shown<'a, I: Input>(
        &'a self,
        input: &'a I,
        seed: u64,
        number: u64,
    ) -> Shown<'a, I> {
        Shown {
            input,
            asked: self,
            seed,
            number,
        }
    }
}

impl Display for &Answer {
    fn fmt(&self, f: &mut Formatter<'_>) -> Result {
        match self.told {
            Ok(number) => write!(f, "{number}")?,
            Err(number) => write!(f, "refused {number}")?,
        }
        let buffers = self.buffers.view().into_iter();
        let mut buffers = buffers.filter(|buffer| !buffer.is_empty());
        buffers.try_for_each(|buffer| write!(f, " {}", Bytes(buffer)))
    }
}

pub(super) struct Shown<'a, I> {
    input: &'a I,
    asked: &'a Asked,
    seed: u64,
    number: u64,
}

impl<I: Input> Display for Shown<'_, I> {
    fn fmt(&self, f: &mut Formatter<'_>) -> Result {
        let Asked {
            before,
            known,
            given,
        } = self.asked;
        write!(f, "seed {:#x}, input {}", self.seed, self.number)?;
        if let Some((which, place)) = known.buffers.difference(&given.buffers) {
            write!(f, ", {which} from byte {place} on")?;
        }
        f.write_str(": ")?;
        self.input.show(before.view(), f)
    }
}
