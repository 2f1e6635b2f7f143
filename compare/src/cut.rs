//! The frame writer, which the original does not have. Ours is held to frames put together from the original's varints, and
//! the original's joiner must join what ours wrote to the hello.

use crate::join::{crypto, Stream, LIMIT};
use crate::ours::{self, Told};
use crate::random::Random;
use crate::script::Bytes;
use crate::sides::{Ask, Sides};
use crate::tally::Tally;
use std::fmt::{Display, Formatter, Result};

const SEED: u64 = 0x6672_616d_6573_0001;
const RANDOM: usize = 2_000;
const UNTOUCHED: u8 = 0xa5;

pub(crate) fn compare(tally: &mut Tally) {
    let mut random = Random::new(SEED);
    let mut sides = Sides::new(tally);
    let limit = LIMIT as u64;
    for c in [0, 1, 2, limit - 1, limit, limit + 1, 1 << 32, u64::MAX] {
        for length in [0, 1, 2, 100, LIMIT, LIMIT + 1] {
            let hello = random.bytes(length);
            let room = frames(c, &hello).len();
            for room in [room, room + 9, room.saturating_sub(1), 0] {
                let hello = hello.clone();
                sides.ask(Question { c, hello, room });
            }
        }
    }
    let mut joined = Vec::new();
    sides.ask_random(RANDOM, || {
        let question = draw(&mut random);
        joined.push(question.clone());
        question
    });
    for question in joined {
        let Answer { length, out } = question.by_ours();
        if let Ok(length) = length {
            let known = Stream(Some(question.hello.clone()));
            let given = Stream::by_rust(&out[..length as usize]);
            tally.expect(&question, "Rust, of what ours wrote", &known, &given);
        }
    }
}

#[derive(Clone, PartialEq, Eq, Hash)]
struct Question {
    c: u64,
    hello: Vec<u8>,
    room: usize,
}

#[derive(PartialEq)]
struct Answer {
    length: Told,
    out: Vec<u8>,
}

/// A hello and a size, short ones as often as long ones, and an output that one time in eight is a little too short.
fn draw(random: &mut Random) -> Question {
    let [most, widest] = [(); 2].map(|()| 1 + (LIMIT >> random.below(15)));
    let length = random.below(most);
    let hello = random.bytes(length);
    let c = 1 + random.below(widest.min(LIMIT)) as u64;
    let needed = frames(c, &hello).len();
    let room = if random.below(8) == 0 {
        needed.saturating_sub(1 + random.below(3))
    } else {
        needed + random.below(20)
    };
    Question { c, hello, room }
}

/// The frames of `c` data bytes in offset order, the last perhaps shorter; none where `c` is 0.
pub(crate) fn frames(c: u64, hello: &[u8]) -> Vec<u8> {
    let size = usize::try_from(c).unwrap_or(usize::MAX);
    if size == 0 {
        return Vec::new();
    }
    let starts = (0..hello.len()).step_by(size);
    let end = |start: usize| hello.len().min(start.saturating_add(size));
    starts
        .flat_map(|start| crypto(start, &hello[start..end(start)]))
        .collect()
}

/// The frames at the front of the output. Questions 24 to 26 are put in from document 01.
pub(crate) fn write_by_law(c: u64, hello: &[u8], out: &mut [u8]) -> Told {
    if c < 1 || (LIMIT as u64) < c {
        return Err(24);
    }
    if LIMIT < hello.len() {
        return Err(25);
    }
    let frames = frames(c, hello);
    let front = out.get_mut(..frames.len()).ok_or(26u64)?;
    front.copy_from_slice(&frames);
    Ok(frames.len() as u64)
}

impl Ask for Question {
    type Answer = Answer;

    fn by_rust(&self) -> Answer {
        let mut out = vec![UNTOUCHED; self.room];
        let length = write_by_law(self.c, &self.hello, &mut out);
        Answer { length, out }
    }

    fn by_ours(&self) -> Answer {
        let mut out = vec![UNTOUCHED; self.room];
        let length = ours::frames(self.c, &self.hello, &mut out);
        Answer { length, out }
    }
}

impl Display for Question {
    fn fmt(&self, f: &mut Formatter<'_>) -> Result {
        let out = vec![UNTOUCHED; self.room];
        write!(
            f,
            "frames {} {} {}",
            self.c,
            Bytes(&self.hello),
            Bytes(&out)
        )
    }
}

impl Display for Answer {
    fn fmt(&self, f: &mut Formatter<'_>) -> Result {
        match self.length {
            Ok(length) => write!(f, "length {length} {}", Bytes(&self.out)),
            Err(number) => write!(f, "refused {number} {}", Bytes(&self.out)),
        }
    }
}
