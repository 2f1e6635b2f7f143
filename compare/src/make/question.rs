//! A hello to be made, and the two sides' answers.

use crate::noise::quic::profiles::{BrowserProfile, Profile};
use crate::noise::quic::tls::generate_client_hello;
use crate::ours;
use crate::random::Random;
use crate::script::Bytes;
use crate::sides::Ask;
use crate::tape::Tape;
use std::fmt::{Display, Formatter, Result};

const UNTOUCHED: u8 = 0xa5;

/// A row of document 01's table: the hello's length with P = 200, but for name and connection id; how often the connection
/// id stands in it; and the tape needed.
pub(super) struct Row {
    pub(super) browser: BrowserProfile,
    length: usize,
    sources: usize,
    tape: usize,
}

pub(super) const TABLE: [Row; 3] = [
    Row {
        browser: BrowserProfile::Chrome,
        length: 1534 + 200,
        sources: 0,
        tape: 1726,
    },
    Row {
        browser: BrowserProfile::Firefox,
        length: 1633 + 200,
        sources: 1,
        tape: 1808,
    },
    Row {
        browser: BrowserProfile::Curl,
        length: 290 + 200,
        sources: 0,
        tape: 416,
    },
];

fn row(profile: u64) -> Option<&'static Row> {
    TABLE.get(usize::try_from(profile).ok()?)
}

/// What a tape holds: one byte throughout, or random bytes by a seed.
#[derive(Clone, Copy, PartialEq, Eq, Hash)]
pub(super) enum Fill {
    Same(u8),
    Random(u64),
}

/// The lengths of tape and output stand for the buffers.
#[derive(Clone, PartialEq, Eq, Hash)]
pub(super) struct Question {
    pub(super) profile: u64,
    pub(super) name: Vec<u8>,
    pub(super) scid: Vec<u8>,
    pub(super) fill: Fill,
    pub(super) tape: usize,
    pub(super) room: usize,
}

impl Question {
    /// With the least tape and the least output.
    pub(super) fn new(profile: u64, name: &[u8], scid: &[u8], fill: Fill) -> Self {
        let (tape, room) = least(profile, name, scid);
        Question {
            profile,
            name: name.to_vec(),
            scid: scid.to_vec(),
            fill,
            tape,
            room,
        }
    }

    pub(super) fn tape_bytes(&self) -> Vec<u8> {
        match self.fill {
            Fill::Same(byte) => vec![byte; self.tape],
            Fill::Random(seed) => Random::new(seed).bytes(self.tape),
        }
    }

    /// The original's hello and the count drawn. Nothing may be wrong with the question.
    pub(super) fn made_by_rust(&self) -> (Vec<u8>, usize) {
        made_by_rust(self.profile, &self.name, &self.scid, &self.tape_bytes())
    }

    fn output(&self) -> Vec<u8> {
        vec![UNTOUCHED; self.room]
    }

    fn refusal(&self) -> Option<u64> {
        refusal(self.profile, &self.name, &self.scid, self.tape, self.room)
    }
}

/// The original's hello of what nothing is wrong with, and the count drawn.
pub(crate) fn made_by_rust(
    profile: u64,
    name: &[u8],
    scid: &[u8],
    tape: &[u8],
) -> (Vec<u8>, usize) {
    let mut tape = Tape::new(tape);
    let profile = Profile::for_browser(TABLE[profile as usize].browser);
    let name = std::str::from_utf8(name).expect("bytes 33 to 126");
    let hello = generate_client_hello(&profile, name, scid, &mut tape);
    (hello, tape.drawn())
}

/// The first of questions 4 to 9 that is answered "no". Tape and output are here by their lengths.
pub(crate) fn refusal(
    profile: u64,
    name: &[u8],
    scid: &[u8],
    tape: usize,
    room: usize,
) -> Option<u64> {
    let Some(row) = row(profile) else {
        return Some(4);
    };
    let (n, s) = (name.len(), scid.len());
    let questions = [
        ((1..=255).contains(&n), 5),
        (name.iter().all(|byte| (33..=126).contains(byte)), 6),
        (s <= 20, 7),
        (row.tape <= tape, 8),
        (row.length + n + row.sources * s <= room, 9),
    ];
    questions
        .iter()
        .find(|(yes, _)| !yes)
        .map(|(_, number)| *number)
}

/// The least tape and the least output that nothing is wrong with, for a profile, or for the first where it is none.
pub(crate) fn least(profile: u64, name: &[u8], scid: &[u8]) -> (usize, usize) {
    let row = row(profile).unwrap_or(&TABLE[0]);
    (row.tape, row.length + name.len() + row.sources * scid.len())
}

/// Length and count drawn, or the refusal, and each byte of the output.
#[derive(PartialEq)]
pub(super) struct Answer {
    made: std::result::Result<(u64, u64), u64>,
    out: Vec<u8>,
}

impl Ask for Question {
    type Answer = Answer;

    fn by_rust(&self) -> Answer {
        let mut out = self.output();
        if let Some(number) = self.refusal() {
            return Answer {
                made: Err(number),
                out,
            };
        }
        let (hello, drawn) = self.made_by_rust();
        out[..hello.len()].copy_from_slice(&hello);
        Answer {
            made: Ok((hello.len() as u64, drawn as u64)),
            out,
        }
    }

    /// Length and count drawn come from two calls, whose outputs must be the same.
    fn by_ours(&self) -> Answer {
        let tape = self.tape_bytes();
        let [mut out, mut again] = [(); 2].map(|()| self.output());
        let length = ours::make(self.profile, &self.name, &self.scid, &tape, &mut out);
        let drawn = ours::drawn(self.profile, &self.name, &self.scid, &tape, &mut again);
        assert!(out == again, "two calls, two outputs: {self}");
        let made = match (length, drawn) {
            (Ok(length), Ok(drawn)) => Ok((length, drawn)),
            (Err(number), Err(other)) if number == other => Err(number),
            _ => panic!("two calls, two answers: {self}"),
        };
        Answer { made, out }
    }
}

impl Display for Question {
    fn fmt(&self, f: &mut Formatter<'_>) -> Result {
        let (name, scid) = (Bytes(&self.name), Bytes(&self.scid));
        let (tape, out) = (self.tape_bytes(), self.output());
        write!(
            f,
            "make {} {name} {scid} {} {}",
            self.profile,
            Bytes(&tape),
            Bytes(&out)
        )
    }
}

impl Display for Answer {
    fn fmt(&self, f: &mut Formatter<'_>) -> Result {
        match self.made {
            Ok((length, drawn)) => write!(f, "length {length} drawn {drawn}")?,
            Err(number) => write!(f, "refused {number}")?,
        }
        write!(f, " {}", Bytes(&self.out))
    }
}
