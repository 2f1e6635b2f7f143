//! A list of frames to be joined, and the two sides' answers.

use super::{LIMIT, UNTOUCHED};
use crate::noise::quic::fingerprint::reassemble_crypto;
use crate::ours::{self, Told};
use crate::script::Bytes;
use crate::sides::Ask;
use std::fmt::{Display, Formatter, Result};

/// The frames, and the lengths of output and marks.
#[derive(PartialEq, Eq, Hash)]
pub(super) struct Question {
    pub(super) frames: Vec<u8>,
    pub(super) room: [usize; 2],
}

impl Question {
    /// With buffers of the least length.
    pub(super) fn new(frames: Vec<u8>) -> Self {
        Question {
            frames,
            room: [LIMIT, LIMIT],
        }
    }

    /// Output and marks as they are before the call.
    fn buffers(&self) -> [Vec<u8>; 2] {
        [0, 1].map(|which| vec![UNTOUCHED[which]; self.room[which]])
    }

    /// Refusal 10 leaves both buffers; 11 to 15 leave both all zero.
    pub(super) fn refused(&self, number: u64) -> Answer {
        let [out, marks] = if number == 10 {
            self.buffers()
        } else {
            self.room.map(|length| vec![0; length])
        };
        Answer {
            end: Err(number),
            out,
            marks,
        }
    }
}

/// The end or the refusal, and each byte of output and marks.
#[derive(PartialEq)]
pub(super) struct Answer {
    end: Told,
    out: Vec<u8>,
    marks: Vec<u8>,
}

impl Answer {
    /// What document 01 says of a stream that was joined: "the output holds the stream, then zeros; each place of the mark
    /// buffer below the end holds 1, the others 0".
    pub(super) fn joined(stream: &[u8], room: [usize; 2]) -> Answer {
        let [mut out, mut marks] = room.map(|length| vec![0; length]);
        out[..stream.len()].copy_from_slice(stream);
        marks[..stream.len()].fill(1);
        Answer {
            end: Ok(stream.len() as u64),
            out,
            marks,
        }
    }
}

impl Ask for Question {
    type Answer = Answer;

    fn by_rust(&self) -> Answer {
        Answer::joined(&reassemble_crypto(&self.frames), self.room)
    }

    fn by_ours(&self) -> Answer {
        let [mut out, mut marks] = self.buffers();
        let end = ours::join(&self.frames, &mut out, &mut marks);
        Answer { end, out, marks }
    }
}

impl Display for Question {
    fn fmt(&self, f: &mut Formatter<'_>) -> Result {
        let [out, marks] = self.buffers();
        let (frames, out, marks) = (Bytes(&self.frames), Bytes(&out), Bytes(&marks));
        write!(f, "join {frames} {out} {marks}")
    }
}

impl Display for Answer {
    fn fmt(&self, f: &mut Formatter<'_>) -> Result {
        match self.end {
            Ok(end) => write!(f, "end {end}")?,
            Err(number) => write!(f, "refused {number}")?,
        }
        write!(f, " {} {}", Bytes(&self.out), Bytes(&self.marks))
    }
}
