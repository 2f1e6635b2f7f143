//! A question on varints, and the two sides' answers to it.

use crate::noise::quic::varint;
use crate::ours::{self, Told};
use crate::panics::unless_it_panics;
use crate::script::Bytes;
use crate::sides::Ask;
use std::fmt::{Display, Formatter, Result};

/// A call with its operands. Shown as a line of a script, but `Sum`, which no script has: it is there for the timing.
#[derive(Clone, PartialEq, Eq, Hash)]
pub(crate) enum Question {
    Size(u64),
    Write(u64, Vec<u8>),
    Read(Vec<u8>),
    Sum(Vec<u8>),
}

/// What document 01 determines of the call: refusals, and for `Write` each byte of the output.
#[derive(PartialEq)]
pub(crate) enum Answer {
    Size(Told),
    Write { width: Told, out: Vec<u8> },
    Read { value: Told, width: Told },
    Sum(u64),
}

impl Ask for Question {
    type Answer = Answer;

    /// A panic is turned into refusal 1 and `None` into 3.
    fn by_rust(&self) -> Answer {
        match self {
            Question::Size(value) => {
                let size = unless_it_panics(|| varint::size(*value) as u64);
                Answer::Size(size.ok_or(1))
            }
            Question::Write(value, out) => write_by_rust(*value, out),
            Question::Read(input) => {
                let read = varint::read(input).ok_or(3);
                Answer::Read {
                    value: read.map(|(value, _)| value),
                    width: read.map(|(_, width)| width as u64),
                }
            }
            Question::Sum(input) => Answer::Sum(sum_by_rust(input)),
        }
    }

    fn by_ours(&self) -> Answer {
        match self {
            Question::Size(value) => Answer::Size(ours::varint_size(*value)),
            Question::Write(value, out) => {
                let mut out = out.clone();
                let width = ours::varint_write(*value, &mut out);
                Answer::Write { width, out }
            }
            Question::Read(input) => Answer::Read {
                value: ours::varint_value(input),
                width: ours::varint_width(input),
            },
            Question::Sum(input) => Answer::Sum(ours::varint_sum(input)),
        }
    }
}

/// The original appends to a `Vec`, which always has room. So that an output too short is refusal 2, and that bytes after
/// the varint stay, is put in here from document 01.
fn write_by_rust(value: u64, out: &[u8]) -> Answer {
    let mut bytes = Vec::new();
    let written = unless_it_panics(|| varint::write(&mut bytes, value));
    let width = match written {
        None => Err(1),
        Some(()) if out.len() < bytes.len() => Err(2),
        Some(()) => Ok(bytes.len() as u64),
    };
    let mut out = out.to_vec();
    if width.is_ok() {
        out[..bytes.len()].copy_from_slice(&bytes);
    }
    Answer::Write { width, out }
}

/// What `ours::varint_sum` gives, by the original's `read`.
pub(crate) fn sum_by_rust(mut input: &[u8]) -> u64 {
    let mut sum = 0u64;
    while let Some((value, width)) = varint::read(input) {
        sum = sum.wrapping_add(value);
        input = &input[width..];
    }
    sum
}

impl Display for Question {
    fn fmt(&self, f: &mut Formatter<'_>) -> Result {
        match self {
            Question::Size(value) => write!(f, "size {value}"),
            Question::Write(value, out) => write!(f, "write {value} {}", Bytes(out)),
            Question::Read(input) => write!(f, "read {}", Bytes(input)),
            Question::Sum(input) => write!(f, "sum {}", Bytes(input)),
        }
    }
}

impl Display for Answer {
    fn fmt(&self, f: &mut Formatter<'_>) -> Result {
        match self {
            Answer::Size(Ok(width)) => write!(f, "width {width}"),
            Answer::Size(Err(number)) => write!(f, "refused {number}"),
            Answer::Write { width, out } => match width {
                Ok(width) => write!(f, "width {width} {}", Bytes(out)),
                Err(number) => write!(f, "refused {number} {}", Bytes(out)),
            },
            Answer::Read { value, width } => match (value, width) {
                (Ok(value), Ok(width)) => write!(f, "value {value} width {width}"),
                (Err(a), Err(b)) if a == b => write!(f, "refused {a}"),
                // Our value and width are two calls: where they disagree, this is for people to read.
                _ => write!(f, "the value {value:?}, but the width {width:?}"),
            },
            Answer::Sum(sum) => write!(f, "{sum}"),
        }
    }
}
