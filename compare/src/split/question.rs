//! A place in a blob, and what the two sides say stands there.

use crate::noise::quic::fingerprint::split_records;
use crate::ours;
use crate::panics::unless_it_panics;
use crate::script::Bytes;
use crate::sides::Ask;
use std::fmt::{Display, Formatter, Result};

#[derive(PartialEq, Eq, Hash)]
pub(super) struct Question {
    blob: Vec<u8>,
    place: usize,
}

/// "A record and the place after it, the end, or 27". The part is empty at the last two.
#[derive(PartialEq)]
pub(super) struct Answer {
    part: Vec<u8>,
    next: std::result::Result<Option<u64>, u64>,
}

impl Question {
    pub(super) fn new(blob: &[u8], place: usize) -> Self {
        Question {
            blob: blob.to_vec(),
            place,
        }
    }

    /// The place after the record that the original finds here.
    pub(super) fn next_by_rust(&self) -> Option<usize> {
        let next = self.by_rust().next.ok().flatten();
        next.map(|next| next as usize)
    }
}

/// Whether the original panics on a blob.
pub(super) fn panics(blob: &[u8]) -> bool {
    unless_it_panics(|| split_records(blob)).is_none()
}

/// The first record of what the original splits a blob into; `None` where there is no record, and an error where it panics.
fn first_by_rust(blob: &[u8]) -> std::result::Result<Option<&[u8]>, ()> {
    let records = unless_it_panics(|| split_records(blob)).ok_or(())?;
    Ok(records.first().copied())
}

/// The original panics for a later record that is cut as it does for the first. The first is whole where it is found in
/// some front part of the blob.
fn whole_in_front(blob: &[u8]) -> Option<&[u8]> {
    (2..=blob.len()).find_map(|length| first_by_rust(&blob[..length]).ok().flatten())
}

impl Ask for Question {
    type Answer = Answer;

    /// The original takes no place: it splits what stands from there on. A panic for the first record, and a place past the
    /// end, are turned into 27.
    fn by_rust(&self) -> Answer {
        let found = match self.blob.get(self.place..) {
            None => Err(27),
            Some(rest) => match first_by_rust(rest) {
                Ok(first) => Ok(first),
                Err(()) => whole_in_front(rest).map(Some).ok_or(27),
            },
        };
        let after = |part: &[u8]| (self.place + 2 + part.len()) as u64;
        Answer {
            part: found.ok().flatten().unwrap_or_default().to_vec(),
            next: found.map(|first| first.map(after)),
        }
    }

    fn by_ours(&self) -> Answer {
        Answer {
            part: ours::split_records(&self.blob, self.place),
            next: ours::next_record(&self.blob, self.place),
        }
    }
}

impl Display for Question {
    fn fmt(&self, f: &mut Formatter<'_>) -> Result {
        write!(f, "split {} {}", self.place, Bytes(&self.blob))
    }
}

impl Display for Answer {
    fn fmt(&self, f: &mut Formatter<'_>) -> Result {
        match (self.next, &self.part[..]) {
            (Ok(Some(next)), part) => write!(f, "record {} next {next}", Bytes(part)),
            (Ok(None), []) => f.write_str("end"),
            (Err(number), []) => write!(f, "refused {number}"),
            // Our part and place are two calls: where they disagree, this is for people to read.
            (next, part) => write!(f, "{next:?}, but the part {}", Bytes(part)),
        }
    }
}
